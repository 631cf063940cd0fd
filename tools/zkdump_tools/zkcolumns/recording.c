/* Recordings of both formats, and files of times, as zkdump_tools/zkr.py reads them (docs/FORMATS.md, section 12). */
#include "columns.h"

/* A time from 8 and 12 more digits on is left to zkdump_tools/listing.py (COARSE there). */
enum { SOURCE_BLOCK = 1 << 18, COARSE_DIGITS = 13 };

static void open_source(struct source *source, const char *path) {
    source->file = fopen(path, "rb");
    if (source->file == NULL) stop(STATUS_NOT_READ, path);
    setvbuf(source->file, NULL, _IONBF, 0);
    source->block = malloc(SOURCE_BLOCK);
    if (source->block == NULL) stop(STATUS_SYSTEM, "out of memory");
    source->at = source->block;
    source->left = 0;
}

static void rewind_source(struct source *source) {
    rewind(source->file);
    source->left = 0;
}

/* Has at least `wanted` bytes in one place, which are few, unless fewer are left. */
static size_t fill(struct source *source, size_t wanted) {
    if (source->left >= wanted) return source->left;
    memmove(source->block, source->at, source->left);
    source->at = source->block;
    while (source->left < wanted) {
        size_t got = fread(source->block + source->left, 1, SOURCE_BLOCK - source->left, source->file);
        if (got == 0 && ferror(source->file)) stop(STATUS_SYSTEM, "read failed");
        if (got == 0) break;
        source->left += got;
    }
    return source->left;
}

static void use(struct source *source, size_t length) {
    source->at += length;
    source->left -= length;
}

static uint32_t number_at(const uint8_t *at) {
    return (uint32_t)at[0] << 24 | (uint32_t)at[1] << 16 | (uint32_t)at[2] << 8 | at[3];
}

/* The lines from here on are written by dev/names.py. */
static bool is_profile(uint32_t number) {
    return number == 34 || number == 35 || number == 37;
}
/* Up to here. */

/* Passes over a number of the head, and returns it; it has to be in this range. */
static uint32_t head_number(struct recording *recording, uint32_t least, uint32_t most) {
    if (fill(&recording->bytes, 4) < 4) stop(STATUS_NOT_READ, "the head is damaged");
    uint32_t number = number_at(recording->bytes.at);
    if (number < least || number > most) stop(STATUS_NOT_READ, "the head is damaged");
    use(&recording->bytes, 4);
    recording->offset += 4;
    return number;
}

static void read_head(struct recording *recording) {
    struct source *bytes = &recording->bytes;
    if (fill(bytes, 4) < 4 || memcmp(bytes->at, "ZKR", 3) != 0 || (bytes->at[3] != '1' && bytes->at[3] != '2'))
        stop(STATUS_NOT_READ, "the head is damaged");
    recording->is_zkr2 = bytes->at[3] == '2';
    use(bytes, 4);
    recording->offset = 4;
    if (!recording->is_zkr2) return;
    head_number(recording, 64, LARGEST_FRAME);
    head_number(recording, 64, LARGEST_FRAME);
    head_number(recording, 1, MOST_WAITING);
    if (!is_profile(head_number(recording, 0, UINT32_MAX))) stop(STATUS_NOT_READ, "the head is damaged");
}

static bool damaged(struct recording *recording, size_t at, const char *reason) {
    recording->offset += at;
    recording->damage = reason;
    return false;
}

/* The head of the next piece, before its bytes; false at the end and at a damage. */
static bool piece_head(struct recording *recording) {
    struct source *bytes = &recording->bytes;
    size_t size = recording->is_zkr2 ? 13 : 5, got = fill(bytes, size);
    const uint8_t *at = bytes->at;
    if (got == 0) return false;
    if (at[0] != 'C' && at[0] != 'S') return damaged(recording, 0, "BadSide");
    if (recording->is_zkr2 && got >= 9 && at[1] & 0x80) return damaged(recording, 1, "BadTime");
    size_t place = recording->is_zkr2 && got >= 9 ? 9 : 1;
    if (got < size) return damaged(recording, place, "Short");
    uint32_t length = number_at(at + place);
    if (length < 1 || length > LARGEST_PIECE) return damaged(recording, place, "BadSize");
    recording->side = at[0] == 'C' ? ZK_CLIENT : ZK_SERVER;
    recording->left = recording->size = length;
    if (recording->is_zkr2 && !recording->has_times) {
        int64_t time = (int64_t)((uint64_t)number_at(at + 1) << 32 | number_at(at + 5));
        recording->time = time;
        recording->moment = time == 0 ? (double)NAN : (double)time;
        snprintf(recording->spelled, sizeof recording->spelled, "%lld", (long long)time);
    }
    use(bytes, size);
    recording->offset += size;
    return true;
}

/* Digits, `most` at most, and where they end. */
static const char *digits(const char *at, size_t most) {
    size_t count = 0;
    while (count < most && at[count] >= '0' && at[count] <= '9') count++;
    return at + count;
}

/* The next time, as it is spelled; false at the end. A line feed, a carriage return and both together end a line. */
static bool next_time(struct source *times, char *spelled) {
    size_t got = fill(times, LONGEST_TIME + 1), length = 0;
    if (got == 0) return false;
    while (length < got && length < LONGEST_TIME && times->at[length] != '\n' && times->at[length] != '\r') length++;
    if (length == LONGEST_TIME) stop(STATUS_NOT_READ, "a line is not a time");
    memcpy(spelled, times->at, length);
    spelled[length] = 0;
    const char *whole = digits(spelled, 19), *end = whole;
    if (*whole == '.') end = digits(whole + 1, 9);
    if (whole == spelled || end != spelled + length || (*whole == '.' && end == whole + 1) ||
        (*spelled == '0' && whole > spelled + 1))
        stop(STATUS_NOT_READ, "a line is not a time");
    if (whole - spelled > COARSE_DIGITS || (whole - spelled == COARSE_DIGITS && *spelled >= '8'))
        stop(STATUS_NOT_READ, "a double has not each microsecond of a time");
    if (length < got) length += times->at[length] == '\r' && length + 1 < got && times->at[length + 1] == '\n' ? 2 : 1;
    use(times, length);
    return true;
}

/* The number that a time spells. A quotient of two numbers that are exact is rounded once, as strtod rounds. */
static double moment_of(const char *spelled) {
    static const double tens[] = {1, 1e1, 1e2, 1e3, 1e4, 1e5, 1e6, 1e7, 1e8, 1e9};
    uint64_t number = 0;
    size_t at = 0, point = 0;
    for (; spelled[at] != 0 && number < (uint64_t)1 << 49; at++) {
        if (spelled[at] == '.') point = at;
        else number = number * 10 + (uint64_t)(spelled[at] - '0');
    }
    if (spelled[at] != 0) return strtod(spelled, NULL);
    return (double)number / tens[point == 0 ? 0 : at - 1 - point];
}

/* Leaves out the rest of the piece; whether a byte of it was there. */
static bool skip_piece(struct recording *recording) {
    bool any = false;
    size_t length = LARGEST_PIECE;
    while (piece_bytes(recording, &length) != NULL) {
        any = true;
        length = LARGEST_PIECE;
    }
    return any;
}

void open_recording(struct recording *recording, const char *path, const char *times) {
    open_source(&recording->bytes, path);
    recording->moment = (double)NAN;
    recording->has_times = times != NULL;
    read_head(recording);
    if (times == NULL) return;
    open_source(&recording->times, times);
    uint64_t count = 0, pieces = 0;
    while (next_time(&recording->times, recording->spelled)) count++;
    while (piece_head(recording) && skip_piece(recording)) pieces++;
    if (count != pieces) stop(STATUS_NOT_READ, "there is not one time for each piece");
    recording->damage = NULL;
    rewind_source(&recording->times);
    rewind_source(&recording->bytes);
    read_head(recording);
}

bool next_piece(struct recording *recording) {
    if (recording->damage != NULL || !piece_head(recording)) return false;
    if (!recording->has_times) return true;
    /* A piece of which no byte is there has no time. */
    if (next_time(&recording->times, recording->spelled)) recording->moment = moment_of(recording->spelled);
    return true;
}

const uint8_t *piece_bytes(struct recording *recording, size_t *length) {
    struct source *bytes = &recording->bytes;
    if (recording->left == 0 || recording->damage != NULL) return NULL;
    size_t got = fill(bytes, 1);
    if (got == 0) {
        damaged(recording, 0, "Short");
        return NULL;
    }
    if (got > recording->left) got = recording->left;
    if (got > *length) got = *length;
    const uint8_t *at = bytes->at;
    *length = got;
    use(bytes, got);
    recording->left -= got;
    if (recording->left == 0) recording->offset += recording->size;
    return at;
}
