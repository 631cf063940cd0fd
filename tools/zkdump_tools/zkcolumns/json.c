/* JSON of a message: tools/zkjson.py's plain form is the model, byte for byte (`short`, `pieces`; the names of the
 * fields are those of zkdump_tools/forms.py). Whether a character that isn't ASCII can be printed only Python says, so a text
 * or data that has one goes out as it is, with a patch beside it. */
#include "columns.h"

static const char DIGITS[] = "0123456789abcdef";

/* ---- Values */

static bool is_ascii(const uint8_t *at, size_t length) {
    for (size_t i = 0; i < length; i++)
        if (at[i] >= 0x80) return false;
    return true;
}

static bool is_utf8(const uint8_t *at, size_t length) {
    for (size_t i = 0; i < length;) {
        uint8_t first = at[i++];
        if (first < 0x80) continue;
        size_t more = first >= 0xf0 ? 3 : first >= 0xe0 ? 2 : 1;
        if (first < 0xc2 || first > 0xf4 || length - i < more) return false;
        uint8_t least = first == 0xe0 ? 0xa0 : first == 0xf0 ? 0x90 : 0x80;
        uint8_t most = first == 0xed ? 0x9f : first == 0xf4 ? 0x8f : 0xbf;
        if (at[i] < least || at[i] > most) return false;
        for (size_t j = 1; j < more; j++)
            if ((at[i + j] & 0xc0) != 0x80) return false;
        i += more;
    }
    return true;
}

/* Whether bytes are data that are shown as a text, as far as ASCII says it. */
static bool may_be_printed(const uint8_t *at, size_t length) {
    for (size_t i = 0; i < length; i++)
        if ((at[i] < 0x20 && at[i] != '\t' && at[i] != '\n' && at[i] != '\r') || at[i] == 0x7f) return false;
    return true;
}

/* Bytes of ASCII as a text. */
static void put_ascii(struct bytes *out, const uint8_t *at, size_t length) {
    uint8_t *to = room_for(out, 6 * length + 2);
    *to++ = '"';
    for (size_t i = 0; i < length; i++) {
        uint8_t byte = at[i];
        const char *plain = "\"\\\b\f\n\r\t", *letters = "\"\\bfnrt", *found;
        if (byte >= 0x20 && byte < 0x7f && byte != '"' && byte != '\\') {
            *to++ = byte;
        } else if (byte != 0 && (found = strchr(plain, byte)) != NULL) {
            *to++ = '\\';
            *to++ = (uint8_t)letters[found - plain];
        } else {
            memcpy(to, "\\u00", 4);
            to[4] = (uint8_t)DIGITS[byte >> 4];
            to[5] = (uint8_t)DIGITS[byte & 15];
            to += 6;
        }
    }
    *to++ = '"';
    out->end = (size_t)(to - out->at);
}

static void put_patch(struct bytes *out, struct bytes *patches, const uint8_t *at, size_t length, uint32_t kind) {
    struct patch patch = {out->end, (uint32_t)length, kind};
    put(patches, &patch, sizeof patch);
    put(out, at, length);
}

/* A text; null where its length is negative. */
static void put_string(struct bytes *out, struct bytes *patches, const uint8_t *at, int32_t length, uint32_t kind) {
    if (length < 0) {
        put_text(out, "null");
    } else if (is_ascii(at, (size_t)length)) {
        put_ascii(out, at, (size_t)length);
    } else {
        put_patch(out, patches, at, (size_t)length, kind);
    }
}

static void put_data(struct bytes *out, struct bytes *patches, const uint8_t *at, size_t length, bool secret) {
    if (!secret && may_be_printed(at, length)) {
        if (is_ascii(at, length)) {
            put_ascii(out, at, length);
            return;
        }
        if (is_utf8(at, length)) {
            put_patch(out, patches, at, length, PATCH_DATA);
            return;
        }
    }
    put_text(out, "{\"hex\": \"");
    uint8_t *to = room_for(out, 2 * length);
    for (size_t i = 0; i < length; i++) {
        *to++ = (uint8_t)DIGITS[at[i] >> 4];
        *to++ = (uint8_t)DIGITS[at[i] & 15];
    }
    out->end += 2 * length;
    put_text(out, "\"}");
}

static void put_hexadecimal(struct bytes *out, int64_t number) {
    char text[24];
    int length = snprintf(text, sizeof text, "\"0x%llx\"", (unsigned long long)number);
    put(out, text, (size_t)length);
}

/* The kind of an event and, where it has a name, that under a name of its own. */
static void put_kind(struct bytes *out, int64_t number) {
    const char *name = line_event_name(number);
    put_text(out, ", \"kind\": ");
    put_number(out, number);
    if (*name == 0) return;
    put_text(out, ", \"kindName\": \"");
    put_text(out, name);
    put_text(out, "\"");
}

/* An error, in the same way. */
static void put_err(struct bytes *out, int32_t number) {
    put_text(out, ", \"err\": ");
    put_number(out, number);
    if (put_error(out, ", \"errName\": \"", number)) put_text(out, "\"");
}

/* Whole microseconds as milliseconds, as Python spells the float; `took` where that isn't exact (milliseconds in
 * zkdump_tools/listing.py). */
static void put_milliseconds(struct bytes *out, double microseconds, int64_t took) {
    if (microseconds < 1e15) {
        uint64_t whole = (uint64_t)microseconds, part = whole % 1000;
        char text[8];
        put_number(out, (int64_t)(whole / 1000));
        int length = snprintf(text, sizeof text, ".%03u", (unsigned)part);
        while (length > 2 && text[length - 1] == '0') length--;
        put(out, text, (size_t)length);
        return;
    }
    if (took >= (int64_t)TOO_COARSE) {
        put_number(out, took);
        return;
    }
    double value = took > 0 ? (double)took : microseconds / 1000;
    char text[40];
    int most = 0;
    do snprintf(text, sizeof text, "%.*e", most, value);
    while (strtod(text, NULL) != value && ++most < 17);
    char *exponent = strchr(text, 'e');
    int places = atoi(exponent + 1), fraction = places < most ? most - places : 1;
    if (places < 16) {
        snprintf(text, sizeof text, "%.*f", fraction, value);
        put_text(out, text);
    } else {
        put(out, text, (size_t)(exponent - text));
        snprintf(text, sizeof text, "e+%02d", places);
        put_text(out, text);
    }
}

/* ---- Fields */

/* What is written: where the next field is, and whether a list of texts has a blank after each comma. */
struct walk {
    struct bytes *out, *patches;
    const struct message *message;
    size_t next;
};

static bool is_plain(const struct message *message, const struct zk_field *element) {
    const uint8_t *at = message->payload + element->place;
    for (uint32_t i = 0; i < element->length; i++)
        if (at[i] < 0x20 || at[i] > 0x7e || at[i] == '"' || at[i] == '\\') return false;
    return element->null == 0;
}

int32_t length_of(const struct zk_field *field) { return field->null ? -1 : (int32_t)field->length; }

/* A list of texts. As in the model, one that a short line spells as JSON does has no blank after a comma. */
static void put_texts(struct walk *walk, int64_t count) {
    const struct message *message = walk->message;
    const struct zk_field *elements = message->fields + walk->next;
    bool plain = !message->is_long;
    for (int64_t i = 0; i < count && plain; i++) plain = is_plain(message, elements + i);
    put_text(walk->out, "[");
    for (int64_t i = 0; i < count; i++) {
        if (i > 0) put_text(walk->out, plain ? "," : ", ");
        put_string(walk->out, walk->patches, message->payload + elements[i].place, length_of(elements + i),
                   PATCH_WHOLE_TEXT);
    }
    put_text(walk->out, "]");
    walk->next += (size_t)count;
}

static void put_acl(struct walk *walk, int64_t count) {
    const struct message *message = walk->message;
    put_text(walk->out, "[");
    for (int64_t i = 0; i < count; i++) {
        const struct zk_field *right = message->fields + walk->next;
        put_text(walk->out, i > 0 ? ", {\"perms\": " : "{\"perms\": ");
        put_number(walk->out, right[0].number);
        put_text(walk->out, ", \"scheme\": ");
        put_string(walk->out, walk->patches, message->payload + right[1].place, length_of(right + 1), PATCH_WHOLE_TEXT);
        put_text(walk->out, ", \"id\": ");
        put_string(walk->out, walk->patches, message->payload + right[2].place, length_of(right + 2), PATCH_WHOLE_TEXT);
        put_text(walk->out, "}");
        walk->next += 3;
    }
    put_text(walk->out, "]");
}

/* The name of a field in JSON, after a comma; and of a Stat's first field the beginning of that. */
static const char *key_of(uint16_t name) {
    switch (name) {
    /* The lines from here on are written by dev/names.py. */
    case ZK_NAME_PATH: return ", \"path\": ";
    case ZK_NAME_DATA: return ", \"blob\": ";
    case ZK_NAME_ACL: return ", \"acl\": ";
    case ZK_NAME_FLAGS: return ", \"flags\": ";
    case ZK_NAME_VERSION: case ZK_NAME_PROTOCOL_VERSION: return ", \"version\": ";
    case ZK_NAME_WATCH: return ", \"watch\": ";
    case ZK_NAME_SCHEME: return ", \"scheme\": ";
    case ZK_NAME_TYPE: return ", \"kind\": ";
    case ZK_NAME_STATE: return ", \"state\": ";
    case ZK_NAME_AUTH: return ", \"auth\": ";
    case ZK_NAME_CZXID: return ", \"stat\": {\"czxid\": ";
    case ZK_NAME_MZXID: return ", \"mzxid\": ";
    case ZK_NAME_CTIME: return ", \"ctime\": ";
    case ZK_NAME_MTIME: return ", \"mtime\": ";
    case ZK_NAME_CVERSION: return ", \"cversion\": ";
    case ZK_NAME_AVERSION: return ", \"aversion\": ";
    case ZK_NAME_EPHEMERAL_OWNER: return ", \"ephemeralOwner\": ";
    case ZK_NAME_DATA_LENGTH: return ", \"dataLength\": ";
    case ZK_NAME_NUM_CHILDREN: return ", \"numChildren\": ";
    case ZK_NAME_PZXID: return ", \"pzxid\": ";
    case ZK_NAME_CHILDREN: return ", \"names\": ";
    case ZK_NAME_ZXID: case ZK_NAME_LAST_ZXID_SEEN: return ", \"zxid\": ";
    case ZK_NAME_DATA_WATCHES: return ", \"dataWatches\": ";
    case ZK_NAME_EXIST_WATCHES: return ", \"existWatches\": ";
    case ZK_NAME_CHILD_WATCHES: return ", \"childWatches\": ";
    case ZK_NAME_TIME_OUT: return ", \"timeout\": ";
    case ZK_NAME_SESSION_ID: return ", \"session\": ";
    case ZK_NAME_PASSWD: return ", \"passwd\": ";
    case ZK_NAME_READ_ONLY: return ", \"ro\": ";
    case ZK_NAME_TTL: return ", \"ttl\": ";
    case ZK_NAME_MODE: return ", \"mode\": ";
    case ZK_NAME_COUNT: return ", \"count\": ";
    case ZK_NAME_JOINING: return ", \"joining\": ";
    case ZK_NAME_LEAVING: return ", \"leaving\": ";
    case ZK_NAME_MEMBERS: return ", \"members\": ";
    case ZK_NAME_CONFIG: return ", \"config\": ";
    case ZK_NAME_CODE: return ", \"code\": ";
    /* Up to here. */
    default: stop(STATUS_SYSTEM, "a field without a name");
    }
}

static bool is_hexadecimal(uint16_t name) {
    return name == ZK_NAME_CZXID || name == ZK_NAME_MZXID || name == ZK_NAME_PZXID || name == ZK_NAME_EPHEMERAL_OWNER ||
           name == ZK_NAME_ZXID || name == ZK_NAME_LAST_ZXID_SEEN || name == ZK_NAME_SESSION_ID;
}

/* The next field, with its elements. */
static void put_field(struct walk *walk) {
    const struct message *message = walk->message;
    const struct zk_field *field = message->fields + walk->next++;
    const uint8_t *content = message->payload + field->place;
    struct bytes *out = walk->out;
    if (field->name == ZK_NAME_TYPE && message->view.kind == ZK_EVENT) {
        put_kind(out, field->number);
        return;
    }
    put_text(out, key_of(field->name));
    if (field->null && field->kind != ZK_KIND_TEXT) {
        put_text(out, "null");
    } else if (field->kind == ZK_KIND_TEXT) {
        put_string(out, walk->patches, content, length_of(field), PATCH_TEXT);
    } else if (field->kind == ZK_KIND_BLOB) {
        put_data(out, walk->patches, content, field->length, field->name == ZK_NAME_PASSWD);
    } else if (field->kind == ZK_KIND_LIST) {
        if (field->name == ZK_NAME_ACL) put_acl(walk, field->number);
        else put_texts(walk, field->number);
    } else if (field->kind == ZK_KIND_BOOL) {
        put_text(out, field->number ? "true" : "false");
    } else if (is_hexadecimal(field->name)) {
        put_hexadecimal(out, field->number);
    } else {
        put_number(out, field->number);
    }
    if (field->name == ZK_NAME_PZXID) put_text(out, "}");
}

/* The parts of a multi, or their results; a failed one has its request's path. */
static void put_parts(struct walk *walk) {
    const struct message *message = walk->message;
    const uint8_t *paths = message->paths;
    uint32_t left = message->asked != NULL ? message->asked->count : 0;
    put_text(walk->out, ", \"parts\": [");
    for (bool first = true; walk->next < message->count; first = false) {
        const struct zk_field *part = message->fields + walk->next++;
        int32_t length = -1;
        const uint8_t *path = left > 0 ? next_path(&paths, &length) : NULL;
        put_text(walk->out, first ? "{\"op\": \"" : ", {\"op\": \"");
        put_text(walk->out, part->number == -1 ? "fail" : line_operation_name((int32_t)part->number));
        put_text(walk->out, "\"");
        if (part->number == -1) {
            put_err(walk->out, (int32_t)message->fields[walk->next++].number);
            if (left > 0) {
                put_text(walk->out, ", \"asked\": ");
                put_string(walk->out, walk->patches, path, length, PATCH_WHOLE_TEXT);
            }
        }
        while (walk->next < message->count && message->fields[walk->next].kind != ZK_KIND_PART) put_field(walk);
        put_text(walk->out, "}");
        left -= left > 0;
    }
    put_text(walk->out, "]");
}

/* The name of an operation, of a connect message or of an event. */
static void put_name(struct bytes *out, const struct zk_message *view) {
    if (view->kind == ZK_EVENT) put_text(out, "event");
    else if (view->kind == ZK_CONNECT || view->kind == ZK_CONNECTED) put_text(out, "connect");
    else put_operation(out, view->operation);
}

/* How long a reply took, the number of its request, and the path of that. */
static void put_asked(struct bytes *out, struct bytes *patches, const struct message *message) {
    if (!isnan(message->microseconds)) {
        put_text(out, ", \"ms\": ");
        put_milliseconds(out, message->microseconds, message->took);
    }
    put_text(out, ", \"of\": ");
    put_number(out, (int64_t)message->asked->n);
    if (message->asked->count == 0 || message->asked->operation == MULTI) return;
    const uint8_t *paths = message->paths;
    int32_t length;
    const uint8_t *path = next_path(&paths, &length);
    put_text(out, ", \"asked\": ");
    put_string(out, patches, path, length, PATCH_TEXT);
}

void put_json(struct bytes *out, struct bytes *patches, const char *head, const struct message *message) {
    const struct zk_message *view = &message->view;
    struct walk walk = {out, patches, message, 0};
    bool ordinary = view->kind == ZK_REQUEST || view->kind == ZK_REPLY;
    put_text(out, head);
    put_text(out, ", \"n\": ");
    put_number(out, (int64_t)message->n);
    put_text(out, message->side == ZK_CLIENT ? ", \"side\": \"C\"" : ", \"side\": \"S\"");
    if (ordinary) {
        put_text(out, ", \"xid\": ");
        put_number(out, view->xid);
    }
    put_text(out, ", \"op\": \"");
    put_name(out, view);
    put_text(out, message->by_number ? "\", \"decoded\": false" : "\"");
    if (view->kind == ZK_REPLY || view->kind == ZK_EVENT) {
        put_text(out, ", \"zxid\": ");
        put_hexadecimal(out, view->zxid);
    }
    if (view->kind == ZK_REPLY && view->err != 0) put_err(out, view->err);
    else if (ordinary && view->operation == MULTI && !message->by_number) put_parts(&walk);
    bool has_ro = message->count > 0 && message->fields[message->count - 1].name == ZK_NAME_READ_ONLY;
    while (walk.next < message->count) put_field(&walk);
    if ((view->kind == ZK_CONNECT || view->kind == ZK_CONNECTED) && !has_ro) put_text(out, ", \"ro\": null");
    if (*message->at != 0) {
        put_text(out, ", \"at\": ");
        put_text(out, message->at);
    }
    if (message->asked != NULL) put_asked(out, patches, message);
    put_text(out, "}\n");
}
