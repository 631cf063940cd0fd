/* The pieces of a recording (format ZKR1) that is in memory, for handle.c and fields.c. */
#ifndef PIECES_H
#define PIECES_H
#include "zk.h"

#include <string.h>

enum { FIRST_PIECE = 4, PIECE_HEAD = 5 };

static size_t length_of(const uint8_t *piece) {
    return (size_t)piece[1] << 24 | (size_t)piece[2] << 16 | (size_t)piece[3] << 8 | piece[4];
}

/* Whether these bytes are a recording, no piece of which is cut. */
static bool is_recording(const uint8_t *bytes, size_t size) {
    size_t at = FIRST_PIECE;
    if (size < FIRST_PIECE || memcmp(bytes, "ZKR1", FIRST_PIECE) != 0) return false;
    while (size - at >= PIECE_HEAD) {
        size_t length = length_of(bytes + at);
        if (length > size - at - PIECE_HEAD) return false;
        at += PIECE_HEAD + length;
    }
    return at == size;
}
#endif
