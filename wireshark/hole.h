/* hole.h
 * Where the frames of one side begin again after bytes that were not captured. It knows nothing of Wireshark.
 *
 * The rule is that of zkdump_tools/resync.py, in whose words it is written down, and tests/wireshark holds the two against
 * each other.
 *
 * SPDX-License-Identifier: GPL-2.0-or-later
 */
#ifndef ZOOKEEPER_HOLE_H
#define ZOOKEEPER_HOLE_H

#include <stdbool.h>
#include <stddef.h>
#include <stdint.h>

/* Where frames begin again, if they were found; else from where on bytes may still be needed, with more after them. */
struct hole_end {
    bool found;
    size_t place;
};

/* Looks for frames in these bytes of a side (ZK_CLIENT, ZK_SERVER), whose payloads have at most `limit` bytes. */
struct hole_end hole_end(uint32_t side, const uint8_t *bytes, size_t length, uint32_t limit);

/* Whether these can be the first bytes of a frame of this side, by its length and the first of its payload. */
bool frame_is_plausible(uint32_t side, const uint8_t *frame, size_t there, uint32_t limit);

#endif
