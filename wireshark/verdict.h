/* verdict.h
 * The strict verdict over a connection: that of the proved library, frame by frame.
 *
 * SPDX-License-Identifier: GPL-2.0-or-later
 */
#ifndef ZOOKEEPER_VERDICT_H
#define ZOOKEEPER_VERDICT_H

#include "zk.h"

/* How many requests may wait. More are rare, and a passage allocates for each of them at once. */
enum { VERDICT_WAITING = 1024 };

enum verdict { VERDICT_WELL, VERDICT_REFUSED, VERDICT_NONE, VERDICT_LEFT_OUT, VERDICT_UNSEEN };

/* Reads the conversation of a connection; all zeros at first. It has of each side how many frames and bytes it took. */
struct judge {
    struct zk_through through;
    bool judges;
    uint32_t limit, profile;
    uint64_t frames[2], bytes[2];
};

/* Begins, if there is memory, and `limit` is one that a talk may have. */
void judge_begin(struct judge *judge, uint32_t limit, uint32_t profile);

/* Takes a frame, which is the next of its side, in the order of the conversation. VERDICT_WELL; VERDICT_LEFT_OUT where
 * it is a request whose operation the profile lacks, or the reply to one; VERDICT_REFUSED with the fault, whose frame and
 * offset are the connection's; VERDICT_UNSEEN where it is a reply to a request before a frame that was refused;
 * VERDICT_NONE where it doesn't judge, or can't since room for what waits is missing.
 *
 * After a refusal it goes on with the next frame of either side, as of a connection that is seen late. It judges no
 * more after VERDICT_NONE, and after a refusal where the frame has no end, or the server's comes before the client's
 * first. */
enum verdict judge_take(struct judge *judge, uint32_t side, const uint8_t *frame, size_t length,
                        struct zk_fault *fault);

/* The length of the line of the frame that it has just taken; and the line, into the bytes that there is room for. */
size_t judge_line_length(struct judge *judge, uint32_t side);
bool judge_line(struct judge *judge, uint32_t side, char *out, size_t length);

/* Judges no more; its passage is begun anew by a later one, or its memory given back. */
void judge_end(struct judge *judge);

#endif
