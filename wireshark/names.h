/* names.h
 * Names of the protocol's numbers, as Wireshark has them in its tables.
 *
 * SPDX-License-Identifier: GPL-2.0-or-later
 */
#ifndef ZOOKEEPER_NAMES_H
#define ZOOKEEPER_NAMES_H

#include <epan/value_string.h>

extern const value_string op_names[];
extern const value_string error_names[];
extern const value_string kind_names[];
extern const value_string mode_names[];
extern const value_string event_kind_names[];
extern const value_string event_state_names[];
extern const value_string watch_type_names[];
extern const value_string watch_mode_names[];
extern const value_string reason_names[];
extern const value_string verdict_names[];
extern const value_string side_names[];

/* The place of an operation in op_names, or -1. */
int op_row(gint32 op);
int op_rows(void);

/* Whether this is an operation of releases after 3.4; one that is a part alone, or none at all, isn't. */
gboolean op_is_newer(gint32 op);

/* The name of a number, or "?". */
const char *name_of(gint32 number, const value_string *names);

#endif
