/* statistics.c
 * Statistics: -z zookeeper,srt (response times by operation) and -z zookeeper,tree (counts).
 *
 * SPDX-License-Identifier: GPL-2.0-or-later
 */
#include "zookeeper.h"

#include <epan/srt_table.h>
#include <epan/stats_tree.h>
#include <epan/tap.h>

#include "names.h"

/* The row of an operation: those that have no name share the last one. */
static int row_of(gint32 op) {
    int row = op_row(op);
    return row >= 0 ? row : op_rows();
}

static void times_init(struct register_srt *srt _U_, GArray *tables) {
    /* The sixth word would be a filter of the row's number, which is no field. */
    srt_stat_table *table = init_srt_table("ZooKeeper", NULL, tables, op_rows() + 1, "Operation", NULL, NULL);
    for (int row = 0; row < op_rows(); row++) {
        init_srt_table_row(table, row, row == op_row(OP_CONNECT) ? "connect" : op_names[row].strptr);
    }
    init_srt_table_row(table, op_rows(), "others");
}

static tap_packet_status times_packet(void *data, packet_info *pinfo, epan_dissect_t *dissect _U_, const void *of,
                                      tap_flags_t flags _U_) {
    const struct told *told = (const struct told *)of;
    if (!told->call || nstime_cmp(&pinfo->abs_ts, &told->call->when) < 0) {
        return TAP_PACKET_DONT_REDRAW;
    }
    srt_stat_table *table = g_array_index(((srt_data_t *)data)->srt_array, srt_stat_table *, 0);
    add_srt_table_data(table, row_of(told->op), &told->call->when, pinfo);
    return TAP_PACKET_REDRAW;
}

static int messages, requests, replies, events;
static const char all[] = "Messages";

static void counts_init(stats_tree *tree) {
    messages = stats_tree_create_node(tree, all, 0, STAT_DT_INT, TRUE);
    requests = stats_tree_create_pivot(tree, "Requests by operation", messages);
    replies = stats_tree_create_pivot(tree, "Replies by error", messages);
    events = stats_tree_create_pivot(tree, "Events by kind", messages);
}

static void count(stats_tree *tree, int pivot, const struct told *told, gint32 number, const value_string *names,
                  packet_info *pinfo) {
    const char *name = told->is_known ? try_val_to_str((guint32)number, names) : "?";
    stats_tree_tick_pivot(tree, pivot, name ? name : wmem_strdup_printf(pinfo->pool, "%d", number));
}

static tap_packet_status counts_packet(stats_tree *tree, packet_info *pinfo, epan_dissect_t *dissect _U_,
                                       const void *of, tap_flags_t flags _U_) {
    const struct told *told = (const struct told *)of;
    tick_stat_node(tree, all, 0, TRUE);
    if (told->kind == ZK_REQUEST) {
        count(tree, requests, told, told->op, op_names, pinfo);
    } else if (told->kind == ZK_REPLY) {
        count(tree, replies, told, told->err, error_names, pinfo);
    } else if (told->kind == ZK_EVENT) {
        count(tree, events, told, told->event, event_kind_names, pinfo);
    }
    return TAP_PACKET_REDRAW;
}

void statistics_register(void) {
    tap_zookeeper = register_tap("zookeeper");
    register_srt_table(proto_zookeeper, NULL, 1, times_packet, times_init, NULL);
}

void statistics_handoff(void) {
#if WIRESHARK_VERSION_MAJOR == 4 && WIRESHARK_VERSION_MINOR < 3
    stats_tree_register_plugin("zookeeper", "zookeeper", "ZooKeeper/Messages", 0, counts_packet, counts_init, NULL);
#else
    stats_tree_register("zookeeper", "zookeeper", "ZooKeeper" STATS_TREE_MENU_SEPARATOR "Messages", 0, counts_packet,
                        counts_init, NULL);
#endif
}
