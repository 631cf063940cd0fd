/* sides.c
 * Which end of a connection is the server: the one that TCP's SYN or zookeeper.tcp.port names, or else the one that what
 * is said fits.
 *
 * SPDX-License-Identifier: GPL-2.0-or-later
 */
#include "zookeeper.h"

#include <epan/conversation.h>
#include <epan/prefs.h>

#include "hole.h"

enum { NOBODY = 2 };

const struct tcp_analysis *tcp_of(packet_info *pinfo) {
    return (const struct tcp_analysis *)conversation_get_proto_data(find_or_create_conversation(pinfo), proto_tcp);
}

/* The server's port, by the SYN or by zookeeper.tcp.port; 0: neither says which of the two it is. */
static guint32 server_port(packet_info *pinfo) {
    const struct tcp_analysis *tcp = tcp_of(pinfo);
    if (tcp && tcp->server_port != 0) {
        return tcp->server_port;
    }
    const range_t *servers = prefs_get_range_value("zookeeper", "tcp.port");
    gboolean to_server = value_is_in_range(servers, pinfo->destport);
    return to_server == value_is_in_range(servers, pinfo->srcport) ? 0 : to_server ? pinfo->destport : pinfo->srcport;
}

/* Whether a packet goes to the server, as far as ports say it. Where that isn't known, it is the port that ZooKeeper was
 * found by, which may be the client's where a user names that in Decode As. */
static gboolean is_to_server(const packet_info *pinfo, guint32 known) {
    guint32 port = known ? known : pinfo->match_uint;
    return port == pinfo->destport || (port != pinfo->srcport && pinfo->destport < pinfo->srcport);
}

static void set_server(struct connection *connection, const packet_info *pinfo, gboolean to_server) {
    copy_address_wmem(wmem_file_scope(), &connection->server, to_server ? &pinfo->dst : &pinfo->src);
    connection->port = to_server ? pinfo->destport : pinfo->srcport;
}

void begin_sides(struct connection *connection, packet_info *pinfo) {
    guint32 port = server_port(pinfo);
    set_server(connection, pinfo, is_to_server(pinfo, port));
    connection->sureness = port != 0 ? KNOWN : GUESSED;
}

guint32 side_of(const struct connection *connection, const packet_info *pinfo) {
    return pinfo->destport == connection->port && addresses_equal(&pinfo->dst, &connection->server) ? ZK_CLIENT
                                                                                                 : ZK_SERVER;
}

gboolean is_connect(guint32 side, const guint8 *bytes, guint32 there) {
    if (there < FRAME_HEAD + 4) {
        return FALSE;
    }
    gint32 length = int_at(bytes);
    const guint8 *payload = bytes + FRAME_HEAD;
    if (length < 4 || (guint32)length > there - FRAME_HEAD || int_at(payload) != 0) {
        return FALSE;
    }
    struct zk_payload judged = side == ZK_CLIENT ? zk_judge_first(payload, (size_t)length)
                                                 : zk_judge_connected(payload, (size_t)length);
    return judged.status == ZK_WELL;
}

/* Whose frame may begin here, of which the front is there. */
static guint32 may_be_of(const guint8 *bytes, guint32 there) {
    gboolean client = frame_is_plausible(ZK_CLIENT, bytes, there, pref_limit);
    gboolean server = frame_is_plausible(ZK_SERVER, bytes, there, pref_limit);
    return client == server ? NOBODY : client ? ZK_CLIENT : ZK_SERVER;
}

struct speaker {
    guint32 side;
    enum sureness sureness;
};

/* Who says these bytes: whose connect message they are, or whose frames are found in them first. */
static struct speaker speaker_of(const guint8 *bytes, guint32 there) {
    for (guint32 side = ZK_CLIENT; side <= ZK_SERVER; side++) {
        if (is_connect(side, bytes, there)) {
            return (struct speaker){side, KNOWN};
        }
    }
    struct hole_end client = hole_end(ZK_CLIENT, bytes, there, pref_limit);
    struct hole_end server = hole_end(ZK_SERVER, bytes, there, pref_limit);
    if (!client.found && !server.found) {
        return (struct speaker){may_be_of(bytes, there), GUESSED};
    }
    gboolean is_client = client.found && (!server.found || client.place < server.place);
    gsize place = is_client ? client.place : server.place;
    return (struct speaker){is_client ? ZK_CLIENT : ZK_SERVER, place > 0 ? WITHIN : FROM_FIRST};
}

void learn_server(struct connection *connection, packet_info *pinfo, const guint8 *bytes, guint32 there) {
    if (connection->sureness == KNOWN || PINFO_FD_VISITED(pinfo)) {
        return;
    }
    struct speaker speaker = speaker_of(bytes, there);
    if (speaker.side == NOBODY || speaker.sureness < connection->sureness) {
        return;
    }
    connection->sureness = speaker.sureness;
    if (speaker.side != side_of(connection, pinfo)) {
        struct way client = connection->way[ZK_CLIENT];
        connection->way[ZK_CLIENT] = connection->way[ZK_SERVER];
        connection->way[ZK_SERVER] = client;
        set_server(connection, pinfo, speaker.side == ZK_CLIENT);
    }
}
