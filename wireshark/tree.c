/* tree.c
 * The fields of a payload as a tree: parts of multis, lists, entries of access lists and stats are subtrees.
 *
 * SPDX-License-Identifier: GPL-2.0-or-later
 */
#include "zookeeper.h"

#include <epan/strutil.h>
#include <epan/to_str.h>
#include <string.h>

#include "names.h"

/* A subtree that grows with its fields. */
struct branch {
    proto_tree *tree;
    proto_item *item;
};

/* The place of the newest field. */
struct branches {
    struct branch part, list, element, stat;
    guint32 parts, entries;
    guint16 listed; /* the name of the list */
};

static const struct branch none = {NULL, NULL};

/* The filterable fields of the library's names. */
static const guint8 field_names[] = {
    [ZK_NAME_PATH] = FIELD_PATH, [ZK_NAME_DATA] = FIELD_DATA, [ZK_NAME_ACL] = FIELD_ACL, [ZK_NAME_FLAGS] = FIELD_FLAGS,
    [ZK_NAME_VERSION] = FIELD_VERSION, [ZK_NAME_WATCH] = FIELD_WATCH, [ZK_NAME_PERMS] = FIELD_PERMS,
    [ZK_NAME_SCHEME] = FIELD_SCHEME, [ZK_NAME_ID] = FIELD_ID, [ZK_NAME_TYPE] = FIELD_AUTH_TYPE,
    [ZK_NAME_STATE] = FIELD_EVENT_STATE, [ZK_NAME_AUTH] = FIELD_AUTH, [ZK_NAME_CZXID] = FIELD_CZXID,
    [ZK_NAME_MZXID] = FIELD_MZXID, [ZK_NAME_CTIME] = FIELD_CTIME, [ZK_NAME_MTIME] = FIELD_MTIME,
    [ZK_NAME_CVERSION] = FIELD_CVERSION, [ZK_NAME_AVERSION] = FIELD_AVERSION,
    [ZK_NAME_EPHEMERAL_OWNER] = FIELD_EPHEMERAL_OWNER, [ZK_NAME_DATA_LENGTH] = FIELD_DATA_LENGTH,
    [ZK_NAME_NUM_CHILDREN] = FIELD_NUM_CHILDREN, [ZK_NAME_PZXID] = FIELD_PZXID, [ZK_NAME_CHILDREN] = FIELD_CHILDREN,
    [ZK_NAME_ZXID] = FIELD_RELATIVE_ZXID, [ZK_NAME_DATA_WATCHES] = FIELD_DATA_WATCHES,
    [ZK_NAME_EXIST_WATCHES] = FIELD_EXIST_WATCHES, [ZK_NAME_CHILD_WATCHES] = FIELD_CHILD_WATCHES,
    [ZK_NAME_PROTOCOL_VERSION] = FIELD_PROTOCOL_VERSION, [ZK_NAME_LAST_ZXID_SEEN] = FIELD_LAST_ZXID,
    [ZK_NAME_TIME_OUT] = FIELD_TIMEOUT, [ZK_NAME_SESSION_ID] = FIELD_SESSION, [ZK_NAME_PASSWD] = FIELD_PASSWD,
    [ZK_NAME_READ_ONLY] = FIELD_READ_ONLY, [ZK_NAME_ERR] = FIELD_PART_ERR, [ZK_NAME_TTL] = FIELD_TTL,
    [ZK_NAME_MODE] = FIELD_MODE, [ZK_NAME_COUNT] = FIELD_COUNT, [ZK_NAME_JOINING] = FIELD_JOINING,
    [ZK_NAME_LEAVING] = FIELD_LEAVING, [ZK_NAME_MEMBERS] = FIELD_MEMBERS, [ZK_NAME_CONFIG] = FIELD_CONFIG,
    [ZK_NAME_CODE] = FIELD_CODE,
};

/* Which filterable field this is, in a message of this kind. */
static enum name name_in(const struct branches *in, guint32 kind, const struct zk_field *field) {
    if (in->list.tree) {
        return field->name == ZK_NAME_CHILDREN ? FIELD_CHILD
               : field->name == in->listed     ? FIELD_WATCHED
                                               : (enum name)field_names[field->name];
    }
    if (field->name == ZK_NAME_VERSION && in->stat.tree) {
        return FIELD_STAT_VERSION;
    }
    if (field->name == ZK_NAME_TYPE) { /* the first of auth's fields, and the second of those of watches */
        return kind == ZK_EVENT                ? FIELD_EVENT_KIND
               : field->place == REQUEST_HEAD ? FIELD_AUTH_TYPE
                                              : FIELD_WATCH_TYPE;
    }
    return (enum name)field_names[field->name];
}

const struct zk_field *field_of(const struct zk_field *fields, size_t count, guint16 name) {
    for (size_t k = 0; k < count && fields[k].kind != ZK_KIND_PART; k++) {
        if (fields[k].name == name) {
            return fields + k;
        }
    }
    return NULL;
}

/* The header of a part, or the last one. */
static void add_header(proto_tree *tree, tvbuff_t *tvb, int at) {
    proto_tree_add_item(tree, hf_field[FIELD_PART_OP], tvb, at, 4, ENC_BIG_ENDIAN);
    proto_tree_add_item(tree, hf_field[FIELD_PART_DONE], tvb, at + 4, 1, ENC_BIG_ENDIAN);
    proto_tree_add_item(tree, hf_field[FIELD_PART_HEADER_ERR], tvb, at + 5, 4, ENC_BIG_ENDIAN);
}

/* A part begins. */
static void begin_part(struct branches *in, tvbuff_t *tvb, proto_tree *tree, const struct zk_field *field, int at) {
    in->list = in->element = in->stat = none;
    in->part.tree = proto_tree_add_subtree_format(tree, tvb, at, PART_HEAD, ett_part, &in->part.item, "Part %u",
                                                  ++in->parts);
    if (field->number != OP_FAILED) {
        proto_item_append_text(in->part.item, ": %s", name_of((gint32)field->number, op_names));
    }
    add_header(in->part.tree, tvb, at);
}

/* What a part's own line has of this field. */
static void append_to_part(const struct branches *in, tvbuff_t *tvb, packet_info *pinfo, const struct zk_field *field,
                           int at) {
    if (field->name == ZK_NAME_ERR) {
        proto_item_append_text(in->part.item, ": fails, %s", name_of((gint32)field->number, error_names));
    } else if (field->name == ZK_NAME_PATH && !field->null) {
        const char *path = text_of(pinfo->pool, tvb_get_ptr(tvb, at, (int)field->length), field->length);
        proto_item_append_text(in->part.item, " %s", format_text(pinfo->pool, (const void *)path, strlen(path)));
    }
}

char *text_of(wmem_allocator_t *scope, const guint8 *bytes, gsize length) {
    if (length == 0) {
        return (char *)wmem_strdup(scope, ""); /* of which there may be no bytes */
    }
    if (!memchr(bytes, 0, length)) {
        return (char *)wmem_strndup(scope, (const char *)bytes, length);
    }
    wmem_strbuf_t *text = wmem_strbuf_new(scope, "");
    for (const guint8 *at = bytes; at < bytes + length; at++) {
        if (*at == 0 || *at == '\\') {
            wmem_strbuf_append_printf(text, "\\%02x", *at);
        } else {
            wmem_strbuf_append_c(text, (char)*at);
        }
    }
    return wmem_strbuf_finalize(text);
}

static gboolean is_of_entry(guint16 name) {
    return name == ZK_NAME_PERMS || name == ZK_NAME_SCHEME || name == ZK_NAME_ID;
}

/* The subtree of a field of a list. */
static proto_tree *place_in_list(struct branches *in, tvbuff_t *tvb, const struct zk_field *field, int at) {
    int end = at + (int)field->length;
    proto_item_set_end(in->list.item, tvb, end);
    if (!is_of_entry(field->name)) {
        return in->list.tree;
    }
    if (field->name == ZK_NAME_PERMS) {
        in->element.tree = proto_tree_add_subtree_format(in->list.tree, tvb, at, (int)field->length, ett_acl,
                                                         &in->element.item, "Entry %u", ++in->entries);
    }
    proto_item_set_end(in->element.item, tvb, end);
    return in->element.tree;
}

/* The subtree of a field within its part or message. */
static proto_tree *place_of(struct branches *in, tvbuff_t *tvb, proto_tree *tree, const struct zk_field *field,
                            int at) {
    if (field->name == ZK_NAME_CZXID) {
        in->stat.tree = proto_tree_add_subtree(tree, tvb, at, (int)field->length, ett_stat, &in->stat.item, "Stat");
    }
    if (in->list.tree) {
        return place_in_list(in, tvb, field, at);
    }
    if (in->stat.tree) {
        proto_item_set_end(in->stat.item, tvb, at + (int)field->length);
        return in->stat.tree;
    }
    return tree;
}

/* A text or a blob that has no bytes to show. */
static void add_none(proto_tree *tree, tvbuff_t *tvb, const struct zk_field *field, int hf, int at) {
    int from = at - 4, size = (int)field->length + 4; /* with its length */
    proto_item *item = field->kind == ZK_KIND_TEXT
                           ? proto_tree_add_string(tree, hf, tvb, from, size, "")
                           : proto_tree_add_bytes_with_length(tree, hf, tvb, from, size, (const guint8 *)"", 0);
    proto_item_set_text(item, "%s: (%s)", proto_registrar_get_name(hf),
                        field->null ? "null" : field->length > 0 ? "hidden" : "empty");
}

static proto_item *add_text(proto_tree *tree, tvbuff_t *tvb, int hf, int at, int size) {
    const guint8 *bytes = tvb_get_ptr(tvb, at, size);
    if (!memchr(bytes, 0, (gsize)size)) {
        return proto_tree_add_item(tree, hf, tvb, at, size, ENC_UTF_8);
    }
    char *text = text_of(NULL, bytes, (gsize)size);
    proto_item *item = proto_tree_add_string(tree, hf, tvb, at, size, text);
    wmem_free(NULL, text);
    return item;
}

static proto_item *add_field(proto_tree *tree, tvbuff_t *tvb, const struct zk_field *field, enum name name, int at) {
    int hf = hf_field[name], size = (int)field->length;
    if (field->kind == ZK_KIND_TEXT || field->kind == ZK_KIND_BLOB) {
        gboolean is_secret = name == FIELD_PASSWD || name == FIELD_AUTH;
        if (size == 0 || (is_secret && pref_hide)) {
            add_none(tree, tvb, field, hf, at);
            return NULL;
        }
        return field->kind == ZK_KIND_TEXT ? add_text(tree, tvb, hf, at, size)
                                           : proto_tree_add_item(tree, hf, tvb, at, size, ENC_NA);
    }
    if (name == FIELD_CTIME || name == FIELD_MTIME) {
        /* Milliseconds, which ENC_TIME_MSECS reads without their sign. */
        int rest = (int)(field->number % 1000);
        int part = rest < 0 ? rest + 1000 : rest;
        nstime_t time = NSTIME_INIT_SECS_NSECS((time_t)((field->number - rest) / 1000 - (rest < 0)), part * 1000000);
        return proto_tree_add_time(tree, hf, tvb, at, size, &time);
    }
    return proto_tree_add_item(tree, hf, tvb, at, size, ENC_BIG_ENDIAN);
}

void tree_head(tvbuff_t *tvb, proto_tree *tree, guint32 kind, guint32 length) {
    if (kind == ZK_CONNECT || kind == ZK_CONNECTED || length < 4) {
        return;
    }
    proto_tree_add_item(tree, hf_field[FIELD_XID], tvb, FRAME_HEAD, 4, ENC_BIG_ENDIAN);
    if (kind == ZK_REQUEST && length >= REQUEST_HEAD) {
        proto_tree_add_item(tree, hf_field[FIELD_OP], tvb, FRAME_HEAD + 4, 4, ENC_BIG_ENDIAN);
    } else if (kind != ZK_REQUEST && length >= 12) {
        proto_tree_add_item(tree, hf_field[FIELD_ZXID], tvb, FRAME_HEAD + 4, 8, ENC_BIG_ENDIAN);
        if (length >= REPLY_HEAD) {
            proto_tree_add_item(tree, hf_field[FIELD_ERR], tvb, FRAME_HEAD + 12, 4, ENC_BIG_ENDIAN);
        }
    }
}

void tree_fields(tvbuff_t *tvb, packet_info *pinfo, proto_tree *tree, guint32 kind, const struct zk_field *fields,
                 size_t count) {
    struct branches in = {none, none, none, none, 0, 0, 0};
    for (const struct zk_field *field = fields; field < fields + count; field++) {
        int at = FRAME_HEAD + (int)field->place;
        if (field->kind == ZK_KIND_PART) {
            begin_part(&in, tvb, tree, field, at);
            continue;
        }
        if (field->name >= array_length(field_names)) {
            continue; /* of a later library */
        }
        if (field->kind == ZK_KIND_LIST || (field->name != in.listed && !is_of_entry(field->name))) {
            in.list = none;
        }
        if (in.part.tree) {
            proto_item_set_end(in.part.item, tvb, at + (int)field->length);
            append_to_part(&in, tvb, pinfo, field, at);
        }
        proto_tree *place = place_of(&in, tvb, in.part.tree ? in.part.tree : tree, field, at);
        enum name name = name_in(&in, kind, field);
        proto_item *item = add_field(place, tvb, field, name, at);
        if (item) {
            show_value(item, tvb, pinfo, name, field, at);
        }
        if (field->kind == ZK_KIND_LIST) {
            in.list = (struct branch){proto_item_add_subtree(item, ett_list), item};
            in.listed = field->name;
            in.entries = 0;
        } else if (field->name == ZK_NAME_PZXID) {
            in.stat = none;
        }
    }
}

void tree_last_header(tvbuff_t *tvb, proto_tree *tree, guint32 place) {
    int at = FRAME_HEAD + (int)place;
    add_header(proto_tree_add_subtree(tree, tvb, at, PART_HEAD, ett_part, NULL, "End"), tvb, at);
}
