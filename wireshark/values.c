/* values.c
 * What a field's value means: the bits of flags and permissions, and the text of data that is one.
 *
 * SPDX-License-Identifier: GPL-2.0-or-later
 */
#include "zookeeper.h"

#include <epan/strutil.h>

/* The most bytes of a text that its data's own line has. */
enum { MOST_SHOWN = 160 };

/* A bit of a number, and what it is called in the number's own line. */
struct bit {
    enum name name;
    guint32 mask;
    const char *word;
};

static const struct bit permissions[] = {
    {FIELD_PERM_READ, 1, "READ"},     {FIELD_PERM_WRITE, 2, "WRITE"},  {FIELD_PERM_CREATE, 4, "CREATE"},
    {FIELD_PERM_DELETE, 8, "DELETE"}, {FIELD_PERM_ADMIN, 16, "ADMIN"},
};
static const struct bit flags[] = {{FIELD_EPHEMERAL, 1, NULL}, {FIELD_SEQUENTIAL, 2, NULL}};

/* The bits are in the last of a number's four bytes. */
static void show_bits(proto_item *item, tvbuff_t *tvb, gint64 number, int at, const struct bit *bits, size_t count) {
    proto_tree *tree = proto_item_add_subtree(item, ett_bits);
    const char *before = " (";
    for (size_t k = 0; k < count; k++) {
        proto_tree_add_item(tree, hf_field[bits[k].name], tvb, at + 3, 1, ENC_NA);
        if (bits[k].word && (number & bits[k].mask)) {
            proto_item_append_text(item, "%s%s", before, bits[k].word);
            before = ", ";
        }
    }
    if (*before == ',') {
        proto_item_append_text(item, ")");
    }
}

/* Whether these bytes are printable text: of UTF-8, with tabs and line ends. */
static gboolean is_text(const guint8 *bytes, gsize length) {
    const char *at = (const char *)bytes, *end = at + length;
    if (length == 0 || !g_utf8_validate(at, (gssize)length, NULL)) {
        return FALSE;
    }
    for (; at < end; at = g_utf8_next_char(at)) {
        gunichar letter = g_utf8_get_char(at);
        if (!g_unichar_isprint(letter) && letter != '\t' && letter != '\n' && letter != '\r') {
            return FALSE;
        }
    }
    return TRUE;
}

/* Data that is text has it in its own line, and as a field. */
static void show_text(proto_item *item, tvbuff_t *tvb, packet_info *pinfo, int at, gsize length) {
    const guint8 *bytes = tvb_get_ptr(tvb, at, (int)length);
    if (!is_text(bytes, length)) {
        return;
    }
    gsize most = MIN(length, MOST_SHOWN);
    while (most < length && (bytes[most] & 0xC0) == 0x80) {
        most--; /* a letter isn't cut */
    }
    proto_item_set_text(item, "Data: \"%s\"%s", format_text(pinfo->pool, (const void *)bytes, most),
                        most < length ? ".." : "");
    proto_tree *tree = proto_item_add_subtree(item, ett_bits);
    proto_tree_add_item(tree, hf_field[FIELD_DATA_TEXT], tvb, at, (int)length, ENC_UTF_8);
}

void show_value(proto_item *item, tvbuff_t *tvb, packet_info *pinfo, enum name name, const struct zk_field *field,
                int at) {
    if (name == FIELD_DATA) {
        show_text(item, tvb, pinfo, at, field->length);
    } else if (name == FIELD_PERMS) {
        show_bits(item, tvb, field->number, at, permissions, array_length(permissions));
    } else if (name == FIELD_FLAGS && field->number >= 0 && field->number <= 3) {
        show_bits(item, tvb, field->number, at, flags, array_length(flags)); /* later modes are no bits */
    }
}
