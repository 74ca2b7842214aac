/*
 * NEGOEX tokens in Wireshark as the proved library reads them: a tree beside that of Wireshark's own dissector, and where the two differ.
 *
 * Copyright (C) 2026 Gurxoobeyd
 * SPDX-License-Identifier: GPL-2.0-or-later
 *
 * No layout stands here. What a token holds, and where each field of it lies, are the answers of crates/host/negoex.h; this file names them, lights their octets
 * and counts. docs/WIRESHARK.md says what is seen.
 */
#define WS_BUILD_DLL
#include <wireshark.h>
#include <epan/packet.h>
#include <epan/expert.h>
#include <epan/proto_data.h>
#include <string.h>
#include "negoex.h"

WS_DLL_PUBLIC_DEF const gchar plugin_version[] = "1.0";
WS_DLL_PUBLIC_DEF const int plugin_want_major = WIRESHARK_VERSION_MAJOR;
WS_DLL_PUBLIC_DEF const int plugin_want_minor = WIRESHARK_VERSION_MINOR;
WS_DLL_PUBLIC void plugin_register(void);

#define KINDS (NEGOEX_ENTRY_REST + 1)
#define DIFFERENT " [NEGOEX: the built-in dissector differs]"

static int protocol = -1;
static dissector_handle_t by_name, behind_all;
static int tree_top = -1, tree_message = -1, tree_list = -1, tree_element = -1, tree_listing = -1, tree_fault = -1;

/* What is shown of a kind of entry, by its number in negoex.h. */
static int hf_entry[KINDS];
static int hf_refused = -1, hf_at = -1, hf_messages = -1, hf_octets = -1, hf_extension = -1, hf_alert = -1, hf_uncovered = -1, hf_listing = -1, hf_line = -1;
static int hf_fault = -1, hf_fault_place = -1, hf_fault_length = -1, hf_fault_value = -1, hf_fault_type = -1;
static expert_field ei_refused = EI_INIT, ei_uncovered = EI_INIT, ei_pad = EI_INIT, ei_cut = EI_INIT, ei_differs = EI_INIT;

static const value_string types[] = {
    {0, "INITIATOR_NEGO"}, {1, "ACCEPTOR_NEGO"}, {2, "INITIATOR_META_DATA"}, {3, "ACCEPTOR_META_DATA"},
    {4, "CHALLENGE"},      {5, "AP_REQUEST"},    {6, "VERIFY"},              {7, "ALERT"},
    {0, NULL}};

static const value_string reasons[] = {
    {1, "longer than 65,535 octets"},
    {2, "fewer than 40 octets for a message"},
    {3, "another signature"},
    {4, "the type is above 7"},
    {5, "the header length is not the one of the type"},
    {6, "the message length is below the header length, or above the octets left"},
    {7, "the sequence number is not the one expected"},
    {8, "another conversation"},
    {10, "the version is not 0"},
    {11, "a vector breaks its rule"},
    {12, "a critical extension"},
    {13, "the checksum header length is not 20, or the checksum scheme is not 1"},
    {0, NULL}};

static const value_string names[] = {
    {NEGOEX_ENTRY_SIGNATURE, "signature"},
    {NEGOEX_ENTRY_TYPE, "type"},
    {NEGOEX_ENTRY_SEQUENCE, "sequence number"},
    {NEGOEX_ENTRY_HEADER_LENGTH, "header length"},
    {NEGOEX_ENTRY_MESSAGE_LENGTH, "message length"},
    {NEGOEX_ENTRY_CONVERSATION, "conversation"},
    {NEGOEX_ENTRY_VERSION, "version"},
    {NEGOEX_ENTRY_SCHEME_VECTOR, "scheme vector"},
    {NEGOEX_ENTRY_EXTENSION_VECTOR, "extension vector"},
    {NEGOEX_ENTRY_EXCHANGE_VECTOR, "exchange vector"},
    {NEGOEX_ENTRY_CHECKSUM_HEADER, "checksum header length"},
    {NEGOEX_ENTRY_CHECKSUM_SCHEME, "checksum scheme"},
    {NEGOEX_ENTRY_CHECKSUM_VECTOR, "checksum vector"},
    {NEGOEX_ENTRY_ALERT_VECTOR, "alert vector"},
    {NEGOEX_ENTRY_EXTENSION_TYPE, "type of an extension"},
    {NEGOEX_ENTRY_EXTENSION_VALUE_VECTOR, "vector of an extension's value"},
    {NEGOEX_ENTRY_ALERT_VALUE_VECTOR, "vector of an alert's value"},
    {NEGOEX_ENTRY_REST, "octets"},
    {0, NULL}};

typedef struct {
    guint32 what, message, number, value;
    int place, length;
} entry_t;

/* What was found of a token. */
typedef struct {
    guint messages, schemes, refused;
    int place;
    gboolean cut;
    const entry_t *entries;
    gsize count;
} found_t;

static guint32 number_at(const guint8 *p)
{
    return p[0] | (guint32)p[1] << 8 | (guint32)p[2] << 16 | (guint32)p[3] << 24;
}

static entry_t entry_at(const guint8 *p)
{
    entry_t e = {number_at(p), number_at(p + 4), number_at(p + 8), number_at(p + 12), (int)number_at(p + 16), (int)number_at(p + 20)};
    return e;
}

/* All entries of an accepted token, in one pass. */
static void read_entries(packet_info *pinfo, const guint8 *token, gsize size, found_t *found)
{
    gint64 count = negoex_entry_count(token, size);
    if (count <= 0)
        return;
    guint8 *octets = (guint8 *)wmem_alloc(pinfo->pool, (gsize)count * NEGOEX_ENTRY_SIZE);
    entry_t *entries = wmem_alloc_array(pinfo->pool, entry_t, count);
    if (negoex_entries(token, size, 0, octets, (gsize)count * NEGOEX_ENTRY_SIZE) != count * NEGOEX_ENTRY_SIZE)
        return;
    for (gint64 k = 0; k < count; k++) {
        entries[k] = entry_at(octets + k * NEGOEX_ENTRY_SIZE);
        found->messages += entries[k].what == NEGOEX_ENTRY_MESSAGE;
        found->schemes += entries[k].what == NEGOEX_ENTRY_SCHEME;
    }
    found->entries = entries;
    found->count = (gsize)count;
}

/* A field, or the octets that a vector points at. */
static proto_item *show(proto_tree *tree, tvbuff_t *tvb, const entry_t *e)
{
    return proto_tree_add_item(tree, hf_entry[e->what], tvb, e->place, e->length, ENC_LITTLE_ENDIAN);
}

/* The offset of a vector as it stands, with what it points at. */
static void show_vector(proto_tree *tree, tvbuff_t *tvb, const entry_t *field, const entry_t *octets)
{
    proto_item *item = proto_tree_add_uint(tree, hf_entry[field->what], tvb, field->place, field->length, field->value);
    if (octets && octets->length)
        proto_item_append_text(item, ", %d octets at %d of the token", octets->length, octets->place);
    else if (octets)
        proto_item_append_text(item, ", empty");
}

static proto_tree *show_list(proto_tree *tree, tvbuff_t *tvb, const entry_t *octets, guint count)
{
    proto_item *item = proto_tree_add_item(tree, hf_entry[octets->what], tvb, octets->place, octets->length, ENC_NA);
    proto_item_append_text(item, ": %u", count);
    return proto_item_add_subtree(item, tree_list);
}

/* An extension or alert: its type, the vector of its value, and the value. */
static void show_element(proto_tree *tree, tvbuff_t *tvb, const entry_t *type, const entry_t *vector, const entry_t *value)
{
    gboolean extension = type->what == NEGOEX_ENTRY_EXTENSION_TYPE;
    proto_item *item = extension
        ? proto_tree_add_int_format(tree, hf_extension, tvb, type->place, type->length + vector->length, (gint32)type->value, "Extension %u: type %d, %d octets", type->number, (gint32)type->value, value->length)
        : proto_tree_add_uint_format(tree, hf_alert, tvb, type->place, type->length + vector->length, type->value, "Alert %u: type %u, %d octets", type->number, type->value, value->length);
    proto_tree *inner = proto_item_add_subtree(item, tree_element);
    show(inner, tvb, type);
    show_vector(inner, tvb, vector, value);
    show(inner, tvb, value);
}

/* The entries of one message; `base` has, by kind, the first of them and how many there are. */
typedef struct {
    const entry_t *first;
    guint count;
} base_t;

static const entry_t *kind_of(const base_t *base, guint32 what, guint k)
{
    return k < base[what].count ? base[what].first + k : NULL;
}

static void base_of(base_t *base, const entry_t *first, const entry_t *last)
{
    memset(base, 0, KINDS * sizeof *base);
    for (const entry_t *e = first; e < last; e++)
        if (e->what < KINDS && !base[e->what].count++)
            base[e->what].first = e;
}

/* The entry behind the last of the message that begins at entry k. */
static gsize message_end(const found_t *found, gsize k)
{
    for (k++; k < found->count && found->entries[k].what != NEGOEX_ENTRY_MESSAGE; k++)
        ;
    return k;
}

static void show_elements(proto_tree *tree, tvbuff_t *tvb, const base_t *base, guint32 list, guint32 type, guint32 vector, guint32 value)
{
    proto_tree *inner = show_list(tree, tvb, base[list].first, base[type].count);
    for (guint k = 0; k < base[type].count; k++)
        show_element(inner, tvb, base[type].first + k, kind_of(base, vector, k), kind_of(base, value, k));
}

/* Which vector's field points at which octets. */
static const struct {
    guint32 field, octets;
} points[] = {
    {NEGOEX_ENTRY_SCHEME_VECTOR, NEGOEX_ENTRY_SCHEMES},
    {NEGOEX_ENTRY_EXTENSION_VECTOR, NEGOEX_ENTRY_EXTENSIONS},
    {NEGOEX_ENTRY_EXCHANGE_VECTOR, NEGOEX_ENTRY_EXCHANGE},
    {NEGOEX_ENTRY_CHECKSUM_VECTOR, NEGOEX_ENTRY_CHECKSUM_VALUE},
    {NEGOEX_ENTRY_ALERT_VECTOR, NEGOEX_ENTRY_ALERTS},
};

static void show_field(proto_tree *tree, packet_info *pinfo, tvbuff_t *tvb, const base_t *base, const entry_t *e)
{
    for (guint k = 0; k < G_N_ELEMENTS(points); k++)
        if (e->what == points[k].field) {
            show_vector(tree, tvb, e, kind_of(base, points[k].octets, 0));
            return;
        }
    proto_item *item = show(tree, tvb, e);
    if (e->what == NEGOEX_ENTRY_PAD && e->value)
        expert_add_info(pinfo, item, &ei_pad);
}

static void show_octets(proto_tree *tree, tvbuff_t *tvb, const base_t *base)
{
    if (base[NEGOEX_ENTRY_SCHEMES].count) {
        proto_tree *list = show_list(tree, tvb, base[NEGOEX_ENTRY_SCHEMES].first, base[NEGOEX_ENTRY_SCHEME].count);
        for (guint k = 0; k < base[NEGOEX_ENTRY_SCHEME].count; k++)
            show(list, tvb, base[NEGOEX_ENTRY_SCHEME].first + k);
    }
    if (base[NEGOEX_ENTRY_EXTENSIONS].count)
        show_elements(tree, tvb, base, NEGOEX_ENTRY_EXTENSIONS, NEGOEX_ENTRY_EXTENSION_TYPE, NEGOEX_ENTRY_EXTENSION_VALUE_VECTOR, NEGOEX_ENTRY_EXTENSION_VALUE);
    if (base[NEGOEX_ENTRY_ALERTS].count)
        show_elements(tree, tvb, base, NEGOEX_ENTRY_ALERTS, NEGOEX_ENTRY_ALERT_TYPE, NEGOEX_ENTRY_ALERT_VALUE_VECTOR, NEGOEX_ENTRY_ALERT_VALUE);
    if (base[NEGOEX_ENTRY_EXCHANGE].count)
        show(tree, tvb, base[NEGOEX_ENTRY_EXCHANGE].first);
    if (base[NEGOEX_ENTRY_CHECKSUM_VALUE].count)
        show(tree, tvb, base[NEGOEX_ENTRY_CHECKSUM_VALUE].first);
}

/* The message whose entries stand from `first` up to `last`. */
static proto_tree *show_message(proto_tree *tree, packet_info *pinfo, tvbuff_t *tvb, const entry_t *first, const entry_t *last)
{
    base_t base[KINDS];
    base_of(base, first, last);
    proto_item *item = proto_tree_add_none_format(tree, hf_entry[NEGOEX_ENTRY_MESSAGE], tvb, first->place, first->length, "Message %u: %s, sequence number %u, %d octets at %d", first->message,
                                                  val_to_str_const(first->value, types, "?"), kind_of(base, NEGOEX_ENTRY_SEQUENCE, 0)->value, first->length, first->place);
    proto_tree *inner = proto_item_add_subtree(item, tree_message);
    /* The header's fields stand in front of what its vectors point at. */
    for (const entry_t *e = first + 1; e < last && e->what < NEGOEX_ENTRY_SCHEMES; e++)
        show_field(inner, pinfo, tvb, base, e);
    show_octets(inner, tvb, base);
    return inner;
}

/* Each stretch of a message that nothing covers, pads aside: those are fields of the header. */
static void show_uncovered(proto_tree *tree, packet_info *pinfo, tvbuff_t *tvb, const guint8 *covered, const entry_t *message)
{
    int end = message->place + message->length;
    for (int from = message->place; from < end; from++) {
        int to = from;
        while (to < end && !covered[to])
            to++;
        if (to == from)
            continue;
        proto_item *item = proto_tree_add_item(tree, hf_uncovered, tvb, from, to - from, ENC_NA);
        expert_add_info_format(pinfo, item, &ei_uncovered, "Nothing points at the %d octets from %d on", to - from, from);
        from = to;
    }
}

static void show_messages(proto_tree *tree, packet_info *pinfo, tvbuff_t *tvb, const guint8 *token, gsize size, const found_t *found)
{
    guint8 *covered = (guint8 *)wmem_alloc0(pinfo->pool, size + 1);
    gsize k, end;
    if (negoex_coverage(token, size, covered, size) < 0)
        return;
    for (k = 0; k < found->count; k++)
        if (found->entries[k].what == NEGOEX_ENTRY_PAD)
            memset(covered + found->entries[k].place, 1, (gsize)found->entries[k].length);
    for (k = 0; k < found->count; k = end) {
        end = message_end(found, k);
        proto_tree *inner = show_message(tree, pinfo, tvb, found->entries + k, found->entries + end);
        show_uncovered(inner, pinfo, tvb, covered, found->entries + k);
    }
}

/* What a line of the listing is of, by its first word. */
static const struct {
    const char *word;
    guint32 what;
} words[] = {
    {"message", NEGOEX_ENTRY_MESSAGE},  {"scheme", NEGOEX_ENTRY_SCHEME},           {"extension", NEGOEX_ENTRY_EXTENSION_TYPE},
    {"exchange", NEGOEX_ENTRY_EXCHANGE}, {"checksum", NEGOEX_ENTRY_CHECKSUM_VALUE}, {"error", NEGOEX_ENTRY_ERROR_CODE},
    {"alert", NEGOEX_ENTRY_ALERT_TYPE},
};

/* Shows a line and lights what it is of: `next` is the message behind the last that a line was of. */
static void show_line(proto_tree *tree, tvbuff_t *tvb, const char *line, const found_t *found, gsize *next, base_t *base)
{
    const entry_t *e = NULL;
    gsize length = strcspn(line, " ");
    for (guint k = 0; k < G_N_ELEMENTS(words); k++)
        if (strlen(words[k].word) == length && !strncmp(line, words[k].word, length)) {
            if (words[k].what == NEGOEX_ENTRY_MESSAGE && *next < found->count) {
                gsize end = message_end(found, *next);
                base_of(base, found->entries + *next, found->entries + end);
                *next = end;
            }
            e = kind_of(base, words[k].what, (guint)g_ascii_strtoull(line + length, NULL, 10));
        }
    proto_item_set_generated(proto_tree_add_string(tree, hf_line, tvb, e ? e->place : 0, e ? e->length : 0, line));
}

/* The listing, line by line. */
static void show_listing(proto_tree *tree, packet_info *pinfo, tvbuff_t *tvb, const guint8 *token, gsize size, const found_t *found)
{
    gint64 lines = negoex_lines(token, size);
    gsize room = 65536, next = 0;
    guint8 *text = (guint8 *)wmem_alloc(pinfo->pool, room);
    base_t base[KINDS];
    memset(base, 0, sizeof base);
    proto_item *item = proto_tree_add_none_format(tree, hf_listing, tvb, 0, (int)size, "Listing: %d lines", (int)lines);
    proto_tree *inner = proto_item_add_subtree(item, tree_listing);
    proto_item_set_generated(item);
    for (gsize first = 0; first < (gsize)lines;) {
        gint64 written = negoex_window(token, size, first, SIZE_MAX, text, room);
        if (written <= 0)
            break;
        for (guint8 *line = text, *end; line < text + written && (end = (guint8 *)memchr(line, '\n', (gsize)(text + written - line))) != NULL; line = end + 1, first++) {
            *end = 0;
            show_line(inner, tvb, (const char *)line, found, &next, base);
        }
    }
}

/* A refusal: the messages before it, and the octets at fault. */
static void show_refusal(proto_tree *tree, packet_info *pinfo, tvbuff_t *tvb, const guint8 *token, gsize size, found_t *found)
{
    guint8 octets[NEGOEX_ENTRY_SIZE];
    const char *reason = val_to_str_const(found->refused, reasons, "refused");
    entry_t e = {NEGOEX_ENTRY_REST, 0, 0, 0, found->place, 0};
    if (negoex_fault(token, size, octets, sizeof octets) == NEGOEX_ENTRY_SIZE)
        e = entry_at(octets);
    if (found->place > 0) {
        read_entries(pinfo, token, (gsize)found->place, found);
        show_messages(tree, pinfo, tvb, token, (gsize)found->place, found);
    }
    const char *name = val_to_str_const(e.what, names, "octets");
    proto_item *item = proto_tree_add_none_format(tree, hf_fault, tvb, e.place, e.length, "At fault: %s, %d octets at %d of the token", name, e.length, e.place);
    expert_add_info_format(pinfo, item, &ei_refused, "Refused %u at=%d: %s (%s, octets %d to %d)", found->refused, found->place, reason, name, e.place, e.place + e.length - 1);
    proto_tree *inner = proto_item_add_subtree(item, tree_fault);
    proto_item_set_generated(proto_tree_add_uint(inner, hf_fault_place, tvb, e.place, e.length, (guint32)e.place));
    proto_item_set_generated(proto_tree_add_uint(inner, hf_fault_length, tvb, e.place, e.length, (guint32)e.length));
    /* An extension's type is signed; offsets and lengths are not. Ids, the signature and the version are no number of four octets. */
    if (e.what == NEGOEX_ENTRY_EXTENSION_TYPE)
        proto_item_set_generated(proto_tree_add_int(inner, hf_fault_type, tvb, e.place, e.length, (gint32)e.value));
    else if (e.what != NEGOEX_ENTRY_REST && e.what != NEGOEX_ENTRY_SIGNATURE && e.what != NEGOEX_ENTRY_CONVERSATION && e.what != NEGOEX_ENTRY_VERSION)
        proto_item_set_generated(proto_tree_add_uint(inner, hf_fault_value, tvb, e.place, e.length, e.value));
}

static proto_item *show_token(tvbuff_t *tvb, packet_info *pinfo, proto_tree *tree, found_t *found)
{
    static const guint8 nothing[1];
    gsize size = tvb_reported_length(tvb);
    proto_item *top = proto_tree_add_item(tree, protocol, tvb, 0, -1, ENC_NA);
    proto_tree *inner = proto_item_add_subtree(top, tree_top);
    if (tvb_captured_length(tvb) < size) {
        found->cut = TRUE;
        proto_item_append_text(top, ": cut by the capture, and not judged");
        expert_add_info_format(pinfo, top, &ei_cut, "The capture has %u of the token's %u octets, so the token is not judged", tvb_captured_length(tvb), (guint)size);
        return top;
    }
    const guint8 *token = size ? tvb_get_ptr(tvb, 0, (gint)size) : nothing;
    gint64 answer = negoex_messages(token, size);
    proto_item_set_generated(proto_tree_add_uint(inner, hf_octets, tvb, 0, 0, (guint32)size));
    if (answer < 0) {
        found->refused = (guint)-answer;
        found->place = (int)negoex_place(token, size);
        proto_item_append_text(top, ": refused %u at=%d: %s", found->refused, found->place, val_to_str_const(found->refused, reasons, "refused"));
        proto_item_set_generated(proto_tree_add_uint(inner, hf_refused, tvb, found->place, 0, found->refused));
        proto_item_set_generated(proto_tree_add_uint(inner, hf_at, tvb, found->place, 0, (guint32)found->place));
        show_refusal(inner, pinfo, tvb, token, size, found);
        return top;
    }
    proto_item_append_text(top, ": %d message%s, %u octets", (int)answer, answer == 1 ? "" : "s", (guint)size);
    proto_item_set_generated(proto_tree_add_uint(inner, hf_messages, tvb, 0, 0, (guint32)answer));
    read_entries(pinfo, token, size, found);
    show_messages(inner, pinfo, tvb, token, size, found);
    show_listing(inner, pinfo, tvb, token, size, found);
    return top;
}

static int dissect(tvbuff_t *tvb, packet_info *pinfo, proto_tree *tree, void *data _U_)
{
    found_t found;
    memset(&found, 0, sizeof found);
    col_set_str(pinfo->cinfo, COL_PROTOCOL, "NEGOEX");
    show_token(tvb, pinfo, tree, &found);
    if (found.refused)
        col_append_fstr(pinfo->cinfo, COL_INFO, " [NEGOEX refused %u at=%d]", found.refused, found.place);
    return (int)tvb_captured_length(tvb);
}

/* ---- tokens in the finished tree of a packet */

/* Fields of other dissectors that are looked at, by name: several may share one. */
enum { THEIRS, TOKENS, RESPONSES, MICS, TYPES, SCHEMES, MALFORMED, ENVELOPES, BLOBS, WATCHED = BLOBS + 4 };
static const char *const watched_name[WATCHED] = {"negoex", "spnego.mechToken", "spnego.responseToken", "spnego.mechListMIC", "negoex.message.type", "negoex.auth_scheme", "_ws.malformed", "gss-api",
                                                  "ldap.credentials", "ldap.serverSaslCreds", "smb2.security_blob", "smb.security_blob"};
static GArray *watched_id[WATCHED];

typedef struct {
    GPtrArray *items[WATCHED];
} seen_t;

static void gather(proto_tree *tree, seen_t *seen)
{
    /* The packet pane asks for no fields by name, so that the whole tree has to be looked through. */
    GPtrArray *all = proto_all_finfos(tree);
    for (int w = 0; w < WATCHED; w++) {
        seen->items[w] = g_ptr_array_new();
        for (guint j = 0; j < all->len; j++)
            for (guint k = 0; k < watched_id[w]->len; k++)
                if (((field_info *)all->pdata[j])->hfinfo->id == g_array_index(watched_id[w], int, k))
                    g_ptr_array_add(seen->items[w], all->pdata[j]);
    }
    g_ptr_array_free(all, TRUE);
}

static gboolean inside(const field_info *f, const field_info *of)
{
    return f->ds_tvb == of->ds_tvb && f->start >= of->start && f->start + f->length <= of->start + of->length;
}

static guint count_inside(const GPtrArray *items, const field_info *of)
{
    guint n = 0;
    for (guint k = 0; k < items->len; k++)
        n += inside((const field_info *)items->pdata[k], of);
    return n;
}

/* Whether octets begin as a NEGOEX message does: neither 2 nor 3 at their first message. */
static gboolean begins(tvbuff_t *tvb, int start, int length)
{
    if (length <= 0)
        return FALSE;
    const guint8 *octets = tvb_get_ptr(tvb, start, length);
    gint64 answer = negoex_messages(octets, (gsize)length);
    return answer != -1 && !((answer == -2 || answer == -3) && negoex_place(octets, (gsize)length) == 0);
}

/* The token of an item; what the capture cut off is counted, so that it is not judged. */
static tvbuff_t *token_of(const field_info *f)
{
    int kept = (int)tvb_captured_length(f->ds_tvb), lost = (int)tvb_reported_length(f->ds_tvb) - kept;
    int whole = f->start + f->length >= kept && lost > 0 ? f->length + lost : f->length;
    return tvb_new_subset_length_caplen(f->ds_tvb, f->start, f->length, whole);
}

/* How many of the schemes the built-in dissector shows at the octets where they are. */
static guint schemes_met(const seen_t *seen, const field_info *of, const found_t *found)
{
    guint n = 0;
    for (gsize k = 0; k < found->count; k++)
        if (found->entries[k].what == NEGOEX_ENTRY_SCHEME)
            for (guint j = 0; j < seen->items[SCHEMES]->len; j++) {
                const field_info *f = (const field_info *)seen->items[SCHEMES]->pdata[j];
                if (inside(f, of) && f->start == of->start + found->entries[k].place && f->length == found->entries[k].length) {
                    n++;
                    break;
                }
            }
    return n;
}

/* The first checksum type that is below zero: the built-in dissector shows it without its sign. */
static const entry_t *first_signed(const found_t *found)
{
    for (gsize k = 0; k < found->count; k++)
        if (found->entries[k].what == NEGOEX_ENTRY_CHECKSUM_TYPE && (gint32)found->entries[k].value < 0)
            return found->entries + k;
    return NULL;
}

static gboolean compare(packet_info *pinfo, proto_item *top, const seen_t *seen, const field_info *theirs, const found_t *found)
{
    guint messages = count_inside(seen->items[TYPES], theirs), schemes = count_inside(seen->items[SCHEMES], theirs);
    gboolean malformed = seen->items[MALFORMED]->len > 0;
    if (found->refused && !malformed)
        expert_add_info_format(pinfo, top, &ei_differs, "The built-in dissector shows this refused token without complaint");
    else if (!found->refused && (malformed || messages != found->messages || schemes != found->schemes))
        expert_add_info_format(pinfo, top, &ei_differs, "The built-in dissector shows %u messages and %u schemes%s, and the token has %u and %u", messages, schemes,
                               malformed ? " of a malformed packet" : "", found->messages, found->schemes);
    else if (!found->refused && schemes_met(seen, theirs, found) != found->schemes)
        expert_add_info_format(pinfo, top, &ei_differs, "The built-in dissector shows schemes at other octets");
    else if (!found->refused && first_signed(found))
        expert_add_info_format(pinfo, top, &ei_differs, "The built-in dissector shows the checksum type %d as %u", (gint32)first_signed(found)->value, first_signed(found)->value);
    else
        return FALSE;
    return TRUE;
}

/* What is said of a packet in the Info column, kept for the passes that have no tree. */
static void keep_words(packet_info *pinfo, const found_t *found, gboolean differs)
{
    const char *words = found->refused ? wmem_strdup_printf(wmem_file_scope(), " [NEGOEX refused %u at=%d]", found->refused, found->place) : differs ? DIFFERENT : NULL;
    if (!words)
        return;
    col_append_str(pinfo->cinfo, COL_INFO, words);
    if (!p_get_proto_data(wmem_file_scope(), pinfo, protocol, 0))
        p_add_proto_data(wmem_file_scope(), pinfo, protocol, 0, (void *)words);
}

static void show_item(packet_info *pinfo, proto_tree *tree, const seen_t *seen, const field_info *f, gboolean theirs)
{
    found_t found;
    memset(&found, 0, sizeof found);
    proto_item *top = show_token(token_of(f), pinfo, tree, &found);
    keep_words(pinfo, &found, theirs && !found.cut && compare(pinfo, top, seen, f, &found));
}

/* The token of an envelope that nobody has taken apart. */
static void show_envelope(packet_info *pinfo, proto_tree *tree, const field_info *f)
{
    if (f->length <= 0 || f->start + f->length > (int)tvb_captured_length(f->ds_tvb))
        return;
    const guint8 *octets = tvb_get_ptr(f->ds_tvb, f->start, f->length);
    gint64 place = negoex_envelope_place(octets, (gsize)f->length), length = negoex_envelope_length(octets, (gsize)f->length);
    if (place < 0 || length < 0 || !begins(f->ds_tvb, f->start + (int)place, (int)length))
        return;
    found_t found;
    memset(&found, 0, sizeof found);
    show_token(tvb_new_subset_length(f->ds_tvb, f->start + (int)place, (int)length), pinfo, tree, &found);
    keep_words(pinfo, &found, FALSE);
}

static void show_tokens(packet_info *pinfo, proto_tree *tree, const seen_t *seen)
{
    guint k;
    for (k = 0; k < seen->items[THEIRS]->len; k++) { /* not what they take for a token: the list's checksum */
        const field_info *f = (const field_info *)seen->items[THEIRS]->pdata[k];
        if (!count_inside(seen->items[MICS], f))
            show_item(pinfo, tree, seen, f, TRUE);
    }
    for (int w = TOKENS; w <= RESPONSES; w++)
        for (k = 0; k < seen->items[w]->len; k++) {
            const field_info *f = (const field_info *)seen->items[w]->pdata[k];
            if (!count_inside(seen->items[THEIRS], f) && begins(f->ds_tvb, f->start, f->length))
                show_item(pinfo, tree, seen, f, FALSE);
        }
    for (int w = ENVELOPES; w < WATCHED; w++) /* and where nobody looked inside, as in a conversation whose beginning the capture lacks */
        for (k = 0; k < seen->items[w]->len; k++) {
            const field_info *f = (const field_info *)seen->items[w]->pdata[k];
            if (!count_inside(seen->items[THEIRS], f) && !count_inside(seen->items[TOKENS], f) && !count_inside(seen->items[RESPONSES], f) && (w == ENVELOPES || !count_inside(seen->items[ENVELOPES], f)))
                show_envelope(pinfo, tree, f);
        }
}

static int look_behind(tvbuff_t *tvb _U_, packet_info *pinfo, proto_tree *tree, void *data _U_)
{
    if (!tree) {
        const char *words = (const char *)p_get_proto_data(wmem_file_scope(), pinfo, protocol, 0);
        if (words)
            col_append_str(pinfo->cinfo, COL_INFO, words);
        return 0;
    }
    seen_t seen;
    gather(tree, &seen);
    show_tokens(pinfo, tree, &seen);
    for (int w = 0; w < WATCHED; w++)
        g_ptr_array_free(seen.items[w], TRUE);
    return 0;
}

/* ---- registration */

#define FIELD(id, name, filter, type, base, strings) {&id, {name, "negoex_proved." filter, type, base, strings, 0x0, NULL, HFILL}}
#define ENTRY(what, name, filter, type, base, strings) FIELD(hf_entry[NEGOEX_ENTRY_##what], name, filter, type, base, strings)

static void register_protocol(void)
{
    static hf_register_info fields[] = {
        FIELD(hf_refused, "Refused", "refused", FT_UINT32, BASE_DEC, VALS(reasons)),
        FIELD(hf_at, "Message at fault at", "refused.at", FT_UINT32, BASE_DEC, NULL),
        FIELD(hf_fault, "At fault", "fault", FT_NONE, BASE_NONE, NULL),
        FIELD(hf_fault_place, "Place in the token", "fault.place", FT_UINT32, BASE_DEC, NULL),
        FIELD(hf_fault_length, "Octets", "fault.length", FT_UINT32, BASE_DEC, NULL),
        FIELD(hf_fault_value, "Number there", "fault.value", FT_UINT32, BASE_DEC, NULL),
        FIELD(hf_fault_type, "Type there", "fault.type", FT_INT32, BASE_DEC, NULL),
        FIELD(hf_messages, "Messages", "messages", FT_UINT32, BASE_DEC, NULL),
        FIELD(hf_octets, "Octets", "octets", FT_UINT32, BASE_DEC, NULL),
        FIELD(hf_extension, "Extension", "extension", FT_INT32, BASE_DEC, NULL),
        FIELD(hf_alert, "Alert", "alert", FT_UINT32, BASE_DEC, NULL),
        FIELD(hf_uncovered, "Nothing points at", "uncovered", FT_BYTES, BASE_NONE, NULL),
        FIELD(hf_listing, "Listing", "listing", FT_NONE, BASE_NONE, NULL),
        FIELD(hf_line, "Line", "line", FT_STRING, BASE_NONE, NULL),
        ENTRY(MESSAGE, "Message", "message", FT_NONE, BASE_NONE, NULL),
        ENTRY(SIGNATURE, "Signature", "signature", FT_BYTES, BASE_NONE, NULL),
        ENTRY(TYPE, "Type", "type", FT_UINT32, BASE_DEC, VALS(types)),
        ENTRY(SEQUENCE, "Sequence number", "sequence", FT_UINT32, BASE_DEC, NULL),
        ENTRY(HEADER_LENGTH, "Header length", "header_length", FT_UINT32, BASE_DEC, NULL),
        ENTRY(MESSAGE_LENGTH, "Message length", "message_length", FT_UINT32, BASE_DEC, NULL),
        ENTRY(CONVERSATION, "Conversation", "conversation", FT_GUID, BASE_NONE, NULL),
        ENTRY(RANDOM, "Random", "random", FT_BYTES, BASE_NONE, NULL),
        ENTRY(VERSION, "Version", "version", FT_UINT64, BASE_DEC, NULL),
        ENTRY(SCHEME_VECTOR, "Scheme vector, offset", "scheme_vector", FT_UINT32, BASE_DEC, NULL),
        ENTRY(EXTENSION_VECTOR, "Extension vector, offset", "extension_vector", FT_UINT32, BASE_DEC, NULL),
        ENTRY(SCHEME, "Scheme", "scheme", FT_GUID, BASE_NONE, NULL),
        ENTRY(EXCHANGE_VECTOR, "Exchange vector, offset", "exchange_vector", FT_UINT32, BASE_DEC, NULL),
        ENTRY(CHECKSUM_HEADER, "Checksum header length", "checksum.header_length", FT_UINT32, BASE_DEC, NULL),
        ENTRY(CHECKSUM_SCHEME, "Checksum scheme", "checksum.scheme", FT_UINT32, BASE_DEC, NULL),
        ENTRY(CHECKSUM_TYPE, "Checksum type", "checksum.type", FT_INT32, BASE_DEC, NULL),
        ENTRY(CHECKSUM_VECTOR, "Checksum vector, offset", "checksum_vector", FT_UINT32, BASE_DEC, NULL),
        ENTRY(ERROR_CODE, "Error code", "error_code", FT_INT32, BASE_DEC, NULL),
        ENTRY(ALERT_VECTOR, "Alert vector, offset", "alert_vector", FT_UINT32, BASE_DEC, NULL),
        ENTRY(PAD, "Pad", "pad", FT_BYTES, BASE_NONE, NULL),
        ENTRY(SCHEMES, "Schemes", "schemes", FT_NONE, BASE_NONE, NULL),
        ENTRY(EXTENSIONS, "Extensions", "extensions", FT_NONE, BASE_NONE, NULL),
        ENTRY(EXTENSION_VALUE, "Value", "extension.value", FT_BYTES, BASE_NONE, NULL),
        ENTRY(EXCHANGE, "Exchange", "exchange", FT_BYTES, BASE_NONE, NULL),
        ENTRY(CHECKSUM_VALUE, "Checksum", "checksum", FT_BYTES, BASE_NONE, NULL),
        ENTRY(ALERTS, "Alerts", "alerts", FT_NONE, BASE_NONE, NULL),
        ENTRY(ALERT_VALUE, "Value", "alert.value", FT_BYTES, BASE_NONE, NULL),
        ENTRY(EXTENSION_TYPE, "Type", "extension.type", FT_INT32, BASE_DEC, NULL),
        ENTRY(EXTENSION_VALUE_VECTOR, "Value vector, offset", "extension.vector", FT_UINT32, BASE_DEC, NULL),
        ENTRY(ALERT_TYPE, "Type", "alert.type", FT_UINT32, BASE_DEC, NULL),
        ENTRY(ALERT_VALUE_VECTOR, "Value vector, offset", "alert.vector", FT_UINT32, BASE_DEC, NULL),
    };
    static int *trees[] = {&tree_top, &tree_message, &tree_list, &tree_element, &tree_listing, &tree_fault};
    /* Of the group Protocol, not Malformed: `_ws.malformed` stays the built-in dissectors' word. */
    static ei_register_info remarks[] = {
        {&ei_refused, {"negoex_proved.error", PI_PROTOCOL, PI_ERROR, "The token is refused", EXPFILL}},
        {&ei_differs, {"negoex_proved.differs", PI_PROTOCOL, PI_WARN, "The built-in dissector differs", EXPFILL}},
        {&ei_cut, {"negoex_proved.cut", PI_UNDECODED, PI_WARN, "The token is cut by the capture", EXPFILL}},
        {&ei_uncovered, {"negoex_proved.nothing_points_at", PI_UNDECODED, PI_NOTE, "Octets that nothing points at", EXPFILL}},
        {&ei_pad, {"negoex_proved.pad_not_zero", PI_PROTOCOL, PI_NOTE, "The pad is not zero; readers pass over it", EXPFILL}},
    };
    for (guint k = 0; k < KINDS; k++)
        hf_entry[k] = -1;
    protocol = proto_register_protocol("NEGOEX (proved)", "NEGOEX-proved", "negoex_proved");
    proto_register_field_array(protocol, fields, array_length(fields));
    proto_register_subtree_array(trees, array_length(trees));
    expert_register_field_array(expert_register_protocol(protocol), remarks, array_length(remarks));
    by_name = register_dissector("negoex_proved", dissect, protocol);
    behind_all = create_dissector_handle(look_behind, protocol);
    register_postdissector(behind_all);
}

static void register_handoff(void)
{
    GArray *wanted = g_array_new(FALSE, FALSE, sizeof(int));
    for (int w = 0; w < WATCHED; w++) {
        watched_id[w] = g_array_new(FALSE, FALSE, sizeof(int));
        for (header_field_info *hf = proto_registrar_get_byname(watched_name[w]); hf; hf = hf->same_name_prev_id == -1 ? NULL : proto_registrar_get_nth((guint)hf->same_name_prev_id)) {
            g_array_append_val(watched_id[w], hf->id);
            g_array_append_val(wanted, hf->id);
        }
    }
    set_postdissector_wanted_hfids(behind_all, wanted);
}

void plugin_register(void)
{
    static proto_plugin plugin;
    plugin.register_protoinfo = register_protocol;
    plugin.register_handoff = register_handoff;
    proto_register_plugin(&plugin);
}
