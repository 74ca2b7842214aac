/*
 * A GSS-API mechanism whose tokens are fixed octets, as a plugin for MIT's library. It authenticates nobody: it is there so
 * that MIT's NEGOEX has schemes to negotiate.
 *
 * One object holds six mechanisms: 1.3.6.1.4.1.32473.1.K, where 32473 is the number kept for examples, and K from 1 is the
 * place of the scheme in `schemes`. The environment says how they behave:
 *
 *   CAPTURE_HOPS   tokens of the mechanism in all, from 1 (2 where it is unset)
 *   CAPTURE_META   octets of metadata that each end sends for a scheme (0, none)
 *   CAPTURE_ETYPE  encryption type of the key: 17, 18 or 23 (17)
 *   CAPTURE_EARLY  the ends, as `i`, `a` or `ia`, that have the key before the mechanism is done (none)
 *   CAPTURE_MARK   the mechanisms, as letters from A, that fail when this process gets the peer's metadata for them (none)
 *   CAPTURE_FAIL   those whose first context in this process fails (none); a second one does not
 *   CAPTURE_MIC    1 where the mechanism says at the acceptor too that it has MICs (0)
 */
#include <stdint.h>
#include <stdio.h>
#include <stdlib.h>
#include <string.h>
#include <gssapi/gssapi.h>
#include <gssapi/gssapi_ext.h>

#define ARC_LENGTH 9
#define SCHEMES 6

/* 1.3.6.1.4.1.32473.1, to which a mechanism adds its own arc of one octet. */
static const unsigned char arc[ARC_LENGTH] = { 0x2B, 0x06, 0x01, 0x04, 0x01, 0x81, 0xFD, 0x59, 0x01 };

/* A to E; F is what a reader finds for A one octet before it, behind a zero. */
static const unsigned char schemes[SCHEMES][16] = {
    { 0x33, 0x22, 0x11, 0x00, 0x55, 0x44, 0x77, 0x66, 0x88, 0x99, 0xAA, 0xBB, 0xCC, 0xDD, 0xEE, 0xFF },
    { 0x5C, 0x33, 0x53, 0x0D, 0xEA, 0xF9, 0x0D, 0x4D, 0xB2, 0xEC, 0x4A, 0xE3, 0x78, 0x6E, 0xC3, 0x08 },
    { 0xB1, 0x65, 0xD0, 0x0C, 0x17, 0x2E, 0x93, 0x45, 0x8F, 0x60, 0x12, 0xFE, 0x01, 0x80, 0x7F, 0xC1 },
    { 0xFF, 0xFF, 0xFF, 0xFF, 0xFF, 0xFF, 0xFF, 0xFF, 0xFF, 0xFF, 0xFF, 0xFF, 0xFF, 0xFF, 0xFF, 0xFF },
    { 0x00, 0x00, 0x00, 0x00, 0x00, 0x00, 0x00, 0x00, 0x00, 0x00, 0x00, 0x00, 0x00, 0x00, 0x00, 0x00 },
    { 0x00, 0x33, 0x22, 0x11, 0x00, 0x55, 0x44, 0x77, 0x66, 0x88, 0x99, 0xAA, 0xBB, 0xCC, 0xDD, 0xEE },
};

static unsigned char arcs[SCHEMES][ARC_LENGTH + 1];
static gss_OID_desc mechs[SCHEMES];

struct context {
    int scheme;
    int initiator;
    int next;        /* the number, from 0, of the mechanism's next token */
    int open;        /* tokens are still to come */
};

/* The one credential and the one name that there are: only their addresses count. */
static int credential, name;

__attribute__((constructor)) static void fill_mechs(void)
{
    for (int k = 0; k < SCHEMES; k++) {
        memcpy(arcs[k], arc, ARC_LENGTH);
        arcs[k][ARC_LENGTH] = (unsigned char)(k + 1);
        mechs[k].length = ARC_LENGTH + 1;
        mechs[k].elements = arcs[k];
    }
}

static int setting(const char *variable, int otherwise)
{
    const char *text = getenv(variable);
    return text == NULL ? otherwise : atoi(text);
}

/* Whether the letter of the scheme is among those of the variable. */
static int named(const char *variable, int scheme)
{
    const char *letters = getenv(variable);
    return letters != NULL && scheme >= 0 && strchr(letters, 'A' + scheme) != NULL;
}

static int scheme_of(const void *octets, size_t length)
{
    for (int k = 0; k < SCHEMES; k++)
        if (length == ARC_LENGTH + 1 && memcmp(octets, arcs[k], length) == 0)
            return k;
    return -1;
}

static struct context *open_context(int scheme, int initiator)
{
    static int opened[SCHEMES];
    struct context *made = named("CAPTURE_FAIL", scheme) && opened[scheme]++ == 0 ? NULL : calloc(1, sizeof *made);
    if (made != NULL) {
        made->scheme = scheme;
        made->initiator = initiator;
        made->open = 1;
    }
    return made;
}

/* Token K is the letter T and K in two digits; token 0 stands in RFC 2743's frame, which names the mechanism. */
static OM_uint32 emit(struct context *context, gss_buffer_t out)
{
    unsigned char *octets = malloc(32);
    size_t length = 0;
    if (octets == NULL)
        return GSS_S_FAILURE;
    if (context->next == 0) {
        octets[length++] = 0x60;
        octets[length++] = 2 + ARC_LENGTH + 1 + 3;
        octets[length++] = 0x06;
        octets[length++] = ARC_LENGTH + 1;
        memcpy(octets + length, arcs[context->scheme], ARC_LENGTH + 1);
        length += ARC_LENGTH + 1;
    }
    octets[length++] = 'T';
    octets[length++] = (unsigned char)('0' + context->next / 10 % 10);
    octets[length++] = (unsigned char)('0' + context->next % 10);
    out->value = octets;
    out->length = length;
    context->next++;
    return GSS_S_COMPLETE;
}

/* Takes the peer's token, if there is one, and answers with the next, if one is left. */
static OM_uint32 step(struct context *context, int took, gss_buffer_t out)
{
    int hops = setting("CAPTURE_HOPS", 2);
    out->length = 0;
    out->value = NULL;
    if (took)
        context->next++;
    if (context->next < hops && emit(context, out) != GSS_S_COMPLETE)
        return GSS_S_FAILURE;
    context->open = context->next < hops;
    return context->open ? GSS_S_CONTINUE_NEEDED : GSS_S_COMPLETE;
}

OM_uint32 gss_init_sec_context(OM_uint32 *minor, gss_cred_id_t cred, gss_ctx_id_t *context, gss_name_t target, gss_OID mech,
                               OM_uint32 flags, OM_uint32 lifetime, gss_channel_bindings_t bindings, gss_buffer_t in,
                               gss_OID *actual, gss_buffer_t out, OM_uint32 *given, OM_uint32 *left)
{
    struct context *mine = (struct context *)*context;
    int scheme = mech == NULL ? -1 : scheme_of(mech->elements, mech->length);
    (void)cred; (void)target; (void)lifetime; (void)bindings;
    *minor = 0;
    if (mine == NULL) {
        if (scheme < 0)
            return GSS_S_BAD_MECH;
        mine = open_context(scheme, 1);
        if (mine == NULL)
            return GSS_S_FAILURE;
        *context = (gss_ctx_id_t)mine;
    }
    if (actual != NULL)
        *actual = &mechs[mine->scheme];
    if (given != NULL)
        *given = flags;
    if (left != NULL)
        *left = GSS_C_INDEFINITE;
    return step(mine, in != NULL && in->length > 0, out);
}

/* The scheme whose frame the mechanism's first token has, or -1. */
static int framed(gss_buffer_t in)
{
    const unsigned char *octets = in->value;
    if (in->length < 4 || octets[0] != 0x60 || octets[2] != 0x06 || in->length < 4 + (size_t)octets[3])
        return -1;
    return scheme_of(octets + 4, octets[3]);
}

OM_uint32 gss_accept_sec_context(OM_uint32 *minor, gss_ctx_id_t *context, gss_cred_id_t cred, gss_buffer_t in,
                                 gss_channel_bindings_t bindings, gss_name_t *source, gss_OID *mech, gss_buffer_t out,
                                 OM_uint32 *given, OM_uint32 *left, gss_cred_id_t *delegated)
{
    struct context *mine = (struct context *)*context;
    (void)cred; (void)bindings;
    *minor = 0;
    if (mine == NULL) {
        int scheme = framed(in);
        if (scheme < 0)
            return GSS_S_DEFECTIVE_TOKEN;
        mine = open_context(scheme, 0);
        if (mine == NULL)
            return GSS_S_FAILURE;
        *context = (gss_ctx_id_t)mine;
    }
    if (source != NULL)
        *source = GSS_C_NO_NAME;
    if (mech != NULL)
        *mech = &mechs[mine->scheme];
    if (given != NULL)
        *given = setting("CAPTURE_MIC", 0) ? GSS_C_INTEG_FLAG : 0;
    if (left != NULL)
        *left = GSS_C_INDEFINITE;
    if (delegated != NULL)
        *delegated = GSS_C_NO_CREDENTIAL;
    return step(mine, 1, out);
}

OM_uint32 gss_delete_sec_context(OM_uint32 *minor, gss_ctx_id_t *context, gss_buffer_t out)
{
    *minor = 0;
    if (out != NULL) {
        out->length = 0;
        out->value = NULL;
    }
    free(*context);
    *context = GSS_C_NO_CONTEXT;
    return GSS_S_COMPLETE;
}

OM_uint32 gss_acquire_cred(OM_uint32 *minor, gss_name_t desired, OM_uint32 lifetime, gss_OID_set wanted, gss_cred_usage_t usage,
                           gss_cred_id_t *cred, gss_OID_set *actual, OM_uint32 *left)
{
    (void)desired; (void)lifetime; (void)wanted; (void)usage;
    *minor = 0;
    *cred = (gss_cred_id_t)&credential;
    if (actual != NULL)
        *actual = GSS_C_NO_OID_SET;
    if (left != NULL)
        *left = GSS_C_INDEFINITE;
    return GSS_S_COMPLETE;
}

OM_uint32 gss_release_cred(OM_uint32 *minor, gss_cred_id_t *cred)
{
    *minor = 0;
    *cred = GSS_C_NO_CREDENTIAL;
    return GSS_S_COMPLETE;
}

OM_uint32 gss_import_name(OM_uint32 *minor, gss_buffer_t text, gss_OID type, gss_name_t *imported)
{
    (void)text; (void)type;
    *minor = 0;
    *imported = (gss_name_t)&name;
    return GSS_S_COMPLETE;
}

OM_uint32 gss_release_name(OM_uint32 *minor, gss_name_t *released)
{
    *minor = 0;
    *released = GSS_C_NO_NAME;
    return GSS_S_COMPLETE;
}

OM_uint32 gss_display_status(OM_uint32 *minor, OM_uint32 value, int type, gss_OID mech, OM_uint32 *more, gss_buffer_t text)
{
    char words[48];
    (void)type; (void)mech;
    *minor = 0;
    *more = 0;
    snprintf(words, sizeof words, "capture mechanism %u", (unsigned)value);
    text->value = strdup(words);
    text->length = text->value == NULL ? 0 : strlen(words);
    return text->value == NULL ? GSS_S_FAILURE : GSS_S_COMPLETE;
}

/* The MIC of a message by an end: the letters MIC, the end and the message. */
static int is_mic(int initiator, const unsigned char *octets, size_t length, gss_buffer_t message)
{
    return length == 4 + message->length && memcmp(octets, initiator ? "MICi" : "MICa", 4) == 0
        && memcmp(octets + 4, message->value, message->length) == 0;
}

OM_uint32 gss_get_mic(OM_uint32 *minor, gss_ctx_id_t context, gss_qop_t quality, gss_buffer_t message, gss_buffer_t mic)
{
    (void)quality;
    *minor = 0;
    mic->length = 4 + message->length;
    mic->value = malloc(mic->length);
    if (mic->value == NULL)
        return GSS_S_FAILURE;
    memcpy(mic->value, ((struct context *)context)->initiator ? "MICi" : "MICa", 4);
    memcpy((char *)mic->value + 4, message->value, message->length);
    return GSS_S_COMPLETE;
}

OM_uint32 gss_verify_mic(OM_uint32 *minor, gss_ctx_id_t context, gss_buffer_t message, gss_buffer_t mic, gss_qop_t *quality)
{
    *minor = 0;
    if (quality != NULL)
        *quality = GSS_C_QOP_DEFAULT;
    return is_mic(!((struct context *)context)->initiator, mic->value, mic->length, message) ? GSS_S_COMPLETE : GSS_S_BAD_SIG;
}

OM_uint32 gssspi_query_mechanism_info(OM_uint32 *minor, gss_const_OID mech, unsigned char scheme[16])
{
    int k = scheme_of(mech->elements, mech->length);
    *minor = 0;
    if (k < 0)
        return GSS_S_BAD_MECH;
    memcpy(scheme, schemes[k], 16);
    return GSS_S_COMPLETE;
}

OM_uint32 gssspi_query_meta_data(OM_uint32 *minor, gss_const_OID mech, gss_cred_id_t cred, gss_ctx_id_t *context,
                                 const gss_name_t target, OM_uint32 flags, gss_buffer_t out)
{
    int length = setting("CAPTURE_META", 0);
    (void)cred; (void)context; (void)target; (void)flags;
    *minor = 0;
    out->length = 0;
    out->value = NULL;
    if (length > 0) {
        out->value = malloc((size_t)length);
        if (out->value == NULL)
            return GSS_S_FAILURE;
        memset(out->value, 'a' + scheme_of(mech->elements, mech->length), (size_t)length);
        out->length = (size_t)length;
    }
    return GSS_S_COMPLETE;
}

OM_uint32 gssspi_exchange_meta_data(OM_uint32 *minor, gss_const_OID mech, gss_cred_id_t cred, gss_ctx_id_t *context,
                                    const gss_name_t target, OM_uint32 flags, gss_const_buffer_t in)
{
    (void)cred; (void)context; (void)target; (void)flags; (void)in;
    *minor = 0;
    return named("CAPTURE_MARK", scheme_of(mech->elements, mech->length)) ? GSS_S_FAILURE : GSS_S_COMPLETE;
}

static int same(gss_const_OID left, gss_const_OID right)
{
    return left->length == right->length && memcmp(left->elements, right->elements, left->length) == 0;
}

static int has_key(const struct context *context)
{
    const char *early = getenv("CAPTURE_EARLY");
    return !context->open || (early != NULL && strchr(early, context->initiator ? 'i' : 'a') != NULL);
}

/* The key of both ends: octets 1, 2, 3 .., as many as the encryption type takes. */
OM_uint32 gss_inquire_sec_context_by_oid(OM_uint32 *minor, const gss_ctx_id_t context, const gss_OID object,
                                         gss_buffer_set_t *out)
{
    unsigned char key[32], type[4] = { 0, 0, 0, 0 };
    int etype = setting("CAPTURE_ETYPE", 17);
    gss_buffer_desc part = { etype == 18 ? 32 : 16, key };
    OM_uint32 answer;
    *minor = 0;
    if (!same(object, GSS_C_INQ_NEGOEX_KEY) && !same(object, GSS_C_INQ_NEGOEX_VERIFY_KEY))
        return GSS_S_UNAVAILABLE;
    if (!has_key((const struct context *)context))
        return GSS_S_UNAVAILABLE;
    for (size_t k = 0; k < sizeof key; k++)
        key[k] = (unsigned char)(k + 1);
    type[0] = (unsigned char)etype;
    answer = gss_add_buffer_set_member(minor, &part, out);
    if (answer != GSS_S_COMPLETE)
        return answer;
    part.length = sizeof type;
    part.value = type;
    return gss_add_buffer_set_member(minor, &part, out);
}
