/* MIT's two ends, as ends.h has them. */
#include <stdio.h>
#include <stdlib.h>
#include <string.h>
#include "ends.h"

static unsigned char spnego_elements[] = { 0x2B, 0x06, 0x01, 0x05, 0x05, 0x02 };
static gss_OID_desc spnego = { sizeof spnego_elements, spnego_elements };

void fail(const char *what, const char *which)
{
    fprintf(stderr, "capture: %s%s\n", what, which);
    exit(2);
}

gss_OID mechanism_of(char letter)
{
    static unsigned char arc[] = { 0x2B, 0x06, 0x01, 0x04, 0x01, 0x81, 0xFD, 0x59, 0x01, 0 };
    static gss_OID_desc mech = { sizeof arc, arc };
    char text[2] = { letter, '\0' };
    if (letter < 'A' || letter > 'F')
        fail("a mechanism is a letter from A to F, and not: ", text);
    arc[sizeof arc - 1] = (unsigned char)(letter - 'A' + 1);
    return &mech;
}

static char letter_of(gss_OID mech)
{
    for (char letter = 'A'; mech != GSS_C_NO_OID && letter <= 'F'; letter++) {
        gss_OID one = mechanism_of(letter);
        if (one->length == mech->length && memcmp(one->elements, mech->elements, one->length) == 0)
            return letter;
    }
    return '-';
}

/* The mechanisms that the letters of `list` name. */
static gss_OID_set mechanisms(const char *list)
{
    gss_OID_set set;
    OM_uint32 minor;
    if (gss_create_empty_oid_set(&minor, &set) != GSS_S_COMPLETE)
        fail("no set of mechanisms was made", "");
    for (; *list != '\0'; list++)
        if (gss_add_oid_set_member(&minor, mechanism_of(*list), &set) != GSS_S_COMPLETE)
            fail("no set of mechanisms was made", "");
    return set;
}

static gss_cred_id_t credential(const char *list, int usage)
{
    gss_OID_set_desc wanted = { 1, &spnego };
    gss_OID_set own = mechanisms(list);
    gss_cred_id_t made;
    OM_uint32 minor;
    if (gss_acquire_cred(&minor, GSS_C_NO_NAME, GSS_C_INDEFINITE, &wanted, usage, &made, NULL, NULL) != GSS_S_COMPLETE)
        fail("MIT's library gives no credential: is GSS_MECH_CONFIG set?", "");
    if (gss_set_neg_mechs(&minor, made, own) != GSS_S_COMPLETE)
        fail("MIT's library doesn't take the list ", list);
    gss_release_oid_set(&minor, &own);
    return made;
}

gss_name_t target_name(void)
{
    gss_buffer_desc service = { 12, "host@example" };
    gss_name_t target;
    OM_uint32 minor;
    if (gss_import_name(&minor, &service, GSS_C_NT_HOSTBASED_SERVICE, &target) != GSS_S_COMPLETE)
        fail("MIT's library takes no name", "");
    return target;
}

struct end open_end(char side, const char *list)
{
    int initiator = side == 'i';
    struct end made = { side, initiator ? 0 : 1, credential(list, initiator ? GSS_C_INITIATE : GSS_C_ACCEPT),
                        GSS_C_NO_CONTEXT, initiator ? target_name() : GSS_C_NO_NAME, '-' };
    return made;
}

static void report(const struct end *end, OM_uint32 major, OM_uint32 minor)
{
    OM_uint32 ignored, more = 0;
    gss_buffer_desc text = { 0, NULL };
    const char *state = GSS_ERROR(major) ? "error" : major & GSS_S_CONTINUE_NEEDED ? "goes-on" : "done";
    if (minor != 0)
        gss_display_status(&ignored, minor, GSS_C_MECH_CODE, &spnego, &more, &text);
    printf("%c %d routine=%u %s minor=%u %.*s\n", end->side, end->turn, (unsigned)GSS_ROUTINE_ERROR(major) >> 16, state,
           (unsigned)minor, (int)text.length, text.value == NULL ? "" : (char *)text.value);
    gss_release_buffer(&ignored, &text);
}

OM_uint32 take_turn(struct end *end, gss_buffer_t in, gss_buffer_t out)
{
    gss_OID taken = GSS_C_NO_OID;
    OM_uint32 minor, major;
    if (end->side == 'i')
        major = gss_init_sec_context(&minor, end->own, &end->context, end->target, &spnego, GSS_C_MUTUAL_FLAG | GSS_C_INTEG_FLAG,
                                     0, GSS_C_NO_CHANNEL_BINDINGS, in, &taken, out, NULL, NULL);
    else
        major = gss_accept_sec_context(&minor, &end->context, end->own, in, GSS_C_NO_CHANNEL_BINDINGS, NULL, &taken, out, NULL,
                                       NULL, NULL);
    report(end, major, minor);
    end->scheme = letter_of(taken);
    end->turn += 2;
    return major;
}
