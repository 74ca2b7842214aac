/*
 * One end of a conversation, or a mechanism alone, that lives as long as its standard input: each line is answered before the
 * next is read.
 *
 *   live end E LIST          end E, `i` or `a`, of MIT's SPNEGO with NEGOEX inside; it lists the letters of LIST (ends.h)
 *   live mechanism E LETTER  a mechanism of mech.c at end E, for a NEGOEX that is not MIT's
 *
 * OCTETS are hexadecimal digits, or `-` for none. To an end a line is the envelope that it gets, OCTETS. It answers with the
 * turn's line, and behind it `OCTETS SCHEME`: the envelope that it sends, and the letter of the mechanism that it has taken, or `-`.
 * To a mechanism a line is one of these calls:
 *
 *   step OCTETS                     takes the peer's token: `goes-on OCTETS`, `done OCTETS` or `error -`, with its next one
 *   sign USAGE OCTETS               the checksum over OCTETS by the mechanism's key: `TYPE OCTETS`, or `no key`
 *   check USAGE TYPE VALUE OCTETS   the same of the peer's, with its key for that: `right`, `wrong` or `no key`
 *   mic OCTETS                      the mechanism's MIC of OCTETS: `OCTETS`
 *   check-mic MIC OCTETS            the same of the peer's: `right` or `wrong`
 *
 * A checksum is RFC 3961's, made by MIT's library: of the type that the key's encryption type asks for. The status is 2 where
 * nothing can be asked, and 0 otherwise.
 */
#include <stdio.h>
#include <stdlib.h>
#include <string.h>
#include <krb5/krb5.h>
#include "ends.h"

static int digit(char one)
{
    const char *digits = "0123456789ABCDEF", *found = one == '\0' ? NULL : strchr(digits, one);
    if (found == NULL)
        fail("octets are pairs of hexadecimal digits in upper case", "");
    return (int)(found - digits);
}

/* The octets of a word, in room of their own. */
static gss_buffer_desc octets_of(const char *word)
{
    gss_buffer_desc made = { 0, malloc(strlen(word) / 2 + 1) };
    unsigned char *next = made.value;
    if (next == NULL)
        fail("no memory", "");
    if (strcmp(word, "-") != 0)
        for (; *word != '\0'; word += 2)
            *next++ = (unsigned char)(16 * digit(word[0]) + digit(word[1]));
    made.length = (size_t)(next - (unsigned char *)made.value);
    return made;
}

static void print_octets(const void *octets, size_t length)
{
    const unsigned char *at = octets;
    if (length == 0)
        putchar('-');
    for (; length > 0; length--)
        printf("%02X", *at++);
}

/* The next line, without its line feed, or NULL at the end. */
static char *next_line(void)
{
    static char *line;
    static size_t room;
    ssize_t length = getline(&line, &room, stdin);
    if (length <= 0)
        return NULL;
    line[strcspn(line, "\n")] = '\0';
    return line;
}

static char *word_of(char *line)
{
    char *word = strtok(line, " ");
    if (word == NULL)
        fail("a word is missing in a line", "");
    return word;
}

static int live_end(char side, const char *list)
{
    struct end end = open_end(side, list);
    char *line;
    while ((line = next_line()) != NULL) {
        gss_buffer_desc in = octets_of(line), out = { 0, NULL };
        OM_uint32 minor;
        take_turn(&end, in.length == 0 ? GSS_C_NO_BUFFER : &in, &out);
        print_octets(out.value, out.length);
        printf(" %c\n", end.scheme);
        fflush(stdout);
        gss_release_buffer(&minor, &out);
        free(in.value);
    }
    return 0;
}

/* Takes the peer's token, and prints what the mechanism says. */
static void step(char side, gss_OID mech, gss_ctx_id_t *context)
{
    gss_buffer_desc in = octets_of(word_of(NULL)), out = { 0, NULL };
    OM_uint32 minor, major;
    if (side == 'i')
        major = gss_init_sec_context(&minor, GSS_C_NO_CREDENTIAL, context, target_name(), mech, GSS_C_MUTUAL_FLAG, 0,
                                     GSS_C_NO_CHANNEL_BINDINGS, in.length == 0 ? GSS_C_NO_BUFFER : &in, NULL, &out, NULL, NULL);
    else
        major = gss_accept_sec_context(&minor, context, GSS_C_NO_CREDENTIAL, &in, GSS_C_NO_CHANNEL_BINDINGS, NULL, NULL, &out,
                                       NULL, NULL, NULL);
    printf("%s ", GSS_ERROR(major) ? "error" : major & GSS_S_CONTINUE_NEEDED ? "goes-on" : "done");
    print_octets(out.value, out.length);
    gss_release_buffer(&minor, &out);
    free(in.value);
}

/* The mechanism's key: its octets and, in four octets, little endian, its encryption type. NULL where it has none yet. */
static gss_buffer_set_t key_of(gss_ctx_id_t context, gss_OID which)
{
    gss_buffer_set_t parts = GSS_C_NO_BUFFER_SET;
    OM_uint32 minor;
    if (context == GSS_C_NO_CONTEXT || gss_inquire_sec_context_by_oid(&minor, context, which, &parts) != GSS_S_COMPLETE)
        return NULL;
    if (parts->count != 2 || parts->elements[1].length != 4)
        fail("a key that is no key and encryption type", "");
    return parts;
}

static krb5_keyblock keyblock(gss_buffer_set_t parts)
{
    const unsigned char *type = parts->elements[1].value;
    krb5_keyblock key = { 0, type[0] | type[1] << 8 | type[2] << 16 | (krb5_enctype)type[3] << 24,
                          (unsigned)parts->elements[0].length, parts->elements[0].value };
    return key;
}

static void sign(krb5_context library, gss_buffer_set_t parts, krb5_keyusage usage)
{
    gss_buffer_desc octets = octets_of(word_of(NULL));
    krb5_data signed_octets = { 0, (unsigned)octets.length, octets.value };
    krb5_keyblock key = keyblock(parts);
    krb5_checksum made;
    if (krb5_c_make_checksum(library, 0, &key, usage, &signed_octets, &made) != 0)
        fail("MIT's library makes no checksum", "");
    printf("%d ", (int)made.checksum_type);
    print_octets(made.contents, made.length);
    krb5_free_checksum_contents(library, &made);
    free(octets.value);
}

static void check(krb5_context library, gss_buffer_set_t parts, krb5_keyusage usage)
{
    int type = atoi(word_of(NULL));
    gss_buffer_desc value = octets_of(word_of(NULL)), octets = octets_of(word_of(NULL));
    krb5_data signed_octets = { 0, (unsigned)octets.length, octets.value };
    krb5_checksum given = { 0, type, (unsigned)value.length, value.value };
    krb5_keyblock key = keyblock(parts);
    krb5_boolean valid = 0;
    krb5_error_code refused = krb5_c_verify_checksum(library, &key, usage, &signed_octets, &given, &valid);
    printf("%s", refused == 0 && valid ? "right" : "wrong");
    free(value.value);
    free(octets.value);
}

/* `sign` or `check`, with the key that the mechanism keeps for it. */
static void with_key(krb5_context library, gss_ctx_id_t context, int signing)
{
    krb5_keyusage usage = (krb5_keyusage)atoi(word_of(NULL));
    gss_buffer_set_t key = key_of(context, signing ? GSS_C_INQ_NEGOEX_KEY : GSS_C_INQ_NEGOEX_VERIFY_KEY);
    OM_uint32 minor;
    if (key == NULL)
        printf("no key");
    else if (signing)
        sign(library, key, usage);
    else
        check(library, key, usage);
    gss_release_buffer_set(&minor, &key);
}

static void mic(gss_ctx_id_t context)
{
    gss_buffer_desc message = octets_of(word_of(NULL)), made = { 0, NULL };
    OM_uint32 minor;
    if (gss_get_mic(&minor, context, GSS_C_QOP_DEFAULT, &message, &made) != GSS_S_COMPLETE)
        fail("the mechanism makes no MIC", "");
    print_octets(made.value, made.length);
    gss_release_buffer(&minor, &made);
    free(message.value);
}

static void check_mic(gss_ctx_id_t context)
{
    gss_buffer_desc given = octets_of(word_of(NULL)), message = octets_of(word_of(NULL));
    OM_uint32 minor;
    printf("%s", gss_verify_mic(&minor, context, &message, &given, NULL) == GSS_S_COMPLETE ? "right" : "wrong");
    free(given.value);
    free(message.value);
}

static int live_mechanism(char side, char letter)
{
    gss_ctx_id_t context = GSS_C_NO_CONTEXT;
    krb5_context library;
    char *line;
    if (krb5_init_context(&library) != 0)
        fail("MIT's library gives no context", "");
    while ((line = next_line()) != NULL) {
        const char *call = word_of(line);
        if (strcmp(call, "step") == 0)
            step(side, mechanism_of(letter), &context);
        else if (strcmp(call, "sign") == 0 || strcmp(call, "check") == 0)
            with_key(library, context, call[0] == 's');
        else if (strcmp(call, "mic") == 0)
            mic(context);
        else if (strcmp(call, "check-mic") == 0)
            check_mic(context);
        else
            fail("no such call: ", call);
        putchar('\n');
        fflush(stdout);
    }
    return 0;
}

int main(int count, char **words)
{
    if (count == 4 && (strcmp(words[2], "i") == 0 || strcmp(words[2], "a") == 0)) {
        if (strcmp(words[1], "end") == 0)
            return live_end(words[2][0], words[3]);
        if (strcmp(words[1], "mechanism") == 0 && strlen(words[3]) == 1)
            return live_mechanism(words[2][0], words[3][0]);
    }
    fail("usage: live end i|a LIST | live mechanism i|a LETTER", "");
    return 2;
}
