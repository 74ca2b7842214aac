/*
 * Runs MIT's SPNEGO with NEGOEX inside, over the mechanisms of mech.c.
 *
 *   drive converse FOLDER OWN PEER            runs both ends in one process: the initiator lists OWN, the acceptor PEER
 *   drive offer TOKEN OWN NEXT                hands TOKEN to an acceptor that lists OWN, as its first token
 *   drive answer TOKEN OWN FIRST REPLY NEXT   hands TOKEN to an initiator that lists OWN, as the reply to its first token
 *
 * TOKEN, FIRST, REPLY and NEXT are files of NEGOEX tokens. NEXT is what the end sends then; there is no such file where it
 * sends nothing. FIRST is the initiator's first token, and REPLY is what it was handed: TOKEN made a reply, which `turn_round`
 * does. Lists are letters: A to F for the mechanisms 1 to 6. `converse` writes turn NN of end i or a as FOLDER/NN-E.spnego, and
 * the NEGOEX token in it, if there is one, as FOLDER/NN-E.negoex.
 *
 * Each turn prints its line (ends.h). The status is 0 where none was refused (for `converse`: where both ends are done), 1 where
 * one was, and 2 where nothing could be asked.
 */
#include <stdio.h>
#include <stdlib.h>
#include <string.h>
#include <krb5/krb5.h>
#include "ends.h"

#define LIMIT 200000

/* The DER tags of a SPNEGO token; the last three are those of numbered elements. */
enum { OCTET_STRING = 0x04, OBJECT_IDENTIFIER = 0x06, SEQUENCE = 0x30, FRAME = 0x60, ELEMENT_0 = 0xA0, ELEMENT_1, ELEMENT_2 };

static unsigned char negoex_elements[] = { 0x2B, 0x06, 0x01, 0x04, 0x01, 0x82, 0x37, 0x02, 0x02, 0x1E };
static unsigned char spnego_elements[] = { 0x2B, 0x06, 0x01, 0x05, 0x05, 0x02 };

static void save(const char *path, const void *octets, size_t length)
{
    FILE *file = fopen(path, "wb");
    if (file == NULL || fwrite(octets, 1, length, file) != length || fclose(file) != 0)
        fail("cannot write ", path);
}

static size_t load(const char *path, unsigned char *octets, size_t room)
{
    FILE *file = fopen(path, "rb");
    size_t length;
    if (file == NULL)
        fail("cannot open ", path);
    length = fread(octets, 1, room, file);
    if (ferror(file) || length == room)
        fail("cannot read, or too long: ", path);
    fclose(file);
    return length;
}

/* A SPNEGO token is laid out from the end of this towards its front: an element's length stands before its content. */
static unsigned char room[LIMIT + 100];
static unsigned char *const room_end = room + sizeof room;

static unsigned char *put_before(unsigned char *start, const void *octets, size_t length)
{
    return memcpy(start - length, octets, length);
}

/* Makes the octets from `start` to `end` an element's content, by a tag and a length before them. */
static unsigned char *element_of(unsigned char tag, unsigned char *start, const unsigned char *end)
{
    size_t length = (size_t)(end - start);
    if (length < 128) {
        *--start = (unsigned char)length;
    } else {
        int octets = 0;
        for (; length > 0; length >>= 8, octets++)
            *--start = (unsigned char)length;
        *--start = (unsigned char)(0x80 + octets);
    }
    *--start = tag;
    return start;
}

/* Element 2 of a NegTokenInit and of a NegTokenResp, which is the last of both: the mechanism's token. */
static unsigned char *token_element(const unsigned char *token, size_t length)
{
    unsigned char *start = put_before(room_end, token, length);
    return element_of(ELEMENT_2, element_of(OCTET_STRING, start, room_end), room_end);
}

static unsigned char *negoex_before(unsigned char *end)
{
    return element_of(OBJECT_IDENTIFIER, put_before(end, negoex_elements, sizeof negoex_elements), end);
}

static gss_buffer_desc laid_out(unsigned char *start)
{
    gss_buffer_desc made = { (size_t)(room_end - start), start };
    return made;
}

/* A NegTokenInit in its GSS-API frame, with NEGOEX as its one mechanism and `token` as the mechanism's token. */
static gss_buffer_desc wrap_first(const unsigned char *token, size_t length)
{
    unsigned char *list = token_element(token, length), *inner, *start;
    start = element_of(ELEMENT_0, element_of(SEQUENCE, negoex_before(list), list), list);
    inner = element_of(ELEMENT_0, element_of(SEQUENCE, start, room_end), room_end);
    start = element_of(OBJECT_IDENTIFIER, put_before(inner, spnego_elements, sizeof spnego_elements), inner);
    return laid_out(element_of(FRAME, start, room_end));
}

/* A NegTokenResp of state 1 (not done yet) that names NEGOEX, with `token` as its token. */
static gss_buffer_desc wrap_reply(const unsigned char *token, size_t length)
{
    static const unsigned char state[] = { ELEMENT_0, 0x03, 0x0A, 0x01, 0x01 };
    unsigned char *name = token_element(token, length);
    unsigned char *start = put_before(element_of(ELEMENT_1, negoex_before(name), name), state, sizeof state);
    return laid_out(element_of(ELEMENT_1, element_of(SEQUENCE, start, room_end), room_end));
}

struct span { const unsigned char *at; size_t length; };

/* Takes the first element off `rest`; answers its tag, and its content in `inside`; 0 where there is none. */
static int take_element(struct span *rest, struct span *inside)
{
    size_t length, header = 2;
    int tag;
    if (rest->length < 2)
        return 0;
    tag = rest->at[0];
    length = rest->at[1];
    if (length >= 128) {
        size_t octets = length - 128;
        if (octets > 4 || rest->length < 2 + octets)
            return 0;
        for (length = 0; octets > 0; octets--)
            length = length * 256 + rest->at[header++];
    }
    if (length > rest->length - header)
        return 0;
    inside->at = rest->at + header;
    inside->length = length;
    rest->at += header + length;
    rest->length -= header + length;
    return tag;
}

/* The token in element 2 of a NegTokenInit or a NegTokenResp; its length is 0 where there is none. */
static struct span unwrap(gss_buffer_t spnego_token)
{
    struct span rest = { spnego_token->value, spnego_token->length }, none = { NULL, 0 }, inside = none;
    int tag = take_element(&rest, &inside);
    if (tag == FRAME) {
        rest = inside;
        if (take_element(&rest, &inside) != OBJECT_IDENTIFIER)
            return none;
        tag = take_element(&rest, &inside);
    }
    rest = inside;
    if ((tag != ELEMENT_0 && tag != ELEMENT_1) || take_element(&rest, &inside) != SEQUENCE)
        return none;
    rest = inside;
    while ((tag = take_element(&rest, &inside)) != 0)
        if (tag == ELEMENT_2) {
            rest = inside;
            return take_element(&rest, &inside) == OCTET_STRING ? inside : none;
        }
    return none;
}

/* A SPNEGO token may hold another mechanism's token instead. */
static int is_negoex(struct span token)
{
    return token.length >= 40 && memcmp(token.at, "NEGOEXTS", 8) == 0;
}

/* Writes the NEGOEX token in a SPNEGO token, if there is one, and answers it. */
static struct span save_inner(const char *path, gss_buffer_t token)
{
    struct span inner = unwrap(token), none = { NULL, 0 };
    if (!is_negoex(inner))
        return none;
    save(path, inner.at, inner.length);
    return inner;
}

static void keep(const char *folder, int turn, char end, gss_buffer_t token)
{
    char path[4096];
    snprintf(path, sizeof path, "%s/%02d-%c.spnego", folder, turn, end);
    save(path, token->value, token->length);
    snprintf(path, sizeof path, "%s/%02d-%c.negoex", folder, turn, end);
    save_inner(path, token);
}

static int converse(const char *folder, const char *own, const char *peer)
{
    struct end ends[2] = { open_end('i', own), open_end('a', peer) };
    gss_buffer_desc tokens[2] = { { 0, NULL }, { 0, NULL } };
    OM_uint32 minor, majors[2] = { GSS_S_CONTINUE_NEEDED, GSS_S_CONTINUE_NEEDED };
    for (int turn = 0; turn < 100; turn++) {
        int end = turn % 2;
        gss_buffer_t in = &tokens[1 - end], out = &tokens[end];
        gss_release_buffer(&minor, out);
        if (majors[end] != GSS_S_CONTINUE_NEEDED || (turn > 0 && in->length == 0))
            break;
        majors[end] = take_turn(&ends[end], in, out);
        if (out->length > 0)
            keep(folder, turn, ends[end].side, out);
    }
    return majors[0] == GSS_S_COMPLETE && majors[1] == GSS_S_COMPLETE ? 0 : 1;
}

static int offer(const char *path, const char *own, const char *next)
{
    static unsigned char token[LIMIT];
    struct end acceptor = open_end('a', own);
    gss_buffer_desc in = wrap_first(token, load(path, token, sizeof token)), out = { 0, NULL };
    OM_uint32 major = take_turn(&acceptor, &in, &out);
    save_inner(next, &out);
    return GSS_ERROR(major) ? 1 : 0;
}

static size_t number_at(const unsigned char *octets)
{
    return octets[0] | (size_t)octets[1] << 8 | (size_t)octets[2] << 16 | (size_t)octets[3] << 24;
}

/* The length of the message at `at` as it is stored, cut to what is left; at least a common header's. */
static size_t message_length(const unsigned char *at, size_t left)
{
    size_t stored = number_at(at + 20);
    return stored < 40 ? 40 : stored > left ? left : stored;
}

/* Signs the VERIFY at `at` of the reply as MIT's acceptor does, with key usage 23 and the key of mech.c: all that comes before
   is signed, and the checksum goes to `value`. Where the environment has CAPTURE_DAMAGE one bit of it is changed. */
static void sign(struct span first, unsigned char *reply, size_t at, unsigned char *value)
{
    unsigned char octets[16];
    krb5_keyblock key = { 0, ENCTYPE_ARCFOUR_HMAC, sizeof octets, octets };
    krb5_data before_it = { 0, (unsigned)(first.length + at), malloc(first.length + at) };
    krb5_checksum made;
    krb5_context context;
    for (size_t k = 0; k < sizeof octets; k++)
        octets[k] = (unsigned char)(k + 1);
    if (before_it.data == NULL || krb5_init_context(&context) != 0)
        fail("no checksum can be made", "");
    memcpy(before_it.data, first.at, first.length);
    memcpy(before_it.data + first.length, reply, at);
    if (krb5_c_make_checksum(context, CKSUMTYPE_HMAC_MD5_ARCFOUR, &key, 23, &before_it, &made) != 0 || made.length != 16)
        fail("MIT's library makes no checksum", "");
    memcpy(value, made.contents, 16);
    if (getenv("CAPTURE_DAMAGE") != NULL)
        value[0] ^= 1;
    krb5_free_checksum_contents(context, &made);
    krb5_free_context(context);
    free(before_it.data);
}

/* Makes a first token's messages those of a reply to `first`: types 0, 2 and 5 become the acceptor's 1, 3 and 4, the numbers go on
   from the first token's, the conversation becomes the first token's (a message of another one stays so), and a VERIFY is
   signed anew. */
static void turn_round(unsigned char *token, size_t length, struct span first)
{
    static const unsigned char kinds[] = { 1, 1, 3, 3, 4, 4, 6, 7 };
    unsigned char own[16] = { 0 };
    size_t messages = 0, at, here;
    for (at = 0; first.length - at >= 40; messages++)
        at += message_length(first.at + at, first.length - at);
    if (length >= 40)
        memcpy(own, token + 24, sizeof own);
    for (at = 0; length - at >= 40; at += here) {
        unsigned char *message = token + at;
        here = message_length(message, length - at);
        if (number_at(message + 8) < sizeof kinds)
            message[8] = kinds[message[8]];
        message[12] = (unsigned char)(message[12] + messages);
        if (memcmp(message + 24, own, sizeof own) == 0)
            memcpy(message + 24, first.at + 24, sizeof own);
        if (number_at(message + 8) == 6 && here >= 92 && number_at(message + 68) == here - 16)
            sign(first, token, at, message + here - 16);
    }
}

static int answer(const char *path, const char *own, const char *first_path, const char *reply_path, const char *next)
{
    static unsigned char token[LIMIT];
    size_t length = load(path, token, sizeof token);
    struct end initiator = open_end('i', own);
    gss_buffer_desc sent = { 0, NULL }, in, out = { 0, NULL };
    struct span first;
    OM_uint32 major;
    if (take_turn(&initiator, GSS_C_NO_BUFFER, &sent) != GSS_S_CONTINUE_NEEDED)
        fail("MIT's initiator makes no first token", "");
    first = save_inner(first_path, &sent);
    if (first.length == 0)
        fail("no NEGOEX in the first token of MIT's initiator", "");
    turn_round(token, length, first);
    save(reply_path, token, length);
    in = wrap_reply(token, length);
    major = take_turn(&initiator, &in, &out);
    save_inner(next, &out);
    return GSS_ERROR(major) ? 1 : 0;
}

int main(int count, char **words)
{
    if (count == 5 && strcmp(words[1], "converse") == 0)
        return converse(words[2], words[3], words[4]);
    if (count == 5 && strcmp(words[1], "offer") == 0)
        return offer(words[2], words[3], words[4]);
    if (count == 7 && strcmp(words[1], "answer") == 0)
        return answer(words[2], words[3], words[4], words[5], words[6]);
    fail("usage: drive converse FOLDER OWN PEER | drive offer TOKEN OWN NEXT | drive answer TOKEN OWN FIRST REPLY NEXT", "");
    return 2;
}
