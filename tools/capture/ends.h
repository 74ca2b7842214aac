/* An end of MIT's SPNEGO with NEGOEX inside, over the mechanisms of mech.c. */
#ifndef ENDS_H
#define ENDS_H
#include <gssapi/gssapi.h>
#include <gssapi/gssapi_ext.h>

struct end {
    char side;                /* i or a */
    int turn;                 /* the next turn of this end: the initiator has 0, 2 .., the acceptor 1, 3 .. */
    gss_cred_id_t own;
    gss_ctx_id_t context;
    gss_name_t target;
    char scheme;              /* the letter of the mechanism that MIT names as taken; - where it names none of ours */
};

/* Ends the program: nothing can be asked. */
void fail(const char *what, const char *which);

/* The mechanism of a letter, A to F. It is good until the next call. */
gss_OID mechanism_of(char letter);

/* The name that both ends go by. */
gss_name_t target_name(void);

/* An end, `i` or `a`, that lists the mechanisms of the letters in `list`. */
struct end open_end(char side, const char *list);

/* Hands `in` to the end, whose turn it is, takes `out` from it, prints a line about it and answers the major status. The line has
   the end, the turn, the routine error, whether more is to come, the minor status and the library's text for it. */
OM_uint32 take_turn(struct end *end, gss_buffer_t in, gss_buffer_t out);

#endif
