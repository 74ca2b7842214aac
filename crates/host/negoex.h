/*
 * NEGOEX tokens (draft-zhu-negoex-04) for C and C++: the structural reading, the listing's windows, and the table of a token.
 * Every function is proved to answer what its definition says, for all octets and all numbers: crates/replies/specs/Replies.antt and
 * crates/host/specs/Host.antt. docs/HOST.md shows how to build, link and call the library.
 *
 * A token is `token_size` octets from `token` on, a buffer `buffer_size` octets from `buffer` on.
 * - No pointer is null, also where its size is 0, and no size is above PTRDIFF_MAX.
 * - The buffer and the token don't overlap. The token is never changed, and no pointer is kept.
 * - Nothing is allocated, printed or kept between calls; threads may call at the same time.
 *
 * An answer that is not negative is the number asked for. A negative one is a refusal's number, negated; then the buffer is as it was.
 *    1 to 13   the token is refused by the structural reading (docs/RULES.md); 9 is never given
 *    19        an index or first line beyond the list: the message first, then the vector or the field
 *    16        what is asked for, or a window's first line, doesn't fit into the buffer
 * The first that applies, in this order, is answered. Indices count from 0.
 *
 * Each call reads the whole token. To show all of it, call negoex_table or negoex_window once, and not a function for each number.
 */
#ifndef NEGOEX_H
#define NEGOEX_H

#include <stddef.h>
#include <stdint.h>

#ifdef __cplusplus
extern "C" {
#endif

/* The number of messages of a token; an accepted one has at least one. */
int64_t negoex_messages(const uint8_t *token, size_t token_size);

/* Of a refused token, the place of the message at fault; 0 where the token is accepted. Never negative.
   The octets before that place are, where there are any, a token that is accepted: its messages can be shown. */
int64_t negoex_place(const uint8_t *token, size_t token_size);

/* The fields of a message's header, by these numbers. */
#define NEGOEX_PLACE 0          /* the message's place in the token */
#define NEGOEX_TYPE 1           /* 0 to 7 */
#define NEGOEX_SEQUENCE 2       /* the sequence number, up to 4,294,967,295 */
#define NEGOEX_HEADER_LENGTH 3  /* in octets */
#define NEGOEX_MESSAGE_LENGTH 4 /* in octets, the header among them */

/* A field of a message's header. */
int64_t negoex_field(const uint8_t *token, size_t token_size, size_t message, size_t field);

/* Writes a message's conversation to the buffer's front: 16 octets, as they stand in the message. The answer is 16. */
int64_t negoex_conversation(const uint8_t *token, size_t token_size, size_t message, uint8_t *buffer, size_t buffer_size);

/* The number of a message's vectors: those of the header in order, then the nested ones in order.
     types 0, 1        0 schemes, 1 extensions, 2 and on: the value of each extension
     types 2, 3, 4, 5  0 exchange
     type 6            0 checksum value
     type 7            0 alerts, 1 and on: the value of each alert */
int64_t negoex_vectors(const uint8_t *token, size_t token_size, size_t message);

/* A vector's place in the token; an empty one's is its message's. */
int64_t negoex_vector_place(const uint8_t *token, size_t token_size, size_t message, size_t vector);

/* A vector's length in octets. */
int64_t negoex_vector_length(const uint8_t *token, size_t token_size, size_t message, size_t vector);

/* The number of lines of the token's listing, the last line among them. */
int64_t negoex_lines(const uint8_t *token, size_t token_size);

/* Writes a window of the listing to the buffer's front: of the lines from `first` up to, not including, `end`, as many whole ones as fit. A range that ends
   past the last line ends there; an empty one (`end` not above `first`) writes nothing. The answer is the number of octets written.
   Each line has one line feed, so the next window starts at `first` and as many lines on as there are line feeds in this one.
   Every line has fewer than 128 octets: in such a buffer a window always gets on. SIZE_MAX as `end` is the end of the listing. */
int64_t negoex_window(const uint8_t *token, size_t token_size, size_t first, size_t end, uint8_t *buffer, size_t buffer_size);

/* Writes the table of a token to the buffer's front: of each message, in order, its five fields, the number of its vectors, and of each vector its place and
   its length; each number in four octets, least significant first. A message has 24 octets and 8 for each vector. The answer is the number of octets written.
   The table is never longer than the token: a buffer of `token_size` octets is enough. */
int64_t negoex_table(const uint8_t *token, size_t token_size, uint8_t *buffer, size_t buffer_size);

/* The entries of a token: all that a viewer shows of it, in one pass. Of each message, in order: the message itself, the fields of its header in order, pads
   too, the octets that its vectors point at, its list of schemes, and of its extensions or alerts first the types and then the vectors of the values.
   An entry has NEGOEX_ENTRY_SIZE octets: six numbers in four octets each, least significant first:
     what it is, by the numbers below;
     its message's number;
     its number in its list, 0 where it stands in none;
     its value: the number in its first four octets, or in two where it has two; where it isn't a number, as of an id, its first four octets all the same.
       An extension's type, a checksum type and an error code are signed: cast the value to int32_t;
     its place in the token; that of an empty vector is its message's;
     its length in octets.
   Fields of a header, and the schemes, types and vectors of a list, follow one another without gaps: no layout has to be known. */
#define NEGOEX_ENTRY_SIZE 24
#define NEGOEX_ENTRY_MESSAGE 0                 /* a message; its value is its type */
#define NEGOEX_ENTRY_SIGNATURE 1               /* the fields of the common header */
#define NEGOEX_ENTRY_TYPE 2
#define NEGOEX_ENTRY_SEQUENCE 3
#define NEGOEX_ENTRY_HEADER_LENGTH 4
#define NEGOEX_ENTRY_MESSAGE_LENGTH 5
#define NEGOEX_ENTRY_CONVERSATION 6
#define NEGOEX_ENTRY_RANDOM 7                  /* types 0, 1 */
#define NEGOEX_ENTRY_VERSION 8
#define NEGOEX_ENTRY_SCHEME_VECTOR 9           /* types 0, 1: offset and count, as they stand; the value is the offset */
#define NEGOEX_ENTRY_EXTENSION_VECTOR 10
#define NEGOEX_ENTRY_SCHEME 11                 /* the scheme of types 2 to 7, and each id of the list of types 0, 1 */
#define NEGOEX_ENTRY_EXCHANGE_VECTOR 12        /* types 2 to 5 */
#define NEGOEX_ENTRY_CHECKSUM_HEADER 13        /* type 6 */
#define NEGOEX_ENTRY_CHECKSUM_SCHEME 14
#define NEGOEX_ENTRY_CHECKSUM_TYPE 15
#define NEGOEX_ENTRY_CHECKSUM_VECTOR 16
#define NEGOEX_ENTRY_ERROR_CODE 17             /* type 7 */
#define NEGOEX_ENTRY_ALERT_VECTOR 18
#define NEGOEX_ENTRY_PAD 19                    /* a pad of a header */
#define NEGOEX_ENTRY_SCHEMES 20                /* the octets that a vector points at; the value is the offset as it stands */
#define NEGOEX_ENTRY_EXTENSIONS 21
#define NEGOEX_ENTRY_EXTENSION_VALUE 22
#define NEGOEX_ENTRY_EXCHANGE 23
#define NEGOEX_ENTRY_CHECKSUM_VALUE 24
#define NEGOEX_ENTRY_ALERTS 25
#define NEGOEX_ENTRY_ALERT_VALUE 26
#define NEGOEX_ENTRY_EXTENSION_TYPE 27         /* the fields of an extension */
#define NEGOEX_ENTRY_EXTENSION_VALUE_VECTOR 28
#define NEGOEX_ENTRY_ALERT_TYPE 29             /* the fields of an alert */
#define NEGOEX_ENTRY_ALERT_VALUE_VECTOR 30
#define NEGOEX_ENTRY_REST 31                   /* octets and no field: of negoex_fault alone; its value is 0 */

/* The number of entries of a token: no more than the token has octets. */
int64_t negoex_entry_count(const uint8_t *token, size_t token_size);

/* Writes entries to the buffer's front: from number `first` on, as many whole ones as fit. The answer is the number of octets written. Refusals: 19 where `first`
   is beyond the last entry, 16 where the buffer has no room for one. A buffer of NEGOEX_ENTRY_SIZE * token_size octets has room for all. */
int64_t negoex_entries(const uint8_t *token, size_t token_size, size_t first, uint8_t *buffer, size_t buffer_size);

/* Writes the octets at fault of a refused token to the buffer's front, as one entry: the field whose test fails first, all fields before it having passed. Of
   refusal 1 it is the first octet too many, of 2 the octets that are left, both NEGOEX_ENTRY_REST. The answer is NEGOEX_ENTRY_SIZE; 0, with nothing written,
   where the token is accepted; a refusal, -16, only where the buffer has no room for it. */
int64_t negoex_fault(const uint8_t *token, size_t token_size, uint8_t *buffer, size_t buffer_size);

/* Writes an octet for each octet of the token to the buffer's front: 1 where it is covered, that is, lies in a header and in no pad, or in what a vector points at;
   0 where nothing covers it. Runs of zeros are the stretches that nothing points at. The answer is the token's size; a refusal behind the token's own is 16. */
int64_t negoex_coverage(const uint8_t *token, size_t token_size, uint8_t *buffer, size_t buffer_size);

/* The place and the length of the token in an SPNEGO envelope, a NegTokenInit in its wrapper or a NegTokenResp (RFC 4178). Refusals: 1, and 20 to 23, as
   README.md has them; then 19 where the envelope has no token. */
int64_t negoex_envelope_place(const uint8_t *envelope, size_t envelope_size);
int64_t negoex_envelope_length(const uint8_t *envelope, size_t envelope_size);

#ifdef __cplusplus
}
#endif

#endif
