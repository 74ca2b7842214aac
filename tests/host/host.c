/*
 * Every function of negoex.h, held to the listings of tokens.
 *
 *   host check LISTINGS FOLDER [few]   LISTINGS has for each token the line `file NAME` and its listing behind it; the token's octets are in FOLDER/NAME.
 *                                      What each function answers is worked out from the listing's text and the token's octets. `few`: fewer windows.
 *   host envelopes SHOWN FOLDER        SHOWN has for each envelope the line `file NAME` and what `unwrap` says of it behind it
 *   host fault FILE                    prints the octets at fault of the token in FILE: the first and their number
 *   host damage FOLDER NAME OUT        writes damaged copies of FOLDER/NAME to the folder OUT, and their names to standard output
 *
 * Tokens and buffers stand in memory of exactly their size, so that a tool that watches memory sees an access beside them.
 */
#include <stddef.h>
#include <stdint.h>
#include <stdio.h>
#include <stdlib.h>
#include <string.h>

#include "negoex.h"

#define FILLER 0xA5
#define MOST_LINES 8192

struct token {
    uint8_t *octets;
    size_t size;
};

/* What is expected of the token at hand. */
static struct token now;
static const char *name;
static const char *line[MOST_LINES + 1]; /* the lines of its listing; line[lines] is where they end */
static size_t lines;
static unsigned long checks, failures;

static void *room_for(size_t size)
{
    void *p = malloc(size ? size : 1);
    if (!p) {
        fprintf(stderr, "host: no memory\n");
        exit(1);
    }
    return p;
}

static void expect(const char *what, size_t a, size_t b, size_t c, int64_t got, int64_t wanted)
{
    checks++;
    if (got == wanted)
        return;
    if (failures++ < 20)
        fprintf(stderr, "host: %s: %s(%lu, %lu, %lu) is %lld, and not %lld\n", name, what, (unsigned long)a, (unsigned long)b, (unsigned long)c, (long long)got, (long long)wanted);
}

static uint8_t *filled(size_t size)
{
    uint8_t *p = room_for(size);
    memset(p, FILLER, size);
    return p;
}

/* Whether the buffer holds `text` at its front, and is as it was behind it. */
static void expect_buffer(const char *what, size_t a, size_t b, const uint8_t *buffer, size_t size, const void *text, size_t length)
{
    size_t k;
    int same = length <= size && memcmp(buffer, text, length) == 0;
    for (k = length; same && k < size; k++)
        same = buffer[k] == FILLER;
    expect(what, a, b, size, same, 1);
}

static uint32_t le(size_t at, size_t octets)
{
    uint32_t n = 0;
    while (octets-- > 0)
        n = n * 256 + now.octets[at + octets];
    return n;
}

static long long number_behind(const char *text, const char *word)
{
    const char *p = strstr(text, word);
    return p ? strtoll(p + strlen(word), NULL, 10) : -1;
}

static int starts(size_t k, const char *word)
{
    return k < lines && strncmp(line[k], word, strlen(word)) == 0;
}

/* The entries of the token, worked out by the layouts as document 01's table has them: six numbers each. */
static uint32_t *entry;
static size_t entries;

static void add_entry(uint32_t what, size_t message, size_t number, uint32_t value, size_t place, size_t length)
{
    uint32_t *e = entry + 6 * entries++;
    e[0] = what;
    e[1] = (uint32_t)message;
    e[2] = (uint32_t)number;
    e[3] = value;
    e[4] = (uint32_t)place;
    e[5] = (uint32_t)length;
}

/* Fields of a header, each what it is and its size, one behind the other; 0 ends them. */
static const uint8_t common_fields[] = {NEGOEX_ENTRY_SIGNATURE, 8, NEGOEX_ENTRY_TYPE, 4, NEGOEX_ENTRY_SEQUENCE, 4, NEGOEX_ENTRY_HEADER_LENGTH, 4, NEGOEX_ENTRY_MESSAGE_LENGTH, 4, NEGOEX_ENTRY_CONVERSATION, 16, 0};
static const uint8_t nego_fields[] = {NEGOEX_ENTRY_RANDOM, 32, NEGOEX_ENTRY_VERSION, 8, NEGOEX_ENTRY_SCHEME_VECTOR, 6, NEGOEX_ENTRY_PAD, 2, NEGOEX_ENTRY_EXTENSION_VECTOR, 6, NEGOEX_ENTRY_PAD, 2, 0};
static const uint8_t exchange_fields[] = {NEGOEX_ENTRY_SCHEME, 16, NEGOEX_ENTRY_EXCHANGE_VECTOR, 8, 0};
static const uint8_t verify_fields[] = {NEGOEX_ENTRY_SCHEME, 16, NEGOEX_ENTRY_CHECKSUM_HEADER, 4, NEGOEX_ENTRY_CHECKSUM_SCHEME, 4, NEGOEX_ENTRY_CHECKSUM_TYPE, 4, NEGOEX_ENTRY_CHECKSUM_VECTOR, 8, NEGOEX_ENTRY_PAD, 4, 0};
static const uint8_t alert_fields[] = {NEGOEX_ENTRY_SCHEME, 16, NEGOEX_ENTRY_ERROR_CODE, 4, NEGOEX_ENTRY_ALERT_VECTOR, 6, NEGOEX_ENTRY_PAD, 2, NEGOEX_ENTRY_PAD, 4, 0};

static void add_fields(const uint8_t *field, size_t message, size_t at)
{
    for (; *field; field += 2) {
        add_entry(field[0], message, 0, le(at, field[1] < 4 ? 2 : 4), at, field[1]);
        at += field[1];
    }
}

/* What a vector points at: its offset stands at `at`, and it has `length` octets. */
static void add_octets(uint32_t what, size_t message, size_t number, size_t place, size_t at, uint32_t length)
{
    add_entry(what, message, number, le(at, 4), length ? place + le(at, 4) : place, length);
}

/* The values of the extensions or alerts in an array. */
static void add_values(uint32_t what, size_t message, size_t place, size_t array, size_t count)
{
    size_t k;
    for (k = 0; k < count; k++)
        add_octets(what, message, k, place, array + 12 * k + 4, le(array + 12 * k + 8, 4));
}

static void add_elements(uint32_t type, uint32_t vector, size_t message, size_t array, size_t count)
{
    size_t k;
    for (k = 0; k < count; k++)
        add_entry(type, message, k, le(array + 12 * k, 4), array + 12 * k, 4);
    for (k = 0; k < count; k++)
        add_entry(vector, message, k, le(array + 12 * k + 4, 4), array + 12 * k + 4, 8);
}

static void add_message(size_t message, size_t place)
{
    uint32_t kind = le(place + 8, 4), k;
    add_entry(NEGOEX_ENTRY_MESSAGE, message, 0, kind, place, le(place + 20, 4));
    add_fields(common_fields, message, place);
    add_fields(kind <= 1 ? nego_fields : kind <= 5 ? exchange_fields : kind == 6 ? verify_fields : alert_fields, message, place + 40);
    if (kind <= 1) {
        uint32_t schemes = le(place + 84, 2), count = le(place + 92, 2);
        add_octets(NEGOEX_ENTRY_SCHEMES, message, 0, place, place + 80, 16 * schemes);
        add_octets(NEGOEX_ENTRY_EXTENSIONS, message, 0, place, place + 88, 12 * count);
        add_values(NEGOEX_ENTRY_EXTENSION_VALUE, message, place, place + le(place + 88, 4), count);
        for (k = 0; k < schemes; k++)
            add_entry(NEGOEX_ENTRY_SCHEME, message, k, le(place + le(place + 80, 4) + 16 * k, 4), place + le(place + 80, 4) + 16 * k, 16);
        add_elements(NEGOEX_ENTRY_EXTENSION_TYPE, NEGOEX_ENTRY_EXTENSION_VALUE_VECTOR, message, place + le(place + 88, 4), count);
    } else if (kind <= 5) {
        add_octets(NEGOEX_ENTRY_EXCHANGE, message, 0, place, place + 56, le(place + 60, 4));
    } else if (kind == 6) {
        add_octets(NEGOEX_ENTRY_CHECKSUM_VALUE, message, 0, place, place + 68, le(place + 72, 4));
    } else {
        uint32_t count = le(place + 64, 2);
        add_octets(NEGOEX_ENTRY_ALERTS, message, 0, place, place + 60, 12 * count);
        add_values(NEGOEX_ENTRY_ALERT_VALUE, message, place, place + le(place + 60, 4), count);
        add_elements(NEGOEX_ENTRY_ALERT_TYPE, NEGOEX_ENTRY_ALERT_VALUE_VECTOR, message, place + le(place + 60, 4), count);
    }
}

/* A call from entry `first` on, in a buffer of one size. */
static void check_some(const uint8_t *wanted, size_t first, size_t size)
{
    uint8_t *buffer = filled(size);
    size_t whole = size / 24;
    int64_t length = first >= entries ? -19 : whole == 0 ? -16 : (int64_t)(24 * (whole < entries - first ? whole : entries - first));
    expect("entries", first, 0, size, negoex_entries(now.octets, now.size, first, buffer, size), length);
    expect_buffer("entries' buffer", first, 0, buffer, size, length > 0 ? wanted + 24 * first : wanted, length > 0 ? (size_t)length : 0);
    free(buffer);
}

/* Which octets are covered: those of the header's fields but for pads, and what vectors point at. */
static void check_coverage(void)
{
    uint8_t *wanted = room_for(now.size), *buffer = filled(now.size + 3);
    size_t k;
    memset(wanted, 0, now.size);
    for (k = 0; k < entries; k++)
        if (entry[6 * k] != NEGOEX_ENTRY_MESSAGE && entry[6 * k] != NEGOEX_ENTRY_PAD)
            memset(wanted + entry[6 * k + 4], 1, entry[6 * k + 5]);
    expect("coverage", 0, 0, now.size - 1, negoex_coverage(now.octets, now.size, buffer, now.size - 1), -16);
    expect_buffer("coverage's buffer", 0, 0, buffer, now.size + 3, "", 0);
    expect("coverage", 0, 0, now.size + 3, negoex_coverage(now.octets, now.size, buffer, now.size + 3), (int64_t)now.size);
    expect_buffer("coverage's buffer", 0, 1, buffer, now.size + 3, wanted, now.size);
    free(wanted);
    free(buffer);
}

static void check_entries(void)
{
    uint8_t *wanted = room_for(24 * entries), none[24];
    size_t k, first;
    for (k = 0; k < 24 * entries; k++)
        wanted[k] = (uint8_t)(entry[k / 4] >> 8 * (k % 4));
    expect("entry count", 0, 0, 0, negoex_entry_count(now.octets, now.size), (int64_t)entries);
    expect("no more entries than octets", entries, now.size, 0, entries <= now.size, 1);
    check_some(wanted, 0, 24 * now.size);
    for (first = 0; first <= entries; first += entries / 5 + 1) {
        check_some(wanted, first, 0);
        check_some(wanted, first, 23);
        check_some(wanted, first, 24);
        check_some(wanted, first, 24 * (entries - first));
        check_some(wanted, first, 24 * (entries - first) + 23);
        check_some(wanted, first, 100);
    }
    check_some(wanted, entries, 48);
    check_some(wanted, SIZE_MAX, 48);
    expect("no fault", 0, 0, 0, negoex_fault(now.octets, now.size, none, sizeof none), 0);
    free(wanted);
}

/* Whether the vector whose offset stands at `at` breaks the rule in the message at `place`. */
static int breaks(size_t place, uint32_t header, size_t at, int64_t length)
{
    int64_t offset = le(at, 4);
    return length != 0 && (offset < header || offset + length > le(place + 20, 4));
}

/* The first vector of the message at `place` that breaks its rule: what it is, its number, its place and its size. */
static void broken_vector(size_t place, uint32_t *what, size_t *number, size_t *at, size_t *size)
{
    uint32_t kind = le(place + 8, 4), header = le(place + 16, 4), count;
    size_t array;
    *number = 0;
    if (kind > 1 && kind <= 6) {
        *what = kind == 6 ? NEGOEX_ENTRY_CHECKSUM_VECTOR : NEGOEX_ENTRY_EXCHANGE_VECTOR;
        *at = place + (kind == 6 ? 68 : 56);
        *size = 8;
        return;
    }
    *size = 6;
    *what = NEGOEX_ENTRY_SCHEME_VECTOR;
    *at = place + 80;
    if (kind <= 1 && breaks(place, header, *at, 16 * (int64_t)le(*at + 4, 2)))
        return;
    *what = kind <= 1 ? NEGOEX_ENTRY_EXTENSION_VECTOR : NEGOEX_ENTRY_ALERT_VECTOR;
    *at = place + (kind <= 1 ? 88 : 60);
    count = le(*at + 4, 2);
    if (breaks(place, header, *at, 12 * (int64_t)count))
        return;
    array = place + le(*at, 4);
    *what = kind <= 1 ? NEGOEX_ENTRY_EXTENSION_VALUE_VECTOR : NEGOEX_ENTRY_ALERT_VALUE_VECTOR;
    *size = 8;
    for (; *number < count; ++*number) {
        *at = array + 12 * *number + 4;
        if (breaks(place, header, *at, le(*at + 4, 4)))
            return;
    }
}

/* The octets at fault, worked out from the number and the octets. */
static void check_fault(int64_t number, size_t place)
{
    static const struct {
        uint32_t what;
        size_t at, size;
    } plain[] = {
        {0, 0, 0}, {0, 0, 0}, {0, 0, 0}, {NEGOEX_ENTRY_SIGNATURE, 0, 8}, {NEGOEX_ENTRY_TYPE, 8, 4}, {NEGOEX_ENTRY_HEADER_LENGTH, 16, 4}, {NEGOEX_ENTRY_MESSAGE_LENGTH, 20, 4},
        {NEGOEX_ENTRY_SEQUENCE, 12, 4}, {NEGOEX_ENTRY_CONVERSATION, 24, 16}, {0, 0, 0}, {NEGOEX_ENTRY_VERSION, 72, 8}};
    uint8_t wanted[24], *buffer = filled(50);
    size_t at, size, k = 0, message = 0, from;
    uint32_t what;
    for (from = 0; number != 1 && from < place; from += le(from + 20, 4))
        message++;
    if (number == 1 || number == 2) {
        what = NEGOEX_ENTRY_REST;
        at = number == 1 ? 65535 : place;
        size = number == 1 ? 1 : now.size - place;
    } else if (number == 11) {
        broken_vector(place, &what, &k, &at, &size);
    } else if (number == 12) {
        what = NEGOEX_ENTRY_EXTENSION_TYPE;
        for (at = place + le(place + 88, 4); le(at, 4) < 0x80000000u; at += 12)
            k++;
        size = 4;
    } else if (number == 13) {
        what = le(place + 56, 4) == 20 ? NEGOEX_ENTRY_CHECKSUM_SCHEME : NEGOEX_ENTRY_CHECKSUM_HEADER;
        at = place + (what == NEGOEX_ENTRY_CHECKSUM_SCHEME ? 60 : 56);
        size = 4;
    } else {
        what = plain[number].what;
        at = place + plain[number].at;
        size = plain[number].size;
    }
    entry = room_for(24);
    entries = 0;
    add_entry(what, message, k, what == NEGOEX_ENTRY_REST ? 0 : le(at, 4), at, size);
    for (from = 0; from < 24; from++)
        wanted[from] = (uint8_t)(entry[from / 4] >> 8 * (from % 4));
    free(entry);
    expect("fault", 0, 0, 23, negoex_fault(now.octets, now.size, buffer, 23), -16);
    expect_buffer("fault's buffer", 0, 0, buffer, 50, "", 0);
    expect("fault", 0, 0, 50, negoex_fault(now.octets, now.size, buffer, 50), 24);
    expect_buffer("fault's buffer", (size_t)number, place, buffer, 50, wanted, 24);
    free(buffer);
}

/* One window, with what it has to write worked out from the lines. */
static void check_window(size_t first, size_t end, size_t size)
{
    uint8_t *buffer = filled(size);
    int64_t wanted = 0;
    size_t k;
    if (first >= lines)
        wanted = -19;
    else if (first < end && (size_t)(line[first + 1] - line[first]) > size)
        wanted = -16;
    else
        for (k = first; k < end && k < lines && (size_t)(line[k + 1] - line[first]) <= size; k++)
            wanted = line[k + 1] - line[first];
    expect("window", first, end, size, negoex_window(now.octets, now.size, first, end, buffer, size), wanted);
    expect_buffer("window's buffer", first, end, buffer, size, first < lines ? line[first] : "", wanted > 0 ? (size_t)wanted : 0);
    free(buffer);
}

/* All windows from line 0 on, each from the line behind the one before, in buffers of one size: joined they are the listing. */
static void check_following(size_t size)
{
    size_t length = (size_t)(line[lines] - line[0]), first = 0, all = 0, k;
    char *joined = room_for(length);
    uint8_t *buffer = filled(size);
    for (;;) {
        int64_t n = negoex_window(now.octets, now.size, first, SIZE_MAX, buffer, size);
        if (n < 0) {
            expect("last window", first, 0, size, n, -19);
            break;
        }
        if (n == 0 || (size_t)n > length - all)
            break;
        memcpy(joined + all, buffer, (size_t)n);
        all += (size_t)n;
        for (k = 0; k < (size_t)n; k++)
            first += buffer[k] == '\n';
    }
    expect("windows joined", 0, 0, size, all == length && memcmp(joined, line[0], length) == 0, 1);
    free(joined);
    free(buffer);
}

static void check_windows(int few)
{
    static const size_t sizes[] = {0, 1, 15, 39, 40, 46, 47, 48, 52, 60, 99, 127, 128, 200, 1000};
    size_t at, a, b, step = few || lines > 60 ? lines / 4 + 1 : 1;
    expect("lines", 0, 0, 0, negoex_lines(now.octets, now.size), (int64_t)lines);
    for (at = 0; at < sizeof sizes / sizeof *sizes; at++)
        for (a = 0; a <= lines + 1; a += step) {
            for (b = a; b <= lines + 2; b += step)
                check_window(a, b, sizes[at]);
            check_window(a, 0, sizes[at]);
            check_window(a, SIZE_MAX, sizes[at]);
            check_window(SIZE_MAX - a, SIZE_MAX, sizes[at]);
        }
    for (at = 1; at <= 4; at++)
        for (a = 0; a < lines; a += step) /* exactly `at` lines, an octet less and one more */
            for (b = 0; b < 3; b++)
                check_window(a, SIZE_MAX, (size_t)(line[a + at < lines ? a + at : lines] - line[a]) + b - 1);
    for (at = 128; at <= 70000; at = at * 2 + 1)
        check_following(at);
}

/* Every answer of a refused token is its number; buffers stay as they were. */
static void check_refused(int64_t number, int64_t place)
{
    static const size_t sizes[] = {0, 16, 200};
    size_t k;
    expect("messages", 0, 0, 0, negoex_messages(now.octets, now.size), -number);
    expect("place", 0, 0, 0, negoex_place(now.octets, now.size), place);
    expect("lines", 0, 0, 0, negoex_lines(now.octets, now.size), -number);
    expect("entry count", 0, 0, 0, negoex_entry_count(now.octets, now.size), -number);
    check_fault(number, (size_t)place);
    for (k = 0; k < 3; k++) {
        uint8_t *buffer = filled(sizes[k]);
        expect("field", k, k, 0, negoex_field(now.octets, now.size, k, k), -number);
        expect("vectors", k, 0, 0, negoex_vectors(now.octets, now.size, k), -number);
        expect("vector place", k, 0, 0, negoex_vector_place(now.octets, now.size, k, 0), -number);
        expect("vector length", k, 0, 0, negoex_vector_length(now.octets, now.size, k, 0), -number);
        expect("conversation", k, 0, sizes[k], negoex_conversation(now.octets, now.size, k, buffer, sizes[k]), -number);
        expect("window", k, 9, sizes[k], negoex_window(now.octets, now.size, k, 9, buffer, sizes[k]), -number);
        expect("table", 0, 0, sizes[k], negoex_table(now.octets, now.size, buffer, sizes[k]), -number);
        expect("entries", k, 0, sizes[k], negoex_entries(now.octets, now.size, k, buffer, sizes[k]), -number);
        expect("coverage", 0, 0, sizes[k], negoex_coverage(now.octets, now.size, buffer, sizes[k]), -number);
        expect_buffer("buffer", k, 0, buffer, sizes[k], "", 0);
        free(buffer);
    }
    /* what lies before the message at fault is a token by itself */
    if (place > 0)
        expect("messages before", (size_t)place, 0, 0, negoex_messages(now.octets, (size_t)place) > 0, 1);
}

/* The numbers of the table, in the order in which they are worked out. */
static uint32_t *table;
static size_t numbers;

static void check_vector(size_t message, size_t vector, size_t place, uint32_t offset, uint32_t length)
{
    expect("vector place", message, vector, 0, negoex_vector_place(now.octets, now.size, message, vector), (int64_t)(length ? place + offset : place));
    expect("vector length", message, vector, 0, negoex_vector_length(now.octets, now.size, message, vector), length);
    table[numbers++] = (uint32_t)(length ? place + offset : place);
    table[numbers++] = length;
}

/* A message whose own line is line k; its other lines follow. Answers the line behind them. */
static size_t check_message(size_t message, size_t k)
{
    static const char *const words[] = {"message at=", " type=", " seq=", " header=", " length="};
    uint8_t *buffer = filled(40);
    size_t place = (size_t)number_behind(line[k], "message at="), field, schemes = 0, vector = 0, count_at;
    long long kind = number_behind(line[k], " type=");
    for (field = 0; field < 5; field++) {
        long long wanted = number_behind(line[k], words[field]);
        expect("field", message, field, 0, negoex_field(now.octets, now.size, message, field), wanted);
        table[numbers++] = (uint32_t)wanted;
    }
    expect("field", message, 5, 0, negoex_field(now.octets, now.size, message, 5), -19);
    expect("field", message, SIZE_MAX, 0, negoex_field(now.octets, now.size, message, SIZE_MAX), -19);
    expect("conversation", message, 0, 15, negoex_conversation(now.octets, now.size, message, buffer, 15), -16);
    expect_buffer("conversation's buffer", message, 15, buffer, 40, "", 0);
    expect("conversation", message, 0, 40, negoex_conversation(now.octets, now.size, message, buffer, 40), 16);
    expect_buffer("conversation's buffer", message, 40, buffer, 40, now.octets + place + 24, 16);
    free(buffer);
    count_at = numbers++;
    for (k++; starts(k, "scheme "); k++)
        schemes++;
    if (kind <= 1) {
        size_t elements = 0;
        while (starts(k + elements, "extension "))
            elements++;
        check_vector(message, vector++, place, le(place + 80, 4), (uint32_t)(16 * schemes));
        check_vector(message, vector++, place, le(place + 88, 4), (uint32_t)(12 * elements));
    }
    if (kind == 7) {
        size_t elements = 0;
        expect("error code", message, 0, 0, starts(k, "error "), 1);
        k++;
        while (starts(k + elements, "alert "))
            elements++;
        check_vector(message, vector++, place, le(place + 60, 4), (uint32_t)(12 * elements));
    }
    for (; k < lines && !starts(k, "message ") && !starts(k, "end "); k++)
        check_vector(message, vector++, place, (uint32_t)number_behind(line[k], " at="), (uint32_t)number_behind(line[k], " length="));
    table[count_at] = (uint32_t)vector;
    expect("vectors", message, 0, 0, negoex_vectors(now.octets, now.size, message), (int64_t)vector);
    expect("vector place", message, vector, 0, negoex_vector_place(now.octets, now.size, message, vector), -19);
    expect("vector length", message, vector, 0, negoex_vector_length(now.octets, now.size, message, vector), -19);
    expect("vector place", message, SIZE_MAX, 0, negoex_vector_place(now.octets, now.size, message, SIZE_MAX), -19);
    return k;
}

static void check_table(void)
{
    size_t size = 4 * numbers, k;
    uint8_t *wanted = room_for(size), *buffer;
    for (k = 0; k < size; k++)
        wanted[k] = (uint8_t)(table[k / 4] >> 8 * (k % 4));
    expect("table is no longer than the token", size, now.size, 0, size <= now.size, 1);
    for (k = 0; k < 4; k++) {
        size_t given = k == 0 ? now.size : k == 1 ? size : k == 2 ? size - 1 : 0;
        buffer = filled(given);
        expect("table", given, 0, 0, negoex_table(now.octets, now.size, buffer, given), given < size ? -16 : (int64_t)size);
        expect_buffer("table's buffer", given, 0, buffer, given, wanted, given < size ? 0 : size);
        free(buffer);
    }
    free(wanted);
}

static void check_accepted(int few)
{
    size_t messages = (size_t)number_behind(line[lines - 1], "end messages="), message = 0, k = 0, beyond;
    expect("octets", 0, 0, 0, number_behind(line[lines - 1], " octets="), (int64_t)now.size);
    expect("messages", 0, 0, 0, negoex_messages(now.octets, now.size), (int64_t)messages);
    expect("place", 0, 0, 0, negoex_place(now.octets, now.size), 0);
    table = room_for(now.size + 64);
    entry = room_for(24 * now.size);
    numbers = entries = 0;
    while (message < messages && starts(k, "message ")) {
        add_message(message, (size_t)number_behind(line[k], "message at="));
        k = check_message(message, k);
        message++;
    }
    expect("messages listed", 0, 0, 0, (int64_t)message, (int64_t)messages);
    check_table();
    check_entries();
    check_coverage();
    free(table);
    free(entry);
    for (beyond = 0; beyond < 2; beyond++) {
        size_t index = beyond ? SIZE_MAX : messages;
        uint8_t *buffer = filled(16);
        expect("field", index, 0, 0, negoex_field(now.octets, now.size, index, 0), -19);
        expect("field", index, 9, 0, negoex_field(now.octets, now.size, index, 9), -19);
        expect("vectors", index, 0, 0, negoex_vectors(now.octets, now.size, index), -19);
        expect("vector place", index, 0, 0, negoex_vector_place(now.octets, now.size, index, 0), -19);
        expect("vector length", index, 0, 0, negoex_vector_length(now.octets, now.size, index, 0), -19);
        expect("conversation", index, 0, 0, negoex_conversation(now.octets, now.size, index, buffer, 0), -19);
        expect("conversation", index, 0, 16, negoex_conversation(now.octets, now.size, index, buffer, 16), -19);
        expect_buffer("buffer", index, 0, buffer, 16, "", 0);
        free(buffer);
    }
    check_windows(few);
}

static struct token load(const char *path)
{
    struct token t = {NULL, 0};
    FILE *f = fopen(path, "rb");
    if (!f)
        return t;
    fseek(f, 0, SEEK_END);
    t.size = (size_t)ftell(f);
    fseek(f, 0, SEEK_SET);
    t.octets = room_for(t.size);
    if (fread(t.octets, 1, t.size, f) != t.size) {
        fprintf(stderr, "host: %s cannot be read\n", path);
        exit(1);
    }
    fclose(f);
    return t;
}

/* Where the token stands in the envelope at hand, by the lines that show it. */
static void check_envelope(void)
{
    size_t k = 0;
    int64_t place = -19, length = -19;
    while (k < lines && !starts(k, "token at="))
        k++;
    if (starts(0, "refused ")) {
        place = length = -number_behind(line[0], "refused ");
    } else if (k < lines) {
        place = number_behind(line[k], "token at=");
        length = number_behind(line[k], " length=");
    }
    expect("envelope place", 0, 0, 0, negoex_envelope_place(now.octets, now.size), place);
    expect("envelope length", 0, 0, 0, negoex_envelope_length(now.octets, now.size), length);
}

static int check(const char *listings, const char *folder, int few, int envelopes)
{
    struct token all = load(listings);
    const char *p = (const char *)all.octets, *end = p + all.size;
    unsigned long tokens = 0;
    static char path[4096], called[1024];
    if (!all.octets || all.size == 0 || end[-1] != '\n') {
        fprintf(stderr, "host: no listings in %s\n", listings);
        return 1;
    }
    while (p < end) {
        const char *stop = memchr(p, '\n', (size_t)(end - p));
        size_t length = (size_t)(stop - p) - 5;
        if (strncmp(p, "file ", 5) != 0 || length >= sizeof called || strlen(folder) + length + 2 > sizeof path)
            return 1;
        memcpy(called, p + 5, length);
        called[length] = 0;
        name = called;
        p = stop + 1;
        for (lines = 0; p < end && strncmp(p, "file ", 5) != 0 && lines < MOST_LINES; lines++) {
            line[lines] = p;
            p = (const char *)memchr(p, '\n', (size_t)(end - p)) + 1;
        }
        line[lines] = p;
        snprintf(path, sizeof path, "%s/%s", folder, called);
        now = load(path);
        if (!now.octets) {
            expect("a missing file", 0, 0, 0, starts(0, "no file"), 1);
            continue;
        }
        tokens++;
        if (envelopes)
            check_envelope();
        else if (starts(0, "refused "))
            check_refused(number_behind(line[0], "refused "), number_behind(line[0], " at="));
        else
            check_accepted(few);
        free(now.octets);
    }
    free(all.octets);
    printf("%lu tokens, %lu answers, %lu wrong\n", tokens, checks, failures);
    return failures != 0;
}

/* Copies of a token: cut, with an octet changed, with octets lost. The numbers are those of a fixed sequence. */
static int damage(const char *folder, const char *from, const char *out)
{
    static char path[4096];
    uint32_t seed = 1;
    int k;
    struct token t;
    snprintf(path, sizeof path, "%s/%s", folder, from);
    t = load(path);
    if (!t.octets || t.size == 0)
        return 0;
    for (k = 0; k < 12; k++) {
        uint8_t *copy = room_for(t.size);
        size_t size = t.size, at, lost;
        FILE *f;
        memcpy(copy, t.octets, size);
        seed = seed * 1103515245 + 12345;
        at = (seed >> 8) % (k % 3 == 1 && size > 120 ? 120 : size);
        lost = (seed >> 4) % 9;
        if (k % 3 == 0)
            size = at;
        else if (k % 3 == 1)
            copy[at] = (uint8_t)(copy[at] ^ (1u << (seed >> 28) % 8));
        else if (at + lost < size) {
            memmove(copy + at, copy + at + lost, size - at - lost);
            size -= lost;
        }
        snprintf(path, sizeof path, "%s/%s.%d", out, from, k);
        f = fopen(path, "wb");
        if (!f || fwrite(copy, 1, size, f) != size || fclose(f) != 0) {
            fprintf(stderr, "host: %s cannot be written\n", path);
            return 1;
        }
        printf("%s.%d\n", from, k);
        free(copy);
    }
    free(t.octets);
    return 0;
}

static int fault(const char *path)
{
    uint8_t octets[24];
    size_t k;
    now = load(path);
    if (!now.octets || negoex_fault(now.octets, now.size, octets, sizeof octets) != 24)
        return 1;
    free(now.octets);
    now.octets = octets;
    for (k = 16; k <= 20; k += 4)
        printf("%lu%c", (unsigned long)le(k, 4), k == 16 ? ' ' : '\n');
    return 0;
}

int main(int argc, char **argv)
{
    if (argc == 3 && strcmp(argv[1], "fault") == 0)
        return fault(argv[2]);
    if (argc >= 4 && strcmp(argv[1], "check") == 0)
        return check(argv[2], argv[3], argc > 4, 0);
    if (argc == 4 && strcmp(argv[1], "envelopes") == 0)
        return check(argv[2], argv[3], 0, 1);
    if (argc == 5 && strcmp(argv[1], "damage") == 0)
        return damage(argv[2], argv[3], argv[4]);
    fprintf(stderr, "usage: host check LISTINGS FOLDER [few] | host envelopes SHOWN FOLDER | host fault FILE | host damage FOLDER NAME OUT\n");
    return 2;
}
