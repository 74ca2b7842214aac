/*
 * What it costs a C host to show all of a token: every number by a call of its own, the table, and the whole listing. Medians of 21 runs, in milliseconds.
 * tools/host-cost builds and runs it.
 */
#define _POSIX_C_SOURCE 199309L
#include <stdio.h>
#include <stdlib.h>
#include <string.h>
#include <time.h>

#include "negoex.h"

#define RUNS 21

static uint8_t token[65536], table[65536], text[4000000];
static uint8_t entries[NEGOEX_ENTRY_SIZE * 65536];
static size_t size;
static volatile int64_t sum;

static void le(size_t at, uint32_t n, size_t octets)
{
    while (octets-- > 0) {
        token[at++] = (uint8_t)n;
        n /= 256;
    }
}

static void header(size_t at, uint32_t kind, uint32_t sequence, uint32_t header_length, uint32_t length)
{
    memcpy(token + at, "NEGOEXTS", 8);
    le(at + 8, kind, 4);
    le(at + 12, sequence, 4);
    le(at + 16, header_length, 4);
    le(at + 20, length, 4);
}

/* Messages of 64 octets, as many as fit. */
static void messages(void)
{
    uint32_t k;
    memset(token, 0, sizeof token);
    for (k = 0; k < 1023; k++)
        header(64 * k, 5, k, 64, 64);
    size = 64 * 1023;
}

/* A NEGO with 5,000 extensions. */
static void extensions(void)
{
    memset(token, 0, sizeof token);
    size = 96 + 12 * 5000;
    header(0, 0, 0, 96, (uint32_t)size);
    le(88, 96, 4);
    le(92, 5000, 2);
}

static void each(void)
{
    size_t n = (size_t)negoex_messages(token, size), m, k;
    uint8_t conversation[16];
    for (m = 0; m < n; m++) {
        size_t vectors = (size_t)negoex_vectors(token, size, m);
        for (k = 0; k < 5; k++)
            sum += negoex_field(token, size, m, k);
        sum += negoex_conversation(token, size, m, conversation, sizeof conversation);
        for (k = 0; k < vectors; k++)
            sum += negoex_vector_place(token, size, m, k) + negoex_vector_length(token, size, m, k);
    }
}

static void in_table(void)
{
    sum += negoex_table(token, size, table, sizeof table);
}

static void in_entries(void)
{
    sum += negoex_entries(token, size, 0, entries, sizeof entries);
}

static void in_coverage(void)
{
    sum += negoex_coverage(token, size, table, sizeof table);
}

static void in_text(void)
{
    sum += negoex_window(token, size, 0, SIZE_MAX, text, sizeof text);
}

static void once(void)
{
    sum += negoex_messages(token, size);
}

static int order(const void *a, const void *b)
{
    double x = *(const double *)a, y = *(const double *)b;
    return (x > y) - (x < y);
}

static void measure(const char *what, void (*run)(void))
{
    double ms[RUNS];
    struct timespec from, to;
    int k;
    for (k = 0; k < RUNS; k++) {
        clock_gettime(CLOCK_MONOTONIC, &from);
        run();
        clock_gettime(CLOCK_MONOTONIC, &to);
        ms[k] = (double)(to.tv_sec - from.tv_sec) * 1e3 + (double)(to.tv_nsec - from.tv_nsec) / 1e6;
    }
    qsort(ms, RUNS, sizeof *ms, order);
    printf("%-12s %10.4f\n", what, ms[RUNS / 2]);
}

static void all(const char *what)
{
    printf("%s: %lu octets, %lld messages\n", what, (unsigned long)size, (long long)negoex_messages(token, size));
    measure("one call", once);
    measure("each number", each);
    measure("table", in_table);
    measure("entries", in_entries);
    measure("coverage", in_coverage);
    measure("listing", in_text);
}

int main(int argc, char **argv)
{
    FILE *file = argc > 1 ? fopen(argv[1], "rb") : NULL;
    if (!file)
        return 1;
    size = fread(token, 1, sizeof token, file);
    fclose(file);
    all(argv[1]);
    messages();
    all("messages of 64 octets");
    extensions();
    all("a NEGO with 5,000 extensions");
    return 0;
}
