/*
 * The header's readers, held to the stored results.
 *
 *   readers settle FILE...         files of stored cases (crates/vectors/data; compare/README.md has their format)
 *   readers settle_2015 FILE...    files of stored cases under the text of 2015 (crates/vectors/data/text_2015_*)
 *
 * Each stored result is read figure by figure and its bytes are laid out again from what was read, through shifts that the
 * header does not have: all must be the stored ones, and the totals the sums of what was read. It prints how many results
 * there were. Status 1: a byte or a sum comes out otherwise. Status 2: wrong use, or trouble with a file.
 */
#include <stdio.h>
#include <stdlib.h>
#include <string.h>

#include "capacity.h"

enum { FRONT = 13, LONGEST = 65536 };

static uint8_t front[FRONT], sheet[LONGEST], told[LONGEST], again[LONGEST];

static void stop(int status, const char *file, const char *what)
{
    fprintf(stderr, "readers: %s: %s\n", file, what);
    exit(status);
}

static uint8_t *put(uint8_t *at, uint64_t number, int bytes)
{
    for (int shift = 8 * (bytes - 1); shift >= 0; shift -= 8)
        *at++ = (uint8_t)(number >> shift);
    return at;
}

/* The bytes behind the head, from the figures that are read; their count. */
static size_t settled_again(const char *file)
{
    size_t rows = capacity_rows(sheet), consumers = capacity_consumers(sheet);
    uint64_t paid = 0, charged = 0;
    uint8_t *at = again;
    for (size_t i = 0; i < rows; i++) {
        struct capacity_row row = capacity_read_row(told, i);
        at = put(put(put(at, row.after_cut, 4), row.actual, 4), row.payment, 8);
        paid += row.payment;
    }
    for (size_t i = 0; i < consumers; i++) {
        struct capacity_consumer_line line = capacity_read_consumer(told, rows, i);
        at = put(put(put(at, line.credit, 4), line.percent, 4), line.band, 1);
        at = put(put(at, line.volume, 8), line.charge, 8);
        charged += line.charge;
    }
    struct capacity_totals totals = capacity_read_totals(told, rows, consumers);
    if (totals.paid != paid || totals.charged != charged)
        stop(1, file, "the totals read are not the sums of what was read");
    return (size_t)(put(put(at, totals.paid, 8), totals.charged, 8) - again);
}

/* The same under the text of 2015. */
static size_t settled_2015_again(const char *file)
{
    uint8_t *at = again;
    (void)file;
    for (size_t i = 0; i < capacity_consumers(sheet); i++) {
        struct capacity_line_2015 line = capacity_read_2015(told, i);
        at = put(put(put(at, line.factor, 1), line.volume, 8), line.charge, 8);
    }
    return (size_t)(at - again);
}

/* An entry: the bytes of its result's head, and what lays out those behind it. */
static const struct entry {
    const char *name;
    size_t head;
    size_t (*laid_again)(const char *file);
} entries[] = {
    {"settle", 5, settled_again},
    {"settle_2015", 4, settled_2015_again},
};

static const struct entry *entry_named(const char *name)
{
    for (size_t i = 0; i < sizeof entries / sizeof entries[0]; i++)
        if (strcmp(entries[i].name, name) == 0)
            return &entries[i];
    return NULL;
}

static void read_whole(FILE *in, uint8_t *bytes, size_t length, const char *file)
{
    if (length > LONGEST || fread(bytes, 1, length, in) != length)
        stop(2, file, "a case is too long or not whole");
}

int main(int count, char **words)
{
    size_t results = 0;
    const struct entry *entry = count < 3 ? NULL : entry_named(words[1]);
    if (entry == NULL) {
        fputs("usage: readers settle|settle_2015 FILE...\n", stderr);
        return 2;
    }
    for (int i = 2; i < count; i++) {
        FILE *in = fopen(words[i], "rb");
        if (in == NULL)
            stop(2, words[i], "cannot open it");
        while (fread(front, 1, FRONT, in) == FRONT) {
            size_t length = (size_t)capacity_number(front + 9, 4);
            read_whole(in, sheet, (size_t)capacity_number(front, 4), words[i]);
            if (front[8] != 0)
                continue;
            read_whole(in, told, length, words[i]);
            size_t head = entry->head;
            if (entry->laid_again(words[i]) + head != length || memcmp(again, told + head, length - head) != 0)
                stop(1, words[i], "the figures read do not give the stored bytes");
            results++;
        }
        fclose(in);
    }
    printf("%zu\n", results);
    return 0;
}
