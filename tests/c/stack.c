/*
 * How much stack the entries use.
 *
 *   stack settle FILE...        files of stored cases (crates/vectors/data; compare/README.md has their format)
 *   stack settle_2015 FILE...   files of stored cases under the text of 2015 (crates/vectors/data/text_2015_*)
 *   stack transfer FILE...      files of stored lists (crates/vectors/data/transfers)
 *   stack average FILE...       files of stored records (crates/vectors/data/averages)
 *
 * The stored sheets are of all versions. Each case is answered on a stack of its own that was painted before: bytes
 * that lost the paint were used, the return address among them. That is done with two paints, since a byte written over
 * with itself is not seen. The answer and what the call writes must be as stored. It prints how many cases there were,
 * the longest sheet, and the most bytes used.
 *
 * Status 1: another answer than the stored one. Status 2: wrong use, or trouble with a file. x86-64, GCC or Clang.
 */
#include <stdio.h>
#include <stdlib.h>
#include <string.h>

#include "capacity.h"

enum { STACK = 65536, LONGEST = 65536, FRONT = 13 };

struct stored {
    uint8_t front[FRONT]; /* sheet length (4), length of buffer, list or record (4), kind (1), count or number (4) */
    uint8_t sheet[LONGEST];
    uint8_t given[LONGEST]; /* the list or record */
    uint8_t told[LONGEST]; /* the result, or the sheet afterwards */
};

static struct stored stored;

/* What a call may write to. */
static uint8_t lent[LONGEST];

/* A stack begins at an address that 16 divides, as the calling convention asks. */
static uint8_t stack[STACK] __attribute__((aligned(16)));

static void stop(int status, const char *file, const char *what)
{
    fprintf(stderr, "stack: %s: %s\n", file, what);
    exit(status);
}

static size_t four_bytes(const uint8_t *bytes)
{
    return (size_t)bytes[0] << 24 | (size_t)bytes[1] << 16 | (size_t)bytes[2] << 8 | bytes[3];
}

static size_t sheet_length(void)
{
    return four_bytes(stored.front);
}

/* The length of the result buffer, of the list or of the record. */
static size_t second_length(void)
{
    return four_bytes(stored.front + 4);
}

static int refused(void)
{
    return stored.front[8] != 0;
}

static size_t number(void)
{
    return four_bytes(stored.front + 9);
}

/* A call with two buffers and the stack pointer at the end of `stack`. It keeps rbx, where the old one stands then. */
static int64_t call_on_stack(void (*entry)(void), const uint8_t *first, size_t first_length, const uint8_t *second,
                             size_t second_length)
{
    int64_t answer;
    __asm__ volatile("movq %%rsp, %%rbx\n\t"
                     "movq %[top], %%rsp\n\t"
                     "call *%[entry]\n\t"
                     "movq %%rbx, %%rsp"
                     : "=a"(answer), "+D"(first), "+S"(first_length), "+d"(second), "+c"(second_length)
                     : [top] "r"(stack + STACK), [entry] "r"(entry)
                     : "rbx", "r8", "r9", "r10", "r11", "xmm0", "xmm1", "xmm2", "xmm3", "xmm4", "xmm5", "xmm6", "xmm7",
                       "xmm8", "xmm9", "xmm10", "xmm11", "xmm12", "xmm13", "xmm14", "xmm15", "cc", "memory");
    return answer;
}

/* ---------------------------------------------------------------- entries */

struct entry {
    const char *name;
    int64_t (*call)(void);        /* on the painted stack */
    size_t (*given_length)(void); /* the bytes that stand behind the sheet in a case */
    size_t (*written)(void);      /* the bytes of `told`; after the call they must be in `lent` */
};

/* An entry that settles into a result buffer. */
static int64_t settle_by(void (*entry)(void))
{
    return call_on_stack(entry, stored.sheet, sheet_length(), lent, second_length());
}

static int64_t settle(void)
{
    return settle_by((void (*)(void))capacity_settle);
}

static int64_t settle_2015(void)
{
    return settle_by((void (*)(void))capacity_settle_2015);
}

static size_t nothing_given(void)
{
    return 0;
}

static size_t result_length(void)
{
    return refused() ? 0 : number();
}

/* An entry that changes the sheet in place. */
static int64_t change(void (*entry)(void))
{
    memcpy(lent, stored.sheet, sheet_length());
    return call_on_stack(entry, lent, sheet_length(), stored.given, second_length());
}

static int64_t transfer(void)
{
    return change((void (*)(void))capacity_transfer);
}

static int64_t average(void)
{
    return change((void (*)(void))capacity_average);
}

static const struct entry entries[] = {
    {"settle", settle, nothing_given, result_length},
    {"settle_2015", settle_2015, nothing_given, result_length},
    {"transfer", transfer, second_length, sheet_length},
    {"average", average, second_length, sheet_length},
};

static const struct entry *entry_named(const char *name)
{
    for (size_t i = 0; i < sizeof entries / sizeof entries[0]; i++)
        if (strcmp(entries[i].name, name) == 0)
            return &entries[i];
    return NULL;
}

/* ---------------------------------------------------------------- cases */

/* Answers the stored case on a stack of this paint; the bytes used. */
static size_t used_by(const struct entry *entry, uint8_t paint, const char *file)
{
    size_t first = 0;
    memset(stack, paint, sizeof stack);
    int64_t answer = entry->call();
    if (answer != (refused() ? -(int64_t)number() : (int64_t)number()))
        stop(1, file, "the answer is not the stored one");
    if (memcmp(lent, stored.told, entry->written()) != 0)
        stop(1, file, "what the call wrote is not what is stored");
    while (first < sizeof stack && stack[first] == paint)
        first++;
    return sizeof stack - first;
}

static void read_whole(FILE *in, uint8_t *bytes, size_t length, const char *file)
{
    if (length > LONGEST || fread(bytes, 1, length, in) != length)
        stop(2, file, "a case is too long or not whole");
}

/* Reads the next case; 0 at the end of the file. */
static int next_case(FILE *in, const struct entry *entry, const char *file)
{
    size_t got = fread(stored.front, 1, FRONT, in);
    if (got == 0 && feof(in))
        return 0;
    if (got != FRONT || second_length() > LONGEST)
        stop(2, file, "a case is too long or not whole");
    read_whole(in, stored.sheet, sheet_length(), file);
    read_whole(in, stored.given, entry->given_length(), file);
    read_whole(in, stored.told, entry->written(), file);
    return 1;
}

static size_t larger(size_t a, size_t b)
{
    return a > b ? a : b;
}

int main(int count, char **words)
{
    size_t cases = 0, longest = 0, used = 0;
    const struct entry *entry = count < 3 ? NULL : entry_named(words[1]);
    if (entry == NULL) {
        fputs("usage: stack settle|settle_2015|transfer|average FILE...\n", stderr);
        return 2;
    }
    for (int i = 2; i < count; i++) {
        FILE *in = fopen(words[i], "rb");
        if (in == NULL)
            stop(2, words[i], "cannot open it");
        for (; next_case(in, entry, words[i]); cases++) {
            longest = larger(longest, sheet_length());
            used = larger(used, used_by(entry, 0xA5, words[i]));
            used = larger(used, used_by(entry, 0x5A, words[i]));
        }
        fclose(in);
    }
    printf("%zu %zu %zu\n", cases, longest, used);
    return 0;
}
