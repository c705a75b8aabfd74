/*
 * What the two drivers of the module share (module.c and changed.c): buffers between pages without access, files of
 * cases, and how a broken promise is told.
 *
 * A buffer ends where a page without access begins, and the page before its first one has no access either. The bytes
 * before it in its first page are filled with a pattern: a call may not change them.
 *
 *   PROGRAM ENTRY IN OUT [FIRST]
 *
 * Status 1: the module broke a promise (the case's index is printed; the first case of the file has index FIRST, 0 if
 * it is not given). Status 2: wrong use, or trouble with a file.
 */
#ifndef ROOMS_H
#define ROOMS_H

#include <signal.h>
#include <stdarg.h>
#include <stdint.h>
#include <stdio.h>
#include <stdlib.h>
#include <string.h>
#include <sys/mman.h>
#include <unistd.h>

#include "capacity.h"

/* The most bytes of a buffer. */
#define ROOM ((size_t)1 << 20)

enum { KIND_DONE = 0, KIND_REFUSAL = 1 };
enum { BROKEN_PROMISE = 1, TROUBLE = 2 };

/* Pages that hold one buffer at their end; without access while they are not in use. */
struct room {
    const char *name;
    uint8_t *end;    /* where the page after them begins */
    uint8_t *page;   /* the first page in use */
    uint8_t *buffer;
    size_t length;
};

static size_t page_size;
static volatile unsigned long case_index;

static void stop(int status, const char *format, ...)
{
    va_list words;
    va_start(words, format);
    fputs("module: ", stderr);
    vfprintf(stderr, format, words);
    fputc('\n', stderr);
    va_end(words);
    exit(status);
}

/* The module reached past a buffer, or wrote to one that it may only read. Only what a signal handler may call. */
static void on_fault(int number)
{
    static const char words[] = "module: the call touched memory that it may not, or failed, in case ";
    char digits[24];
    size_t first = sizeof digits;
    unsigned long index = case_index;
    (void)number;
    digits[--first] = '\n';
    do {
        digits[--first] = (char)('0' + index % 10);
        index /= 10;
    } while (index > 0);
    if (write(STDERR_FILENO, words, sizeof words - 1) < 0 ||
        write(STDERR_FILENO, digits + first, sizeof digits - first) < 0)
        _exit(TROUBLE);
    _exit(BROKEN_PROMISE);
}

static void watch_for_faults(void)
{
    static const int signals[] = {SIGSEGV, SIGBUS, SIGILL, SIGFPE, SIGABRT};
    struct sigaction action;
    memset(&action, 0, sizeof action);
    action.sa_handler = on_fault;
    sigemptyset(&action.sa_mask);
    for (size_t i = 0; i < sizeof signals / sizeof signals[0]; i++)
        if (sigaction(signals[i], &action, NULL) != 0)
            stop(TROUBLE, "cannot watch for faults");
}

/* ---------------------------------------------------------------- rooms */

static void set_access(const struct room *room, int access)
{
    size_t length = (size_t)(room->end - room->page);
    if (length > 0 && mprotect(room->page, length, access) != 0)
        stop(TROUBLE, "cannot set the access to memory");
}

static struct room make_room(const char *name)
{
    struct room room = {name, NULL, NULL, NULL, 0};
    page_size = (size_t)sysconf(_SC_PAGESIZE);
    uint8_t *first = mmap(NULL, page_size + ROOM + page_size, PROT_NONE, MAP_PRIVATE | MAP_ANONYMOUS, -1, 0);
    if (first == MAP_FAILED)
        stop(TROUBLE, "there is not enough memory");
    room.end = first + page_size + ROOM;
    return room;
}

static uint8_t pattern_at(const uint8_t *place, const struct room *room)
{
    return (uint8_t)((size_t)(room->end - place) * 11 + case_index * 37 + 5);
}

/* Opens the last pages for a buffer, filled with the pattern. One of no bytes stands at the page without access. */
static void open_room(struct room *room, size_t length)
{
    size_t pages = (length + page_size - 1) / page_size;
    if (length > ROOM)
        stop(TROUBLE, "case %lu is longer than %zu bytes", case_index, ROOM);
    room->page = room->end - pages * page_size;
    room->buffer = room->end - length;
    room->length = length;
    set_access(room, PROT_READ | PROT_WRITE);
    for (uint8_t *place = room->page; place < room->end; place++)
        *place = pattern_at(place, room);
}

static void close_room(const struct room *room)
{
    set_access(room, PROT_NONE);
}

static void check_unchanged(const struct room *room, const uint8_t *from, const uint8_t *to, const char *where)
{
    for (const uint8_t *place = from; place < to; place++)
        if (*place != pattern_at(place, room))
            stop(BROKEN_PROMISE, "case %lu: the call changed byte %td of the %s, %s", case_index, place - room->buffer,
                 room->name, where);
}

/* ---------------------------------------------------------------- files */

/* Reads exactly this many bytes; 0 if the file ends before the first. */
static int read_whole(FILE *in, uint8_t *bytes, size_t length)
{
    size_t got = fread(bytes, 1, length, in);
    if (got == length)
        return 1;
    if (ferror(in))
        stop(TROUBLE, "reading failed");
    if (got == 0)
        return 0;
    stop(TROUBLE, "the last case of the file is not whole");
    return 0;
}

/* Fills a room that is open with the next bytes of a case. */
static void read_into(const struct room *room, FILE *in)
{
    if (room->length > 0 && !read_whole(in, room->buffer, room->length))
        stop(TROUBLE, "the last case of the file is not whole");
}

static void write_whole(FILE *out, const uint8_t *bytes, size_t length)
{
    if (fwrite(bytes, 1, length, out) != length)
        stop(TROUBLE, "writing failed");
}

static uint32_t four_bytes(const uint8_t *bytes)
{
    return (uint32_t)bytes[0] << 24 | (uint32_t)bytes[1] << 16 | (uint32_t)bytes[2] << 8 | bytes[3];
}

/* Whether an answer is a refusal of the sheet by itself. */
static int refuses_sheet(int64_t answer)
{
    return (answer <= -CAPACITY_NO_HEADER && answer >= -CAPACITY_BAD_FACTOR) || answer == -CAPACITY_BAD_DAYS;
}

/* An answer: the refusal's number, or the count of the bytes that follow. */
static void write_answer(FILE *out, int refused, uint32_t number, const uint8_t *bytes)
{
    uint8_t front[5] = {refused ? KIND_REFUSAL : KIND_DONE, (uint8_t)(number >> 24), (uint8_t)(number >> 16),
                        (uint8_t)(number >> 8), (uint8_t)number};
    write_whole(out, front, sizeof front);
    if (!refused)
        write_whole(out, bytes, number);
}

/* ---------------------------------------------------------------- command */

static unsigned long index_from(const char *word)
{
    char *rest;
    unsigned long index = strtoul(word, &rest, 10);
    if (*word < '0' || *word > '9' || *rest != '\0')
        stop(TROUBLE, "FIRST is to be a number");
    return index;
}

/* Which of two entries a command names. */
static size_t entry_named(int count, char **words, const char *const names[2])
{
    for (size_t i = 0; count > 1 && i < 2; i++)
        if (strcmp(words[1], names[i]) == 0)
            return i;
    stop(TROUBLE, "usage: %s %s|%s IN OUT [FIRST]", words[0], names[0], names[1]);
    return 0;
}

/* Answers all cases of a file. A case begins with two lengths. */
static int answer_file(int count, char **words, void (*answer_case)(FILE *in, FILE *out, const uint8_t lengths[8]))
{
    uint8_t lengths[8];
    if (count != 4 && count != 5)
        stop(TROUBLE, "usage: %s ENTRY IN OUT [FIRST]", words[0]);
    unsigned long first = count == 5 ? index_from(words[4]) : 0;
    FILE *in = fopen(words[2], "rb");
    if (in == NULL)
        stop(TROUBLE, "cannot open %s", words[2]);
    FILE *out = fopen(words[3], "wb");
    if (out == NULL)
        stop(TROUBLE, "cannot write %s", words[3]);
    watch_for_faults();
    for (case_index = first; read_whole(in, lengths, sizeof lengths); case_index++)
        answer_case(in, out, lengths);
    if (fclose(out) != 0)
        stop(TROUBLE, "writing failed");
    fclose(in);
    return 0;
}

#endif
