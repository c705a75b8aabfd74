/*
 * Changes the sheets of a file of cases through one of the module's C entries, and checks what a call leaves in memory
 * (rooms.h).
 *
 *   changed transfer|average IN OUT [FIRST]
 *
 * IN holds cases one after another: sheet length (4 bytes, highest first), length of the list of transfers or of the
 * complex's record (4), the sheet, the list or record.
 * OUT gets for each case: kind (1 byte: 0 done, 1 refusal), sheet length or refusal number (4), for kind 0 the sheet.
 *
 * The pages of list or record are read-only during the call. After a refusal every byte of the sheet must be as before;
 * the bytes before the sheet in its first page always.
 */
#define _DEFAULT_SOURCE
#include <inttypes.h>

#include "rooms.h"

/* An entry, with the first and the last of the numbers that only it answers. */
struct entry {
    const char *given;
    int64_t (*call)(uint8_t *, size_t, const uint8_t *, size_t);
    int64_t first, last;
};

static const char *const names[2] = {"transfer", "average"};
static const struct entry entries[2] = {
    {"list", capacity_transfer, CAPACITY_BAD_LIST, CAPACITY_OVERDRAWN},
    {"record", capacity_average, CAPACITY_BAD_RECORD, CAPACITY_HIGH_POWER},
};

static const struct entry *entry;
static struct room sheet, given;
static uint8_t before[ROOM]; /* the sheet as it was */

static void check_kept(void)
{
    for (size_t i = 0; i < sheet.length; i++)
        if (sheet.buffer[i] != before[i])
            stop(BROKEN_PROMISE, "case %lu: the call changed byte %zu of the sheet, after a refusal", case_index, i);
}

static int is_answer(int64_t answer)
{
    int of_sheet = refuses_sheet(answer) && answer != -CAPACITY_SHORT_BUFFER;
    return answer == 0 || of_sheet || (answer <= -entry->first && answer >= -entry->last);
}

static int64_t change_and_check(void)
{
    int64_t answer = entry->call(sheet.buffer, sheet.length, given.buffer, given.length);
    if (!is_answer(answer))
        stop(BROKEN_PROMISE, "case %lu: the answer %" PRId64 " is neither 0 nor a refusal", case_index, answer);
    check_unchanged(&sheet, sheet.page, sheet.buffer, "which is before it");
    if (answer < 0)
        check_kept();
    return answer;
}

static void change_case(FILE *in, FILE *out, const uint8_t lengths[8])
{
    open_room(&sheet, four_bytes(lengths));
    read_into(&sheet, in);
    memcpy(before, sheet.buffer, sheet.length);
    open_room(&given, four_bytes(lengths + 4));
    read_into(&given, in);
    set_access(&given, PROT_READ);
    int64_t answer = change_and_check();
    write_answer(out, answer < 0, (uint32_t)(answer < 0 ? -answer : (int64_t)sheet.length), sheet.buffer);
    close_room(&given);
    close_room(&sheet);
}

int main(int count, char **words)
{
    entry = &entries[entry_named(count, words, names)];
    sheet = make_room("sheet");
    given = make_room(entry->given);
    return answer_file(count, words, change_case);
}
