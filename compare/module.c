/*
 * Settles the cases of a file through one of the module's C entries, and checks what a call leaves in memory (rooms.h).
 *
 *   module settle|settle_2015 IN OUT [FIRST]
 *
 * IN holds cases one after another: sheet length (4 bytes, highest first), result buffer length (4), the sheet's bytes.
 * OUT gets for each case: kind (1 byte: 0 result, 1 refusal), byte count or refusal number (4), for kind 0 the result.
 *
 * The sheet's pages are read-only during the call. The result buffer is filled with a pattern: what the call may not
 * write must be as before, and after a refusal that is the whole buffer.
 */
#define _DEFAULT_SOURCE
#include <inttypes.h>

#include "rooms.h"

/* An entry, with the length of its longest result. */
struct entry {
    int64_t (*call)(const uint8_t *, size_t, uint8_t *, size_t);
    int64_t largest;
};

static const char *const names[2] = {"settle", "settle_2015"};
static const struct entry entries[2] = {
    {capacity_settle, CAPACITY_LARGEST_RESULT},
    {capacity_settle_2015, CAPACITY_LARGEST_RESULT_2015},
};

static const struct entry *entry;
static struct room sheet, result;

static int64_t settle_and_check(void)
{
    int64_t answer = entry->call(sheet.buffer, sheet.length, result.buffer, result.length);
    if (!refuses_sheet(answer) && (answer <= 0 || answer > entry->largest))
        stop(BROKEN_PROMISE, "case %lu: the answer %" PRId64 " is neither a refusal nor a count", case_index, answer);
    if (answer > 0 && (uint64_t)answer > result.length)
        stop(BROKEN_PROMISE, "case %lu: the answer is %" PRId64 " bytes, the result buffer has %zu", case_index, answer,
             result.length);
    check_unchanged(&result, result.page, result.buffer, "which is before it");
    if (answer < 0)
        check_unchanged(&result, result.buffer, result.end, "after a refusal");
    else
        check_unchanged(&result, result.buffer + answer, result.end, "past the result");
    return answer;
}

static void settle_case(FILE *in, FILE *out, const uint8_t lengths[8])
{
    open_room(&sheet, four_bytes(lengths));
    read_into(&sheet, in);
    set_access(&sheet, PROT_READ);
    open_room(&result, four_bytes(lengths + 4));
    int64_t answer = settle_and_check();
    write_answer(out, answer < 0, (uint32_t)(answer < 0 ? -answer : answer), result.buffer);
    close_room(&result);
    close_room(&sheet);
}

int main(int count, char **words)
{
    entry = &entries[entry_named(count, words, names)];
    sheet = make_room("sheet");
    result = make_room("result buffer");
    return answer_file(count, words, settle_case);
}
