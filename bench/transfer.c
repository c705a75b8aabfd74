/*
 * Request 1 of document 02 by hand, for speed: gcc -O3 for the processor that bench/run names, no intrinsics.
 *
 * Nothing is allocated and no state is kept. The sheet's numbers come first. Then each entry is tried and applied to the
 * sheet itself, all in one pass; where one cannot be applied, those before it are taken back.
 */
#include "transfer.h"
#include "numbers.h"

enum { FRONT = 5, ENTRY = 7, LAST_DAY_TO_FILE = 20, LAST_DAY = 31 };

/* ---------------------------------------------------------------- the list */

/* Number 13, before the entries. */
static inline bool bad_front(const uint8_t *list, size_t length)
{
    return length < FRONT || load4(list) != length || (length - FRONT) % ENTRY != 0 || list[4] != 1;
}

/* Numbers 13 to 15, where at least one applies: 15, if neither 13 nor 14 does from this entry on. */
static inline int entry_refusal(const uint8_t *at, const uint8_t *end, uint32_t consumers)
{
    bool late = false;
    for (; at != end; at += ENTRY) {
        if (at[0] < 1 || at[0] > LAST_DAY || at[1] >= consumers || at[2] >= consumers || at[1] == at[2])
            return 13;
        late |= at[0] > LAST_DAY_TO_FILE;
    }
    return late ? 14 : 15;
}

/* Where a consumer's contract volume stands. */
static inline uint8_t *contract(uint8_t *consumers, uint32_t name)
{
    return consumers + (size_t)CONSUMER * name;
}

/* Applies an entry, unless 13, 14 or 15 does. */
static inline bool apply(uint8_t *consumers, uint32_t count, const uint8_t *at)
{
    uint32_t giver = at[1], taker = at[2];
    if ((uint32_t)at[0] - 1 >= LAST_DAY_TO_FILE || giver >= count || taker >= count || giver == taker)
        return false;
    uint8_t *from = contract(consumers, giver), *to = contract(consumers, taker);
    uint32_t amount = load4(at + 3), has = load4(from), after = load4(to) + amount;
    if (amount > has || after > TOP_CAPACITY)
        return false;
    store4(from, has - amount);
    store4(to, after);
    return true;
}

static inline void take_back(uint8_t *consumers, const uint8_t *at)
{
    uint8_t *from = contract(consumers, at[1]), *to = contract(consumers, at[2]);
    uint32_t amount = load4(at + 3);
    store4(from, load4(from) + amount);
    store4(to, load4(to) - amount);
}

/* ---------------------------------------------------------------- the transfers */

int64_t c_transfer(uint8_t *sheet, size_t sheet_length, const uint8_t *list, size_t list_length)
{
    struct header h;
    int refusal = sheet_refusal(&h, sheet, sheet_length);
    if (refusal != 0)
        return -refusal;
    if (bad_front(list, list_length))
        return -13;

    uint8_t *consumers = sheet + (h.consumer - sheet);
    const uint8_t *first = list + FRONT, *end = list + list_length, *at = first;
    while (at != end && apply(consumers, h.consumers, at))
        at += ENTRY;
    if (at == end)
        return 0;
    refusal = entry_refusal(at, end, h.consumers);
    while (at != first)
        take_back(consumers, at -= ENTRY);
    return -refusal;
}
