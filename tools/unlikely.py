"""What a sheet may have, but a month hardly ever has: slips that no rule refuses. An aid for people."""
from collections import Counter

from records import CAPACITY, PRODUCER_FIELDS, SINGLE_BUYER, hour_words

FAR_ABOVE = 3, 2    # a peak above one and a half times the contract volume


def unlikely(sheet, names):
    """Each in words, in the sheet's order. The sheet may be one that is refused."""
    if sheet.month.days in range(28, 32) and not sheet.month.control_hours():
        yield "the month has no control hour, since every day from Monday to Friday is a holiday"
    for number, producer in enumerate(sheet.producers):
        for words in of_producer(producer, any(row.producer == number for row in sheet.rows)):
            yield f"{names.label('producer', number)}: {words}"
    for number, row in enumerate(sheet.rows):
        for words in of_row(row, sheet.rows[:number], sheet.month):
            yield f"row {number}: {words}"
    buyers = {row.consumer for row in sheet.rows} - {SINGLE_BUYER}
    for number, consumer in enumerate(sheet.consumers):
        for words in of_consumer(consumer, number in buyers):
            yield f"{names.label('consumer', number)}: {words}"
    for kind in ("producer", "consumer"):
        for name, count in Counter(getattr(names, kind).values()).items():
            if count > 1:
                yield f"{count} {kind}s have the name {name}"


def of_producer(producer, has_rows):
    if not has_rows:
        yield "no row names it"
    yield from of_noughts(attested_capacity=producer.attested)
    for field, figure in zip(PRODUCER_FIELDS[-len(producer.given):], producer.given):
        if figure == 0:
            yield f"{field.words} is 0, so its rows bring nothing"
    if len(set(zip(*producer.powers()))) == 1:
        yield f"all {len(producer.working)} hours are equal"
    above = [hour for hour, powers in enumerate(zip(producer.working, producer.possible)) if powers[0] > powers[1]]
    if above:
        first = above[0]
        yield (f"working power is above possible power in {count_of(above, 'hour')}, the first {hour_words(first)}: "
               f"{CAPACITY.text(producer.working[first])} MW and {CAPACITY.text(producer.possible[first])} MW")


def of_row(row, before, month):
    yield from of_noughts(volume=row.volume, price=row.price)
    for number, other in enumerate(before):
        if (other.producer, other.consumer) == (row.producer, row.consumer) and on_other_days(row, other, month):
            yield (f"it has the producer and the buyer of row {number}, on other days; "
                   "in the cut, T and S both count as if they covered the month")


def on_other_days(row, other, month):
    first, last = row.days(month)
    other_first, other_last = other.days(month)
    return last < other_first or other_last < first


def of_consumer(consumer, named):
    yield from of_noughts(price=consumer.price)
    if not named and FAR_ABOVE[1] * consumer.peak > FAR_ABOVE[0] * consumer.contract:
        yield (f"no row names it, and its peak is far above its contract volume: "
               f"{CAPACITY.text(consumer.peak)} MW and {CAPACITY.text(consumer.contract)} MW")


def of_noughts(**figures):
    found = [name.replace("_", " ") for name, figure in figures.items() if figure == 0]
    if found:
        yield f"{' and '.join(found)} {'is' if len(found) == 1 else 'are'} 0"


def count_of(things, word):
    return f"{len(things)} {word}" + ("" if len(things) == 1 else "s")
