"""Damaged records, which the replay programs must report: the end of each stored list. And what a program prints of its list.

Of a list's good records the shortest of each sort is damaged (`sort_of`): each number of its answer made one more and one less (of
the 101 bytes of a rendered text the first, the middle and the last), a number dropped at the end, a number added there; in endgame
the last listed move dropped and doubled, and the first two swapped; in eval and search the draw winner made a letter that is none; in
these three each field made letters that can't be read as what it is, and a field dropped and added. Then come lines that are no records:
letters, a kind that there is not, nothing at all, and a good record that zeros make too long, after which no line feed comes. lists.py
says what a record holds.
"""
import re
from lists import LONGEST, RECORDS

# What a program says of the records that hold document 01's answer and not the Rust's.
SAID = {
    "game": "with document 01's list of moves for the Rust's",
    "notation": "with document 01's answer for the Rust's",
    "eval": "",
    "endgame": "with document 01's refusal for the Rust's answer",
    "search": "refused as document 01 says (15 to 18)",
}


def numbers_of(field):
    return [int(word) for word in field.split()]


def play_at(numbers):
    """Where a play's number of tries stands, and where what is expected at its end begins."""
    tries = {1: 1, 2: 12}[numbers[0]]
    return tries, tries + 1 + 2 * numbers[tries]


def game_sort(numbers):
    kind = numbers[0]
    if kind < 3:
        tries, end = play_at(numbers)
        refused = any(numbers[tries + 1 + numbers[tries]:end])
        side, apart = numbers[end + 10], numbers[end + 14]
        return ((kind,) if apart else (kind, side)) if refused else None
    if kind == 3:
        return kind, *numbers[23:]
    return (kind,) if numbers[-1] else None


def notation_sort(numbers):
    kind, size = numbers[:2]
    if kind in (4, 6):
        return kind, numbers[size + 2], size + 5 == len(numbers) and numbers[size + 3] > 0
    if kind == 5:
        return kind, numbers[-2]
    if kind == 9:
        return (kind,) if size else None
    return (kind, *(n > 0 for n in numbers[2:])) if kind == 12 else (kind, numbers[-1] > 0)


def sort_of(name, fields):
    """What sort of record this is; None for one that shows too little."""
    if name == "game":
        return game_sort(fields)
    if name == "notation":
        return notation_sort(fields)
    if name == "eval":
        return fields[1], fields[2][:1] == "-", fields[2] == "0"
    if name == "endgame":
        refusal, status, *_ = numbers = numbers_of(fields[1])
        return refusal, status, numbers[9], numbers[4] > 0, len(numbers) > 11
    ending, _, depth, below, *_ = last = numbers_of(fields[-1])
    if len(fields) > 7:
        return "several", ending
    cuts_and_hits = [sum(last[9 + depth + k::8]) > 0 for k in (5, 6, 7)]
    return ending, below, all(cuts_and_hits)


def answer_places(numbers):
    """The places of a record's answer among its numbers (game and notation)."""
    kind = numbers[0]
    if kind < 3:
        tries, end = play_at(numbers)
        return [*range(tries + 1 + numbers[tries], end), *range(end, len(numbers))]
    if kind in (4, 6):
        return range(len(numbers) - 3, len(numbers))
    if kind in (5, 9):
        render = numbers[1] + 2
        return [render, render + 50, render + 100, *range(render + 101, len(numbers))]
    return range({3: 23, 7: 2, 8: 3, 10: 12, 11: 3, 12: 2}[kind], len(numbers))


def changed(numbers, places):
    """One of the numbers one more or one less; the last dropped; one added."""
    for place in places:
        for n in (numbers[place] + 1, numbers[place] - 1):
            if n >= 0:
                yield numbers[:place] + [n] + numbers[place + 1:]
    yield numbers[:-1]
    yield numbers + [0]


def endgame_changed(numbers):
    """At any place; then the last listed move, three numbers, dropped and doubled, and the first two swapped."""
    yield from changed(numbers, range(len(numbers)))
    yield numbers[:-3]
    yield numbers + numbers[-3:]
    if len(numbers) > 11:
        yield numbers[:8] + numbers[11:14] + numbers[8:11] + numbers[14:]


def search_changed(numbers):
    """Any but the sign of a score that is 0."""
    signs = [3, *range(9 + numbers[2] + 1, len(numbers), 8)]
    yield from changed(numbers, [i for i in range(len(numbers)) if i not in signs or numbers[i + 1] > 0])


def changed_within(fields, at, changes):
    for damaged in changes(numbers_of(fields[at])):
        yield fields[:at] + [" ".join(map(str, damaged))] + fields[at + 1:]


def damaged_record(name, fields):
    if name in ("game", "notation"):
        yield from changed(fields, answer_places(fields))
        yield [0] + fields[1:]
        return
    if name == "eval":
        yield from (fields[:2] + [str(int(fields[2]) + n)] for n in (1, -1))
    elif name == "endgame":
        yield from changed_within(fields, 1, endgame_changed)
    else:
        for at in range(6, len(fields), 3):
            yield from changed_within(fields, at, search_changed)
    if name != "endgame":
        yield fields[:1] + ["Y"] + fields[2:]
    for at in range(len(fields)):
        yield fields[:at] + ["no"] + fields[at + 1:]
    yield fields[:-1]
    yield fields + ["0"]


def too_long(record):
    """The record with so many zeros before its last number that it is one byte longer than the programs read."""
    return re.sub(r"(\d+)$", lambda m: m[0].zfill(LONGEST + 1 - m.start()), record)


def damaged(name, records):
    """The lines that go to the end of a list of good records."""
    part, shortest = RECORDS[name][0], {}
    for record in sorted(records, key=len):
        fields = numbers_of(record) if part == " " else record.split(part)
        sort = sort_of(name, fields)
        if sort is not None:
            shortest.setdefault(sort, fields)
    made = [part.join(map(str, bad)) for fields in shortest.values() for bad in damaged_record(name, fields)]
    made += ["no record", "0", "", too_long(min(records, key=len))]
    assert not set(made) & set(records)
    return made


def is_apart(name, record):
    """Whether a good record holds document 01's answer and not the Rust's."""
    if name == "eval":
        return False
    if name == "search":
        return any(numbers_of(field)[0] >= 15 for field in record.split("\t")[6::3])
    numbers = numbers_of(record.split("\t")[-1])
    if name == "endgame":
        return numbers[0] == 14 or numbers[9] == 10
    if name == "game":
        return numbers[0] < 3 and numbers[play_at(numbers)[1] + 14] == 1
    if numbers[0] != 4:
        return False
    number, offset = numbers[numbers[1] + 2:][:2]
    return number == 1 or (number == 5 and numbers[offset + 2] > 127)


def printed(name, good, bad):
    """What the program prints of the good records and the damaged ones after them."""
    apart = sum(is_apart(name, record) for record in good)
    differing = [f"differs: record {n + 1}\n" for n in range(len(good), len(good) + len(bad))]
    said = f", {apart} of them {SAID[name]}" if apart else ""
    return "".join(differing) + f"{len(good)} of {len(good) + len(bad)} records agree{said}\n"
