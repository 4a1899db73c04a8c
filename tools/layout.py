"""Lays cards and lists out by tools/paper.py's table of fields, and stored ones anew where the table has changed.

A stored input has the layout that tools/stored_layout.json describes. Each of its records, a card's line or a list's doubles of one
line, gets the table's fields in the table's order; a field that the stored layout has not is given what its `older` says. An input may
be damaged on purpose: what is wrong inside a whole record stays in its field, and from the first record on that is not whole, all stays
as it is.
"""
import struct

import paper
from paper import BLANK, COLUMNS, LINE_FEED


def double_of(word):
    """The double whose bits are 16 hexadecimal digits."""
    return struct.unpack(">d", bytes.fromhex(word))[0]


def word_of(double):
    """The 16 hexadecimal digits of a double's bits."""
    return struct.pack(">d", double).hex()


def in_units(field, number):
    """A field's number as a list has it."""
    return number / paper.TICKS if field.ticks else float(number)


# Members laid out by the table


def card_of(head, *body):
    """The card of a head and what follows it, part by part: the segments of the first path, those of the second, ages."""
    lines = [[getattr(head, field.name) for field in line] for line in paper.LINES]
    text = ["".join("%*s" % (COLUMNS, number) for number in line) for line in sum(map(list, body), lines)]
    return "".join(line + "\n" for line in text).encode()


def list_of(card):
    """The doubles of a good card, line by line."""
    head, *_ = paper.read_card(card)
    numbers = iter(paper.numbers_of_card(card))
    return [[in_units(field, next(numbers)) for field in line] for line in paper.lines_of(head._asdict())]


def start_of(name):
    """The byte of a card at which a field of the head begins."""
    lines_before = next(i for i, line in enumerate(paper.LINES) if name in [field.name for field in line])
    return COLUMNS * (paper.NUMBER[name] - 1) + len(LINE_FEED) * lines_before


# Stored inputs laid out anew


def described():
    """The table's layout, as it is kept for the stored inputs."""
    names = lambda fields: [field.name for field in fields]
    return {
        "head": [names(line) for line in paper.LINES],
        "body": {count: names(fields) for count, fields in paper.BODY.items()},
        "blank": {field.name: field.blank for field in paper.HEAD if field.blank is not None},
        "room of an age": {"report": paper.REPORT_NUMBERS_OF_AGE, "scratch": paper.SCRATCH_NUMBERS_OF_AGE},
    }


class StoredCard:
    """The records of a card are its lines, their parts columns of bytes."""

    def __init__(self, card):
        self.rest = card

    def take(self, fields):
        """The parts of the next record, or nothing where it is not whole."""
        width = COLUMNS * fields
        if self.rest[width : width + len(LINE_FEED)] != LINE_FEED:
            return None
        line, self.rest = self.rest[:width], self.rest[width + len(LINE_FEED) :]
        return [line[at : at + COLUMNS] for at in range(0, width, COLUMNS)]

    def laid(self, parts):
        return b"".join(parts) + LINE_FEED

    def part(self, field, number):
        return b"%*d" % (COLUMNS, number)

    def count(self, part):
        digits = part.strip()
        return int(digits) if digits.isdigit() else 0


class StoredList:
    """The records of a list are the doubles of one line of a card, its parts the digits of their bits."""

    def __init__(self, words):
        self.rest = words

    def take(self, fields):
        if len(self.rest) < fields:
            return None
        parts, self.rest = self.rest[:fields], self.rest[fields:]
        return parts

    def laid(self, parts):
        return parts

    def part(self, field, number):
        return word_of(in_units(field, number))

    def count(self, part):
        double = double_of(part)
        return int(double) if 0 <= double < 2**31 else 0


def relaid_part(source, field, parts, stored):
    """A field's part of a record whose stored parts are these, by name."""
    if field.name not in parts:
        if field.older is None:
            raise SystemExit("%s is not in the stored layout, and has no `older` in tools/paper.py" % field.name)
        return source.part(field, field.older)
    read = stored["blank"].get(field.name)
    if parts[field.name] == BLANK and read is not None and read != field.blank:
        return source.part(field, read)
    return parts[field.name]


def relaid(source, stored):
    """A stored input in the table's layout."""
    laid, head = source.rest[:0], {}

    def records():
        yield from zip(stored["head"], paper.LINES)
        for count, names in stored["body"].items():
            for _ in range(source.count(head[count])):
                yield names, paper.BODY[count]

    for names, fields in records():
        parts = source.take(len(names))
        if parts is None:
            break
        named = dict(zip(names, parts))
        head = {**named, **head}
        laid += source.laid([relaid_part(source, field, named, stored) for field in fields])
    return laid + source.rest


def relaid_card(card, stored):
    return relaid(StoredCard(card), stored)


def relaid_list(words, stored):
    return relaid(StoredList(words), stored)


def relaid_rooms(rooms, words, stored):
    """The rooms of a stored list, as far above or below what its ages need as they were."""
    names = sum(stored["head"], [])
    ages = StoredList(words).count(words[names.index("ages")]) if len(words) >= len(names) else 0
    if ages > paper.MOST_AGES:
        return rooms
    needs = [(described()["room of an age"][buffer], need) for buffer, need in stored["room of an age"].items()]
    return [max(0, room + (now - before) * ages) for room, (now, before) in zip(rooms, needs)]
