"""The method of documents 01 and 02, written from the papers with whole numbers and fractions. It shares nothing with the core.

`card_answer(card)` is what the report program prints for a card, `list_answer(..)` what a run of a list of doubles gives,
`sheet_answer(card)` what the sheet program prints for a card, `lent_sheet(..)` what a sheet with some room gives; every stored answer is
held to them. The fields stand in one table, `LINES`, `SEGMENT` and `AGE`, and all else goes by their names: to add a field, add it there,
with what the stored inputs take for it, and let tools/stored_answers.py --write lay them out anew.
"""
import struct
from collections import namedtuple
from enum import IntEnum
from fractions import Fraction
from itertools import islice
from math import floor, isfinite, isqrt
from typing import NamedTuple

T = 1 << 24
TICKS = 1024
DAY = 24
FOOT = 12
LIFE = 438000

SCF = [(1, 105), (2, 96), (3, 87), (4, 77), (5, 68)]
SSF = [(1, 104), (2, 96), (3, 86), (4, 77), (5, 69), (6, 60)]
MCF = [(3, 114), (5, 107), (7, 100), (10, 96), (20, 84), (30, 72), (40, 60)]
CREEP_SHARES = list(zip([0, 1, 2, 5, 7, 10, 20, 30, 60, 90, 180, 365], [0, 8, 15, 18, 23, 24, 30, 35, 45, 51, 61, 74]))
SHRINKAGE_SHARES = list(zip([0, 1, 3, 5, 7, 10, 20, 30, 60, 90, 180, 365], [0, 8, 15, 20, 22, 27, 36, 42, 55, 62, 68, 86]))

PRETENSIONED, POST_TENSIONED = 1, 2
STRESS_RELIEVED, LOW_RELAXATION = 1, 2
MOIST, ACCELERATED = 1, 2
NORMAL, LIGHTWEIGHT = 1, 2
STRAIGHT, PARABOLA, BEND = 1, 2, 3

MOST_MOMENTS = 2**40
MOST_X = 3 * T // 2  # 1.5 T, of document 02's W3
MOST_KAPPA = 2**30
MOST_CREEP = 2**56
LEAST_STRESS = 1000 * TICKS
MOST_APART = TICKS  # a foot, of document 02's W9
MOST_CURING_IF_MOIST = 168
LEAST_TRANSFER = {MOIST: 72, ACCELERATED: 1}
MOST_TRANSFER = 960

# The power of X up to which document 02's W3 goes for e to the power -X/T.
POWERS = 15

# The measurable part of an elongation: document 002, example 1.
MEASURABLE = Fraction(80, 100)


# The table of fields


class Field(NamedTuple):
    """A field: its name; the ends of its range, of which the upper one may depend on the head; its codes; whether it is kept in ticks;
    what it reads where it is blank; and, of a field that came later, what the inputs take that were stored before it."""

    name: str
    least: int = None
    most: object = None
    codes: tuple = ()
    ticks: bool = False
    blank: int = None
    older: int = None

    def range(self, head):
        """The ends of the range on a card with this head."""
        return self.least, self.most(head) if callable(self.most) else self.most


# The lines of a card's head. A field's number is its place among them all, from 1.
LINES = (
    (
        Field("kind", codes=(PRETENSIONED, POST_TENSIONED)),
        Field("steel", codes=(STRESS_RELIEVED, LOW_RELAXATION)),
        Field("ultimate_strength", 100000, 300000),
        Field("jacking_stress", 1000, lambda head: head.ultimate_strength * 4 // 5),
        Field("deflector_loss", 0, lambda head: 20000 if head.kind == PRETENSIONED else 0),
        Field("slip", 0, 2048, ticks=True, blank=384),
        Field("length", 1024, 2097152, ticks=True),
    ),
    (
        Field("cure", codes=(MOIST, ACCELERATED)),
        Field("concrete", codes=(NORMAL, LIGHTWEIGHT)),
        Field("es", 20000000, 32000000),
        Field("eci", 1000000, 8000000),
        Field("ec", 1000000, 8000000),
        Field("volume_to_surface", 1024, 65536, ticks=True),
    ),
    (
        Field("area", 1024, 2**24, ticks=True),
        Field("inertia", 1024, 2**34, ticks=True),
        Field("eccentricity", 0, 65536, ticks=True),
        Field("steel_area", 1, 65536, ticks=True),
        Field("own_weight_moment", 0, MOST_MOMENTS, ticks=True),
    ),
    (
        Field("end_of_curing"),
        Field("transfer"),
        Field("wobble", 0, 2000),
        Field("curvature", 0, 400000),
        Field("segments", 0, 64),
        Field("ages", 3, 48),  # of document 02's W6
        Field("second_segments", 0, 64, older=0),  # of document 02's W9
    ),
)
SEGMENT = (Field("kind", codes=(STRAIGHT, PARABOLA, BEND)), Field("length", ticks=True), Field("rise", ticks=True))
AGE = (Field("hour"), Field("moment", ticks=True))

# The lines behind the head, in their order: the field that counts them, and the fields of each.
BODY = {"segments": SEGMENT, "second_segments": SEGMENT, "ages": AGE}

# A segment's ranges: the least and the most length, and the most rise, for a bend the most angle.
SEGMENT_RANGES = {STRAIGHT: (1, 2097152, 0), PARABOLA: (1024, 2097152, 65536), BEND: (0, 0, 4096)}

# The numbers before the ages, and of each age in the report; how many numbers of scratch an age needs.
BEFORE_AGES = ("friction", "slip", "deflector_loss", "early_relaxation", "shortening", "stress")
ROW = ("creep", "shrinkage", "relaxation", "stress", "gain")
REPORT_NUMBERS_OF_AGE = len(ROW)
SCRATCH_NUMBERS_OF_AGE = len(ROW)

COLUMNS = 14
BLANK = b" " * COLUMNS
LINE_FEED = b"\n"

HEAD = sum(LINES, ())
NUMBER = {field.name: number for number, field in enumerate(HEAD, 1)}
COUNTS = [field for field in HEAD if field.name in BODY]


def record(name, fields):
    """A class of named numbers; a field that came later may be left out and is then what older inputs take."""
    return namedtuple(name, [field.name for field in fields], defaults=[field.older for field in fields])


Head, Segment, Age = record("Head", HEAD), record("Segment", SEGMENT), record("Age", AGE)
BeforeAges = namedtuple("BeforeAges", BEFORE_AGES)
AgeLine = namedtuple("AgeLine", ("age", "hour") + ROW)
Total = namedtuple("Total", ("sum", "measurable_part"))


def field_of(name):
    return HEAD[NUMBER[name] - 1]


def most_of(name):
    return field_of(name).most


MOST_SEGMENTS, MOST_AGES = most_of("segments"), most_of("ages")
MOST_REPORT_ROOM = REPORT_NUMBERS_OF_AGE * MOST_AGES
MOST_SCRATCH_ROOM = SCRATCH_NUMBERS_OF_AGE * MOST_AGES


def lines_of(counts):
    """The fields of each line of a card with these counts."""
    return LINES + sum(((fields,) * counts[name] for name, fields in BODY.items()), ())


def number_in(fields, name):
    return 1 + [field.name for field in fields].index(name)


def number_in_segment(segment, name):
    """The number of a field of a segment, the first path's first segment being 0; the second path's count on."""
    return len(HEAD) + len(SEGMENT) * segment + number_in(SEGMENT, name)


def number_in_age(segments, age, name):
    """The number of a field of an age behind so many segments of both paths, the first age being 0."""
    return len(HEAD) + len(SEGMENT) * segments + len(AGE) * age + number_in(AGE, name)


# Refusals


class Refusal(IntEnum):
    CODE = 1
    RANGE = 2
    HOURS = 3
    DUCT = 4
    SECTION = 5
    CREEP = 6
    STRESS = 7
    SHAPE = 8
    DOUBLE = 9
    BUFFER = 10
    OVERSTRESS = 11
    ANCHOR_SET = 12
    PRETENSIONED = 13
    SECOND_PATH = 14
    PATH_LENGTHS = 15


ACCEPTED = (0, 0)


class Refused(Exception):
    """A refusal's number and place."""


def check(holds, number, place):
    if not holds:
        raise Refused(int(number), place)


def check_range(head, field):
    least, most = field.range(head)
    check(least <= getattr(head, field.name) <= most, Refusal.RANGE, NUMBER[field.name])


# Hours, logarithms and coefficients


def clocks(kind, end_of_curing, transfer, hour):
    """Hours since transfer, since the end of curing and since tensioning."""
    return hour - transfer, hour - end_of_curing, max(1, hour if kind == PRETENSIONED else hour - transfer)


def logarithm(hour):
    """L(h): the largest k with 10^k <= h^256."""
    return len(str(hour**256)) - 1


def along(rows, step, unit, x, end=()):
    """`unit` times the value at x, rounded down; rows stand at multiples of `step`, and `end` is one row more."""
    rows = [(at * step, value) for at, value in rows] + list(end)
    for (a, low), (b, high) in zip(rows, rows[1:]):
        if x < b:
            return unit * (low * (b - a) + (high - low) * (x - a)) // (100 * (b - a))
    return unit * rows[-1][1] // 100


def size_factor(rows, volume_to_surface):
    return along(rows, TICKS, 102400, volume_to_surface)


def mcf(cure, transfer):
    return along(MCF, DAY, 72000, transfer) if cure == MOIST else 72000


def share(rows, life, hours):
    """A share at a reading of its clock, which reads `life` at the end of the service life."""
    return along(rows, DAY, T, hours, [(life, 100)])


def ucr(cure, concrete, ec):
    b = {(MOIST, NORMAL): 95000000, (MOIST, LIGHTWEIGHT): 76000000}.get((cure, concrete), 63000000)
    return max(11000000, b - 20 * ec)


def ush(concrete, ec):
    return max(12 * 10**9, 27 * 10**9 - 3000 * ec if concrete == NORMAL else 41 * 10**9 - 10000 * ec)


def whole_creep(head):
    """U."""
    factors = size_factor(SCF, head.volume_to_surface) * mcf(head.cure, head.transfer)
    return ucr(head.cure, head.concrete, head.ec) * factors // 439453125


def whole_shrinkage(head):
    """S."""
    return ush(head.concrete, head.ec) * size_factor(SSF, head.volume_to_surface) // 10**8


# The card and the list of doubles: each is read as a head, the segments of two paths, and ages


def member_of(numbers):
    """The head, the segments of the first path and of the second, and the ages whose fields these are."""
    head, rest = Head(*numbers[: len(HEAD)]), iter(numbers[len(HEAD) :])
    records = lambda kind, count: [kind(*islice(rest, len(kind._fields))) for _ in range(count)]
    return head, records(Segment, head.segments), records(Segment, head.second_segments), records(Age, head.ages)


def field_of_card(columns, field):
    if columns == BLANK:
        return field.blank
    digits = columns.lstrip(b" ")
    return int(digits) if all(b"0"[0] <= byte <= b"9"[0] for byte in digits) else None


def numbers_of_card(card):
    """All its fields, in their order."""
    numbers, at, line = [], 0, 0

    def read(lines):
        nonlocal at, line
        for fields in lines:
            line += 1
            width = COLUMNS * len(fields) + len(LINE_FEED)
            text = card[at : at + width]
            check(len(text) == width and text.endswith(LINE_FEED), Refusal.SHAPE, line)
            for k, field in enumerate(fields):
                numbers.append(field_of_card(text[COLUMNS * k : COLUMNS * (k + 1)], field))
                check(numbers[-1] is not None, Refusal.SHAPE, line)
            at += width

    read(LINES)
    head = Head(*numbers)
    for field in COUNTS:
        check_range(head, field)
    read(lines_of(head._asdict())[len(LINES) :])
    check(at == len(card), Refusal.SHAPE, line + 1)
    return numbers


def read_card(card):
    return member_of(numbers_of_card(card))


def number_of(double, field, number):
    """A field as a whole number, of ticks if it is kept so."""
    check(isfinite(double) and 0 <= double < 2**31, Refusal.DOUBLE, number)
    exact = Fraction(double) * (TICKS if field.ticks else 1)
    check(exact.denominator == 1 or field.ticks, Refusal.DOUBLE, number)
    return floor(exact)


def read_list(doubles):
    check(len(doubles) >= len(HEAD), Refusal.SHAPE, 0)
    counts = {}
    for field in COUNTS:
        number = NUMBER[field.name]
        counts[field.name] = number_of(doubles[number - 1], field, number)
        check(field.least <= counts[field.name] <= field.most, Refusal.RANGE, number)
    fields = sum(lines_of(counts), ())
    check(len(doubles) == len(fields), Refusal.SHAPE, 0)
    return member_of([number_of(double, field, number) for number, (double, field) in enumerate(zip(doubles, fields), 1)])


# The checks and the steps


def check_codes(head, segments):
    for field in HEAD:
        check(not field.codes or getattr(head, field.name) in field.codes, Refusal.CODE, NUMBER[field.name])
    for i, segment in enumerate(segments):
        check(segment.kind in SEGMENT_RANGES, Refusal.CODE, number_in_segment(i, "kind"))


def check_ranges(head, segments, ages):
    for field in HEAD:
        if field.least is not None:
            check_range(head, field)
    for i, segment in enumerate(segments):
        shortest, longest, highest = SEGMENT_RANGES[segment.kind]
        check(shortest <= segment.length <= longest, Refusal.RANGE, number_in_segment(i, "length"))
        check(segment.rise <= highest, Refusal.RANGE, number_in_segment(i, "rise"))
    moments = head.own_weight_moment
    for i, age in enumerate(ages):
        moments += age.moment
        check(moments <= MOST_MOMENTS, Refusal.RANGE, number_in_age(len(segments), i, "moment"))


def check_hours(head, segments, ages):
    curing, transfer = head.end_of_curing, head.transfer
    in_order = curing == transfer if head.kind == PRETENSIONED else curing <= transfer
    in_time = head.cure != MOIST or curing <= MOST_CURING_IF_MOIST
    check(in_order and in_time, Refusal.HOURS, NUMBER["end_of_curing"])
    check(LEAST_TRANSFER[head.cure] <= transfer <= MOST_TRANSFER, Refusal.HOURS, NUMBER["transfer"])
    before = transfer
    for i, age in enumerate(ages):
        check(before < age.hour <= LIFE, Refusal.HOURS, number_in_age(len(segments), i, "hour"))
        before = age.hour


def check_to_hours(head, segments, ages):
    """The rows of codes, ranges and hours; the segments are those of both paths, one behind the other, as their fields are numbered."""
    check_codes(head, segments)
    check_ranges(head, segments, ages)
    check_hours(head, segments, ages)


def friction(wobble, curvature, segments):
    """X."""
    x = 0
    for segment in segments:
        x += wobble * segment.length * T // (TICKS * 10**6)
        if segment.kind == PARABOLA:
            x += curvature * 2 * segment.rise * T // (10**6 * segment.length)
        if segment.kind == BEND:
            x += curvature * segment.rise * T // (TICKS * 10**6)
    return x


def check_friction(head, segments):
    check(friction(head.wobble, head.curvature, segments) <= MOST_X, Refusal.DUCT, 2)


def check_duct(head, first, second):
    check(head.kind == POST_TENSIONED or not first, Refusal.DUCT, 1)
    check(head.kind == POST_TENSIONED or not second, Refusal.SECOND_PATH, 2)
    for path in (first, second):
        check_friction(head, path)
    apart = abs(path_length(first) + path_length(second) - head.length)
    check(not second or apart <= MOST_APART, Refusal.PATH_LENGTHS, NUMBER["length"])


def friction_factor(x):
    """The part of the jacking stress that friction leaves, in 1/T: e to the power -X/T, as document 02's W3 rounds it."""
    h = T
    for k in range(POWERS, 0, -1):
        h = T - h * x // (k * T)
    return h


def stress_left(jacked, x):
    """What friction leaves of the jacking stress, in ticks of psi."""
    return jacked * friction_factor(x) // T


def stresses_along(head, segments):
    """The jacking stress, and what friction leaves of it at each segment's end: "the stress after j segments takes X of the first j"."""
    paths = [segments[:j] for j in range(len(segments) + 1)]
    return [stress_left(head.jacking_stress * TICKS, friction(head.wobble, head.curvature, path)) for path in paths]


def friction_loss(head, segments):
    """d: what friction takes of the jacking stress, in ticks of psi."""
    stresses = stresses_along(head, segments)
    return stresses[0] - stresses[-1]


def path_length(segments):
    """In ticks of foot; a bend has none."""
    return sum(segment.length for segment in segments)


def inches(length):
    """A length in ticks of foot, unrounded."""
    return Fraction(FOOT * length, TICKS)


def drop_at_jack(head, d, path):
    """Z of document 02's W5, of a path in inches: the largest whole number of ticks with Z²·P at most 4·d·Es·slip."""
    es, slip = head.es * TICKS, Fraction(head.slip, TICKS)
    return isqrt(floor(4 * d * es * slip / path))


def slip_loss(head, d, segments):
    """The drop at the section, by document 02's W5; without friction or without a path length document 01's step 2 stays."""
    path = inches(path_length(segments))
    if d == 0 or path == 0:
        return head.es * head.slip * TICKS // (FOOT * head.length)
    drop = drop_at_jack(head, d, path)
    affected_length = drop * path / (2 * d)
    check(affected_length <= inches(head.length), Refusal.ANCHOR_SET, NUMBER["length"])
    return max(0, drop - 2 * d)


def seating_losses(head, segments):
    """What friction and slip take along a path by itself, from the jacking stress."""
    d = friction_loss(head, segments)
    return d, slip_loss(head, d, segments)


def path_that_goes_on(head, first, second):
    """The path with the larger stress after friction and slip, the first if they are equal (document 02, W9). Where there are two, 12 looks
    at both here, ahead of any 7."""
    return min(first, second, key=lambda path: sum(seating_losses(head, path))) if second else first


def run(head, first, second, ages, report_room=MOST_REPORT_ROOM, scratch_room=MOST_SCRATCH_ROOM):
    """The losses and the stress before the ages, and each age's line; rooms are in numbers."""
    check_to_hours(head, first + second, ages)
    check_duct(head, first, second)
    check(report_room >= REPORT_NUMBERS_OF_AGE * len(ages), Refusal.BUFFER, 1)
    check(scratch_room >= SCRATCH_NUMBERS_OF_AGE * len(ages), Refusal.BUFFER, 2)
    kappa = head.steel_area * 2**32 // head.area + 4096 * head.steel_area * head.eccentricity**2 // head.inertia
    check(kappa <= MOST_KAPPA, Refusal.SECTION, NUMBER["area"])
    creep, shrinkage = whole_creep(head), whole_shrinkage(head)
    check(creep * kappa <= MOST_CREEP, Refusal.CREEP, NUMBER["steel_area"])

    divisor, percent = {STRESS_RELIEVED: (2560, 85), LOW_RELAXATION: (11520, 90)}[head.steel]
    y = percent * head.ultimate_strength * TICKS // 100
    relax = lambda stress, logs: stress * logs // divisor * max(stress * T // y - 55 * T // 100, 5 * T // 100) // T
    moment_stress = lambda moments: moments * head.eccentricity // head.inertia
    concrete = lambda stress, moments: max(0, stress * kappa // 2**32 - moment_stress(moments))

    def readings(hour):
        """Both shares and the logarithm at an hour of the member."""
        since_transfer, since_curing, since_tensioning = clocks(head.kind, head.end_of_curing, head.transfer, hour)
        creep_share = share(CREEP_SHARES, LIFE - head.transfer, since_transfer)
        return creep_share, share(SHRINKAGE_SHARES, LIFE - head.end_of_curing, since_curing), logarithm(since_tensioning)

    def left(stress, loss, place):
        check(stress - loss >= LEAST_STRESS, Refusal.STRESS, place)
        return stress - loss

    def lifted(stress, gain, place):
        check(100 * (stress + gain) <= 80 * head.ultimate_strength * TICKS, Refusal.OVERSTRESS, place)
        return stress + gain

    start, moments = readings(head.transfer), head.own_weight_moment
    _, _, early_logs = start
    jacked = stress = head.jacking_stress * TICKS
    path, losses = path_that_goes_on(head, first, second), []
    for loss in (
        lambda stress: friction_loss(head, path),
        lambda stress: slip_loss(head, jacked - stress, path),
        lambda stress: head.deflector_loss * TICKS,
        lambda stress: relax(stress, early_logs) if head.kind == PRETENSIONED else 0,
        lambda stress: head.es * concrete(stress, moments) // (head.eci + head.es * kappa // 2**32),
    ):
        losses.append(loss(stress))
        stress = left(stress, losses[-1], 0)
    before = BeforeAges(*losses, stress)

    lines = []
    for number, age in enumerate(ages, 1):
        end = readings(age.hour)
        of_creep, of_shrinkage, logs = (b - a for a, b in zip(start, end))
        losses = [
            creep * of_creep // T * concrete(stress, moments) // T,
            shrinkage * of_shrinkage // T,
            relax(stress, logs),
        ]
        added = moments + age.moment
        gain = head.es * (moment_stress(added) - moment_stress(moments)) // head.ec
        stress = lifted(left(stress, sum(losses), number), gain, number)
        lines.append(AgeLine(number, age.hour, *losses, stress, gain))
        start, moments = end, added
    return before, lines


def sheet(head, first, second, ages, room=MOST_SEGMENTS):
    """Document 02's W7: each segment's elongation, and their sum with its measurable part, in ticks of inch; the room is in numbers.
    It "keeps to the first path, for its check 4 too" (W9)."""
    check_to_hours(head, first + second, ages)
    check(head.kind == POST_TENSIONED, Refusal.PRETENSIONED, 1)
    check_friction(head, first)
    check(room >= len(first), Refusal.BUFFER, 1)
    stresses = stresses_along(head, first)
    means = [Fraction(before + after, 2) for before, after in zip(stresses, stresses[1:])]
    elongations = [floor(mean * inches(segment.length) / head.es) for mean, segment in zip(means, first)]
    return elongations, Total(sum(elongations), floor(MEASURABLE * sum(elongations)))


# The answers


def line_of(numbers):
    return "".join("%*d" % (COLUMNS, number) for number in numbers) + "\n"


def card_rows(card):
    """The numbers of each line of a card's answer."""
    try:
        before, lines = run(*read_card(card))
    except Refused as refusal:
        return [refusal.args]
    return [before, *lines]


def card_answer(card):
    """What the report program prints for a card."""
    return "".join(map(line_of, card_rows(card)))


def list_answer(doubles, report_room, scratch_room):
    """Number and place; then, of an accepted list, the numbers before the ages, the bits of the last stress as a double, and each age's
    row; of a refused one nothing."""
    try:
        before, lines = run(*read_list(doubles), report_room, scratch_room)
    except Refused as refusal:
        return refusal.args, None, None, []
    (last_stress,) = struct.unpack("<Q", struct.pack("<d", lines[-1].stress / TICKS))
    return ACCEPTED, before, last_stress, [[getattr(line, name) for name in ROW] for line in lines]


def lent_sheet(card, room=MOST_SEGMENTS):
    """Number and place; then, of an accepted card, each segment's elongation, and their total; of a refused one nothing."""
    try:
        return ACCEPTED, *sheet(*read_card(card), room)
    except Refused as refusal:
        return refusal.args, [], None


def sheet_rows(card):
    """The numbers of each line of a card's sheet."""
    refusal, elongations, total = lent_sheet(card)
    return [*enumerate(elongations, 1), total] if refusal == ACCEPTED else [refusal]


def sheet_answer(card):
    """What the sheet program prints for a card."""
    return "".join(map(line_of, sheet_rows(card)))
