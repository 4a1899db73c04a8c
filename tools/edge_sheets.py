"""The elongation sheets at the edges of document 02's W7 and W9, each with what it is, its numbers of room and its card.

A case more goes to the end, so that the others keep their lines.
"""
from fractions import Fraction
from math import floor

from edge_cards import (
    AGES, ANCHORED, BRIDGE, CREEPING, FRAME, GIRDER, LEFT, LIFTED, POST, PRE, RIGHT, both, card, creep_edge, last_line_missing,
    longest_path, straights, without_and_with_bend,
)
from paper import (
    BEND, LEAST_STRESS, MOST_MOMENTS, MOST_SEGMENTS, MOST_X, SEGMENT_RANGES, STRAIGHT, T, TICKS, Segment, card_rows, field_of, friction,
    friction_factor, inches, most_of, path_length, sheet, stresses_along,
)

HALF_RADIAN = Segment(BEND, 0, TICKS // 2)

# A duct without friction in which each tick of a straight's length gives 0.06 ticks of elongation.
SMOOTH = POST._replace(jacking_stress=120000, es=24000000)

# A path so long that its X passes the most where wobble is at its most.
TOO_LONG = 4 * GIRDER
WOBBLING = dict(wobble=most_of("wobble"))


def past(path):
    """Room for a number more than a path needs."""
    return len(path) + 1


def bends():
    first, second, *_ = GIRDER
    for label, path in (
        ("bends before and between parabolas", [HALF_RADIAN, first, HALF_RADIAN, second]),
        ("bends alone", [HALF_RADIAN, HALF_RADIAN]),
    ):
        yield label, past(path), card(BRIDGE, path)


def extremes():
    yield "no segment, no room", 0, card(POST)
    strong = POST._replace(ultimate_strength=most_of("ultimate_strength"), es=field_of("es").least)
    _, jacked = field_of("jacking_stress").range(strong)
    path, most_wobble = longest_path()
    for label, wobble in (("the largest sum", 0), ("the longest path, with friction", most_wobble)):
        yield label, past(path), card(strong, path, jacking_stress=jacked, wobble=wobble)


def rooms():
    """Of a tendon whose wedges slip."""
    girder = BRIDGE._replace(slip=ANCHORED.slip, length=path_length(GIRDER))
    for room in (len(GIRDER) - 1, len(GIRDER), len(GIRDER) + 1):
        yield "room for %d numbers, %d segments" % (room, len(GIRDER)), room, card(girder, GIRDER)


def duct():
    for x, text in zip((MOST_X, MOST_X + 1), without_and_with_bend(MOST_X)):
        yield "X %d" % x, MOST_SEGMENTS, text
    yield "X over the most, no room", 0, card(BRIDGE, TOO_LONG, **WOBBLING)


def pretensioned():
    """13 by itself, before what is checked after it, and behind what is checked before it."""
    yield "pretensioned, no segment, no room", 0, card(PRE)
    yield "pretensioned, X over the most", past(TOO_LONG), card(PRE, TOO_LONG, **WOBBLING)
    yield "pretensioned, room for a number too few", len(GIRDER) - 1, card(PRE, GIRDER)
    first, second, last = AGES
    for label, text in (
        ("steel that is not listed", card(PRE, GIRDER, steel=0)),
        ("moments over the most", card(PRE, GIRDER, [first, second, last._replace(moment=MOST_MOMENTS)])),
        ("second age at the first", card(PRE, GIRDER, [first, first, last])),
        ("last line missing", last_line_missing(card(PRE, GIRDER))),
    ):
        yield "pretensioned, " + label, past(GIRDER), text


def refused_by_the_losses():
    """Members that the losses refuse and the sheet does not, which checks nothing below the duct but its buffer."""
    first, *later = AGES
    for text in (
        card(BRIDGE, GIRDER, area=field_of("area").least, steel_area=most_of("steel_area")),
        card(creep_edge(CREEPING, 1), GIRDER),
        card(BRIDGE, GIRDER, jacking_stress=LEAST_STRESS // TICKS),
        card(LIFTED, GIRDER, [first._replace(moment=MOST_MOMENTS), *later]),
        card(BRIDGE, GIRDER, slip=ANCHORED.slip, length=TICKS),
    ):
        (refusal,) = card_rows(text)
        yield "refused by the losses with %d at %d" % refusal, past(GIRDER), text


def rounding():
    for label, path in (
        ("elongation 1.5", straights(25)),
        ("elongation 3, met exactly", straights(50)),
        ("the same, cut in two", straights(25, 25)),
        ("measurable part 3.2, of four elongations of 1.5", straights(25, 25, 25, 25)),
    ):
        yield label, past(path), card(SMOOTH, path)


def parted(head, mean):
    """The longest straight that has another elongation by another mean of the stresses at its ends."""
    _, longest, _ = SEGMENT_RANGES[STRAIGHT]
    for length in range(longest, 0, -1):
        path = straights(length)
        (elongation,), _ = sheet(head, path, [], AGES)
        if floor(mean(head, path) * inches(length) / head.es) != elongation:
            return path
    raise SystemExit("no straight has another elongation")


def rounded_mean(head, path):
    return sum(stresses_along(head, path)) // 2


def mean_of_unrounded(head, path):
    """The mean of the stresses that friction leaves, unrounded."""
    factors = [friction_factor(friction(head.wobble, head.curvature, path[:j])) for j in range(len(path) + 1)]
    return Fraction(head.jacking_stress * TICKS * sum(factors), 2 * T)


def means():
    wobbling = SMOOTH._replace(wobble=1)
    for label, mean in (("a mean rounded first", rounded_mean), ("stresses unrounded", mean_of_unrounded)):
        path = parted(wobbling, mean)
        yield "another elongation by " + label, past(path), card(wobbling, path)


def first_path_alone():
    """What the second path has is of the shape, the codes, the ranges and the hours; 4, 15 and the room do not look at it."""
    for label, first, second in (("from the left", LEFT, RIGHT), ("from the right", RIGHT, LEFT), ("without a first path", [], GIRDER)):
        yield "jacked at both ends, " + label, past(first), both(FRAME, first, second)
    long, short = GIRDER, GIRDER[:1]
    for room in (len(short) - 1, len(short)):
        label = "room for %d numbers, %d segments on the first path and %d on the second"
        yield label % (room, len(short), len(long)), room, both(FRAME, short, long)
    yield "X over the most on the second path", past(LEFT), both(FRAME, LEFT, TOO_LONG, **WOBBLING)
    yield "X over the most on the first path", past(TOO_LONG), both(FRAME, TOO_LONG, LEFT, **WOBBLING)
    yield "paths over a foot longer than the tendon", past(LEFT), both(FRAME, LEFT, RIGHT, length=path_length(LEFT))
    yield "slip that reaches beyond the tendon on both paths", past(LEFT), both(ANCHORED, LEFT, straights(TICKS), wobble=1)
    first, second, last = AGES
    for label, text in (
        ("segment kind 4", both(FRAME, LEFT, [Segment(4, TICKS, 0)])),
        ("a straight of length 0", both(FRAME, LEFT, straights(0))),
        ("second age at the first", both(FRAME, LEFT, RIGHT, [first, first, last])),
        ("%d segments" % (MOST_SEGMENTS + 1), both(FRAME, LEFT, (MOST_SEGMENTS + 1) * straights(TICKS))),
        ("last line missing", last_line_missing(both(FRAME, LEFT, RIGHT))),
    ):
        yield "on the second path or behind it: " + label, past(LEFT), text
    for label, first, second in (("a second path", [], TOO_LONG), ("two paths", LEFT, TOO_LONG)):
        yield "pretensioned with %s, X over the most" % label, past(first), card(PRE, first, second=second, **WOBBLING)


PARTS = (bends, extremes, rooms, duct, pretensioned, refused_by_the_losses, rounding, means, first_path_alone)


def cases():
    """What each sheet is, its room and its card."""
    return [case for part in PARTS for case in part()]
