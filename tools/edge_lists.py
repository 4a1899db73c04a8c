"""The lists of doubles at the edges of document 02's W9, each with what it is, its numbers of room in report and scratch, and its doubles.

A case more goes to the end, so that the others keep their lines.
"""
from math import inf, nan

from edge_cards import AGES, FRAME, LEFT, POST, PRE, RIGHT, both, card, straights
from layout import list_of
from paper import HEAD, MOST_APART, MOST_SEGMENTS, NUMBER, REPORT_NUMBERS_OF_AGE, SCRATCH_NUMBERS_OF_AGE, TICKS, number_in_segment

ROOMS = (REPORT_NUMBERS_OF_AGE * len(AGES), SCRATCH_NUMBERS_OF_AGE * len(AGES))
OVER = MOST_SEGMENTS + 1


def doubles_of(text):
    return sum(list_of(text), [])


def with_doubles(doubles, changes):
    """The list with other doubles in the fields of these numbers."""
    return [changes.get(number, double) for number, double in enumerate(doubles, 1)]


def with_counts(doubles, **counts):
    return with_doubles(doubles, {NUMBER[name]: count for name, count in counts.items()})


def counts():
    """A list that ends before the second path's count, then each count wholly before the next: 9, if it fits, and 2."""
    sample = doubles_of(card(POST))
    before = len(HEAD) - 1
    yield "%d doubles" % before, sample[:before]
    yield "%d doubles, %d segments" % (before, OVER), with_counts(sample, segments=OVER)[:before]
    yield "%d doubles, counts that are no numbers" % before, with_counts(sample, segments=nan, ages=nan)[:before]
    yield "%d doubles" % len(HEAD), sample[: len(HEAD)]
    for label, changes in (
        ("%d segments, ages no number, half a segment on the second path" % OVER, dict(segments=OVER, ages=nan, second_segments=0.5)),
        ("half a segment, 2 ages, second path's segments no number", dict(segments=0.5, ages=2, second_segments=nan)),
        ("2 ages, second path's segments no number", dict(ages=2, second_segments=nan)),
        ("ages without end, %d segments on the second path" % OVER, dict(ages=inf, second_segments=OVER)),
        ("%d segments on the second path" % OVER, dict(second_segments=OVER)),
        ("half a segment on the second path", dict(second_segments=0.5)),
        ("a segment less than none on the second path", dict(second_segments=-1.0)),
        ("-0.0 segments on the second path", dict(second_segments=-0.0)),
        ("a segment on the second path, no double of it", dict(second_segments=1)),
        ("%d segments on the second path, kind no number" % OVER, dict(second_segments=OVER, kind=nan)),
        ("a segment on the second path, no double of it, kind no number", dict(second_segments=1, kind=nan)),
    ):
        yield label, with_counts(sample, **changes)


def second_paths():
    """Each double of the second path by its own field; a measure becomes the largest whole number of ticks not above it."""
    girder = doubles_of(both(FRAME, LEFT, RIGHT))
    yield "jacked at both ends", girder
    last = len(LEFT + RIGHT) - 1
    kind, length, rise = (number_in_segment(last, name) for name in ("kind", "length", "rise"))
    for label, changes in (
        ("kind 2.5", {kind: 2.5}),
        ("length no number", {length: nan}),
        ("rise less than 0", {rise: -0.25}),
        ("kind 2.5, before a kind on the first path that is not listed", {kind: 2.5, number_in_segment(0, "kind"): 9.0}),
        ("kind 4", {kind: 4.0}),
        ("a length of three quarters of a tick more", {length: girder[length - 1] + 0.75 / TICKS}),
        ("a length of three quarters of a tick", {length: 0.75 / TICKS}),
    ):
        yield "second path's last segment: " + label, with_doubles(girder, changes)
    yield "second path, a double more", [*girder, 0.0]
    yield "second path, last double missing", girder[:-1]


def rooms():
    """15 before the buffers, 14 too; then 10."""
    no_room = (0, 0)
    far = both(FRAME, LEFT, RIGHT, length=TICKS)
    for label, text in (
        ("paths over a foot longer than the tendon", far),
        ("pretensioned with a second path", card(PRE, second=straights(MOST_APART))),
        ("jacked at both ends", both(FRAME, LEFT, RIGHT)),
    ):
        yield label + ", no room", doubles_of(text), no_room


PARTS = (counts, second_paths, rooms)


def cases():
    """What each list is, its rooms and its doubles."""
    return [(label, rooms[0] if rooms else ROOMS, doubles) for part in PARTS for label, doubles, *rooms in part()]
