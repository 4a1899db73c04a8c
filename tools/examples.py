"""The text that the program `examples` must print, by tools/paper.py, and every number of the tables of docs/EXAMPLES.md beside the
answers and the sheets.
"""
import re
from math import exp, sqrt
from pathlib import Path
from typing import NamedTuple

import paper
from paper import ACCELERATED, DAY, LIGHTWEIGHT, MOIST, NORMAL, POST_TENSIONED, PRETENSIONED

ROOT = Path(__file__).resolve().parent.parent
CRATE = ROOT / "crates" / "examples"
DOCUMENT = (ROOT / "docs" / "EXAMPLES.md").read_text()

CARDS = (
    "double_tee double_tee_fpy_230 double_tee_after_transfer slab slab_as_printed slab_cured_seven_days slab_shrinkage "
    "slab_fpy_235 slab_friction box_girder_b box_girder_c box_girder_d box_girder_e box_girder_f box_girder_g "
    "box_girder_seated_b box_girder_seated_c simple_span_b simple_span_c four_spans"
).split()

# The cards whose elongation sheets stand behind all answers.
SHEETS = ("box_girder_g", "simple_span_c", "simple_span_one_mean", "four_spans")

# The line of an answer before the ages; the ages' lines follow, numbered from 1.
BEFORE = 0

# The rows of a table: the quantity, its name in tools/paper.py, the lines of the plain card's answer that it sums, the matched card and
# its line.
DOUBLE_TEE = [
    ("relaxation to transfer", "early_relaxation", [BEFORE], "double_tee_fpy_230", BEFORE),
    ("shortening", "shortening", [BEFORE], "double_tee_fpy_230", BEFORE),
    ("stress after transfer", "stress", [BEFORE], "double_tee_fpy_230", BEFORE),
    ("creep, stage 2", "creep", [1], "double_tee_after_transfer", 1),
    ("shrinkage, stage 2", "shrinkage", [1], "double_tee_after_transfer", 1),
    ("relaxation, stage 2", "relaxation", [1], "double_tee_fpy_230", 1),
    ("gain from the topping", "gain", [1], "double_tee_after_transfer", 1),
    ("stress, end of stage 2, with the gain", "stress", [1], "double_tee_after_transfer", 1),
    ("creep, stage 3", "creep", [2], "double_tee_after_transfer", 2),
    ("shrinkage, stage 3", "shrinkage", [2], "double_tee_after_transfer", 2),
    ("relaxation, stage 3", "relaxation", [2], "double_tee_fpy_230", 2),
    ("stress, end of stage 3", "stress", [2], "double_tee_after_transfer", 2),
    ("creep, stage 4, to 40 years", "creep", [3], None, None),
    ("the same, to the end of life", "creep", [3, 4], "double_tee_after_transfer", 3),
    ("shrinkage, stage 4, to 40 years", "shrinkage", [3], None, None),
    ("the same, to the end of life", "shrinkage", [3, 4], "double_tee_after_transfer", 3),
    ("relaxation, stage 4, to 40 years", "relaxation", [3], "double_tee_fpy_230", 3),
    ("last stress, at 40 years", "stress", [3], None, None),
    ("the same, at the end of life", "stress", [4], "double_tee_after_transfer", 3),
]
SLAB = [
    ("shortening", "shortening", [BEFORE], None, None),
    ("stress after shortening", "stress", [BEFORE], "slab_as_printed", BEFORE),
    ("relaxation, stage 1", "relaxation", [1], "slab_as_printed", 1),
    ("creep, stage 1", "creep", [1], "slab_as_printed", 1),
    ("shrinkage, stage 1", "shrinkage", [1], "slab_shrinkage", 1),
    ("stress, end of stage 1", "stress", [1], "slab_as_printed", 1),
    ("relaxation, stage 2", "relaxation", [2], "slab_fpy_235", 2),
    ("creep, stage 2", "creep", [2], "slab_as_printed", 2),
    ("shrinkage, stage 2", "shrinkage", [2], "slab_shrinkage", 2),
    ("stress, end of stage 2", "stress", [2], "slab_as_printed", 2),
    ("relaxation, stage 3", "relaxation", [3], "slab_fpy_235", 3),
    ("creep, stage 3", "creep", [3], "slab_as_printed", 3),
    ("shrinkage, stage 3", "shrinkage", [3], "slab_shrinkage", 3),
    ("last stress", "stress", [3], "slab_as_printed", 3),
]

# The rows of the tables of document 002's anchor sets: the quantity, its card, and its name in `Seating`.
SEATED_BOX_GIRDER = [
    ("friction to C", "box_girder_seated_c", "friction"),
    ("change at the jack", "box_girder_seated_c", "drop_at_jack"),
    ("affected length", "box_girder_seated_c", "affected_length"),
    ("stress at the jack after seating", "box_girder_seated_c", "stress_at_jack"),
    ("drop at C", "box_girder_seated_c", "drop"),
    ("stress at C after seating", "box_girder_seated_c", "stress"),
    ("friction to B", "box_girder_seated_b", "friction"),
    ("change at the jack, from B", "box_girder_seated_b", "drop_at_jack"),
    ("affected length, from B", "box_girder_seated_b", "affected_length"),
    ("drop at B", "box_girder_seated_b", "drop"),
    ("stress at B after seating", "box_girder_seated_b", "stress"),
    ("the same, on the line to C", "box_girder_seated_b", "stress"),
]
SIMPLE_SPAN = [
    ("stress at the dead end before seating", "simple_span_c", "stress_before"),
    ("friction to the dead end", "simple_span_c", "friction"),
    ("change at the jack", "simple_span_c", "drop_at_jack"),
    ("affected length", "simple_span_c", "affected_length"),
    ("stress at the jack after seating", "simple_span_c", "stress_at_jack"),
    ("drop at the dead end", "simple_span_c", "drop"),
    ("stress at mid-span after seating", "simple_span_b", "stress"),
]

# The segments whose elongations document 002's example 1 prints; its example 3 prints the total alone.
SEGMENTS_OF_BOX_GIRDER = ("AB", "BC", "CD", "DE", "EF", "FG")

# How far X and the stress after friction, in ksi, may lie from document 002's: its X has four places, its factor three, its stress one.
X_TOLERANCE = 0.0001
KSI_TOLERANCE = 0.15

# How far the factor of friction may lie from equation 1's: "under three units" of document 02's W3.
FACTOR_TOLERANCE = 3 / paper.T


def shares(rows):
    life = paper.LIFE - DAY
    hours = [DAY * day for day, _ in rows] + [life]
    hours = [h for low, high in zip(hours, hours[1:]) for h in (low, low + 1, (low + high) // 2, high - 1)]
    return [[hour, paper.share(rows, life, hour)] for hour in hours + [life, life + 1]]


def clocks(kind, end_of_curing, transfer):
    return [[hour, *paper.clocks(kind, end_of_curing, transfer, hour)] for hour in (transfer, transfer + 1, paper.LIFE)]


def readings():
    """Each part's title and lines."""
    powers = [10**k for k in range(1, 6)]
    hours = [1] + [p + d for p in powers for d in (-1, 0, 1)] + [paper.LIFE]
    sizes = range(paper.TICKS, 7 * paper.TICKS + 1, paper.TICKS // 2)
    days = [day for day, _ in paper.MCF]
    transfers = sorted([DAY * d for d in days] + [DAY * (a + b) // 2 for a, b in zip(days, days[1:])])
    moduli = (1000000, 2600000, 2900000, 3250000, 4200000, 5000000, 8000000)
    names = "hour, hours since transfer, end of curing, tensioning"
    creeping = ((MOIST, NORMAL), (MOIST, LIGHTWEIGHT), (ACCELERATED, NORMAL))
    coefficients = lambda ec: [paper.ucr(*of, ec) for of in creeping] + [paper.ush(of, ec) for of in (NORMAL, LIGHTWEIGHT)]
    return [
        ("hour, logarithm", [[h, paper.logarithm(h)] for h in hours]),
        ("hours since transfer, creep share", shares(paper.CREEP_SHARES)),
        ("hours since the end of curing, shrinkage share", shares(paper.SHRINKAGE_SHARES)),
        ("pretensioned: " + names, clocks(PRETENSIONED, 18, 18)),
        ("post-tensioned: " + names, clocks(POST_TENSIONED, 72, 96)),
        ("volume/surface, SCF, SSF", [[v, *(paper.size_factor(rows, v) for rows in (paper.SCF, paper.SSF))] for v in sizes]),
        ("transfer, MCF if moist, MCF if accelerated", [[h, paper.mcf(MOIST, h), paper.mcf(ACCELERATED, h)] for h in transfers]),
        (
            "Ec, UCR moist normal, moist lightweight, accelerated, USH normal, lightweight",
            [[ec, *coefficients(ec)] for ec in moduli],
        ),
    ]


def table(heading):
    """The cells of each row of the table under a heading of the document."""
    section = DOCUMENT.split("\n## " + heading)[1].split("\n## ")[0]
    rows = [line.strip("|").split("|") for line in section.splitlines() if line.startswith("|")]
    return [[cell.strip() for cell in row] for row in rows[2:]]


def number(cell):
    return float(cell.replace(",", "").replace("−", "-").replace("%", ""))


def says(cell, value):
    """Whether a cell has a value, to the digits that it prints."""
    return float("%.*f" % (len(cell.rstrip(" %").partition(".")[2]), value)) == number(cell)


def psi(answer, line, name):
    return getattr(answer[line], name) / paper.TICKS


def compare(checks, answers, heading, plain_card, quantities):
    """A table of document 001: psi in the document, by the plain card, by the matched one, and the tolerance of that."""
    rows = table(heading)
    checks.hold([row[0] for row in rows] == [quantity[0] for quantity in quantities], "the quantities under " + heading)
    for row, (quantity, name, lines, matched_card, line) in zip(rows, quantities):
        document, where = number(row[1]), "%s, %s: " % (heading, quantity)
        plain = sum(psi(answers[plain_card], line, name) for line in lines)
        checks.hold(says(row[2], plain), where + "plain, %f" % plain)
        percent = 100 * (plain - document) / document
        checks.hold(not row[3] or says(row[3], percent), where + "plain differs by %f %%" % percent)
        if matched_card is None:
            checks.hold(row[4:7] == ["", "", ""], where + "no card is matched")
            continue
        matched = psi(answers[matched_card], line, name)
        checks.hold(says(row[4], matched), where + "matched, %f" % matched)
        checks.hold(says(row[5], matched - document), where + "matched differs by %f" % (matched - document))
        checks.hold(abs(matched - document) <= sum(map(number, row[6].split("+"))), where + "tolerance")


def card_bytes(name):
    return (CRATE / "data" / (name + ".card")).read_bytes()


def compare_friction(checks, answers):
    """Document 002's table, and the friction of the slab. An answer has no X, so that is worked out from the card."""
    heading = "Document 002, example 1: friction"
    for point, document_x, x_cell, document_stress, stress_cell, differs_cell in table(heading):
        name, where = "box_girder_" + point.lower(), "%s, %s: " % (heading, point)
        head, segments, *_ = paper.read_card(card_bytes(name))
        in_units = paper.friction(head.wobble, head.curvature, segments)
        x, factor = in_units / paper.T, paper.friction_factor(in_units) / paper.T
        stress = (head.jacking_stress - psi(answers[name], BEFORE, "friction")) / 1000
        differs = stress - number(document_stress)
        for cell, value in ((x_cell, x), (stress_cell, stress), (differs_cell, differs)):
            checks.hold(says(cell, value), where + "%f" % value)
        checks.hold(abs(x - number(document_x)) <= X_TOLERANCE, where + "X's tolerance")
        checks.hold(abs(differs) <= KSI_TOLERANCE, where + "the stress's tolerance")
        checks.hold(abs(factor - exp(-x)) < FACTOR_TOLERANCE, where + "the factor's tolerance")
    slab = re.search(r"([\d,]+) psi by equation 1; `slab_friction` gives ([\d,.]+) \(tolerance (\d+)", DOCUMENT)
    document, cell, tolerance = slab.groups()
    ours = psi(answers["slab_friction"], BEFORE, "friction")
    checks.hold(says(cell, ours), "the slab's friction, %f" % ours)
    checks.hold(abs(ours - number(document)) <= number(tolerance), "the slab's friction: tolerance")


class Seating(NamedTuple):
    """An anchor set: stresses in ksi, the affected length in feet."""

    friction: float
    drop_at_jack: float
    affected_length: float
    drop: float
    stress_at_jack: float
    stress_before: float
    stress: float


def seating(answers, name):
    """The anchor set of a card. An answer has friction and drop at the section alone: the drop at the jack is worked out from the card."""
    head, segments, *_ = paper.read_card(card_bytes(name))
    friction, drop = answers[name][BEFORE].friction, answers[name][BEFORE].slip
    path = paper.inches(paper.path_length(segments))
    drop_at_jack = paper.drop_at_jack(head, friction, path)
    jacked = head.jacking_stress * paper.TICKS
    ksi = lambda ticks: ticks / paper.TICKS / 1000
    return Seating(
        friction=ksi(friction),
        drop_at_jack=ksi(drop_at_jack),
        affected_length=float(drop_at_jack * path / (2 * friction) / paper.FOOT),
        drop=ksi(drop),
        stress_at_jack=ksi(jacked - drop_at_jack),
        stress_before=ksi(jacked - friction),
        stress=ksi(jacked - friction - drop),
    )


def box_girder_at_b():
    """What document 002's example 2 does not print: by its formulas from its stress at B, rounded as it rounds them at C; and, on its line
    to C, B after seating."""
    jacked, stress, feet, es, slip = 202.5, 197.6, 64, 28000, 0.375
    friction = jacked - stress
    affected_length = round(sqrt(es * slip * feet / (friction * paper.FOOT)), 1)
    change_at_jack = round(2 * friction * affected_length / feet, 2)
    drop = change_at_jack - 2 * friction
    jack_after_seating, change_to_c, affected_to_c = 186.53, 15.97, 109.5
    return {
        "friction to B": friction,
        "change at the jack, from B": change_at_jack,
        "affected length, from B": affected_length,
        "drop at B": drop,
        "stress at B after seating": stress - drop,
        "the same, on the line to C": jack_after_seating + change_to_c / 2 * feet / affected_to_c,
    }


def seatings(answers, quantities):
    """The core's number of each quantity of an anchor set."""
    return [(quantity, getattr(seating(answers, card), name)) for quantity, card, name in quantities]


def elongations(sheet, segments=(), by=""):
    """The core's number of each quantity of an elongation sheet, in inches: the elongations of these segments, and the total."""
    *lines, total = sheet
    of_segments = [("elongation of " + name, elongation) for name, (_, elongation) in zip(segments, lines)]
    of_all = [("total elongation" + by, total.sum), ("measurable elongation" + by, total.measurable_part)]
    return [(quantity, ticks / paper.TICKS) for quantity, ticks in of_segments + of_all]


def both_ends(answers, sheets, name):
    """The core's number of each quantity of a tendon jacked at both ends, the stress in ksi and the elongation in inches. An answer has the
    friction of one path alone: the coefficients are worked out from the card."""
    head, *paths, _ = paper.read_card(card_bytes(name))
    jacked = head.jacking_stress * paper.TICKS
    left, right = (1 - paper.friction_loss(head, path) / jacked for path in paths)
    losses = psi(answers[name], BEFORE, "friction") + psi(answers[name], BEFORE, "slip")
    return [
        ("coefficient at 416 feet from the left end", left),
        ("coefficient at 402 feet from the right end", right),
        ("stress at the point of no movement", (head.jacking_stress - losses) / 1000),
        ("elongation from the left end, without the strand in the jack", sheets[name][-1].sum / paper.TICKS),
    ]


def four_spans():
    """What document 002's example 4 does not print: the stress by its coefficient; and by its factors the elongation of area A, without the
    three feet of strand in the jack."""
    coefficient, jacked, mean_force, feet, area, es = 0.802, 202.5, 27.91, 416, 0.153, 28500
    return {
        "stress at the point of no movement": coefficient * jacked,
        "elongation from the left end, without the strand in the jack": mean_force * feet * paper.FOOT / (area * es),
    }


def compare_core(checks, heading, quantities, worked_out={}):
    """A table of document 002: the document's number, printed or worked out from those that are, the core's, and the tolerance."""
    rows = table(heading)
    checks.hold([row[0] for row in rows] == [quantity for quantity, _ in quantities], "the quantities under " + heading)
    for (quantity, document_cell, core_cell, differs_cell, tolerance), (_, core) in zip(rows, quantities):
        where = "%s, %s: " % (heading, quantity)
        document = number(document_cell)
        if quantity in worked_out:
            checks.hold(says(document_cell, worked_out[quantity]), where + "by the document %f" % worked_out[quantity])
        checks.hold(says(core_cell, core), where + "%f" % core)
        checks.hold(says(differs_cell, core - document), where + "differs by %f" % (core - document))
        checks.hold(abs(core - document) <= sum(map(number, tolerance.split("+"))), where + "tolerance")


def answers_of_cards():
    return {name: paper.card_rows(card_bytes(name)) for name in CARDS}


def sheets_of_cards():
    return {name: paper.sheet_rows(card_bytes(name)) for name in SHEETS}


def text(answers, sheets):
    """What the program prints: each card's answer below its name, the sheets, then the readings."""
    parts = [(name + ".card", rows) for name, rows in answers.items()]
    parts += [("sheet of %s.card" % name, rows) for name, rows in sheets.items()]
    parts += readings()
    return "".join(title + "\n" + "".join(map(paper.line_of, rows)) for title, rows in parts)


def compare_all(checks, answers, sheets):
    """Every number of the document's tables beside the answers and the sheets."""
    compare(checks, answers, "Document 001, design example 1", "double_tee", DOUBLE_TEE)
    compare(checks, answers, "Document 001, design example 3", "slab", SLAB)
    compare_friction(checks, answers)
    compare_core(checks, "Document 002, example 1: elongation", elongations(sheets["box_girder_g"], SEGMENTS_OF_BOX_GIRDER))
    compare_core(checks, "Document 002, example 2", seatings(answers, SEATED_BOX_GIRDER), box_girder_at_b())
    compare_core(checks, "Document 002, example 3: anchor set", seatings(answers, SIMPLE_SPAN))
    by_one_mean = elongations(sheets["simple_span_one_mean"], by=", by one mean")
    compare_core(checks, "Document 002, example 3: elongation", by_one_mean + elongations(sheets["simple_span_c"]))
    compare_core(checks, "Document 002, example 4", both_ends(answers, sheets, "four_spans"), four_spans())
