"""What the C hosts take from tools/paper.py: the members that they run, the text that hosts/c/example.c must print, the header's numbers,
which the Rust wrapper and the integrators' page have from there, and its refusals.
"""
import re
from pathlib import Path

import layout
import paper

ROOT = Path(__file__).resolve().parent.parent
HOSTS = ROOT / "hosts" / "c"
HEADER = ROOT / "include" / "stratelyn.h"
INTEGRATION = ROOT / "docs" / "INTEGRATION.md"
BYTES_OF_NUMBER = 8

# The header's plain numbers, by their names without STRATELYN_: all but the bound of the stack, which is measured.
PLAIN_NUMBERS = {
    "BYTES_PER_NUMBER": BYTES_OF_NUMBER,
    "NUMBERS_PER_REPLY": len(("place", *paper.BEFORE_AGES, "last stress")),
    "NUMBERS_PER_AGE": paper.REPORT_NUMBERS_OF_AGE,
    "COLUMNS_PER_FIELD": paper.COLUMNS,
    "HEAD_LINES": len(paper.LINES),
    "HEAD_FIELDS": len(paper.HEAD),
    "FIELDS_PER_SEGMENT": len(paper.SEGMENT),
    "FIELDS_PER_AGE": len(paper.AGE),
    "MOST_PATHS": list(paper.BODY.values()).count(paper.SEGMENT),
    "MOST_SEGMENTS": paper.MOST_SEGMENTS,
    "MOST_AGES": paper.MOST_AGES,
    "TICKS_PER_PSI": paper.TICKS,
    "BLANK_SLIP": paper.field_of("slip").blank,
}

# The refusals of parts beside the losses, to which "C hosts get no entry" (document 02, W7).
BESIDE_THE_LOSSES = (paper.Refusal.PRETENSIONED,)

# The sizes that the integrators' page has.
SIZES = ("MOST_SEGMENTS", "MOST_AGES", "MOST_CARD_BYTES", "MOST_LIST_BYTES", "MOST_REPORT_BYTES", "REPLY_BYTES", "MOST_STACK_BYTES")

MEMBER = """/* %(what)s, as the text of a card and as a list of doubles. tools/stored_answers.py --write writes it. */
#ifndef %(guard)s_H
#define %(guard)s_H

#define AGES %(ages)d

static const char card[] =
%(card)s;

static const double list[] = {
%(list)s
};

#endif
"""


def member_text(guard, what, card):
    """A header with a member."""
    head, *_ = paper.read_card(card)
    lines = card.decode().splitlines()
    doubles = [", ".join("%.17g" % double for double in line) for line in layout.list_of(card)]
    return MEMBER % {
        "what": what,
        "guard": guard,
        "ages": head.ages,
        "card": "\n".join('    "%s\\n"' % line for line in lines),
        "list": "\n".join("    %s," % line for line in doubles),
    }


def psi(ticks):
    return ticks / paper.TICKS


def example_text(card):
    """What hosts/c/example.c prints: the sample as a card and as a list, which give the same, then the card without its last byte."""
    before, *ages = paper.card_rows(card)
    run = "shortening %.3f psi, %.3f psi before the ages\n" % (psi(before.shortening), psi(before.stress))
    for age in ages:
        row = [psi(getattr(age, name)) for name in paper.ROW]
        run += "  age %d: creep %.3f, shrinkage %.3f, relaxation %.3f, stress %.3f, gain %.3f psi\n" % (age.age, *row)
    run += "  last stress %.10f psi\n" % psi(ages[-1].stress)
    (refusal,) = paper.card_rows(card[:-1])
    return "card: " + run + "list: " + run + "cut card: refused %d at %d\n" % refusal


def header_numbers():
    """The header's numbers, by their names without STRATELYN_. A number may be computed from those above it."""
    numbers = {}
    for name, number in re.findall(r"#define (STRATELYN_\w+) (.+)", HEADER.read_text().replace("\\\n", "")):
        numbers[name] = eval(number, {}, numbers)
    return {name.removeprefix("STRATELYN_"): number for name, number in numbers.items()}


def hold_written(checks, path, before, numbers, after):
    """A file has each number once, between these words, the first with its name. With --write, it is written there."""
    text = path.read_text()
    for name, number in numbers.items():
        words = re.escape(before % name), re.escape(after)
        text, found = re.subn(r"(%s)[\d,]+(%s)" % words, r"\g<1>%s\2" % number, text)
        checks.hold(found == 1, "%s has STRATELYN_%s" % (path.name, name))
    checks.file(path, text.encode())


def hold_numbers(checks, longest):
    """The header's plain numbers; the sizes that it computes from them, which the longest card, list and report, a reply and an age have;
    and the sizes of the integrators' page."""
    hold_written(checks, HEADER, "#define STRATELYN_%s ", PLAIN_NUMBERS, "\n")
    numbers = header_numbers()
    for name, due in (
        ("REPLY_BYTES", BYTES_OF_NUMBER * PLAIN_NUMBERS["NUMBERS_PER_REPLY"]),
        ("BYTES_PER_AGE", BYTES_OF_NUMBER * paper.REPORT_NUMBERS_OF_AGE),
        ("MOST_REPORT_BYTES", BYTES_OF_NUMBER * paper.MOST_REPORT_ROOM),
        ("MOST_CARD_BYTES", len(longest)),
        ("MOST_LIST_BYTES", BYTES_OF_NUMBER * len(sum(layout.list_of(longest), []))),
    ):
        checks.hold(numbers.get(name) == due, "STRATELYN_%s in include/stratelyn.h is %d" % (name, due))
    sizes = {name: format(numbers[name], ",") for name in SIZES}
    hold_written(checks, INTEGRATION, "| `STRATELYN_%s` | ", sizes, " |\n")


def hold_refusals(checks):
    """The header has every refusal of the losses by its number, and no other."""
    (cases,) = re.findall(r"enum stratelyn_refusal \{(.*?)\};", HEADER.read_text(), re.DOTALL)
    numbers = {name: int(number) for name, number in re.findall(r"STRATELYN_(\w+) = (\d+)", cases)}
    refusals = {refusal.name: refusal.value for refusal in paper.Refusal if refusal not in BESIDE_THE_LOSSES}
    due = {"ACCEPTED": paper.ACCEPTED[0], **refusals}
    checks.hold(numbers == due, "the refusals in include/stratelyn.h are %s" % due)


def hold(checks, sample, longest):
    checks.file(HOSTS / "sample.h", member_text("SAMPLE", "Document 01's sample beam", sample).encode())
    checks.file(HOSTS / "longest.h", member_text("LONGEST", "The longest card that is accepted", longest).encode())
    checks.file(HOSTS / "example.out", example_text(sample).encode())
    hold_numbers(checks, longest)
    hold_refusals(checks)
