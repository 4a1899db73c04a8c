#!/usr/bin/env python3
"""Holds every stored answer to tools/paper.py, and every stored input to the layout of its table; with --write, lays the inputs out
anew where the table has changed since they were stored, and writes every answer. Its last line is 'N passed, M failed'.

The stored cards: crates/cases/data/cards, of which those from 0240 on are built by tools/edge_cards.py, the cards of crates/examples/data,
the sample, crates/report/stdin, and the card of crates/sheet/stdin, which is one of the examples'. A card's answer is its .out file, or a
part of the text that its program must print. How many cards the program `cases` runs is written into its code.
The stored lists: a line of crates/cases/data/lists.txt for each, in four parts: numbers of room in report and scratch; the doubles, each
as the 16 hexadecimal digits of its bits; number and place; and of an accepted list, in hexadecimal, the numbers before the ages, the bits
of the last stress as a double, and each age's row. Those from line 317 on are built by tools/edge_lists.py.
The stored sheets: a line of crates/cases/data/sheets.txt for each, in four parts: numbers of room; the card's bytes in hexadecimal; number
and place; and of an accepted card, in hexadecimal, each segment's elongation, the sum and the measurable part. Those from line 204 on are
built by tools/edge_sheets.py.
Of include/stratelyn.h the plain numbers are written, and the sizes that it computes from them held; docs/INTEGRATION.md's table of sizes is
written from them; docs/EXAMPLES.md is held, not written.
"""
import json
import re
from itertools import zip_longest
from pathlib import Path

import c_hosts
import edge_cards
import edge_lists
import edge_sheets
import examples
import layout
import paper
from checks import WRITE, Checks

ROOT = Path(__file__).resolve().parent.parent
LAYOUT = ROOT / "tools" / "stored_layout.json"
CASES = ROOT / "crates" / "cases"
CARDS = CASES / "data" / "cards"
COUNT_OF_CARDS = CASES / "src" / "cards.rt"
EDGES = CASES / "data" / "edges.txt"
LISTS = CASES / "data" / "lists.txt"
EDGE_LISTS = CASES / "data" / "edge_lists.txt"
SHEETS = CASES / "data" / "sheets.txt"
EDGE_SHEETS = CASES / "data" / "edge_sheets.txt"
REPORT = ROOT / "crates" / "report"
SHEET = ROOT / "crates" / "sheet"

# The first card that is built by tools/edge_cards.py, the first line of lists.txt that is by tools/edge_lists.py, and the first line of
# sheets.txt that is by tools/edge_sheets.py.
FIRST_EDGE = 240
FIRST_EDGE_LIST = 317
FIRST_EDGE_SHEET = 204

# The card of the sheet program's own test.
SHEET_CARD = "box_girder_g"

# What the program `cases` fills a lent sheet with, so that it shows what is unwritten; how many of its numbers it prints on a line.
UNWRITTEN = 9999999999999
SHEET_NUMBERS_OF_LINE = 7


def given_cards():
    """The stored cards that are not built."""
    cases = [card for card in CARDS.glob("*.card") if int(card.stem) < FIRST_EDGE]
    return [*cases, *(examples.CRATE / "data").glob("*.card"), REPORT / "stdin"]


def relaid_lists(stored):
    """The rooms and the doubles of each stored list that is not built, in the table's layout."""
    for line in LISTS.read_text().splitlines()[: FIRST_EDGE_LIST - 1]:
        rooms, words, *_ = (part.split() for part in line.split("|"))
        yield layout.relaid_rooms([int(room) for room in rooms], words, stored), layout.relaid_list(words, stored)


def list_texts(rooms, words):
    """A list's line in its file, and what the program `cases` prints for it."""
    refusal, before, last_stress, rows = paper.list_answer([layout.double_of(word) for word in words], *rooms)
    numbers, printed = "-", paper.line_of(refusal)
    if refusal == paper.ACCEPTED:
        numbers = " ".join("%x" % number for number in [*before, last_stress, *sum(rows, [])])
        printed += paper.line_of(before) + "%d\n" % last_stress + "".join(map(paper.line_of, rows))
    return "%d %d|%s|%d %d|%s" % (*rooms, " ".join(words), *refusal, numbers), printed


def relaid_sheets(stored):
    """The room and the card of each stored sheet that is not built, the card in the table's layout."""
    for line in SHEETS.read_text().splitlines()[: FIRST_EDGE_SHEET - 1]:
        room, card, *_ = line.split("|")
        yield int(room), layout.relaid_card(bytes.fromhex(card), stored)


def sheet_texts(room, card):
    """A sheet's line in its file, and what the program `cases` prints for it, the whole lent buffer at the end."""
    refusal, elongations, total = paper.lent_sheet(card, room)
    numbers, printed = "-", paper.line_of(refusal)
    if refusal == paper.ACCEPTED:
        numbers = " ".join("%x" % number for number in [*elongations, *total])
        printed += paper.line_of(total)
    lent = elongations + [UNWRITTEN] * (room - len(elongations))
    lines = [lent[at : at + SHEET_NUMBERS_OF_LINE] for at in range(0, room, SHEET_NUMBERS_OF_LINE)]
    return "%d|%s|%d %d|%s" % (room, card.hex(), *refusal, numbers), printed + "".join(map(paper.line_of, lines))


def write_lines(path, texts):
    path.write_text("".join(line + "\n" for line, _ in texts))


def hold_inputs(checks):
    """The stored inputs are in the table's layout. With --write, they are brought there."""
    stored, now = json.loads(LAYOUT.read_text()), layout.described()
    if WRITE and stored != now:
        cards = {card: layout.relaid_card(card.read_bytes(), stored) for card in given_cards()}
        lists = [list_texts(*case) for case in relaid_lists(stored)]
        sheets = [sheet_texts(*case) for case in relaid_sheets(stored)]
        for card, data in cards.items():
            card.write_bytes(data)
        write_lines(LISTS, lists)
        write_lines(SHEETS, sheets)
    checks.file(LAYOUT, (json.dumps(now, indent=1) + "\n").encode())
    if checks.failed:
        print("the table of tools/paper.py has changed: --write lays the stored inputs out anew")
        checks.end()


def hold_edges(checks):
    """The built cards, and what each is."""
    cards = {CARDS / ("%04d.card" % number): case for number, case in enumerate(edge_cards.cases(), FIRST_EDGE)}
    due = {path for card in cards for path in (card, card.with_suffix(".out"))}
    more = {path for path in CARDS.iterdir() if int(path.stem) >= FIRST_EDGE} - due
    if WRITE:
        for path in more:
            path.unlink()
    for card, (_, data) in cards.items():
        checks.file(card, data)
    checks.file(EDGES, "".join("%s %s\n" % (card.stem, label) for card, (label, _) in cards.items()).encode())
    checks.hold(WRITE or not more, "no card is stored from %04d on that is not built" % FIRST_EDGE)


def hold_lines(checks, path, texts):
    """The lines of a file. With --write, it is given them."""
    if WRITE:
        write_lines(path, texts)
    due = [line for line, _ in texts]
    for number, (stored, line) in enumerate(zip_longest(path.read_text().splitlines(), due), 1):
        checks.hold(stored == line, "line %d of %s" % (number, path.name))


def hold_cases(checks):
    """The answers of the cards, lists and sheets of `cases`, how many cards it runs, and what it must print."""
    printed, cards = "", sorted(CARDS.glob("*.card"))
    checks.file(COUNT_OF_CARDS, re.sub(r"(?<=const CARDS: usize = )\d+", str(len(cards)), COUNT_OF_CARDS.read_text()).encode())
    for card in cards:
        answer = paper.card_answer(card.read_bytes())
        checks.file(card.with_suffix(".out"), answer.encode())
        printed += answer
    now = layout.described()
    built_lists, built_sheets = edge_lists.cases(), edge_sheets.cases()
    lists = [list_texts(*case) for case in relaid_lists(now)]
    lists += [list_texts(rooms, list(map(layout.word_of, doubles))) for _, rooms, doubles in built_lists]
    sheets = [sheet_texts(*case) for case in relaid_sheets(now)] + [sheet_texts(room, card) for _, room, card in built_sheets]
    hold_lines(checks, LISTS, lists)
    hold_lines(checks, SHEETS, sheets)
    for path, first, built in ((EDGE_LISTS, FIRST_EDGE_LIST, built_lists), (EDGE_SHEETS, FIRST_EDGE_SHEET, built_sheets)):
        labels = ["%d %s\n" % (number, label) for number, (label, _, _) in enumerate(built, first)]
        checks.file(path, "".join(labels).encode())
    printed += "".join(answer for _, answer in lists + sheets)
    checks.file(CASES / "stdout", printed.encode())


def main():
    checks = Checks()
    hold_inputs(checks)
    hold_edges(checks)
    hold_cases(checks)
    sample = (REPORT / "stdin").read_bytes()
    checks.file(REPORT / "stdout", paper.card_answer(sample).encode())
    sheet_card = examples.card_bytes(SHEET_CARD)
    checks.file(SHEET / "stdin", sheet_card)
    checks.file(SHEET / "stdout", paper.sheet_answer(sheet_card).encode())
    answers, sheets = examples.answers_of_cards(), examples.sheets_of_cards()
    checks.file(examples.CRATE / "stdout", examples.text(answers, sheets).encode())
    examples.compare_all(checks, answers, sheets)
    c_hosts.hold(checks, sample, edge_cards.longest())
    checks.end()


main()
