#!/usr/bin/env python3
"""Brings the repository's own definitions and lemmas to one spelling: words in snake case, `'` for a prime.

usage: tools/respell.py            at the top of a tree that the kit's port.py has turned; rewrites crates/, must-fail edits and all

A name of the kit, as a file imports it, keeps its spelling, and so does what the source calls its functions and fields.
Run once: a second run finds nothing to do.
"""
import collections
import os
import re
import subprocess
import sys

TOKEN = re.compile(r"[^\s(){}\[\];,.:λ\"@|`=]+|=|:")
IMPORT = re.compile(r"^(?:ghost )?(?:pub )?use ([\w.◌+'-]+)\.\{([^}]*)\}", re.M)
# Two names of one file that would be one: the lemma or the fact gets the longer name.
TOGETHER = {
    "after-deflector": "after_deflector_near",
    "age-in-ticks": "age_in_ticks_is",
    "ages-field": "ages_field_is",
    "blank-slip": "blank_slip_is",
    "creep-share": "creep_share_between",
    "duct-row": "duct_row_held",
    "is-bend": "bend_is",
    "is-nan": "is_nan_then",
    "is-parabola": "parabola_is",
    "is-straight": "straight_is",
    "is_right": "is_right_here",
    "left-segments": "left_segments_is",
    "line-length": "line_length_is",
    "magnitude-at": "magnitude_at_is",
    "not_finite": "not_finite_then",
    "report-room": "report_room_fits",
    "scratch-room": "scratch_room_fits",
    "segments-field": "segments_field_is",
    "shrinkage-share": "shrinkage_share_between",
    "too_long": "too_long_is",
    "with-slip": "with_slip_is",
}


def humps(word):
    if not re.match(r"[^\W\d_]", word) or "◌" in word:
        return False
    if word[0].isupper():
        return bool(re.fullmatch(r"[XY]-[\w-]+", word))
    return bool(re.search(r"[a-z0-9][A-Z]", word) or re.search(r"\w-\w", word) or "′" in word)


def respelled(word, field=False):
    """The word's spelling; a field is told from a lemma of one name by the dot before it."""
    if word in TOGETHER and not (field and word in ("creep-share", "shrinkage-share")):
        return TOGETHER[word]
    word = word.replace("-", "_").replace("′", "'")
    return re.sub(r"([a-z0-9])([A-Z])", lambda m: m.group(1) + "_" + m.group(2).lower(), word)


def listed(pattern):
    found = subprocess.run(["git", "ls-files", "-z", "crates"], capture_output=True, text=True, check=True).stdout
    return [f for f in found.split("\0") if re.search(pattern, f) and os.path.exists(f)]


def own(module):
    named = re.match(r"Rattle\.(\w+)\.", module)
    return bool(named) and os.path.isdir(os.path.join("crates", named.group(1)))


def of_the_kit(text):
    names = set()
    for module, items in IMPORT.findall(text):
        if not own(module):
            names.update(item.split(" as ")[-1].strip() for item in items.split(","))
    return names


def by_lines(text, code, comment, mark):
    """The text with `code` applied to what is no comment and `comment` to the rest."""
    lines = []
    for line in text.split("\n"):
        at = line.find(mark)
        if at < 0:
            lines.append(code(line))
        else:
            lines.append(code(line[:at]) + comment(line[at:]))
    return "\n".join(lines)


def words(text, turn):
    return TOKEN.sub(lambda m: turn(m.group(), text, m.start()), text)


def in_antt(text):
    kit = of_the_kit(text)

    def turn(word, line, at):
        if line[:at].endswith(("tie.", "Nat.")) or word in kit:
            return word
        return respelled(word, line[:at].endswith(".")) if humps(word) or word in TOGETHER else word

    def said(comment):
        return re.sub(r"[^\W\d_]\w*[a-z0-9][A-Z]\w*", lambda m: respelled(m.group()) if m.group()[0].islower() else m.group(), comment)

    def code(line):
        used = re.match(r"((?:pub )?use )([\w.◌+'-]+)(\.\{.*|( as .*)?$)", line)
        if used:
            return used.group(1) + used.group(2) + words(used.group(3), turn)
        return words(line, turn)

    return by_lines(text, code, said, "--")


def in_rt(text, known):
    kit = of_the_kit(text)

    def turn(word, line, at):
        return respelled(word) if word in known and word not in kit else word

    def camel(comment):
        return re.sub(r"\b[a-z]\w*[a-z0-9][A-Z]\w*", lambda m: respelled(m.group()) if m.group() in known else m.group(), comment)

    return by_lines(text, lambda line: words(line, turn), camel, "//")


def declared(files):
    known = set()
    for name in files:
        text = re.sub(r"--.*", "", open(name).read())
        kit = of_the_kit(text)
        known.update(word for word in TOKEN.findall(text) if humps(word) and word not in kit)
    return known


def in_edit(text, known):
    lines = []
    for line in text.split("\n"):
        head, colon, rest = line.partition(": ")
        if colon and head in ("old", "new"):
            rest = words(rest, lambda word, whole, at: respelled(word) if word in known else word)
        lines.append(head + colon + rest)
    return "\n".join(lines)


def fallen_together(name, before):
    """The names of a file that were two and would be one."""
    spelt = collections.defaultdict(set)
    for word in set(TOKEN.findall(re.sub(r"(--|//).*", "", before))):
        spelt[respelled(word) if (humps(word) or word in TOGETHER) and word not in of_the_kit(before) else word].add(word)
    return [(name, sorted(words)) for words in spelt.values() if 1 < len(words)]


def main():
    antt = listed(r"\.antt$")
    known = declared([f for f in antt if not f.endswith("Proof.antt")])
    together = []
    for name in antt + listed(r"\.rt$") + listed(r"must-fail/.*\.edit$"):
        with open(name, encoding="utf-8") as file:
            before = file.read()
        if name.endswith(".antt"):
            together += fallen_together(name, before)
            after = in_antt(before)
        elif name.endswith(".rt"):
            after = in_rt(before, known)
        else:
            after = in_edit(before, known)
        if after != before and "--check" not in sys.argv:
            with open(name, "w", encoding="utf-8") as file:
                file.write(after)
    for name, two in together:
        print("together:", name, *two)


if __name__ == "__main__":
    main()
