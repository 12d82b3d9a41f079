#!/usr/bin/env python3
"""Brings the names of definitions, lemmas and their variables to today's spelling: snake case for words, camel case for
types. Run once, at the top, after /opt/rattle/port/port.py and before any edit by hand.

A name is turned where it stands in a proof, a definition, a clause, a comment, an edit (must-fail/) or, between
backquotes, in a page. Strings and the program's own names stay.
"""
import os
import re
import subprocess
import sys

LANDED = "cb25225d13599fd3118f907b8025d68d072d2ed4"
WORD = re.compile(r"[A-Za-z_][A-Za-z0-9_']*")
CAMEL = re.compile(r"^[a-z][a-z0-9]*(?:[A-Z][A-Za-z0-9]*)+'*$")
# Facts whose names began like a word's.
FACTS = {"crates/layout_claims/specs/Examples.antt": {"packs": "Packs", "reads": "Reads", "gives": "Gives"}}
# Lemmas and variables that would have the new name of a definition in their file.
APART = {
    "crates/evolution/proofs/Fields.antt": {"all_digits": "all_digits_lem"},
    "crates/rescue/proofs/Cuts.antt": {"end_by": "end_by_lem"},
    "crates/sheet/proofs/Entries.antt": {"entry_in": "entry_in_lem"},
    "crates/compare_claims/proofs/Examples.antt": {"other_way": "other_way_lem"},
    "crates/runs/proofs/Joined.antt": {"pack_one": "pack_one_lem"},
    "crates/sheet/proofs/Claims.antt": {"put_entries": "put_entries_lem"},
    "crates/rescue/proofs/Claims.antt": {"put_entries": "put_entries_lem"},
    "crates/evolution/proofs/Arguments.antt": {"kind_fits": "kind_served"},
}


def snake(word):
    word = re.sub(r"([a-z0-9])([A-Z])", r"\1_\2", word)
    word = re.sub(r"([A-Z])([A-Z][a-z])", r"\1_\2", word)
    return word.lower()


# A string, a character, a comment, or a run of anything else.
PARTS = re.compile(r'"(?:[^"\\\n]|\\.)*"|b\'(?:[^\'\\]|\\.)\'')


def outside(text, turn):
    """Turns text, but for its strings."""
    out, at = [], 0
    for m in PARTS.finditer(text):
        out.append(turn(text[at:m.start()]))
        out.append(m.group())
        at = m.end()
    out.append(turn(text[at:]))
    return "".join(out)


def files(*ends):
    for folder, dirs, names in os.walk("crates"):
        dirs[:] = sorted(d for d in dirs if d != "out")
        for name in sorted(names):
            if name.endswith(ends):
                yield os.path.join(folder, name)


def read(path):
    with open(path, encoding="utf-8") as f:
        return f.read()


def write(path, text):
    with open(path, "w", encoding="utf-8") as f:
        f.write(text)


def names():
    """The names to turn: those in camel case that stand in definitions and proofs, outside comments and strings."""
    found = set()

    def collect(text):
        for word in WORD.findall(text):
            if CAMEL.match(word):
                found.add(word)
        return text

    for path in files(".antt"):
        text = "\n".join(re.sub(r"(^|\s)--.*$", "", line) for line in read(path).split("\n"))
        outside(text, collect)
    return {word: snake(word) for word in sorted(found)}


def turner(table):
    return lambda text: WORD.sub(lambda m: table.get(m.group(), m.group()), text)


def main():
    table = names()
    turn = turner(table)
    for path, words in APART.items():
        write(path, turner(words)(read(path)))
    for path in files(".antt", ".rt"):
        text = read(path)
        new = outside(text, turn)
        if new != text:
            write(path, new)
    for path, facts in FACTS.items():
        lines = read(path).split("\n")
        write(path, "\n".join(t if t.startswith("--") else outside(t, turner(facts)) for t in lines))
    # What an edit names: the words of before the kit's script too.
    old = {}
    listed = subprocess.run(["git", "grep", "-hoE", r"\b[a-z][a-z0-9]*([A-Z][A-Za-z0-9]*)+", LANDED, "--", "crates/*.antt"],
                            capture_output=True, text=True, check=True).stdout.split()
    now = {w for p in files(".antt") for w in WORD.findall(read(p))}
    for word in set(listed):
        if snake(word) in now:
            old[word] = snake(word)
    old.update(table)
    for path in files(".edit"):
        text = read(path)
        words = dict(old)
        for page, facts in FACTS.items():
            if path.startswith(page.split("/specs/")[0]) and "file: specs/Examples.antt" in text:
                words.update(facts)
        head, *lines = text.split("\n")
        new = "\n".join([turner(old)(head)] + [outside(t, turner(words)) for t in lines])
        if new != text:
            write(path, new)
    pages = [os.path.join("docs", n) for n in os.listdir("docs") if n.endswith(".md")] + ["README.md"]
    pages += [os.path.join("docs/requests", n) for n in os.listdir("docs/requests") if n.endswith(".md")]
    for path in sorted(pages):
        text = read(path)
        new = re.sub(r"`[^`\n]+`", lambda m: turner(old)(m.group()), text)
        if new != text:
            write(path, new)
    print(f"{len(table)} names turned")
    return 0


if __name__ == "__main__":
    sys.exit(main())
