#!/usr/bin/env python3
"""Brings the repository's own definitions, lemmas and fields of records to today's spelling: words in snake case.

usage: python3 tools/respell.py [--dry]      at the top of the repository, after the toolchain's own script

A word of specs/ or proofs/ that begins with a small letter and has a capital or a dash inside is respelled, wherever a
clause, a ghost line, a specs/ or proofs/ file, an edit or a page in docs/ names it. Types, modules, functions of src/,
strings and the names that the checker makes keep theirs. It stops where two names would fall together.
"""
import re
import sys
from pathlib import Path

ROOT = Path(".")
LETTER = r"[^\W]|['\-\u2261\u2262]"
TOKEN = re.compile(r"[A-Za-z_\u2115\u2124][\w'\u2261\u2262\-]*", re.UNICODE)
DEFINED = re.compile(r"^(\s*)(?:(?:abbrev|unfoldable|pub)\s+)*([a-z][\w'\u2261\u2262\-]*)\s+:(?:\s+(.*))?$")
# files of a function's own proof: what they define for the checker keeps its name
OWN = {"Answers.antt", "Invariants.antt", "Proof.antt", "Choices.antt"}

# definitions whose spelling is today's already, and a lemma of each is there too
DEFINITIONS = {"in_turn", "took_all"}
LEMMAS = {"mark_on": "mark_on_lem"}
# a trait's ghost member and variables of clauses
OTHERS = {"ownerOf": "owner_of", "votesOfOne": "votes_of_one", "runL": "run_l", "dDue": "d_due", "eDue": "e_due", "eightBytes": "eight_bytes"}
# names that are there as folders of proofs, as a field or as a lemma of another crate, and never beside the new one
PATHS = {
    "bench_answers", "digits_of", "next_word", "no_lines", "no_votes", "one_time_key", "seal_over", "seals_in", "set_up",
    "signers_in", "used_lines", "wrong_line", "laid_out",
}


def snake(name):
    out = re.sub(r"(?<=[a-z0-9])([A-Z])", lambda m: "_" + m.group(1).lower(), name)
    out = re.sub(r"(?<=_[a-z])([A-Z])", lambda m: "_" + m.group(1).lower(), out)
    return re.sub(r"(?<=[\w'])-(?=[\w'])", "_", out)


def logic_files():
    return sorted(p for p in ROOT.glob("crates/*/*/**/*.antt") if p.parts[2] in ("specs", "proofs"))


def names_in(path, text):
    """The words and the fields of records that a file declares."""
    words, fields = set(), set()
    record = None
    for line in text.split("\n"):
        head = re.match(r"^(\s*)(?:pub\s+)?record\s+[A-Z]", line)
        if head and line.rstrip().endswith("where"):
            record = len(head.group(1))
            continue
        m = DEFINED.match(line)
        if line.strip() and record is not None and len(line) - len(line.lstrip()) <= record:
            record = None
        if not m:
            continue
        name, rest = m.group(2), m.group(3) or ""
        if rest.lstrip().startswith(("goal.", "need.")):
            continue
        (fields if record is not None else words).add(name)
    return words, fields


def main():
    dry = "--dry" in sys.argv
    words, fields, seen = set(), set(), set()
    for p in logic_files():
        text = p.read_text()
        w, f = names_in(p, text)
        words |= w
        fields |= f
        seen |= set(TOKEN.findall(text))
    change = {n: snake(n) for n in words | fields if snake(n) != n}
    for old, new in sorted(change.items()):
        # a lemma that would have its definition's name gets _lem
        other = [n for n in change if n != old and change[n] == new]
        if "-" in old and old not in fields and (new in DEFINITIONS or other):
            change[old] = new + "_lem"
    change.update(LEMMAS)
    change.update(OTHERS)
    fields |= set(OTHERS)
    bad = False
    taken = {}
    for old, new in sorted(change.items()):
        if new in seen and new not in change and new not in PATHS:
            print(f"falls together: {old} with a name that is there, {new}")
            bad = True
        if new in taken and not {old, taken[new]} & fields:
            print(f"falls together: {old} and {taken[new]}, both {new}")
            bad = True
        taken[new] = old
    source = "\n".join(p.read_text() for p in ROOT.glob("crates/*/src/*.rt"))
    for old, new in sorted(change.items()):
        if re.search(rf"\b{re.escape(new)}\b", source):
            print(f"look: {old} -> {new} is a name of src/ too")
    print(f"{len(change)} names")
    if bad:
        return 1
    if dry:
        return 0

    def turned(text, only_camel=False):
        def one(m):
            name = m.group(0)
            if name not in change:
                return name
            dot = m.start() > 0 and text[m.start() - 1] == "."
            if dot and name not in fields:
                return name
            return change[name] if not (only_camel and "-" in name) else name
        return TOKEN.sub(one, text)

    def turned_source(text):
        """Ghost lines and clauses alone: in code a dash is a minus, and strings stay."""
        out = []
        for line in text.split("\n"):
            out.append(turned(line) if re.match(r"\s*(ghost|requires|ensures)\b", line) else line)
        return "\n".join(out)

    for p in logic_files():
        p.write_text(turned(p.read_text()))
    for p in ROOT.glob("crates/*/src/*.rt"):
        p.write_text(turned_source(p.read_text()))
    for p in ROOT.glob(".ci/must-not-compile/*.patch"):
        p.write_text(turned(p.read_text(), only_camel=True))
    for p in list(ROOT.glob("docs/*.md")) + [ROOT / "README.md"]:
        text = p.read_text()
        p.write_text(re.sub(r"`[^`\n]+`", lambda m: turned(m.group(0), only_camel=True), text))
    return 0


if __name__ == "__main__":
    sys.exit(main())
