#!/usr/bin/env python3
"""Checks that proofs can be read. In every crate, no line of an .antt file except an import is longer than 120 columns. In the library and its
program, each file of lemmas also begins with what it shows, and no term counts fields (as `told.1.1.1.1`). The length of the proofs, in characters
and relative to code and definitions, has a bound. Imports, blanks, comments, tests and worked rows do not count."""
import pathlib
import re
import sys

ROOT = pathlib.Path(__file__).resolve().parent.parent
APART = re.compile(r"_tests$|_(rows|refused_memory)$|^recovery_(embedding|pictures|ffi|link|trace)$")
ROWS = re.compile(r"Rows$|^Row(Start|Laws)$")
OF_FUNCTIONS = {"Answers", "Invariants", "Lib"}
IMPORT = re.compile(r"(ghost )?(pub )?use ")
COUNTED = re.compile(r"[\w)]((?:\.[01]){4,})(?!\w)")
COLUMNS = 120
MOST_COUNTED = 0  # terms that count four fields or more
MOST_TIMES = 1.72  # proofs to code and definitions: what is promised of two endpoints needs most; a program without proofs does not count


def sources(room, kind, everywhere=False):
    for path in sorted(ROOT.glob(f"crates/*/{room}/**/*.{kind}")):
        if everywhere or not APART.search(path.relative_to(ROOT / "crates").parts[0]):
            yield path, path.read_text().split("\n")


def is_code(line):
    text = line.strip()
    return bool(text) and not text.startswith(("--", "//")) and not IMPORT.match(text)


def characters(found):
    return sum(len(line.strip()) for _, lines in found for line in lines if is_code(line))


def main():
    proofs = [(path, lines) for path, lines in sources("proofs", "antt") if not ROWS.search(path.stem)]
    every = [it for room in ("specs", "proofs") for it in sources(room, "antt", everywhere=True)]
    long = [f"{path.relative_to(ROOT)}:{number} has {len(line)} columns" for path, lines in every
            for number, line in enumerate(lines, 1) if len(line) > COLUMNS and not IMPORT.match(line.strip())]
    silent = [f"{path.relative_to(ROOT)} does not begin with what it shows" for path, lines in proofs
              if path.stem not in OF_FUNCTIONS and not lines[0].startswith("-- ")]
    counted = sum(len(COUNTED.findall(line)) for _, lines in proofs for line in lines if is_code(line))
    times = characters(proofs) / (characters(sources("src", "rt")) + characters(sources("specs", "antt")))
    counting = [f"{counted} terms count fields, and not at most {MOST_COUNTED}"] if counted > MOST_COUNTED else []
    heavy = [f"proofs are {times:.2f} times code and definitions, and not at most {MOST_TIMES}: docs/PROVING.md has the shorter forms"] if times > MOST_TIMES else []
    checks = (long, silent, counting, heavy)
    for fault in [it for check in checks for it in check]:
        print(f"proofs: {fault}", file=sys.stderr)
    print(f"proofs: {times:.2f} times code and definitions by characters; {counted} terms count fields")
    failed = sum(map(bool, checks))
    print(f"proofs: {len(checks) - failed} passed, {failed} failed")
    return 1 if failed else 0


sys.exit(main())
