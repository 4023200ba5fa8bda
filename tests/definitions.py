#!/usr/bin/env python3
"""Counts what a reader of Recovery::run has to read: all definitions that its promises (the fields of StepGuarantees) and its other clauses depend on.
It counts their lines name by name, without imports, blanks and comments. For each promise about events and answers alone it counts whole files. The table of
docs/DEFINITIONS.md must name each file with such a definition.

    tests/definitions.py            counts, and reads the table
    tests/definitions.py --write    writes the table
"""
import argparse
import pathlib
import re
import sys

ROOT = pathlib.Path(__file__).resolve().parent.parent
DRIVER = ROOT / "crates" / "quic_recovery" / "src" / "driver.rt"
PAST = ROOT / "crates" / "recovery_history" / "specs" / "Reachability.antt"
PROMISES = ROOT / "crates" / "recovery_history" / "specs" / "Promises"
PAGE = ROOT / "docs" / "DEFINITIONS.md"
BEGINS, ENDS = "<!-- this table is written by tests/definitions.py --write -->\n", "<!-- its end -->\n"
LONGEST = 55  # lines of a file of promises
MOST_EACH = 78  # lines that run rests on, for each promise and clause
DEFINITION = re.compile(r" *(?:(?:unfoldable )?(?:abbrev )?pub |abbrev |pub )(?:record |data )?([^\s(:{]+)")
RECORD = re.compile(r" *pub (?:record|data) ")
USE = re.compile(r"\s*(?:ghost )?use ([\w.]+)\.\{(.*)\};?$")
WORD = re.compile(r"[^\s(){}\[\],;.λ→×≡]+")


def imports(lines):
    """Which name of which module each word stands for."""
    found = {}
    for line in lines:
        use = USE.match(line)
        for name in use.group(2).split(",") if use else []:
            theirs, _, ours = name.strip().partition(" as ")
            found[ours or theirs] = (use.group(1), theirs)
    return found


def module(path):
    """The lines of each definition, and what its words stand for. A field belongs to its record."""
    lines = path.read_text().split("\n")
    bodies, name, record = {}, None, None
    for line in lines:
        depth = len(line) - len(line.lstrip())
        begins = DEFINITION.match(line)
        if line.strip() and record is not None and depth <= record:
            record = None
        if begins and record is None:
            name = begins.group(1)
            record = depth if RECORD.match(line) else None
        elif record is None and (not line.strip() or line.startswith("use ") or line.lstrip().startswith("module ")):
            name = None
        if name and line.strip() and not line.lstrip().startswith("--"):
            bodies.setdefault(name, []).append(line.split(" -- ")[0])
    return bodies, imports(lines)


def modules():
    found = {}
    for path in ROOT.glob("crates/*/specs/**/*.antt"):
        crate, _, *inner = path.relative_to(ROOT / "crates").with_suffix("").parts
        found[".".join(["Rattle", crate, "specs", *inner])] = module(path)
    return found


def rests_on(words, every):
    """All definitions that these rest on."""
    seen, left = set(), list(words)
    while left:
        word = left.pop()
        place, name = word
        if word in seen or name not in every.get(place, ({}, {}))[0]:
            continue
        seen.add(word)
        bodies, names = every[place]
        for line in bodies[name]:
            for other in WORD.findall(line):
                left.append((place, other) if other in bodies else names.get(other, ("", "")))
    return seen


def promises():
    """The definitions that each field of StepGuarantees names: what run ensures at each event."""
    text = PAST.read_text()
    names = imports(text.split("\n"))
    fields = re.search(r"^  pub record StepGuarantees .*?\n\n", text, re.M | re.S).group(0)
    for name, said in re.findall(r"^    pub (\w+) : (.*(?:\n      .*)*)", fields, re.M):
        yield name, [names[word] for word in WORD.findall(said) if word in names]


def clauses():
    """The definitions that each promise names, and those that each clause of run about the run as a whole names."""
    yield from promises()
    text = DRIVER.read_text()
    names = imports(text.split("\n"))
    contract = text[text.index("    pub fn run("):]
    contract = contract[:contract.index("\n    {\n")]
    for clause in re.split(r"\n\s+ensures ", contract)[1:]:
        yield clause.split()[0], [names[word] for word in WORD.findall(clause) if word in names and word != "StepGuarantees"]


def table(places):
    """The files of these modules by their crates; those of specs/Promises are in docs/PROMISES.md."""
    files = {}
    for place in sorted(places):
        _, crate, _, *inner = place.split(".")
        if inner[0] != "Promises":
            files.setdefault(crate, []).append(f"`{inner[-1]}`")
    yield "| Crate | Files of its `specs/` |"
    yield "|---|---|"
    yield from (f"| `{crate}` | {', '.join(names)} |" for crate, names in files.items())


def with_table(page, places):
    """The page, with its table written."""
    before, mark, rest = page.partition(BEGINS)
    _, end, after = rest.partition(ENDS)
    return before + mark + "\n".join(table(places)) + "\n" + end + after


def main():
    parser = argparse.ArgumentParser(description=__doc__, formatter_class=argparse.RawDescriptionHelpFormatter)
    parser.add_argument("--write", action="store_true", help="writes the table of docs/DEFINITIONS.md")
    writes = parser.parse_args().write
    every = modules()
    size = lambda words: sum(len(every[place][0][name]) for place, name in words)
    told, failed = {}, 0
    for clause, words in clauses():
        told[clause] = rests_on(words, every)
        print(f"definitions: {clause}: {size(told[clause])} lines")
    live = rests_on([("Rattle.quic_recovery.specs.Live", "LiveStepFromSome")], every)
    direct = {path.stem: len(path.read_text().split("\n")) - 1 for path in sorted(PROMISES.glob("*.antt"))}
    for name, lines in direct.items():
        if lines > LONGEST:
            failed += 1
            print(f"definitions: Promises/{name}: {lines} lines, and not at most {LONGEST}: a promise is read as a whole, so say it shorter, or as two",
                  file=sys.stderr)
    rests = set().union(*told.values())
    whole = size(rests)
    page = PAGE.read_text()
    written = with_table(page, {place for place, _ in rests})
    if writes:
        PAGE.write_text(written)
    elif page != written:
        failed += 1
        print("definitions: docs/DEFINITIONS.md names other files than run rests on: tests/definitions.py --write names them", file=sys.stderr)
    print(f"definitions: run rests on {whole} lines, a live call on {size(live)}; {len(direct)} files of promises have {sum(direct.values())}")
    most = MOST_EACH * len(told)
    if whole > most:
        failed += 1
        print(f"definitions: run rests on {whole} lines, and not on at most {most} ({MOST_EACH} a promise): say a definition over words that are "
              "there, or drop one that a clause can do without", file=sys.stderr)
    print(f"definitions: {len(direct) + 2 - failed} passed, {failed} failed")
    return 1 if failed else 0


sys.exit(main())
