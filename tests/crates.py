#!/usr/bin/env python3
"""Compares crates.txt with the crates, and reads their code:

- crates.txt lists each crate once, after its dependencies, and docs/ARCHITECTURE.md names it;
- the crates are few for their code, since for each the gate reads all that is below it;
- no line of code except an import is longer than 120 columns, and no line of a clause longer than 100;
- the text that a wrong body replaces occurs once in its file (otherwise only the gate's own try of it would show that);
- each type is imported by one path, from the crate that declares it;
- each name is declared once, except those of homonyms.txt.

With --table it prints what each crate has."""
import argparse
import re
import sys

from tree import ROOT, rows

CRATES = ROOT / "crates"
LEAST_LINES = 700  # of code for each crate, on the mean
COLUMNS = 120
CLAUSE_COLUMNS = 100  # which rt fmt does not wrap
CLAUSE = re.compile(r"\s*(requires|ensures)\b")
IMPORT = re.compile(r"\s*(ghost )?(pub )?use ")  # which has a line of its own, however long
USE = re.compile(r"^ *(?:pub(?:\(\w+\))? )?use ([^;]+);", re.M)
TYPE = re.compile(r"\b(?:struct|enum|trait|type) ([A-Z]\w*)")
DEFINED = re.compile(r"^ *(?:(?:abbrev|unfoldable) )*pub (?:(?:abbrev|unfoldable|record|data) )*([A-Z]\w*)", re.M)  # in specs
PUBLIC = re.compile(r"^ *pub (?:struct|enum|trait) (\w+)", re.M)  # in src
HOMONYMS = ROOT / "tests" / "homonyms.txt"
# What a crate imports from others than those that declare it. This list may only get shorter. The example imports as a user does, from the crates whose
# calls take these types.
HANDED_ON = {
    "recovery_embedding": "AckFrequency Ack Answer ConnectionId Controller Duration EcnCounts Event Instant IssuedCid NewConnectionId NewRenoConfig NoMemory "
                          "PathName RecoveryConfig Refusal ResetToken Side SpaceId Timer TransportConfig VarInt",
}


def lines(name, rooms, kind):
    return [line for room in rooms for file in (CRATES / name / room).rglob(f"*.{kind}") for line in file.read_text().splitlines()]


def counts(name):
    """Functions that are written, lines of code, lines of definitions and proofs, edits."""
    code = lines(name, ["src"], "rt")
    functions = sum(bool(re.search(r"\bfn ", line)) for line in code)
    written = sum(bool(line.strip()) and not line.strip().startswith("//") for line in code)
    proofs = len(lines(name, ["specs", "proofs"], "antt"))
    return functions, written, proofs, len(edits(name))


def edits(name):
    """The wrong bodies of a crate: those of must-fail/, which the toolchain can try too, and those of wrong/."""
    return sorted(it for room in ("must-fail", "wrong") for it in (CRATES / name / room).glob("*.edit"))


def show_table(names):
    print("| Crate | Functions | Code | Definitions and proofs | Edits |", "|---|---|---|---|---|", sep="\n")
    for name in names:
        print(f"| `{name}` |", " | ".join(f"{it:,}" if it else "none" for it in counts(name)), "|")


def out_of_place(crates):
    above = set()
    for name, below in crates:
        for it in below:
            if it not in above:
                yield f"crates.txt: {name} names {it}, which is not listed above it"
        above.add(name)


def too_long(name):
    for file in sorted((CRATES / name / "src").rglob("*.rt")):
        for number, line in enumerate(file.read_text().splitlines(), 1):
            if len(line) > COLUMNS and not IMPORT.match(line):
                yield f"{file.relative_to(ROOT)}:{number} has {len(line)} columns, and not at most {COLUMNS}"


def clauses(code):
    """The numbered lines of all clauses: each goes on until its braces are closed."""
    depth = 0
    for number, line in enumerate(code, 1):
        if depth or CLAUSE.match(line):
            yield number, line
            depth += line.count("{") - line.count("}")


def long_clauses(name):
    for file in sorted((CRATES / name / "src").rglob("*.rt")):
        for number, line in clauses(file.read_text().splitlines()):
            if len(line) > CLAUSE_COLUMNS:
                yield (f"{file.relative_to(ROOT)}:{number} is a clause's and has {len(line)} columns, and not at most {CLAUSE_COLUMNS}: break it by hand, as in front of "
                       "≡, →, × or an argument, and go on four columns further in (rt fmt keeps a clause's lines as they are)")


def function_at(text, place):
    """The function in whose body a place of a file is, if it is in one's."""
    inside = None
    for it in re.finditer(r'^( *)(?:pub(?:\([a-z]+\))? )?(?:extern "C" )?fn (\w+)', text, re.M):
        if it.start() > place:
            break
        end = re.compile(rf"^{it[1]}}}", re.M).search(text, it.end())
        inside = it[2] if end is None or place < end.start() else None
    return inside


def missed_edits(name):
    """Edits of a crate that no longer fit the code."""
    for edit in edits(name):
        text = turned = function = ""
        for word, _, rest in (line.partition(": ") for line in edit.read_text().splitlines()):
            if word in ("fn", "# fn"):
                function = rest.rpartition("::")[2]
            elif word == "file":
                file = edit.parent.parent / rest
                text = file.read_text() if file.is_file() else ""
                if function and not re.search(rf"\bfn {function}\b", text):
                    yield f"{edit.relative_to(ROOT)}: its file has no function {function}: its line 'fn:' must name the changed function as a check prints it"
            elif word == "old":
                turned = rest
                if text.count(turned) != 1:
                    yield (f"{edit.relative_to(ROOT)}: {turned.strip()!r} occurs {text.count(turned)} times in its file, and not once: change a value of today's "
                           "code, and see which goal rejects it (tests/wrong_bodies.py --goals)")
                elif function and function_at(text, text.index(turned)) not in (function, None):
                    yield f"{edit.relative_to(ROOT)}: its line is in {function_at(text, text.index(turned))}, and 'fn:' says {function}: nothing would be tried"
            elif word == "new":
                text = text.replace(turned, rest)


def leaves(tree):
    """The paths that an import names."""
    before, brace, inside = tree.strip().partition("{")
    if not brace:
        return [before.partition(" as ")[0]]
    parts, depth = [""], 0
    for letter in inside.rstrip()[:-1]:
        depth += (letter == "{") - (letter == "}")
        parts = parts + [""] if letter == "," and not depth else [*parts[:-1], parts[-1] + letter]
    return [before + leaf for part in parts if part.strip() for leaf in leaves(part)]


def import_paths(names):
    """Types that one crate imports from another by a second path, or from a crate that does not declare them."""
    code = {it: "\n".join(lines(it, ["src"], "rt")) for it in names}
    declared = {it: set(TYPE.findall(code[it])) for it in names}
    paths, left = {}, {(importer, name) for importer, known in HANDED_ON.items() for name in known.split()}
    seen = set()
    for importer in names:
        for path in sorted({leaf for tree in USE.findall(code[importer]) for leaf in leaves(tree)}):
            crate, name = path.split("::")[0], path.split("::")[-1]
            if crate in (importer, "crate") or crate not in code or not re.match(r"[A-Z]\w*[a-z]", name):
                continue
            if name in declared[crate]:
                paths.setdefault((crate, name), {}).setdefault(path, importer)
            elif (importer, name) in left:
                seen.add((importer, name))
            else:
                yield f"{importer} imports {path}, which {crate} only re-exports: import it from the crate that declares {name}"
    for (_, name), found in paths.items():
        if len(found) > 1:
            yield f"{name} is imported by more than one path: {', '.join(f'{path} in {it}' for path, it in found.items())}: use one"
    yield from (f"HANDED_ON: {importer} does not import {name} from another crate than the one that declares it: drop {name}" for importer, name in sorted(left - seen))


def homonyms(names):
    """Names that more than one module declares, except a type's model in the specs of its own crate."""
    places = {}
    for crate in names:
        for room, kind, pattern in (("specs", "antt", DEFINED), ("src", "rt", PUBLIC)):
            for file in sorted((CRATES / crate / room).rglob(f"*.{kind}")):
                for name in set(pattern.findall(file.read_text())):
                    places.setdefault(name, []).append((crate, room, str(file.relative_to(ROOT))))
    mirrors = lambda found: len(found) == 2 and found[0][0] == found[1][0] and found[0][1] != found[1][1]
    twice = {name: found for name, found in places.items() if len(found) > 1 and not mirrors(found)}
    known = {line.partition(":")[0] for line in HOMONYMS.read_text().splitlines() if line and not line.startswith("#")}
    yield from (f"{name} is declared in {' and '.join(it[2] for it in twice[name])}: choose another name for one" for name in sorted(set(twice) - known))
    yield from (f"tests/homonyms.txt: {name} is declared once: drop its line" for name in sorted(known - set(twice)))


def main():
    parser = argparse.ArgumentParser(description=__doc__, formatter_class=argparse.RawDescriptionHelpFormatter)
    parser.add_argument("--table", action="store_true", help="what each crate has, as a table")
    crates = rows()
    names = [name for name, _ in crates]
    if parser.parse_args().table:
        return show_table(names)
    folders = sorted(it.name for it in CRATES.iterdir() if (it / "src").is_dir())
    architecture = (ROOT / "docs" / "ARCHITECTURE.md").read_text()
    mean = sum(counts(it)[1] for it in names) // len(names)
    few = f"the {len(names)} crates have {mean} lines of code on the mean, and not {LEAST_LINES}: join a small one with its neighbour"
    checks = [
        [f"crates.txt and the folder crates/ do not name the same: {sorted(set(names) ^ set(folders))}"] if sorted(names) != folders else [],
        [few] if mean < LEAST_LINES else [],
        list(out_of_place(crates)),
        [f"docs/ARCHITECTURE.md does not name {it}: say there what it is for" for it in names if f"`{it}`" not in architecture],
        [fault for it in names for fault in too_long(it)],
        [fault for it in names for fault in long_clauses(it)],
        [fault for it in names for fault in missed_edits(it)],
        list(import_paths(names)),
        list(homonyms(names)),
    ]
    for fault in [it for check in checks for it in check]:
        print(f"crates: {fault}", file=sys.stderr)
    failed = sum(map(bool, checks))
    print(f"crates: {len(checks) - failed} passed, {failed} failed")
    return 1 if failed else 0


sys.exit(main())
