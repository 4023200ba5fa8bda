#!/usr/bin/env python3
"""docs/RFC.md: what the RFCs require of a recovery layer, from the table docs/rfc.tsv. With `--write` this script writes the page.

A line of the table has the RFC, its section, the requirement, its kind, what holds here, references (apart by ` | `) and a note. A reference is one
of these:

- `clause NAME`: a definition of crates/*/specs, or a clause `ensures NAME` of crates/*/src; `clause NAME in FILE`, if several files have one;
- `row START`: the beginning of one comment of tests/sender/rows.txt, or, as `row FILE: START`, of a file in tests/rows;
- `default SETTING`: a line of a default in crates/*/specs;
- `page PAGE#anchor`: a heading of docs/PAGE.md.

tests/documents.py runs `checks`: each reference exists, and the page is that of the table."""
import pathlib
import re
import sys
from collections import Counter, defaultdict, namedtuple

ROOT = pathlib.Path(__file__).resolve().parent.parent
TABLE, PAGE = ROOT / "docs" / "rfc.tsv", ROOT / "docs" / "RFC.md"
COLUMNS = ["rfc", "section", "requirement", "kind", "here", "references", "note"]
KINDS = ["MUST", "MUST NOT", "SHOULD", "SHOULD NOT", "RECOMMENDED", "MAY", "can", "rule", "code", "open"]
HERE = {"yes": {"clause", "row", "default"}, "you": {"page"}, "no": set(), "not used": set()}  # each with the references of which it needs one
DEFINED = re.compile(r"^ *(?:(?:unfoldable|abbrev|pub|record|data) )*([^\s(:{]+) *[:({]", re.M)
ENSURED = re.compile(r"^\s+ensures (\w+)", re.M)
TITLES = {"9002": "loss detection and congestion control", "9000": "the transport", "8899": "the MTU search", "8312": "CUBIC",
          "9438": "CUBIC, what it adds to RFC 8312"}
HEAD = """# The RFCs, requirement by requirement

For an auditor: what the RFCs require of a recovery layer, what this one does, and what proves or tests it. Sections of
RFC 9000 and 8899 are those about ACKs, paths, IDs, packet numbers, ECN and sizes of datagrams.

*Here* is one of four:

- **yes**: it is met. The last column has clauses, each with its file in `crates/*/specs`, and rows: how a comment of
  `tests/sender/rows.txt`, or of a file in `tests/rows`, begins.
- **you**: the stack that calls the library does it, as the page describes it.
- **no**: the library departs from it. The last column has the reason.
- **not used**: the RFC permits it, and the library does not do it.

*Fault* marks what is to be repaired.

*Kind* is the RFC's keyword. A *rule* is stated without one, *code* is pseudocode of an appendix, *can* names a
possibility, and *open* is what the RFC does not decide. `tests/rfc.py --write` writes this page from `docs/rfc.tsv`,
and `tests/documents.py` looks up each name.
"""

Row = namedtuple("Row", COLUMNS)


def rows():
    """The rows of the table."""
    head, *lines = TABLE.read_text().splitlines()
    found = [line.split("\t") for line in lines]
    wrong = [line for line, cells in zip(lines, found) if len(cells) != len(COLUMNS)]
    if wrong or head.split("\t") != COLUMNS:
        raise ValueError(f"docs/rfc.tsv: not the columns {' '.join(COLUMNS)}: {wrong[0] if wrong else head}")
    return [Row(*cells) for cells in found]


def references(row):
    """Pairs of the kind of a reference and its text."""
    return [tuple(it.split(" ", 1)) for it in row.references.split(" | ")] if row.references else []


def order(row):
    """Sections in the order of the RFC: numbers, then appendices."""
    return [(not part.isdigit(), part.zfill(3)) for part in row.section.split(".")]


def shown(kind, text, sources):
    """A reference as the page has it."""
    if kind == "page":
        return f"[{text.partition('#')[0]}]({text.replace('#', '.md#')})"
    if kind == "clause":
        return f"`{text.partition(' ')[0]}` ({', '.join(sources.homes(text))})"
    return f"{kind} `{text}`"


def line(row, sources):
    last = "; ".join(shown(*it, sources) for it in references(row))
    last = f"{last}. {row.note}" if last and row.note else last or row.note
    return f"| {row.section} | {row.requirement} | {row.kind} | {row.here} | {last} |\n"


def counted(every):
    counts = Counter(row.here for row in every)
    return ", ".join(f"{counts[it]} are *{it}*" for it in HERE if counts[it])


def page(every, sources):
    """The text of docs/RFC.md."""
    text = f"{HEAD}\nOf {len(every)} requirements {counted(every)}.\n"
    text += f"Of those with MUST or MUST NOT {counted([row for row in every if row.kind.startswith('MUST')])}.\n"
    for rfc in dict.fromkeys(row.rfc for row in every):
        text += f"\n## RFC {rfc}: {TITLES[rfc]}\n\n| Section | Requirement | Kind | Here | What shows it, and why |\n|---|---|---|---|---|\n"
        text += "".join(line(row, sources) for row in sorted((it for it in every if it.rfc == rfc), key=order))
    return text


def comments(file):
    """The comments of a file of rows, each joined from its lines."""
    found, is_open = [], False
    for text in file.read_text().splitlines():
        if text.startswith("# "):
            found[len(found) - is_open:] = [f"{found[-1]} {text[2:]}" if is_open else text[2:]]
        is_open = text.startswith("# ")
    return found


class Sources:
    """Where references are looked up."""

    def __init__(self):
        specs, bodies = sorted(ROOT.glob("crates/*/specs/**/*.antt")), sorted(ROOT.glob("crates/*/src/**/*.rt"))
        self.clauses = defaultdict(set)
        for file in (*specs, *bodies):
            for name in (DEFINED if file.suffix == ".antt" else ENSURED).findall(file.read_text()):
                self.clauses[name].add(file.stem)
        self.defaults = {part.strip() for it in specs for part in re.findall(r"\w+ = [^;{}\n]+", it.read_text())}
        files = [*ROOT.glob("tests/rows/*.txt"), ROOT / "tests" / "sender" / "rows.txt"]
        self.rows = {it.name: comments(it) for it in files}
        self.sections = {it.stem: sections(it.read_text()) for it in ROOT.glob("docs/*.md")}

    def homes(self, text):
        """The files of a clause: those with its name, or the one that the reference names."""
        name, _, file = text.partition(" in ")
        return sorted(it for it in self.clauses.get(name, ()) if it == file or not file)

    def has(self, kind, text):
        if kind == "clause":
            return len(self.homes(text)) == 1
        if kind == "default":
            return text in self.defaults
        if kind == "row":
            file, _, start = text.partition(": ") if ".txt: " in text else ("rows.txt", "", text)
            return bool(start) and len({it for it in self.rows.get(file, ()) if it.startswith(start)}) == 1
        name, _, anchor = text.partition("#")
        return kind == "page" and anchor in self.sections.get(name, {})

    def cites(self, text, row):
        """Whether the part of a page below a heading names the section of a row."""
        name, _, anchor = text.partition("#")
        section = rf"{row.rfc}(?:, (?:and )?|: )(?:(?:[\w.]+(?:, | and | to ))*)\(?{re.escape(row.section)}(?![\w.]*\d)"
        return bool(re.search(section, " ".join(self.sections.get(name, {}).get(anchor, "").split())))


def sections(text):
    """The text below each heading of a page, by the heading's anchor."""
    found = re.split(r"^#+ (.*)$", text, flags=re.M)
    return {re.sub(r"[^\w -]", "", head.lower()).replace(" ", "-"): body for head, body in zip(found[1::2], found[2::2])}


def faults(row, sources):
    """What is wrong with a row."""
    kinds = {kind for kind, _ in references(row)}
    if row.kind not in KINDS or row.here not in HERE or row.rfc not in TITLES or not row.requirement:
        yield "its kind, RFC or requirement, or what holds here, is unknown"
        return
    yield from (f"{kind} {text} is not there, or several are" for kind, text in references(row) if not sources.has(kind, text))
    if HERE[row.here] and not HERE[row.here] & kinds:
        yield f"a requirement that is '{row.here}' needs a {' or '.join(sorted(HERE[row.here]))}"
    if row.here == "no" and not row.note:
        yield "a requirement that is 'no' needs its reason"
    if row.here == "you" and not any(sources.cites(text, row) for kind, text in references(row) if kind == "page"):
        yield f"no page that it names has RFC {row.rfc}, {row.section} below that heading"


def checks():
    """A list of faults for each row, and for the page."""
    try:
        every = rows()
    except ValueError as error:
        return [[str(error)]]
    sources = Sources()
    found = [[f"docs/rfc.tsv: {row.rfc}, {row.section} '{row.requirement}': {it}" for it in faults(row, sources)] for row in every]
    is_so = PAGE.exists() and PAGE.read_text() == page(every, sources)
    return [*found, [] if is_so else ["docs/RFC.md is not what docs/rfc.tsv gives: tests/rfc.py --write"]]


def main():
    if sys.argv[1:] == ["--write"]:
        PAGE.write_text(page(rows(), Sources()))
    elif sys.argv[1:]:
        sys.exit("usage: tests/rfc.py [--write]")
    found = checks()
    for fault in (it for one in found for it in one):
        print(f"rfc: {fault}", file=sys.stderr)
    failed = sum(map(bool, found))
    print(f"rfc: {len(found) - failed} passed, {failed} failed")
    sys.exit(failed > 0)


if __name__ == "__main__":
    main()
