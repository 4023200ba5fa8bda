#!/usr/bin/env python3
"""Checks that what the README and the documents say can be looked up:

- each link leads to a file, and to the heading that it names;
- each name in backquotes occurs in a source, and `A::b` in the file that declares A;
- the README and docs/PROMISES.md name each clause of run, and a definition is in the file that its row names;
- each example is shown with its output, as in examples/, and code in fences is from an example;
- no line has more than 120 columns, and each row of a table has the cells of its head;
- all documents together are short, except docs/RFC.md, which a script writes, and pages read well (tests/prose.py);
- what docs/RFC.md says can be looked up (tests/rfc.py);
- the pages of tools/reference have every public item of the crates (tests/reference.py).

Names of others (upstream, the toolchain, patterns) are listed here, as long as a document has them."""
import os
import pathlib
import re
import sys
import textwrap
from itertools import zip_longest

import prose
import reference
import rfc

ROOT = pathlib.Path(__file__).resolve().parent.parent
NAME = re.compile(r"[A-Za-z_][A-Za-z0-9_-]*")
INPUT = re.compile(r"(tracked|local_ids)_\d+_")  # of bench/, which makes these names
README_LINES = 112
COLUMNS = 120  # of a line that is no row of a table
MOST_BYTES = 231_700  # of all documents together that are written by hand
WRITTEN = {pathlib.Path("docs/RFC.md")}  # by a script, from the table docs/rfc.tsv
FENCED = re.compile(r"^```(rust|c|text)\n(.*?)^```$", re.M | re.S)
EXAMPLES = {"rust": ["rust/*/examples/*.rs"], "c": ["rust/c/*.c"], "text": ["rust/*/examples/*.out", "rust/c/*.out"]}
SHOWN = re.compile(r"^`(examples/\w+)\.txt`, and what it prints.*\n\n((?:    .*\n)+)", re.M)
DEFINED = re.compile(r"^ *(?:(?:unfoldable|abbrev|pub|record|data) )*([^\s(:{]+) *[:({]", re.M)
DECLARED = re.compile(r"\b(?:struct|enum|trait|type|mod) (\w+)|\bimpl(?:<.*?>)? (?:\w+(?:<.*?>)? for )?(\w+)")
COMMENTS = {".rt": "//.*", ".rs": "//.*", ".antt": "--.*", ".py": "(?m)^ *#.*"}  # a name that occurs only in them is one of the past
QUALIFIED = re.compile(r"([A-Z]\w+)(?:<[^>]*>)?::(?:\{([^}]*)\}|(\w+))")

# names in backquotes that no source has: those of upstream, of Rust or of the toolchain, and parts of patterns
OTHERS = {
    "DECISIONS.md": "circular_buffer",
    "DIFFERENCES.md": "first_packet crypto_stream tinyvec f32 Retransmits ArrayRangeSet::default",
    "EMBEDDING.md": "rand_chacha Retransmits max_data reset_stream max_stream_data Meta::default",
    "PROGRAMS.md": "rttvar",
    "PROVING.md": "plant",
}
TYPES = {"Box", "Pcg32"}  # declared elsewhere, and named with what they have


def files_here():
    """All files but those that are built, which may come and go while this runs."""
    found = []
    for folder, inside, files in os.walk(ROOT):
        inside[:] = [it for it in inside if it not in ("out", "target", ".git", "__pycache__", "prebuilt", "native")]
        found += ((pathlib.Path(folder) / it).relative_to(ROOT) for it in files)
    return sorted(found)


def is_document(file):
    return file.suffix == ".md" and file.parts[0] in ("docs", "README.md", "CONTRIBUTING.md", "rust")


def is_source(file):
    """What documents describe: no document, no table of one, no picture, no licence, and not this list."""
    return file.suffix not in (".md", ".tsv", ".svg") and not re.match("LICENSE|NOTICE", file.name) and file != pathlib.Path("tests/documents.py")


class Sources:
    """The words of the sources and of the names of files, and the file that declares each type."""

    def __init__(self, files):
        self.words = {word for file in files for word in NAME.findall(str(file))}
        self.texts, self.homes = {}, {}
        for file in filter(is_source, files):
            text = re.sub(COMMENTS.get(file.suffix, "$^"), "", (ROOT / file).read_text(errors="ignore"))
            self.words.update(NAME.findall(text))
            if file.suffix in (".rt", ".rs"):
                self.texts[file] = set(NAME.findall(text))
                for found in DECLARED.findall(text):
                    self.homes.setdefault(found[0] or found[1], set()).add(file)

    def has(self, word):
        """A word of a source, or its plural; short ones, and those in capitals, which stand for what is to be filled in, are not looked up."""
        return len(word) < 3 or word.isupper() or bool(INPUT.match(word)) or word in self.words or (word.endswith("s") and word[:-1] in self.words)

    def misses(self, name):
        """What of `A::b`, or of `A::{b, c}`, is in no file that declares A."""
        for owner, group, one in QUALIFIED.findall(name):
            homes = self.homes.get(owner, set())
            if owner in TYPES:
                continue
            if not homes:
                yield owner
            for word in NAME.findall(group or one):
                if homes and not any(word in self.texts[home] for home in homes):
                    yield f"{owner}::{word}"


def quoted(text):
    """The names in backquotes, but those with a place to be filled in; lines of code are none."""
    prose = re.sub(r"^    .*$", "", text, flags=re.M)
    return [it for it in re.findall(r"`([^`\n]+)`", prose) if "*" not in it and "_W_" not in it]


def slugs(file):
    """The anchors of a document's headings."""
    heads = re.findall(r"^#+ (.*)$", file.read_text(), re.M) if file.suffix == ".md" else []
    return {re.sub(r"[^\w -]", "", it.lower()).replace(" ", "-") for it in heads}


def faults_in(file, text, sources):
    others = set(OTHERS.get(file.name, "").split())
    names = quoted(text)
    words = {word for name in names for word in NAME.findall(name)} | {it.partition("(")[0] for it in names}
    for name in names:
        for word in NAME.findall(name):
            if word not in others and not sources.has(word):
                yield f"{file}: `{word}` (in `{name}`) is in no source"
        yield from (f"{file}: `{it}` (in `{name}`) is in no file that declares it" for it in sources.misses(name) if it not in others)
    for word in sorted(others):
        if word not in words or word in sources.words:
            yield f"tests/documents.py: {word} of {file.name} is in a source, or the document does not have it: remove it from the list"
    for link, anchor in re.findall(r"\]\(([^)#]*)#?([^)]*)\)", text):
        there = (ROOT / file.parent / link) if link else ROOT / file
        if "://" not in link and not (there.exists() and (not anchor or anchor in slugs(there))):
            yield f"{file}: {link}#{anchor} is not there"
    for number, line in enumerate(text.split("\n"), 1):
        if len(line) > COLUMNS and not line.startswith(("|", "{")):
            yield f"{file}:{number} has {len(line)} columns, and not at most {COLUMNS}"


def clauses_of_run():
    """The promises, which are the fields of StepGuarantees, and the clauses about the run as a whole."""
    text = (ROOT / "crates" / "quic_recovery" / "src" / "driver.rt").read_text()
    contract = text[text.index("    pub fn run("):]
    keeps = re.search(r"^  pub record StepGuarantees .*?\n\n", (ROOT / "crates" / "recovery_history" / "specs" / "Reachability.antt").read_text(), re.M | re.S).group(0)
    promises = re.findall(r"^    pub (\w+) :", keeps, re.M)
    return promises + re.findall(r"\n\s+ensures (\w+)", contract[:contract.index("\n    {\n")])


def examples_in(file, text):
    """What is wrong with each example that is shown: a page has its lines and its output, as in its two files."""
    shown = dict(SHOWN.findall(text))
    every = {"README.md": ["examples/received"]}
    if file.parts[0] == "rust":
        return
    for name in sorted({*shown, *every.get(file.name, [])}):
        script, printed = ((ROOT / f"{name}.{end}").read_text().splitlines() for end in ("txt", "out"))
        lines = [re.split("  +", line.strip()) for line in shown.get(name, "").splitlines()]
        is_so = lines == [[*it] for it in zip_longest(script, printed)]
        yield [] if is_so else [f"{file}: {name}.txt is not shown with what it prints, as {name}.out has it"]


def plain(text):
    """Lines without common indentation and without spaces at their ends."""
    return "\n".join(line.rstrip() for line in textwrap.dedent(text).strip("\n").split("\n"))


def code_in(file, text):
    """Each block in fences that is neither from a compiled example nor from an example's output."""
    for language, block in FENCED.findall(text):
        wanted = block.strip("\n").split("\n")
        sources = [it.read_text().split("\n") for glob in EXAMPLES[language] for it in sorted(ROOT.glob(glob))]
        pieces = (lines[at : at + len(wanted)] for lines in sources for at in range(len(lines) - len(wanted) + 1) if wanted[0].strip() in lines[at])
        if not any(plain("\n".join(it)) == plain(block) for it in pieces):
            yield f"{file}: {wanted[0].strip()!r} and what follows is in none of {', '.join(EXAMPLES[language])}: show the code as it is now"


def tables_in(file, text):
    """Each table without a line below its head, as the rest of one that an empty line splits, and each row with more or fewer cells than the head."""
    for table in re.findall(r"(?:^\|.*\n)+", re.sub(r"\\\|", "/", text), re.M):
        head, *rows = table.splitlines()
        if not rows or not re.fullmatch(r"[|-]+", rows[0]):
            yield f"{file}: the table of {head!r} has no head"
        yield from (f"{file}: {row!r} has not the cells of its head" for row in rows if row.count("|") != head.count("|"))


def prose_of(file, text):
    """What reads badly on a page; those of the crates for cargo are not pages."""
    if file.parts[0] != "rust":
        yield from (f"{file}:{number}: {fault}" for number, fault in prose.faults(text))


def misplaced():
    """Definitions that are not in the file that their row names: the first name of each row of the first table of docs/DEFINITIONS.md, and of each row
    of docs/PROMISES.md."""
    files = [*ROOT.glob("crates/*/specs/**/*.antt")]
    defined = {(name, it.stem) for it in files for name in DEFINED.findall(it.read_text())}
    table = (ROOT / "docs" / "DEFINITIONS.md").read_text().split("\n## ")[1]
    rows = re.findall(r"^\|[^|]*\|[^|`]*`(\w+)`[^|]*\| ([\w, ;]+) \|$", table, re.M)
    rows += re.findall(r"^\| `\w+` \|.*\| `(\w+)`, ([\w/]+)(?:; [^|]*)? \|$", (ROOT / "docs" / "PROMISES.md").read_text(), re.M)
    for name, places in rows:
        stems = [it.rpartition("/")[2] for it in re.findall(r"[\w/]+", places)]
        if not any((name, stem) in defined for stem in stems):
            yield f"docs: `{name}` is not in {' or '.join(stems)}"
    if len(rows) < 30:
        yield f"docs: only {len(rows)} definitions are named with their file"


def too_long(texts):
    size = sum(len(it.encode()) for it in texts)
    if size > MOST_BYTES:
        yield (f"docs: all documents have {size:,} bytes, and not at most {MOST_BYTES:,}: state a fact in one of them and link to it from "
               "the others, do not repeat what the code or its comments state, and leave the past to git")


def main():
    files = files_here()
    sources = Sources(files)
    documents = {it: (ROOT / it).read_text() for it in files if is_document(it)}
    clauses, checks = clauses_of_run(), [list(misplaced()), list(too_long(it for file, it in documents.items() if file not in WRITTEN)),
                                        *reference.checks(), *rfc.checks()]
    for file, text in documents.items():
        found = [*faults_in(file, text, sources), *code_in(file, text), *tables_in(file, text)]
        if str(file) in ("README.md", "docs/PROMISES.md"):
            found += [f"{file}: the clause `{it}` of run is not named" for it in clauses if f"`{it}`" not in text]
        if str(file) == "README.md" and text.count("\n") > README_LINES:
            found.append(f"{file}: {text.count(chr(10))} lines, and not at most {README_LINES}")
        checks += [found, list(prose_of(file, text)), *examples_in(file, text)]
    for fault in [it for check in checks for it in check]:
        print(f"documents: {fault}", file=sys.stderr)
    failed = sum(map(bool, checks))
    print(f"documents: {len(checks) - failed} passed, {failed} failed")
    return 1 if failed else 0


sys.exit(main())
