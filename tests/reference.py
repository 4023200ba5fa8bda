"""What the pages of tools/reference lack: public items, their clauses and comments, and ends of links. The items are counted here again, by
lines of the sources alone."""
import collections
import html
import pathlib
import re
import subprocess
import sys
import tempfile

ROOT = pathlib.Path(__file__).resolve().parent.parent
PUBLIC = re.compile(r"((?:^ *///.*\n)*)(?:^ *#\[.*\n)*^ *pub (?:[^(\n]* )?(fn|struct|enum|trait|const|type) (\w+)", re.M)
SECTION = re.compile(r'^<section class="(\w+)" id="([\w.]+)">$', re.M)
FUNCTION = re.compile(r"<pre>(?:#\[.*\n)?pub (?:extern &quot;C&quot; )?fn.*?</pre>", re.S)
CLAUSE = re.compile(r"^ +(?:requires|ensures)\b", re.M)


def clauses_in(text):
    """How many clauses the public functions of a source have: those between a signature and the body."""
    count, is_public = 0, False
    for line in text.splitlines():
        if re.match(r' *(pub\b.* )?fn | *\{\}?$', line):
            is_public = bool(re.match(r' *pub (extern "C" )?fn ', line))
        count += is_public and bool(CLAUSE.match(line))
    return count


def words(text):
    """A text without spaces, and without the marks of names and links."""
    return re.sub(r"[`\[\]\s]|\([\w:]*::\w*\)", "", text)


def lacks(crate, page, texts):
    """What a page lacks of the sources of its crate: items, clauses, comments."""
    declared = [it for text in texts for it in PUBLIC.findall(text)]
    wanted = collections.Counter((kind, name) for _, kind, name in declared)
    shown = collections.Counter((kind, anchor.rpartition(".")[2]) for kind, anchor in SECTION.findall(page))
    here, there = sum(map(clauses_in, texts)), sum(len(CLAUSE.findall(it)) for it in FUNCTION.findall(page))
    defines = any(f"Rattle.{crate}.specs." in it for it in texts) and here
    read = words(html.unescape(re.sub(r"<[^>]*>", "", page)))
    first_lines = ((name, above.partition("\n")[0].strip()[3:]) for above, _, name in declared)
    return [
        [f"{crate}: {kind} {name} is declared {wanted[kind, name]} times, and shown {shown[kind, name]} times"
         for kind, name in sorted({*(wanted - shown), *(shown - wanted)})],
        [f"{crate}: public functions have {here} clauses, and {there} are shown"] if here != there else
        [f"{crate}: no definition of its clauses is a link"] if defines and "/specs/" not in page else [],
        [f"{crate}: what {name} does is not shown" for name, line in first_lines if words(line) not in read],
    ]


def dead_links(out, pages):
    """Links that lead nowhere, and anchors that two items have."""
    anchors = {f"{name}.html": [it for _, it in SECTION.findall(page)] for name, page in pages.items()}
    for name, page in pages.items():
        for file, _, anchor in (it.partition("#") for it in sorted(set(re.findall(r'href="([^"]*)"', page)))):
            if not (out / file).exists() or (anchor and anchor not in anchors.get(file, ())):
                yield f"{name}: {file}#{anchor} is not there"
        yield from (f"{name}: {count} items have the anchor {it}" for it, count in collections.Counter(anchors[f"{name}.html"]).items() if count > 1)


def checks():
    """What is wrong with the pages of all crates, check by check."""
    with tempfile.TemporaryDirectory() as folder:
        out = pathlib.Path(folder).resolve()
        run = subprocess.run([sys.executable, ROOT / "tools" / "reference", "--out", out], stdout=subprocess.PIPE, stderr=subprocess.STDOUT, text=True)
        if run.returncode:
            return [[f"tools/reference: {run.stdout.strip()}"]]
        pages = {it.stem: it.read_text() for it in out.glob("*.html")}
        links = list(dead_links(out, pages))
    crates = sorted(it.parent.name for it in (ROOT / "crates").glob("*/src"))
    found = [lacks(it, pages.get(it, ""), [file.read_text() for file in (ROOT / "crates" / it / "src").rglob("*.rt")]) for it in crates]
    return [[f"tools/reference: {fault}" for fault in check] for check in (*(sum(it, []) for it in zip(*found)), links)]
