#!/usr/bin/env python3
"""Tests quinn-proto 0.9.2 and quinn 0.9.3, as Debian 12 packages them, with the proved recovery in place of their own
parts. It runs their own tests with the library and without it, our tests over a simulated link, and a transfer of 100 MB
over UDP on the loopback interface. In shadow runs, their own parts get the same inputs as the library, and all values that
can be read of both are compared. Each part prints its counts. docs/QUINN.md describes the changes and the reasons.

    tests/quinn.py            all of it, in out/quinn: ten minutes. Needs the library (tests/rust.py --library), cargo,
                              and the sources of four packages; if these are missing, it says so and fails
    tests/quinn.py PART..     some of edits, tests, shadow, transfer; or instructions: what a packet takes with the
                              library and without it, by valgrind
    tests/quinn.py --write    writes edits and glue, by what is in out/quinn/proved

The repository has no line of theirs: an edit names their lines by number, in the form of `diff -e`, and has only ours.
"""
import collections
import functools
import os
import pathlib
import re
import shutil
import subprocess
import sys

import tree
from tree import ROOT
from upstream import edit, edited, files_of, lines_of_theirs, parsed, plain_lines, write

PACKAGES = [f"librust-{it}-dev" for it in ("quinn", "assert-matches", "hex-literal", "tracing-subscriber")]
CRATES = ["quinn-proto-0.9.2", "quinn-0.9.3"]
HERE = ROOT / "tests" / "quinn"
ROOM = ROOT / "out" / "quinn"
LIBRARY = ROOT / "crates" / "recovery_ffi" / "out" / "librecovery_ffi.a"
AS_IT_IS, PROVED = "base", "proved"
BOTH = [(AS_IT_IS, "as it is"), (PROVED, "over the library")]
MISSING = ["anyhow", "bencher", "clap", "rustls-pemfile", "url"]  # what quinn's examples want, and Debian may lack
OWN_TESTS = {"quinn_proto": 162, "quinn": 17}
LINK = "tests::load::"  # our tests over a link
LINK_TESTS = 12
MEGABYTES = 100
LOAD = 3  # how many times as long transfers over the link are in shadow
TRANSFERS = [  # by which quinn, its controller, and the window at the start
    ("as it is", AS_IT_IS, "reno"),
    ("over the library", PROVED, "reno"),
    ("with the proved controller", AS_IT_IS, "proved"),
    ("with the proved CUBIC", AS_IT_IS, "cubic"),
    *((f"with both from {window} bytes on", AS_IT_IS, "both", str(window)) for window in (2400, 12000, 100000)),
]

OFFLINE = """[source.crates-io]
replace-with = "debian"

[source.debian]
directory = "{}"
"""
WORKSPACE = """[workspace]
members = ["quinn-proto", "quinn", "transfer"]
resolver = "1"

[patch.crates-io]
quinn-proto = { path = "quinn-proto" }
quinn = { path = "quinn" }

[profile.release]
debug = 1
"""


def tell(text):
    print(text, flush=True)


# ---- the place of their sources, and the folders that are made of them


def registry():
    """The folder of the packages' sources; none if a package is not installed, or is another version."""
    manifests = [pathlib.Path(it) for it in files_of("librust-quinn-proto-dev") if it.endswith("/Cargo.toml")]
    folders = [it.parents[1] for it in manifests]
    is_whole = folders and all((folders[0] / it).is_dir() for it in CRATES) and all(map(files_of, PACKAGES))
    return folders[0] if is_whole else None


def edits(which):
    """The files that are edited, each with its edit; of those as they are, only that which names our tests."""
    found = {it.stem.replace(".", "/", it.stem.count(".") - 1): it for it in sorted((HERE / "edits").glob("*.ed"))}
    return found if which == PROVED else {it: found[it] for it in found if it.startswith("tests/")}


def lay_out(which, sources):
    """A workspace of both crates and the transfer, as they are or with our edits."""
    room = ROOM / which
    write(room / ".cargo" / "config.toml", OFFLINE.format(sources))
    write(room / "Cargo.toml", WORKSPACE)
    for crate in CRATES:
        for file in (sources / crate / "src").rglob("*.rs"):
            place = file.relative_to(sources / crate / "src")
            edit = edits(which).get(str(place)) if crate == CRATES[0] else None
            text = edited(file.read_text(), edit.read_text()) if edit else file.read_text()
            write(room / crate.rpartition("-")[0] / "src" / place, text)
        given = (sources / crate / "Cargo.toml").read_text()
        write(room / crate.rpartition("-")[0] / "Cargo.toml", manifest(which, given))
    proto = room / "quinn-proto" / "src"
    write(proto / "tests" / "load.rs", (HERE / "load.rs").read_text())
    for file in HERE.glob("glue/*.rs") if which == PROVED else []:
        write(proto / "connection" / file.name, file.read_text())
    if not (room / "original").is_symlink():
        (room / "original").symlink_to(sources / CRATES[0] / "src")
    given = (HERE / "transfer" / "Cargo.toml.in").read_text()
    write(room / "transfer" / "Cargo.toml", given.replace("HERE", str(HERE)).replace("ROOT", str(ROOT)))
    for file in (HERE / "transfer").glob("*.rs"):
        write(room / "transfer" / "src" / file.name, file.read_text())


def manifest(which, text):
    """A package's manifest, with what its tests want and Debian lacks."""
    for name in [*MISSING, "tracing-futures", "rcgen"]:
        text = re.sub(rf"^\[dev-dependencies\.{name}\]\n(?:.+\n)*", "", text, flags=re.M)
    for target in "example", "bench":
        text = re.sub(rf"^\[\[{target}\]\]\n(?:.+\n)*", "", text, flags=re.M)
    text = text.replace("[package]\n", "[package]\nautoexamples = false\nautobenches = false\nautotests = false\n", 1)
    for name in "rcgen", "tracing-futures":
        text += f'\n[dev-dependencies.{name}]\npath = "{HERE / name}"\n'
    if which == PROVED and 'name = "quinn-proto"' in text:
        text = text.replace("[features]\n", "[features]\nshadow = []\n")
        text += f'\n[dependencies.quic-recovery]\npath = "{ROOT / "rust" / "quic-recovery"}"\n'
    return text


def written(sources):
    """Writes the edits, by the files that are in the folder."""
    for file in sorted((sources / CRATES[0] / "src").rglob("*.rs")):
        place = file.relative_to(sources / CRATES[0] / "src")
        commands = edit(file.read_text(), (ROOM / PROVED / "quinn-proto" / "src" / place).read_text())
        kept = HERE / "edits" / (str(place).replace("/", ".") + ".ed")
        if commands:
            kept.write_text(commands)
        else:
            kept.unlink(missing_ok=True)
    for kept in (HERE / "glue").glob("*.rs"):
        shutil.copy(ROOM / PROVED / "quinn-proto" / "src" / "connection" / kept.name, kept)


# ---- what is run


def cargo(which, *words, **more):
    """What cargo, and what it runs, said in one of the workspaces."""
    folders = {"QUIC_RECOVERY_LIB": str(ROOM / "lib"), "CARGO_TARGET_DIR": str(ROOM / "target" / which)}
    how = {"env": {**os.environ, **folders, "CARGO_TERM_COLOR": "never", **more}, "stdin": subprocess.DEVNULL}
    command = ["cargo", words[0], "--offline", *words[1:]]
    return tree.ran(command, cwd=ROOM / which, stderr=subprocess.STDOUT, text=True, **how)[:2]


def passed(said, form):
    """How many tests of such names passed, by crate."""
    found = collections.Counter()
    runs = re.findall(r"^ +Running unittests [^\n]*/deps/(\w+)-\w+\)\n(.*?)^test result", said, re.M | re.S)
    for crate, body in runs:
        found[crate] += len(re.findall(rf"^test {form}\S* \.\.\. ok$", body, re.M))
    return found


@functools.lru_cache(maxsize=None)
def tested(which):
    """What cargo said of their own tests and ours over the link."""
    return cargo(which, "test", "-p", "quinn-proto", "-p", "quinn", "--lib", "--no-fail-fast")


def compared(file):
    """What was compared in shadow: of each thing how often, how often it differed, and how at first."""
    rows = {}
    for line in file.read_text().splitlines() if file.exists() else []:
        test, what, often, differed, first = line.split("\t")
        row = rows.setdefault(what, [0, 0, ""])
        row[0] += int(often)
        row[1] += int(differed)
        row[2] = row[2] or (first and f"{test}: {first}")
    return rows


@functools.lru_cache(maxsize=None)
def shadowed(*words):
    """Status and output of a shadow run, and what it compared."""
    file = ROOM / "compared.tsv"
    file.unlink(missing_ok=True)
    status, said = cargo(PROVED, *words, QUINN_SHADOW=str(file), QUINN_LOAD=str(LOAD))
    return status, said, compared(file)


def instructions(which, load):
    """Instructions and packets of transfers that are `load` times as long: of both endpoints and all that they do."""
    status, said = cargo(which, "test", "-p", "quinn-proto", "--release", "--lib", "--no-run")
    program = re.search(r"Executable unittests .*\((.*)\)", said)
    out = f"--callgrind-out-file={ROOM}/{which}.{load}.callgrind"
    words = ["valgrind", "--tool=callgrind", out, ROOM / which / program[1], f"{LINK}load_plain", "--nocapture"]
    how = {"env": {**os.environ, "QUINN_LOAD": str(load)}, "stdin": subprocess.DEVNULL, "text": True}
    status, said, errors = tree.ran([*words, "--test-threads=1"], **how)
    packets = sum(int(it) for it in re.findall(r"(\d+) packets", said))
    return int(re.search(r"Collected : (\d+)", errors)[1]), packets


# ---- the parts


@functools.lru_cache(maxsize=None)
def theirs():
    """The lines of their sources."""
    return {line for crate in CRATES for file in (registry() / crate).rglob("*.rs") for line in plain_lines(file)}


class Edits(tree.TestCase):
    @tree.each((it.name, it) for it in sorted((HERE / "edits").glob("*.ed")))
    def test_no_line_of_theirs(self, _, file):
        self.assertEqual(lines_of_theirs(file, theirs()), [])


class Suites(tree.TestCase):
    """Their own tests and ours over the link, with the library and without."""

    @tree.each(BOTH, "{1}")
    def test_status(self, which, _):
        status, said = tested(which)
        self.assertEqual(status, 0, said[-4000:])

    @tree.each(BOTH, "{1}")
    def test_own(self, which, what):
        said = tested(which)[1]
        own = passed(said, f"(?!{LINK})")
        theirs = " and ".join(f"{count} of {crate}" for crate, count in sorted(own.items()))
        tell(f"quinn {what}: of its own tests {theirs} pass")
        self.assertEqual(dict(own), OWN_TESTS, re.findall(r"^test (\S+) \.\.\. FAILED$", said, re.M))

    @tree.each(BOTH, "{1}")
    def test_over_a_simulated_link(self, which, what):
        ours = passed(tested(which)[1], LINK)["quinn_proto"]
        tell(f"quinn {what}: {ours} of our tests over a simulated link pass")
        self.assertEqual(ours, LINK_TESTS)


class Shadow(tree.TestCase):
    """Their tests and a transfer in shadow: with their own parts in addition to the library."""

    FEATURES = "--release", "--features", "quinn-proto/shadow"
    RUNS = [
        ("the tests", "test", "-p", "quinn-proto", "--lib", *FEATURES),
        ("a transfer", "run", "-p", "transfer", *FEATURES, "--", str(MEGABYTES), "reno"),
    ]

    @tree.each(RUNS)
    def test_status(self, _, *words):
        status, said, _ = shadowed(*words)
        self.assertEqual(status, 0, said[-4000:])

    @tree.each(RUNS)
    def test_nothing_differs(self, _, *words):
        for name, (often, differed, first) in sorted(shadowed(*words)[2].items()):
            with self.subTest(name):
                self.assertEqual(differed, 0, f"of {often} differ, at first {first}")

    @tree.each(RUNS)
    def test_values_are_compared(self, what, *words):
        often, differed = (sum(it[at] for it in shadowed(*words)[2].values()) for at in (0, 1))
        tell(f"quinn in shadow, {what}: {often:,} values of both compared, {differed:,} differ")
        self.assertGreater(often, 1_000_000)


class Transfer(tree.TestCase):
    """A transfer with the library and without, and of quinn as it is with the proved controller alone; the tests of the
    controller's crate too."""

    def test_suite_of_quinn_congestion(self):
        status, said = cargo(AS_IT_IS, "test", "-p", "quinn-congestion", "--release")
        self.assertEqual(status, 0, said[-4000:])
        self.assertGreater(passed(said, "")["quinn_congestion"], 0, said[-4000:])

    def test_layout_of_quinn_congestion(self):
        how = {"cwd": ROOT / "rust" / "quinn-congestion", "stdin": subprocess.DEVNULL, "text": True}
        self.assertEqual(tree.ran(["cargo", "fmt", "--check"], **how), (0, "", ""))

    @tree.each(TRANSFERS)
    def test_transfer(self, what, which, *words):
        status, said = cargo(which, "run", "-p", "transfer", "--release", "--quiet", "--", str(MEGABYTES), *words)
        tell(f"quinn {what}: {said.splitlines()[-1] if said else ''}")
        self.assertEqual(status, 0, said[-4000:])
        self.assertIn("all came as sent", said.splitlines()[-1])


class Instructions(tree.TestCase):
    def test_of_a_packet(self):
        """The instructions of a data packet with its ACK, at both endpoints of a plain link. Transfers of two lengths are
        subtracted, so that the handshake does not count."""
        took = []
        for which, what in BOTH:
            (short, few), (long, many) = instructions(which, 1), instructions(which, 4)
            took.append((long - short) / (many - few))
            tell(f"quinn {what}: {took[-1]:,.0f} instructions for a packet with its ACK, of both ends")
        tell(f"quinn over the library: {took[1] / took[0]:.3f} of them")


PARTS = {"edits": "Edits", "tests": "Suites", "shadow": "Shadow", "transfer": "Transfer", "instructions": "Instructions"}
USUAL = ["edits", "tests", "shadow", "transfer"]


def main():
    given, words = parsed(__doc__, PARTS, USUAL, write={"action": "store_true"})
    sources = registry()
    if not sources:
        sys.exit(f"quinn: the sources of {' and '.join(CRATES)} are missing: apt-get install {' '.join(PACKAGES)}")
    if given.write:
        return written(sources)
    rt = shutil.which("rt")
    if not LIBRARY.is_file() or not rt:
        sys.exit("quinn: the library is missing: tests/rust.py --library" if rt else "quinn: rt is not on the PATH")
    (ROOM / "lib").mkdir(parents=True, exist_ok=True)
    kits = (it / "c" / "liblibc_c.a" for it in pathlib.Path(rt).resolve().parents)
    for file in LIBRARY, next(it for it in kits if it.is_file()):
        shutil.copy(file, ROOM / "lib")
    for which, _ in BOTH:
        lay_out(which, sources)
    tree.main("quinn", words)


if __name__ == "__main__":
    tree.ends_quietly(main)
