#!/usr/bin/env python3
"""Tests quic-go 0.29.0, as Debian 12 packages it, with the proved recovery in place of its own, through the C header and
cgo. It runs quic-go's own tests with the library and without it, and transfers over a proxy that loses, delays and
reorders. In shadow runs, quic-go's own parts, changed to follow RFC 9002, get the same inputs as the library, and all
values that can be read of both are compared. Each part prints its counts. docs/QUIC-GO.md describes the changes and the
reasons.

    tests/quicgo.py             all of it, in out/quicgo: 11 minutes, most of it waiting. Needs the library (prebuilt,
                                or tests/rust.py --library; QUIC_RECOVERY_LIB names a folder with another), a C compiler
                                and the packages; if these are missing, it says so and fails
    tests/quicgo.py PART..      some of edits, unit (quic-go's unit tests), suite (its integration tests), shadow,
                                transfer; or cost: what a packet takes both ways; or sites: in shadow, each of the
                                places left out in turn, and quic-go as it is
    tests/quicgo.py --turns N   runs suite N times, and shadow N times as long with other random numbers
    tests/quicgo.py --write     writes edits and Go files, by what is in out/quicgo/proved

The repository has no line of theirs: an edit names their lines by number, in the form of `diff -e`, and has only ours.
"""
import collections
import functools
import hashlib
import os
import pathlib
import re
import shutil
import subprocess
import sys

import tree
from tree import ROOT
from upstream import edit, edited, files_of, lines_of_theirs, parsed, plain_lines, write

PACKAGES = ["golang-1.19-go", "golang-github-lucas-clemente-quic-go-dev"]
VERSION = "0.29.0-"
HERE = ROOT / "tests" / "quicgo"
ROOM = ROOT / "out" / "quicgo"
PLACE = "src/github.com/lucas-clemente/quic-go"
GO = "usr/lib/go-1.19/bin/go"
AS_IT_IS, PROVED = "base", "proved"
BOTH = [(AS_IT_IS, "as it is"), (PROVED, "over the library")]
MODES = [("own", "as it is"), ("over", "over the library")]  # of a run of transfers
OWN = "integrationtests.self.self_suite_test.go.ed"  # of quic-go as it is: Debian leaves its integration tests out
FILES = {"glue": "internal/ackhandler", "shadow": "internal/ackhandler", "run": "shadowrun"}
ELSEWHERE = {"shadow/align.go": "internal/utils"}
HEADER = ROOT / "rust" / "c" / "recovery_ffi.h"
SPECS, SKIPPED = 576, 3  # of the integration tests, and those that quic-go leaves out here
TESTED = 17  # packages that have unit tests
LIMITED = {  # of the unit tests: three datagrams of 40 bytes allow no whole one by RFC 9000, 8.1, but quic-go sends one
    f"Connection receiving packets {it} multiple received packets before sending one{when}"
    for it, when in (("processes", ""), ("doesn't processes", " before handshake completion"))
}
ATTEMPTS = 3  # of a spec: those with lost packets or short times fail now and then, with the library and without
PLACES = 13  # in which quic-go can be made to go by RFC 9002
ALL = 2**PLACES - 1
WANTED = 5_000_000  # values that are compared
MORE_TURNS = 9  # at most, until these are
PATIENCE = ["-idle", "180s", "-limit", "300s"]  # with 40 % of a handshake lost, timeouts may double up to a minute
HANDSHAKES = "-conns 200 -size 20000 -hsloss 40 -loss 2 -workers 25"
TRANSFERS = [
    "-conns 20 -size 2000000",
    "-conns 20 -size 500000 -up 200000 -jitter 2ms -workers 4",
    "-conns 20 -size 1000000 -loss 2 -jitter 1ms -workers 4",
    "-conns 20 -size 300000 -up 300000 -loss 10 -jitter 2ms -workers 10",
    "-conns 60 -size 20000 -hsloss 25 -loss 2 -workers 20",
    "-conns 40 -size 20000 -hsloss 33 -long -workers 10",
    "-conns 20 -size 100000 -retry -hsloss 20 -loss 2 -workers 10",
    "-conns 20 -size 100000 -part 5000 -pause 15ms -loss 5 -jitter 4ms -workers 10",
    "-conns 20 -size 200000 -part 20000 -pause 20ms -outage 700ms -workers 10",
    "-conns 30 -size 50000 -up 3000 -resume -hsloss 20 -loss 2 -workers 3",
    "-conns 30 -size 20000 -up 3000 -reject -loss 2 -workers 3",
    HANDSHAKES,
]
SEARCH = "-conns 5 -size 3000000 -mtud"  # of a larger MTU, from 1252 bytes on
FOUND = range(1400, 1453)
SEEN = [  # what these bring about, and what is compared of it
    "0-RTT rejected", "ACK", "Retry", "initial RTT", "losses by ACK", "losses by timer", "paced", "sent",
    "persistent congestion", "timeout: losses", "timeout: 1 probes, mode 2", "timeout: 1 probes, mode 3",
    *(f"timeout: 2 probes, mode {mode}" for mode in (2, 3, 4)),
]

TURNS = 1  # which --turns sets


def tell(text):
    print(text, flush=True)


# ---- what is there


def sources():
    """The folder of quic-go's sources and the Go compiler, and the packages that are missing, or of another version."""
    found = {it: files_of(it) for it in PACKAGES}
    asked = ["dpkg-query", "-W", "-f", "${Version}", PACKAGES[1]]
    version = tree.ran(asked, stdin=subprocess.DEVNULL, text=True)[1] if found[PACKAGES[1]] else ""
    go = next((it for it in found[PACKAGES[0]] if it.endswith(f"/{GO}")), None)
    marks = [it for it in found[PACKAGES[1]] if it.endswith(f"/{PLACE}/connection.go")]
    if not go or not marks or not version.startswith(VERSION):
        return None, None, [it for it in PACKAGES if not found[it]] or [f"{PACKAGES[1]}={VERSION}* (here {version})"]
    return pathlib.Path(marks[0]).parent, go, []


def archives():
    """The archives that are linked: those of a folder that is named, or those of these sources."""
    named = os.environ.get("QUIC_RECOVERY_LIB")
    whole, pair = "libquic_recovery.a", ("librecovery_ffi.a", "liblibc_c.a")
    if named:
        here = pathlib.Path(named)
        return [here / whole] if (here / whole).is_file() else [here / it for it in pair]
    found = pathlib.Path(tree.asked("library", tree.TARGET))
    return [found] if found.name == whole else [found, tree.kit() / "c" / pair[1]]


def linked():
    """The same for the linker. Go does not see that an archive changes, so their folder is named by what they hold."""
    files = archives()
    total = hashlib.sha256(b"".join(it.read_bytes() for it in files)).hexdigest()[:16]
    room = ROOM / "lib" / total
    room.mkdir(parents=True, exist_ok=True)
    for it in files:
        shutil.copy(it, room)
    return " ".join(f"'{room / it.name}'" for it in files)


# ---- the trees


def edits(which):
    """The files that are edited, each with its edit."""
    found = {place(it.name): it for it in sorted((HERE / "edits").glob("*.ed"))}
    return found if which == PROVED else {place(OWN): found[place(OWN)]}


def place(name):
    """The file that an edit is of: its name has a point for each slash."""
    parts = name[:-len(".ed")].split(".")
    return "/".join(parts[:-2] + [".".join(parts[-2:])])


def ours():
    """Our files, each with its place in the tree."""
    files = sorted(it for part in FILES for it in (HERE / part).iterdir())
    named = {it: ELSEWHERE.get(str(it.relative_to(HERE)), FILES[it.parent.name]) for it in files}
    return {**{it: f"{folder}/{it.name}" for it, folder in named.items()}, HEADER: f"internal/ackhandler/{HEADER.name}"}


def lay_out(which, theirs):
    """A GOPATH with quic-go, as it is or with our edits and files."""
    root = ROOM / which / PLACE
    changed = edits(which)
    for file in theirs.rglob("*"):
        name = str(file.relative_to(theirs))
        if file.is_file() and name in changed:
            write(root / name, edited(file.read_text(), changed[name].read_text()))
        elif file.is_file() and not (root / name).is_file():
            (root / name).parent.mkdir(parents=True, exist_ok=True)
            shutil.copy(file, root / name)
    for file, name in ours().items() if which == PROVED else []:
        write(root / name, file.read_text())


def written(theirs):
    """Writes the edits and our files, by those that are in the tree."""
    root = ROOM / PROVED / PLACE
    for file in sorted(theirs.rglob("*.go")):
        name = file.relative_to(theirs)
        commands = edit(file.read_text(), (root / name).read_text())
        kept = HERE / "edits" / (str(name).replace("/", ".") + ".ed")
        if commands:
            write(kept, commands)
        else:
            kept.unlink(missing_ok=True)
    for file, name in ours().items():
        if file != HEADER:
            shutil.copy(root / name, file)


class Go:
    """The compiler, and the programs that it makes of both trees."""

    def __init__(self):
        theirs, self.go, _ = sources()
        self.libraries = linked()
        self.shared = next(it for it in theirs.parents if f"{it}/{PLACE}" == str(theirs))
        for which, _ in BOTH:
            lay_out(which, theirs)

    def environment(self, which, **more):
        own = ("GOFLAGS", "GOROOT", "QUIC_ALIGN", "QUIC_MODE", "QUIC_RECOVERY_LIB")
        kept = {name: it for name, it in os.environ.items() if name not in own}
        how = {"GO111MODULE": "off", "GOPATH": f"{ROOM / which}:{self.shared}", "CGO_CFLAGS": "-O2 -Wall -Werror"}
        return {**kept, **how, "CGO_LDFLAGS": self.libraries if which == PROVED else "", **more}

    def start(self, which, words, folder=".", **more):
        streams = {"stdin": subprocess.DEVNULL, "stdout": subprocess.PIPE, "stderr": subprocess.STDOUT}
        where = {"cwd": ROOM / which / PLACE / folder, "env": self.environment(which, **more)}
        return subprocess.Popen(["nice", *map(str, words)], text=True, errors="replace", **where, **streams)

    def ran(self, which, *words, **more):
        """Status and output."""
        call = self.start(which, [self.go, *words], **more)
        said = call.communicate()[0]
        return call.returncode, said

    def built(self, which, name, *words):
        """A program of a tree."""
        program = ROOM / f"{name}.{which}"
        status, said = self.ran(which, words[0], "-o", program, *words[1:])
        if status != 0:
            raise tree.Unfit(f"{program.name} is not built: {said[-4000:]}")
        return program


@functools.lru_cache(maxsize=None)
def go():
    return Go()


# ---- what is run


@functools.lru_cache(maxsize=None)
def theirs():
    """The lines of their sources."""
    return {line for file in sources()[0].rglob("*.go") for line in plain_lines(file)}


class Edits(tree.TestCase):
    @tree.each((it.name, it) for it in sorted((HERE / "edits").glob("*.ed")))
    def test_no_line_of_theirs(self, _, file):
        self.assertEqual(lines_of_theirs(file, theirs()), [])


def plain(text):
    """A text without colours."""
    return re.sub(r"\x1b\[[0-9;]*m", "", text)


def packages(which):
    """Those that have tests, without the integration tests, which are a part of their own, and what only measures."""
    _, said = go().ran(which, "list", "-f", "{{if or .TestGoFiles .XTestGoFiles}}{{.ImportPath}}{{end}}", "./...")
    left_out = ("/integrationtests/self", "/benchmark", "/fuzzing/")
    return [it for it in sorted(set(said.split())) if not any(word in it for word in left_out)]


@functools.lru_cache(maxsize=None)
def units(which):
    """What quic-go's unit tests said in a tree."""
    more = {"QUIC_MODE": "over"} if which == PROVED else {}
    return go().ran(which, "test", "-count=1", "-p", "1", "-v", *packages(which), **more)[1]


class Unit(tree.TestCase):
    """quic-go's unit tests, in both trees; gofmt and vet of our files."""

    @tree.each(BOTH, "{1}")
    def test_packages(self, which, _):
        self.assertEqual(len(re.findall(r"^(?:ok|FAIL)\s+github", units(which), re.M)), TESTED, units(which)[-4000:])

    @tree.each(BOTH, "{1}")
    def test_failures(self, which, what):
        said = plain(units(which))
        failed = {it.strip() for it in re.findall(r"^\[Fail\] (.*)$", said, re.M)}
        failed = {re.sub(r" ?\[(?:It|AfterEach)\]", "", it).strip() for it in failed}
        specs = sum(int(it) for it in re.findall(r"(\d+) Passed", said))
        tell(f"quic-go {what}: {specs} of its unit tests pass, {len(failed)} fail")
        self.assertEqual(failed, LIMITED if which == PROVED else set())

    def test_vet(self):
        status, said = go().ran(PROVED, "vet", "./internal/ackhandler", "./internal/utils", "./shadowrun")
        self.assertEqual(status, 0, said)

    def test_layout(self):
        files = [str(it) for it in ours() if it.suffix == ".go"]
        words = [pathlib.Path(go().go).with_name("gofmt"), "-l", *files]
        self.assertEqual(tree.ran(words, stdin=subprocess.DEVNULL, text=True), (0, "", ""))


@functools.lru_cache(maxsize=None)
def suites(turn):
    """Status and output of quic-go's integration tests, in both trees at once: they mostly wait."""
    programs = {which: go().built(which, "suite", "test", "-c", "./integrationtests/self") for which, _ in BOTH}
    words = ["-test.timeout", "20m", "-ginkgo.noColor", "-ginkgo.flakeAttempts", str(ATTEMPTS)]
    calls = {which: go().start(which, [programs[which], *words], "integrationtests/self") for which, _ in BOTH}
    said = {which: call.communicate()[0] for which, call in calls.items()}
    return {which: (calls[which].returncode, said[which]) for which, _ in BOTH}


class Suite(tree.TestCase):
    @tree.each(BOTH, "{1}")
    def test_counts(self, which, what):
        for turn in range(TURNS):
            status, said = suites(turn)[which]
            counts = re.search(r"(\d+) Passed \| (\d+) Failed \| (\d+) Flaked \| \d+ Pending \| (\d+) Skipped", said)
            passed, failed, flaked, skipped = map(int, counts.groups()) if counts else (0, 1, 0, 0)
            tell(f"quic-go {what}: {passed} of its integration tests pass, {flaked} of these at a further attempt")
            with self.subTest(turn=turn):
                self.assertEqual((passed, failed, skipped), (SPECS, 0, SKIPPED), said[-4000:])

    @tree.each(BOTH, "{1}")
    def test_status(self, which, _):
        for turn in range(TURNS):
            with self.subTest(turn=turn):
                self.assertEqual(suites(turn)[which][0], 0, suites(turn)[which][1][-4000:])


@functools.lru_cache(maxsize=None)
def transfers():
    """The program that runs transfers."""
    return go().built(PROVED, "transfers", "build", "./shadowrun")


class Transferred:
    """A run of transfers: whether all were done, and what it counted."""

    def __init__(self, words, seed, mode, align=0):
        is_theirs = mode == "own" or (mode == "shadow" and align != ALL)  # quic-go as it is loses a connection now and then
        words_and_more = [*words.split(), *([] if is_theirs else PATIENCE), "-seed", seed]
        call = go().start(PROVED, [transfers(), *words_and_more], QUIC_MODE=mode, QUIC_ALIGN=str(align))
        self.said = call.communicate()[0]
        self.counts = collections.Counter()
        for kind, count, name in re.findall(r"^(event|differ) (\d+) (.*)$", self.said, re.M):
            self.counts[kind, name.partition(", by")[0]] = int(count)
        self.done = re.search(r"^done (\d+) failed (\d+) in (\S+)", self.said, re.M)
        self.is_whole = bool(call.returncode == 0 and self.done and (is_theirs or self.done[2] == "0"))

    def number(self, what):
        return int((re.search(rf"^{what} (\d+)", self.said, re.M) or [0, 0])[1])

    def differences(self):
        return {name: count for (kind, name), count in self.counts.items() if kind == "differ"}


@functools.lru_cache(maxsize=None)
def shadowed(words, turn):
    """Transfers in shadow, with quic-go made to go by RFC 9002."""
    return Transferred(words, 1000 * turn + 1, "shadow", ALL)


@functools.lru_cache(maxsize=None)
def all_shadowed():
    """As many turns as are asked for, and more until enough values are compared."""
    found = []
    for turn in range(TURNS + MORE_TURNS):
        if turn < TURNS or sum(it.number("values") for it in found) < WANTED:
            found += [shadowed(words, turn) for words in TRANSFERS]
    return found


class Shadow(tree.TestCase):
    """No value of both differs."""

    @tree.each(TRANSFERS)
    def test_transfers(self, words):
        for turn in range(TURNS):
            with self.subTest(turn=turn):
                found = shadowed(words, turn)
                self.assertTrue(found.is_whole, found.said[-4000:])
                self.assertEqual(found.differences(), {}, found.said[:4000])

    def test_values(self):
        self.assertEqual([it.said[-4000:] for it in all_shadowed() if not it.is_whole or it.differences()], [])
        counts = sum((it.counts for it in all_shadowed()), collections.Counter())
        values, connections = (sum(it.number(what) for it in all_shadowed()) for what in ("values", "connections"))
        tell(f"quic-go in shadow: {values:,} values of both compared, at {connections:,} endpoints, 0 differ")
        self.assertGreaterEqual(values, WANTED)
        persists, more = (counts["event", f"persistent congestion{it}"] for it in ("", " by the widest reading alone"))
        tell(f"persistent congestion {persists} times, and {more} more by the widest reading of RFC 9002")

    @tree.each(SEEN)
    def test_comes_about(self, name):
        self.assertGreater(sum(it.counts["event", name] for it in all_shadowed()), 0)


class Transfer(tree.TestCase):
    """The same transfers as it is and over the library: all arrive."""

    @tree.each(((*mode, words) for mode in MODES for words in TRANSFERS), "{1}: {2}")
    def test_transfers(self, mode, what, words):
        found = Transferred(words, 1, mode)
        self.assertTrue(found.is_whole, found.said[-4000:])
        tell(f"quic-go {what}: {found.done[1]} transfers, {found.done[2]} fail, in {found.done[3]}: {words}")

    @tree.each(MODES, "{1}")
    def test_largest_datagram(self, mode, _):
        found = Transferred(SEARCH, 1, mode)
        self.assertTrue(found.is_whole, found.said[-4000:])
        self.assertIn(found.number("largest"), FOUND, found.said)


class Sites(tree.TestCase):
    """What differs if quic-go is made to go by RFC 9002 in all places but one, and in none."""

    @tree.each([*((f"in all places but {1 << bit}", ALL - (1 << bit)) for bit in range(PLACES)), ("nowhere", 0)])
    def test_aligned(self, which, align):
        counts = collections.Counter()
        for words in TRANSFERS[2:]:
            found = Transferred(words, 1, "shadow", align)
            self.assertTrue(found.is_whole, found.said[-4000:])
            counts += found.counts
        differ = [f"{name} {count}" for (kind, name), count in sorted(counts.items()) if kind == "differ"]
        tell(f"quic-go made to go by RFC 9002 {which}: {', '.join(differ) or 'nothing differs'}")


class Cost(tree.TestCase):
    def test_nanoseconds(self):
        """Nanoseconds of a data packet with half an ACK, both ways."""
        how = ["-run", "NONE", "-bench", ".", "-benchtime", "200000x", "-count", "3"]
        status, said = go().ran(PROVED, "test", *how, "./internal/ackhandler")
        self.assertEqual(status, 0, said)
        for line in re.findall(r"^Benchmark.*$", said, re.M):
            tell(" ".join(line.split()))


PARTS = {"edits": "Edits", "unit": "Unit", "suite": "Suite", "shadow": "Shadow", "transfer": "Transfer", "sites": "Sites", "cost": "Cost"}
USUAL = ["edits", "unit", "suite", "shadow", "transfer"]


def main():
    global TURNS
    given, words = parsed(__doc__, PARTS, USUAL, turns={"type": int, "default": 1}, write={"action": "store_true"})
    TURNS = given.turns
    theirs, _, missing = sources()
    if missing:
        sys.exit(f"quicgo: packages are missing: apt-get install {' '.join(missing)}")
    if given.write:
        return written(theirs)
    try:
        go()
    except (tree.Unfit, OSError) as why:
        sys.exit(f"quicgo: {why}: tests/rust.py --library builds the library")
    tree.main("quicgo", words)


if __name__ == "__main__":
    tree.ends_quietly(main)
