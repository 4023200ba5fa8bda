#!/usr/bin/env python3
"""Tests ./prove, ./check, ./dist and the launchers as a user meets them, with a stand-in for the toolchain, in copies of the tree without
any build: two at once, an interrupt, no toolchain, no Python, a read-only tree, another logic; a program that is missing, built, built
elsewhere, committed, of other sources, or prebuilt; answers that are too long, a pipe that nobody reads, and the time that ./prove
expects."""
import contextlib
import copy
import hashlib
import os
import pathlib
import re
import shutil
import signal
import subprocess
import sys
import tempfile
import time
import unittest
from unittest import mock

import check
import prove
import tree
from tree import ROOT

LAUNCHERS = {name: crate for crate, name in tree.LAUNCHERS.items()}
TOOLS = "awk bash cat dirname env find git grep head mkdir mktemp readlink rm sh sha256sum sleep sort stat touch xargs".split()
TOOLS = [it for it in TOOLS if it != "git" or shutil.which("git")]  # only the tests of commits need it
MISSING = f"the Rattle toolchain is missing: its command rt ({tree.logic()}) is not on the PATH\n"
SECONDS = 300  # by which all that is waited for has happened

# a stand-in for the toolchain: its proofs take no time, it prints the arguments with which sources ran, and its gate hangs in the middle
STAND_IN = """#!/bin/sh
case $1 in
version) echo "a kit $SAID_LOGIC" ;;
lib | run)
    grep -q "^${PWD##*/}[ :]" ../../crates.txt || exit 1
    sleep 0.1
    mkdir -p "out/rlib/${PWD##*/}.rlib"
    touch "out/rlib/${PWD##*/}.rlib/format"
    [ ! -f src/main.rt ] || touch "out/${PWD##*/}" ;;
try)
    if [ -n "$TOO_LONG" ]; then
        echo 'checked: no-answer: the program wrote more than 1048576 bytes to standard output' >&2
        echo 'run=no-answer proved=no' >&2
        exit 6
    fi
    shift 2
    echo "the sources ran: $*"
    echo 'line 2: told' >&2
    echo 'checked: ended status=2' >&2
    echo 'run=ended status=2 runners=1 proved=no' >&2
    exit 2 ;;
ci)
    echo 'rt: recovery_base proved'
    echo 'rt: recovery_mtud NOT PROVED'
    echo 'rt: recovery_base: its tests are proved'
    sleep 600 &
    echo $! > "$STARTED"
    wait ;;
esac
"""

# words that each of them knows
WORDS = {"recovery-replay": ["7", "24000"], "recovery-trace": ["--controller", "cubic", "7"], "recovery-sender": ["established"],
         "recovery-link": ["loss=1%", "--qlog"], "recovery-pictures": ["tunnel"]}

# a word that each of them knows, and whether they give help after it, as the programs do
WITH_HELP = {"recovery-replay": ("7", False), "recovery-trace": ("7", True), "recovery-sender": ("established", False),
             "recovery-pictures": ("tunnel", True), "recovery-link": ("loss=1%", False)}


class Place:
    """A copy of the tree, and a folder of programs with the stand-in among them."""

    def __init__(self, folder):
        self.root, self.tools, self.started = folder / "tree", folder / "tools", folder / "started"
        shutil.copytree(ROOT, self.root, ignore=shutil.ignore_patterns("out", ".git", "__pycache__", "prebuilt"))
        self.tools.mkdir()
        for name in TOOLS:
            (self.tools / name).symlink_to(shutil.which(name))
        (self.tools / "python3").symlink_to(sys.executable)
        self.toolchain = self.tools / "rt"
        self.toolchain.write_text(STAND_IN)
        self.toolchain.chmod(0o755)

    def how(self, **more):
        names = {"PATH": str(self.tools), "SAID_LOGIC": tree.logic(), "STARTED": str(self.started), "PYTHONDONTWRITEBYTECODE": "1", "CI": ""}
        return {"cwd": self.root, "env": {**os.environ, **names, **more}}

    def ran(self, *words, **more):
        status, output, errors = tree.ran(words, **self.how(**more))
        return status, output.decode(), errors.decode()

    def script(self, path, text, status=0):
        """Writes a shell script that prints a text with its arguments."""
        path.parent.mkdir(parents=True, exist_ok=True)
        path.write_text(f'#!/bin/sh\necho "{text}: $*"\nexit {status}\n')
        path.chmod(0o755)
        return path

    def stand_ins(self):
        """Scripts that pass one test each, in the places of those of tests/."""
        for it in (self.root / "tests").glob("*.py"):
            if it.stem not in ("tree", "check", "prove", "dist"):
                it.write_text(f"#!/bin/sh\necho '{it.stem}: 1 passed, 0 failed'\n")

    def build(self, crate):
        """A stand-in for a program that ./prove built here."""
        program = self.script(self.root / "crates" / crate / "out" / crate, "the program ran", 3)
        words = ["bash", "-c", '. ./launch && record "$0" "$(sum_of_sources "$0")" "$0"', crate]
        subprocess.run(words, check=True, **self.how())
        return program

    def prebuild(self, *names):
        """Stand-ins for prebuilt programs of the sources here."""
        at = self.root / "prebuilt" / tree.TARGET
        programs = [self.script(at / "bin" / it, "the prebuilt program ran", 4) for it in names]
        crates = [LAUNCHERS[it] for it in names]
        (at / "PROVED").write_text("".join(f"sources {it} {sum_of(self.root, it)}\n" for it in crates))
        (at / "SHA256SUMS").write_text("".join(f"{checksum(it.read_bytes())}  bin/{it.name}\n" for it in programs))
        return programs

    def odd(self):
        """A folder whose name a shell would take apart, with a file in it."""
        folder = self.root.parent / "it's a \"folder\""
        folder.mkdir(exist_ok=True)
        (folder / "of the caller").touch()
        return folder

    def begun(self, *words):
        # a shell starts what runs in its background with interrupts ignored, and what that starts ignores them too
        heeds = lambda: signal.signal(signal.SIGINT, signal.SIG_DFL)
        streams = {"stdin": subprocess.DEVNULL, "stdout": subprocess.PIPE, "stderr": subprocess.PIPE, "text": True}
        return subprocess.Popen(words, start_new_session=True, preexec_fn=heeds, **streams, **self.how())


def waited_for(happens):
    """Whether something happens in time."""
    end = time.time() + SECONDS
    while not (happened := happens()) and time.time() < end:
        time.sleep(0.02)
    return happened


def notice(name, crate, why):
    proves = "./prove" if name == "recovery-replay" else f"./prove {crate}"
    return f"{name}: {why}: compiles its sources without proof, in about half a minute and at each call; {proves} proves and keeps it\n"


def checksum(text):
    return hashlib.sha256(text).hexdigest()


def sum_of(root, crate):
    """The checksum of a crate's sources: of the lines of sha256sum, sorted by the files."""
    files = (it for name in tree.made_of(crate) for part in ("src", "specs", "proofs") for it in (root / "crates" / name / part).rglob("*") if it.is_file())
    named = sorted((os.fsencode(it.relative_to(root)), it) for it in files)
    return checksum(b"".join(f"{checksum(it.read_bytes())}  ".encode() + name + b"\n" for name, it in named))


def git(place, *words):
    """Has git work in a folder, without the settings of this machine."""
    own = {"GIT_CONFIG_GLOBAL": os.devnull, "GIT_CONFIG_SYSTEM": os.devnull}
    who = ["-c", "user.name=someone", "-c", "user.email=someone@example.org", "-c", "init.defaultBranch=main"]
    subprocess.run(["git", *who, *words], check=True, stdout=subprocess.DEVNULL, **{**place.how(**own), "cwd": place.root.parent})


@contextlib.contextmanager
def changed(path):
    """A file with one line more, and with an older time, as an archive or rsync leaves it."""
    text = path.read_bytes()
    path.write_bytes(text + b"// changed\n")
    os.utime(path, (0, 0))
    try:
        yield
    finally:
        path.write_bytes(text)


@contextlib.contextmanager
def hidden(path):
    aside = path.rename(path.with_name("hidden"))
    try:
        yield
    finally:
        aside.rename(path)


class Placed(tree.TestCase):
    """Tests that share a copy of the tree. Each leaves it as it was."""

    @classmethod
    def setUpClass(cls):
        folder = tempfile.TemporaryDirectory()
        cls.addClassCleanup(folder.cleanup)
        cls.place = Place(pathlib.Path(folder.name).resolve())
        cls.prepare()

    @classmethod
    def prepare(cls):
        """Makes what the tests of a class have in their copy."""

    def begin(self, *words):
        """Starts a command, which ends with its test at the latest."""
        call = self.place.begun(*words)
        self.addCleanup(call.__exit__, None, None, None)  # closes its streams, and waits
        self.addCleanup(lambda: call.poll() is None and os.killpg(call.pid, signal.SIGKILL))
        return call

    def run_launcher(self, name, **more):
        return self.place.ran(f"./{name}", *WORDS[name], **more)

    def unproved(self, name, crate, why):
        """What a launcher does that runs its sources."""
        return 2, f"the sources ran: {' '.join(WORDS[name])}\n", f"{notice(name, crate, why)}line 2: told\n"


# ---- ./prove and ./check


class SecondsLeft(tree.TestCase):
    """Three crates of 100 seconds, each a dependency of the next, and a fourth that depends on the first alone. Some are kept."""

    NEEDS = {"low": [], "middle": ["low"], "high": ["middle"], "beside": ["low"]}

    def plan(self, kept, jobs):
        for name, seen in ("seconds_of", lambda name: 100), ("is_kept", lambda name: name in kept):
            patch = mock.patch.object(prove, name, seen)
            patch.start()
            self.addCleanup(patch.stop)
        return prove.Plan(self.NEEDS, jobs)

    @tree.each([([], 1, 1, 400), ([], 8, 1, 300), ([], 8, 2, 600), (["low"], 8, 1, 206), (["middle"], 1, 1, 400)],
               "with {0} kept on {1} and {2} times as long")
    def test_at_first(self, kept, jobs, times, seconds):
        self.assertEqual(self.plan(kept, jobs).seconds_left(set(), {}, {}, times), seconds)

    def test_with_two_running(self):
        self.assertEqual(self.plan([], 8).seconds_left({"low"}, {"middle": 4, "beside": 4}, {"middle": 70, "beside": 10}, 1), 130)

    def test_text(self):
        shown = prove.Progress(self.plan([], 8))
        self.assertEqual(shown.text(), "prove: 0 of 4 crates, about 5 minutes more")
        shown.done.update(self.NEEDS)
        self.assertEqual(shown.text(), "prove: 4 of 4 crates")

    def test_program_takes_some_ten_to_twenty_minutes(self):
        with mock.patch.object(prove, "is_kept", lambda name: False):
            minutes = prove.Plan(tree.made_of("recovery_program"), 4).seconds_left(set(), {}, {}, 1) / 60
        self.assertTrue(5 < minutes < 30, minutes)


class MinutesLeft(tree.TestCase):
    """The gate with two crates of four proved at half the usual speed, one of them kept from an earlier run."""

    def setUp(self):
        self.gate = check.Gate(2)
        self.gate.seconds = {"low": 100, "middle": 100, "high": 400, "beside": 200}
        self.scripts = 60 * sum(it.minutes for it in check.SCRIPTS) / 2

    def half(self):
        for line in "rt: low proved\n", "rt: low: its tests are proved\n", "rt: beside is kept: it was proved here\n":
            self.gate.add(line, 100)

    def test_at_first(self):
        self.assertEqual(self.gate.minutes_left(0), (800 / 2 + self.scripts) / 60)

    def test_with_half_of_it(self):
        self.half()
        ratio = (60 + 100) / (60 + 50)
        rest = ratio * (500 / 2 + self.scripts)
        for later, left in (0, rest), (30, rest - 30), (1e9, rest / 10):
            self.assertEqual(self.gate.minutes_left(100 + later), left / 60)

    def test_passed(self):
        self.half()
        self.assertEqual(self.gate.passed(), 3)


class TwoAtOnce(Placed):
    def test_second_waits(self):
        first = self.begin("./prove", "--jobs", "1", "recovery_paths")
        self.assertTrue(waited_for(lambda: list(self.place.root.glob("out/prove/*/crates/*/out"))), "the first ./prove begins")
        second = self.begin("./prove", "--jobs", "1", "recovery_queue")
        waits = f"prove: ./prove (process {first.pid}) works in this tree; this one goes on when that has ended\n"
        self.assertEqual(second.stderr.readline(), waits)
        for call, name in (first, "recovery_paths"), (second, "recovery_queue"):
            said = call.communicate(timeout=SECONDS)[1]
            self.assertEqual((call.returncode, said.splitlines()[-1]), (0, f"prove: {name} is proved and built"))
        kept = [it for it in tree.made_of("recovery_paths") if not (self.place.root / "crates" / it / "out" / tree.rlib_format(it)).is_file()]
        self.assertEqual(kept, [], "what both proved is kept")


class Prove(Placed):
    def test_last_lines(self):
        status, _, said = self.place.ran("./prove")
        count = len(tree.made_of("recovery_program"))
        lines = [f"prove: {count} of {count} crates", "prove: recovery_program is proved and built: ./recovery-replay runs it"]
        self.assertEqual((status, said.splitlines()[-2:]), (0, lines))
        self.assertNotIn("warning", said)

    def test_another_logic(self):
        said = self.place.ran("./prove", "recovery_queue", SAID_LOGIC="logic 0123456789abcdef")[2]
        warning = f"prove: warning: the proofs are written for {tree.logic()}, and the toolchain here has logic 0123456789abcdef\n"
        self.assertEqual(said[:len(warning)], warning)


class Interrupted(Placed):
    """./check with scripts that pass one each, while rt ci runs."""

    @classmethod
    def prepare(cls):
        cls.place.stand_ins()

    @tree.each([("by ctrl-C", lambda call: os.killpg(call.pid, signal.SIGINT)), ("by SIGTERM", lambda call: call.terminate())])
    def test_check(self, _, ends):
        started = self.place.started
        started.unlink(missing_ok=True)
        call = self.begin("./check")
        self.assertTrue(waited_for(lambda: started.is_file() and started.read_text().endswith("\n")), "rt ci begins")
        second = self.begin("./prove", "recovery_queue")
        waits = f"prove: ./check (process {call.pid}) works in this tree; this one goes on when that has ended\n"
        self.assertEqual(second.stderr.readline(), waits)
        inner = self.place.ran("./prove", "recovery_base", **{tree.WORKS_IN: str(self.place.root.resolve())})
        self.assertEqual(inner[0], 0, "./check starts ./prove itself")
        waited_for(lambda: "its tests are" in (self.place.root / "out" / "check.log").read_text())
        ends(call)
        output, said = call.communicate(timeout=SECONDS)
        self.assertEqual((call.returncode, output), (1, f"{len(check.READINGS) + 2} passed, 1 failed\n"))
        self.assertIn("broken off in rt ci, of which 2 had passed\n", said)
        self.assertTrue(waited_for(lambda: not pathlib.Path(f"/proc/{int(started.read_text())}").exists()), "nothing works on")
        second.communicate(timeout=SECONDS)
        self.assertEqual(second.returncode, 0, "./prove goes on then")


class NotWritable(Placed):
    """A file is in the place of the folder for builds, so nothing can be written there, as in a read-only tree, even by root."""

    @classmethod
    def prepare(cls):
        (cls.place.root / "out").write_text("")

    def test_prove(self):
        status, output, said = self.place.ran("./prove")
        self.assertEqual((status, output, said.count("\n")), (1, "", 1))
        self.assertEqual(said.rpartition(": ")[0], f"prove: nothing can be written here: {self.place.root / 'out'}")

    def test_check(self):
        self.assertEqual(self.place.ran("./check")[:2], (1, "0 passed, 1 failed\n"))


class WithoutPython(Placed):
    @tree.each(["check", "prove", "dist"])
    def test_missing(self, name):
        with hidden(self.place.tools / "python3"):
            wanted = (1, "", f"{name}: Python 3.8 or later is missing: its command python3 is not on the PATH\n")
            self.assertEqual(self.place.ran(f"./{name}"), wanted)

    def test_older(self):
        with hidden(self.place.tools / "python3"):
            old = self.place.tools / "python3"
            old.write_text('#!/bin/sh\n[ "$1" = --version ] && echo Python 3.7.3 || exit 1\n')
            old.chmod(0o755)
            found = self.place.ran("./check")
        self.assertEqual(found, (1, "", "check: Python 3.8 or later is needed, and python3 is Python 3.7.3\n"))


# ---- without the toolchain


class WithoutToolchain(Placed):
    @classmethod
    def prepare(cls):
        cls.place.toolchain.unlink()

    def usage(self, crate):
        return (self.place.root / "crates" / crate / "help.txt").read_text()

    @tree.each(["prove", "dist"])
    def test_script(self, name):
        self.assertEqual(self.place.ran(f"./{name}"), (1, "", f"{name}: {MISSING}"))

    @tree.each(["prove", "check"])
    def test_help_of_script(self, name):
        status, output, said = self.place.ran(f"./{name}", "--help")
        self.assertEqual((status, output.startswith(f"usage: {name} "), said), (0, True, ""))

    @tree.each(["prove", "check"])
    def test_version_of_script(self, name):
        self.assertEqual(self.place.ran(f"./{name}", "--version"), (0, f"{tree.version()}\n", ""))

    @tree.each(LAUNCHERS.items())
    def test_launcher(self, name, crate):
        self.assertEqual(self.place.ran(f"./{name}"), (1, "", f"{name}: not proved yet, and {MISSING}"))

    @tree.each(LAUNCHERS.items())
    def test_help(self, name, crate):
        self.assertEqual(self.place.ran(f"./{name}", "--help"), (0, self.usage(crate), ""))

    @tree.each(LAUNCHERS)
    def test_version(self, name):
        self.assertEqual(self.place.ran(f"./{name}", "--version"), (0, f"{name} {(ROOT / 'VERSION').read_text()}", ""))

    @tree.each(LAUNCHERS.items())
    def test_unknown_word(self, name, crate):
        self.assertEqual(self.place.ran(f"./{name}", "--nothing"), (2, "", self.usage(crate).splitlines(True)[0]))

    @tree.each(LAUNCHERS.items())
    def test_help_after_a_word(self, name, crate):
        word, gives = WITH_HELP[name]
        wanted = (0, self.usage(crate), "") if gives else (2, "", self.usage(crate).splitlines(True)[0])
        self.assertEqual(self.place.ran(f"./{name}", word, "--help"), wanted)


class CheckWithoutToolchain(Placed):
    SKIPPED = [it.title for it in check.SCRIPTS if it.needs]
    PASSED = len(check.READINGS) + len(check.SCRIPTS) - len(SKIPPED)

    @classmethod
    def prepare(cls):
        cls.place.toolchain.unlink()
        cls.place.stand_ins()
        cls.bare = cls.place.ran("./check")
        cls.place.prebuild(*LAUNCHERS)
        cls.found = cls.place.ran("./check")

    def test_without_programs(self):
        self.assertEqual(self.bare[:2], (1, f"unproved: {len(check.READINGS)} passed, 1 failed, 1 skipped\n"))
        self.assertIn("the tests of the programs are left out: there is no prebuilt/", self.bare[2])

    def test_counts(self):
        self.assertEqual(self.found[:2], (0, f"unproved: {self.PASSED} passed, 0 failed, {len(self.SKIPPED) + 1} skipped\n"))

    def test_first_line(self):
        self.assertIn(f"nothing is proved here: {MISSING[:-1]}", self.found[2].splitlines()[0])

    def test_last_lines(self):
        self.assertIn(f"nothing was proved here: {MISSING[:-1]}", self.found[2].splitlines()[-2])

    @tree.each((it.title, it.needs) for it in check.SCRIPTS)
    def test_skipped(self, title, needs):
        why = {"rt": MISSING[:-1], "rustc": "rustc 1.82 or later is not on the PATH"}
        self.assertEqual(f": {title}: skipped: {why.get(needs)}\n" in self.found[2], bool(needs))

    @tree.each([("by --all", ["--all"], {}), ("by CI=true", [], {"CI": "true"})])
    def test_failure(self, _, words, more):
        wanted = (1, f"unproved: {self.PASSED} passed, 1 failed, {len(self.SKIPPED)} skipped\n")
        self.assertEqual(self.place.ran("./check", *words, **more)[:2], wanted)

    @tree.each([
        ("a part", ["program", "-k", "acks"], 0, "partial: 1 passed, 0 failed\n"),
        ("a part that needs rt", ["rust"], 0, "partial: 0 passed, 0 failed, 1 skipped\n"),
        ("what there is not", ["nothing"], 2, ""),
    ])
    def test_only(self, _, words, status, output):
        self.assertEqual(self.place.ran("./check", "--only", *words)[:2], (status, output))


# ---- the launchers

TEXTS = ["crates/quic_recovery_tests/src/lines.rt", "README.md", "examples/acks.txt"]  # of which no program is built
SOURCES = ["crates/recovery_base/src/time.rt", "crates/recovery_history/proofs/ReachabilityLaws.antt", "crates/{}/src/main.rt"]


class Unbuilt(Placed):
    @tree.each(LAUNCHERS.items())
    def test_no_program(self, name, crate):
        self.assertEqual(self.run_launcher(name), self.unproved(name, crate, "not proved yet"))

    @tree.each(LAUNCHERS.items())
    def test_too_many_answers(self, name, crate):
        long = f"{notice(name, crate, 'not proved yet')}{name}: the answers pass 1,048,576 bytes, and no more can be written without proof\n"
        self.assertEqual(self.run_launcher(name, TOO_LONG="1"), (1, "", long))

    @tree.each([("recovery-replay --help", 0), ("prove --help", 0), ("check --version", 0), ("recovery-trace", 2)])
    def test_nobody_reads(self, command, wanted):
        """A pipe whose reader is gone before anything is written to it."""
        with tree.unread() as pipe:
            status, _, said = tree.ran(f"./{command}".split(), stdout=pipe, **self.place.how())
        told = re.sub(r"^.*: compiles its sources .*\n|^line 2: told\n", "", said.decode(), flags=re.M)
        self.assertEqual((status, told), (wanted, ""))


class Built(Placed):
    """Programs that ./prove built here, from these sources or from others."""

    @classmethod
    def prepare(cls):
        for crate in LAUNCHERS.values():
            cls.place.build(crate)

    def proved(self, name):
        return 3, f"the program ran: {' '.join(WORDS[name])}\n", ""

    @tree.each(LAUNCHERS)
    def test_up_to_date(self, name):
        self.assertEqual(self.run_launcher(name), self.proved(name))

    @tree.each(((name, word) for name in LAUNCHERS for word in ("--help", "--version", "anything")), "{0} {1}")
    def test_word(self, name, word):
        self.assertEqual(self.place.ran(f"./{name}", word), (3, f"the program ran: {word}\n", ""))

    @tree.each(((name, path) for name in LAUNCHERS for path in TEXTS), "{0} {1}")
    def test_another_text(self, name, path):
        with changed(self.place.root / path):
            self.assertEqual(self.run_launcher(name), self.proved(name))

    @tree.each(LAUNCHERS)
    def test_newer_source_of_the_same_text(self, name):
        (self.place.root / "crates/recovery_base/src/time.rt").touch()
        self.assertEqual(self.run_launcher(name), self.proved(name))

    @tree.each(LAUNCHERS)
    def test_from_another_folder(self, name):
        status, output, said = tree.ran([self.place.root / name, *WORDS[name]], **{**self.place.how(), "cwd": "/"})
        self.assertEqual((status, output.decode(), said.decode()), self.proved(name))

    @tree.each(LAUNCHERS)
    def test_by_a_link(self, name):
        link = self.place.tools / "linked"
        link.symlink_to(self.place.root / name)
        self.addCleanup(link.unlink)
        self.assertEqual(self.place.ran(str(link), *WORDS[name]), self.proved(name))

    @tree.each(((name, crate, path) for name, crate in LAUNCHERS.items() for path in SOURCES), "{0} {2}")
    def test_another_source(self, name, crate, path):
        with changed(self.place.root / path.format(crate)):
            self.assertEqual(self.run_launcher(name), self.unproved(name, crate, "changed since it was proved"))

    @tree.each(LAUNCHERS.items())
    def test_replaced_program(self, name, crate):
        self.addCleanup(self.place.build, crate)
        self.place.script(self.place.root / "crates" / crate / "out" / crate, "another program ran")
        self.assertEqual(self.run_launcher(name), self.unproved(name, crate, "changed since it was proved"))

    @tree.each(LAUNCHERS.items())
    def test_folder_whose_name_has_a_quote(self, name, crate):
        """Nothing is deleted that was there, and nothing is left."""
        with changed(self.place.root / "crates" / crate / "src" / "main.rt"):
            found = self.run_launcher(name, TMPDIR=str(self.place.odd()))
        self.assertEqual(found, self.unproved(name, crate, "changed since it was proved"))
        self.assertEqual([it.name for it in self.place.odd().iterdir()], ["of the caller"])


class Prebuilt(Placed):
    """A prebuilt program runs exactly if it is the listed one, and was built from exactly the sources here."""

    @classmethod
    def prepare(cls):
        cls.place.prebuild(*LAUNCHERS)
        cls.folder = cls.place.root / "prebuilt" / tree.TARGET / "bin"

    def prebuilt(self, name):
        return 4, f"the prebuilt program ran: {' '.join(WORDS[name])}\n", ""

    @tree.each(LAUNCHERS)
    def test_runs(self, name):
        self.assertEqual(self.run_launcher(name), self.prebuilt(name))

    @tree.each(LAUNCHERS)
    def test_help(self, name):
        self.assertEqual(self.place.ran(f"./{name}", "--help"), (4, "the prebuilt program ran: --help\n", ""))

    @tree.each(LAUNCHERS.items())
    def test_newer_source_of_the_same_text(self, name, crate):
        (self.place.root / "crates" / crate / "src" / "main.rt").touch()
        self.assertEqual(self.run_launcher(name), self.prebuilt(name))

    @tree.each(LAUNCHERS.items())
    def test_program_that_was_not_built_here(self, name, crate):
        out = self.place.root / "crates" / crate / "out"
        self.addCleanup(shutil.rmtree, out)
        self.place.script(out / crate, "a program from elsewhere ran")
        self.assertEqual(self.run_launcher(name), self.prebuilt(name))

    @tree.each(LAUNCHERS)
    def test_without_toolchain(self, name):
        with hidden(self.place.toolchain):
            self.assertEqual(self.run_launcher(name), self.prebuilt(name))

    @tree.each(LAUNCHERS.items())
    def test_another_source(self, name, crate):
        why = f"prebuilt/{tree.TARGET}/bin/{name} was built from other sources than those here"
        with changed(self.place.root / "crates" / "recovery_base" / "src" / "time.rt"):
            self.assertEqual(self.run_launcher(name), self.unproved(name, crate, why))

    @tree.each(LAUNCHERS)
    def test_another_source_without_toolchain(self, name):
        why = f"prebuilt/{tree.TARGET}/bin/{name} was built from other sources than those here"
        with changed(self.place.root / "crates" / "recovery_base" / "src" / "time.rt"), hidden(self.place.toolchain):
            self.assertEqual(self.run_launcher(name), (1, "", f"{name}: {why}, and {MISSING}"))

    @tree.each(LAUNCHERS.items())
    def test_changed_program(self, name, crate):
        why = f"prebuilt/{tree.TARGET}/bin/{name} is not the file that SHA256SUMS lists"
        with changed(self.folder / name):
            self.assertEqual(self.run_launcher(name), self.unproved(name, crate, why))

    @tree.each(LAUNCHERS.items())
    def test_no_longer_there(self, name, crate):
        with hidden(self.place.root / "prebuilt"):
            self.assertEqual(self.run_launcher(name), self.unproved(name, crate, "not proved yet"))


@unittest.skipUnless(shutil.which("git"), "git is not on the PATH")
class Committed(Placed):
    """A build is committed with the record that fits the sources, and gets to others by a pull, a clone, an archive and a copy. Nobody runs it, and
    nothing is made of it."""

    NAME, CRATE = "recovery-trace", "recovery_trace"
    WAYS = ["pulled", "cloned", "unpacked", "copied"]

    @classmethod
    def prepare(cls):
        cls.place.prebuild(cls.NAME)
        home = cls.place.root
        work = lambda *words: git(cls.place, *words)
        work("init", "-q", str(home))
        work("-C", str(home), "add", ".")
        work("-C", str(home), "commit", "-qm", "Before")
        work("clone", "-q", str(home), "pulled")
        cls.place.build(cls.CRATE)
        cls.uncommitted = cls.place.ran(f"./{cls.NAME}", "7")
        work("-C", str(home), "add", "-f", f"crates/{cls.CRATE}/out", "out/built")
        work("-C", str(home), "commit", "-qm", "Tidy up")
        work("-C", "pulled", "pull", "-q")
        work("clone", "-q", str(home), "cloned")
        work("-C", str(home), "archive", "-o", str(home.parent / "archive.tar"), "HEAD")
        shutil.unpack_archive(home.parent / "archive.tar", home.parent / "unpacked")
        shutil.copytree(home.parent / "cloned", home.parent / "copied")

    def at(self, way):
        found = copy.copy(self.place)
        found.root = self.place.root.parent / way
        return found

    def test_runs_where_it_was_made(self):
        self.assertEqual(self.uncommitted, (3, "the program ran: 7\n", ""))

    @tree.each(WAYS)
    def test_launcher(self, way):
        self.assertEqual(self.at(way).ran(f"./{self.NAME}", "7"), (4, "the prebuilt program ran: 7\n", ""))

    @tree.each(((way, command) for way in WAYS if way != "unpacked" for command in ("dist --sums", "dist --compare", "dist", "prove")), "{0} {1}")
    def test_rejected(self, way, command):
        file = f"crates/{self.CRATE}/out/{self.CRATE}"
        error = f"{command.split()[0]}: {file} is committed, and a build has to be made here: git rm --cached {file}\n"
        self.assertEqual(self.at(way).ran(*f"./{command}".split()), (1, "", error))

    def test_compared_in_an_archive(self):
        error = "dist: recovery_program was not built here from the sources as they are: ./prove recovery_program\n"
        self.assertEqual(self.at("unpacked").ran("./dist", "--compare"), (1, "", error))


if __name__ == "__main__":
    tree.main("launchers")
