#!/usr/bin/env python3
"""Tests what no test of a crate can reach. The proved program runs on rows of lines, with arguments, and with streams that fail.
recovery-replay runs without that program. The launchers' programs print their help and version."""
import os
import pathlib
import re
import shutil
import subprocess
import tempfile
import time
import unittest

import tree
from tree import ROOT

ROWS = ROOT / "tests" / "rows"
PROGRAM = tree.built_program("recovery_program")
USAGE = b"usage: recovery-replay [SEED [WINDOW]]\n"
LINE, ANSWER = b"next-timeout\n", b"timeout none\n"
UNPROVED = re.compile(rb"recovery-replay: not proved yet: .*\n")
PAGES = [(word, *launcher) for launcher in tree.LAUNCHERS.items() for word in ("--help", "--version")]
ACCEPTED = [[], ["0"], ["18446744073709551615"], ["-"], ["1", "2"], ["-", "24000"], ["-", "18446744073709551615"]]
REJECTED = [
    ["18446744073709551616"], ["01"], ["+1"], [""], ["1 "], ["--"], ["-1"], [b"\xff"], ["1", "0"], ["1", ""],
    *(["-", it] for it in ("0", "-", "", "+1", "01", "02", "18446744073709551616")),
    ["", "1"], ["1", "2", "3"], ["-", "1", "1"],
]


def ran(words, given=LINE, **how):
    """Status, output and errors of a program that reads a line, or what is given."""
    return tree.ran(words, given, **how)


def lines_of(row):
    """The lines that a row stands for, and their answers."""
    line, _, answer = row.partition(" => ")
    many = re.match(r"(\d+) (?:times|to (\d+)): ", line)
    if not many:
        return [(line, answer)]
    count, last = many.groups()
    numbers = range(int(count), int(last) + 1) if last else range(int(count))
    return [(line[many.end():], answer.replace("{}", str(number))) for number in numbers]


def scripts(path):
    """The scripts of a file: the first line of each, the program's arguments, the lines and the answers."""
    here = None
    for place, row in enumerate(path.read_text().split("\n"), 1):
        if row.endswith(" => cannot be read"):
            yield place, [], [row[: -len(" => cannot be read")]], None
        elif row and not row.startswith("#"):
            here = here or (place, [], [], [])
            if row.startswith(("recovery-replay ", "recovery-sender ")):
                here[1].extend(row.split()[1:])
            else:
                here[2].extend(line for line, _ in lines_of(row))
                here[3].extend(answer for _, answer in lines_of(row))
        elif here and not row:
            yield here
            here = None
    assert here is None, f"{path.name} ends within a script"


def runs():
    """Each script of tests/rows with the arguments that it names, or, if it names none, without any and with '-' (no seed). An empty
    line ends a script, and a line that cannot be read is one of its own; `3 times: LINE => ANSWER` is three lines, and
    `0 to 6: LINE => ANSWER` seven, in whose answers {} is the number."""
    for path in sorted(ROWS.glob("*.txt")):
        for place, words, lines, answers in scripts(path):
            for arguments in [words] if words else [[], ["-"]]:
                yield " ".join([f"{path.name}:{place}", *arguments]), arguments, lines, answers


def setUpModule():
    if not PROGRAM.is_file():
        raise tree.Unfit("there is no proved program: ./prove builds it")


class Rows(tree.TestCase):
    def answered(self, words, lines, answers, end):
        script, wanted = "\n".join(lines).encode(), "".join(f"{it}\n" for it in answers).encode()
        self.assertAnswers(script, ran([PROGRAM, *words], script + end), (0, wanted, b""))

    @tree.each(it for it in runs() if it[3] is not None)
    def test_script(self, _, words, lines, answers):
        self.answered(words, lines, answers, b"\n")

    @tree.each(it for it in runs() if it[3] is not None)
    def test_script_without_last_line_feed(self, _, words, lines, answers):
        self.answered(words, lines, answers, b"")

    @tree.each(it for it in runs() if it[3] is None)
    def test_line_that_cannot_be_read(self, _, words, lines, answers):
        line = lines[0].encode().decode("unicode_escape").encode("latin-1")
        found = ran([PROGRAM, *words], LINE + line + b"\n" + LINE)
        self.assertEqual(found, (2, ANSWER, b"line 2: cannot be read\n"))


class Arguments(tree.TestCase):
    @tree.each(ACCEPTED)
    def test_accepted(self, words):
        self.assertEqual(ran([PROGRAM, *words]), (0, ANSWER, b""))

    @tree.each(((it, program) for it in REJECTED for program in (PROGRAM, ROOT / "recovery-replay")), "{0} by {1.name}")
    def test_rejected(self, words, program):
        self.assertEqual(ran([program, *words]), (2, b"", USAGE))


class Pages(tree.TestCase):
    """What the program says of itself is on standard output."""

    def test_help(self):
        status, text, errors = ran([PROGRAM, "--help"], stdin=subprocess.DEVNULL)
        self.assertEqual((status, text.startswith(USAGE), b"recovery-trace" in text, errors), (0, True, True, b""))

    def test_version(self):
        found = ran([PROGRAM, "--version"], stdin=subprocess.DEVNULL)
        self.assertEqual(found, (0, b"recovery-replay 0.2.0 after quinn-proto 0.11.19\n", b""))

    @tree.each([["--help", "1"], ["1", "--version"], ["--helpful"]])
    def test_no_page(self, words):
        self.assertEqual(ran([PROGRAM, *words]), (2, b"", USAGE))


class Streams(tree.TestCase):
    def test_failed_read(self):
        folder = os.open(ROOT, os.O_RDONLY)
        self.addCleanup(os.close, folder)
        self.assertEqual(ran([PROGRAM], stdin=folder), (1, b"", b"replay: read failed\n"))

    @tree.each([[], ["--help"]])
    def test_failed_write(self, words):
        with open("/dev/full", "wb") as full:
            self.assertEqual(ran([PROGRAM, *words], stdout=full), (1, None, b"replay: write failed\n"))

    def test_failed_write_of_an_error(self):
        with open("/dev/full", "wb") as full:
            self.assertEqual(ran([PROGRAM], LINE + b"bad\n", stderr=full), (2, ANSWER, None))

    @tree.each([[], ["--help"], ["--version"]])
    def test_nobody_reads(self, words):
        with tree.unread() as pipe:
            self.assertEqual(ran([PROGRAM, *words], stdout=pipe), (0, None, b""))

    @tree.each([("empty", b""), ("long", b"a" * 4097)])
    def test_bad_line(self, _, line):
        self.assertEqual(ran([PROGRAM], LINE + line + b"\n" + LINE), (2, ANSWER, b"line 2: cannot be read\n"))

    def test_no_line_feed(self):
        self.assertEqual(ran([PROGRAM], LINE.strip()), (0, ANSWER, b""))

    def test_no_input(self):
        self.assertEqual(ran([PROGRAM], stdin=subprocess.DEVNULL), (0, b"", b""))


class Launchers(tree.TestCase):
    """A launcher runs the proved program. What it says without its program is what that says."""

    def needs(self, crate):
        if not tree.built_program(crate).is_file():
            self.skipTest(f"{crate} is not built: ./prove {crate}")

    def prints(self, program, word, crate, name):
        self.needs(crate)
        page = (ROOT / "crates" / crate / "help.txt").read_text() if word == "--help" else f"{name} {(ROOT / 'VERSION').read_text()}"
        self.assertEqual(ran([program, word]), (0, page.encode(), b""))

    @tree.each(PAGES, "{2} {0}")
    def test_launcher(self, word, crate, name):
        self.prints(ROOT / name, word, crate, name)

    @tree.each(PAGES, "{2} {0}")
    def test_program(self, word, crate, name):
        self.prints(tree.built_program(crate), word, crate, name)

    @tree.each(tree.LAUNCHERS.items(), "{1}")
    def test_nobody_reads(self, crate, name):
        self.needs(crate)
        with tree.unread() as pipe:
            self.assertEqual(ran([ROOT / name, "--help"], stdout=pipe), (0, None, b""))

    @tree.each([("a line", LINE, ANSWER), ("nothing", b"", b"")])
    def test_recovery_replay(self, _, given, answer):
        self.assertEqual(ran([ROOT / "recovery-replay"], given), (0, answer, b""))

    @unittest.skipIf(tree.is_toolchain_missing(), tree.MISSING)
    def test_unproved_sources(self):
        """In a copy of the repository in which nothing was built, and nothing is prebuilt, the toolchain runs the sources."""
        with tempfile.TemporaryDirectory() as folder:
            fresh = pathlib.Path(folder, "fresh")
            shutil.copytree(ROOT, fresh, ignore=shutil.ignore_patterns("out", ".git", "prebuilt"))
            began = time.time()
            status, output, errors = ran([fresh / "recovery-replay"], LINE + b"bad\n")
        self.assertEqual((status, output, UNPROVED.sub(b"", errors)), (2, ANSWER, b"line 2: cannot be read\n"))
        self.assertLess(time.time() - began, 120, "seconds until they answered")


if __name__ == "__main__":
    tree.main("program")
