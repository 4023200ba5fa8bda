#!/usr/bin/env python3
"""Tests recovery-sender as a process. It answers rows of calls and recordings of real connections with what the files of tests/sender
have, one line at a time. It reports lines and arguments that it cannot read, and streams that fail.

`--program PATH` tests another program in place of the proved one."""
import os
import select
import subprocess

import program as rows
import tree
from tree import ROOT

PROGRAM = tree.built_program("recovery_sender_program")
FILES = ROOT / "tests" / "sender"
GOOD, ANSWER = "confirmed", "done timer none"
USAGE = "usage: recovery-sender client|server|established [SEED [cubic|WINDOW [PACKETS NUMERATOR DENOMINATOR PERIODS]]]\n"

# arguments, with status, output and errors over one good line
ARGUMENTS = [
    (["server"], 0, f"{ANSWER}\n", ""),
    (["client", "7", "24000"], 0, f"{ANSWER}\n", ""),
    (["server", "-", "18446744073709551615"], 0, f"{ANSWER}\n", ""),
    (["client", "-", "cubic"], 0, f"{ANSWER}\n", ""),
    (["server", "1", "-"], 0, f"{ANSWER}\n", ""),
    (["established", "-", "-", "4294967295", "0", "1", "0"], 0, f"{ANSWER}\n", ""),
    (["--version"], 0, "recovery-sender 0.2.0 after quinn-proto 0.11.19\n", ""),
    ([], 2, "", USAGE),
    (["7"], 2, "", USAGE),
    (["Server"], 2, "", USAGE),
    (["server", "18446744073709551616"], 2, "", USAGE),
    (["server", "01"], 2, "", USAGE),
    (["server", "1", "0"], 2, "", USAGE),
    (["server", "cubic"], 2, "", USAGE),
    (["server", "1", "2", "3"], 2, "", USAGE),
    (["server", "1", "2", "3", "9", "8"], 2, "", USAGE),
    (["server", "1", "2", "4294967296", "9", "8", "3"], 2, "", USAGE),
    (["server", "1", "2", "3", "9", "0", "3"], 2, "", USAGE),
    (["server", "1", "2", "3", "9", "8", "4294967296"], 2, "", USAGE),
    (["server", "1", "2", "3", "9", "8", "3", "-"], 2, "", USAGE),
]

RECORDINGS = [("client", "handshakes-client"), ("server", "losses-server")]


def ran(words, given):
    return tree.ran([PROGRAM, *words], given, text=True)


def bad_lines():
    """The rows of tests/sender/lines.txt: the place of a line that cannot be read, the line, and the error."""
    for place, row in enumerate((FILES / "lines.txt").read_text().splitlines(), 1):
        bad, gives, error = row.rpartition(" => ")
        if gives:
            yield f"lines.txt:{place}", bad, error


class Scripts(tree.TestCase):
    @tree.each((f"rows.txt:{place}", *row) for place, *row in rows.scripts(FILES / "rows.txt"))
    def test_row(self, _, words, lines, answers):
        script, wanted = "\n".join(lines), "".join(f"{answer}\n" for answer in answers)
        self.assertAnswers(script, ran(words, script), (0, wanted, ""))

    @tree.each(RECORDINGS, "{1}")
    def test_recording(self, side, name):
        script = (FILES / f"{name}.txt").read_text()
        self.assertAnswers(script, ran([side], script), (0, (FILES / f"{name}.out").read_text(), ""))

    def test_lockstep(self):
        """The answer to a line is in the pipe, flushed, before the next one is sent."""
        answers, script = b"", (FILES / "handshakes-client.txt").read_bytes()
        with subprocess.Popen([PROGRAM, "client"], stdin=subprocess.PIPE, stdout=subprocess.PIPE, bufsize=0) as run:
            for line in script.splitlines(keepends=True):
                run.stdin.write(line)
                if not select.select([run.stdout], [], [], 20)[0]:
                    break
                answers += run.stdout.read(4096)
            run.stdin.close()
            status = run.wait()
        self.assertAnswers(script, (status, answers), (0, (FILES / "handshakes-client.out").read_bytes()))


class Lines(tree.TestCase):
    SKIPPED = f"# what follows is empty\n\n{GOOD}\n#{GOOD}\n\n"

    @tree.each(bad_lines())
    def test_bad(self, _, bad, error):
        """The lines before one that cannot be read are answered."""
        self.assertEqual(ran(["server"], f"{GOOD}\n{bad}\n{GOOD}\n"), (2, f"{ANSWER}\n", f"line 2: {error}\n"))

    def test_empty_lines_and_comments(self):
        self.assertEqual(ran(["server"], self.SKIPPED), (0, f"{ANSWER}\n", ""))

    def test_empty_lines_and_comments_count_as_lines(self):
        found = ran(["server"], f"{self.SKIPPED}x\n")
        self.assertEqual(found, (2, f"{ANSWER}\n", 'line 6: cannot read word 1, "x"\n'))

    def test_no_utf_8(self):
        found = tree.ran([PROGRAM, "server"], b"keys \xff\n")
        self.assertEqual(found, (2, b"", b'line 1: cannot read word 2, "\\xff"\n'))

    def test_no_input(self):
        self.assertEqual(ran(["server"], ""), (0, "", ""))


class Arguments(tree.TestCase):
    @tree.each(ARGUMENTS)
    def test_words(self, words, *wanted):
        self.assertEqual(ran(words, f"{GOOD}\n"), tuple(wanted))

    def test_help(self):
        page = (ROOT / "crates" / "recovery_sender_program" / "help.txt").read_text()
        self.assertEqual(ran(["--help"], ""), (0, page, ""))


class Streams(tree.TestCase):
    @tree.each([["server"], ["--help"], ["--version"]])
    def test_failed_write(self, words):
        with open("/dev/full", "wb") as full:
            self.assertEqual(tree.ran([PROGRAM, *words], GOOD.encode(), stdout=full), (1, None, b"sender: write failed\n"))

    def test_failed_read(self):
        folder = os.open(ROOT, os.O_RDONLY)
        self.addCleanup(os.close, folder)
        self.assertEqual(tree.ran([PROGRAM, "server"], stdin=folder), (1, b"", b"sender: read failed\n"))

    def test_nobody_reads(self):
        with tree.unread() as pipe:
            self.assertEqual(tree.ran([PROGRAM, "server"], GOOD.encode(), stdout=pipe), (0, None, b""))


if __name__ == "__main__":
    PROGRAM, words = tree.other_programs(program=PROGRAM)
    tree.main("sender", words)
