#!/usr/bin/env python3
"""Tests recovery-trace as a process. It answers each script of the repository with the output in the file next to it, one line at a
time, in memory that does not grow with the input. It reports lines and arguments that it cannot read. The example of its page is true.

`--program PATH` tests another program in place of the proved one."""
import json
import os
import pathlib
import re
import select
import subprocess
import threading

import program as rows
import tree
from tree import ROOT

PROGRAM = tree.built_program("recovery_trace")
REPLAY = tree.built_program("recovery_program")
EXAMPLES = [(it.name, it.read_text(), it.with_suffix(".out").read_text()) for it in sorted((ROOT / "examples").glob("*.txt"))]
METRICS = {"time", "bytes_in_flight", "packets_in_flight", "congestion_window", "smoothed_rtt", "rtt_variance", "min_rtt", "latest_rtt", "mtu", "pacer_tokens"}
GOOD, ANSWER = "next-timeout", "timeout none"
USAGE = "usage: recovery-trace [--state|--qlog] [--strict] [--controller NAME] [SEED [WINDOW]]\n"

# a line that cannot be read, and the error after its number
BAD = [
    ("nonsense 1", 'cannot read word 1, "nonsense"'),
    (" next-timeout", 'cannot read word 1, ""'),
    ("received data 0 x 1", 'cannot read word 4, "x"'),
    ("received 0 0 0 1", 'cannot read word 2, "0"'),
    ("received data 18446744073709551616 0 1", 'cannot read word 3, "18446744073709551616"'),
    ("received data 00 0 1", 'cannot read word 3, "00"'),
    ("received data 0 0 2", 'cannot read word 5, "2"'),
    ("received data 0 0 1 ", 'cannot read word 6, ""'),
    ("send data 0 65536 1 -", 'cannot read word 4, "65536"'),
    ("send data 0 1200 1 - 7 y", 'cannot read word 8, "y"'),
    ("issue-ids 0 18446744073709551615 2", 'cannot read word 4, "2"'),
    ("issue-ids 0 0 65", 'cannot read word 4, "65"'),
    ("ack-frequency 0 4611686018427387904 0 0", 'cannot read word 3, "4611686018427387904"'),
    ("set-timer never 0", 'cannot read word 2, "never"'),
    ("in-flight next", 'cannot read word 2, "next"'),
    ("next-timeout now", 'cannot read word 2, "now"'),
    ("lost data \tx", 'cannot read word 3, "\\tx"'),
    ("lost data " + "9" * 80, 'cannot read word 3, "' + "9" * 64 + '"'),
    ('lost data \\"', 'cannot read word 3, "\\\\\\""'),
    ("lost data é", 'cannot read word 3, "é"'),
    ("lost data \x1b[2J", 'cannot read word 3, "\\u{1b}[2J"'),
    # of a character at the end of what is shown all or nothing
    ("x" * 63 + "é", f'cannot read word 1, "{"x" * 63}"'),
    ("x" * 62 + "éé", f'cannot read word 1, "{"x" * 62}é"'),
    ("x" * 61 + "𝄞", f'cannot read word 1, "{"x" * 61}"'),
    ("received data 0", "words are missing behind the last one"),
    ("lost data", "words are missing behind the last one"),
    ("send data 0 1200 1 -" + " 1" * 2039, "longer than 4096 bytes"),
    ("x" * 5000, "longer than 4096 bytes"),
]

# lines with words that are not UTF-8, and the error
BYTES = [
    (b"\xff\xfe", r'cannot read word 1, "\xff\xfe"'),
    (b"lost data x\xc3", r'cannot read word 3, "x\xc3"'),
    (b"lost data \x80" + b"\x81" * 80, r'cannot read word 3, "\x80' + r"\x81" * 59 + '"'),
]

# Lines and answers that show how a trace begins: at 1.25 windows of 12,000 bytes per round-trip time of 1 ns, the bucket of 12,000
# bytes is full again 1 ns after the beginning, which is time 0 (RFC 9002, 7.7).
BEGINNING = [("sample 0 1", "done"), ("transmit 0 12000 0", "transmitted"), ("pacer-check 1 12000", "ready")]

# lines, with the time after each in nanoseconds: a line without a time, or with an earlier one, leaves it as it is; an event that fails moves it
TIMES = [
    ("next-timeout", 0), ("received data 7 0 1", 7), ("send data 8 1200 1 -", 8), ("acked data 9 0 0", 9), ("acked data 10 0 0", 10), ("sample 0 99", 10),
    ("set-timer idle 99", 10), ("transmit 5 1 0", 10), ("transmit 11 1 0", 11), ("pacer-check 12 0", 12), ("congestion 13 99 0 0", 13), ("end-acks 14 0 -", 14),
    ("issue-ids 15 1 1", 15), ("poll-mtu 16", 16), ("losses-done 17", 17), ("new-path 18 0 1", 18), ("reset-path 18446744073709551615", 18446744073709551615),
    ("new-path 19 0 0", 18446744073709551615),
]

# arguments, with status, output and errors over one good line
ARGUMENTS = [
    ([], 0, ANSWER + "\n", ""),
    (["7", "24000"], 0, ANSWER + "\n", ""),
    (["--strict", "-", "18446744073709551615"], 0, ANSWER + "\n", ""),
    (["--version"], 0, "recovery-trace 0.2.0 after quinn-proto 0.11.19\n", ""),
    (["7", "--strict", "24000"], 0, ANSWER + "\n", ""),
    (["7", "24000", "--version"], 0, "recovery-trace 0.2.0 after quinn-proto 0.11.19\n", ""),
    (["--version", "--help", "x"], 0, "recovery-trace 0.2.0 after quinn-proto 0.11.19\n", ""),
    (["--controller", "cubic"], 0, ANSWER + "\n", ""),
    (["7", "--controller", "newreno", "--strict"], 0, ANSWER + "\n", ""),
    (["--controller", "cubic", "7", "--controller", "newreno"], 2, "", USAGE),
    (["--controller", "newreno", "-", "24000"], 2, "", USAGE),
    (["--controller", "newreno", "--controller", "newreno"], 2, "", USAGE),
    (["--controller"], 2, "", USAGE),
    (["--controller", "--version"], 2, "", USAGE),
    (["--controller", "cubic", "7", "24000"], 2, "", USAGE),
    (["7", "24000", "--controller", "cubic"], 2, "", USAGE),
    (["x", "--version"], 2, "", USAGE),
    (["--state", "--strict", "1", "2", "3"], 2, "", USAGE),
    (["--states"], 2, "", USAGE),
    (["-", "-"], 2, "", USAGE),
    (["18446744073709551616"], 2, "", USAGE),
    (["01"], 2, "", USAGE),
    (["1", "0"], 2, "", USAGE),
    (["1", "2", "3"], 2, "", USAGE),
]


def ran(words, given, program=None):
    return tree.ran([program or PROGRAM, *words], given, text=True)


def rows_with_answers():
    """The scripts of tests/rows, with the arguments that they name: those of recovery-replay are those of recovery-trace."""
    for path in sorted(rows.ROWS.glob("*.txt")):
        for place, words, lines, answers in rows.scripts(path):
            if answers is not None:
                yield f"{path.name}:{place}", words, "\n".join(lines), "".join(f"{answer}\n" for answer in answers)


class Scripts(tree.TestCase):
    def same_as_replay(self, words, script):
        if not REPLAY.is_file():
            self.skipTest("recovery_program is not built: ./prove")
        self.assertAnswers(script, ran(words, script), ran(words, script, REPLAY))

    @tree.each(EXAMPLES)
    def test_example(self, _, script, answers):
        self.assertAnswers(script, ran([], script), (0, answers, ""))

    @tree.each(((name, words, script) for name, script, _ in EXAMPLES for words in (["7"], ["-", "24000"])), "{0} {1}")
    def test_example_as_recovery_replay(self, _, words, script):
        self.same_as_replay(words, script)

    def test_recording_as_recovery_replay(self):
        """The beginning of a recording of a real connection, as the picture of it has it."""
        self.same_as_replay([], (ROOT / "tests" / "pictures" / "connection.txt").read_text())

    @tree.each(rows_with_answers())
    def test_row(self, _, words, script, answers):
        self.assertAnswers(script, ran(words, script), (0, answers, ""))

    def test_lockstep(self):
        """The answer to a line is in the pipe, flushed, before the next one is sent."""
        script = ROOT / "examples" / "paths.txt"
        answers = b""
        with subprocess.Popen([PROGRAM], stdin=subprocess.PIPE, stdout=subprocess.PIPE, bufsize=0) as run:
            for line in script.read_bytes().splitlines(keepends=True):
                run.stdin.write(line)
                if not select.select([run.stdout], [], [], 20)[0]:
                    break
                answers += run.stdout.read(4096)
            run.stdin.close()
            status = run.wait()
        self.assertAnswers(script.read_text(), (status, answers), (0, script.with_suffix(".out").read_bytes()))


class Lines(tree.TestCase):
    def test_empty_lines_and_comments(self):
        self.assertEqual(ran([], f"# a\n\n{GOOD}\n#{GOOD}\n{GOOD}"), (0, f"{ANSWER}\n{ANSWER}\n", ""))

    def test_no_input(self):
        self.assertEqual(ran([], ""), (0, "", ""))

    @tree.each(enumerate(BAD), "{0} {1[0]!r:.40}")
    def test_bad(self, _, row):
        bad, error = row
        self.assertEqual(ran([], f"{GOOD}\n\n{bad}\n{GOOD}\n"), (2, f"{ANSWER}\n{ANSWER}\n", f"line 3: {error}\n"))

    @tree.each(BYTES, "{0!r:.40}")
    def test_no_utf_8(self, bad, error):
        found = tree.ran([PROGRAM], bad + b"\n" + GOOD.encode())
        self.assertEqual(found, (2, f"{ANSWER}\n".encode(), f"line 1: {error}\n".encode()))

    def test_bad_of_strict(self):
        found = ran(["--strict"], f"{GOOD}\n{BAD[0][0]}\n{GOOD}\n")
        self.assertEqual(found, (2, f"{ANSWER}\n", f"line 2: {BAD[0][1]}\n"))

    def test_bad_at_the_end(self):
        found = ran([], "lost data 0\nlost data")
        self.assertEqual(found, (2, "refused 4 NotTracked\n", "line 2: words are missing behind the last one\n"))

    def test_beginning(self):
        script, answers = ("".join(f"{pair[at]}\n" for pair in BEGINNING) for at in (0, 1))
        self.assertAnswers(script, ran([], script), (0, answers, ""))


class Arguments(tree.TestCase):
    @tree.each(ARGUMENTS)
    def test_words(self, words, *wanted):
        self.assertEqual(ran(words, GOOD + "\n"), tuple(wanted))

    def test_help(self):
        status, text, errors = ran(["--help"], "")
        self.assertEqual((status, text.startswith(USAGE), errors), (0, True, ""))


class Streams(tree.TestCase):
    @tree.each([[], ["--qlog"], ["--help"], ["--version"]])
    def test_failed_write(self, words):
        with open("/dev/full", "wb") as full:
            self.assertEqual(tree.ran([PROGRAM, *words], GOOD.encode(), stdout=full), (1, None, b"recovery-trace: write failed\n"))

    def test_failed_read(self):
        folder = os.open(ROOT, os.O_RDONLY)
        self.addCleanup(os.close, folder)
        self.assertEqual(tree.ran([PROGRAM], stdin=folder), (1, b"", b"recovery-trace: read failed\n"))

    def test_reader_goes(self):
        """Whoever reads the answers takes the first one and goes: no failure."""
        with subprocess.Popen([PROGRAM], stdin=subprocess.PIPE, stdout=subprocess.PIPE, stderr=subprocess.PIPE, bufsize=0) as run:
            run.stdin.write(f"{GOOD}\n".encode())
            self.assertEqual(run.stdout.readline(), f"{ANSWER}\n".encode())
            run.stdout.close()
            run.stdin.write(f"{GOOD}\n".encode() * 2)
            self.assertEqual((run.wait(), run.stderr.read()), (0, b""))

    @tree.each([[], ["--state"], ["--qlog"], ["--help"], ["--version"]])
    def test_nobody_reads(self, words):
        with tree.unread() as pipe:
            self.assertEqual(tree.ran([PROGRAM, *words], GOOD.encode(), stdout=pipe), (0, None, b""))


class States(tree.TestCase):
    """With --state, every second line is an object with the names of the page."""

    @tree.each(EXAMPLES)
    def test_answers(self, _, script, answers):
        self.assertEqual(ran(["--state"], script)[1].splitlines()[::2], answers.splitlines())

    @tree.each(EXAMPLES)
    def test_names(self, _, script, answers):
        states = ran(["--state"], script)[1].splitlines()[1::2]
        self.assertEqual([set(json.loads(it)) - {"ssthresh"} for it in states], [METRICS] * len(answers.splitlines()))

    def test_times(self):
        states = ran(["--state"], "".join(f"{line}\n" for line, _ in TIMES))[1].splitlines()[1::2]
        self.assertEqual([it.split(",")[0] for it in states], [f'{{"time":{time}e-6' for _, time in TIMES])

    def test_example_of_the_page(self):
        text = (ROOT / "docs" / "PROGRAMS.md").read_text()
        given, wanted = re.search(r"An example, `(.*?)` and what `recovery-trace --state` writes to it:\n\n```answers\n(.*?)```", text, re.S).groups()
        self.assertEqual(ran(["--state"], given + "\n"), (0, wanted, ""))


class Memory(tree.TestCase):
    def peak(self, count):
        """The peak memory in KiB over that number of lines, read once all are answered."""
        lines = [f"received data {number // 2} {number // 2} 0\nacks-sent data\n" for number in range(0, count, 2)]
        with subprocess.Popen([PROGRAM], stdin=subprocess.PIPE, stdout=subprocess.PIPE, text=True) as run:
            feeder = threading.Thread(target=lambda: (run.stdin.writelines(lines), run.stdin.flush()))
            feeder.start()
            answered = sum(1 for _ in zip(range(count), run.stdout))
            held = int(re.search(r"VmHWM:\s*(\d+)", pathlib.Path(f"/proc/{run.pid}/status").read_text())[1])
            feeder.join()
            run.stdin.close()
            self.assertEqual((answered, run.wait()), (count, 0))
        return held

    def test_many_lines(self):
        few, many = self.peak(1000), self.peak(500_000)
        self.assertLess(many, few + 1024, "KiB over 500,000 lines, and over 1,000 lines with 1,024 more")

    def test_long_line(self):
        long = ran([], "x" * 50_000_000 + "\n" + GOOD)
        self.assertEqual(long, (2, ANSWER + "\n", "line 1: longer than 4096 bytes\n"))


if __name__ == "__main__":
    PROGRAM, words = tree.other_programs(program=PROGRAM)
    tree.main("trace", words)
