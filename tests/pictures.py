#!/usr/bin/env python3
"""Compares the pictures of the documents with the output of the proved program. Each must be XML and show the script that was asked for. Arguments
and inputs that cannot be read must get their error.

`--program PATH` tests another program in place of the proved one."""
import re
import xml.etree.ElementTree as xml

import tree
from tree import ROOT

PROGRAM = tree.built_program("recovery_pictures")
SCRIPT = (ROOT / "tests" / "pictures" / "connection.txt").read_text()
MEASURED = (ROOT / "tests" / "pictures" / "tunnel.txt").read_text()
PICTURES = [  # the picture, the arguments, and the input
    ("connection.svg", ["connection"], SCRIPT),
    ("connection-fixed.svg", ["connection", "-", "60000"], SCRIPT),
    ("tunnel.svg", ["tunnel"], MEASURED),
]
USAGE = "usage: recovery-pictures connection [from=TIME] [to=TIME] [over=WINDOW] [SEED [WINDOW]] | tunnel\n"
REJECTED = [  # the arguments, the input, and the error
    ([], "", USAGE),
    (["nothing"], "", USAGE),
    (["connection", "-", "0"], SCRIPT, USAGE),
    (["connection", "01"], SCRIPT, USAGE),
    (["connection", "-", "60000", "60000"], SCRIPT, USAGE),
    (["connection", "from=1", "till=2"], SCRIPT, USAGE),
    (["connection", "from=x"], SCRIPT, USAGE),
    (["connection", "from=5", "to=5"], SCRIPT, USAGE),
    (["connection", "over=0"], SCRIPT, USAGE),
    (["connection", "over=cubic"], SCRIPT, "no line 'over' between two scripts\n"),
    (["connection", "over=cubic"], f"{SCRIPT}over\nnothing\n", "line 1: cannot be read\n"),
    (["tunnel", "60000"], MEASURED, USAGE),
    (["burst"], "newreno paced 400\n", USAGE),
    (["connection"], "validated current\nnothing\n", "line 2: cannot be read\n"),
    (["connection"], b"validated current\n\xff\n", "line 2: cannot be read\n"),
    (["connection", "over=cubic"], b"validated current\nover\n\xff\n", "recovery-pictures: the text is not UTF-8\n"),
    (["tunnel"], "1400 yes\n1400\n", "line 2: not 'SIZE yes' or 'SIZE no'\n"),
    (["tunnel"], b"1400 yes\n\xff\n", "recovery-pictures: the text is not UTF-8\n"),
]

# the place of the time in a line, and the start of the clock in the second script
MOMENTS = {"received": 2, "send": 2, "acked": 2, "transmit": 1, "pacer-check": 1, "congestion": 1, "end-acks": 1, "poll-mtu": 1, "losses-done": 1}
UNIX_TIME = 1_764_176_000_000_000_000

LEFT, WIDTH, BOTTOM, HEIGHT = 130, 1740, 670, 560  # of the upper panel


def ran(arguments, given):
    status, output, errors = tree.ran([PROGRAM, *arguments], given if isinstance(given, bytes) else given.encode())
    return status, output.decode(), errors.decode()


def later(line):
    """A line at a clock that began long before."""
    words = line.split()
    place = MOMENTS.get(words[0])
    for it in [place, 2] if words[0] == "congestion" else [place] if place else []:
        words[it] = str(int(words[it]) + UNIX_TIME)
    return " ".join(words)


def moments():
    """Each sample with the time of the last event before it that has one."""
    now = 0
    for line in SCRIPT.splitlines():
        words = line.split()
        if words[0] in MOMENTS:
            now = max(now, int(words[MOMENTS[words[0]]]))
        elif words[0] == "sample":
            yield now


def first_moment():
    return next(int(line.split()[MOMENTS[line.split()[0]]]) for line in SCRIPT.splitlines() if line.split()[0] in MOMENTS)


def lines(picture, style):
    """The lines in this style, without their marks in the legend."""
    return re.findall(rf'<path fill="none" [^>]*{style} d="(M[^"]*V[^"]*)"', picture)


class Drawn(tree.TestCase):
    def drawn(self, arguments, given):
        status, picture, errors = ran(arguments, given)
        self.assertEqual((status, errors), (0, ""))
        return picture


class Documents(Drawn):
    @tree.each(PICTURES)
    def test_same(self, name, arguments, given):
        self.assertEqual(self.drawn(arguments, given), (ROOT / "docs" / "pictures" / name).read_text())

    @tree.each(PICTURES)
    def test_xml(self, name, *_):
        self.assertEqual(xml.fromstring((ROOT / "docs" / "pictures" / name).read_text()).tag, "{http://www.w3.org/2000/svg}svg")


class Times(Drawn):
    """A picture begins with the first time in its script, whatever the clock's start, and shows what is between two times."""

    WHOLE = (ROOT / "docs" / "pictures" / "connection.svg").read_text()
    BEGIN, END = 400_000_000, 1_450_000_000

    def test_unix_time(self):
        shifted = self.drawn(["connection"], "".join(f"{later(line)}\n" for line in SCRIPT.splitlines()))
        self.assertEqual(shifted.replace(str(UNIX_TIME + first_moment()), str(first_moment())), self.WHOLE)

    def test_from_the_first_time_on(self):
        self.assertEqual(self.drawn(["connection", f"from={first_moment()}"], SCRIPT), self.WHOLE)

    def test_samples_between_two_times(self):
        part = self.drawn(["connection", f"from={self.BEGIN}", f"to={self.END}"], SCRIPT)
        dots = len(re.findall("<circle", part)) - 1  # the legend has one
        self.assertEqual(dots, sum(self.BEGIN <= it <= self.END for it in moments()))

    def test_axis_counts_from_the_first_time(self):
        part = self.drawn(["connection", f"from={self.BEGIN}", f"to={self.END}"], SCRIPT)
        numbers = [int(it) for it in re.findall(rf'y="{BOTTOM + 30}" text-anchor="middle">(\d+)<', part)]
        self.assertEqual([it for it in numbers if not self.BEGIN < first_moment() + it * 1_000_000 <= self.END], [])

    def test_axis_of_two_milliseconds(self):
        near = self.drawn(["connection", f"from={self.BEGIN}", f"to={self.BEGIN + 2_000_000}"], SCRIPT)
        self.assertIn(f"time from {first_moment()} ns on, µs", near)


class Seeds(Drawn):
    # Pcg32 of the seed 7 skips number 6 (tests/rows/skips.txt), so that eight packets have 0 to 5, 7 and 8.
    EIGHT = "".join(f"send data {it} 1000 1 -\n" for it in range(1, 9)) + "acked data 20 6 0\n"

    def flight(self, arguments, given):
        """How high the line of the bytes in flight ends above the lower edge of its panel."""
        line = re.search(r'stroke="#707070" stroke-width="2" d="([^"]*)"', self.drawn(arguments, given))[1]
        return BOTTOM - int(re.findall(r"V(\d+)", line)[-1])

    # the axis ends a tenth above the window: 12,000 bytes, and 1,000 more in slow start once a packet is acknowledged (RFC 9002, 7.3.1)
    @tree.each([([], 7000, 13_000), (["-"], 7000, 13_000), (["7"], 8000, 12_000)])
    def test_in_flight(self, seed, left, window):
        self.assertEqual(self.flight(["connection", *seed], self.EIGHT), left * HEIGHT // (window * 11 // 10))


class TwoScripts(Drawn):
    """The window of a second script is drawn over that of the first."""

    SOLID, DASHED = 'stroke="#004080" stroke-width="3"', 'stroke-dasharray="16 8"'

    def setUp(self):
        self.alone = self.drawn(["connection"], SCRIPT)
        self.both = self.drawn(["connection", "over=60000"], f"{SCRIPT}over\n{SCRIPT}")

    def test_first(self):
        self.assertEqual(lines(self.both, self.SOLID), lines(self.alone, self.SOLID))

    def test_no_second(self):
        self.assertEqual(lines(self.alone, self.DASHED), [])

    def test_second_stays_where_it_is(self):
        heights = [set(re.findall(r"V(\d+)", it)) for it in lines(self.both, self.DASHED)]
        self.assertEqual([len(it) for it in heights], [1])


class Errors(tree.TestCase):
    @tree.each(REJECTED, "{0} {1!r:.20} {2!r:.20}")
    def test_rejected(self, arguments, given, error):
        self.assertEqual(ran(arguments, given), (2, "", error))


if __name__ == "__main__":
    PROGRAM, words = tree.other_programs(program=PROGRAM)
    tree.main("pictures", words)
