#!/usr/bin/env python3
"""Compares CUBIC with the formulas of RFC 9438 in fractions. recovery-trace reads random losses, acknowledgements and idle periods from fixed
seeds, and the windows at 1,000 acknowledgements in congestion avoidance are compared. With the whole numbers that the library documents (K in
whole microseconds, the distance from the plateau rounded down) they are the same to the byte. The curve is within one datagram of that with K
to the millionth part of a nanosecond. A few rows worked by hand show what an idle period leaves.

`--program PATH` tests another program in place of the proved one."""
import functools
import json
import random
from fractions import Fraction

import tree

PROGRAM = tree.built_program("recovery_trace")
POINTS = 1000
SEEDS = 20
MTU = 1200
SECOND = 10**9
PART = 2**32  # the estimate of Reno's window is rounded up to such a part of a byte

# RFC 9438, 4.1 to 4.7 and 5
C = Fraction(4, 10)
BETA = Fraction(7, 10)
ALPHA = 3 * (1 - BETA) / (1 + BETA)
CONVERGENCE = (1 + BETA) / 2


def cube_root(n):
    """The greatest whole number whose cube is at most this fraction."""
    low, high = 0, 1
    while high**3 <= n:
        high *= 2
    while high - low > 1:
        middle = (low + high) // 2
        low, high = (middle, high) if middle**3 <= n else (low, middle)
    return low


def up(fraction):
    return -(-fraction.numerator // fraction.denominator)


class Cubic:
    """A window by RFC 9438, rounded as in the library."""

    def __init__(self, window):
        self.window, self.threshold, self.recovery, self.prior = window, None, 0, window
        self.flight, self.idle_since, self.idle = 0, None, []
        self.begin(window, window, 0)

    def begin(self, plateau, window, now):
        self.plateau, self.floor, self.estimate, self.time, self.last = plateau, window, Fraction(window), 0, now
        self.k = self.k_in(10**6)

    def k_in(self, parts):
        """K, with a second divided into `parts` (4.2)."""
        distance = Fraction(max(self.plateau - self.floor, 0), MTU)
        return cube_root(distance / C * parts**3)

    def way(self, time, k, parts):
        """How far the curve is from the plateau, in bytes (4.2)."""
        return C * MTU * Fraction(time - k, parts)**3

    def curve(self):
        way = self.way(self.time // 1000, self.k, 10**6)
        return self.plateau + (way.numerator // way.denominator if way > 0 else -(-way.numerator // way.denominator))

    def real(self):
        """The same with K to the millionth part of a nanosecond, and time in nanoseconds."""
        parts = 10**15
        return self.plateau + self.way(self.time * 10**6, self.k_in(parts), parts)

    def sent(self, now, size):
        self.flight += size
        if size and self.idle_since is not None:
            self.idle.append((self.idle_since, now))
            self.idle_since = None

    def ended(self, now):
        """An ACK was processed. If it left nothing in flight, an idle period runs until a packet is sent."""
        if self.flight == 0 and self.idle_since is None:
            self.idle_since = now

    def passed(self, now):
        """The time since the acknowledgement before, or the beginning of the stage, without the idle periods (5.8)."""
        return now - self.last - sum(max(0, end - max(begin, self.last)) for begin, end in self.idle)

    def acked(self, now, sent, size, limited):
        self.flight -= size
        if sent <= self.recovery:
            return
        if limited:
            self.last = now
        elif self.threshold is None or self.window < self.threshold:
            self.window += size
            self.begin(self.window, self.window, now)
        else:
            alpha = ALPHA if self.estimate < self.prior else Fraction(1)
            grown = alpha * MTU * size / max(self.window, 2 * MTU)
            self.estimate += Fraction(up(grown * PART), PART)
            self.time += self.passed(now)
            self.last = now
            self.window = max(self.window, min(self.curve(), self.window + size // 2), up(self.estimate))

    def lost(self, now, sent, persistent):
        if sent <= self.recovery:
            return
        reduced = max(int(BETA * self.window), 2 * MTU)
        plateau = self.window if self.window >= self.plateau else int(CONVERGENCE * self.window)
        self.threshold, self.prior, self.recovery = reduced, self.window, now
        self.window = 2 * MTU if persistent else reduced
        self.begin(self.window if persistent else plateau, self.window, now)


class Script:
    """Lines for the program, each with the window that must follow. The model gets the same calls."""

    def __init__(self, seed):
        self.draw, self.cubic, self.lines, self.windows, self.number, self.now = random.Random(seed), Cubic(12000), [], [], 0, 0
        self.points, self.near, self.kept = 0, True, None

    def say(self, line, window=None):
        self.lines.append(line)
        self.windows.append(window)

    def send(self, sent, size, eliciting=True):
        """Sends a packet, and returns its number, time and size."""
        self.cubic.sent(sent, size)
        self.say(f"send data {sent} {size} {int(eliciting)} -", self.cubic.window)
        self.number += 1
        return self.number - 1, sent, size

    def acked(self, packet, limited=False):
        number, sent, size = packet
        avoids = sent > self.cubic.recovery and self.cubic.threshold is not None and self.cubic.window >= self.cubic.threshold
        self.cubic.acked(self.now, sent, size, limited)
        self.say(f"acked data {self.now} {number} {int(limited)}", self.cubic.window)
        if avoids and not limited:
            self.points += 1
            self.near &= abs(self.cubic.real() - self.cubic.curve()) <= MTU

    def end_acks(self):
        self.cubic.ended(self.now)
        self.say(f"end-acks {self.now} 0 {self.number - 1}", self.cubic.window)

    def ack(self, size, round_trip, limited=False):
        sent = self.now + round_trip - min(round_trip, self.draw.choice((10**6, round_trip // 2 + 1, round_trip)))
        if self.cubic.idle_since is not None:
            if self.draw.random() < 0.3:
                self.send(self.draw.randrange(self.now, sent + 1), 0, eliciting=False)
            size = max(size, 1)  # only what counts in flight elicits an ACK
        packet = self.send(sent, size)
        self.now += round_trip
        self.acked(packet, limited)
        if self.draw.random() < 0.5:
            self.end_acks()

    def keep(self):
        """Leaves a packet in flight, or acknowledges the one that was left."""
        if self.kept is None:
            self.kept = self.send(self.now, MTU)
            return
        packet, self.kept = self.kept, None
        self.now += 10**6
        self.acked(packet)
        self.end_acks()

    def lose(self, persistent=False):
        self.now += 10**6
        self.cubic.lost(self.now, self.now, persistent)
        self.say(f"congestion {self.now} {self.now} {int(persistent)} {MTU}", self.cubic.window)

    def write(self, points):
        draw = self.draw
        for _ in range(draw.randrange(1, 12)):
            self.ack(draw.randrange(1200, 65536), draw.choice((10**6, 10**7)))
        self.lose()
        while self.points < points:
            chance = draw.random()
            if chance < 0.03:
                self.lose(persistent=chance < 0.003)
            elif chance < 0.08:
                self.keep()
            else:
                trip = draw.choice((10**7, 10**8, 10**8, SECOND // 2, draw.randrange(1, 2 * SECOND)))
                self.ack(draw.choice((draw.randrange(3), 1200, 65535, 65535, 65535, draw.randrange(65536))), trip, draw.random() < 0.1)
        return self


@functools.lru_cache(maxsize=None)
def written(seed):
    """The script of a seed."""
    return Script(seed).write(POINTS // SEEDS)


# RFC 9438, 4.2 and 5.8, worked by hand: the window at the end of each script. In `ROUND`, 13,000 bytes fall to 9,100 at 101 ms, so K is
# 2.010362 s; then `LAST` acknowledges the last of five packets.
ROUND = ["send data 1000000 1000 1 -"] * 5 + [
    "acked data 101000000 3 0", "lost data 0", "congestion 101000000 1000000 0 1000", "end-acks 101000000 0 3",
    "acked data 102000000 4 0", "lost data 1", "end-acks 102000000 0 4"]
LAST = ["acked data 103000000 2 0", "end-acks 103000000 0 4"]


def later(first, count):
    """The lines for a number of packets of 1,000 bytes, sent 100 s later and acknowledged after 100 ms."""
    numbers = range(first, first + count)
    return ["send data 100103000000 1000 1 -"] * count + [f"acked data 100203000000 {it} 0" for it in numbers]


ROWS = (
    # t = 2 + 100 ms: 13,000 - 480 (2.010362 - 0.102)^3
    ("an idle period does not count", ROUND + LAST + later(5, 3), 9665),
    ("a packet of size 0 does not end it", ROUND + LAST + ["send data 50000000000 0 0 -", "end-acks 50100000000 0 5"] + later(6, 3), 9665),
    # t is 100 s, far above K: half of 1,000 for each acknowledgement
    ("time counts with a packet in flight", ROUND + later(5, 3), 9100 + 3 * 500),
    ("time counts until an ACK finds nothing in flight", ROUND + ["lost data 2"] + later(5, 2), 9100 + 2 * 500),
    # 12,000 fall to 8,400 at 2 ns, so K is 1.957433 s, and t = 50 ms: 12,000 - 480 (1.957433 - 0.05)^3
    ("an idle period after an acknowledgement that is application-limited",
     ["send data 1 1200 1 -", "congestion 2 1 0 1200", "send data 3 1200 1 -", "acked data 50000000 0 0", "acked data 50000000 1 1",
      "end-acks 50000000 1 1", "send data 100000000000 1200 1 -", "acked data 100050000000 2 0"], 8669),
)


class Windows(tree.TestCase):
    def windows_of(self, lines):
        """The window after each line."""
        words = [PROGRAM, "--controller", "cubic", "--state", "--strict"]
        status, text, errors = tree.ran(words, "".join(f"{line}\n" for line in lines), text=True)
        self.assertEqual((status, errors), (0, ""))
        return [json.loads(line)["congestion_window"] for line in text.splitlines()[1::2]]

    @tree.each(ROWS)
    def test_by_hand(self, _, lines, window):
        self.assertEqual(self.windows_of(lines)[-1:], [window])

    @tree.each(range(SEEDS))
    def test_seed(self, seed):
        script = written(seed)
        found = self.windows_of(script.lines)
        self.assertEqual(len(found), len(script.lines))
        wrong = [row for row in zip(script.lines, found, script.windows) if row[2] not in (None, row[1])]
        self.assertEqual(wrong[:1], [], "the first line whose window differs, with the window found and the one expected")

    @tree.each(range(SEEDS))
    def test_within_one_datagram(self, seed):
        self.assertTrue(written(seed).near)

    def test_points(self):
        self.assertEqual(sum(written(it).points for it in range(SEEDS)), POINTS)


if __name__ == "__main__":
    PROGRAM, words = tree.other_programs(program=PROGRAM)
    tree.main("cubic", words)
