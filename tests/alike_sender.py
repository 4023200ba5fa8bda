#!/usr/bin/env python3
"""Plays random calls of a sender on the proved program and on the same job in plain Rust (tests/careful/sender.rs), as tests/alike.py
does with events. Some scripts have a seed of skipped numbers and a fixed window.

    tests/alike_sender.py                     300 scripts
    tests/alike_sender.py 5000 --seed 1000    5000 scripts, the first from this seed
"""
import re
import sys

import alike
import sender
from alike import LAST, MILLISECOND, SECOND, SIZES, SPACES, Lines

OTHERS = 12  # the weight of all other events together
# names of lines that cannot be read, or that have calls of their own here
APART = {"send", "acked", "lost", "losses-done", "sample", "end-acks", "congestion", "ecn", "queue-probe", "transmit", "discard", "poll-mtu"}
SMALL_WINDOWS = [1200, 2400, 3000, 3600]
STEPS = [
    [0, 1000, 100_000, MILLISECOND],
    [0, MILLISECOND, 10 * MILLISECOND],
    [0, 0, 1000, 100_000, MILLISECOND, 5 * MILLISECOND, 20 * MILLISECOND, 120 * MILLISECOND, SECOND],
    [0, 100 * MILLISECOND, 400 * MILLISECOND, 2 * SECOND],
]


class Calls(Lines):
    """Calls that mostly make sense one after another: frames acknowledge what arrived."""

    def __init__(self, seed):
        super().__init__(seed)
        self.side = self.one_of("client", "client", "server", "server", "established")
        self.now = self.one_of(0, 0, SECOND)
        self.steps = self.one_of(*STEPS)
        self.spaces = self.one_of(["data"], ["data"] * 6 + SPACES, SPACES)
        self.loss = self.one_of(0, 0.02, 0.1, 0.4, 0.8)
        self.carried = self.one_of(LAST, LAST, 1250)
        self.arrived, self.top = {space: [] for space in SPACES}, dict.fromkeys(SPACES, -1)
        self.burst = False
        self.counts = self.one_of(None, [0, 0, 0])
        self.likely = [weight * self.one_of(0.3, 1, 1, 1, 2) for _, weight in CALLS]
        self.is_silent, self.is_full = self.is_rare(30), self.is_rare(5)
        if self.is_silent:  # hardly a packet elicits ACKs, and few come, so that some packets are forgotten
            self.spaces, self.likely[:2] = [self.one_of(*SPACES)], [400, 0.3]
        elif self.is_full:  # Data fills the window of a handshake, and Initial and Handshake wait
            self.spaces, self.likely = SPACES, [weight * self.one_of(1, 1, 2) for weight in WHEN_FULL]

    def arguments(self):
        seed = self.one_of("-", "-", self.below(100), self.below(2**64))
        window = self.one_of(1, 1200, 3000, 24000, 10**6, LAST) if self.is_rare(4) else "-"
        if self.is_full:
            self.side, window = self.one_of("client", "server"), self.one_of(*SMALL_WINDOWS)
        words = [self.side, seed, window, *(self.settings() if self.is_rare(4) else [])]
        while words[-1] == "-":
            words.pop()
        return [str(word) for word in words]

    def settings(self):
        """The packet threshold, the time threshold as a fraction, and the periods of persistent congestion."""
        time = self.one_of((9, 8), (5, 4), (1, 2), (0, 1), (3, 1), (LAST, 1), (1, LAST))
        return [self.one_of(3, 4, 0, 1, 2, 10, 2**32 - 1), *time, self.one_of(3, 1, 0, 2, 4, 2**32 - 1)]

    def first(self):
        """What is mostly said at the beginning."""
        yield from ["validated"] if self.side == "server" and not self.is_rare(5) else []
        yield from ["confirmed"] if not self.is_rare(3) and not self.is_full else []

    def moment(self):
        """A time, mostly later than the last."""
        if self.is_rare(60):
            return self.one_of(0, LAST, max(0, self.now - self.below(SECOND)), max(0, self.now - self.below(SECOND)))
        self.now += self.one_of(*self.steps)
        return self.now

    def space(self):
        return self.one_of(*self.spaces)

    def gives_number(self, space, size):
        """A packet is sent. Losses come in bursts, and a packet that is larger than the path carries never arrives."""
        if not self.is_rare(3):
            self.burst = self.chance.random() < self.loss
        if not self.burst and size <= self.carried:
            self.arrived[space].append(self.sent[space])
        self.sent[space] += 1

    def send(self):
        space = self.space()
        size = self.one_of(1200, 1200, 1200, 1200, 0, 50, 1300, 1452, self.one_of(*SIZES[:8]), self.below(1500))
        largest = self.largest()
        if largest == "-" or largest < 2**62:
            self.gives_number(space, size)
        items = "".join(f" {self.below(100)}" for _ in range(self.one_of(0, 0, 0, 1, 2)))
        elicits = self.is_rare(3000) if self.is_silent else not self.is_rare(7)
        return f"send {space} {self.moment()} {size} {int(elicits)} {largest}{items}"

    def acknowledged(self, space):
        """Ranges of numbers that arrived, the highest first."""
        arrived = self.arrived[space]
        lag = int(self.chance.expovariate(1)) if self.is_rare(3) else 0
        end = max(0, len(arrived) - lag)
        numbers = arrived[max(0, end - self.one_of(1, 1, 2, 3, 10, 40)) : end] or [0]
        ranges = []
        for number in reversed(numbers):
            if ranges and ranges[-1][0] == number + 1:
                ranges[-1][0] = number
            else:
                ranges.append([number, number])
        return ranges

    def spoiled(self, ranges, space):
        """The same, or others that no frame, or no right one, has."""
        if not self.is_rare(25):
            return ranges
        first, last = ranges[0]
        top = self.sent[space] + self.below(4)
        return self.one_of([[last, first]], ranges[::-1], ranges + [[first, last]], [[first, top]], [[top, top], *ranges], [[0, max(0, top - 1)]])

    def ecn(self, space, ranges):
        """Counts that mostly cover what the ranges have, now and then with a CE mark. A frame that does not raise the largest number may lack them."""
        rises, self.top[space] = ranges[0][1] > self.top[space], max(self.top[space], ranges[0][1])
        if self.counts is None or self.is_rare(80 if rises else 3):
            return ""
        enough = sum(last - first + 1 for first, last in ranges)
        self.counts[0] += enough if not self.is_rare(20) else self.one_of(0, 1)
        self.counts[2 if not self.is_rare(60) else 1] += self.one_of(0, 0, 1)
        return " ecn {} {} {}".format(*(self.counts if not self.is_rare(100) else [self.below(9), 0, 0]))

    def receipt(self, now):
        """When a frame was received, mostly a little before it is processed."""
        if not self.is_rare(4):
            return ""
        waited = self.one_of(0, 1000, MILLISECOND, 20 * MILLISECOND, 100 * MILLISECOND, SECOND, -MILLISECOND)
        return f" received {min(LAST, max(0, now - waited))}"

    def ack(self):
        space = self.space()
        if not self.arrived[space] and not self.is_rare(9):
            return self.send()
        ranges = self.acknowledged(space)
        said = "".join(f" {first} {last}" for first, last in self.spoiled(ranges, space))
        delay, now = self.one_of(0, 0, MILLISECOND, 25 * MILLISECOND, SECOND, 2**64 * SECOND - 1), self.moment()
        return f"ack {space} {now} {delay} {self.flag()}{said}{self.ecn(space, ranges)}{self.receipt(now)}"

    def transmit(self):
        size = self.one_of(1200, 1200, 1, 3000, 65535, self.below(20000))
        return f"transmit {self.space()} {self.moment()} {size} {int(not self.is_rare(5))}"

    def hear(self):
        """A packet of the peer, or what its ACK waits for."""
        space = self.space()
        self.received[space] += self.one_of(1, 1, 1, 1, 2, 3)
        packet = f"received {space} {self.moment()} {self.received[space]} {int(not self.is_rare(4))}"
        return self.one_of(packet, packet, packet, packet, f"ack-delay-timeout {space}", f"acks-sent {space}")

    def move(self):
        new = f"new-path {self.moment()} {self.below(4)} {self.flag()}"
        return self.one_of(new, new, new, "validated", "validated previous", "revert-path", "revert-path", "drop-previous", f"reset-path {self.moment()}")

    def timeout(self):
        """Now, or when much may be due."""
        return f"timeout {min(LAST, self.moment() + self.one_of(0, 0, 10 * MILLISECOND, 100 * MILLISECOND, SECOND, 3 * SECOND))}"

    def discard(self):
        """The end of a space, mostly with no later call in it."""
        space = self.one_of("initial", "handshake") if not self.is_rare(20) else "data"
        if not self.is_rare(9):
            self.spaces = [it for it in self.spaces if it != space] or ["data"]
        return f"discard {space} {self.moment()}"

    def said(self):
        return self.one_of("keys", "confirmed", "validated", f"peer-delay {self.one_of(0, 10**7, 25 * 10**6, 10**9, 2**64 * SECOND - 1)}")

    def other(self):
        """Another event that passes."""
        while True:
            line = self.chance.choices(alike.MAKERS, self.weights)[0](self)
            if line.split()[0] not in APART and "loss-detection" not in line:
                return line

    def line(self):
        """A line; now and then one that is no call."""
        return self.perhaps_bad(self.chance.choices(CALLS, self.likely)[0][0](self))


CALLS = [
    (Calls.send, 36), (Calls.ack, 26), (Calls.timeout, 10), (Calls.said, 2), (Calls.discard, 0.1), (Calls.other, OTHERS),
    (lambda it: f"poll-mtu {it.moment()}", 2),
    (Calls.transmit, 6), (Calls.hear, 3), (Calls.move, 1),
    (lambda it: f"probe {it.space()}", 3),
    (lambda it: f"datagram {it.one_of(1, 100, 400, 1200, it.near(7, 5))}", 2),
    (lambda it: f"abandon {it.space()} {it.moment()}", 0.7),
]
WHEN_FULL = [8, 5, 8, 0.1, 0.05, 1, 0.1, 20, 6, 0.3, 2, 1, 0.2]  # of these calls, as weights


def script(seed):
    """The program's arguments, and the lines."""
    calls = Calls(seed)
    words = calls.arguments()
    return words, [*calls.first(), *(calls.line() for _ in range(2000 if calls.is_silent else calls.one_of(20, 100, 400, 2000)))]


def number(error):
    """The number of the line that cannot be read. The program also names the word (tests/sender.py), and plain Rust does not."""
    return re.sub(r"\A(line \d+): .*\n\Z", r"\1", error)


if __name__ == "__main__":
    sys.exit(alike.main(__doc__, sender.PROGRAM, "sender.rs", script, number))
