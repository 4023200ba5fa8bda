#!/usr/bin/env python3
"""Plays random scripts on the proved program and on a program in plain Rust (tests/careful) that does the same and shares no code with
it. Both outputs and the status must be the same. A seed determines a script: `--show SEED` prints it.

    tests/alike.py                     300 scripts
    tests/alike.py 5000 --seed 1000    5000 scripts, the first from this seed
"""
import argparse
import pathlib
import random
import subprocess
import sys
import tempfile

import tree
from tree import ROOT

PROGRAM = ROOT / "crates" / "recovery_program" / "out" / "recovery_program"
CAREFUL = ROOT / "tests" / "careful"
LAST = 2**64 - 1
ENDS = [0, 1, 2**62 - 1, 2**62, 2**62 + 1, 2**63, LAST - 1, LAST]
SIZES = [0, 1, 1199, 1200, 1201, 1252, 1400, 1452, 1500, 9000, 65535]
SPACES = ["initial", "handshake", "data"]
TIMERS = tree.timers()
MILLISECOND = 10**6
SECOND = 10**9
MOST_FAULTS = 5  # that are shown


class Lines:
    """Lines that mostly make sense one after another, as far as that can be known without the answers."""

    def __init__(self, seed):
        self.chance = random.Random(seed)
        self.now = self.one_of(0, SECOND, self.below(2**40))
        self.received = dict.fromkeys(SPACES, 0)
        self.sent = dict.fromkeys(SPACES, 0)
        self.issued, self.frame = 1, 0
        self.weights = [self.chance.random() ** 2 + 0.01 for _ in EVENTS]

    def one_of(self, *choices):
        return self.chance.choice(choices)

    def below(self, limit):
        return self.chance.randrange(limit)

    def is_rare(self, one_in):
        return self.below(one_in) == 0

    def near(self, number, spread):
        """A number near this one, mostly below it; now and then an end of numbers."""
        if self.is_rare(50):
            return self.one_of(*ENDS)
        return min(LAST, max(0, number + self.chance.randint(-spread, spread // 8)))

    def moment(self):
        """A time, mostly later than the last."""
        if self.is_rare(100):
            return self.one_of(0, self.now, LAST)
        self.now += self.one_of(0, 1, 1000, MILLISECOND, 10 * MILLISECOND, 100 * MILLISECOND, self.below(SECOND))
        return self.now

    def space(self):
        return self.one_of("data", "data", *SPACES)

    def path(self):
        return self.one_of("current", "current", "previous")

    def size(self):
        return self.one_of(self.below(65536), *SIZES)

    def flag(self):
        return self.below(2)

    def largest(self):
        return self.one_of("-", self.near(self.received["data"], 30))

    def receive(self):
        space = self.space()
        self.received[space] += self.one_of(0, 1, 1, 1, 2, 3, 130, 260)
        return f"received {space} {self.moment()} {self.near(self.received[space], self.one_of(3, 40, 300))} {self.flag()}"

    def send(self):
        space = self.space()
        self.sent[space] += 1
        items = "".join(f" {self.below(100)}" for _ in range(self.one_of(0, 0, 0, 1, 2, 5)))
        return f"send {space} {self.moment()} {self.size()} {self.flag()} {self.largest()}{items}"

    def leaves(self):
        """A space, and a number that was perhaps given out there."""
        space = self.space()
        return space, self.one_of(self.below(self.sent[space] + 2), max(0, self.sent[space] - self.below(6)))

    def acked(self):
        space, number = self.leaves()
        return f"acked {space} {self.moment()} {number} {self.flag()}"

    def lost(self):
        space, number = self.leaves()
        return f"lost {space} {number}"

    def new_id(self):
        self.frame += self.one_of(0, 1, 1, 1, 2)
        return f"new-id {self.near(self.frame, 6)} {self.near(max(0, self.frame - 3), 5)} {self.below(256)}"

    def issue_ids(self):
        count = self.one_of(0, 1, 2, 3, 8, 64)
        first = self.near(self.issued, 5) if self.is_rare(6) else self.issued
        self.issued += count if first == self.issued else 0
        return f"issue-ids {self.moment()} {first} {count}"

    def ack_frequency(self):
        numbers = self.one_of(0, 1, 2, 5, 2**62 - 1), self.one_of(0, 999, 1000, 1001, 25000, 2**62 - 1), self.one_of(0, 1, 3, 2**62 - 1)
        return "ack-frequency {} {} {} {}".format(self.below(30), *numbers)

    def discard(self):
        return f"discard {self.one_of(*SPACES)}" if self.is_rare(12) else self.receive()

    def sample(self):
        delay = self.one_of(0, 1, MILLISECOND, 25 * MILLISECOND, self.below(SECOND))
        rtt = self.one_of(0, 1, 1000, MILLISECOND, 100 * MILLISECOND, self.below(10 * SECOND), 2**64 * SECOND - 1)
        return f"sample {delay} {rtt}"

    def ecn(self):
        base = self.below(50)
        counts = f"{base + self.below(9)} {self.below(3)} {base // 2 + self.below(5)}"
        return f"ecn {self.space()} {self.one_of(0, 1, 2, 3, LAST)} {counts}"

    def check_ack(self):
        low = self.near(self.below(self.sent["data"] + 2), 9)
        return f"check-ack {self.space()} {low} {max(0, min(LAST, low + self.one_of(-1, 0, 1, 5, 100)))}"

    def line(self):
        """A line; now and then one that is no event."""
        return self.perhaps_bad(self.chance.choices(MAKERS, self.weights)[0](self))

    def perhaps_bad(self, line):
        if not self.is_rare(2000):
            return line
        return self.one_of(line + " ", line + " 0", " " + line, line.replace(" ", "  ", 1), line[:-1] + "x", line.rpartition(" ")[0], "")


EVENTS = {
    "received": Lines.receive,
    "send": Lines.send,
    "acked": Lines.acked,
    "lost": Lines.lost,
    "discard": Lines.discard,
    "new-id": Lines.new_id,
    "issue-ids": Lines.issue_ids,
    "ack-frequency": Lines.ack_frequency,
    "sample": Lines.sample,
    "ecn": Lines.ecn,
    "check-ack": Lines.check_ack,
    "next-id": lambda it: "next-id",
    "initial-id": lambda it: f"initial-id {it.below(256)}",
    "id-timeout": lambda it: "id-timeout",
    "peer-retired": lambda it: f"peer-retired {it.near(it.issued, 10)} {it.one_of(0, 1, 2, 3, 8, LAST)}",
    "acks-sent": lambda it: f"acks-sent {it.space()}",
    "ack-delay-timeout": lambda it: f"ack-delay-timeout {it.space()}",
    "set-timer": lambda it: f"set-timer {it.one_of(*TIMERS)} {it.moment()}",
    "stop-timer": lambda it: f"stop-timer {it.one_of(*TIMERS)}",
    "next-timeout": lambda it: "next-timeout",
    "in-flight": lambda it: f"in-flight {it.path()}",
    "datagram-in": lambda it: f"datagram-in {it.path()} {it.one_of(0, 1, 1200, 1500, it.below(3000), it.near(7, 5))}",
    "validated": lambda it: f"validated {it.path()}",
    "transmit": lambda it: f"transmit {it.moment()} {it.size()} {it.flag()}",
    "pacer-check": lambda it: f"pacer-check {it.moment()} {it.one_of(0, 1, 1200, 12000, 10**6, LAST, it.below(20000))}",
    "congestion": lambda it: f"congestion {it.moment()} {it.near(it.now, SECOND)} {it.one_of(0, 0, 0, 1)} {it.below(3000)}",
    "end-acks": lambda it: f"end-acks {it.moment()} {it.flag()} {it.largest()}",
    "poll-mtu": lambda it: f"poll-mtu {it.moment()}",
    "peer-limit": lambda it: f"peer-limit {it.size()}",
    "mtu-found": lambda it: f"mtu-found {it.size()}",
    "losses-done": lambda it: f"losses-done {it.moment()}",
    "queue-probe": lambda it: f"queue-probe {it.space()} {it.flag()}",
    "take-pending": lambda it: f"take-pending {it.space()}",
    "new-path": lambda it: f"new-path {it.moment()} {it.below(65536)} {it.flag()}",
    "reset-path": lambda it: f"reset-path {it.moment()}",
    "drop-previous": lambda it: "drop-previous",
    "revert-path": lambda it: "revert-path",
}
MAKERS = list(EVENTS.values())


def script(seed):
    """The program's arguments, and the lines."""
    lines = Lines(seed)
    return [], [lines.line() for _ in range(lines.one_of(20, 100, 400, 2000))]


def played(program, words, lines, error):
    """The answers line by line, then the error, as far as it is compared, and the status."""
    run = subprocess.run([program, *words], input="".join(f"{line}\n" for line in lines), capture_output=True, text=True)
    return [*run.stdout.split("\n"), error(run.stderr), run.returncode]


def fault(program, other, script, seed, error):
    """The first difference of the two, if they differ."""
    words, lines = script(seed)
    ours, theirs = played(program, words, lines, error), played(other, words, lines, error)
    if ours == theirs:
        return None
    places = zip([*lines, *[None] * 3], ours, theirs)
    parted = next(((at, *it) for at, it in enumerate(places, 1) if it[1] != it[2]), (len(ours), None, ours[-1], theirs[-1]))
    return "seed {}, line {} ({}): {}, and {} by plain Rust".format(seed, *parted)


def main(about, program, source, script, error=str, count=300):
    """Plays the scripts of these seeds on a program and on a source of tests/careful."""
    options = argparse.ArgumentParser(description=about, formatter_class=argparse.RawDescriptionHelpFormatter)
    options.add_argument("count", nargs="?", type=int, default=count)
    options.add_argument("--seed", type=int, default=0)
    options.add_argument("--show", type=int, metavar="SEED", help="prints the script of a seed, and on standard error the arguments; plays none")
    chosen = options.parse_args()
    if chosen.show is not None:
        words, lines = script(chosen.show)
        print("arguments:", *words, file=sys.stderr)
        print("\n".join(lines))
        return 0
    with tempfile.TemporaryDirectory() as folder:
        other = pathlib.Path(folder) / "careful"
        subprocess.run(["rustc", "--edition", "2021", "-C", "opt-level=3", "-C", "panic=abort", CAREFUL / source, "-o", other], check=True)
        faults = [it for it in (fault(program, other, script, seed, error) for seed in range(chosen.seed, chosen.seed + chosen.count)) if it]
    for it in faults[:MOST_FAULTS]:
        print(f"alike: {it}", file=sys.stderr)
    print(f"alike: {chosen.count - len(faults)} passed, {len(faults)} failed")
    return 1 if faults else 0


if __name__ == "__main__":
    sys.exit(main(__doc__, PROGRAM, "careful.rs", script))
