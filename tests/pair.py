#!/usr/bin/env python3
"""Tests two endpoints over a hostile network. recovery-link plays random schedules, which drop, duplicate, reorder and delay packets, and all short
ones. Each answer is compared with what the steps and answers before it allow: crates/recovery_pair/specs/Promises has these rules, and this file has
some that are not proved. Honest endpoints reject no ACK of each other. What is acknowledged was delivered once, with the items that were sent. No
item is lost, and none is sent more often than its losses and probes account for. The amplification limit and the window hold. No required ACK is held
back, and no endpoint is stuck. At the end the network delivers, and all items arrive.

    tests/pair.py                     with seeds 0 to 59
    tests/pair.py --seeds 1000 1099   with others
    tests/pair.py --program PATH      another program in place of the proved one"""
import argparse
import collections
import functools
import itertools
import pathlib
import random
import re
import subprocess
import unittest

import tree
from tree import ROOT

ENDS, SPACES = ("client", "server"), ("initial", "handshake", "data")
ESTABLISHED = [f"{it} {end}" for end in ENDS for it in ("keys", "validated", "confirmed")]
SIZE, SECOND = 1200, 10**9
STEPS, ROUNDS = 300, 60
FOREVER = 10**15  # nanoseconds: longer than any probe timeout


def given():
    """The options of this script, and the arguments that are left for unittest."""
    parser = argparse.ArgumentParser(add_help=False)
    parser.add_argument("--program", type=lambda it: pathlib.Path(it).resolve(), default=tree.built_program("recovery_link"))
    parser.add_argument("--seeds", nargs=2, type=int, default=[0, 59])
    return parser.parse_known_args()


OPTIONS, WORDS = given()
PROGRAM, SEEDS = OPTIONS.program, range(OPTIONS.seeds[0], OPTIONS.seeds[1] + 1)


class Falsified(Exception):
    """Which statement an answer contradicts."""


CHECKED = collections.Counter()  # how often each statement was checked


def holds(what, fact):
    CHECKED[what] += 1
    if not fact:
        raise Falsified(what)


def statements():
    """All statements that this file checks."""
    return re.findall(r'(?<!\.)\bholds\("([^"]+)"', pathlib.Path(__file__).read_text())


class Packet:
    def __init__(self, key, items, size, elicits):
        self.key, self.items, self.size, self.elicits, self.outcome = key, items, size, elicits, None


def is_probe(said):
    """Whether what is sent counts in flight, and no window was checked for it."""
    return "ack-only" not in said and "window" not in said


class World:
    """What the steps and answers so far say."""

    def __init__(self):
        self.wire, self.packets, self.heard, self.discarded = [], {}, {}, set()
        self.handed, self.delivered = collections.defaultdict(list), collections.defaultdict(list)
        self.came, self.went, self.validated = collections.Counter(), collections.Counter(), set()
        self.due, self.windows, self.heard_at = collections.Counter(), collections.Counter(), {}
        self.owed, self.is_late = collections.defaultdict(set), set()  # ack-eliciting numbers since the last ACK; whose ACK delay timer expired
        self.asked = None  # the endpoint and space that the last step asked for probes

    def take(self, step, answer):
        words, said = step.split(), answer.split()
        asked, self.asked = self.asked, None
        taken = {"hand": self.hand, "send": self.send, "arrive": self.arrive, "expire": self.expire, "late": self.late,
                 "discard": self.discard}
        if said[0] in ("refused", "failed"):
            holds("a step fails only for a discarded space", said[2:] == ["SpaceDiscarded"] and tuple(words[1:3]) in self.discarded)
            return
        if words[0] == "send" and asked == (words[1], words[2]):
            holds("a send right after a probe timeout is a probe, or is blocked", said == ["blocked"] or said[0] == "sent" and is_probe(said))
        if words[0] == "validated":
            self.validated.add(words[1])
        elif words[0] in taken:
            taken[words[0]](words[1:], said)

    def hand(self, words, said):
        self.handed[words[0], words[1]] += words[2:]

    def discard(self, words, said):
        self.discarded.add((words[0], words[1]))
        self.due.pop((words[0], words[1]), None)
        for packet in self.packets.values():
            if packet.key[:2] == (words[0], words[1]) and not packet.outcome:
                packet.outcome = "discarded"

    # ---- sending

    def send(self, words, said):
        end, space, now, size = words[0], words[1], int(words[2]), int(words[3])
        if said[0] in ("nothing", "full", "delayed"):
            holds("a required ACK is sent", not self.is_ack_required(end, space))
        if said[0] == "nothing":
            return self.all_kept(end, space)
        if "full" in said:
            holds("the window is full only while bytes are in flight", self.flight(end))
        if said[0] != "sent":
            return
        key = end, space, int(said[1])
        holds("a number is sent once", key not in self.packets)
        packet = Packet(key, list(itertools.takewhile(str.isdigit, said[2:])), size, "ack-only" not in said)
        packet.largest = int(said[said.index("largest") + 1]) if "largest" in said else None
        self.in_window(end, packet, said)
        self.delayed(packet, now, said)
        if packet.elicits:
            self.due[end, space] = max(0, self.due[end, space] - 1)
        self.owed[end, space] = set()
        self.is_late -= {end} if space == "data" else set()
        self.packets[key] = packet
        self.wire.append(packet)
        self.went[end] += packet.size
        if end == "server" and end not in self.validated:
            holds("threefold", self.went[end] <= 3 * self.came[end])
        if packet.items:
            holds("what is sent was passed", set(packet.items) <= set(self.handed[end, space]))
        for item in packet.items:
            self.repeated(end, space, item)

    def in_window(self, end, packet, said):
        """What counts in flight fits its window, unless it is a probe."""
        if "window" in said:
            window = int(said[said.index("window") + 1])
            holds("what counts is sent only if the window has room", self.flight(end) + packet.size <= window)
            self.windows[end] = max(window, self.windows[end])
        packet.is_probe = is_probe(said)
        if packet.is_probe:
            holds("only probes are not checked", self.due[packet.key[:2]] > 0)
        probes = sum(it.size for it in [*self.packets.values(), packet] if it.key[0] == end and it.is_probe and not it.outcome)
        flight = self.flight(end) + packet.size * packet.elicits
        holds("the flight exceeds the largest window by the probes at most", flight <= self.windows[end] + probes)

    def delayed(self, packet, now, said):
        """The ACK delay is the time since the largest number was new (RFC 9000, 13.2.5)."""
        end, space, _ = packet.key
        if (end, space) in self.heard_at:
            holds("the ACK delay", int(said[-1]) == max(0, now - self.heard_at[end, space][1]))
        received = self.heard_at.get((end, space), [None])[0]
        holds("each packet has an ACK up to the largest number received", packet.largest == received)

    def late(self, words, said):
        if said == ["done"]:
            self.is_late.add(words[0])

    def is_ack_required(self, end, space):
        """At once in Initial and Handshake, of 1-RTT packets for two or after max_ack_delay (RFC 9000, 13.2.1)."""
        return len(self.owed[end, space]) > (space == "data" and end not in self.is_late)

    def of(self, end, space):
        return [it for it in self.packets.values() if it.key[:2] == (end, space)]

    def flight(self, end):
        return sum(it.size for it in self.packets.values() if it.key[0] == end and it.elicits and not it.outcome)

    def all_kept(self, end, space):
        """An endpoint has nothing to send: each item is in a packet that was acknowledged or is outstanding."""
        kept = {item for it in self.of(end, space) if it.outcome in (None, "acked") for item in it.items}
        if self.handed[end, space]:
            holds("no item is lost", set(self.handed[end, space]) <= kept)

    def repeated(self, end, space, item):
        carriers = [it for it in self.of(end, space) if item in it.items]
        lost = sum(it.outcome == "lost" for it in carriers)
        once = self.handed[end, space].count(item)
        probes = sum(it.is_probe for it in carriers)
        if len(carriers) > once:
            holds("an item is sent again only for a loss or a probe", len(carriers) <= once + lost + probes)

    # ---- receiving

    def arrive(self, words, said):
        if said[0] == "nothing":
            return holds("a packet that was sent can arrive", int(words[0]) >= len(self.wire))
        packet = self.wire[int(words[0])]
        end, space, number, fate, *rest = said[1:]
        holds("what arrives was sent", (space, int(number)) == packet.key[1:] and end != packet.key[0])
        self.came[end] += packet.size
        key = end, space, int(number)
        if fate == "dropped":
            holds("dropped only without keys", (end, space) in self.discarded and rest[-1] == "SpaceDiscarded")
        elif fate == "duplicate":
            holds("a duplicate", key in self.heard or int(number) + 129 <= max(it[2] for it in self.heard if it[:2] == key[:2]))
        else:
            holds("new once", key not in self.heard)
            self.owed[key[:2]] |= {key[2]} if packet.elicits else set()
            self.new(key, packet, int(words[1]), rest)

    def new(self, key, packet, now, rest):
        end, space, _ = key
        ends = [at for at, word in enumerate(rest) if word in ("acked", "ack")] or [len(rest)]
        items, ack = rest[:ends[0]], rest[ends[0]:]
        holds("the items are those that were sent", items == packet.items)
        self.heard[key] = items
        self.heard_at[end, space] = max(self.heard_at.get((end, space), (-1, 0)), (key[2], now))
        self.delivered[packet.key[0], space] += items
        holds("an ACK arrives if one was sent, and only then", bool(ack) == (packet.largest is not None))
        if ack:
            holds("no ACK is rejected", ack[0] == "acked")
            self.acknowledged(end, space, ack, packet.largest)

    def acknowledged(self, end, space, ack, largest):
        named = ack.index("lost") if "lost" in ack else len(ack)
        top = self.packets.get((end, space, largest))
        in_flight = top and top.elicits and top.outcome is None
        holds("the largest number of an ACK is newly acknowledged if it is in flight", not in_flight or str(largest) in ack[1:named])
        other = "server" if end == "client" else "client"
        for number in map(int, ack[1:named]):
            packet = self.packets.get((end, space, number))
            holds("what is acknowledged is outstanding", packet and packet.outcome is None)
            holds("what is acknowledged was delivered", self.heard.get((other, space, number)) == packet.items)
            packet.outcome = "acked"
            if packet.largest is not None:  # these are reported no more (RFC 9000, 13.2.4)
                self.owed[end, space] = {it for it in self.owed[end, space] if it > packet.largest}
        self.lost(end, space, ack[named + 1:])

    def lost(self, end, space, words):
        for number in itertools.takewhile(str.isdigit, words):
            packet = self.packets.get((end, space, int(number)))
            holds("what is lost is outstanding", packet and packet.outcome is None)
            packet.outcome = "lost"

    def expire(self, words, said):
        if said[0] == "probe":
            self.due[words[0], said[1]] = int(said[2])
            self.asked = words[0], said[1]
        elif said[0] == "lost":
            self.lost(words[0], said[1], said[2:])


def stepped(world, line, answer):
    try:
        world.take(line, answer)
    except Falsified as why:
        raise Falsified(f"{why}: {line!r} was answered {answer!r}") from None


class Run:
    """A program that answers step by step."""

    def __init__(self, words=()):
        pipes = {"stdin": subprocess.PIPE, "stdout": subprocess.PIPE, "text": True, "bufsize": 1}
        self.world, self.lines, self.now = World(), [], 0
        self.process = subprocess.Popen([PROGRAM, "schedule=/dev/stdin", *words], **pipes)

    def step(self, line):
        self.lines.append(line)
        self.process.stdin.write(f"{line}\n")
        answer = self.process.stdout.readline().rstrip("\n")
        holds(f"an answer to {line!r}", answer)
        stepped(self.world, line, answer)
        return answer

    def end(self):
        self.process.stdin.close()
        self.process.stdout.close()
        return self.process.wait()


def adversary(run, spaces, draw, count):
    """Steps as they come: a packet that none names was dropped."""
    for item in range(count):
        run.now += draw.choice((0, 0, 0, 10**5, 10**6, 10**7, draw.randrange(2 * SECOND)))
        end, space, kind = draw.choice(ENDS), draw.choice(spaces), draw.random()
        wire = len(run.world.wire)
        if kind < 0.2:
            run.step(f"hand {end} {space} {item}" + (f" {item + STEPS}" if draw.random() < 0.2 else ""))
        elif kind < 0.5:
            run.step(f"send {end} {space} {run.now} {draw.choice((SIZE, SIZE, 300))}")
        elif kind < 0.85 and wire:
            run.step(f"arrive {draw.choice((wire - 1, draw.randrange(wire), max(0, wire - 3)))} {run.now}")
        elif kind < 0.95:
            run.step(f"expire {end} {run.now}")
        elif kind < 0.999 or len(spaces) == 1:
            run.step(f"late {end} {run.now}")
        else:
            run.step(f"discard {end} {draw.choice(spaces[:-1])} {run.now}")


def delivered(run):
    return all(set(items) <= set(run.world.delivered[at]) for at, items in run.world.handed.items())


def deliver(run):
    """The network delivers: all items arrive."""
    for _ in range(ROUNDS):
        if delivered(run):
            break
        before = len(run.world.wire)
        for end in ENDS:
            for _ in range(40):
                if not run.step(f"send {end} data {run.now} {SIZE}").startswith("sent"):
                    break
        run.now += 10**7
        for place in range(before, len(run.world.wire)):
            run.step(f"arrive {place} {run.now}")
        for end in ENDS:
            run.step(f"late {end} {run.now + SECOND}")
        run.now += 4 * SECOND
        for end in ENDS:
            run.step(f"expire {end} {run.now}")
    holds("all items arrive at last", delivered(run))


def waiting(run):
    """Nothing arrives any more: an endpoint with bytes in flight has its timer set (RFC 9002, 6.2)."""
    for end in ENDS:
        if run.world.flight(end):
            holds("an endpoint with bytes in flight is not stuck", run.step(f"expire {end} {run.now + FOREVER}").split()[0] in ("lost", "probe"))


@functools.lru_cache(maxsize=None)
def played(seed):
    """The status of a random run from this seed, and which statement failed, if one did."""
    draw = random.Random(seed)
    run, spaces = Run(draw.choice(([], ["controller=cubic"]))), draw.choice((SPACES, ("data",), ("data",)))
    try:
        for line in ESTABLISHED if spaces == ("data",) else []:
            run.step(line)
        adversary(run, spaces, draw, STEPS)
        if spaces == ("data",):
            deliver(run)
            waiting(run)
        return run.end(), None
    except Falsified as why:
        run.process.kill()
        run.end()
        return None, f"{why}\n" + "\n".join(run.lines)


MOVES = ["hand client data 1", "hand server data 2", "send client data {} 1200", "send server data {} 1200", "arrive 0 {}", "arrive 1 {}",
         "expire client {}", "late server {}"]
ALL_MOVES = list(itertools.product(MOVES, repeat=4))


def answered(schedule, *words):
    """What the program does with a schedule on its standard input."""
    return tree.ran([PROGRAM, "schedule=/dev/stdin", *words], schedule, text=True)


@functools.lru_cache(maxsize=None)
def short(moves):
    """All that happens in a few steps, each three seconds after the one before: which statement failed, if one did."""
    lines = [*ESTABLISHED, *(it.format(3 * SECOND * at) for at, it in enumerate(moves))]
    status, answers, errors = answered("\n".join(lines))
    world = World()
    try:
        holds(f"status 0 and an answer for each step: {errors}", status == 0 and len(answers.splitlines()) == len(lines))
        for line, answer in zip(lines, answers.splitlines()):
            stepped(world, line, answer)
    except Falsified as why:
        return f"{why}\n" + "\n".join(lines)


BAD = {  # a schedule, and the error about its line that cannot be read
    "hand client data\nsend client data 1200": "line 2: words are missing behind the last one",
    "# a comment\n\nlose 3": 'line 3: cannot read word 1, "lose"',
    "arrive 0": "line 1: words are missing behind the last one",
    "send client data 0 1200 9": 'line 1: cannot read word 6, "9"',
    "expire nobody 0": 'line 1: cannot read word 2, "nobody"',
}


class Runs(tree.TestCase):
    @tree.each(SEEDS)
    def test_seed(self, seed):
        status, why = played(seed)
        self.assertEqual(status, 0, why)

    @tree.each(ALL_MOVES, "{0}, {1}, {2}, {3}")
    def test_moves(self, *moves):
        if why := short(moves):
            self.fail(why)


@unittest.skipIf(len(SEEDS) < 60, "few seeds need not check every statement")
class Statements(tree.TestCase):
    @classmethod
    def setUpClass(cls):
        for run, given in [*((played, it) for it in SEEDS), *((short, it) for it in ALL_MOVES)]:
            run(given)

    @tree.each(statements())
    def test_checked(self, what):
        self.assertGreater(CHECKED[what], 0)


class Schedules(tree.TestCase):
    @tree.each((it.name, it) for it in sorted((ROOT / "tests" / "schedules").glob("*.txt")))
    def test_row(self, _, file):
        """Steps and their answers, worked out by the RFCs as the comments of the file say."""
        steps, answers = zip(*(it.split(" => ") for it in file.read_text().splitlines() if not it.startswith("#")))
        schedule = "\n".join(steps)
        self.assertAnswers(schedule, answered(schedule), (0, "".join(f"{it}\n" for it in answers), ""))

    def test_example(self):
        """The example, by RFC 9002 as its comments say."""
        schedule, answers = (ROOT / "examples" / f"lost-flight.{it}" for it in ("schedule", "out"))
        found = tree.ran([PROGRAM, f"schedule={schedule}"], "", text=True)
        self.assertAnswers(schedule.read_text(), found, (0, answers.read_text(), ""))

    @tree.each(BAD.items(), "{0!r}")
    def test_bad(self, lines, error):
        status, _, errors = answered(lines)
        self.assertEqual((status, errors), (2, f"{error}\n"))

    def test_another_argument(self):
        error = 'link: cannot read "rate=1M": with a schedule there is only controller=, as in controller=cubic\n'
        self.assertEqual(answered("", "rate=1M"), (2, "", error))

    def test_no_such_file(self):
        found = tree.ran([PROGRAM, f"schedule={ROOT / 'examples' / 'no.schedule'}"], "", text=True)
        self.assertEqual(found, (1, "", "link: read failed\n"))


if __name__ == "__main__":
    tree.main("pair", WORDS)
