#!/usr/bin/env python3
"""Tests that handshakes end. In each run two endpoints of recovery-link first meet a hostile network: it drops, duplicates, reorders and delays
datagrams, and timers are offered late. Then the network delivers all within one delay and in order, and callers ask each space after each step. The
handshake has to be confirmed at both endpoints, and all items have to be delivered. A seed determines a run.

    tests/progress.py                    with seeds 0 to 299
    tests/progress.py --runs 10000       with seeds 0 to 9999
    tests/progress.py --from 300         with seeds from 300 on
    tests/progress.py --show SEED        prints the steps of a run with their answers
    tests/progress.py --program PATH     another program in place of the proved one"""
import argparse
import collections
import functools
import heapq
import pathlib
import random
import subprocess
import sys
import unittest

import tree

ENDS, SPACES = ("client", "server"), ("initial", "handshake", "data")
MS, SECOND = 10**6, 10**9
START = SECOND
DATAGRAM, SMALL = 1200, 60  # bytes: of what carries items, and of an ACK or a PING
ACK_DELAY = 25 * MS
FEW = 100  # runs for which not each kind of answer has to occur
LONGEST = 2**50  # nanoseconds: longer than any probe timeout
WAKE_UPS = 10_000  # after which a run counts as one that never ends; those that end take a few hundred
BURST = 400  # datagrams that a caller sends at most at a time
# items: the Hellos, the client's and the server's Handshake flight, HANDSHAKE_DONE, and the first of data
CLIENT_HELLO, SERVER_HELLO, CLIENT_FLIGHT, SERVER_FLIGHT, HANDSHAKE_DONE, DATA = 1, 2, 10, 20, 40, 100
SEEN = collections.Counter()  # how often each kind of answer occurred


def given():
    """The options of this script, and the arguments that are left for unittest."""
    parser = argparse.ArgumentParser(add_help=False)
    parser.add_argument("--program", type=lambda it: pathlib.Path(it).resolve(), default=tree.built_program("recovery_link"))
    parser.add_argument("--runs", type=int, default=300)
    parser.add_argument("--from", type=int, default=0, dest="first")
    parser.add_argument("--show", type=int)
    return parser.parse_known_args()


OPTIONS, WORDS = given()
SEEDS = range(OPTIONS.first, OPTIONS.first + OPTIONS.runs)


class Datagram:
    def __init__(self, place, sender, space, number, items, is_early):
        self.place, self.sender, self.space, self.number, self.items, self.is_early = place, sender, space, number, items, is_early


class Caller:
    """What the stack of an endpoint knows."""

    def __init__(self, end):
        self.end, self.is_client = end, end == "client"
        self.has_keys = self.has_data_keys = self.is_confirmed = self.is_validated = False
        self.gone, self.delivered, self.passed = set(), set(), []  # discarded spaces; items by space
        self.late = None  # when its ACK delay timer may be due

    def peer_lacks(self, peer, space):
        """Whether an item of a space was passed and not delivered."""
        return any(key not in peer.delivered for key in self.passed if key[0] == space)


class Run:
    """Two endpoints, played by the program, and their callers."""

    def __init__(self, seed):
        self.draw = random.Random(seed)
        window = self.draw.choice(("newreno", "newreno", 2400, 3600, 4800, 12000))
        self.has_early_data, self.item = self.draw.random() < 0.5, DATA
        self.client_flight, self.server_flight = self.draw.choice((1, 1, 2, 3)), self.draw.choice((1, 2, 4, 8))
        self.words = ["schedule=/dev/stdin", f"controller={window}"]
        self.process = subprocess.Popen([OPTIONS.program, *self.words], stdin=subprocess.PIPE, stdout=subprocess.PIPE)
        self.now, self.wire, self.log = START, [], []
        self.callers = {end: Caller(end) for end in ENDS}
        self.hand("client", "initial", CLIENT_HELLO)

    def step(self, line):
        self.process.stdin.write(f"{line}\n".encode())
        self.process.stdin.flush()
        answer = self.process.stdout.readline().decode().rstrip("\n")
        self.log.append(f"{line} => {answer}")
        if not answer:
            raise ChildProcessError(f"no answer to {line!r}")
        return answer

    def end(self):
        self.process.stdin.close()
        self.process.stdout.close()
        return self.process.wait()

    def peer(self, end):
        return self.callers[ENDS[end == "client"]]

    # ---- what the callers do

    def hand(self, end, space, item):
        self.callers[end].passed.append((space, item))
        self.step(f"hand {end} {space} {item}")

    def hand_data(self, end):
        self.hand(end, "data", self.item)
        self.item += 1

    def may_send(self, caller, space):
        """Whether the endpoint has the keys of a space to send."""
        early = self.has_early_data if caller.is_client else caller.has_keys
        has = {"initial": caller.is_client or caller.delivered, "handshake": caller.has_keys, "data": caller.has_data_keys or early}
        return has[space] and space not in caller.gone

    def may_read(self, caller, datagram):
        """Whether the endpoint has the keys of a datagram. A server reads 1-RTT packets once the handshake is complete, and 0-RTT ones before."""
        if datagram.space == "data":
            return caller.has_data_keys or (not caller.is_client and datagram.is_early and caller.has_keys)
        return datagram.space == "initial" or caller.has_keys

    def send(self, end, space):
        """The datagram that is sent in a space, if one is."""
        caller = self.callers[end]
        if not self.may_send(caller, space):
            return None, ""
        is_large = caller.is_client and space == "initial"  # RFC 9000, 14.1
        size = DATAGRAM if is_large or caller.peer_lacks(self.peer(end), space) else SMALL
        answer = self.step(f"send {end} {space} {self.now} {size}")
        said = answer.split()
        self.count(caller, space, said)
        if said[0] != "sent":
            return None, answer
        items = [int(it) for it in said[2:] if it.isdigit()][: next((at for at, it in enumerate(said[2:]) if not it.isdigit()), 0)]
        datagram = Datagram(len(self.wire), end, space, int(said[1]), items, not caller.has_data_keys)
        self.wire.append(datagram)
        if space == "data":
            caller.late = None
        if caller.is_client and space == "handshake":
            self.discard(caller, "initial")  # RFC 9001, 4.9.1
        return datagram, answer

    def count(self, caller, space, said):
        if said[0] == "full" and space != "data" and not caller.is_confirmed:
            SEEN["a handshake space waits for room"] += 1
        if said[0] == "blocked":
            SEEN["the amplification limit blocks"] += 1
        if said[0] == "delayed":
            SEEN["the pacer delays"] += 1

    def discard(self, caller, space):
        if space not in caller.gone:
            caller.gone.add(space)
            self.step(f"discard {caller.end} {space} {self.now}")

    def arrive(self, datagram):
        """A copy of a datagram is received; without its keys it is dropped."""
        caller = self.peer(datagram.sender)
        if not self.may_read(caller, datagram):
            SEEN["a datagram is received before its keys"] += 1
            return
        said = self.step(f"arrive {datagram.place} {self.now}").split()
        if "new" not in said:
            return
        if datagram.space == "data" and caller.late is None:
            caller.late = self.now + ACK_DELAY
        if datagram.space == "handshake" and not caller.is_client and not caller.is_validated:
            caller.is_validated = True
            self.step("validated server")
            self.discard(caller, "initial")
        for item in datagram.items:
            if (datagram.space, item) not in caller.delivered:
                caller.delivered.add((datagram.space, item))
                self.advance(caller)

    def advance(self, caller):
        """The handshake goes on after a delivery, as in RFC 8446 and RFC 9001."""
        if caller.is_client:
            self.advance_client(caller)
        else:
            self.advance_server(caller)

    def advance_client(self, client):
        if ("initial", SERVER_HELLO) in client.delivered and not client.has_keys:
            client.has_keys = True
            self.step("keys client")
        flight = {("handshake", SERVER_FLIGHT + it) for it in range(self.server_flight)}
        if client.has_keys and flight <= client.delivered and not client.has_data_keys:
            client.has_data_keys = True
            for it in range(self.client_flight):
                self.hand("client", "handshake", CLIENT_FLIGHT + it)
        if ("data", HANDSHAKE_DONE) in client.delivered and not client.is_confirmed:
            self.confirm(client)

    def advance_server(self, server):
        if ("initial", CLIENT_HELLO) in server.delivered and not server.has_keys:
            server.has_keys = True
            self.step("keys server")
            self.hand("server", "initial", SERVER_HELLO)
            for it in range(self.server_flight):
                self.hand("server", "handshake", SERVER_FLIGHT + it)
        flight = {("handshake", CLIENT_FLIGHT + it) for it in range(self.client_flight)}
        if flight <= server.delivered and not server.is_confirmed:
            server.has_data_keys = True
            self.hand("server", "data", HANDSHAKE_DONE)
            self.confirm(server)

    def confirm(self, caller):
        caller.is_confirmed = True
        self.step(f"confirmed {caller.end}")
        self.discard(caller, "handshake")

    def expire(self, end):
        said = self.step(f"expire {end} {self.now}").split()
        if said[0] == "probe":
            SEEN[f"probes of {said[1]} are due"] += 1
        return said[0] != "nothing"

    def end_delay(self, end):
        self.callers[end].late = None
        return self.step(f"late {end} {self.now}") == "done"

    def is_over(self):
        callers = self.callers.values()
        arrived = (key in self.peer(it.end).delivered for it in callers for key in it.passed if key[0] == "data")
        return all(it.is_confirmed for it in callers) and all(arrived)


class Prefix:
    """A hostile network, and callers that are late."""

    def __init__(self, run):
        self.run, draw = run, run.draw
        self.loss, self.twice = draw.choice((0, 0.5, 0.9, 1)), draw.choice((0, 0.3))
        self.back, self.has_dark = draw.choice((0.3, 3, 40)), draw.random() < 0.5
        self.dark = dict.fromkeys(ENDS, 0)  # for how many steps nothing of an endpoint arrives
        self.steps = draw.choice((0, 20, 60, 150, 300))

    def play(self):
        for _ in range(self.steps):
            self.step()

    def step(self):
        run, draw = self.run, self.run.draw
        end, kind = draw.choice(ENDS), draw.random()
        if self.has_dark and draw.random() < 0.01:
            self.dark[draw.choice(ENDS)] = draw.randrange(20, 120)
        self.dark = {it: max(0, left - 1) for it, left in self.dark.items()}
        if kind < 0.10:
            run.hand_data(end)
        elif kind < 0.40:
            for space in SPACES if draw.random() < 0.5 else [draw.choice(SPACES)]:
                run.send(end, space)
        elif kind < 0.70:
            self.arrive(end)
        elif kind < 0.82:
            run.now += draw.choice((0, draw.randrange(10 * MS), draw.randrange(10 * MS), int(MS * 10 ** draw.uniform(0, 3.5))))
        elif kind < 0.93:
            run.expire(end)
        else:
            run.end_delay(end)

    def arrive(self, end):
        """A recent datagram of an endpoint arrives, or is lost."""
        draw = self.run.draw
        sent = [it for it in self.run.wire if it.sender == end]
        if not sent or self.dark[end] or draw.random() < self.loss:
            return
        datagram = sent[-1 - min(len(sent) - 1, int(draw.expovariate(1) * self.back))]
        for _ in range(2 if draw.random() < self.twice else 1):
            self.run.arrive(datagram)


class Network:
    """A network that delivers all within one delay and in order, and prompt callers. What happened before is lost."""

    def __init__(self, run):
        self.run, self.delay = run, run.draw.choice((MS, 20 * MS, 100 * MS))
        self.queue = []  # when a datagram arrives, and its place
        self.paced = dict.fromkeys(ENDS)  # until when the pacer delays
        self.wait = MS  # when timers are offered next, if nothing else happens: they cannot be read

    def send_all(self, end):
        """All that an endpoint has, each space after each datagram. Whether it sent any."""
        run, sent = self.run, 0
        self.paced[end] = None
        for space in SPACES:
            while sent < BURST:
                datagram, answer = run.send(end, space)
                if answer.startswith("delayed"):
                    self.paced[end] = int(answer.split()[1])
                if datagram is None:
                    break
                sent += 1
                heapq.heappush(self.queue, (run.now + self.delay, datagram.place))
        return sent > 0

    def next_time(self):
        run = self.run
        times = [run.now + self.wait, *(it[0] for it in self.queue[:1])]
        times += [it.late for it in run.callers.values() if it.late is not None]
        times += [it for it in self.paced.values() if it is not None]
        return max(run.now, min(times))

    def wake_up(self):
        """Time passes until something may happen. Whether anything did."""
        run, before = self.run, self.run.now
        run.now = self.next_time()
        acts = False
        while self.queue and self.queue[0][0] <= run.now:
            run.arrive(run.wire[heapq.heappop(self.queue)[1]])
            acts = True
        for end, caller in run.callers.items():
            acts |= run.expire(end)
            if caller.late is not None and caller.late <= run.now:
                acts |= run.end_delay(end)
            acts |= self.send_all(end)
        self.wait = MS if acts or run.now == before else 2 * self.wait
        return acts

    def play(self):
        """How many wake-ups it takes until all is delivered; none if it never ends."""
        for end in ENDS:
            self.send_all(end)
        for count in range(WAKE_UPS):
            if self.run.is_over():
                return count
            self.wake_up()
            if self.wait > LONGEST:
                break
        return None


@functools.lru_cache(maxsize=None)
def played(seed):
    """The wake-ups of a run on the good network, none if it never ends; its status, and its log if it is to be shown."""
    run = Run(seed)
    try:
        Prefix(run).play()
        run.log.append("# from here on the network delivers")
        count = Network(run).play()
        return count, run.end(), run.log if count is None or OPTIONS.show is not None else []
    finally:
        run.process.kill()


class Runs(tree.TestCase):
    @tree.each(SEEDS)
    def test_seed(self, seed):
        count, status, log = played(seed)
        self.assertIsNotNone(count, "the handshake never ends:\n" + "\n".join(log[:400]))
        self.assertEqual(status, 0)


@unittest.skipIf(len(SEEDS) < FEW, "few seeds need not reach each kind of answer")
class Reached(tree.TestCase):
    @classmethod
    def setUpClass(cls):
        for seed in SEEDS:
            played(seed)

    @tree.each(["a handshake space waits for room", "the amplification limit blocks", "the pacer delays", "a datagram is received before its keys",
                *(f"probes of {space} are due" for space in SPACES)])
    def test_answer(self, what):
        self.assertGreater(SEEN[what], 0)


if __name__ == "__main__":
    if OPTIONS.show is not None:
        print("\n".join(played(OPTIONS.show)[2]))
        sys.exit()
    tree.main("progress", WORDS)
