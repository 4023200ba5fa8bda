#!/usr/bin/env python3
"""Tests recovery-link as a process. Its figures are compared with the known formulas of both controllers, and both endpoints acknowledge what
arrives. A run, its script through recovery-sender, its qlog, and its events through recovery-trace agree. Arguments that it cannot read get an
error that names them.

`--link PATH`, `--sender PATH` and `--trace PATH` test other programs in place of the proved ones."""
import functools
import json
import math
import os
import re
import tempfile

import tree
from tree import ROOT

LINK, SENDER, TRACE = (tree.built_program(it) for it in ("recovery_link", "recovery_sender_program", "recovery_trace"))
BAD = {  # arguments that cannot be read, by their error: beyond a limit, of another form, with an unknown name
    "1 to 1000G bits a second, as in rate=10M": ["rate=0", "rate=1001G", "rate=10m", "rate=", "rate=99999999999999999999G", "rate=0.5", "rate=1.0005k"],
    "0 to 1000s in ns, us, ms or s, as in delay=12.5ms": ["delay=1001s", "delay=-1", "late=x", "ack-delay=5min", "delay=.5s", "delay=1.s", "every=0x1"],
    "1200 to 1000G bytes, as in queue=62.5k": ["queue=1199"],
    "40 to 1200 bytes, as in size=600": ["size=39", "size=1201"],
    "the rate from a time on, in order of time, as in rate@2s=1M": ["rate@2s=0", "rate@=1M", "rate@2m=1M", "rate@1001s=1M"],
    "the delay from a time on, in order of time, as in delay@2s=50ms": ["delay@2s=", "delay@-1s=1ms"],
    "only rate and delay change, as in rate@2s=1M": ["queue@2s=10k", "@2s=1"],
    "0 to 1000000 of a million, or 0% to 100%, as in loss=0.5%": ["loss=101%", "loss=1000001", "loss=0.00001%", "reorder=101%", "ack-loss=-1", "loss=5x%"],
    "0 to 1M packets, as in burst=4": ["burst=1000001"],
    "1 to 1000G bytes, as in bytes=1.5M": ["bytes=0"],
    "newreno, cubic, or a window in bytes, as in controller=cubic": ["controller=reno", "controller=0", "rival=x"],
    "yes or no, as in paced=no": ["paced=1"],
    "tail or codel, as in aqm=codel": ["aqm=red"],
    "1 to 64, as in flows=2": ["flows=65"],
    "0 to 18446744073709551615, as in seed=7": ["seed=18446744073709551616"],
    "1 to 1000s in ns, us, ms or s, as in until=2.5s": ["until=0"],
    "there is no such name; --help has all": ["speed=1", "ack-rate=1"],
    "an argument is NAME=VALUE, --script or --qlog, as in loss=0.5%; --help has the names": ["rate", "--events", "01"],
}
RUNS = [
    "bytes=600k loss=3% reorder=1%",
    "bytes=600k controller=cubic loss=2% burst=3 delay=100ms ack-delay=0",
    "bytes=600k paced=no queue=24k",
    "bytes=120k loss=30% seed=5",
    "bytes=300k controller=60000 rate=1G delay=1 queue=30k",
    "bytes=600k ack-loss=20% ack-burst=2 ack-reorder=5% ack-duplicate=5% duplicate=5% loss=1%",
    "bytes=1M aqm=codel ecn=yes queue=1M controller=cubic",
    "bytes=300k flows=3 rival=cubic chunk=12k every=20ms",
    "bytes=300k size=500 rate@100ms=2M delay@200ms=60ms delay@400ms=10ms",
]
PACKET = 9_600  # bits
LOSSY = {1: 5000, 5: 2000}  # the number of packets for each percentage of losses


def ran(program, words, given=""):
    return tree.ran([program, *words], given, text=True)


def read(line):
    return {name: int(number) for name, _, number in (it.partition("=") for it in line.split())}


def counted(script, answers):
    """The figures of a run, by what the sender answered to its calls."""
    words = [it.rpartition(" timer ")[0].split() for it in answers.splitlines()]
    behind = lambda word: sum(len(re.match(r"[ 0-9]*", f"{' '.join(it)} ".partition(f"{word} ")[2])[0].split()) for it in words if word in it)
    calls = [it.split() for it in script.splitlines()]
    moments = [int(it[1 if it[0] == "timeout" else 2]) for it in calls if it[0] in ("ack", "timeout", "send")]
    return {
        "time": max(moments), "sent": sum(it[:1] == ["sent"] for it in words), "acked": behind("acked"), "lost": behind("lost"),
        "probes": sum(int(it[2]) for it in words if it[0] == "probe"), "persistent": sum("persistent" in it for it in words),
    }


def events_of(script, answers):
    with tempfile.TemporaryDirectory() as folder:
        names = [os.path.join(folder, it) for it in ("script", "answers")]
        for name, text in zip(names, (script, answers)):
            with open(name, "w") as file:
                file.write(text)
        return ran(ROOT / "tools" / "calls2events", names)


class Run:
    """A run, its script through the sender, its events through the trace, and its qlog."""

    def __init__(self, words):
        window = [it.partition("=")[2] for it in words if it.startswith("controller=")]
        self.plain, self.scripted = ran(LINK, words), ran(LINK, ["--script", *words])
        self.script, self.line = self.scripted[1:]
        self.replayed = ran(SENDER, ["client", "-", *window] if window else ["client"], self.script)
        self.events = events_of(self.script, self.replayed[1])
        how = ["--controller", "cubic"] if window == ["cubic"] else ["-", *window] if window else []
        self.traced = ran(TRACE, ["--state", "--strict", *how], self.events[1])
        self.states = [json.loads(it) for it in self.traced[1].splitlines() if it.startswith("{")]
        self.records = [json.loads(it) for it in ran(LINK, ["--qlog", *words])[1].split("\x1e")[1:]]
        metrics = [it["data"] for it in self.records if it.get("name") == "recovery:metrics_updated"]
        self.metrics = [it for it in metrics if "congestion_window" in it]


@functools.lru_cache(maxsize=None)
def run(title):
    return Run(title.split())


def mathis(loss, rtt):
    """NewReno's rate in bits a second, at this loss rate and this round-trip time in seconds (Mathis and others, 1997)."""
    return PACKET * math.sqrt(3 / 2) / (rtt * math.sqrt(loss))


def cubic(loss, rtt):
    """CUBIC's rate: the larger of its own (RFC 9438, 5.1) and that of its Reno-friendly region, which is Reno's (4.3)."""
    constant, beta = 0.4, 0.7
    own = (constant * (3 + beta) / (4 * (1 - beta))) ** 0.25 * rtt ** 0.75 / loss ** 0.75
    return max(own * PACKET / rtt, mathis(loss, rtt))


FORMULAS = {"newreno": mathis, "cubic": cubic}
ROUND_TRIPS = [(name, rtt) for name in FORMULAS for rtt in (20, 200)]  # in milliseconds


class Link(tree.TestCase):
    def flows(self, *words):
        """The figures of each flow."""
        status, lines, errors = ran(LINK, words)
        self.assertEqual((status, errors), (0, ""), words)
        return [read(it) for it in lines.splitlines()]

    def figures(self, *words):
        found = self.flows(*words)
        self.assertEqual(len(found), 1, words)
        return found[0]


class Arguments(Link):
    @tree.each(((word, hint) for hint, words in BAD.items() for word in words))
    def test_bad(self, word, hint):
        self.assertEqual(ran(LINK, ["seed=1", word]), (2, "", f'link: cannot read "{word}": {hint}\n'))

    def test_last_of_two_values(self):
        self.assertEqual(self.figures("bytes=12k", "bytes=1200")["sent"], 1)

    def test_units(self):
        self.assertEqual(self.figures("rate=10000k", "delay=25000us", "loss=0%", "bytes=1M"), self.figures("rate=10M", "delay=25000000", "loss=0"))

    @tree.each([("loss=0.5%", "loss=5000"), ("rate=1.5M", "rate=1500k"), ("delay=2.5ms", "delay=2500us"), ("queue=62.5k", "queue=62500")])
    def test_fraction(self, word, same):
        self.assertEqual(self.figures("bytes=100k", "seed=3", word), self.figures("bytes=100k", "seed=3", same))

    def test_seed(self):
        self.assertNotEqual(self.figures("loss=5%", "seed=1"), self.figures("loss=5%", "seed=2"))

    def test_changes_out_of_order(self):
        error = 'link: cannot read "rate@1s=2M": the rate from a time on, in order of time, as in rate@2s=1M\n'
        self.assertEqual(ran(LINK, ["rate@2s=1M", "delay@1s=0", "rate@1s=2M"]), (2, "", error))

    def test_until(self):
        self.assertEqual(self.figures("loss=100%", "until=5s")["acked"], 0)

    def test_help(self):
        self.assertEqual(ran(LINK, ["--help"]), (0, (ROOT / "crates" / "recovery_link" / "help.txt").read_text(), ""))

    def test_version(self):
        self.assertEqual(ran(LINK, ["--version"]), (0, f"recovery-link {(ROOT / 'VERSION').read_text()}", ""))


class ByHand(Link):
    """Figures that are worked out: 1200 bytes take 960 us at 10 Mbit/s, and a lone packet is acknowledged after the ACK delay, here 25 ms."""

    def test_one_packet(self):
        self.assertEqual(self.figures("bytes=1200")["time"], 960_000 + 25_000_000 + 25_000_000 + 25_000_000)

    def test_two_packets_of_which_the_second_is_acknowledged_at_once(self):
        self.assertEqual(self.figures("bytes=2400")["time"], 2 * 960_000 + 50_000_000)

    def test_part_of_a_nanosecond_is_a_whole_one(self):
        self.assertEqual(self.figures("bytes=1200", "rate=7G", "ack-delay=0", "delay=0")["time"], 1372)

    def test_wait_of_two(self):
        self.assertEqual(self.figures("bytes=2400")["wait"], (960_000 + 1_920_000) // 2)

    def test_ten_chunks_100_ms_apart(self):
        chunks = self.figures("bytes=120k", "chunk=12k", "every=100ms", "ack-delay=0")
        self.assertTrue(900e6 + 50e6 < chunks["time"] < 900e6 + 70e6, chunks)

    def test_flow_that_begins_later(self):
        self.assertEqual([it["time"] for it in self.flows("bytes=2400", "flows=2", "stagger=1s")], [51_920_000] * 2)


class Changing(Link):
    """A link that changes: a packet is sent at the rate, and takes the delay, that hold when its first bit is sent and when it leaves."""

    @tree.each([
        ("another rate from the start", "rate@0=1M", 9_600_000 + 50_000_000),
        ("another rate after the only packet", "rate@1ns=1M", 960_000 + 50_000_000),
        ("another delay there and back", "delay@960us=5ms", 960_000 + 10_000_000),
        ("another delay back", "delay@10ms=5ms", 960_000 + 30_000_000),
    ])
    def test_one_packet(self, _, change, time):
        self.assertEqual(self.figures("bytes=1200", "ack-delay=0", change)["time"], time)

    def test_two_packets_of_which_the_second_has_another_rate(self):
        self.assertEqual(self.figures("bytes=2400", "ack-delay=0", "rate@960us=1M")["time"], 10_560_000 + 50_000_000)

    def test_a_tenth_of_the_rate_after_two_seconds(self):
        slow = self.figures("bytes=6M", "rate@2s=1M")
        self.assertTrue(28e9 < slow["time"] - 2e9 < 33e9, slow)


class Sizes(Link):
    @tree.each([(600, 3), (1199, 2), (40, 45)])
    def test_packets(self, size, packets):
        """Packets of another size: as many as carry the bytes, the last one filled up."""
        found = self.figures("bytes=1800", f"size={size}", "ack-delay=0")
        self.assertEqual((found["sent"], found["acked"]), (packets, packets))

    def test_time(self):
        self.assertEqual(self.figures("bytes=600", "size=600", "ack-delay=0")["time"], 480_000 + 50_000_000)


class BothWays(Link):
    """What happens to ACKs, to late packets and to duplicates, over a queue that never overflows."""

    LINK = "bytes=1M", "queue=1M", "seed=4"

    def test_nothing_happens(self):
        plain = self.figures(*self.LINK)
        self.assertEqual([plain[it] for it in ("dropped", "lost", "acks-lost", "sent")], [0, 0, 0, 834])

    def test_all_acks_are_lost(self):
        self.assertEqual(self.figures("ack-loss=100%", "until=5s")["acked"], 0)

    def test_some_acks_are_lost_and_no_packet(self):
        some = self.figures(*self.LINK, "ack-loss=30%")
        self.assertTrue(some["acks-lost"] > 50 and some["lost"] == 0, some)

    def test_each_packet_and_each_ack_twice(self):
        self.assertEqual(self.figures(*self.LINK, "duplicate=100%", "ack-duplicate=100%"), self.figures(*self.LINK))

    def test_late_acks_lose_nothing(self):
        self.assertEqual(self.figures(*self.LINK, "ack-reorder=10%", "late=20ms")["lost"], 0)

    def test_packets_after_later_ones_are_declared_lost(self):
        late = self.figures(*self.LINK, "reorder=10%", "late=40ms")
        self.assertTrue(late["lost"] > 0 and late["dropped"] == 0, late)


class BothEnds(Link):
    """Both endpoints acknowledge: a packet carries the largest number of an ACK."""

    def setUp(self):
        calls = [it.split() for it in ran(LINK, ["--script", "bytes=120k", "ack-duplicate=100%"])[1].splitlines()]
        self.carried = [it[5] for it in calls if it[0] == "send"]
        self.heard = [(int(one[3]), other) for one, other in zip(calls, calls[1:]) if one[0] == "received"]
        self.acks = {number: tuple(map(int, ack[5:7])) for number, ack in self.heard if ack[0] == "ack"}

    def test_copies_of_acks(self):
        """A copy of an ACK is not read, and the copy of the last ACK arrives after the end."""
        self.assertEqual((sorted(self.acks), len(self.heard)), (list(range(len(self.acks))), 2 * len(self.acks) - 1))

    def test_what_an_ack_begins_with(self):
        """If nothing is lost, the ACK of that packet has the numbers that the earlier ACK did not have (RFC 9000, 13.2.4)."""
        known = [self.carried[last] for _, last in self.acks.values()]
        self.assertEqual([low for low, _ in self.acks.values()], [0 if it == "-" else self.acks[int(it)][1] + 1 for it in known])

    def test_most_acks_begin_above_0(self):
        self.assertGreater(sum(low > 0 for low, _ in self.acks.values()), 30)


class Managed(Link):
    """With controlled delay the queue stays short, by drops or by marks. Without it, two equal flows share the link."""

    TAIL, DROPS, MARKS = [], ["aqm=codel"], ["aqm=codel", "ecn=yes"]

    def over(self, queue):
        return self.figures("bytes=12M", "queue=1M", "rate=10M", *queue)

    def test_long_queue(self):
        tail = self.over(self.TAIL)
        self.assertGreater(tail["wait"], 200_000_000)
        self.assertEqual(tail["marked"], 0)

    @tree.each([("by drops", DROPS), ("by marks", MARKS)])
    def test_short_queue(self, _, queue):
        found = self.over(queue)
        self.assertTrue(found["wait"] < 60_000_000 and found["goodput"] > 8_000_000, found)

    def test_drops_alone(self):
        found = self.over(self.DROPS)
        self.assertTrue(found["marked"] == 0 and found["dropped"] > 0, found)

    def test_marks_alone(self):
        found = self.over(self.MARKS)
        self.assertTrue(found["marked"] > 0 and found["dropped"] == found["lost"] == 0, found)

    def test_two_equal_flows(self):
        pair = [it["goodput"] for it in self.flows("flows=2", "bytes=1000G", "until=60s", "queue=125k", "stagger=100ms")]
        self.assertTrue(sum(pair) > 9_000_000 and sum(pair) ** 2 / (2 * sum(it * it for it in pair)) > 0.8, pair)


class Streams(tree.TestCase):
    def test_nobody_reads(self):
        with tree.unread() as pipe:
            self.assertEqual(tree.ran([LINK, "--script"], stdout=pipe), (0, None, b""))

    def test_failed_write(self):
        with open("/dev/full", "wb") as full:
            self.assertEqual(tree.ran([LINK, "--script"], stdout=full), (1, None, b"link: write failed\n"))


class Agreement(tree.TestCase):
    """A run, its script through the sender, its events through the trace and its qlog agree."""

    @tree.each(RUNS)
    def test_figures_of_the_script(self, title):
        self.assertEqual((run(title).scripted[0], run(title).line), (0, run(title).plain[1]))

    @tree.each(RUNS)
    def test_replayed(self, title):
        status, answers, errors = run(title).replayed
        self.assertEqual((status, errors, "refused" in answers), (0, "", False))

    @tree.each(RUNS)
    def test_figures_by_the_answers(self, title):
        found = counted(run(title).script, run(title).replayed[1])
        self.assertEqual(found, {it: number for it, number in read(run(title).line.splitlines()[0]).items() if it in found})

    @tree.each(RUNS)
    def test_events(self, title):
        self.assertEqual(run(title).events[::2], (0, ""))

    @tree.each(RUNS)
    def test_traced(self, title):
        status, answers, errors = run(title).traced
        self.assertEqual((status, errors, "refused" in answers), (0, "", False))

    @tree.each(RUNS)
    def test_last_state(self, title):
        state, metrics = run(title).states[-1], run(title).metrics[-1]
        shared = [it for it in metrics if it in state]
        self.assertEqual({it: state[it] for it in shared}, {it: metrics[it] for it in shared})

    @tree.each(RUNS)
    def test_windows_of_qlog_that_no_event_left(self, title):
        windows = [{it["congestion_window"] for it in found} for found in (run(title).metrics, run(title).states)]
        self.assertEqual(windows[0] - windows[1], set())

    @tree.each(RUNS)
    def test_losses_of_qlog(self, title):
        lost = sum(it.get("name") == "recovery:packet_lost" for it in run(title).records)
        self.assertEqual(lost, read(run(title).line.splitlines()[0])["lost"])


class Rates(Link):
    @tree.each(((*it, loss) for it in ROUND_TRIPS for loss in LOSSY), "{0} {1} ms {2}% lost")
    def test_formula(self, name, rtt, loss):
        """With random losses, over a link that is never full, the rate is within a factor of 1.5 of the formula."""
        words = f"delay={rtt // 2}ms", "ack-delay=0", f"loss={loss}%", "rate=100M", "queue=1M", f"bytes={LOSSY[loss] * 1200}", "seed=7"
        found, expected = self.figures(f"controller={name}", *words)["goodput"], FORMULAS[name](loss / 100, rtt / 1000)
        self.assertTrue(expected / 1.5 <= found <= expected * 1.5, f"{found} and not about {expected:.0f}")

    @tree.each(((*it, part, least) for it in ROUND_TRIPS for part, least in ((0.1, 2 / 3), (2, 0.9))), "{0} {1} ms {2} of the link")
    def test_queue(self, name, rtt, part, least):
        """Without losses the rate is at least 2/3 of the link's if the queue holds a tenth of what the link holds, and at least 9/10 if it holds twice
        what the link holds."""
        queue = max(int(part * 10_000_000 / 8 * rtt / 1000), 1200)
        found = self.figures(f"controller={name}", f"delay={rtt // 2}ms", "ack-delay=0", f"queue={queue}", "bytes=24M")
        self.assertTrue(least * 1e7 <= found["goodput"] <= 1e7, found)
        self.assertLessEqual(found["queue"], queue)


if __name__ == "__main__":
    LINK, SENDER, TRACE, words = tree.other_programs(link=LINK, sender=SENDER, trace=TRACE)
    tree.main("link", words)
