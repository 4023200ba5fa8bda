#!/usr/bin/env python3
"""Tests writing and reading qlog. recovery-link and recovery-trace write JSON text sequences (RFC 7464). Their events have the form of
draft-ietf-quic-qlog-quic-events, whose schema is below. From them tools/qlog2script makes the script that the same run writes. It also reads
recordings with the names of the draft or of version 0.3 (tests/qlog), and reports what it cannot read.

Recordings that were changed at random or by hand get a script that recovery-sender reads, or a sentence (tests/qlog_mutants.py).

`--link PATH`, `--trace PATH` and `--sender PATH` test other programs in place of the proved ones."""
import contextlib
import functools
import importlib.machinery
import importlib.util
import io
import json
import pathlib
import re
import resource
import signal
import sys
import tempfile
from unittest import mock

import qlog_mutants
import tree
from tree import ROOT

LINK, TRACE, SENDER = (tree.built_program(it) for it in ("recovery_link", "recovery_trace", "recovery_sender_program"))
TOOLS = ROOT / "tools"
READER = TOOLS / "qlog2script"
FILES = ROOT / "tests" / "qlog"
SEEDS, MUTANTS = 12, 300  # how many seeds, and recordings of each
SECONDS = 20  # of the processor, for a recording of a few megabytes: quadratic work takes longer
RUNS = [  # several losses at once, a link that is late, a queue that overflows unpaced, probes, and one that never ends
    "bytes=300k loss=3% reorder=1%",
    "bytes=300k controller=cubic loss=4% burst=3",
    "bytes=300k paced=no delay=100ms seed=18446744073709551615",
    "bytes=60k loss=20% ack-delay=0 controller=24000",
    "bytes=60k loss=100% until=20s",
    "bytes=600k aqm=codel ecn=yes queue=1M ack-loss=5%",
]

# the schema of the events that are written: the data of each, with '?' after what may be missing; a list has any length
COUNT, MILLIS, FLAG = "count", "millis", "flag"
HEADER = {"packet_type": {"initial", "handshake", "1RTT"}, "packet_number?": COUNT}
ACK = {"frame_type": {"ack"}, "ack_delay?": MILLIS, "acked_ranges?": [[COUNT]], "ect0?": COUNT, "ect1?": COUNT, "ce?": COUNT}
STREAM = {"frame_type": {"stream"}, "stream_id": COUNT, "offset": COUNT, "length": COUNT}
SHORT = {"frame_type": {"ping", "padding"}}
STATES = {"slow_start", "congestion_avoidance", "recovery"}
SCHEMA = {
    "transport:parameters_set": {"owner": {"local", "remote"}, "max_ack_delay": MILLIS},
    "connectivity:connection_state_updated": {"new": {"handshake_confirmed"}},
    "transport:packet_sent": {"header": HEADER, "raw": {"length": COUNT}, "frames": [(STREAM, SHORT, ACK)], "is_paced?": FLAG},
    "transport:packet_received": {"header": HEADER, "frames": [(ACK, SHORT)], "app_limited?": FLAG},
    "recovery:metrics_updated": {
        "min_rtt?": MILLIS, "smoothed_rtt?": MILLIS, "latest_rtt?": MILLIS, "rtt_variance?": MILLIS, "pto_count?": COUNT,
        "congestion_window?": COUNT, "bytes_in_flight?": COUNT, "ssthresh?": COUNT, "packets_in_flight?": COUNT,
    },
    "recovery:congestion_state_updated": {"old?": STATES, "new": STATES, "trigger?": {"persistent_congestion", "ECN"}},
    "recovery:timer_updated": {
        "timer_type?": {"ack", "pto", "loss_timeout", "pacing"}, "event_type": {"set", "expired", "cancelled"}, "delta?": MILLIS,
    },
    "recovery:packet_lost": {"header": HEADER, "trigger?": {"reordering_threshold", "time_threshold", "pto_expired"}},
    "recovery:marked_for_retransmit": {"frames": [STREAM]},
}
TRACE_FIELDS = {"vantage_point": {"type": {"client", "unknown"}}, "common_fields": {"time_format": {"relative"}, "reference_time": COUNT}}
FIRST = {"qlog_version": {"0.3"}, "qlog_format": {"JSON-SEQ"}, "title": {"recovery-link", "recovery-trace"}, "trace": TRACE_FIELDS}

BAD = [  # a title, a recording, the lines of its script, and the error, whose end is Python's
    ("nothing", "", "", "the recording is no JSON, or is cut off"),
    ("no JSON", "nothing", "", "the recording is no JSON, or is cut off"),
    ("no trace", "{}", "", "the recording has no trace"),
    ("a list", "[1, 2]", "", "the recording is a list, and not an object"),
    ("cut off", '{"traces": [', "", "the recording is no JSON, or is cut off"),
    ("an event that is a list", '\x1e{"trace":{}}\n\x1e[1,2]\n', "", "record 2 is no object of qlog"),
    ("no name", '\x1e{"trace":{}}\n\x1e{"time":1}\n', "", "record 2 has no name"),
    ("a header that is a number", '\x1e{"trace":{}}\n\x1e{"time":1,"name":"transport:packet_sent","data":{"header":7}}\n', "",
     "record 2: data.header is 7, and not an object"),
    ("a record that is cut off",
     '\x1e{"trace":{}}\n\x1e{"time":1,"name":"recovery:timer_updated","data":{"event_type":"expired"}}\n\x1e{"time":2,"na', "timeout 1000000\n",
     "record 3 is no JSON, or is cut off"),
]

OWN = {"mtu", "pacer_tokens"}  # of the state, and no metrics of qlog
RECORDED = [  # a line, and its records in addition to that of the metrics
    ("send initial 1 1200 1 -", [("transport:packet_sent", {
        "header": {"packet_type": "initial", "packet_number": 0}, "raw": {"length": 1200}, "frames": [{"frame_type": "ping"}]})]),
    ("poll-mtu 1", [("transport:packet_sent", {
        "header": {"packet_type": "1RTT", "packet_number": 0}, "raw": {"length": 1326}, "frames": [{"frame_type": "ping"}]})]),
    ("received handshake 1 7 0", [("transport:packet_received", {
        "header": {"packet_type": "handshake", "packet_number": 7}, "frames": [{"frame_type": "padding"}]})]),
    ("congestion 1 0 1 5", [("recovery:congestion_state_updated", {"new": "recovery", "trigger": "persistent_congestion"})]),
    ("congestion 1 0 0 5", [("recovery:congestion_state_updated", {"new": "recovery"})]),
    ("set-timer loss-detection 2500000", [("recovery:timer_updated", {"timer_type": "pto", "event_type": "set", "delta": 2.5})]),
    ("stop-timer loss-detection", [("recovery:timer_updated", {"event_type": "cancelled"})]),
    ("set-timer idle 7", []), ("stop-timer idle", []), ("lost data 0", []), ("next-timeout", []),
]

def fits(value, form):
    """Whether a value of JSON has a form of the schema."""
    if isinstance(form, dict):
        keys = {it.rstrip("?"): it for it in form}
        missing = [it for it, key in keys.items() if not key.endswith("?") and it not in value]
        return isinstance(value, dict) and not missing and all(it in keys and fits(value[it], form[keys[it]]) for it in value)
    if isinstance(form, list):
        return isinstance(value, list) and all(fits(it, form[0]) for it in value)
    if isinstance(form, tuple):
        return any(fits(value, it) for it in form)
    if isinstance(form, set):
        return value in form
    if form is FLAG:
        return isinstance(value, bool)
    number = isinstance(value, int) or form is MILLIS and isinstance(value, float)
    return number and not isinstance(value, bool) and value >= 0


def read(recording):
    """What the reader does with a recording: status, script and errors."""
    limit = functools.partial(resource.setrlimit, resource.RLIMIT_CPU, (SECONDS, SECONDS))
    content = recording if isinstance(recording, bytes) else recording.encode()
    return tuple(tree.text_of(it) for it in tree.ran([READER], content, preexec_fn=limit))


def split(text):
    """What precedes the records of a sequence, the records as texts, and as JSON."""
    first, *parts = text.split("\x1e")
    return first, parts, [json.loads(it) for it in parts]


class Written(tree.TestCase):
    """What the programs write has the form of the draft."""

    def assertFits(self, status, text):
        """The records are JSON of the form above, and their times never go back."""
        first, parts, records = split(text)
        self.assertEqual((status, first), (0, ""))
        self.assertTrue(all(it.count("\n") == 1 and it.endswith("\n") for it in parts), "each record ends its line")
        self.assertTrue(fits(records[0], FIRST), records[0])
        unfit = [it for it in records[1:] if set(it) != {"time", "name", "data"} or not fits(it["data"], SCHEMA.get(it["name"], set()))]
        self.assertEqual(unfit[:3], [])
        times = [it["time"] for it in records[1:]]
        self.assertEqual(times, sorted(times))
        self.assertGreater(len(times), 20)
        return records

    @tree.each(zip(RUNS))
    def test_run(self, words):
        self.assertFits(*tree.ran([LINK, "--qlog", *words.split()], "", text=True)[:2])

    @tree.each(zip(RUNS))
    def test_read_back(self, words):
        status, text, _ = tree.ran([LINK, "--qlog", *words.split()], "", text=True)
        script = tree.ran([LINK, "--script", *words.split()], "", text=True)[1]
        self.assertEqual((status, *read(text)), (0, 0, script, ""))


class Traced(Written):
    """A trace of a recording, as qlog: its packets, and its losses, are those of the recording, its times and metrics those of the states."""

    SCRIPT = (ROOT / "tests" / "pictures" / "connection.txt").read_text()

    def traced(self, option, script):
        return tree.ran([TRACE, option], script, text=True)[:2]

    def records(self, name):
        return [it for it in split(self.traced("--qlog", self.SCRIPT)[1])[2] if it.get("name") == name]

    def test_form(self):
        self.assertFits(*self.traced("--qlog", self.SCRIPT))

    def test_losses(self):
        self.assertEqual(len(self.records("recovery:packet_lost")), sum(it.startswith("lost ") for it in self.SCRIPT.splitlines()))

    def test_packets(self):
        sent = [it["data"]["raw"]["length"] for it in self.records("transport:packet_sent")]
        self.assertEqual(sent, [int(it.split()[3]) for it in self.SCRIPT.splitlines() if it.startswith("send ")])

    def test_states(self):
        states = [json.loads(it) for it in self.traced("--state", self.SCRIPT)[1].splitlines() if it.startswith("{")]
        found = [{"time": it["time"], **it["data"]} for it in self.records("recovery:metrics_updated")]
        self.assertEqual(found, [{name: it for name, it in state.items() if name not in OWN} for state in states])

    @tree.each(RECORDED)
    def test_line(self, line, events):
        records = split(self.traced("--qlog", line + "\n")[1])[2]
        self.assertEqual([(it["name"], it["data"]) for it in records[1:-1]], events)

    def test_of_nothing(self):
        status, text = self.traced("--qlog", "")
        records = split(text)[2]
        self.assertEqual((status, len(records)), (0, 1))
        self.assertTrue(fits(records[0], FIRST), text)


class Recordings(tree.TestCase):
    """Each recording of tests/qlog with its script, and what it leaves open."""

    @tree.each((it.stem, it) for it in sorted(FILES.glob("*.qlog")))
    def test_recording(self, _, file):
        script, left = (file.with_suffix(it).read_text() for it in (".script", ".open"))
        self.assertEqual(read(file.read_text()), (0, script, left))


class Unreadable(tree.TestCase):
    @tree.each(BAD)
    def test_broken(self, _, recording, lines, error):
        status, script, errors = read(recording)
        self.assertEqual((status, script), (2, lines))
        self.assertRegex(errors, f"(?s).*qlog2script: {re.escape(error)}")

    def test_missing_file(self):
        self.assertEqual(tree.ran([READER, "nothing.qlog"], "", text=True), (2, "", "qlog2script: nothing.qlog: No such file or directory\n"))

    @tree.each(qlog_mutants.HOSTILE)
    def test_hostile(self, _, recording, lines, error):
        status, script, errors = read(recording)
        self.assertEqual((status, script), (2 if error else 0, lines))
        last = errors.splitlines()[-1] if error else None
        self.assertEqual(last, f"qlog2script: {error}" if error else None)


class Bounds(tree.TestCase):
    """Work and memory are linear in the size of a recording, and a line has the length that recovery-sender reads."""

    def test_many_timers_at_one_time(self):
        status, script, _ = read(qlog_mutants.at_one_time(20_000))
        self.assertEqual((status, script.count("timeout 1000000\n")), (0, 20_000))

    def test_many_timers_of_the_pacer(self):
        status, script, _ = read(qlog_mutants.paced(40_000))
        self.assertEqual((status, script), (0, "transmit data 1000000 1200 1\n" * 40_000))

    def test_nesting_about_as_deep_as_python_reads(self):
        for depth in range(955, 1000, 4):
            status, script, errors = read(qlog_mutants.received("[" * depth + "]" * depth))
            self.assertEqual((status, script), (2, ""))
            self.assertRegex(errors, r"^qlog2script: (the recording is nested too deeply|event 1: data.header.packet_number is a list, and not .*)\n$")

    def test_many_ranges(self):
        status, script, left = read(qlog_mutants.in_holes(3_000))
        line = next(it for it in script.splitlines() if it.startswith("ack "))
        numbers = list(map(int, line.split()[5:]))
        self.assertEqual((status, left.count("ACKs with more ranges than a line")), (0, 1))
        self.assertEqual(numbers, [it for it in range(2_998, numbers[-1] - 1, -2) for _ in range(2)])
        self.assertTrue(4086 < len(line) <= 4096, "the next range has ten bytes with its spaces")


class Streams(tree.TestCase):
    RECORDING = FILES / "version-0.3.qlog"

    def test_nobody_reads(self):
        """It ends as a program that SIGPIPE ends. What the recording leaves open may be said before."""
        with tree.unread() as pipe:
            status, _, errors = tree.ran([READER, self.RECORDING], stdout=pipe)
        self.assertEqual(status, 128 + signal.SIGPIPE)
        self.assertIn(errors, [b"", self.RECORDING.with_suffix(".open").read_bytes()])

    def test_failed_write(self):
        with open("/dev/full", "wb") as full:
            status, _, errors = tree.ran([READER, self.RECORDING], stdout=full)
        self.assertEqual((status, errors.splitlines()[-1]), (1, b"qlog2script: the output cannot be written: No space left on device"))


def reader():
    """The tool as a module: it starts once, and not for each mutant."""
    loader = importlib.machinery.SourceFileLoader("qlog2script", str(READER))
    module = importlib.util.module_from_spec(importlib.util.spec_from_loader(loader.name, loader))
    with mock.patch.object(sys, "path", [str(TOOLS), *sys.path]), mock.patch.object(sys, "dont_write_bytecode", True):
        loader.exec_module(module)
    return module


class Mutants(tree.TestCase):
    """A changed recording has a script that recovery-sender reads, or the tool names the place that cannot be read. No exception is left."""

    LEFT = re.compile(r"qlog2script: the recording leaves open: .+")
    ERROR = re.compile(r"qlog2script: (record \d+|event \d+|the recording|the trace|standard input|\S+\.qlog)\b.+")

    @classmethod
    def setUpClass(cls):
        cls.tool = reader()

    def read(self, path):
        output, errors = io.StringIO(), io.StringIO()
        with contextlib.redirect_stdout(output), contextlib.redirect_stderr(errors), mock.patch.object(sys, "argv", ["qlog2script", str(path)]):
            status = self.tool.laboratory.status_of("qlog2script", self.tool.main)
        return status, output.getvalue(), errors.getvalue().splitlines()

    def assertEnds(self, content, status, errors):
        """A mutant ends with status 0, or with 2 and a last line that names the place."""
        wanted = [self.LEFT] * len(errors) if status == 0 else [*[self.LEFT] * (len(errors) - 1), self.ERROR]
        fit = status in (0, 2) and len(wanted) == len(errors) and all(form.fullmatch(it) for form, it in zip(wanted, errors))
        self.assertTrue(fit, (status, errors, content[:2000]))

    @tree.each(zip(range(1, SEEDS + 1)), "of the seed {0}")
    def test_mutants(self, seed):
        statuses, lines = {0: 0, 2: 0}, {}
        with tempfile.TemporaryDirectory() as folder:
            path = pathlib.Path(folder, "mutant.qlog")
            for content in qlog_mutants.mutants(seed, MUTANTS):
                path.write_bytes(content)
                status, script, errors = self.read(path)
                self.assertEnds(content, status, errors)
                self.assertTrue(script == "" or script.endswith("\n"), content)
                statuses[status] += 1
                lines.update((it, content) for it in script.split("\n")[:-1])
        self.assertTrue(all(it > MUTANTS // 10 for it in statuses.values()), f"both statuses are frequent: {statuses}")
        self.assertReadable(lines)

    def assertReadable(self, lines):
        """recovery-sender reads each of these lines: it answers each, and ends well."""
        status, answers, errors = tree.ran([SENDER, "client"], "".join(f"{it}\n" for it in lines), text=True)
        said = errors and list(lines.items())[answers.count("\n")]
        self.assertEqual((status, errors, answers.count("\n")), (0, "", len(lines)), said)


if __name__ == "__main__":
    LINK, TRACE, SENDER, words = tree.other_programs(link=LINK, trace=TRACE, sender=SENDER)
    tree.main("qlog", words)
