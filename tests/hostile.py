"""Tests what tools/calls2events, ladder, sweep and plot do with files and arguments that they cannot use: a sentence, and status 2 if these are
invalid, 1 if something else fails. It also tests that a signal leaves no run of a sweep. A script stands for recovery-link, and a module with the few
functions that plot calls for matplotlib. tests/experiments.py runs these tests with those of the commands in the documents."""
import functools
import json
import os
import pathlib
import signal
import subprocess
import tempfile
import time
import xml.etree.ElementTree as xml

import tree
from tree import ROOT

TOOLS = ROOT / "tools"
SECONDS = 60  # for a tool to end: the slowest takes one
MATPLOTLIB = '''
"""Writes what is drawn as JSON."""
import json


class Panel:
    def __init__(self, drawn):
        self.drawn = drawn

    def __getattr__(self, name):
        return lambda *values, **how: self.drawn.append([name, values, how])


class Figure(Panel):
    def savefig(self, output, dpi):
        with open(output, "w") as file:
            json.dump(self.drawn, file)


def use(_):
    pass


def subplots(rows=1, columns=1, **_):
    drawn = []
    return Figure(drawn), Panel(drawn) if rows == 1 else [Panel(drawn) for _ in range(rows)]
'''


def with_matplotlib(folder):
    """The environment of programs that find the module above in place of matplotlib."""
    package = folder / "matplotlib"
    package.mkdir()
    (package / "__init__.py").write_text("from . import pyplot\nuse = pyplot.use\n")
    (package / "pyplot.py").write_text(MATPLOTLIB)
    return {**os.environ, "PYTHONPATH": str(folder)}


def with_usual_signals():
    """The caller may ignore signals, as nohup does."""
    for it in signal.SIGINT, signal.SIGTERM, signal.SIGHUP:
        signal.signal(it, signal.SIG_DFL)


class Tool(tree.TestCase):
    """A tool in a folder of its own."""

    name = None

    def setUp(self):
        folder = tempfile.TemporaryDirectory()
        self.addCleanup(folder.cleanup)
        self.folder = pathlib.Path(folder.name)

    def write(self, name, content):
        path = self.folder / name
        path.write_bytes(content if isinstance(content, bytes) else content.encode())
        return name

    def program(self, lines):
        """A script of the shell that stands for recovery-link."""
        path = self.folder / self.write("link", f"#!/bin/sh\n{lines}\n")
        path.chmod(0o755)
        return str(path)

    def run_tool(self, *words, **how):
        """Status, output and errors."""
        found = tree.ran([TOOLS / self.name, *words], cwd=self.folder, timeout=SECONDS, **how)
        return tuple(tree.text_of(it) if isinstance(it, bytes) else it for it in found)

    def assertSays(self, error, *words, status=2, **how):
        """The tool writes nothing but this sentence, after its name."""
        self.assertEqual(self.run_tool(*words, **how), (status, "", f"{self.name}: {error}\n"))

    def assertStreams(self, *words):
        """The tool ends with a sentence if its output cannot be written or is closed, and without one if nobody reads it."""
        self.assertSays("standard output is closed", *words, status=1, preexec_fn=functools.partial(os.close, 1))
        with open("/dev/full", "wb") as full:
            self.assertEqual(self.run_tool(*words, stdout=full), (1, None, f"{self.name}: the output cannot be written: No space left on device\n"))
        with tree.unread() as pipe:
            self.assertEqual(self.run_tool(*words, stdout=pipe), (128 + signal.SIGPIPE, None, ""))


class Calls2Events(Tool):
    name = "calls2events"
    REJECTED = [  # a call, its answer, and the error
        ("send data 0 1200 1 -", "sent x timer none", "a: line 1: cannot read word 2, 'x'"),
        ("send data 0 1200 1 -", f"sent {2**64}", f"a: line 1: cannot read word 2, '{2**64}'"),
        ("send data 0 1200 1 -", "sent", "a: line 1: words are missing after 'sent'"),
        ("send data 0 1200 1 -", "done", "a: line 1: 'done' answers no such call, but sent would"),
        ("send data 0 1200 1 - x", "sent 0", "s: line 1: cannot read word 7, 'x'"),
        ("send data", "sent 0", "s: line 1: 1 words follow 'send', and not 5"),
        ("send data 0 65536 1 -", "sent 0", "s: line 1: cannot read word 4, '65536'"),
        ("send data 00 1200 1 -", "sent 0", "s: line 1: cannot read word 3, '00'"),
        ("send data \u0663 1200 1 -", "sent 0", r"s: line 1: cannot read word 3, '\u0663'"),
        ("send  data 0 1200 1 -", "sent 0", "s: line 1: cannot read word 2, ''"),
        ("keys\x0bconfirmed", "done", r"s: line 1: no call of recovery-sender is 'keys\x0bconfirmed'"),
        ("keys\r", "done", r"s: line 1: no call of recovery-sender is 'keys\r'"),
        *((f"{it} 1 2", "done", f"s: line 1: no call of recovery-sender is '{it}'")
          for it in ("show", "take", "losses", "lose", "begin", "spaces", "delay", "__init__", "acked", "losses-done", "no_event")),
        ("timeout 5", "probe moon 2", "a: line 1: cannot read word 2, 'moon'"),
        ("timeout 5", "lost 3 congestion 1200", "a: line 1: packet 3 of the space data is not tracked"),
        ("timeout 5", "lost none congestion 1200", "a: line 1: no packet that counts was lost"),
        ("discard moon 5", "done", "s: line 1: cannot read word 2, 'moon'"),
        ("set-timer loss-detection 5", "done", "s: line 1: cannot read word 2, 'loss-detection'"),
        ("peer-delay x", "done", "s: line 1: cannot read word 2, 'x'"),
        ("ack data 1 0 0 0 0", "acked 0 timer none", "a: line 1: packet 0 of the space data is not tracked"),
        ("ack data 1 0 0 0 0", "lost 7 acked", "a: line 1: 'lost' answers no such call, but acked would"),
        ("ack data 1 0 0 0 0 1", "acked none", "s: line 1: the last range has no last number"),
        ("ack data 1 0 0 0 0 ecn 1 2", "acked none", "s: line 1: 2 words follow 'ecn', and not 3"),
        ("keys\nkeys", "done", "the script and the answers do not belong together: 2 calls, and 1 answers"),
    ]
    # the MTU probe is packet 1 of the recovery; its loss counts for no congestion (RFC 9000, 14.4), so that the loss of packet 0, sent at 1, does
    PROBED = [
        ("confirmed", "done timer none", []), ("send data 1 1200 1 -", "sent 0 timer 5", ["send data 1 1200 1 -"]),
        ("poll-mtu 2", "probe 1 1326 timer 5", ["poll-mtu 2"]),
        ("timeout 9", "lost 0 1 congestion 1200 timer none", ["lost data 0", "lost data 1", "losses-done 9", "congestion 9 1 0 1200"]),
    ]
    # both packets are acknowledged at 9: the sample is the time since the largest one, the probe, was sent
    ACKED = [*PROBED[:3], ("ack data 9 0 0 0 1", "acked 0 1 timer none", ["acked data 9 0 0", "acked data 9 1 0", "end-acks 9 0 1", "sample 0 7"])]

    def files(self, calls, answers):
        return self.write("s", f"{calls}\n"), self.write("a", f"{answers}\n")

    @tree.each(REJECTED, "{0!r} with {1!r}")
    def test_rejected(self, call, answer, error):
        self.assertSays(error, *self.files(call, answer))

    @tree.each([("lost", PROBED), ("acknowledged", ACKED)])
    def test_probe_of_the_mtu(self, _, rows):
        found = self.run_tool(*self.files("\n".join(it for it, _, _ in rows), "\n".join(it for _, it, _ in rows)))
        self.assertEqual(found, (0, "".join(f"{it}\n" for it in ["validated current", *sum((it for *_, it in rows), [])]), ""))

    def test_comments(self):
        found = self.run_tool("--server", *self.files("# a comment\n\nin-flight current", "in-flight 0 0 timer none"))
        self.assertEqual(found, (0, "in-flight current\n", ""))

    def test_text_that_is_not_utf8(self):
        self.assertSays("s is not UTF-8: byte 5 is 0xff", self.write("s", b"keys \xff\n"), self.write("a", "done\n"))

    def test_missing_file(self):
        self.assertSays("s: No such file or directory", "s", "a")

    def test_streams(self):
        self.assertStreams(*self.files("keys", "done timer none"))


class Ladder(Tool):
    name = "ladder"
    SCRIPT = "<script>alert(1)</script>"
    REJECTED = [  # steps, their answers, and the error
        (f"hand client data {SCRIPT}", "done", f"s: line 1: cannot read word 4, '{SCRIPT}'"),
        ("validated <script>", "done", "s: line 1: cannot read word 2, '<script>'"),
        (f"keys client {SCRIPT}", "done", "s: line 1: 2 words follow 'keys', and not 1"),
        ("send client <svg/onload=alert(1)> 5 1200", "sent 0 7", "s: line 1: cannot read word 3, '<svg/onload=alert(1)>'"),
        ("send client data 1e400 1200", "sent 0", "s: line 1: cannot read word 4, '1e400'"),
        (f"send client data {2**64} 1200", "sent 0", f"s: line 1: cannot read word 4, '{2**64}'"),
        ("send client data 5 1200", "sent x", "a: line 1: cannot read word 2, 'x'"),
        ("send client data 5 1200", "sent", "a: line 1: words are missing after 'sent'"),
        ("send client data 5 1200\narrive 1 6", "sent 0 7\narrived server data 0 new 7", "a: line 2: no packet 1 was sent to the server"),
        ("send client data 5 1200\narrive 0 6", "sent 0 7\narrived client data 0 new 7", "a: line 2: no packet 0 was sent to the client"),
        *((f"{it} client", "done", f"s: line 1: no step of a schedule is '{it}'")
          for it in ("frobnicate", "rows", "sent", "arrived", "local", "__init__")),
        ("keys client\nkeys server", "done", "the schedule and the answers do not belong together: 2 steps, and 1 answers"),
    ]

    def files(self, steps, answers):
        return self.write("s", f"{steps}\n"), self.write("a", f"{answers}\n")

    @tree.each(REJECTED, "{0!r} with {1!r}")
    def test_rejected(self, steps, answers, error):
        self.assertSays(error, *self.files(steps, answers))

    def test_text_of_others(self):
        """What answers and title say is text of the picture, and so are characters that XML does not have."""
        steps = self.files("expire client 5\nsend client data 5 1200\narrive 0 6", f"probe \x01{self.SCRIPT}\nsent 0\narrived server data 0 new \"'&")
        status, picture, errors = self.run_tool("--title", f"{self.SCRIPT}\x02".encode() + b"\xff", *steps)
        texts = [it.text for it in xml.fromstring(picture).iter("{http://www.w3.org/2000/svg}text")]
        self.assertEqual((status, errors), (0, ""))
        self.assertEqual([texts[0], texts[3], texts[-2]], [f"{self.SCRIPT}\ufffd\ufffd", f"timer: probe \ufffd{self.SCRIPT}", "data 0: \"'&"])

    def test_streams(self):
        self.assertStreams("/dev/null", "/dev/null")


SEED = 'for word; do case $word in seed=*) seed=${word#seed=} ;; esac; done'
FORM = "it is NAME=VALUE or NAME=VALUE,VALUE.., as in loss=0.1%,1%"
SEEDS = "how many seeds, from 1 on, as in seeds=10"


class Sweep(Tool):
    name = "sweep"
    REJECTED = [  # the arguments, and the error
        (["=1"], f"cannot read '=1': {FORM}"), (["bytes"], f"cannot read 'bytes': {FORM}"), ([""], f"cannot read '': {FORM}"),
        (["bytes="], f"cannot read 'bytes=': {FORM}"), (["bytes=1,,2"], f"cannot read 'bytes=1,,2': {FORM}"),
        (["bytes=1", "bytes=2"], "bytes= is given twice"), (["seed=1", "seeds=2"], "seed= and seeds= are given: only one of them names the seeds"),
        *(([f"seeds={it}"], f"cannot read {ascii(f'seeds={it}')}: {SEEDS}") for it in ("0", "x", "1,2", "-1", "\u0663", "\u00b2", "1" * 31)),
        *((["--jobs", it, "bytes=1"], f"cannot read --jobs '{it}': how many runs at once, from 1 to 256") for it in ("0", "-1", "x", "257", "")),
        ([f"loss={','.join(map(str, range(101)))}", "seeds=1000"], "all combinations with each seed are more than 100,000 runs"),
        ([f"{it}={','.join(map(str, range(31)))}" for it in "abcdef"], "all combinations with each seed are more than 100,000 runs"),
        (["seeds=99999999999999999999"], f"cannot read 'seeds=99999999999999999999': {SEEDS}"),
        (["--show", "nope", "seeds=1"], "there is no figure 'nope'; there are time, goodput"),
        (["--show", "", "seeds=1"], "there is no figure ''; there are time, goodput"),
    ]
    FAILED = [  # lines of the program, and the error
        ("true", "the program prints no figures"), ("echo time", "the program prints 'time', and not NAME=NUMBER for each figure"),
        ("echo time=-1", "the program prints 'time=-1', and not NAME=NUMBER for each figure"),
        ("echo flow=1; echo flow=2", "the program prints no goodput for a flow"),
        ("exit 3", "x=1 seed=1: status 3"), ("kill -9 $$", "x=1 seed=1: status -9"),
        (f"{SEED}; echo time$seed=1", "the program prints other figures with another seed"),
    ]

    @tree.each(((" ".join(it)[:60], it, error) for it, error in REJECTED), "{0!r}")
    def test_rejected(self, _, words, error):
        self.assertSays(error, "--program", self.program("echo time=1 goodput=2"), *words)

    @tree.each(FAILED)
    def test_program_that_fails(self, lines, error):
        self.assertSays(error, "--jobs", "1", "--program", self.program(lines), "x=1", status=1)

    def test_arguments_that_the_program_rejects(self):
        self.assertSays("x=1 seed=1: no x", "--program", self.program("echo no x >&2; exit 2"), "x=1", "seeds=1")

    def test_missing_program(self):
        self.assertSays("./nothing: No such file or directory", "--program", "./nothing", "x=1")

    def test_figures(self):
        """Of 1, 2 and 3 the mean is 2 and the standard deviation 1. Of the goodputs 1 and 3 Jain's index is 16/20."""
        program = self.program(f"{SEED}; echo flow=1 goodput=1 wait=$seed; echo flow=2 goodput=3 wait=$seed")
        status, table, errors = self.run_tool("--program", program, "x=1", "seeds=3")
        names = "flow,runs," + ",".join(f"{it},{it}_sd,{it}_min,{it}_max" for it in ("goodput", "wait", "fairness"))
        rows = [f"{flow},3,{goodput},0,{goodput},{goodput},2,1,1,3,0.8,0,0.8,0.8" for flow, goodput in ((1, 1), (2, 3))]
        self.assertEqual((status, table.splitlines(), errors), (0, [names, *rows], ""))

    def test_streams(self):
        self.assertStreams("--program", self.program("echo time=1"), "x=1", "seeds=1")

    @tree.each([("SIGTERM", 143), ("SIGHUP", 129), ("SIGINT", 130)])
    def test_signal(self, name, status):
        """The runs end with the tool."""
        program = self.program("echo $$ >>running; exec sleep 600")
        words = [TOOLS / "sweep", "--jobs", "3", "--program", program, "x=1"]
        streams = {"stdout": subprocess.PIPE, "stderr": subprocess.PIPE, "text": True}
        tool = subprocess.Popen(words, cwd=self.folder, preexec_fn=with_usual_signals, **streams)
        running = self.wait(lambda: self.started() if len(self.started()) == 3 else None)
        tool.send_signal(getattr(signal, name))
        output, errors = tool.communicate(timeout=SECONDS)
        self.assertEqual((tool.returncode, output, errors), (status, "", f"sweep: ended by {name}\n"))
        self.wait(lambda: not any(pathlib.Path("/proc", it).exists() for it in running))

    def started(self):
        file = self.folder / "running"
        return file.read_text().split() if file.exists() else []

    def wait(self, found):
        ends = time.monotonic() + SECONDS
        while time.monotonic() < ends:
            it = found()
            if it:
                return it
            time.sleep(0.02)
        self.fail("it takes too long")


def sent(*numbers, time=1):
    form = '\x1e{"time":%s,"name":"packet_sent","data":{"header":{"packet_number":%s},"raw":{"length":1000}}}\n'
    return "".join(form % (time, it) for it in numbers)


def acked(ranges):
    return f'\x1e{{"time":2,"name":"packet_received","data":{{"frames":[{{"frame_type":"ack","acked_ranges":{ranges}}}]}}}}\n'


class Plot(Tool):
    name = "plot"
    FIRST = '\x1e{"trace":{}}\n'
    COLUMNS = "x=, y=, by=, formula=, rtt=, scale=, title="
    BAD_RUNS = [  # a recording, and the error
        ("nothing", "the recording is no JSON, or is cut off: Expecting value: line 1 column 1 (char 0)"), (FIRST, "a run has no packet"),
        (b"\xff", "run.qlog is not UTF-8: byte 0 is 0xff"),
        (FIRST + "\x1e[1]\n", "record 2 is no object of qlog: recordings older than version 0.3 are not read"),
        (FIRST + sent('"x"'), "record 2: data.header.packet_number is 'x', and not a whole number from 0 to 4611686018427387903"),
        (FIRST + sent(1, time="NaN"), "record 2: time is NaN, and not a time within 2^64 nanoseconds"),
        (FIRST + sent(1).replace('"packet_sent"', "7"), "record 2: name is 7, and not a text"),
        (FIRST + sent(1, 1), "record 3: packet 1 is sent after packet 1 of the same packet number space"),
    ]
    TABLE = "loss,rate,goodput,goodput_sd,runs\n1%,a_,5,1,10\n4%,$b$,2,0.5,10\n"
    BAD_TABLES = [  # a table, the arguments, and the error
        (TABLE, ["x=loss", "nope=1"], f"cannot read 'nope=1': a table has {COLUMNS} (--help)"),
        (TABLE, ["x=loss", "log"], f"cannot read 'log': a table has {COLUMNS} (--help)"),
        (TABLE, ["x=loss", "--nope"], f"cannot read '--nope': a table has {COLUMNS} (--help)"),
        (TABLE, ["x=loss", "scale=x"], f"cannot read 'scale=x': a table has {COLUMNS} (--help)"),
        (TABLE, ["x=loss", "formula=x"], f"cannot read 'formula=x': a table has {COLUMNS} (--help)"),
        (TABLE, ["x=loss", "x=rate"], "x= is given twice"), (TABLE, ["x=loss", "--", "loss=1%"], "a table has no runs after --"),
        (TABLE, ["x=loss", "rtt=1ms"], "rtt= is the round-trip time of formula=mathis, which is missing"),
        (TABLE, ["x=loss", "formula=mathis", "rtt=0ms"], "rtt= is zero, so that the formula has no value"),
        (TABLE, ["x=loss", "formula=mathis", "rtt=x"], "rtt=: cannot read 'x' as a number"),
        (TABLE, [], "t.csv: line 2 has no column '': x=, y= and by= name columns"),
        (TABLE, ["x=nope"], "t.csv: line 2 has no column 'nope': x=, y= and by= name columns"),
        (TABLE, ["x=rate"], "t.csv: line 2: cannot read 'a_' as a number"), ("", ["x=loss"], "t.csv has no lines"),
        ("loss,goodput\n1.1.1%,5\n", ["x=loss"], "t.csv: line 2: cannot read '1.1.1%' as a number"),
        ("loss,goodput\n1%,5\n2%\n", ["x=loss"], "t.csv: line 3: cannot read '' as a number"),
        ("loss,goodput\n1%,nan\n", ["x=loss"], "t.csv: line 2: cannot read 'nan' as a number"),
        ("loss,goodput,goodput_sd\n1%,5,-1\n", ["x=loss"], "t.csv: line 2: cannot read '-1' as a number"),
        ("loss,goodput\n1%,\u0665\n", ["x=loss"], r"t.csv: line 2: cannot read '\u0665' as a number"),
        ('loss,goodput\n"1"x,5\n', ["x=loss"], "t.csv is no CSV: ',' expected after '\"'"),
        (b"loss\xff\n", ["x=loss"], "t.csv is not UTF-8: byte 4 is 0xff"),
    ]

    def drawn(self, *words):
        """What the tool draws, as the name of each function of matplotlib with its arguments."""
        self.assertEqual(self.run_tool("-o", "drawn.svg", *words, env=with_matplotlib(self.folder)), (0, "", ""))
        return json.loads((self.folder / "drawn.svg").read_text())

    @tree.each(BAD_RUNS, "{1!r}")
    def test_rejected_recording(self, recording, error):
        self.assertSays(error, "--", self.write("run.qlog", recording))

    @tree.each(BAD_TABLES, "{1} {2!r}")
    def test_rejected_table(self, table, words, error):
        self.assertSays(error, self.write("t.csv", table), *words)

    def test_rejected_output(self):
        self.assertSays("cannot write 'x.txt': its name ends with none of .png, .svg, .pdf", "-o", "x.txt")

    def test_program_that_fails(self):
        self.assertSays("--qlog x=1: no x", "--program", self.program("echo no x >&2; exit 2"), "x=1")

    def test_acknowledged(self):
        """A range of 2^62 numbers acknowledges the packets that were sent, and each once. Those in a hole are acknowledged later."""
        huge = f"[[9,{2**62 - 1}],[0,3]]"
        first = sent(0, 1, 5, 9) + acked(huge) * 2 + acked(f"[[0,{2**62 - 1}]]")
        run = self.write("run.qlog", self.FIRST + first + sent(12, time=2) + acked("[[12]]"))
        numbers = next(values for name, values, how in self.drawn("--", run) if how.get("label") == "acknowledged")
        self.assertEqual(numbers[:2], [[0.002] * 5, [9, 0, 1, 5, 12]])

    def test_many_ranges(self):
        """Ranges that come again and again cost nothing for the packets that are acknowledged already."""
        packets = 20_000
        run = self.write("run.qlog", self.FIRST + sent(*range(packets)) + acked(f"[[0,{packets}]]") * packets)
        numbers = next(values for name, values, how in self.drawn("--", run) if how.get("label") == "acknowledged")
        self.assertEqual(numbers[1], list(range(packets)))

    def test_arguments_of_a_table(self):
        """Mathis's formula for packets of 9,600 bits, 50 ms and losses of 1% and 4%. Names of others are no formulas of matplotlib."""
        words = "x=loss", "by=rate", "formula=mathis", "scale=log", b"title=_$x$\xff"
        drawn = self.drawn(self.write("t.csv", self.TABLE), *words)
        named = {name: values for name, values, _ in drawn}
        self.assertEqual([how["label"] for name, _, how in drawn if name == "errorbar"], ["rate=a_", r"rate=\$b\$"])
        self.assertEqual([values for name, values, _ in drawn if name == "errorbar"], [[[0.01], [5.0], [1.0]], [[0.04], [2.0], [0.5]]])
        self.assertEqual([round(it) for it in named["plot"][1]], [2351510, 1175755])
        self.assertEqual([named["set_xscale"], named["set_yscale"], named["set_title"]], [["log"], ["log"], [" _\\$x\\$\ufffd"]])

    def test_help(self):
        status, text, _ = self.run_tool("--help")
        self.assertEqual((status, [it for it in self.COLUMNS.split(", ") if it not in text]), (0, []))
