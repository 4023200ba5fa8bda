#!/usr/bin/env python3
"""Counts what the proved program takes for a line: instructions (valgrind's callgrind) and peak memory (GNU time).

An input is a beginning, which brings the program into a state, and the lines that are counted. It depends on nothing but
this file. A figure is what the whole input takes less what its beginning takes, divided by the lines that are counted.
A '*' marks instructions that differ by more than 5% between the numbers of lines.

    bench/run.py                          every input at 10^4, 10^5 and 10^6 lines (half an hour)
    bench/run.py --quick                  a few inputs at 10^4 and 10^5 lines (a minute)
    bench/run.py in_order --lines 1000    the named inputs at this number of lines
    bench/run.py --jobs 4                 four runs at a time: the figures are the same
    bench/run.py --careful                also three programs of plain Rust over the same inputs (tests/careful), at 10^5 lines:
                                          instructions, and processor time, the shortest of some runs in turn on one processor
                                          (a quarter of an hour). All must print the same. `careful` is written for speed, and
                                          answers each line as it is read. `listed` is too, but has a list of all events and one
                                          of all replies, as ours does, with elements of the same size. `plain` is simple code
"""
import argparse
import concurrent.futures
import functools
import itertools
import os
import pathlib
import random
import re
import shutil
import subprocess
import sys
import tempfile
from dataclasses import dataclass
from typing import Callable, Iterator

ROOT = pathlib.Path(__file__).resolve().parent.parent
sys.path.insert(0, str(ROOT / "tests"))
import alike  # noqa: E402
import tree  # noqa: E402

CAREFUL = ROOT / "tests" / "careful"
FORMS = ["careful", "listed", "plain"]  # the programs there
SPACES = ["initial", "handshake", "data"]
TIMERS = tree.timers()
MOST_IDS = 64  # that one line issues


@dataclass
class Input:
    """An endless sequence of lines, of which the first `beginning` are not counted."""
    name: str
    lines: Callable[[], Iterator[str]]
    beginning: int = 0
    quick: bool = False


def moment(i):
    """Ten digits each, so that a line does not grow with the input."""
    return 10**9 + i * 1000


# ---- packets received

def received(i, number):
    """The spaces in turn. Numbers have seven digits each."""
    return f"received {SPACES[i % 3]} {moment(i)} {10**6 + number} {int(number % 2 == 0)}"


def received_each(numbers_of, step):
    """Each space receives the same numbers, times a step: with a step of two, 64 ranges are to be acknowledged."""
    spaces = [numbers_of(random.Random(1)) for _ in SPACES]
    for i in itertools.count():
        yield received(i, next(spaces[i % 3]) * step)


def in_order(_chance):
    return itertools.count()


def in_blocks(chance):
    """Every number once, in blocks of 64 that are shuffled."""
    for start in itertools.count(step=64):
        block = list(range(start, start + 64))
        chance.shuffle(block)
        yield from block


def at_random(chance):
    """Every number once, each time one of the 16 smallest that were not received yet: some are so late that they count as duplicates."""
    waiting = list(range(16))
    for number in itertools.count(16):
        place = chance.randrange(16)
        yield waiting[place]
        waiting[place] = number


# ---- packets sent

def send(i):
    return f"send data {moment(i)} 1200 1 -"


def in_turns(window, order, chance):
    """The numbers from 0 on, in blocks of `window` that are in order, reversed or shuffled."""
    for start in itertools.count(step=window):
        block = list(range(start, start + window))
        if order == "reversed":
            block.reverse()
        if order == "shuffled":
            chance.shuffle(block)
        yield from block


def tracked(window, order):
    """`window` packets are in flight (the beginning); then one is acknowledged and one sent, in turn."""
    for number in range(window):
        yield send(number)
    for i, number in enumerate(in_turns(window, order, random.Random(2))):
        yield f"acked data {moment(i)} {number} 0"
        yield send(window + i)


# ---- ids of the peer

def new_id(number, retire_prior_to):
    return f"new-id {10**6 + number} {10**6 + retire_prior_to} {number % 256}"


def remote_ids():
    """The peer issues ids in order, and retires those more than four below."""
    for i in itertools.count():
        yield new_id(i, max(0, i - 4))


def next_ids():
    """The peer issues IDs in order and retires none; the local endpoint takes the next one each time."""
    yield new_id(0, 0)
    for i in itertools.count(1):
        yield new_id(i, 0)
        yield "next-id"


# ---- IDs of the local endpoint

def issue_ids(i, first, count):
    return f"issue-ids {moment(i)} {first} {count}"


def issued_lines(unretired):
    """How many lines issue all of these but number 0, which is issued at the start."""
    return -(-(unretired - 1) // MOST_IDS)


def local_ids(unretired, place_of):
    """`unretired` IDs are not retired (the beginning). Then the peer retires one, another is issued, and a deadline passes."""
    chance = random.Random(3)
    for i in range(issued_lines(unretired)):
        first = 1 + i * MOST_IDS
        yield issue_ids(i, first, min(MOST_IDS, unretired - first))
    ids = list(range(unretired))
    for i in itertools.count(issued_lines(unretired)):
        number = ids[-1] + 1
        yield f"peer-retired {ids.pop(place_of(chance, unretired))} 4"
        yield issue_ids(i, number, 1)
        yield "id-timeout"
        ids.append(number)


def least(_chance, _unretired):
    return 0


def middle(_chance, unretired):
    return unretired // 2


def any_place(chance, unretired):
    return chance.randrange(unretired)


def refused_ids():
    """64 IDs that do not follow the last one."""
    for i in itertools.count():
        yield issue_ids(i, 10**6, MOST_IDS)


# ---- the path in use

def late(i):
    """Ten digits each, 20 ms apart, for ever: the pacer gets tokens, and too few now and then."""
    return 10**9 + i % 400 * 20_000_000


def pacing():
    """On a validated path (the beginning) a datagram is to be transmitted, and the pacer is asked for another."""
    yield "validated current"
    for i in itertools.count():
        yield f"transmit {late(i)} 1200 1"
        yield f"pacer-check {late(i)} 1200"


def samples():
    for i in itertools.count():
        yield f"sample {i * 31 % 1000 + 1000} {10**8 + i * 7919 % 10**8}"


def congestion():
    """Each loss is of a packet that was sent after the recovery before it began."""
    for i in itertools.count():
        yield f"congestion {moment(i)} {moment(i)} 0 1200"


def connection():
    """As on a connection with a validated path (the beginning): two packets are received, two are sent and acknowledged, and a
    datagram is transmitted."""
    yield "validated current"
    for i in itertools.count():
        yield f"received data {late(i)} {10**6 + 2 * i} 1"
        yield f"received data {late(i)} {10**6 + 2 * i + 1} 0"
        yield f"send data {late(i)} 1200 1 {10**6 + 2 * i + 1}"
        yield f"send data {late(i)} 40 0 {10**6 + 2 * i + 1}"
        yield f"acked data {late(i)} {2 * i} 0"
        yield f"acked data {late(i)} {2 * i + 1} 0"
        yield f"transmit {late(i)} 1200 1"


def probes():
    """The MTU is searched for, once for each hour: each probe is acknowledged or lost, as a link of 1,400 bytes has it. The
    search is that of the program: from the MTU in use up to 1452 bytes, halving, three losses for a size."""
    number = 0
    mtu, hour = 1200, 0
    while True:
        low, high, last, losses = mtu, 1452, mtu, 0
        now = 10**12 + hour * 3600 * 10**9
        while True:
            if losses == 0:
                low = last
            elif losses == 3:
                high, losses = last - 1, 0
            if losses == 0:
                size = (low + high) // 2
                if abs(size - last) < 20:
                    size = high if high >= last + 20 else 0
                last = size or last
            yield f"poll-mtu {now}"
            if losses == 0 and not size:
                break
            if last <= 1400:
                yield f"acked data {now} {number} 0"
                mtu, losses = last, 0
            else:
                yield f"lost data {number}"
                losses += 1
            number += 1
        hour += 1


def black_holes():
    """Of eight packets of 1,300 bytes every other one is lost, and the losses are reported together: four bursts each time."""
    number = 0
    for i in itertools.count():
        for _ in range(8):
            yield f"send data {moment(i)} 1300 1 -"
        for lost in range(0, 8, 2):
            yield f"lost data {number + lost}"
        for kept in range(1, 8, 2):
            yield f"acked data {moment(i)} {number + kept} 0"
        yield f"losses-done {moment(i)}"
        number += 8


# ---- what is sent again, and paths

def queues():
    """A packet with two items is lost, its items wait, and are taken; a probe finds those of the next packet."""
    for i in itertools.count():
        yield f"send data {moment(i)} 1200 1 - {10**6 + i} {10**6 + i + 1}"
        yield f"send data {moment(i)} 1200 1 - {10**6 + i + 2}"
        yield f"lost data {2 * i}"
        yield "take-pending data"
        yield "queue-probe data 0"
        yield "take-pending data"
        yield f"acked data {moment(i)} {2 * i + 1} 0"


def paths():
    """A packet is in flight on the previous path as another one is used, fresh and going on in turn."""
    for i in itertools.count():
        yield f"send data {moment(i)} 1200 1 -"
        yield f"new-path {moment(i)} 4433 {i % 2}"
        yield "in-flight previous"
        yield "datagram-in previous 1200"
        yield f"acked data {moment(i)} {i} 0"
        yield "drop-previous"
        yield f"reset-path {moment(i)}"


def all_events():
    """Every event once, in turn, as a connection goes on: no search for the MTU runs, since the peer takes 1,200 bytes at most."""
    yield "peer-limit 1200"
    yield "poll-mtu 0"
    for i in itertools.count():
        number = 10**6 + i
        yield f"received data {moment(i)} {number} 1"
        yield f"send data {moment(i)} 1200 1 {number} {number}"
        yield f"send data {moment(i)} 40 0 -"
        yield f"acked data {moment(i)} {2 * i + 1} 0"
        yield "queue-probe data 1"
        yield f"lost data {2 * i}"
        yield f"losses-done {moment(i)}"
        yield "take-pending data"
        yield f"ecn data 1 {number} 0 {i}"
        yield f"check-ack data {2 * i} {2 * i + 1}"
        yield "acks-sent data"
        yield "ack-delay-timeout data"
        yield f"ack-frequency {number} 3 2000 2"
        yield f"new-id {number} {number - 1} {i % 256}"
        yield "next-id"
        yield "initial-id 7"
        yield f"issue-ids {moment(i)} {i + 1} 1"
        yield "id-timeout"
        yield f"peer-retired {i} 4"
        yield f"new-path {moment(i)} 4433 {i % 2}"
        yield "validated current"
        yield "datagram-in current 1200"
        yield f"sample 1000000 {10**8 + i * 7919 % 10**8}"
        yield f"transmit {moment(i)} 1200 1"
        yield f"pacer-check {moment(i)} 1200"
        yield f"congestion {moment(i)} {moment(i)} 0 1200"
        yield f"end-acks {moment(i)} 0 -"
        yield f"poll-mtu {moment(i)}"
        yield "mtu-found 1400"
        yield "in-flight current"
        yield f"reset-path {moment(i)}"
        yield "drop-previous"
        yield f"new-path {moment(i)} 4434 0"
        yield "revert-path"
        yield f"set-timer idle {moment(i)}"
        yield "next-timeout"
        yield "stop-timer idle"
        yield "discard initial"
        yield "peer-limit 1200"


# ---- timers

def timers():
    """Timers are set, asked for and stopped in turn."""
    for i in itertools.count():
        timer = TIMERS[i % 9]
        yield f"set-timer {timer} {moment(i) + i * 7919 % 1009}"
        yield "next-timeout"
        yield f"stop-timer {timer}"


def in_pairs(first, second):
    """A line of each in turn."""
    for lines in zip(first, second):
        yield from lines


# ---- lines of all kinds at random, as tests/alike.py draws them

# The kinds of lines that are ten times as frequent as the others. No space is discarded, since nothing would happen in it
# afterwards. Hostile inputs issue no IDs: their line could exceed the last number, and would not be read.
KINDS = {
    "all": [],
    "acks": ["received", "acks-sent", "ack-delay-timeout", "ack-frequency", "check-ack"],
    "hostile": ["received", "acked", "check-ack", "ecn", "new-id", "peer-retired"],
    "ids": ["new-id", "next-id", "issue-ids", "peer-retired", "id-timeout"],
    "ledger": ["send", "acked", "lost", "in-flight", "end-acks", "congestion"],
    "mtu": ["poll-mtu", "acked", "lost", "losses-done", "peer-limit", "reset-path"],
    "pacing": ["transmit", "pacer-check", "datagram-in", "sample", "validated"],
    "queues": ["send", "lost", "queue-probe", "take-pending"],
    "silent": ["send"],
}


class Sensible(alike.Lines):
    """Lines without rare values: times that step back, numbers at the ends of their ranges."""

    def is_rare(self, one_in):
        return False


def at_random_of(kind):
    """Numbers are as they come, so that lines grow with the input."""
    lines = (alike.Lines if kind == "hostile" else Sensible)(77)
    left_out = ["discard", "issue-ids"] if kind == "hostile" else ["discard"]
    weights = [0 if name in left_out else 10 if name in KINDS[kind] else 1 for name in alike.EVENTS]
    while True:
        yield lines.chance.choices(alike.MAKERS, weights)[0](lines)


# ---- all inputs: an event that joins gets a function above, and its lines here

def of_numbers(name, numbers, step=1, quick=False):
    return Input(name, lambda: received_each(numbers, step), quick=quick)


def of_window(window, order):
    return Input(f"tracked_{window}_{order}", lambda: tracked(window, order), beginning=window,
                 quick=(window, order) == (100, "in_order"))


def of_ids(unretired, name, place_of):
    return Input(f"local_ids_{unretired}_{name}", lambda: local_ids(unretired, place_of),
                 beginning=issued_lines(unretired), quick=(unretired, name) == (8, "random"))


INPUTS = [
    of_numbers("in_order", in_order, quick=True),
    of_numbers("reordered", in_blocks),
    of_numbers("gaps", in_order, step=2),
    of_numbers("reordered_gaps", in_blocks, step=2),
    of_numbers("random_gaps", at_random, step=2),
    *(of_window(window, order) for window in [100, 1000, 10000] for order in ["in_order", "reversed", "shuffled"]),
    Input("remote_ids", remote_ids, quick=True),
    Input("next_ids", next_ids),
    of_ids(1, "in_order", least),
    *(of_ids(unretired, name, place_of) for unretired in [8, 1000, 100000]
      for name, place_of in [("middle", middle), ("random", any_place)]),
    Input("refused_ids", refused_ids),
    Input("pacing", pacing, beginning=1, quick=True),
    Input("samples", samples),
    Input("congestion", congestion),
    Input("connection", connection, beginning=1, quick=True),
    Input("probes", probes, quick=True),
    Input("black_holes", black_holes),
    Input("queues", queues),
    Input("paths", paths),
    Input("all_events", all_events, beginning=2, quick=True),
    Input("timers", timers, quick=True),
    Input("mixed", lambda: in_pairs(received_each(in_blocks, 1), timers())),
    *(Input(f"random_{kind}", lambda kind=kind: at_random_of(kind)) for kind in KINDS),
]


# ---- what a run takes

def write_lines(an_input, count, script):
    with open(script, "w") as out:
        out.writelines(line + "\n" for line in itertools.islice(an_input.lines(), count))


@functools.lru_cache(maxsize=None)
def replay():
    """The program that was proved from the sources here, or else the prebuilt one of these sources."""
    if tree.is_built("recovery_program", "recovery_program"):
        return tree.built_program("recovery_program")
    return tree.prebuilt("recovery_program", "bin/recovery-replay")


def instructions(script, folder, program=None):
    """All that the process executes, its start among them."""
    command = ["valgrind", "--tool=callgrind", f"--callgrind-out-file={folder / 'callgrind.out'}", program or replay()]
    with open(script, "rb") as lines:
        run = subprocess.run(command, stdin=lines, stdout=subprocess.DEVNULL, stderr=subprocess.PIPE, check=True)
    return int(re.search(rb"Collected : (\d+)", run.stderr).group(1))


def peak_memory(script, folder):
    """The peak memory of the process, in bytes."""
    report = folder / "peak"
    with open(script, "rb") as lines:
        subprocess.run(["time", "-f", "%M", "-o", report, replay()], stdin=lines, stdout=subprocess.DEVNULL, check=True)
    return int(report.read_text()) * 1024


def costs(an_input, count):
    """Instructions and bytes for each line, over this number of lines after the beginning."""
    with tempfile.TemporaryDirectory() as name:
        folder = pathlib.Path(name)
        script = folder / "script"

        def taken(lines):
            write_lines(an_input, lines, script)
            return instructions(script, folder), peak_memory(script, folder)

        before = taken(an_input.beginning)
        after = taken(an_input.beginning + count)
    return [(b - a) / count for a, b in zip(before, after)]


def row(an_input, counts, pool):
    """The figures of an input, once they are there."""
    runs = [pool.submit(costs, an_input, count) for count in counts]

    def text():
        figures = [run.result() for run in runs]
        taken = [figure[0] for figure in figures]
        mark = "*" if max(taken) > 1.05 * min(taken) else " "
        return "".join([f"{an_input.name:{WIDTH}}", *(f"{a:13,.0f}" for a in taken), mark,
                        *(f"{b:13,.0f}" for _, b in figures)])
    return text


WIDTH = max(len(each.name) for each in INPUTS)


# ---- compared with plain Rust

def built(folder):
    """Our program, and those of tests/careful."""
    programs = [replay()]
    for form in FORMS:
        options = ["--edition", "2024", "-C", "opt-level=3", "-C", "lto", "-C", "codegen-units=1", "-C", "panic=abort"]
        subprocess.run(["rustc", *options, CAREFUL / f"{form}.rs", "-o", folder / form], check=True)
        programs.append(folder / form)
    return programs


def processor_time(script, program):
    """Seconds of one run, the system's part among them."""
    with open(script, "rb") as lines:
        run = subprocess.Popen([program], stdin=lines, stdout=subprocess.DEVNULL)
        _, _, used = os.wait4(run.pid, 0)
    return used.ru_utime + used.ru_stime


def least_times(script, programs, runs):
    """The shortest of several runs of each program; they run in turn."""
    times = [[processor_time(script, program) for program in programs] for _ in range(runs)]
    return [min(each) for each in zip(*times)]


def written(script, program):
    with open(script, "rb") as lines:
        return subprocess.run([program], stdin=lines, stdout=subprocess.PIPE, check=True).stdout


def beside(an_input, count, programs, runs, folder):
    """Instructions and nanoseconds a line, of each program."""
    scripts = [folder / "beginning", folder / "whole"]
    for script, lines in zip(scripts, [an_input.beginning, an_input.beginning + count]):
        write_lines(an_input, lines, script)
    wanted, *others = [written(scripts[1], program) for program in programs]
    if any(other != wanted for other in others):
        sys.exit(f"bench/run.py: the programs answer {an_input.name} differently")
    counts = [[instructions(script, folder, program) for program in programs] for script in scripts]
    times = [least_times(script, programs, runs) for script in scripts]
    return ([(b - a) / count for a, b in zip(*counts)], [(b - a) * 1e9 / count for a, b in zip(*times)])


def in_columns(figures):
    """Of our program, of the others, and the ratios of ours to theirs."""
    ours, *others = figures
    return "".join([*(f"{figure:8,.0f}" for figure in figures), *(f"{ours / other:10.2f}" for other in others)])


def print_beside(inputs, counts, runs):
    """A row for each input, and the mean of the ratios."""
    os.sched_setaffinity(0, {max(os.sched_getaffinity(0))})
    titles = "".join(f"{title:>8}" for title in ["ours", *FORMS]) + "".join(f"{'/ ' + form:>10}" for form in FORMS)
    print(f"{'of each line':{WIDTH}}{'':9}{'instructions':>{len(titles)}}{'nanoseconds':>{len(titles)}}")
    print(f"{'':{WIDTH}}{'lines':>9}{titles}{titles}")
    ratios = []
    with tempfile.TemporaryDirectory() as name:
        folder = pathlib.Path(name)
        programs = built(folder)
        for each in inputs:
            for count in counts:
                kinds = beside(each, count, programs, runs, folder)
                print(f"{each.name:{WIDTH}}{count:9,}", *(in_columns(kind) for kind in kinds), sep="", flush=True)
                ratios.append([kind[0] / other for kind in kinds for other in kind[1:]])
    means = [f"{sum(column) / len(column):10.2f}" for column in zip(*ratios)]
    half = len(means) // 2
    gap = " " * (8 * (1 + len(FORMS)))
    print(f"{'mean':{WIDTH}}{'':9}{gap}{''.join(means[:half])}{gap}{''.join(means[half:])}")


def above_zero(text):
    if not re.fullmatch("[1-9][0-9]{0,17}", text):
        raise argparse.ArgumentTypeError(f"{text!r} is no whole number above 0")
    return int(text)


def arguments():
    options = argparse.ArgumentParser(description=__doc__, formatter_class=argparse.RawDescriptionHelpFormatter)
    options.add_argument("inputs", nargs="*", metavar="INPUT", help="the names of inputs; none: all")
    options.add_argument("--lines", type=above_zero, nargs="+", help="how many lines are counted")
    options.add_argument("--quick", action="store_true")
    options.add_argument("--jobs", type=above_zero, default=1)
    options.add_argument("--careful", action="store_true", help="also runs programs of plain Rust: careful, listed and plain")
    options.add_argument("--runs", type=above_zero, default=15, help="how many, of which the shortest time counts")
    chosen = options.parse_args()
    unknown = set(chosen.inputs) - {each.name for each in INPUTS}
    if unknown:
        options.error(f"no input has the name {', '.join(sorted(unknown))}")
    return chosen


def missing(tools):
    """Why nothing can be counted here, or None."""
    absent = [it for it in tools if not shutil.which(it)]
    if absent:
        return f"{absent[0]} is not installed"
    try:
        replay()
    except tree.Unfit as why:
        return f"{why}; ./prove builds recovery-replay from the sources here"
    return None


def main():
    chosen = arguments()
    why = missing(["valgrind", "rustc"] if chosen.careful else ["valgrind", "time"])
    if why:
        return f"bench/run.py: {why}"
    inputs = [each for each in INPUTS if each.name in chosen.inputs or not chosen.inputs and (each.quick or not chosen.quick)]
    counts = chosen.lines or ([10**4, 10**5] if chosen.quick else [10**4, 10**5, 10**6])
    if chosen.careful:
        print_beside(inputs, chosen.lines or [10**5], chosen.runs)
        return 0
    width = 13 * len(counts)
    print(f"{'of each line':{WIDTH}}{'instructions':>{width}} {'peak bytes':>{width}}")
    print("".join([f"{'lines':{WIDTH}}", *(f"{count:13,}" for count in counts), " ", *(f"{count:13,}" for count in counts)]))
    with concurrent.futures.ThreadPoolExecutor(chosen.jobs) as pool:
        for text in [row(each, counts, pool) for each in inputs]:
            print(text(), flush=True)
    return 0


if __name__ == "__main__":
    try:
        sys.exit(main())
    except subprocess.CalledProcessError as why:
        sys.exit(f"bench/run.py: {pathlib.Path(why.cmd[0]).name} ended with status {why.returncode}")
