#!/usr/bin/env python3
"""Proves the program recovery-replay with the crates that it depends on, and builds it. Crates that do not depend on each other
are proved at the same time. After an interrupt the next call goes on from there: what was proved is kept.

    ./prove                 on as many processors as there are, and memory for them
    ./prove --jobs 2        on two
    ./prove recovery_ffi    another crate instead: a program, a library, or the static library

The toolchain lets only one run at a time work in a crate and its dependencies. So each crate is proved in a small tree of its own
under out/prove, with links to the builds of its dependencies. Only one ./prove or ./check runs in a tree at a time; another waits.
"""
import argparse
import heapq
import os
import re
import shutil
import signal
import subprocess
import sys
import tempfile
import threading
import time
from concurrent.futures import FIRST_COMPLETED, ThreadPoolExecutor, wait

import tree
from tree import ROOT

TREES = ROOT / "out" / "prove"
PROGRAM = "recovery_program"
MOST_EACH = 4  # processors for one crate
MEMORY_EACH = 2_500_000  # kB, of one crate's proof

# the seconds of each proof on four processors, as they are shared here; the proofs so far give the ratio of this machine to these times
SECONDS = {
    "recovery_base": 75, "recovery_queue": 55, "recovery_acks": 45, "recovery_congestion": 60, "recovery_cubic": 60, "recovery_mtud": 90,
    "recovery_ids": 95,
    "recovery_packet_numbers": 25, "recovery_config": 25, "recovery_spaces": 140, "recovery_paths": 85, "recovery_events": 50,
    "recovery_history": 80, "quic_recovery": 270, "recovery_script_syntax": 185, "recovery_replay": 90, "recovery_program": 40,
    "recovery_trace": 150, "recovery_pictures": 210, "recovery_sender": 330, "recovery_sender_program": 120,
    "recovery_engine": 110, "recovery_stack": 200, "recovery_ffi": 70, "recovery_embedding": 250, "recovery_link": 260,
}
SECONDS_A_LINE = 0.06  # for a crate that is not listed there
SECONDS_IF_KEPT = 6  # for one that is proved already
FIRST_SECONDS = 60  # the weight of the assumption that the ratio is 1


def is_program(name):
    return (ROOT / "crates" / name / "src" / "main.rt").is_file()


def input_of(name):
    """What a program reads when it was built and is run, as the gate runs it."""
    own = ROOT / "crates" / name / "stdin"
    return own if own.is_file() else os.devnull


def arguments_of(name):
    own = ROOT / "crates" / name / "args"
    return ["--", *own.read_text().splitlines()] if own.is_file() else []


def processor_of(name):
    """The processor that a static library is compiled for."""
    return tree.BASELINE if re.search(rf"^{name} +staticlib\b", (ROOT / "crates.txt").read_text(), re.M) else []


def sources_of(name):
    return [it for it in (ROOT / "crates" / name).rglob("*.*") if it.suffix in (".rt", ".antt") and "out" not in it.parts]


def built_of(name):
    """What a crate can be built as, below its folder `out`."""
    return tree.rlib_format(name), name, f"lib{name}.a"


def is_kept(name):
    """Whether a crate was built here from the sources as they are."""
    return any(tree.is_built(name, it) for it in built_of(name))


def seconds_of(name):
    """How long the proof of a crate will take."""
    if name in SECONDS:
        return SECONDS[name]
    return SECONDS_A_LINE * sum(it.read_bytes().count(b"\n") for it in sources_of(name))


class Plan:
    """Which crates are proved next, and how long all will take: the longest chain of dependencies goes first."""

    def __init__(self, needs, jobs):
        self.needs, self.jobs, kept = needs, jobs, set()
        for name, below in needs.items():
            if kept.issuperset(below) and is_kept(name):
                kept.add(name)
        self.seconds = {it: SECONDS_IF_KEPT if it in kept else seconds_of(it) for it in needs}
        self.chain = {}  # the seconds of a crate and of the longest chain of crates above it
        for name in reversed(list(needs)):
            above = [self.chain[it] for it in needs if name in needs[it]]
            self.chain[name] = self.seconds[name] + max(above, default=0)

    def next(self, done, running):
        """The crates that can begin, each with how many processors it gets. Those that run have theirs."""
        free = self.jobs - sum(running.values())
        ready = [it for it in self.needs if it not in done and it not in running and done.issuperset(self.needs[it])]
        ready.sort(key=lambda it: -self.chain[it])
        for at, name in enumerate(ready):
            if free > 0:
                taken = max(1, min(MOST_EACH, free // (len(ready) - at)))
                free -= taken
                yield name, taken

    def seconds_left(self, done, running, spent, times):
        """How long it takes until all are proved, given the ratio of real to expected times, and what the running proofs have spent."""
        done, running, now = set(done), dict(running), 0
        ends = [(max(times * self.seconds[it] - spent[it], times * self.seconds[it] / 10), it) for it in running]
        while len(done) < len(self.needs):
            for name, taken in self.next(done, running):
                running[name] = taken
                ends.append((now + times * self.seconds[name], name))
            heapq.heapify(ends)
            now, name = heapq.heappop(ends)
            done.add(name)
            running.pop(name)
        return now


class Progress:
    """One line that moves on a terminal, and else a line for each crate."""

    def __init__(self, plan):
        self.plan, self.done, self.running, self.began = plan, set(), {}, {}
        self.thought = self.took = FIRST_SECONDS  # of what was proved so far

    def begins(self, name, processors):
        self.running[name], self.began[name] = processors, time.time()

    def ended(self, name):
        self.done.add(name)
        self.running.pop(name)
        seconds, thought = time.time() - self.began[name], self.plan.seconds[name]
        if seconds > thought / 5:  # else it was proved before
            self.thought, self.took = self.thought + thought, self.took + seconds

    def is_done(self):
        return len(self.done) == len(self.plan.needs)

    def text(self):
        count = f"prove: {len(self.done)} of {len(self.plan.needs)} crates"
        if self.is_done():
            return count
        spent = {it: time.time() - self.began[it] for it in self.running}
        minutes = round(self.plan.seconds_left(self.done, self.running, spent, self.took / self.thought) / 60)
        now = f"; now {', '.join(self.running)}" if self.running else ""
        return f"{count}, about {f'{minutes} minutes' if minutes > 1 else 'a minute'} more{now}"

    def show(self, end=""):
        if sys.stderr.isatty():
            print(f"\r\033[K{self.text()[:os.get_terminal_size(2).columns - 1]}{end}", end="", file=sys.stderr, flush=True)
        elif end:
            print(self.text(), file=sys.stderr, flush=True)


class Builder:
    """Runs the toolchain on a crate, each in a tree of its own, and can be stopped."""

    def __init__(self, needs):
        self.needs, self.lock, self.calls, self.is_stopped = needs, threading.Lock(), set(), False

    def below(self, name):
        """All dependencies of a crate."""
        found = set(self.needs[name])
        return found.union(*map(self.below, found))

    def lend(self, name):
        """Makes the tree of a crate, and moves there what earlier runs kept of it."""
        crates, names = TREES / name / "crates", {name, *self.below(name)}
        for it in names:
            for part in "src", "specs", "proofs":
                if (ROOT / "crates" / it / part).is_dir():
                    shutil.copytree(ROOT / "crates" / it / part, crates / it / part)
            if it != name:
                shutil.copytree(ROOT / "crates" / it / "out" / "rlib", crates / it / "out" / "rlib", copy_function=link)
        (TREES / name / "crates.txt").write_text(tree.list_of(names))
        move(ROOT / "crates" / name / "out", crates / name / "out")
        return crates / name

    def build(self, name, jobs):
        """What the toolchain says where the crate is not proved, and nothing where it is."""
        with open(input_of(name)) as given, tempfile.TemporaryFile("w+", errors="replace") as log:
            with self.lock:
                if self.is_stopped:
                    return "stopped\n"
                how = {"cwd": self.lend(name), "stdin": given, "stdout": log, "stderr": subprocess.STDOUT}
                sources = tree.sum_of_sources(name, TREES / name)  # of what is proved, whatever is edited meanwhile
                words = ["rt", "run" if is_program(name) else "lib", "--jobs", str(jobs), *processor_of(name), *arguments_of(name)]
                call = subprocess.Popen(words, start_new_session=True, **how)
                self.calls.add(call)
            status = call.wait()
            with self.lock:
                self.calls.discard(call)
            take_back(name)
            if status:
                log.seek(0)
                return log.read() or f"rt ended with status {status}\n"
            return tree.record(name, sources, *built_of(name))

    def stop(self):
        with self.lock:
            self.is_stopped = True
            for call in self.calls:
                os.killpg(call.pid, signal.SIGTERM)


def link(old, new):
    try:
        os.link(old, new)
    except OSError:
        shutil.copy2(old, new)


def move(old, new):
    if old.is_dir():
        shutil.rmtree(new, ignore_errors=True)
        new.parent.mkdir(parents=True, exist_ok=True)
        old.rename(new)


def take_back(name):
    """What was kept of a crate moves back from its tree, which goes."""
    move(TREES / name / "crates" / name / "out", ROOT / "crates" / name / "out")
    shutil.rmtree(TREES / name, ignore_errors=True)


def prove(needs, jobs):
    """The first crate that is not proved, with what the toolchain says of it; or nothing."""
    plan, builder, running, failed = Plan(needs, jobs), Builder(needs), {}, None
    progress = Progress(plan)
    with ThreadPoolExecutor(jobs) as pool:
        try:
            while not failed and not progress.is_done():
                for name, taken in list(plan.next(progress.done, progress.running)):
                    running[pool.submit(builder.build, name, taken)] = name
                    progress.begins(name, taken)
                progress.show()
                for call in wait(running, timeout=5, return_when=FIRST_COMPLETED).done:
                    name = running.pop(call)
                    if call.result() is not None:
                        failed = name, call.result()
                    else:
                        progress.ended(name)
                    progress.show("\n" if progress.is_done() or not sys.stderr.isatty() else "")
        finally:
            builder.stop()
    return failed


def prove_alone(target, jobs):
    """Proves and builds a crate in a tree in which nobody else does."""
    for left in TREES.glob("*"):  # of a run that was killed
        take_back(left.name)
    try:
        failed = prove(tree.made_of(target), jobs)
    finally:
        shutil.rmtree(TREES, ignore_errors=True)
    if failed:
        sys.exit(f"\n{failed[1]}prove: {failed[0]} is not proved")
    how = f": ./{tree.LAUNCHERS[target]} runs it" if target in tree.LAUNCHERS else ""
    say(f"{target} is proved and built{how}")


def say(text):
    print(f"prove: {text}", file=sys.stderr, flush=True)


def main():
    parser = argparse.ArgumentParser(prog="prove", description=__doc__, formatter_class=argparse.RawDescriptionHelpFormatter)
    parser.add_argument("--version", action="version", version=tree.version())
    parser.add_argument("--jobs", type=int, default=tree.lanes(MEMORY_EACH), help="how many processors")
    parser.add_argument("crate", nargs="?", default=PROGRAM, choices=tree.crates(), metavar="CRATE", help="the crate to prove, with its dependencies")
    given = tree.arguments(parser)
    tree.stop_on_signals()
    try:
        warning = tree.other_logic()
        if warning:
            say(warning)
        tree.reject_committed_builds()
        with tree.alone("./prove", say):
            prove_alone(given.crate, max(1, given.jobs))
    except tree.Unfit as why:
        sys.exit(f"prove: {why}")
    except KeyboardInterrupt:
        sys.exit("\nprove: broken off; ./prove goes on from here")


if __name__ == "__main__":
    tree.ends_quietly(main)
