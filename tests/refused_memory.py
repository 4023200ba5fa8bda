#!/usr/bin/env python3
"""Lets each memory allocation fail in turn: those of the script of crates/quic_recovery_refused_memory, and those of the program on a
script of its own. It runs the programs that were proved and built, with tests/refused_memory.c loaded before the C library. That makes
the Nth allocation fail.
"""
import argparse
import collections
import os
import re
import subprocess
import sys
import tempfile

import tree
from tree import ROOT

REQUESTS = 200  # more than each of the scripts makes

# what has to be hit in each of the two ways in which the script of the library is played
EVENTS = ["received", "send", "send with a queue", "send that forgets", "lost with a queue", "poll-mtu", "issue-ids",
          "queue-probe", "new-path that goes on"]

# each line of the program's script, and whether its event fails if an allocation fails
SCRIPT = [("poll-mtu 0", True), ("send data 0 100 1 - 5 6 7 8", False), ("send data 0 100 1 - 9", False), ("received data 0 0 1", True),
          ("lost data 1", False), ("lost data 2", True), ("take-pending data", False), ("issue-ids 0 1 14", True),
          ("queue-probe data 0", False), ("new-path 0 1 0", False), ("new-path 0 2 1", False), ("send initial 0 100 1 - 5", True),
          ("queue-probe initial 0", False), ("take-pending initial", False), ("in-flight current", False), ("next-id", False)]
REFUSED = "refused 1 NoMemory"


class Failed(Exception):
    """What is wrong."""


def ran(crate, given, shim=None, number=0):
    """Status, output and errors of the program that a crate was built as, with a failure of the allocation of that number, from 1 on."""
    program = ROOT / "crates" / crate / "out" / crate
    if not tree.is_built(crate, crate):
        raise tree.Unfit(f"{crate} must be built first: ./prove {crate}")
    refuses = {"LD_PRELOAD": str(shim), "REFUSED_REQUEST": str(number)} if shim else {}
    return tree.ran([program], given, text=True, env={**os.environ, **refuses})


def in_turn(told):
    """How often each operation failed, by the results of the failed allocations, in their order."""
    made = sum(it is not None for it in told)
    if told[-1] is not None:
        raise Failed("a script makes more allocations than are tried: raise REQUESTS")
    if None in told[:made]:
        raise Failed(f"allocation {told.index(None) + 1} failed, and no error reports it")
    return collections.Counter(told[:made])


def library(shim):
    """The script of the library: each allocation fails once."""

    def told(number):
        status, output, errors = ran("quic_recovery_refused_memory", "", shim, number)
        found = re.fullmatch(r"(one by one|run): (?:step \d+, (.*), was refused memory, and that left no trace|(.*) was refused memory)\n", output)
        if status or not found and output != "nothing was refused memory\n":
            raise Failed(f"request {number}: status {status}\n{output}{errors}")
        return found and (found[1], found[2] or found[3])

    hit = in_turn([told(number) for number in range(1, REQUESTS + 1)])
    wanted = {(how, it) for how in ("one by one", "run") for it in EVENTS}
    wanted |= {("one by one", "a recovery"), ("run", "a run as a whole"), ("run", "a list of events")}
    missing = wanted - hit.keys()
    if missing:
        raise Failed(f"no request was refused of: {missing}")
    if hit["run", "a run as a whole"] != hit["one by one", "a recovery"] + 1:
        raise Failed("a run as a whole fails at other allocations than those of its state and the one of its list of answers")
    return sum(hit.values())


def text_of(lines):
    return "".join(f"{it}\n" for it in lines)


def program(shim):
    """The program: an event that fails is answered with the error, and the others as if it were not there; else the run ends as a whole."""
    lines = [line for line, _ in SCRIPT]
    answers = ran("recovery_program", text_of(lines))[1].splitlines()
    if REFUSED in answers:
        raise Failed("an allocation failed with enough memory")
    wanted = {(0, text_of(answers), ""): None, (1, "", "replay: out of memory\n"): "the run as a whole"}
    for at, (line, is_refused) in enumerate(SCRIPT):
        if is_refused:
            left = ran("recovery_program", text_of([*lines[:at], *lines[at + 1 :]]))[1].splitlines()
            wanted[0, text_of([*left[:at], REFUSED, *left[at:]]), ""] = line

    def told(number):
        came = ran("recovery_program", text_of(lines), shim, number)
        if came not in wanted:
            raise Failed(f"request {number}: {came}")
        return wanted[came]

    hit = in_turn([told(number) for number in range(1, REQUESTS + 1)])
    missing = {*wanted.values()} - {None} - hit.keys()
    if missing:
        raise Failed(f"no request was refused of: {missing}")
    return sum(hit.values())


def main():
    parser = argparse.ArgumentParser(description=__doc__, formatter_class=argparse.RawDescriptionHelpFormatter)
    parser.parse_args()
    try:
        with tempfile.TemporaryDirectory() as folder:
            shim = f"{folder}/refused_memory.so"
            subprocess.run(["cc", "-shared", "-fPIC", "-o", shim, ROOT / "tests" / "refused_memory.c"], check=True)
            of_library, of_program = library(shim), program(shim)
    except (Failed, tree.Unfit, OSError, subprocess.CalledProcessError) as wrong:
        sys.exit(f"refused memory: {wrong}")
    print(f"refused memory: {of_library} requests of the library's script and {of_program} of the program's, each refused in turn: as it must be")


if __name__ == "__main__":
    main()
