#!/usr/bin/env python3
"""Counts the instructions (valgrind's callgrind) of an event through the Rust crate, and of the same call on the layer in plain Rust
(tests/careful/layer.rs). It runs N and 2N calls, and divides the difference by N. `acked` and `lost` follow a send, which is subtracted.

    bench/events.py              each kind
    bench/events.py send lost    these
    bench/events.py --sender     a packet that is sent and acknowledged through a sender, and by the careful peer (tests/careful/peer.rs);
                                 each packet carries an item, and `transmit` is asked for it
    bench/events.py --sender --time    also the processor time, the shortest of nine runs in turn

The static library has to be there: tests/rust.py --library builds it."""
import itertools
import os
import pathlib
import re
import shutil
import subprocess
import sys
import tempfile

ROOT = pathlib.Path(__file__).resolve().parent.parent
CRATE = ROOT / "rust" / "quic-recovery"
KINDS = "received send acked lost in_flight set_timer next_timeout sample transmit pacer_check check_ack take_pending".split()
CALLS = 20_000
ROUNDS = 2_000
TIMED = 2_000_000  # packets of a run whose time is taken


def example(name):
    """An example of the crate."""
    command = ["cargo", "build", "--release", "--offline", "--example", name]
    subprocess.run(command, cwd=CRATE, check=True, env={**os.environ, "CARGO_TERM_QUIET": "true"})
    return CRATE / "target" / "release" / "examples" / name


def plain(folder, name):
    """A program in plain Rust."""
    program = pathlib.Path(folder, name)
    flags = ["--edition", "2024", "-C", "opt-level=3", "-C", "codegen-units=1", "-C", "panic=abort"]
    subprocess.run(["rustc", *flags, ROOT / "tests" / "careful" / f"{name}.rs", "-o", program], check=True)
    return program


def taken(program, *words):
    command = ["valgrind", "--tool=callgrind", "--callgrind-out-file=/dev/null", program, *map(str, words)]
    run = subprocess.run(command, capture_output=True, text=True, check=True)
    return int(re.search(r"Collected : (\d+)", run.stderr).group(1))


def cost(program, kind):
    return (taken(program, kind, 2 * CALLS) - taken(program, kind, CALLS)) / CALLS


def seconds(command):
    """The processor time of a run."""
    before = os.times()
    subprocess.run(list(map(str, command)), check=True)
    after = os.times()
    return after.children_user + after.children_system - before.children_user - before.children_system


def packets(folder, timed):
    """A packet through a sender with each controller, and by the peer: by how many are in flight, and for how many an ACK is."""
    ours, peer = example("rounds"), plain(folder, "peer_rounds")
    programs = [[peer], [ours, "reno"], [ours, "cubic"]]
    print("instructions of a packet      peer    NewReno  ratio     CUBIC" + ("   time of NewReno" if timed else ""))
    for flight, each in itertools.product((10, 100, 10_000), (1, 2, 10)):
        costs = [
            (taken(*words, flight, 2 * ROUNDS, each) - taken(*words, flight, ROUNDS, each)) / (ROUNDS * each) for words in programs
        ]
        line = f"{flight:6} in flight, an ACK for {each:2} {costs[0]:7.0f} {costs[1]:9.0f} {costs[1] / costs[0]:7.2f} {costs[2]:9.0f}"
        if timed:
            runs = [[seconds([*words, flight, TIMED // each, each]) for words in programs[:2]] for _ in range(9)]
            line += f" {min(run[1] for run in runs) / min(run[0] for run in runs):10.2f}"
        print(line, flush=True)


def main():
    if sys.argv[1:2] == ["--sender"] and set(sys.argv[2:]) <= {"--time"} and shutil.which("valgrind"):
        with tempfile.TemporaryDirectory() as folder:
            return packets(folder, "--time" in sys.argv)
    chosen = sys.argv[1:] or KINDS
    unknown = sorted(set(chosen) - set(KINDS))
    if unknown:
        return f"bench/events.py: no kind has the name {', '.join(unknown)}; there are {', '.join(KINDS)}"
    if not shutil.which("valgrind"):
        return "bench/events.py: valgrind is not installed"
    with tempfile.TemporaryDirectory() as folder:
        programs = example("calls"), plain(folder, "calls")
        ratios, sends = [], [cost(it, "send") for it in programs]
        print("instructions of a call    ours   plain   ratio")
        for kind in chosen:
            ours, careful = (cost(it, kind) - (sent if kind in ("acked", "lost") else 0) for it, sent in zip(programs, sends))
            ratios.append(ours / careful)
            print(f"{kind:22} {ours:7.0f} {careful:7.0f} {ours / careful:7.2f}", flush=True)
        print(f"mean {sum(ratios) / len(ratios):40.2f}")
    return 0


if __name__ == "__main__":
    sys.exit(main())
