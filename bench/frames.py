#!/usr/bin/env python3
"""Counts the instructions (valgrind's callgrind) of hostile ACK frames through the Rust crate, and holds each to a linear bound.

A peer chooses what its ACK frames name, and may repeat a frame that acknowledges nothing. The frames here name numbers that the
sender has forgotten (bench/frames.rs), so no packet pays for their cost. A frame with R ranges, over S slots between its first and
its last number, may cost at most

    5,000 + 400 R + 40 S

instructions. A sender that looks each range up once, by a logarithm, and reads each slot at most once, stays well below. A walk from
each range over all the empty slots that follow it exceeds the bound at least five times.

    bench/frames.py            flights of 1 to 100,000 packets, and frames of 1, 100 and 500 ranges: a minute
    bench/frames.py --quick    flights of 1 and 10,000 packets, and frames of 500 ranges (tests/rust.py runs it)
    bench/frames.py --check    checks the program against the crate, and counts nothing: it needs no library

The status is 1 if a frame costs more than its bound, or cannot be counted. The static library has to be there: tests/rust.py
--library builds it, or QUIC_RECOVERY_LIB names the folder that holds it.
"""
import argparse
import pathlib
import re
import shutil
import subprocess
import sys
import tempfile

ROOT = pathlib.Path(__file__).resolve().parent.parent
CRATE = ROOT / "rust" / "quic-recovery"
SOURCE = ROOT / "bench" / "frames.rs"
FLIGHTS = [1, 100, 1_000, 10_000, 100_000]
RANGES = [1, 100, 500]
QUICK = [1, 10_000], [500]
KEPT = 1_001  # this many more numbers are forgotten than packets are in flight
FRAMES = 10

PACKAGE = """[package]
name = "frames"
version = "0.0.0"
edition = "2021"
publish = false

[[bin]]
name = "frames"
path = "{source}"

[dependencies]
quic-recovery = {{ path = "{crate}" }}
"""


def bound(ranges, slots):
    """The most instructions that a frame may take."""
    return 5_000 + 400 * ranges + 40 * slots


def shapes(flights, counts):
    """Flights with ranges and their width: of one number each, and as wide as the forgotten numbers let them be."""
    for flight in flights:
        for count in counts:
            widest = (flight + KEPT) // count - 1
            yield from ((flight, count, width) for width in sorted({1, widest}))


def cargo(folder, command):
    """Has cargo build or check the program, in a package of its own."""
    pathlib.Path(folder, "Cargo.toml").write_text(PACKAGE.format(source=SOURCE, crate=CRATE))
    words = ["cargo", command, "--release", "--offline", "--quiet", "--target-dir", "target"]
    subprocess.run(words, cwd=folder, check=True)
    return pathlib.Path(folder, "target", "release", "frames")


def taken(program, *words):
    """The instructions of a whole run."""
    command = ["valgrind", "--tool=callgrind", "--callgrind-out-file=/dev/null", program, *map(str, words)]
    run = subprocess.run(command, capture_output=True, text=True)
    found = re.search(r"Collected : (\d+)", run.stderr)
    if run.returncode or not found:
        sys.exit(f"bench/frames.py: {' '.join(map(str, words))}: {run.stderr.strip()}")
    return int(found.group(1))


def cost(program, *shape):
    """The instructions of one frame."""
    return (taken(program, *shape, 2 * FRAMES) - taken(program, *shape, FRAMES)) / FRAMES


def count(program, flights, counts):
    """A line for each shape. Returns how many shapes keep the bound, and how many exceed it."""
    verdicts = []
    print(f"{'in flight':>9} {'ranges':>7} {'slots':>8} {'a frame':>11} {'a range':>8} {'bound':>10}")
    for flight, ranges, width in shapes(flights, counts):
        slots, found = ranges * (width + 1), cost(program, flight, ranges, width)
        verdicts.append(found <= bound(ranges, slots))
        print(f"{flight:9,} {ranges:7,} {slots:8,} {found:11,.0f} {found / ranges:8,.0f} {bound(ranges, slots):10,}"
              f"{'' if verdicts[-1] else '  EXCEEDED'}", flush=True)
    return sum(verdicts), verdicts.count(False)


def main():
    parser = argparse.ArgumentParser(description=__doc__, formatter_class=argparse.RawDescriptionHelpFormatter)
    parser.add_argument("--quick", action="store_true", help="two flights, and the most ranges")
    parser.add_argument("--check", action="store_true", help="checks the program, and counts nothing")
    chosen = parser.parse_args()
    flights, counts = QUICK if chosen.quick else (FLIGHTS, RANGES)
    missing = [it for it in ("valgrind", "cargo") if not shutil.which(it) and not (chosen.check and it == "valgrind")]
    if missing:
        return f"bench/frames.py: {' and '.join(missing)} not installed"
    with tempfile.TemporaryDirectory() as folder:
        try:
            program = cargo(folder, "check" if chosen.check else "build")
        except subprocess.CalledProcessError:
            return "bench/frames.py: the program was not built; tests/rust.py --library builds the library that it links"
        if chosen.check:
            return 0
        passed, failed = count(program, flights, counts)
    print(f"frames: {passed} passed, {failed} failed")
    return 1 if failed else 0


if __name__ == "__main__":
    sys.exit(main())
