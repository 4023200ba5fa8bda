#!/usr/bin/env python3
"""Plays the runs of tests/progress.py on the proved program and on the same job in plain Rust (tests/careful/pair.rs), as tests/alike.py does with
events: two endpoints, a hostile network, and then a good one.

    tests/alike_pair.py                    100 runs
    tests/alike_pair.py 5000 --seed 1000   5000 runs, the first from this seed
"""
import sys

import alike
import progress
from alike_sender import number

WAKE_UPS = 50  # on the good network


def script(seed):
    """The program's arguments, and the steps of a run."""
    run = progress.Run(seed)
    progress.Prefix(run).play()
    network = progress.Network(run)
    for _ in range(WAKE_UPS):
        if network.wait < progress.LONGEST:
            network.wake_up()
    run.end()
    return run.words, [it.partition(" => ")[0] for it in run.log]


if __name__ == "__main__":
    sys.exit(alike.main(__doc__, progress.OPTIONS.program, "pair.rs", script, number, count=100))
