#!/usr/bin/env python3
"""Tests what a new user meets: on fresh Debian systems, without the Rattle toolchain, a clone of HEAD gives its first answer, passes ./check,
and is called from Rust, C and C++ as docs/INSTALL.md says.

    tests/fresh.py                  all systems, a quarter of an hour
    tests/fresh.py -k bookworm      those with this in their names

It needs root, and mmdebstrap and git of the machine; ./check does not run it. The packages come from where this machine has its own:
each system is made from a copy of the machine's sources file, with another suite.
"""
import pathlib
import re
import subprocess
import tempfile

import tree
from tree import ROOT

SOURCES = pathlib.Path("/etc/apt/sources.list.d/debian.sources")
HOME = "root/a clone of it's"  # with what a shell takes apart
PATH = "/usr/local/bin:/usr/bin:/bin"
TOOLS = "git make cmake pkg-config gcc g++ binutils ca-certificates"

# the suites, and for each what cargo is called there: bookworm's own is older than the crate's rust-version
SYSTEMS = {"bookworm": "cargo-web rustc-web", "trixie": "cargo rustc"}

OWN_CRATE = """use quic_recovery::{Instant, RecoveryConfig, Sender, Side, SpaceId};

fn main() {
    let start = Instant::from_nanos(1);
    let mut sender = Sender::established(Side::Client, &RecoveryConfig::default(), start).unwrap();
    println!("{:?}", sender.transmit(start, 1200, SpaceId::Data, true).unwrap());
}
"""

# what is tried where compilers are, each with a part of what it prints
CALLS = [
    ("an example in Rust", "cd rust/quic-recovery && cargo run --offline --release --example sender", "all 200 were acknowledged"),
    ("a crate of one's own", """clone=$PWD && cd && cargo new --quiet --vcs none own && cd own &&
        cargo add --quiet --offline --path "$clone/rust/quic-recovery" && cat >src/main.rs && cargo run --offline""", "Transmitted"),
    ("a package", "make package CARGOFLAGS=--offline", "Packaged"),
    ("a program in C", """make install PREFIX="$HOME/it's here" && export PKG_CONFIG_PATH="$HOME/it's here/lib/pkgconfig" &&
        eval cc -O2 rust/c/transfer.c "$(pkg-config --cflags --libs quic-recovery-static)" -o ~/transfer && ~/transfer""",
     "200 of 200 items were acknowledged"),
    ("a program in C++", "g++ -Wall -Wextra -Werror -Irust/c rust/c/main.cpp prebuilt/*/libquic_recovery.a -o ~/main && ~/main && echo it ends well",
     "it ends well"),
]


class System:
    """A Debian system in a folder, with a clone and without the toolchain."""

    def __init__(self, folder, suite, packages):
        self.root, sources = folder / "root", folder / "debian.sources"
        sources.write_text(re.sub(r"\bbookworm\b", suite, SOURCES.read_text()))
        words = ["mmdebstrap", "--quiet", "--variant=minbase", f"--include={','.join(packages)}", suite, self.root, sources]
        subprocess.run(words, check=True, stdin=subprocess.DEVNULL)
        subprocess.run(["git", "clone", "-q", ROOT, self.root / HOME], check=True)

    def ran(self, command, given=""):
        """Status and output of a command in the clone."""
        inside = ["chroot", self.root, "env", "-i", f"PATH={PATH}", "HOME=/root", "bash", "-c", f'cd "/$0" && {command}\nexit $?', HOME]  # a shell stays, to reap
        words = ["unshare", "--mount", "--pid", "--fork", f"--mount-proc={self.root / 'proc'}", *inside]
        run = subprocess.run(words, input=given, stdout=subprocess.PIPE, stderr=subprocess.STDOUT, text=True, errors="replace")
        return run.returncode, run.stdout


class Fresh(tree.TestCase):
    def on(self, suite, *packages):
        folder = tempfile.TemporaryDirectory()
        self.addCleanup(folder.cleanup)
        return System(pathlib.Path(folder.name).resolve(), suite, packages)

    def assertPrints(self, system, command, wanted, given=""):
        status, output = system.ran(command, given)
        self.assertEqual(status, 0, output)
        self.assertIn(wanted, output)

    def answers_and_checks(self, system):
        """The first answer, and ./check, which says in its first and last line that nothing is proved."""
        answer = (ROOT / "examples" / "received.out").read_text()
        self.assertEqual(system.ran("./recovery-replay < examples/received.txt"), (0, answer))
        status, output = system.ran("./check")
        self.assertEqual(status, 0, output)
        lines = output.splitlines()
        self.assertIn("nothing is proved here: the Rattle toolchain is missing", lines[0])
        self.assertRegex(lines[-1], r"^unproved: \d+ passed, 0 failed, \d+ skipped$")

    @tree.each([(it,) for it in SYSTEMS])
    def test_python_alone(self, suite):
        self.answers_and_checks(self.on(suite, "python3"))

    @tree.each(SYSTEMS.items())
    def test_with_compilers(self, suite, cargo):
        system = self.on(suite, "python3", *TOOLS.split(), *cargo.split())
        self.answers_and_checks(system)
        for name, command, wanted in CALLS:
            with self.subTest(name):
                self.assertPrints(system, command, wanted, OWN_CRATE)
        self.assertEqual(system.ran("git status --short"), (0, ""))

    @tree.each([(it,) for it in SYSTEMS])
    def test_without_python(self, suite):
        system = self.on(suite, "gawk")
        self.assertEqual(system.ran("./recovery-replay < examples/received.txt")[0], 0)
        self.assertEqual(system.ran("./check"), (1, "check: Python 3.8 or later is missing: its command python3 is not on the PATH\n"))


if __name__ == "__main__":
    tree.main("fresh")
