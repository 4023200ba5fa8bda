#!/usr/bin/env python3
"""Runs each command of docs/EXPERIMENTS.md, in its order. Each must end with status 0, print the figures that follow it on the page, and draw the
picture that the documents have of it, if any. If matplotlib is missing, a module stands for it. Prints the time of the slowest command.

The tools of these commands also get files and arguments that they cannot use (tests/hostile.py).

`--programs FOLDER` tests other programs in place of the launchers."""
import argparse
import os
import pathlib
import re
import tempfile
import time
import xml.etree.ElementTree as xml

import tree
from hostile import Calls2Events, Ladder, Plot, Sweep, with_matplotlib  # noqa: F401
from tree import ROOT

PAGE = (ROOT / "docs" / "EXPERIMENTS.md").read_text()
PICTURES = ROOT / "docs" / "pictures"
NAMES = "recovery-link", "recovery-sender", "recovery-pictures"
PROGRAMS = ROOT


def commands():
    """The commands, each with the lines that follow it."""
    found = []
    for line in re.findall(r"^    (.*)$", PAGE, re.M):
        if line.startswith(("./", "examples/", "tools/")):
            found.append((line, []))
        else:
            found[-1][1].append(line)
    return found


COMMANDS = commands()
SHOWN = re.findall(r"\]\(pictures/([^)]+\.svg)\)", PAGE)


def may_plot():
    return tree.ran(["python3", "-c", "import matplotlib"])[0] == 0


class Commands(tree.TestCase):
    """Each command uses what those before it wrote, so all run once, in the order of the page."""

    @classmethod
    def setUpClass(cls):
        folder = tempfile.TemporaryDirectory()
        cls.addClassCleanup(folder.cleanup)
        cls.folder, cls.results = pathlib.Path(folder.name), {}
        cls.environment = {**(os.environ if may_plot() else with_matplotlib(cls.folder))}
        if PROGRAMS != ROOT:
            cls.environment["RECOVERY_LINK"] = str(PROGRAMS / "recovery-link")
        for name, target in [(it, PROGRAMS / it) for it in NAMES] + [(it, ROOT / it) for it in ("tools", "examples")]:
            os.symlink(target, cls.folder / name)
        took = [(cls.run_command(line), line) for line, _ in COMMANDS]
        print(f"experiments: {sum(it for it, _ in took):.1f} s; the slowest took {max(took)[0]:.1f} s: {max(took)[1]}", flush=True)

    @classmethod
    def run_command(cls, line):
        """Keeps the status of a command, and the lines that it writes. Returns the seconds that it takes."""
        began = time.time()
        status, output, errors = tree.ran(["timeout", "60", "bash", "-c", line], "", cwd=cls.folder, text=True, env=cls.environment)
        cls.results[line] = status, (output + errors).splitlines()
        return time.time() - began

    @tree.each(COMMANDS)
    def test_command(self, line, expected):
        self.assertEqual(self.results[line], (0, expected))

    @tree.each(zip(SHOWN))
    def test_picture(self, name):
        """It is the one that the documents have."""
        text = (self.folder / name).read_text()
        self.assertEqual(xml.fromstring(text).tag, "{http://www.w3.org/2000/svg}svg")
        self.assertEqual(text, (PICTURES / name).read_text())


if __name__ == "__main__":
    parser = argparse.ArgumentParser(add_help=False)
    parser.add_argument("--programs", type=lambda it: pathlib.Path(it).resolve(), default=PROGRAMS)
    given, words = parser.parse_known_args()
    PROGRAMS = given.programs
    tree.main("experiments", words)
