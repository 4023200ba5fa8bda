#!/usr/bin/env python3
"""Tests that each script of examples/ has the answers that its .out file shows."""
import tree
from tree import ROOT

SCRIPTS = [(it.stem, it) for it in sorted((ROOT / "examples").glob("*.txt"))]


class Examples(tree.TestCase):
    @tree.each(SCRIPTS)
    def test_script(self, name, path):
        script = path.read_bytes()
        self.assertAnswers(script, tree.ran([ROOT / "recovery-replay"], script), (0, path.with_suffix(".out").read_bytes(), b""))


if __name__ == "__main__":
    tree.main("examples")
