#!/usr/bin/env python3
"""Proves everything from nothing and runs all tests. The steps, in order:

1. Tests that only read the sources and the documents (READINGS in this file).
2. All proofs from nothing, and the tests of the crates: rt ci.
3. The wrong bodies, which the prover must reject, and tests of what was built: the programs, the static library and the prebuilt
   bits (SCRIPTS in this file).

If a step fails, the later steps are left out. The last line of standard output is 'N passed, M failed', and the status is 1 if M is
not 0. Standard error reports the progress, the minutes left and the processor time. The output of rt ci is in out/check.log. If rt ci
fails, it is also on standard error.

Without the toolchain nothing is proved. All that needs no proof runs on the prebuilt programs, in some two minutes. What is left out is
named with its reason, and counted: 'unproved: N passed, M failed, K skipped'. With --all, or if the environment has CI=true, a
missing toolchain is a failure.

After ctrl-C, ./check stops all that it started. It reports what had passed, and counts the interrupt as one failure. Only one
./check or ./prove runs in a tree at a time; another one waits.
"""
import argparse
import contextlib
import functools
import os
import pathlib
import re
import shutil
import signal
import subprocess
import sys
import tempfile
import threading
import time
import typing

import prove as proofs
import tree
from tree import ROOT

LOG = ROOT / "out" / "check.log"
BEGAN = time.time()
MEMORY_EACH = 3_500_000  # kB, of one check
NO_SOURCES = {"out", "target", ".git", "__pycache__"}  # what a copy of the tree leaves out
RUSTC = 1, 82  # the rust-version of rust/quic-recovery


class Part(typing.NamedTuple):
    """A script, and the form of the line in which it reports what passed."""

    title: str
    words: list
    form: str
    needs: str = ""  # the command without which it is skipped: of the toolchain, or of Rust
    minutes: float = 0.1  # of one processor

    @property
    def name(self):
        """What --only calls it."""
        return pathlib.Path(self.words[0]).stem


def reports(name):
    return rf"^{name}: (\d+) passed"


# the tests that only read, which run before rt ci
READINGS = [
    Part("the crates", ["tests/crates.py"], reports("crates")),
    Part("the definitions", ["tests/definitions.py"], reports("definitions")),
    Part("the events", ["tests/events.py"], reports("events")),
    Part("the proofs", ["tests/proofs.py"], reports("proofs")),
    Part("the documents", ["tests/documents.py"], reports("documents")),
    Part("the embedding", ["tests/embedding.py"], reports("embedding")),
    Part("the launchers", ["tests/launchers.py"], reports("launchers")),
]

# the tests that run after rt ci has passed
SCRIPTS = [
    Part("wrong bodies", ["tests/wrong_bodies.py"], reports("wrong bodies"), needs="rt", minutes=45),
    Part("the examples", ["tests/examples.py"], reports("examples")),
    Part("the program", ["tests/program.py"], reports("program")),
    Part("the same in plain Rust", ["tests/alike.py"], reports("alike"), needs="rustc", minutes=0.5),
    Part("one event at a time", ["tests/trace.py"], reports("trace")),
    Part("CUBIC in fractions", ["tests/cubic.py"], reports("cubic")),
    Part("the calls of a sender", ["tests/sender.py"], reports("sender")),
    Part("these calls in plain Rust", ["tests/alike_sender.py"], reports("alike"), needs="rustc", minutes=0.5),
    Part("the pictures", ["tests/pictures.py"], reports("pictures")),
    Part("a simulated link", ["tests/link.py"], reports("link"), minutes=0.5),
    Part("two endpoints", ["tests/pair.py"], reports("pair"), minutes=0.5),
    Part("their steps in plain Rust", ["tests/alike_pair.py"], reports("alike"), needs="rustc", minutes=0.2),
    Part("handshakes after a hostile network", ["tests/progress.py"], reports("progress"), minutes=0.2),
    Part("qlog, out and in", ["tests/qlog.py"], reports("qlog"), minutes=0.5),
    Part("the experiments", ["tests/experiments.py"], reports("experiments")),
    Part("the library from Rust and C", ["tests/rust.py"], reports("rust"), needs="rt", minutes=4),
    Part("refused memory", ["tests/refused_memory.py"], r"^refused memory: (\d+) requests of the library's script and (\d+) ", needs="rt"),
    Part("the prebuilt bits", ["dist", "--compare"], reports("dist"), needs="rt"),
    Part("the prebuilt bits without the toolchain", ["tests/pack.py"], reports("pack"), minutes=1),
]

# what is run only if it is asked for by its option
WITH = {
    "quinn": (Part("quinn over the library", ["tests/quinn.py"], reports("quinn")), "a quarter of an hour more (docs/QUINN.md)"),
    "quicgo": (Part("quic-go over the library", ["tests/quicgo.py"], reports("quicgo")), "eleven minutes more (docs/QUIC-GO.md)"),
}


def show(text):
    minutes = round((time.time() - BEGAN) / 60)
    print(f"check: {minutes:3} min: {text}", file=sys.stderr, flush=True)


def processor_minutes():
    """What all that has ended took of processors."""
    spent = os.times()
    return (spent.children_user + spent.children_system) / 60


def is_rustc_old():
    try:
        said = subprocess.run(["rustc", "--version"], stdin=subprocess.DEVNULL, stdout=subprocess.PIPE, text=True).stdout
    except OSError:
        return True
    found = re.match(r"rustc (\d+)\.(\d+)", said)
    return not found or tuple(map(int, found.groups())) < RUSTC


def missing(needs):
    """Why a part cannot run here; nothing if it can."""
    if needs == "rt" and tree.is_toolchain_missing():
        return tree.MISSING
    if needs == "rustc" and is_rustc_old():
        return f"rustc {'.'.join(map(str, RUSTC))} or later is not on the PATH"
    return None


class BrokenOff(Exception):
    """Ctrl-C, or a signal that asks for an end."""

    def __init__(self, what, passed=0):
        self.what, self.passed = what, passed


@contextlib.contextmanager
def running(words, errors=None, root=ROOT):
    """A command in a group of its own. Where it is left before its end, all that it started ends with it."""
    how = {"stdin": subprocess.DEVNULL, "stdout": subprocess.PIPE, "stderr": errors, "text": True, "errors": "replace"}
    with subprocess.Popen(words, cwd=root, start_new_session=True, **how) as call:
        try:
            yield call
            call.wait()
        except BaseException:
            end(call)
            raise


def end(call):
    """Ends all of a command's group, if need be by force."""
    with contextlib.suppress(ProcessLookupError):
        os.killpg(call.pid, signal.SIGTERM)
        for _ in range(50):
            time.sleep(0.1)
            call.poll()
            os.killpg(call.pid, 0)  # there is none once all have ended
        os.killpg(call.pid, signal.SIGKILL)


class Gate:
    """How far rt ci is, by what it says, and how long the rest will take."""

    ENDED = re.compile(r"rt: (\w+)( is kept: | proved$| NOT proved$)", re.I)
    PASSED = re.compile(r"rt: \w+( proved$| is kept: |: its tests are proved$)")

    def __init__(self, lanes):
        self.seconds = {it: proofs.seconds_of(it) for it in tree.crates()}
        self.lanes, self.lines, self.kept, self.done, self.took, self.ended = lanes, [], set(), set(), 0, threading.Event()

    def add(self, line, now):
        """Takes a line that came so many seconds after the beginning."""
        self.lines.append(line)
        found = self.ENDED.match(line)
        if found and "kept" in found[2]:
            self.kept.add(found[1])
        elif found:
            self.done.add(found[1])
            self.took = now  # by these crates

    def passed(self):
        return sum(bool(self.PASSED.match(it)) for it in self.lines)

    def minutes_left(self, now):
        """By the clock, until all parts have ended: what was proved so far gives the ratio of this machine to the usual times of proofs."""
        expected = lambda names: sum(self.seconds[it] for it in names) / self.lanes
        ratio = (proofs.FIRST_SECONDS + self.took) / (proofs.FIRST_SECONDS + expected(self.done))
        scripts = 60 * sum(it.minutes for it in SCRIPTS) / self.lanes
        rest = ratio * (expected(self.seconds.keys() - self.done - self.kept) + scripts)
        return max(rest - (now - self.took), rest / 10) / 60

    def tell(self, began):
        """Says so each minute."""
        while not self.ended.wait(60):
            count = len(self.done) + len(self.kept)
            show(f"rt ci: {count} of {len(self.seconds)} crates, about {max(1, round(self.minutes_left(time.time() - began)))} minutes more in all")


def gate():
    """What rt ci passed and failed in a copy of the tree without must-fail/. With must-fail/, it would prove each crate with edits there
    once more. That takes some five times as long as trying these edits with the other wrong bodies."""
    shutil.rmtree(ROOT / "out" / "prove", ignore_errors=True)  # a killed ./prove leaves what the next one would take for its own
    for it in ["recovery_ffi/out/librecovery_ffi.a", "recovery_ffi/out/verdict", *(f"{crate}/out/{crate}" for crate in tree.LAUNCHERS)]:
        with contextlib.suppress(FileNotFoundError):
            (ROOT / "crates" / it).unlink()  # the prebuilt bits are compared with what this run builds, and with nothing older
    folder = tempfile.mkdtemp()
    try:
        root = pathlib.Path(folder, "tree")
        shutil.copytree(ROOT, root, symlinks=True, ignore=left_out)
        (root / ".git").mkdir()  # it is the top of a repository
        passed, failed = prove(root)
        if not failed:
            take(root)
    finally:
        shutil.rmtree(folder, ignore_errors=True)  # what rt ci started may still write there
    return passed, failed, 0


def left_out(folder, names):
    """What the copy leaves out: what was built, and must-fail/."""
    at = pathlib.Path(folder).relative_to(ROOT).parts
    if at[:1] != ("crates",):
        return NO_SOURCES.intersection(names)
    return {"out", "must-fail"}.intersection(names) if len(at) == 2 else set()


def take(root):
    """Takes over what was built in a copy of the tree, with the checksums of the copy's sources: those here may have changed since."""
    for crate in (ROOT / "crates").iterdir():
        sources = tree.sum_of_sources(crate.name, root)
        with tree.locked(crate):
            for made in (root / "crates" / crate.name / "out").glob("*"):
                to = crate / "out" / made.name
                to.parent.mkdir(exist_ok=True)
                if to.is_dir():
                    shutil.rmtree(to)
                shutil.move(made, to)
            tree.record(crate.name, sources, *proofs.built_of(crate.name))


def prove(root):
    """What rt ci passed and failed in a copy of the tree."""
    show("rt ci: proves all from nothing")
    os.environ.setdefault("RT_JOBS", str(tree.lanes(MEMORY_EACH)))  # each check on one processor: on several it takes a fifth to two fifths more
    progress = Gate(int(os.environ["RT_JOBS"]))
    began = time.time()
    teller = threading.Thread(target=progress.tell, args=[began])
    teller.start()
    try:
        with open(LOG, "w") as log, running(["rt", "ci"], subprocess.STDOUT, root) as call:
            for line in call.stdout:
                progress.add(line.replace(str(root), str(ROOT)), time.time() - began)
                print(progress.lines[-1], end="", file=log, flush=True)
    except KeyboardInterrupt:
        raise BrokenOff("rt ci", progress.passed())
    finally:
        progress.ended.set()
        teller.join()
    counts = re.fullmatch(r"(\d+) passed, (\d+) failed\n", progress.lines[-1] if progress.lines else "")
    passed, failed = map(int, counts.groups()) if counts else (0, 1)
    if call.returncode or failed:
        print("".join(progress.lines), end="", file=sys.stderr, flush=True)
    show(f"rt ci: {passed} passed, {failed} failed, in {processor_minutes():.0f} minutes of processors")
    return passed, failed or int(call.returncode != 0)


def script(part, root=ROOT, more=()):
    """What a script passed, failed and skipped, in this tree or in a copy of it."""
    why = missing(part.needs)
    if why:
        show(f"{part.title}: skipped: {why}")
        return 0, 0, 1
    show(part.title)
    before = processor_minutes()
    try:
        with running([root / part.words[0], *part.words[1:], *more], root=root) as call:
            said = call.stdout.read()
    except KeyboardInterrupt:
        raise BrokenOff(part.title)
    passed = sum(int(it) for found in re.finditer(part.form, said, re.M) for it in found.groups())
    skipped = sum(map(int, re.findall(r"^.*\d passed, \d+ failed, (\d+) skipped$", said, re.M)))
    failed = int(call.returncode != 0 or passed + skipped == 0)
    if failed:
        print(said, end="", file=sys.stderr, flush=True)
    spent = processor_minutes() - before
    show(f"{part.title}: {passed} passed{', and not all' if failed else ''}{f', {skipped} skipped' if skipped else ''}"
         f"{f', in {spent:.1f} minutes of processors' if spent > 0.1 else ''}")
    return passed, failed, skipped


def warn_of_bits():
    """Says at once if the prebuilt bits cannot pass: they are compared after an hour."""
    for crate, file in [("recovery_ffi", "libquic_recovery.a"), *((crate, f"bin/{name}") for crate, name in tree.LAUNCHERS.items())]:
        try:
            tree.prebuilt(crate, file)
        except tree.Unfit as why:
            show(f"warning: {why}; the comparison at the end will fail until ./dist writes new bits")
            return


def work(counts):
    """Runs the steps in order, and notes after each what passed and failed. If a step fails, the later ones are left out."""
    warn_of_bits()
    for steps in [functools.partial(script, it) for it in READINGS], [gate], [functools.partial(script, it) for it in SCRIPTS]:
        for step in steps:
            counts.append(step())
        if any(failed for _, failed, _ in counts):
            return


@contextlib.contextmanager
def with_programs():
    """A tree in which each program is built: this one, or a copy with the prebuilt programs of these sources in their places."""
    if all(tree.is_built(crate, crate) for crate in tree.LAUNCHERS):
        yield ROOT
        return
    with tempfile.TemporaryDirectory() as folder:
        root = pathlib.Path(folder, "tree")
        shutil.copytree(ROOT, root, symlinks=True, ignore=shutil.ignore_patterns(*NO_SOURCES))
        for crate, name in tree.LAUNCHERS.items():
            program = tree.prebuilt(crate, f"bin/{name}")
            (root / "crates" / crate / "out").mkdir()
            shutil.copy(program, root / "crates" / crate / "out" / crate)
        yield root


def work_without_toolchain(counts, is_wanted):
    """Notes what the tests that need no proof passed and failed. That nothing is proved is a failure if proofs are wanted."""
    counts.append((0, 1, 0) if is_wanted else (0, 0, 1))
    counts.extend(script(it) for it in READINGS)
    try:
        with with_programs() as root:
            counts.extend(script(it, ROOT if it.name == "pack" else root) for it in SCRIPTS)
    except tree.Unfit as why:
        show(f"the tests of the programs are left out: {why}")
        counts.append((0, 1, 0))


def work_on(part, counts, more):
    """Runs one part on what is built, or on the prebuilt programs."""
    if part in READINGS or part.needs == "rt" or part.name == "pack":
        counts.append(script(part, more=more))
        return
    with with_programs() as root:
        counts.append(script(part, root, more))


def run(given, counts):
    """Notes in counts what passed, failed and was skipped. Returns the word for the last line if not all was proved."""
    if given.only:
        part, *more = given.only
        work_on(next(it for it in (*READINGS, *SCRIPTS) if it.name == part), counts, more)
        return "partial"
    if tree.is_toolchain_missing():
        show(f"nothing is proved here: {tree.MISSING}; the tests that need no proof run on the prebuilt programs")
        work_without_toolchain(counts, given.all or os.environ.get("CI") == "true")
        show(f"nothing was proved here: {tree.MISSING}")
        return "unproved"
    warning = tree.other_logic()
    if warning:
        show(warning)
    work(counts)
    return None


def arguments():
    parser = argparse.ArgumentParser(prog="check", description=__doc__, formatter_class=argparse.RawDescriptionHelpFormatter)
    parser.add_argument("--version", action="version", version=tree.version())
    parser.add_argument("--all", action="store_true", help="fails without the toolchain")
    for name, (_, help) in WITH.items():
        parser.add_argument(f"--{name}", action="store_true", help=f"runs {name} over the library too: {help}")
    names = ", ".join(it.name for it in (*READINGS, *SCRIPTS))
    parser.add_argument("--only", nargs=argparse.REMAINDER, metavar="NAME [ARGUMENTS]",
                        help=f"one part, on what is built or prebuilt, with its own arguments, as in --only program -k acks: {names}")
    given = tree.arguments(parser)
    SCRIPTS.extend(part for name, (part, _) in WITH.items() if getattr(given, name))
    if given.only is not None and not (given.only and given.only[0] in names.split(", ")):
        parser.error(f"--only takes one of {names}")
    return given


def main():
    given = arguments()
    tree.stop_on_signals()
    counts, word = [], None
    try:
        with tree.alone("./check", show):
            word = run(given, counts)
    except BrokenOff as it:
        show(f"broken off in {it.what}, of which {it.passed} had passed")
        counts.append((it.passed, 1, 0))
    except (OSError, KeyboardInterrupt, tree.Unfit) as why:
        show(str(why) or "broken off")
        counts.append((0, 1, 0))
    passed, failed, skipped = map(sum, zip(*counts))
    show(f"all of it: {processor_minutes():.0f} minutes of processors")
    print(f"{word + ': ' if word else ''}{passed} passed, {failed} failed{f', {skipped} skipped' if skipped else ''}")
    sys.exit(failed > 0)


if __name__ == "__main__":
    tree.ends_quietly(main)
