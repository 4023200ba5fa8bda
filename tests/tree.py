"""Functions that the scripts share: the crates of the repository, the toolchain that proves them, the lock of the tree, the end of a script,
and the tests of a script, which are those of Python's unittest (`TestCase`, `each`, `main`)."""
import argparse
import collections
import contextlib
import difflib
import fcntl
import itertools
import os
import pathlib
import re
import shutil
import signal
import subprocess
import sys
import unittest

ROOT = pathlib.Path(__file__).resolve().parent.parent
LOCK = ROOT / "out" / "lock"
WORKS_IN = "QUIC_RECOVERY_WORKS_IN"  # the tree that the script which started this one has for itself
SHOWN_LINES = 60  # of the difference between two programs' answers
__unittest = True  # tracebacks of failures leave out this file
BASELINE = ["--cpu", "x86-64"]  # for the static library: unlike a program, it does not check its processor


LAUNCHERS = {
    "recovery_program": "recovery-replay", "recovery_trace": "recovery-trace", "recovery_sender_program": "recovery-sender",
    "recovery_link": "recovery-link", "recovery_pictures": "recovery-pictures",
}
TARGET = "x86_64-unknown-linux-gnu"  # what is prebuilt


class Unfit(Exception):
    """Why nothing can be proved here, in one line."""


def listed(text=None):
    """The crates of crates.txt, or of another text in its form, in order, each with the dependencies that its line names, the kit's among them."""
    text = (ROOT / "crates.txt").read_text() if text is None else text
    lines = (line.partition("#")[0].partition(":") for line in text.splitlines())
    return [(name.split()[0], below.split()) for name, colon, below in lines if colon]


def rows():
    """The crates of crates.txt in order, each with those of its line's dependencies that are in the repository."""
    found = listed()
    names = {name for name, _ in found}
    return [(name, [it for it in below if it in names]) for name, below in found]


def crates():
    return dict(rows())


def list_of(names):
    """A list of these crates alone, for a tree that has no others."""
    lines = (ROOT / "crates.txt").read_text().splitlines(True)
    return "".join(line for line in lines if line.partition(":")[0].partition(" ")[0] in names)


def made_of(target):
    """A crate and its dependencies, the lowest first, each with its own."""
    needs, found = crates(), {}

    def want(name):
        if name not in found:
            for below in needs[name]:
                want(below)
            found[name] = needs[name]

    want(target)
    return found


def lanes(memory_each):
    """The number of checks that can run at a time: one per processor, if each has this much memory, in kB."""
    free = next(int(it.split()[1]) for it in open("/proc/meminfo") if it.startswith("MemAvailable"))
    return max(1, min(len(os.sched_getaffinity(0)), free // memory_each))


def kit():
    """The toolchain's folder."""
    found = shutil.which("rt")
    folder = os.environ.get("RATTLE_KIT") or (pathlib.Path(found).resolve().parent if found else "")
    for at in [pathlib.Path(folder), *pathlib.Path(folder).parents]:
        if (at / "c" / "liblibc_c.a").is_file():
            return at
    raise Unfit("there is no liblibc_c.a next to the toolchain's rt")


def rlib(name):
    return ROOT / "crates" / name / "out" / "rlib" / f"{name}.rlib"


def rlib_format(name):
    """The file in a built library, below the crate's folder `out`, that holds the checksum of its other files."""
    return f"rlib/{name}.rlib/format"


def sum_of_sources(name, root=ROOT):
    """One checksum of all that a crate of a tree is compiled and proved from."""
    return asked("sum_of_sources", name, root=root)


def record(name, sum, *files):
    """Records that files in a crate's folder `out` were built here, from sources with this checksum."""
    asked("record", name, sum, *(it for it in files if (ROOT / "crates" / name / "out" / it).exists()))


def is_built(name, file=None):
    """Whether a file in a crate's folder `out`, or its library, was built in this tree from exactly the sources that are here now."""
    return subprocess.run(words_in_launch("is_up_to_date", name, file or rlib_format(name)), stdin=subprocess.DEVNULL).returncode == 0


def reject_committed_builds():
    """Nobody built here what the history has in the folders for builds, whatever made it."""
    if (ROOT / ".git").exists() and shutil.which("git"):
        found = subprocess.run(["git", "ls-files", "--", ":(glob)crates/*/out/**", ":(glob)out/**"], cwd=ROOT, stdout=subprocess.PIPE, text=True).stdout.splitlines()
        if found:
            raise Unfit(f"{found[0]} is committed, and a build has to be made here: git rm --cached {found[0]}")


def below(name):
    """The dependencies of a crate, the lowest first."""
    return [it for it in made_of(name) if it != name]


def words_of(name, *more):
    """The compiler's arguments for a crate, over the builds of its dependencies, which the gate or a check made. One job, since each further one reads
    all dependencies once more."""
    uses, at = dict(listed()), kit()
    named = {it: rlib(it) if it in uses else at / "rlibs" / f"{it}.rlib" for it in ("std", *uses[name])}
    root = next(it for it in ("src/lib.rt", "src/main.rt") if (ROOT / "crates" / name / it).is_file())
    words = ["--crate-name", name, root, "--links", f"{name}=", *more]
    words += [word for it, built in named.items() for word in ("--extern", f"{it}={built}")]
    words += [word for it in (at / "rlibs", *(rlib(it).parent for it in below(name))) for word in ("-L", f"dependency={it}")]
    return [*words, "--antt-project", at / "rattle" / "logic" / "antt-project.json", "--logic-built", at / "logic_built", "--jobs", "1"]


def version():
    return f"quic-recovery {(ROOT / 'VERSION').read_text().strip()}, {logic()}"


def logic():
    """The logic that the proofs are written for, as `rt version` names it."""
    return (ROOT / "LOGIC").read_text().strip()


MISSING = f"the Rattle toolchain is missing: its command rt ({logic()}) is not on the PATH"


def is_toolchain_missing():
    return not shutil.which("rt")


def words_in_launch(function, *words, root=ROOT):
    """The command that calls a function of `launch` for the crates of a tree."""
    return ["bash", "-c", f'. "$0" && root=$1 && {function} "${{@:2}}"', ROOT / "launch", root, *words]


def asked(function, *words, root=ROOT):
    """What a function of `launch` prints. If it fails, the exception has its error."""
    said = subprocess.run(words_in_launch(function, *words, root=root), stdin=subprocess.DEVNULL, stdout=subprocess.PIPE, stderr=subprocess.PIPE,
                          text=True)
    if said.returncode:
        raise Unfit(said.stderr.strip() or f"launch: {function} failed")
    return said.stdout.strip()


def prebuilt(crate, file):
    """The path of a prebuilt file of a crate, which is the listed one, and was built from exactly the sources here."""
    return pathlib.Path(asked("prebuilt", TARGET, crate, file))


def other_logic():
    """A warning if the toolchain's logic is not the one that the proofs are written for, else nothing."""
    if is_toolchain_missing():
        raise Unfit(MISSING)
    said = subprocess.run(["rt", "version"], stdin=subprocess.DEVNULL, stdout=subprocess.PIPE, stderr=subprocess.STDOUT, text=True).stdout
    found = re.search(r"\blogic \w+", said)
    if found and found[0] == logic():
        return None
    return f"warning: the proofs are written for {logic()}, and the toolchain here has {found[0] if found else 'none that it names'}"


@contextlib.contextmanager
def alone(who, tell):
    """The tree for this script alone. While another script works in it, this one says so and waits. A script that this one starts works as a part
    of it, and does not wait."""
    if os.environ.get(WORKS_IN) == str(ROOT):
        yield
        return
    try:
        LOCK.parent.mkdir(exist_ok=True)
        file = open(LOCK, "a+")
    except OSError as error:
        raise Unfit(f"nothing can be written here: {error.filename}: {error.strerror}")
    with file:
        try:
            fcntl.flock(file, fcntl.LOCK_EX | fcntl.LOCK_NB)
        except BlockingIOError:
            file.seek(0)
            tell(f"{file.read().strip() or 'another'} works in this tree; this one goes on when that has ended")
            fcntl.flock(file, fcntl.LOCK_EX)
        file.truncate(0)
        file.write(f"{who} (process {os.getpid()})\n")
        file.flush()
        os.environ[WORKS_IN] = str(ROOT)
        try:
            yield
        finally:
            del os.environ[WORKS_IN]
            file.truncate(0)


@contextlib.contextmanager
def locked(crate):
    """A lock under which no rt works in a crate's folder."""
    folder = os.open(crate, os.O_RDONLY)
    try:
        fcntl.flock(folder, fcntl.LOCK_EX)
        yield
    finally:
        os.close(folder)


def stop_on_signals():
    """SIGTERM and SIGHUP interrupt, as ctrl-C does, unless the caller chose to ignore them."""
    for it in signal.SIGTERM, signal.SIGHUP:
        if signal.getsignal(it) is signal.SIG_DFL:
            signal.signal(it, signal.default_int_handler)


def silence():
    """Discards all further output."""
    for stream in sys.stdout, sys.stderr:
        os.dup2(os.open(os.devnull, os.O_WRONLY), stream.fileno())


def arguments(parser):
    """The arguments of a script. If it is asked for its help and nobody reads that, it ends well."""
    try:
        return parser.parse_args()
    except BrokenPipeError:
        silence()
        sys.exit(0)


def ends_quietly(main):
    """Runs a script. If its output is no longer read, it ends without an error text: with its own status if all was done, else with that of a
    program that the signal ends."""
    status = 128 + signal.SIGPIPE
    try:
        try:
            main()
            status = 0
        except SystemExit as end:
            status = end.code
            raise
        finally:
            sys.stdout.flush()
    except BrokenPipeError:
        silence()
        sys.exit(status)


def timers():
    """The names of timers in scripts, in their order, as the library has them."""
    return re.findall(r'^            Timer::\w+ => "([a-z-]+)",$', (ROOT / "crates" / "recovery_base" / "src" / "timer.rt").read_text(), re.M)


def refusals():
    """The errors in the order of their numbers, from 1 on, as the library has them: the name of each and its text, in which `{0}` is a text that the
    error has."""
    body = re.search(r"^pub enum Refusal \{\n(.*?)^\}", (ROOT / "crates" / "recovery_events" / "src" / "event.rt").read_text(), re.M | re.S)[1]
    return [(name, said) for said, name in re.findall(r'#\[error\("([^"]+)"\)\]\n    (\w+)', body)]


class TestCase(unittest.TestCase):
    """Tests whose failures show all that differs."""

    maxDiff = None

    def __str__(self):
        return f"{type(self).__name__}.{self._testMethodName}"

    def assertAnswers(self, script, found, wanted):
        """Compares what a program did with a script: status, answers and errors. A failure names the first line that has another answer."""
        if found == wanted:
            return
        lines = [it for it in text_of(script).splitlines() if it and it[0] != "#"]
        answers, expected = (text_of(it[1]).splitlines() for it in (found, wanted))
        named = next((line for line, *both in itertools.zip_longest(lines, answers, expected) if both[0] != both[1]), None)
        difference = difflib.unified_diff(expected, answers, "expected", "found", lineterm="")
        shown = "\n".join(itertools.islice(difference, SHOWN_LINES))
        self.fail(f"answers from the line {named!r} on:\n{shown}\nstatus and errors: {found[::2]}, expected {wanted[::2]}")


class each:
    """Makes of a test method one test for each row: a tuple of arguments, or one argument. Its name ends with the title, a format of the row, and `-k`
    finds a test by any part of its name. Other decorators of the method follow this one. In a class of tests:

        @tree.each([("one", 1), ("two", 2)])
        def test_number(self, title, number):
    """

    def __init__(self, rows, title="{0}"):
        self.rows, self.title = [row if isinstance(row, tuple) else (row,) for row in rows], title

    def __call__(self, method):
        self.method = method
        return self

    def __set_name__(self, owner, name):
        if not self.rows:
            raise ValueError(f"{owner.__name__}.{name} has no rows")
        delattr(owner, name)
        for row in self.rows:
            self.add(owner, f"{name} {self.title.format(*row)}", row)

    def add(self, owner, name, row):
        if hasattr(owner, name):
            raise ValueError(f"{owner.__name__} has two tests with the name {name!r}")
        setattr(owner, name, lambda test: self.method(test, *row))


class Result(unittest.TextTestResult):
    """Counts also what passed. A test with subtests counts once."""

    passed = 0

    def addSuccess(self, test):
        super().addSuccess(test)
        self.passed += 1


class Runner(unittest.TextTestRunner):
    resultclass = Result


def main(name, words=None):
    """Runs the tests of the script that calls this, by its arguments or other words. They are those of unittest: `-k PART` runs the tests whose names
    have this part, `-v` prints each name, `-f` ends at the first failure.

    Failures are on standard error. Standard output has a line for each reason to skip tests, and the last line `NAME: N passed, M failed`, with
    `, K skipped` if tests were. The status is 1 if a test failed, or if none was found."""
    ends_quietly(lambda: sys.exit(run_tests(name, sys.argv[1:] if words is None else words)))


def run_tests(name, words):
    if {"-h", "--help"}.intersection(words):
        print(sys.modules["__main__"].__doc__, end="\n\n")
    result = unittest.main(argv=[sys.argv[0], *words], verbosity=0, exit=False, testRunner=Runner).result
    failed = len(result.failures) + len(result.errors) + len(result.unexpectedSuccesses)
    skipped = collections.Counter(reason for _, reason in result.skipped)
    for reason, count in skipped.items():
        print(f"{name}: {count} skipped: {reason}")
    print(f"{name}: {result.passed} passed, {failed} failed" + (f", {sum(skipped.values())} skipped" if skipped else ""))
    return int(failed > 0 or not (result.passed or skipped))


def text_of(data):
    return data.decode(errors="backslashreplace") if isinstance(data, bytes) else data


def built_program(crate):
    """The path of the proved program of a crate."""
    return ROOT / "crates" / crate / "out" / crate


@contextlib.contextmanager
def unread():
    """A pipe whose reader is gone, for the output of a program."""
    reader, writer = os.pipe()
    os.close(reader)
    try:
        yield writer
    finally:
        os.close(writer)


def other_programs(**usual):
    """The programs to test, each of which an option with its name may replace, and last the other arguments, for `main`."""
    parser = argparse.ArgumentParser(add_help=False)
    for name, program in usual.items():
        parser.add_argument(f"--{name}", type=lambda it: pathlib.Path(it).resolve(), default=program)
    given, words = parser.parse_known_args()
    return (*vars(given).values(), words)


def ran(words, given=None, **how):
    """Status, output and errors of a program."""
    streams = {"stdout": subprocess.PIPE, "stderr": subprocess.PIPE}
    if "stdin" not in how:
        streams["input"] = given if given is not None else b""
    run = subprocess.run(words, **{**streams, **how})
    return run.returncode, run.stdout, run.stderr
