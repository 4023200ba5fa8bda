"""Functions that the tools share: how a tool ends, the lines and numbers of what it reads, the path of a program, and what a run of it prints."""
import gc
import os
import pathlib
import re
import signal
import subprocess
import sys
import threading

ROOT = pathlib.Path(__file__).resolve().parent.parent
LAST = 2**64 - 1  # the largest number in a line of the programs, and the end of their clock
SHOWN = 40  # characters of a text that cannot be read
NO_XML = re.compile(r"[^\t\n\r\x20-\ud7ff\ue000-\ufffd\U00010000-\U0010ffff]")  # characters that a picture of XML cannot have
WHICH = """. "$0"
if [[ -x $root/crates/recovery_link/out/recovery_link ]] && is_up_to_date recovery_link recovery_link; then
    echo "$root/crates/recovery_link/out/recovery_link"
elif is_prebuilt x86_64-unknown-linux-gnu recovery_link bin/recovery-link; then
    echo "$root/prebuilt/x86_64-unknown-linux-gnu/bin/recovery-link"
fi"""


class Failed(Exception):
    """Why there is no result, in one sentence."""

    status = 1


class Invalid(Failed):
    """Why arguments or an input cannot be read."""

    status = 2


class Stopped(KeyboardInterrupt):
    """The signal that ends a tool."""


# ---- what tools read


def shown(text):
    """A text of others for an error: escaped, and not longer than a few words."""
    return ascii(text if len(text) <= SHOWN else f"{text[:SHOWN]}..")


def drawable(text):
    """A text of others for a picture: without characters that XML does not have."""
    return NO_XML.sub("\N{REPLACEMENT CHARACTER}", text)


def whole(text, largest=LAST):
    """A whole number as the programs read it, in ASCII digits without a sign or leading zeros, or None."""
    if not re.fullmatch("0|[1-9][0-9]{0,29}", text):
        return None
    return int(text) if int(text) <= largest else None


def content(path):
    """The text of a file, or of standard input if there is no path."""
    name = path or "standard input"
    try:
        with open(path or 0, "rb") as file:
            return file.read().decode("utf-8-sig")
    except OSError as why:
        raise Invalid(f"{name}: {why.strerror}")
    except UnicodeDecodeError as why:
        raise Invalid(f"{name} is not UTF-8: byte {why.start} is 0x{why.object[why.start]:02x}")


def lines_of(path, has_comments=True):
    """The lines of a file as pairs of a name for errors and the words. As for the programs, only a line feed ends a line, and one space separates
    words. Empty lines and comments are skipped, if the file may have them."""
    lines = content(path).split("\n")
    numbered = enumerate(lines if lines[-1] else lines[:-1], 1)
    return [(f"{path}: line {at}", line.split(" ")) for at, line in numbered if not has_comments or line and line[0] != "#"]


FORMS = {  # a word of a line: one of several, or a number up to a limit
    "space": ("initial", "handshake", "data"), "end": ("client", "server"), "path": ("current", "previous"), "flag": ("0", "1"),
    "timer": ("idle", "close", "key-discard", "path-validation", "keep-alive", "pacing", "push-new-cid", "max-ack-delay"),
    "time": LAST, "number": LAST, "size": 65_535, "byte": 255, "ids": 64, "span": 2**64 * 10**9 - 1,
}


def value(place, at, word, name):
    """The value of a word by the name of its form. A '-' after the name is for a form that the word '-' fits too."""
    form = FORMS[name.rstrip("-")]
    read = word if name.endswith("-") and word == "-" or isinstance(form, tuple) and word in form else None
    if isinstance(form, int) and read is None:
        read = whole(word, form)
    if read is None:
        raise Invalid(f"{place}: cannot read word {at}, {shown(word)}")
    return read


def values(place, words, form):
    """The values of the words after the first one, each checked by the name of its form, as in "space time size". A '?' ends the name of a last word
    that may be missing, and '..' one that any number of words may have."""
    names, given = form.split(), words[1:]
    if names and names[-1].endswith(".."):
        names[-1:] = [names[-1][:-2]] * max(0, len(given) - len(names) + 1)
    elif names and names[-1].endswith("?"):
        names[-1:] = [names[-1][:-1]] * min(1, max(0, len(given) - len(names) + 1))
    if len(given) != len(names):
        raise Invalid(f"{place}: {len(given)} words follow {shown(words[0])}, and not {len(names)}")
    return [value(place, at, *both) for at, both in enumerate(zip(given, names), 2)]


# ---- programs


class Runs:
    """The programs that run, so that a tool which a signal ends does not leave them."""

    def __init__(self):
        self.lock, self.running, self.is_ended = threading.Lock(), set(), False

    def start(self, command):
        with self.lock:
            if self.is_ended:
                raise Failed("no run begins any more")
            process = subprocess.Popen(command, stdin=subprocess.DEVNULL, stdout=subprocess.PIPE, stderr=subprocess.PIPE, encoding="utf-8",
                                       errors="backslashreplace")
            self.running.add(process)
        return process

    def run(self, command):
        """The status of a program, and what it writes on both streams."""
        process = self.start(command)
        output, errors = process.communicate()
        with self.lock:
            self.running.discard(process)
        return process.returncode, output, errors

    def end(self):
        with self.lock:
            self.is_ended = True
            for process in self.running:
                process.kill()


RUNS = Runs()


def program(given=None):
    """The recovery-link that was built from the sources here: a launcher without it compiles at each call, which no sweep bears."""
    given = given or os.environ.get("RECOVERY_LINK")
    if given:
        return given
    found = subprocess.run(["bash", "-c", WHICH, ROOT / "launch"], stdin=subprocess.DEVNULL, stdout=subprocess.PIPE, text=True).stdout.strip()
    if not found:
        raise Failed("recovery-link is not built from the sources here: ./prove recovery_link builds it, or --program names another")
    return found


def ran(program, words):
    """What the program writes on both streams."""
    try:
        status, output, errors = RUNS.run([program, *words])
    except OSError as why:
        raise Invalid(f"{program}: {why.strerror}")
    if status:
        raise (Invalid if status == 2 else Failed)(f"{' '.join(words)}: {errors.strip() or f'status {status}'}")
    return output, errors


def figure(word):
    name, _, number = word.partition("=")
    if not name or whole(number) is None:
        raise Failed(f"the program prints {shown(word)}, and not NAME=NUMBER for each figure")
    return name, int(number)


def figures(text):
    """The figures of each flow."""
    found = [dict(map(figure, line.split())) for line in text.split("\n") if line]
    if not found:
        raise Failed("the program prints no figures")
    return found


# ---- how a tool ends


def stop(number, _):
    raise Stopped(number)


def say(name, why):
    """Writes why a tool ends, if anything can be written there."""
    try:
        print(f"{name}: {why}", file=sys.stderr, flush=True)
    except OSError:
        pass


def discard_output():
    """What is not written yet is not tried again at the end of the process."""
    os.dup2(os.open(os.devnull, os.O_WRONLY), sys.stdout.fileno())


def finished(main):
    """Runs a tool, and writes all its output, also if it fails."""
    if not sys.stdout:
        raise Failed("standard output is closed")
    try:
        main()
    finally:
        sys.stdout.flush()


def status_of(name, main):
    try:
        finished(main)
    except Failed as why:
        say(name, why)
        return why.status
    except BrokenPipeError:
        discard_output()
        return 128 + signal.SIGPIPE
    except OSError as why:
        discard_output()
        say(name, f"{why.filename}: {why.strerror}" if why.filename else f"the output cannot be written: {why.strerror}")
        return 1
    except MemoryError:
        say(name, "out of memory")
        return 1
    except KeyboardInterrupt as why:
        number = why.args[0] if isinstance(why, Stopped) else signal.SIGINT
        RUNS.end()
        say(name, f"ended by {signal.Signals(number).name}")
        return 128 + number
    return 0


def ends(name, main):
    """Runs a tool, whose only output in its own words is text or SVG in UTF-8. If it fails it says why in one sentence. Its status is then 2 if
    arguments or an input cannot be read, else 1. If a signal ends it, or nobody reads its output any more, the status is the one that shells
    report for that signal."""
    gc.disable()  # what a tool reads has no cycles; looking for them would take half of the time
    for stream in filter(None, (sys.stdout, sys.stderr)):
        stream.reconfigure(encoding="utf-8", errors="backslashreplace")
    for it in signal.SIGTERM, signal.SIGHUP:
        if signal.getsignal(it) is signal.SIG_DFL:
            signal.signal(it, stop)
    sys.exit(status_of(name, main))
