#!/usr/bin/env python3
"""Compares docs/EMBEDDING.md with the program that it walks through: each block of code is in a source of the program. The program, or the
sender that it calls, passes each event to the library, and the page names each event. The examples in comments of the crates are in tests or in
that program, and the items that users begin with have one."""
import pathlib
import re
import sys
import textwrap

ROOT = pathlib.Path(__file__).resolve().parent.parent
PAGE = ROOT / "docs" / "EMBEDDING.md"
PROGRAM = ROOT / "crates" / "recovery_embedding" / "src"
SENDER = ROOT / "crates" / "recovery_sender" / "src"
EVENTS = ROOT / "crates" / "recovery_events" / "src" / "event.rt"
TESTS = "recovery_parts_tests", "quic_recovery_tests", "recovery_embedding"
WITH_EXAMPLES = set("""Dedup PendingAcks RttEstimator Pacer NewRenoConfig CubicConfig MtuDiscovery CidQueue CidState PacketNumberFilter SentPackets ItemQueue
    LiveRecovery Sender""".split())
COMMENT = re.compile(r"((?:^///[^\n]*\n)+)(?:^#\[[^\n]*\n)*^pub (?:struct|enum|trait|fn) (\w+)", re.M)


def plain(text):
    """Lines without common indentation and without spaces at their ends."""
    return "\n".join(line.rstrip() for line in textwrap.dedent(text).strip("\n").split("\n"))


def blocks(text):
    """Each block of code, which is indented by four spaces."""
    return [plain(found) for found in re.findall(r"(?:^\n?(?:    .*\n|\n)+)", text, re.M) if found.strip()]


def stands_in(block, source):
    """Whether a text has these lines one after the other, whatever their common indentation."""
    wanted, lines = block.split("\n"), source.split("\n")
    return any(plain("\n".join(lines[at : at + len(wanted)])) == block for at in range(len(lines) - len(wanted) + 1))


def events():
    body = re.search(r"^pub enum Event<.*?^}", EVENTS.read_text(), re.M | re.S).group(0)
    return re.findall(r"^    ([A-Z]\w*)", body, re.M)


def is_handed_in(event, sources):
    """By its variant, or as the method of the recovery that asks the same."""
    method = re.sub(r"(?<!^)(?=[A-Z])", "_", event).lower()
    return any(re.search(rf"\bEvent::{event}\b|\.recovery\(\)\s*\.{method}\(", text) for text in sources)


def in_comments():
    """The blocks of code in comments, each with its file and what the comment is for."""
    for file in sorted(ROOT.glob("crates/*/src/**/*.rt")):
        for comment, name in COMMENT.findall(file.read_text()):
            lines = "\n".join(line[4:] for line in comment.split("\n"))
            for block in re.findall(r"^```\n(.*?)^```$", lines, re.M | re.S):
                yield file.relative_to(ROOT), name, plain(block)


def faults_of_examples():
    """What is wrong with the examples in comments."""
    tests = [it.read_text() for name in TESTS for it in sorted((ROOT / "crates" / name).glob("src/**/*.rt"))]
    shown = [*in_comments()]
    for file, name, block in shown:
        if not any(stands_in(block, it) for it in tests):
            yield f"{file}: the example in the comment of {name} is in no test as it is there: quote the test"
    for name in sorted(WITH_EXAMPLES - {name for _, name, _ in shown}):
        yield f"the comment of {name} has no example: quote one from a test"


def main():
    page = PAGE.read_text()
    sources = [it.read_text() for it in sorted(PROGRAM.glob("*.rt"))]
    found = blocks(page)
    faults = [f"docs/EMBEDDING.md shows code from {block.splitlines()[0]!r} on that is in no source of crates/recovery_embedding: show the code as it is now"
              for block in found if not any(stands_in(block, it) for it in sources)]
    callers = sources + [it.read_text() for it in sorted(SENDER.rglob("*.rt"))]
    faults += [f"crates/recovery_embedding/src passes no Event::{it}, nor does the sender: the example and its sender must pass every event"
               for it in events() if not is_handed_in(it, callers)]
    faults += [f"docs/EMBEDDING.md does not name `{it}`: it has a row in All events" for it in events() if f"`{it}`" not in page]
    faults += [] if found else ["the page has no block of code"]
    faults += faults_of_examples()
    for fault in faults:
        print(f"embedding: {fault}", file=sys.stderr)
    print(f"embedding: {len(found) + 2 * len(events()) + len([*in_comments()]) - len(faults)} passed, {len(faults)} failed")
    return 1 if faults else 0


sys.exit(main())
