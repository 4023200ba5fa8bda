#!/usr/bin/env python3
"""Counts the files of the library that name each event: code and definitions, promises about it, and proofs. Tests, rows, the example and
the file that declares it do not count. A file should name an event only if it is about that event. So the means have a bound, with room
for a tenth more, and no event may be named in far more files than the others.

Each event, error and timer must also be in every list of them that is written by hand, with the name and number that the library has. What
is printed names the list, what is missing there, and for an event what to write."""
import re
import sys

import tree
from tree import ROOT

APART = re.compile(r"_tests$|_(rows|refused_memory)$|^recovery_(embedding|pictures|ffi|kept|stack|trace|sender|pair)$")
ROWS = re.compile(r"Rows$|^RowStart$")
IMPORT = re.compile(r"\bEvent\.TheVariants\.\{([^}]*)\}")
RENAMED = re.compile(r"\bEvent\.TheVariants as (\w+)")
COMMENT = re.compile(r"^\s*(//|--).*$", re.M)

# of code and definitions, promises, and proofs: the means, and the most that one event may have
MEANS = (5.6, 3.8, 5.8)
MOST = (7, 16, 24)
DO = ("what is the same for many events is a last line of a table (specs/Table.antt) or of a match",
      "a promise names the events that it speaks of, and has a last line for the others",
      "a law by events has a last line by search, or goes by kinds of entries (EntryKinds)")

# The lists of events that are not read off event.rt. For each, the form of an event there, by its variant, its line (set-timer) or its export
# (set_timer), and what to write there.
WRITTEN = "it by tests/rust.py --write, once the library has its export"
LISTS = [
    ("crates/recovery_script_syntax/specs/Lines.antt", r'codes "{line}"', "the form of its line, its place in forms_without_items, and its line of saying"),
    ("crates/recovery_script_syntax/src/forms.rt", r"ghost form = \{{ {export} \}}|\(reading {export}\)", "the LineForm of its line"),
    ("crates/recovery_script_syntax/src/lines.rt", r'is_name\(name, "{line}"\)', "an arm of put_behind, at the arm of its name's length"),
    ("crates/recovery_trace/src/faults.rt", r'"{line}{example}"', "an example of its line, a word for each field of its form (Lines.antt)"),
    ("crates/recovery_ffi/src/*.rt", r"fn recovery_ffi_{export}\(", "its export, with the clause `Answers`"),
    ("crates/recovery_embedding/src/*.rt crates/recovery_sender/src/sender/*.rt", r"\bEvent::{name}\b|\.recovery\(\)\.{export}\(",
     "a place of the program that passes it: the program passes all events that its sender does not"),
    ("rust/c/recovery_ffi.h", r"\brecovery_ffi_{export}\(", WRITTEN),
    ("rust/quic-recovery/src/event.rs", r"^    {name}\b", WRITTEN),
    ("rust/quic-recovery/src/recovery.rs", r"\bEvent::{name}\b", "its arm, a call of the export"),
    ("rust/quic-recovery/tests/common/mod.rs", r'"{line}" =>', "the arm that reads its line"),
    ("rust/quic-recovery/tests/common/mod.rs", r'format!\(\s*"{line} |"{line}( \w+)?"\.into\(\)', "an arm of the random lines"),
    ("tests/careful/lines.rs", r'^        b"{line}" =>', "the arm that reads its line, the variant, and the arm that answers it"),
    ("tests/alike.py", r'(return|lambda it:) f?"{line}[ "]', "its random line, an item of EVENTS"),
    ("bench/run.py", r'yield f?"{line}[ "]', "its line among those of all_events"),
    ("docs/PROGRAMS.md", r"^\| `{line}{row}( ITEM\.\.)?` ", "the row of its line, a word for each field of its form (Lines.antt), and all that it is answered"),
    ("docs/EMBEDDING.md", r"^\|[^|]*\|[^|]*`{name}`[^|]*\|[^|]*\|$", "its row: when to pass it, and what its answer asks for"),
]
FORM = re.compile(r'form_of \(codes "([a-z-]+)"\) (?:\(([^)]*)\)|\[\])|name = codes "([a-z-]+)";\s+fields = ([^;]*);')
# the word of a field by its kind: in an example, and in a row of docs/PROGRAMS.md
WORDS = {"a_space": ("data", "SPACE"), "a_path": ("current", r"current\\\|previous"), "a_timer": ("idle", "TIMER"), "a_flag": ("[01]", r"0\\\|1"),
         "a_largest": ("-", "LARGEST")}
NUMBER = ("0", "[A-Z0-9]+")
# the lists of errors and of timers: code that reads their table has no list of its own
REFUSALS = {
    "docs/PROGRAMS.md": r"refused {number} {name}\b",
    "docs/EMBEDDING.md": r"`{name}`",
}
TIMERS = {
    "docs/PROGRAMS.md": r"`{name}`",
    "tests/careful/lines.rs": r'b"{name}" => Some\({place}\)',
}
# the files that name errors with their numbers
REFUSED = ["README.md", "docs/*.md", "tests/careful/*.rs", "tests/*.py", "tests/sender/*.txt", "rust/quic-recovery/tests/*.rs", "crates/*/src/**/*.rt",
           "crates/*/specs/**/*.antt"]
LINES = {"AckFrequencyIn": "ack-frequency", "DiscardSpace": "discard"}  # whose lines are not their names


def fields():
    """The kinds of the fields of each line."""
    found = FORM.findall((ROOT / "crates" / "recovery_script_syntax" / "specs" / "Lines.antt").read_text())
    return {name or other: re.findall(r"\ba_\w+", some + more) for name, some, other, more in found}


def missing(events):
    """The lists that an event is missing from."""
    every = fields()
    for place, form, wanted in LISTS:
        text = "\n".join(it.read_text() for some in place.split() for it in sorted(ROOT.glob(some)))
        for name in events:
            line = LINES.get(name) or re.sub(r"(?<!^)(?=[A-Z])", "-", name).lower()
            example, row = ("".join(f" {WORDS.get(kind, NUMBER)[at]}" for kind in every.get(line, [])) for at in range(2))
            if not re.search(form.format(name=name, line=line, export=line.replace("-", "_"), example=example, row=row), text, re.M):
                yield f"{name} is not in {place}: write there {wanted}"


def names_missing():
    """The lists that an error or a timer is missing from, and errors that are named with another's number."""
    refusals = [{"number": number, "name": name} for number, (name, _) in enumerate(tree.refusals(), 1)]
    timers = [{"place": place, "name": name} for place, name in enumerate(tree.timers())]
    for lists, found in (REFUSALS, refusals), (TIMERS, timers):
        for place, form in lists.items():
            text = (ROOT / place).read_text()
            yield from (f"{it['name']} is not in {place}: add it to the list there" for it in found if not re.search(form.format(**it), text))
    own = re.findall(r"^pub const REFUSAL_(UNSENT|DATA_SPACE): u8 = (\d+);", (ROOT / "crates" / "recovery_engine" / "src" / "numbers.rt").read_text(), re.M)
    right = {(str(it["number"]), it["name"]) for it in refusals} | {(number, name.title().replace("_", "")) for name, number in own}  # the last are the sender's own
    for path in sorted(it for place in REFUSED for it in ROOT.glob(place)):
        wrong = set(re.findall(r"\brefused (\d+) ([A-Z]\w+)", path.read_text())) - right
        yield from (f"{path.relative_to(ROOT)} has a refusal {number} {name}, which is none" for number, name in sorted(wrong))


def room_of(path):
    """What a file counts as: code and definitions, promises or proofs."""
    inner = path.relative_to(ROOT / "crates").parts[1:]
    if inner[0] == "proofs":
        return 2
    return int(inner[1] == "Promises" or inner == ("specs", "Pacing.antt"))


def files():
    for path in sorted(it for room in ("src", "specs", "proofs") for it in ROOT.glob(f"crates/*/{room}/**/*.*t")):
        crate = path.relative_to(ROOT / "crates").parts[0]
        if not APART.search(crate) and not ROWS.search(path.stem):
            yield room_of(path), path.read_text()


def declared(text):
    """The names of the variants, if this text declares the events."""
    body = re.search(r"^pub enum Event<.*?^}", text, re.M | re.S)
    return re.findall(r"^    ([A-Z]\w*)", body.group(0), re.M) if body else []


def named_in(text, events):
    text = COMMENT.sub("", text)
    names = {name.strip().partition(" as ")[0] for found in IMPORT.findall(text) for name in found.split(",")}
    for alias in ["Event::"] + [f"{name}." for name in RENAMED.findall(text)]:
        names.update(re.findall(rf"\b{re.escape(alias)}(\w+)", text))
    return names & set(events)


def main():
    sources = list(files())
    events = [name for _, text in sources for name in declared(text)]
    counts = {event: [0, 0, 0] for event in events}
    for room, text in sources:
        for event in named_in(text, events):
            counts[event][room] += 1
    means = [sum(it) / len(events) for it in zip(*counts.values())]
    told = ["files of code and definitions", "promises", "files of proofs"]
    wrong = [f"{name} is named in {found[room]} {told[room]}, and not in at most {MOST[room]}: {DO[room]}"
             for name, found in counts.items() for room in range(3) if found[room] > MOST[room]]
    wrong += [f"on the mean an event is named in {means[room]:.2f} {told[room]}, and not in at most {MEANS[room]}: {DO[room]}"
              for room in range(3) if means[room] > MEANS[room]]
    wrong += missing(events)
    wrong += names_missing()
    for fault in wrong:
        print(f"events: {fault}", file=sys.stderr)
    most = [max(counts, key=lambda name: counts[name][room]) for room in range(3)]
    said = [f"{mean:.1f} {what} (most {name}, {counts[name][room]})" for room, (mean, what, name) in enumerate(zip(means, told, most))]
    print(f"events: on the mean one is named in {said[0]}, {said[1]} and {said[2]}")
    checks = 3 * (len(events) + 1) + len(LISTS) * len(events) + len(REFUSALS) * len(tree.refusals()) + len(TIMERS) * len(tree.timers()) + 1
    print(f"events: {checks - len(wrong)} passed, {len(wrong)} failed")
    return 1 if wrong else 0


sys.exit(main())
