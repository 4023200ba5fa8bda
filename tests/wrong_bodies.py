#!/usr/bin/env python3
"""Tries the wrong bodies of crates/NAME/wrong and crates/NAME/must-fail. The prover must reject each, by a goal of the function that it changes. All of a
crate are tried in one check of the functions that they change. Of each other function only the contract is left there, since no proof depends on the body of
another function.

If two of them change the same function, the second changes a copy of it, which has the same contract and answers. There is then one more copy without a
change. If a goal of that one is left, the copies show nothing, and all wrong bodies of the check count as not rejected.

A line 'goal: NAME' names the goal that must reject the body. Then the answers to the function's other goals are set aside. A line 'also: NAME, NAME' lists
further goals that are set aside, because a search for them would take long.

    tests/wrong_bodies.py                         all
    tests/wrong_bodies.py recovery_ids            those of one crate
    tests/wrong_bodies.py recovery_ids next__     those of its wrong bodies whose names begin with next__
    tests/wrong_bodies.py --goals recovery_ids    also prints the goals that reject each body

The files have the toolchain's format: its rt must-fail tries those of must-fail/ too, each by itself. A line 'fn: queue::CidQueue::next' (in must-fail/,
'# fn: ..') names the function as a check prints it. Without this line it is the function that has the text. The crate's dependencies must be built
(./prove NAME)."""
import argparse
import collections
import copy
import pathlib
import re
import shutil
import subprocess
import sys
import tempfile
from concurrent.futures import ThreadPoolExecutor

import tree
from tree import ROOT

MEMORY_EACH = 3_000_000  # kB, of one check

VERDICT = re.compile(r"fn (\S+): (proved|not proved|no proof|could not tell)(.*)")
UNANSWERED = re.compile(r"`search` did not prove ((?:`[^`]+`(?:, | and |,? )?)+)")
NOTED = re.compile(r"note: src/\S+: it is not proved that .*\(`([^`]+)`\)")  # a goal of the function whose verdict comes next
ANSWERED = re.compile(r"\./proofs/(\S+)/\w+\.antt:\d+:\d+: error: `([^`]+)`: (.*)")
TYPE = re.compile(r"(?:pub(?:\(\w+\))? )?(?:struct|enum) (\w+)")
BLOCK = re.compile(r"(?:pub(?:\(\w+\))? |unsafe )*(?:impl|trait)\b")
METHODS = re.compile(r"impl(?:<.*?>)? (\w+)(?!.* for )")
FUNCTION = re.compile(r"( {4})?(?:pub(?:\(\w+\))? )?(?:const )?fn (\w+)")
GONE = re.compile(r"has no (field )?`|is not in scope|was not admitted")  # an answer cites a name that no longer exists: no goal rejects that


class Edit:
    """A wrong body: the function that it changes, and the texts that it replaces, each with its file."""

    def __init__(self, path):
        self.name, self.function, self.goal, self.also, self.pairs, file, old = path.stem, None, None, [], [], None, None
        for word, _, rest in (line.partition(":" if line == "new:" else ": ") for line in path.read_text().splitlines()):
            if word in ("fn", "# fn"):
                self.function = rest
            elif word == "goal":
                self.goal = rest
            elif word == "also":
                self.also = rest.split(", ")
            elif word == "file":
                file = rest
            elif word == "old":
                old = rest
            elif word == "new":
                self.pairs.append((file, old, rest))
        if not self.turns():
            raise tree.Unfit(f"{path}: it changes nothing")
        self.function = self.function or function_with(path.parent.parent, *self.pairs[0][:2])
        if not self.function:
            raise tree.Unfit(f"{path}: no function has its text, so a line 'fn: ' must name one")

    def unturned(self):
        """The same function without a change."""
        found = copy.copy(self)
        found.goal, found.pairs = None, [(file, old, old) for file, old, _ in self.pairs]
        return found

    def turns(self):
        return any(old != new for _, old, new in self.pairs)

    def turn(self, crate):
        """Turns the function in a copy of its crate."""
        for file, old, new in self.pairs:
            text = (crate / file).read_text()
            if text.count(old) != 1:
                raise ValueError(f"{old.strip()!r} stands {text.count(old)} times in {file}, and not once")
            (crate / file).write_text(text.replace(old, new))


def rounds(crate, edits):
    """The edits by checks, each with the function that it turns: one that another turns in the same check is copied under another name. A method of a
    trait cannot be: that takes another check."""
    found = [{}]
    for number, edit in enumerate(edits):
        if edit.function in found[0] and is_copied(crate, edit):
            found[0][f"{edit.function}_again_{number}"] = edit
            continue
        room = next((it for it in found if edit.function not in it), None)
        if room is None:
            found.append(room := {})
        room[edit.function] = edit
    for edit in [it for name, it in found[0].items() if name != it.function]:
        found[0][f"{edit.function}_unturned"] = edit.unturned()
    return [it for it in found if it]


def texts(src):
    """The lines of each file of a crate, with the parts of its module's name."""
    for it in sorted(src.rglob("*.rt")):
        at = it.relative_to(src).with_suffix("").parts
        yield it, () if at in (("lib",), ("main",)) else at, it.read_text().splitlines()


def functions(lines, at, types):
    """The functions of a file, except those of traits, macros and tests: the parts of each name, as a check prints it, and the line of its signature."""
    owner, before = None, ""
    for number, line in enumerate(lines):
        if BLOCK.match(line):
            found = METHODS.match(line)
            owner = found and found[1]
        elif (found := FUNCTION.match(line)) and "#[test]" not in before:
            if not found[1]:
                yield (*at, found[2]), number
            elif owner in types:
                yield (*types[owner], owner, found[2]), number
        before = line


def body(lines, start):
    """Which lines are in the braces of the function whose signature begins there; nothing if the braces are on one line."""
    indent = re.match(" *", lines[start])[0]
    signs = lambda at: at == start or lines[at].startswith((f"{indent}{{", f"{indent})"))
    opens = next(at for at in range(start, len(lines)) if signs(at) and lines[at].endswith(("{", "}")))
    return slice(opens + 1, lines.index(f"{indent}}}", opens)) if lines[opens].endswith("{") else None


def functions_of(crate, file):
    """The lines of a file, and its functions, as `functions` gives them."""
    types = {found[1]: at for _, at, every in texts(crate / "src") for found in map(TYPE.match, every) if found}
    lines, at = next(((every, at) for it, at, every in texts(crate / "src") if it == crate / file), ([], ()))
    return lines, list(functions(lines, at, types))


def function_with(crate, file, text):
    """The function that a text is in, as a check prints its name."""
    lines, found = functions_of(crate, file)
    line = next((number for number, it in enumerate(lines) if text in it), -1)
    return next(("::".join(parts) for parts, start in reversed(found) if start <= line), None)


def place(crate, file, function):
    """The lines of a file, and which of them are a function's, its comments and attributes among them; nothing if it is in a trait or on one line."""
    lines, found = functions_of(crate, file)
    start = next((number for parts, number in found if "::".join(parts) == function), None)
    inside = start and body(lines, start)
    if not inside:
        return lines, None
    first = start
    while re.match(r" *(#\[|///)", lines[first - 1]):
        first -= 1
    return lines, slice(first, inside.stop + 1)


def is_copied(crate, edit):
    """Whether an edit can change a copy of its function: if all that it changes is in it."""
    lines, there = place(crate, edit.pairs[0][0], edit.function)
    text = there and "\n".join(lines[there])
    return bool(there) and all(file == edit.pairs[0][0] and text.count(old) == 1 for file, old, _ in edit.pairs)


def copy_function(crate, to, edit, name):
    """Puts after a function a copy of it, changed by the edit and with another name, and a copy of its answers."""
    *owner, own = edit.function.split("::")
    new = name.split("::")[-1]
    file = edit.pairs[0][0]
    lines, there = place(crate, file, edit.function)
    text = re.sub(rf"\bfn {own}\b", f"fn {new}", "\n".join(lines[there]), count=1)
    for _, old, turned in edit.pairs:
        text = text.replace(old, turned)
    lines, there = place(to, file, edit.function)
    (to / file).write_text("\n".join([*lines[:there.stop], "", *text.splitlines(), *lines[there.stop:], ""]))
    answers = to / "proofs" / pathlib.Path(*owner)
    if (answers / own).is_dir():
        shutil.copytree(answers / own, answers / new)
        for it in (answers / new).rglob("*.antt"):
            it.write_text(it.read_text().replace(f".proofs.{'.'.join([*owner, own])}.", f".proofs.{'.'.join([*owner, new])}."))


def answer_alone(crate, folder, name, edit):
    """Leaves of a function's answers only the one to the goal of an edit, and those that this answer names."""
    file = folder / "proofs" / pathlib.Path(*name.split("::")) / "Answers.antt"
    uses = f"use Rattle.{crate}.proofs.{name.replace('::', '.')}.Goals as goal\n\n"
    first, *blocks = re.split(r"^(?=pub [^\n]+ : goal\.)", file.read_text() if file.exists() else uses, flags=re.M)
    answers = {block.split()[1]: block for block in blocks}
    wanted, kept = [edit.goal], {}
    while wanted:
        goal = wanted.pop()
        if goal in answers and goal not in kept:
            kept[goal] = answers[goal]
            wanted += [it for it in answers if re.search(rf"(?<![\w.-]){re.escape(it)}(?![\w-])", answers[goal])]
    aside = {goal: f"pub {goal} : goal.{goal}\n{goal} g c = set_aside\n\n" for goal in [*answers, *edit.also]}
    file.parent.mkdir(parents=True, exist_ok=True)
    file.write_text(first + "".join({**aside, **kept}.values()))


def want_no_offer(crate, folder, name):
    """Puts an undefined name, `aside`, into the answers of a function. For a file with an error the check does not offer what to write there, which would
    take up to a third of its time. The goals are tried as before, which the copies without a change show."""
    file = folder / "proofs" / pathlib.Path(*name.split("::")) / "Answers.antt"
    file.parent.mkdir(parents=True, exist_ok=True)
    text = file.read_text() if file.exists() else f"use Rattle.{crate}.proofs.{name.replace('::', '.')}.Goals as goal\n"
    file.write_text(f"{text}\naside : set_aside\naside = set_aside\n")


def set_aside(crate, folder, kept):
    """Leaves only the contract of each function that is not in `kept`: its body becomes an endless loop, and its proof an undefined name."""
    files = [*texts(folder / "src")]
    types = {found[1]: at for _, at, lines in files for found in map(TYPE.match, lines) if found}
    for file, at, lines in files:
        for parts, start in [*functions(lines, at, types)][::-1]:
            if "::".join(parts) not in kept:
                if inside := body(lines, start):
                    lines[inside] = ["loop {}"]
                refuse(crate, folder, parts)
        file.write_text("\n".join([*lines, ""]))


def refuse(crate, folder, parts):
    """Puts an undefined name in place of a function's proof."""
    room = folder / "proofs" / pathlib.Path(*parts)
    room.mkdir(parents=True, exist_ok=True)
    for it in "Answers.antt", "Invariants.antt":
        (room / it).unlink(missing_ok=True)
    use = f"use Rattle.{crate}.proofs.{'.'.join(parts)}.Statement.{{statement}}"
    name = f"{parts[-1]}_spec"
    (room / "Proof.antt").write_text(f"{use}\n\npub {name} : {{M : Type 1}} → statement M\n{name} = set_aside\n")


def checked(crate, edits):
    """What a check says of a copy of the crate with these edits."""
    with tempfile.TemporaryDirectory() as folder:
        for room in "src", "specs", "proofs":
            if (ROOT / "crates" / crate / room).is_dir():
                shutil.copytree(ROOT / "crates" / crate / room, pathlib.Path(folder, room))
        for name, it in sorted(edits.items(), key=lambda of: of[0] != of[1].function):  # copies last: until then each text occurs once
            if name == it.function:
                it.turn(pathlib.Path(folder))
            else:
                copy_function(ROOT / "crates" / crate, pathlib.Path(folder), it, name)
        for name, it in edits.items():
            if it.goal:
                answer_alone(crate, pathlib.Path(folder), name, it)
            want_no_offer(crate, pathlib.Path(folder), name)
        set_aside(crate, pathlib.Path(folder), edits)
        only = [word for it in edits for word in ("--only", f"{crate}::{it}")]
        words = [tree.kit() / "bin" / "rattle", "check", "--short-goals", *tree.words_of(crate), *only]
        how = {"cwd": folder, "stdin": subprocess.DEVNULL, "stdout": subprocess.PIPE, "stderr": subprocess.STDOUT}
        return subprocess.run(words, text=True, errors="replace", **how).stdout


def refused(crate, said):
    """The functions that are rejected themselves, and not because of a call, each with the goals that are not proved."""
    found, noted, answered = {}, [], {}
    for line in said.splitlines():
        if of_answer := ANSWERED.match(line):
            folder, goal, why = of_answer.groups()
            if not GONE.search(why):
                answered.setdefault(folder.replace("/", "::"), []).append(goal)
        elif of_goal := NOTED.match(line):
            noted.append(of_goal[1])
        elif of_function := VERDICT.match(line):
            name, verdict, why = of_function.groups()
            left = [goal for goals in UNANSWERED.findall(why) for goal in re.findall(r"`([^`]+)`", goals)]
            if left or verdict == "not proved":
                name = name[len(f"{crate}::"):]
                found[name] = list(dict.fromkeys(answered.get(name, []) + left + noted))
            noted = []
    return found


def errors_of(said):
    """The declarations with an error, by the function whose proof they are in."""
    found = {}
    for folder, name, _ in ANSWERED.findall(said):
        found.setdefault(folder.replace("/", "::"), set()).add(name)
    return found


def try_round(crate, edits):
    """Each edit that changes something, with the goals that reject it, and what is wrong if none does."""
    wrong = {name: it for name, it in edits.items() if it.turns()}
    for_all = lambda why: [(it, [], why) for it in wrong.values()]
    try:
        said = checked(crate, edits)
    except (OSError, ValueError) as why:
        return for_all(str(why))
    found, lines = refused(crate, said), said.rstrip().splitlines()
    others = sorted(name for name, goals in found.items() if goals and name not in edits)
    if others:
        return for_all(f"rejected functions that no edit changes: {', '.join(others)}")
    errors = errors_of(said)
    unproved = [name for name in edits if name not in wrong and (found.get(name) != [] or errors.get(name) != {"aside"})]
    if unproved:
        return for_all(f"copies without a change that are not proved: {', '.join(unproved)}")
    refusing = lambda name, it: [goal for goal in found.get(name, []) if it.goal in (None, goal)]
    why = lambda name, it: f"{name} is not rejected by {it.goal or 'any goal'}; the check ends in {lines[-1:]}"
    return [(it, refusing(name, it), why(name, it)) for name, it in wrong.items()]


def show(text):
    print(f"wrong bodies: {text}", file=sys.stderr, flush=True)


def try_all(crates, prefix, says_goals):
    """Tries those of these crates whose names begin with a prefix, the longest checks first. Returns how many were rejected, and how many not."""
    work = []
    for crate in crates:
        files = [it for room in ("must-fail", "wrong") for it in sorted((ROOT / "crates" / crate / room).glob(f"{prefix}*.edit"))]
        work += [(crate, it) for it in rounds(ROOT / "crates" / crate, [Edit(it) for it in files])]
    work.sort(key=lambda it: -len(it[1]))
    missing = {it for crate, _ in work for it in tree.below(crate) if not tree.is_built(it)}
    if missing:
        raise tree.Unfit(f"{', '.join(sorted(missing))} must be built first: ./prove CRATE")
    counts = collections.Counter()
    with ThreadPoolExecutor(tree.lanes(MEMORY_EACH)) as pool:
        for (crate, _), found in zip(work, pool.map(lambda it: try_round(*it), work)):
            for edit, goals, why in found:
                counts[bool(goals)] += 1
                if not goals:
                    show(f"{crate}: {edit.name} failed\n{why}")
                if says_goals:
                    print(f"{crate}: {edit.name}: {', '.join(goals) or 'not rejected'}", flush=True)
    return counts[True], counts[False]


def main():
    parser = argparse.ArgumentParser(description=__doc__, formatter_class=argparse.RawDescriptionHelpFormatter)
    parser.add_argument("--goals", action="store_true", help="also prints the goals that reject each body")
    parser.add_argument("crate", nargs="?", choices=tree.crates(), metavar="CRATE", help="one crate")
    parser.add_argument("name", nargs="?", default="", help="the beginning of a wrong body's name")
    given = tree.arguments(parser)
    tree.stop_on_signals()
    try:
        with tree.alone("tests/wrong_bodies.py", show):
            passed, failed = try_all([given.crate] if given.crate else tree.crates(), given.name, given.goals)
    except tree.Unfit as why:
        sys.exit(f"wrong bodies: {why}")
    except KeyboardInterrupt:
        sys.exit("wrong bodies: broken off")
    print(f"wrong bodies: {passed} passed, {failed} failed")
    sys.exit(failed > 0)


if __name__ == "__main__":
    tree.ends_quietly(main)
