"""What the scripts that put another stack over the library have in common: its sources, as Debian packages them, and
our edits of these. An edit names lines by their numbers, in the form of `diff -e`, and holds ours: no line of theirs."""
import argparse
import difflib
import itertools
import re
import shutil
import subprocess

import tree

LONGEST = 28  # characters that a line of an edit may share with one of theirs


def files_of(package):
    """The files of a package of Debian; none where it is not installed."""
    words = ["dpkg", "-L", package]
    return tree.ran(words, stdin=subprocess.DEVNULL, text=True)[1].split() if shutil.which(words[0]) else []


def edited(text, script):
    """What an edit makes of a text: commands from its end on, as `diff -e` gives them."""
    lines, given = text.splitlines(True), iter(script.splitlines(True))
    for command in given:
        first, last, how = re.fullmatch(r"(\d+)(?:,(\d+))?([acd])\n", command).groups()
        new = []
        while how != "d" and (line := next(given)) != ".\n":
            new.append(line)
        lines[int(first) - (how != "a"):int(last or first)] = new
    return "".join(lines)


def edit(old, new):
    """What makes a text of another, as `diff -e` gives it; the longest pieces that both have stay."""
    old, new, commands = old.splitlines(True), new.splitlines(True), []
    for how, first, last, begin, end in reversed(difflib.SequenceMatcher(None, old, new, False).get_opcodes()):
        span = f"{first + 1},{last}" if last > first + 1 else str(last)
        if how == "delete":
            commands.append(f"{span}d\n")
        elif how != "equal":
            commands += [span, "a\n" if how == "insert" else "c\n", *new[begin:end], ".\n"]
    return "".join(commands)


def write(path, text):
    """Writes a file only if its text changes, so that nothing is compiled again without need."""
    path.parent.mkdir(parents=True, exist_ok=True)
    if not path.is_file() or path.read_text() != text:
        path.write_text(text)


def plain_lines(file):
    """The lines of a file, with one space in place of several."""
    return [" ".join(line.split()) for line in file.read_text().splitlines()]


def lines_of_theirs(file, theirs):
    """The lines of our file that are among theirs, except short ones that every program in the language has."""
    return [it for it in plain_lines(file) if len(it) > LONGEST and it in theirs]


def parsed(page, parts, usual, **options):
    """The values of a script's options, and the arguments that are left for unittest. In these, the parts that come first are classes of tests."""
    parser = argparse.ArgumentParser(description=page, formatter_class=argparse.RawDescriptionHelpFormatter, usage="%(prog)s [PART..] [OPTION..]",
                                     epilog="All other options are those of Python's unittest, as -k NAME, -v and -f.")
    for name, how in options.items():
        parser.add_argument(f"--{name}", help=argparse.SUPPRESS, **how)
    given, words = parser.parse_known_args()
    named = list(itertools.takewhile(lambda it: not it.startswith("-"), words))
    for it in named:
        if it not in parts:
            parser.error(f"{it} is none of {', '.join(parts)}")
    return given, [*words[len(named):], *(parts[it] for it in named or usual)]
