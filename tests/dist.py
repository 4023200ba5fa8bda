#!/usr/bin/env python3
"""Writes the prebuilt library and programs, for users without the toolchain. prebuilt/TARGET has the static library in one archive,
the shared library and the programs. PROVED there says what they were proved with, and SHA256SUMS has a checksum of each file.

    ./dist             writes prebuilt/TARGET from programs that ./prove or ./check built; proves the library if need be
    ./dist --compare   writes nothing, and fails if a prebuilt file is not, bit for bit, what ./dist would write; proves no program
    ./dist --sums      needs no toolchain: compares the checksums of the prebuilt files, and of the sources that they were built from

Only the toolchain's compiler, linker and archiver make the bits. No time, path or tool of the machine goes into them, so proofs made
from nothing in another folder give the same bits. The library is for every x86-64 processor. The programs are for x86-64-v2, since
rt ci compiles them for it, and check at their start that the processor has it.
"""
import argparse
import hashlib
import pathlib
import re
import shutil
import subprocess
import sys
import tempfile

import tree
from tree import ROOT

AT = ROOT / "prebuilt" / tree.TARGET
SHOWN = f"prebuilt/{tree.TARGET}"
FFI = ROOT / "crates" / "recovery_ffi" / "out"
NAME = "libquic_recovery"
EXPORTS = ROOT / "packaging" / "exports.map"
BUILT = {"recovery_ffi": f"{NAME}.a", **{crate: f"bin/{name}" for crate, name in tree.LAUNCHERS.items()}}
MARK = re.compile(rb"rattle logic=([0-9a-f]{16})")  # in each object that the toolchain writes
TRUSTED = re.compile(r" [a-z-]+=trusted")  # parts of a verdict that name what its run took from earlier ones


def version():
    """The version of this project, as the crate has it."""
    return re.search(r'^version = "(.*)"$', (ROOT / "rust" / "quic-recovery" / "Cargo.toml").read_text(), re.M)[1]


def shared():
    """The names of the shared library: the file, the name that programs load it by, and the one that they are linked by. Before 1.0 each minor
    version may have another layout."""
    return f"{NAME}.so.{version()}", f"{NAME}.so.{version().rpartition('.')[0]}", f"{NAME}.so"


def checksum(path):
    return hashlib.sha256(path.read_bytes()).hexdigest()


def files(folder):
    return sorted(it.relative_to(folder).as_posix() for it in folder.rglob("*") if it.is_file())


def run(*words, **how):
    """Runs a tool of the toolchain."""
    done = subprocess.run([str(it) for it in words], stdin=subprocess.DEVNULL, stdout=subprocess.PIPE, stderr=subprocess.STDOUT, text=True, **how)
    if done.returncode:
        raise tree.Unfit(f"{pathlib.Path(words[0]).name} failed: {done.stdout.strip()}")
    return done.stdout


# ---- what is written


def built(crate):
    """A program that was proved and built by the sources here."""
    if not tree.is_built(crate, crate):
        raise tree.Unfit(f"{crate} was not built here from the sources as they are: ./prove {crate}")
    return ROOT / "crates" / crate / "out" / crate


def library():
    """Has the library proved and built, if it was not from the sources as they are. Returns the toolchain's version and its verdict."""
    if subprocess.run([ROOT / "tests" / "rust.py", "--library"], stdin=subprocess.DEVNULL).returncode:
        raise tree.Unfit("the library is not built")
    return (FFI / "verdict").read_text().splitlines()


def archive(made):
    """The library and the toolchain's functions that ask for memory, in one archive: two members."""
    kit = tree.kit()
    archiver = kit / "toolchain" / "bin" / "llvm-ar"
    with tempfile.TemporaryDirectory() as room:
        members = []
        for it in FFI / "librecovery_ffi.a", kit / "c" / "liblibc_c.a":
            run(archiver, "x", it, cwd=room)
            members += run(archiver, "t", it).split()
        if len(members) != 2:
            raise tree.Unfit(f"the library has the members {' '.join(members)}, and not two")
        run(archiver, "rcsD", made, *members, cwd=room)


def shared_library(made, whole):
    """The shared library: it exports what the header declares, and nothing else."""
    kit = tree.kit() / "toolchain"
    words = [kit / "bin" / "ld.lld", "-shared", "-o", made, f"-soname={shared()[1]}", f"--version-script={EXPORTS}", "--build-id=none", "--hash-style=gnu"]
    words += ["-z", "defs", "-z", "relro", "-z", "now", "-z", "noexecstack", "--strip-all", "--whole-archive", whole, "--no-whole-archive"]
    run(*words, kit / "lib" / "libgcc.a", kit / "lib" / "libc.so.6")


def write(to, kit_line=None):
    """Writes all of it. Toolchains of one logic differ in their names alone: PROVED has the name that it is given, if it is of this logic."""
    programs = {name: built(crate) for crate, name in tree.LAUNCHERS.items()}
    said, verdict = library()
    (to / "bin").mkdir(parents=True)
    archive(to / f"{NAME}.a")
    shared_library(to / shared()[0], to / f"{NAME}.a")
    for name, program in programs.items():
        shutil.copyfile(program, to / "bin" / name)
    for it in files(to):
        logic = {found.decode() for found in MARK.findall((to / it).read_bytes())}
        if {f"logic {found}" for found in logic} != {tree.logic()}:
            raise tree.Unfit(f"{it} was proved with the logic {' and '.join(sorted(logic)) or 'that it does not name'}, and not with {tree.logic()}")
    for it in [to / shared()[0], *(to / "bin").iterdir()]:
        it.chmod(0o755)
    lines = [f"version {version()}", f"kit {kit_line if kit_line and kit_line.endswith(f' {tree.logic()}') else said}"]
    lines += [f"verdict recovery_ffi {TRUSTED.sub('', verdict)}", f"processor {NAME} x86-64", "processor bin x86-64-v2"]
    lines += [f"sources {crate} {tree.sum_of_sources(crate)}" for crate in BUILT]
    (to / "PROVED").write_text("\n".join(lines) + "\n")
    (to / "SHA256SUMS").write_text("".join(f"{checksum(to / it)}  {it}\n" for it in files(to)))


def replace():
    """Writes prebuilt/TARGET: all of it, or nothing."""
    AT.parent.mkdir(exist_ok=True)
    with tempfile.TemporaryDirectory(dir=AT.parent) as room:
        write(pathlib.Path(room, tree.TARGET))
        shutil.rmtree(AT, ignore_errors=True)
        pathlib.Path(room, tree.TARGET).rename(AT)


# ---- what is compared


def found():
    """Whether there is anything to compare."""
    if not (AT / "SHA256SUMS").is_file() or not (AT / "PROVED").is_file():
        raise tree.Unfit(f"there is no {SHOWN} with PROVED and SHA256SUMS: ./dist writes it, and needs the toolchain")


def compare():
    """Whether each prebuilt file is what ./dist would write, with the reason if it is not."""
    found()
    was = re.search(r"^kit (.*)$", (AT / "PROVED").read_text(), re.M)
    with tempfile.TemporaryDirectory() as room:
        anew = pathlib.Path(room, tree.TARGET)
        write(anew, was and was[1])
        for it in sorted({*files(anew), *files(AT)}):
            is_same = all((at / it).is_file() for at in (anew, AT)) and (anew / it).read_bytes() == (AT / it).read_bytes()
            yield is_same, f"{SHOWN}/{it} is not, bit for bit, what the sources build to: run ./dist, and commit what it writes"


def sums():
    """Whether the prebuilt files are the listed ones, and the sources those that they were built from, each with the reason if not."""
    found()
    listed = dict(line.split("  ", 1)[::-1] for line in (AT / "SHA256SUMS").read_text().splitlines())
    for it in sorted({*listed, *files(AT)} - {"SHA256SUMS"}):
        is_listed = (AT / it).is_file() and listed.get(it) == checksum(AT / it)
        yield is_listed, f"{SHOWN}/{it} is not the file that SHA256SUMS lists"
    named = dict(re.findall(r"^sources (\w+) (\w+)$", (AT / "PROVED").read_text(), re.M))
    for crate, file in BUILT.items():
        yield named.get(crate) == tree.sum_of_sources(crate), f"{SHOWN}/{file} was built from other sources of {crate} than those here"


def report(compared):
    """Ends with what was compared and with the reason of each failure."""
    compared = list(compared)
    faults = [why for is_so, why in compared if not is_so]
    for it in faults:
        print(f"dist: {it}", file=sys.stderr, flush=True)
    print(f"dist: {len(compared) - len(faults)} passed, {len(faults)} failed")
    sys.exit(len(faults) > 0)


def main():
    parser = argparse.ArgumentParser(prog="dist", description=__doc__, formatter_class=argparse.RawDescriptionHelpFormatter)
    parser.add_argument("--version", action="version", version=tree.version())
    for it in "compare", "sums":
        parser.add_argument(f"--{it}", dest="choice", action="store_const", const=it, help=argparse.SUPPRESS)
    choice = tree.arguments(parser).choice
    tree.stop_on_signals()
    tell = lambda text: print(f"dist: {text}", file=sys.stderr, flush=True)
    try:
        tree.reject_committed_builds()
        if choice == "sums":
            report(sums())
        warning = tree.other_logic()
        if warning:
            tell(warning)
        with tree.alone("./dist", tell):
            if choice == "compare":
                report(compare())
            replace()
        size = sum((AT / it).stat().st_size for it in files(AT))
        print(f"dist: wrote {SHOWN}: {len(files(AT))} files, {size:,} bytes")
    except tree.Unfit as why:
        sys.exit(f"dist: {why}")
    except KeyboardInterrupt:
        sys.exit("\ndist: broken off")


if __name__ == "__main__":
    tree.ends_quietly(main)
