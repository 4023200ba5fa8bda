#!/usr/bin/env python3
"""Tests the prebuilt library and programs as a user without the toolchain has them: in a clone of the tree without any build, and with a
PATH that has no rt. It gets the first answer. In Rust it tries the example, the tests, a crate of its own with the library by path, by git
and vendored, and the package; in C and C++, pkg-config and CMake, linked statically and dynamically, and with musl. A changed byte, a
changed source and a library of another version must be rejected.

Tests that need git, cargo, pkg-config, cmake or a compiler are skipped if it is missing. ./dist --compare compares the bits with those
that the sources give."""
import contextlib
import os
import pathlib
import re
import shutil
import sys
import tempfile
import time
import urllib.parse

import tree
from tree import ROOT

AT = pathlib.Path("prebuilt", tree.TARGET)
ARCHIVE = AT / "libquic_recovery.a"
CRATE = pathlib.Path("rust", "quic-recovery")
SECONDS_FOR_ANSWER = 2
SECONDS_FOR_BUILD = 60  # of the example or a crate in Rust, and of the programs in C and C++
LAYOUT = re.search(r"recovery_ffi_layout_[0-9a-f]+", (ROOT / "rust" / "c" / "recovery_ffi.h").read_text())[0]
OTHER_LAYOUT = "recovery_ffi_layout_00000000"
VERSION = re.search(r'^version = "(.*)"$', (ROOT / CRATE / "Cargo.toml").read_text(), re.M)[1]
SONAME = f"libquic_recovery.so.{VERSION.rpartition('.')[0]}"
NO_LIBRARY = "quic_recovery_has_no_library_for_this_build_see_docs_INSTALL"  # which the linker names
# instructions of processors after the first x86-64 ones, of those that compilers choose by themselves
LATER = re.compile(r"^\s+(popcnt|lzcnt|tzcnt|bextr|andn|mulx|shlx|shrx|sarx|rorx|pshufb|palignr|pmulld|pm(?:in|ax)[us][bdw]?d|ptest|pinsr[bdq]|pextr[bdq]"
                   r"|pblend\w+|blendv?p[sd]|round[sp][sd]|crc32\w?|movbe|v[a-z]{2,}\w*)\s", re.M)
OWN_CRATE = """use quic_recovery::{Instant, RecoveryConfig, Sender, Side, SpaceId, Transmission, VERSION};

fn main() {
    let now = Instant::from_nanos(1);
    let mut sender = Sender::established(Side::Client, &RecoveryConfig::default(), now).unwrap();
    let goes = sender.transmit(now, 1200, SpaceId::Data, true).unwrap();
    assert_eq!(goes, Transmission::Transmitted);
    println!("{VERSION}");
}
"""
CMAKE = """cmake_minimum_required(VERSION 3.13)
project(transfer C CXX)
find_package(quic-recovery %s CONFIG REQUIRED)
foreach(kind static shared)
  add_executable(transfer_${kind} transfer.c)
  add_executable(main_${kind} main.cpp)
  target_link_libraries(transfer_${kind} PRIVATE quic-recovery::${kind})
  target_link_libraries(main_${kind} PRIVATE quic-recovery::${kind})
endforeach()
"""


class Place:
    """A copy of the tree without what was built, a clone if there is git, and an environment without the toolchain."""

    def __init__(self, folder):
        self.folder, self.root = folder, folder / "a tree"
        shutil.copytree(ROOT, self.root, symlinks=True, ignore=shutil.ignore_patterns("out", "target", "native", ".git", "__pycache__"))
        own = ("RATTLE_KIT", "QUIC_RECOVERY_LIB", "CARGO_TARGET_DIR", "MAKEFLAGS", "PKG_CONFIG_PATH", "LD_LIBRARY_PATH")
        self.env = {name: it for name, it in os.environ.items() if name not in own}
        self.env.update(PATH=self.path(), CARGO_NET_OFFLINE="true", CARGO_TERM_COLOR="never", PYTHONDONTWRITEBYTECODE="1")
        if self.has("git"):
            user = ["-c", "user.name=a user", "-c", "user.email=user@example.org"]
            for words in ["init", "--quiet"], ["add", "--all"], [*user, "commit", "--quiet", "--message=a tree"]:
                status, _, errors = self.ran(["git", *words])
                if status:
                    raise tree.Unfit(errors)

    def path(self):
        """The PATH without rt: a folder that has it is replaced by one with links to all else that it has."""
        folders = []
        for at, it in enumerate(os.environ["PATH"].split(os.pathsep)):
            folder = pathlib.Path(it)
            if (folder / "rt").exists():
                folder = self.folder / f"bin{at}"
                folder.mkdir()
                for program in pathlib.Path(it).iterdir():
                    if program.name != "rt":
                        (folder / program.name).symlink_to(program.resolve())
            folders.append(str(folder))
        return os.pathsep.join(folders)

    def has(self, tool):
        return shutil.which(tool, path=self.env["PATH"]) is not None

    def ran(self, words, given=None, cwd=None, **more):
        status, output, errors = tree.ran([str(it) for it in words], given, cwd=cwd or self.root, env={**self.env, **more})
        return status, output.decode(errors="replace"), errors.decode(errors="replace")


def setUpModule():
    global PLACE, FOLDER
    FOLDER = tempfile.TemporaryDirectory()
    PLACE = Place(pathlib.Path(FOLDER.name).resolve())


def tearDownModule():
    FOLDER.cleanup()


@contextlib.contextmanager
def changed(path, change):
    """A file with other bytes for a time; cargo goes by times, and so each is new."""
    before = path.read_bytes()
    path.write_bytes(change(before))
    try:
        yield
    finally:
        path.write_bytes(before)


def flipped(data):
    """With one bit turned, in the middle."""
    at = len(data) // 2
    return data[:at] + bytes([data[at] ^ 1]) + data[at + 1:]


class PackTest(tree.TestCase):
    """Tests in the place, each with a folder of its own."""

    needs = ()  # the commands without which the tests of a class are skipped

    def setUp(self):
        self.need(*self.needs)
        folder = tempfile.TemporaryDirectory(dir=PLACE.folder)
        self.addCleanup(folder.cleanup)
        self.folder = pathlib.Path(folder.name)
        self.crate = PLACE.root / CRATE

    def need(self, *tools):
        missing = [it for it in tools if not PLACE.has(it)]
        if missing:
            self.skipTest(f"{' and '.join(missing)} is missing")

    def passes(self, words, **how):
        """What a command wrote on both streams, if it ended well."""
        status, output, errors = PLACE.ran(words, **how)
        self.assertEqual(status, 0, f"{words}:\n{output}{errors}")
        return output + errors

    def fails(self, wanted, words, **how):
        """What a command wrote that fails, and says why in these words."""
        status, output, errors = PLACE.ran(words, **how)
        self.assertNotEqual(status, 0, f"{words}:\n{output}{errors}")
        self.assertIn(wanted, output + errors)
        return output + errors

    @contextlib.contextmanager
    def within(self, seconds):
        began = time.time()
        yield
        self.assertLess(time.time() - began, seconds)


class Answers(PackTest):
    def test_first_answer(self):
        script, wanted = ((ROOT / "examples" / f"received.{it}").read_bytes() for it in ("txt", "out"))
        with self.within(SECONDS_FOR_ANSWER):
            self.assertEqual(PLACE.ran(["./recovery-replay"], script), (0, wanted.decode(), ""))

    @tree.each(list(tree.LAUNCHERS.items()), "{1}")
    def test_launcher(self, crate, name):
        usage = (ROOT / "crates" / crate / "help.txt").read_text()
        self.assertEqual(PLACE.ran([f"./{name}", "--help"]), (0, usage, ""))
        self.assertEqual(PLACE.ran([f"./{name}", "--version"]), (0, f"{name} {(ROOT / 'VERSION').read_text()}", ""))

    def test_crate_and_programs_have_one_version(self):
        self.assertEqual((ROOT / "VERSION").read_text().split()[0], VERSION)

    @tree.each(["./prove", "./dist", "./dist --compare"])
    def test_needs_the_toolchain(self, command):
        self.assertEqual(PLACE.ran(command.split()), (1, "", f"{command[2:].split()[0]}: {tree.MISSING}\n"))


class Listed(PackTest):
    def test_checksums_of_files_and_sources(self):
        files = [it for it in (ROOT / AT).rglob("*") if it.is_file() and it.name != "SHA256SUMS"]
        self.assertEqual(PLACE.ran(["./dist", "--sums"]), (0, f"dist: {len(files) + len(tree.LAUNCHERS) + 1} passed, 0 failed\n", ""))

    def test_logic_and_verdict(self):
        proved = dict(line.split(" ", 1) for line in (ROOT / AT / "PROVED").read_text().splitlines())
        self.assertTrue(proved["kit"].endswith(f" {tree.logic()}"), proved["kit"])
        wanted = r"recovery_ffi logic=proved functions=\d+ axioms=3 .*\bsum=" + tree.logic().split()[1] + r"\b.*"
        self.assertRegex(proved["verdict"], f"^{wanted}$")

    def test_library_runs_on_each_processor(self):
        self.need("objdump")
        listing = self.passes(["objdump", "-d", "--no-show-raw-insn", "--no-addresses", ARCHIVE])
        self.assertGreater(len(re.findall(r"^\s+mov\s", listing, re.M)), 1000)
        self.assertEqual(sorted(set(LATER.findall(listing))), [])


class Rejected(PackTest):
    """A changed byte, a changed source, and another version."""

    example = ["cargo", "build", "--example", "memory"]

    def not_installed(self, wanted):
        prefix = self.folder / "usr"
        self.fails(wanted, ["make", "install", f"PREFIX={prefix}"])
        self.assertFalse(prefix.exists())

    def test_changed_program(self):
        other = f"{AT}/bin/recovery-replay is not the file that SHA256SUMS lists"
        with changed(PLACE.root / AT / "bin" / "recovery-replay", flipped):
            self.assertEqual(PLACE.ran(["./recovery-replay"], b""), (1, "", f"recovery-replay: {other}, and {tree.MISSING}\n"))
            self.fails(f"dist: {other}\n", ["./dist", "--sums"])
            self.need("make")
            self.not_installed("is not the one that SHA256SUMS lists")

    def test_file_that_is_not_listed(self):
        more = PLACE.root / AT / "bin" / "recovery-more"
        more.touch()
        self.addCleanup(more.unlink)
        self.fails(f"dist: {AT}/bin/recovery-more is not the file that SHA256SUMS lists\n", ["./dist", "--sums"])
        self.need("make")
        self.not_installed("bin/recovery-more\nmake: SHA256SUMS lists no such file")

    def test_changed_archive(self):
        other = f"{ARCHIVE} is not the file that SHA256SUMS lists"
        with changed(PLACE.root / ARCHIVE, flipped):
            self.fails(f"dist: {other}\n", ["./dist", "--sums"])
            self.need("make")
            self.fails("is not the one that SHA256SUMS lists", ["make", "package"])
            self.need("cargo")
            self.fails(f"no program links: {other}", self.example, cwd=self.crate)

    def test_changed_source(self):
        with changed(PLACE.root / "crates" / "recovery_base" / "src" / "time.rt", lambda it: it + b"// changed\n"):
            other = f"{AT}/bin/recovery-replay was built from other sources than those here"
            self.assertEqual(PLACE.ran(["./recovery-replay"], b""), (1, "", f"recovery-replay: {other}, and {tree.MISSING}\n"))
            self.fails(f"dist: {ARCHIVE} was built from other sources of recovery_ffi than those here\n", ["./dist", "--sums"])
            other = f"{ARCHIVE} was built from other sources than those here"
            self.need("make")
            self.not_installed(other)
            self.need("cargo")
            said = self.fails(f"no program links: {other}", self.example, cwd=self.crate)
            self.assertIn(NO_LIBRARY, said)

    def other_version(self):
        """A library of another version."""
        data = (PLACE.root / ARCHIVE).read_bytes()
        self.assertIn(LAYOUT.encode(), data)
        archive = self.folder / ARCHIVE.name
        archive.write_bytes(data.replace(LAYOUT.encode(), OTHER_LAYOUT.encode()))
        return archive

    def test_other_version_in_rust(self):
        self.need("cargo")
        wanted = f"{self.other_version()} is of another version of this crate, for it lacks the symbol {LAYOUT}"
        self.fails(wanted, self.example, cwd=self.crate, QUIC_RECOVERY_LIB=str(self.folder))

    def test_folder_without_library(self):
        self.need("cargo")
        said = self.fails(f"QUIC_RECOVERY_LIB names {self.folder}, which has neither", self.example, cwd=self.crate, QUIC_RECOVERY_LIB=str(self.folder))
        self.assertIn(NO_LIBRARY, said)

    def test_other_version_in_c(self):
        self.need("cc")
        self.fails(LAYOUT, ["cc", "-Irust/c", "rust/c/main.c", self.other_version(), "-o", self.folder / "main"])


class InRust(PackTest):
    """The example, the tests, a crate of one's own, and a package."""

    needs = ("cargo", "cc")
    cargo_run = ["cargo", "run", "--release"]
    proved = f"proved with {tree.logic()}\n"

    def own(self, *added, **how):
        """A new crate with this dependency."""
        own = self.folder / "own"
        self.passes(["cargo", "new", "--quiet", "--vcs", "none", own])
        self.passes(["cargo", "add", *added], cwd=own, **how)
        (own / "src" / "main.rs").write_text(OWN_CRATE)
        return own

    def test_example(self):
        with self.within(SECONDS_FOR_BUILD):
            said = self.passes([*self.cargo_run, "--example", "sender"], cwd=self.crate)
        self.assertIn("all 200 were acknowledged", said)
        self.assertIn(f", {self.proved}", said)

    def test_tests(self):
        self.assertRegex(self.passes(["cargo", "test", "--release"], cwd=self.crate), r"(?m)^test result: ok\. \d{2,} passed")

    def test_own_crate(self):
        with self.within(SECONDS_FOR_BUILD):
            own = self.own("--path", self.crate)
            self.assertIn(self.proved, self.passes(self.cargo_run, cwd=own))

    def test_own_crate_by_git(self):
        """By git the library is there. Vendored it is not: only linking needs it, and cargo hides the warning, so the linker names the reason."""
        self.need("git")
        how = {"CARGO_HOME": str(self.folder / "home"), "CARGO_NET_OFFLINE": "false"}  # cargo takes a file for the network
        url = f"file://{urllib.parse.quote(str(PLACE.root))}"
        try:
            own = self.own("quic-recovery", "--git", url, **how)
        except AssertionError as why:
            if "git_proxy_options" not in str(why):
                raise
            self.skipTest("cargo takes no git dependency: it was built for another libgit2, as Debian 12's cargo-web is")
        how["cwd"] = own
        self.assertIn(self.proved, self.passes(self.cargo_run, **how))
        status, written, errors = PLACE.ran(["cargo", "vendor"], **how)
        self.assertEqual(status, 0, errors)
        (own / ".cargo").mkdir()
        (own / ".cargo" / "config.toml").write_text(written)
        self.passes(["cargo", "check"], **how)
        self.fails(NO_LIBRARY, self.cargo_run, **how)
        self.assertIn(self.proved, self.passes(self.cargo_run, QUIC_RECOVERY_LIB=str(PLACE.root / AT), **how))

    def test_package(self):
        self.need("make")
        self.passes(["make", "package"])
        packed = next((self.crate / "target" / "package").glob("quic-recovery-*.crate"))
        self.passes(["tar", "-xzf", packed, "-C", self.folder])
        unpacked = self.folder / packed.stem
        self.assertIn(f", {self.proved}", self.passes([*self.cargo_run, "--example", "sender"], cwd=unpacked))
        for it in "LICENSE-APACHE", "LICENSE-MIT", "NOTICE":
            self.assertEqual((unpacked / it).read_bytes(), (ROOT / it).read_bytes(), it)


class WithMusl(PackTest):
    """The archive with another C library than glibc."""

    needs = ("musl-gcc",)

    @tree.each([(source, how) for how in ("static", "dynamic") for source in ("main", "handshake", "sender", "transfer", "tunnel", "static_memory")], "{0}.c {1}")
    def test_program(self, source, how):
        program = self.folder / source
        self.passes(["musl-gcc", *(["-static"] if how == "static" else []), "-O2", f"rust/c/{source}.c", ARCHIVE, "-o", program])
        self.assertEqual(PLACE.ran([program]), (0, (ROOT / "rust" / "c" / f"{source}.out").read_text(), ""))


class Installed(PackTest):
    """What make installs, from C and C++."""

    needs = ("make", "cc", "c++", "readelf")
    programs = [(compiler, source, kind) for kind in ("shared", "static") for compiler, source in (("cc", "transfer.c"), ("c++ -std=c++11", "main.cpp"))]

    def setUp(self):
        super().setUp()
        self.prefix = self.folder / "it's a \"prefix\""  # a path may have all that a shell takes apart
        self.library = self.prefix / "lib" / SONAME
        self.by_pkg_config = {"PKG_CONFIG_PATH": str(self.prefix / "lib" / "pkgconfig")}
        self.passes(["make", "install", f"PREFIX={self.prefix}"])

    def compiled(self, compiler, source, kind):
        """A program as one compiles it who has installed the library."""
        self.need("pkg-config")
        package = "quic-recovery" if kind == "shared" else "quic-recovery-static"
        program = self.folder / f"{source.replace('.', '_')}_{kind}"
        command = f"""eval {compiler} -O2 rust/c/{source} "$(pkg-config --cflags --libs {package})" -o '"$0"'"""  # pkg-config quotes for a shell
        self.passes(["sh", "-c", command, program], **self.by_pkg_config)
        return program

    def runs(self, program, source, kind):
        wanted = (ROOT / "rust" / "c" / f"{re.sub('[.]c$', '', source).replace('.', '_')}.out").read_text()
        library = {"LD_LIBRARY_PATH": str(self.prefix / "lib")} if kind == "shared" else {}
        self.assertEqual(PLACE.ran([program], **library), (0, wanted, ""))
        needs = re.findall(r"\(NEEDED\) .*\[(libquic\S+)\]", PLACE.ran(["readelf", "-d", program])[1])
        self.assertEqual(needs, [SONAME] if kind == "shared" else [])

    @tree.each(programs, "{1}, {2}")
    def test_pkg_config(self, compiler, source, kind):
        with self.within(SECONDS_FOR_BUILD):
            self.runs(self.compiled(compiler, source, kind), source, kind)

    def test_version(self):
        self.need("pkg-config")
        self.assertEqual(PLACE.ran(["pkg-config", "--modversion", "quic-recovery"], **self.by_pkg_config), (0, f"{VERSION}\n", ""))

    def test_exports_are_what_the_header_declares(self):
        self.need("nm")
        header = (self.prefix / "include" / "recovery_ffi.h").read_text()
        declared = set(re.findall(r"^[a-z][^\n=({]*?[ *](recovery_ffi_\w+)\([^{\n]*\);$", header, re.M)) - {"recovery_ffi_layout"} | {LAYOUT}
        said = self.passes(["nm", "-D", "--defined-only", "--without-symbol-versions", self.library])
        found = {line.split()[2] for line in said.splitlines() if line.split()[1] == "T"}
        self.assertEqual(sorted(found), sorted(declared))
        self.assertGreater(len(found), 50)

    def test_program(self):
        program = self.prefix / "bin" / "recovery-replay"
        self.assertEqual(PLACE.ran([program], b"next-timeout\n", cwd="/"), (0, "timeout none\n", ""))

    def test_shared_library_of_another_version(self):
        program = self.compiled("cc", "transfer.c", "shared")
        (self.folder / SONAME).write_bytes(self.library.read_bytes().replace(LAYOUT.encode(), OTHER_LAYOUT.encode()))
        self.fails(LAYOUT, [program], LD_LIBRARY_PATH=str(self.folder))

    def configure(self, version):
        """How CMake is asked for a version."""
        self.need("cmake")
        for it in "transfer.c", "main.cpp":
            shutil.copy(ROOT / "rust" / "c" / it, self.folder)
        (self.folder / "CMakeLists.txt").write_text(CMAKE % version)
        return ["cmake", "-S", self.folder, "-B", self.folder / "built", f"-DCMAKE_PREFIX_PATH={self.prefix}", "-DCMAKE_BUILD_TYPE=Release"]

    def test_cmake(self):
        self.passes(self.configure(VERSION.rpartition(".")[0]))
        self.passes(["cmake", "--build", self.folder / "built"])
        for kind in "shared", "static":
            self.runs(self.folder / "built" / f"transfer_{kind}", "transfer.c", kind)
            self.runs(self.folder / "built" / f"main_{kind}", "main.cpp", kind)

    @tree.each([1, 2], "{0}")
    def test_cmake_asked_for_a_later_version(self, part):
        later = [int(it) for it in VERSION.split(".")[:2]]
        later[2 - part] += 1
        self.fails(f"version: {VERSION}", self.configure(".".join(map(str, later))))

    def test_uninstall(self):
        self.passes(["make", "uninstall", f"PREFIX={self.prefix}"])
        self.assertEqual([it.name for it in self.prefix.rglob("*") if not it.is_dir()], [])


if __name__ == "__main__":
    if not (ROOT / AT / "PROVED").is_file():
        sys.exit(f"pack: there is no {AT}: ./dist writes it, and needs the toolchain")
    tree.main("pack")
