#!/usr/bin/env python3
"""Tests what uses the static library recovery_ffi. These are its declarations in Rust and C, the Rust crate, and the programs in C and
C++. The Rust crate has to pass its tests, documentation, clippy and rustfmt. It is also tried with little memory, without the library,
with a library of another layout, and with hostile ACK frames, whose cost has a bound.

    tests/rust.py            all of it; if the library is not built, it is proved and built first, with its dependencies
    tests/rust.py --declared what needs no library: the declarations, the toolchain's logic, rustfmt, cargo check and cargo doc
    tests/rust.py --library  proves and builds the library if it is older than its sources, and writes its verdict next to it
    tests/rust.py --write    writes the declarations by the library's sources: rust/c/recovery_ffi.h, ffi.rs, event.rs and
                             timer.rs of rust/quic-recovery/src, the table of docs/C.md and the library's layout.rt
    tests/rust.py -k PART    the tests whose names have this part
"""
import hashlib
import itertools
import os
import pathlib
import re
import resource
import shutil
import subprocess
import sys
import tempfile
import textwrap
import unittest

import tree
from tree import ROOT

CRATE = ROOT / "crates" / "recovery_ffi"
STACK = ROOT / "crates" / "recovery_stack"  # what the exports call
KEPT = ROOT / "crates" / "recovery_engine"
LIBRARY = CRATE / "out" / "librecovery_ffi.a"
VERDICT = CRATE / "out" / "verdict"  # the toolchain's line, and the line that it ended the library's proof with
RUST = ROOT / "rust" / "quic-recovery"
DECLARED = {"library": CRATE / "src" / "layout.rt", "rust": RUST / "src" / "ffi.rs", "events": RUST / "src" / "event.rs",
            "timers": RUST / "src" / "timer.rs", "c": ROOT / "rust" / "c" / "recovery_ffi.h", "document": ROOT / "docs" / "C.md"}
PROGRAMS = ROOT / "docs" / "PROGRAMS.md"
EVENTS = "recovery_events/src/event.rt"
EVENT = ROOT / "crates" / EVENTS
TIMERS = "recovery_base/src/timer.rt"
CORRUPTED = "ECN corruption"  # the text of the last fault, by which the library does not ask

# an export with its documentation, its name, its parameters, its result and its contract
EXPORT = re.compile(r"((?:///[^\n]*\n)*)#\[unsafe\(no_mangle\)\]\npub extern \"C\" fn (\w+)\((.*?)\)(?: -> (\w+))?\n(.*?)\n\{", re.S)

# what stands for a type of the library in Rust
IN_RUST = {
    "Q": "&'a [u64]",
    "(Q)": "(Vec<u64>)",
    "Vec<IssuedCid>": "&'a [IssuedCid]",
    "Option<(Range<u64>, ResetToken)>": "Option<Range<u64>>",
    "&'static str": "EcnFault",
}

# Rust's documentation of an enum in place of the library's, and of a variant in addition to it
BESIDE = {
    "Event": [
        "An event. A packet carries the numbers of items that are retransmitted if it is lost. The caller defines what the",
        "items are.",
    ],
    "Event::TakePending": ["", "Fails with `NoMemory` too, before anything is taken, if this crate cannot allocate the answer."],
    "Answer::Retire": ["", "Read the token by [`Recovery::reset_token`](crate::Recovery::reset_token)."],
    "Answer::Flag": [
        "",
        "`true` means, for `IdTimeout`: ask the peer, by a NEW_CONNECTION_ID frame, to retire a connection ID that it did",
        "not retire yet. For `PeerRetired`: the peer can hold one more connection ID. For `AckFrequencyIn`: the frame is",
        "newer than the last one, and applies. For `Ecn`: more packets were marked with CE.",
    ],
}
# the example at an enum, which the tests of the crate run
EXAMPLES = {
    "Event": [
        "",
        "```",
        "# use quic_recovery::*;",
        "# let (space, now) = (SpaceId::Data, Instant::from_nanos(1));",
        "# let mut recovery = Recovery::new(&RecoveryConfig::default(), now)?;",
        "let packet = Event::Received { space, now, number: 0, ack_eliciting: true };",
        "assert!(matches!(recovery.apply(packet)?, Answer::New { .. }));",
        "// a number is new once (RFC 9000, 12.3)",
        "assert_eq!(recovery.apply(packet)?, Answer::Duplicate);",
        "# Ok::<(), Box<dyn std::error::Error>>(())",
        "```",
    ],
    "Answer": [
        "",
        "```",
        "# use quic_recovery::*;",
        "# let (space, now) = (SpaceId::Data, Instant::from_nanos(1));",
        "# let mut recovery = Recovery::new(&RecoveryConfig::default(), now)?;",
        "let (size, ack_eliciting, largest_acked, queue) = (1200, true, None, &[7]);",
        "let sent = Event::Send { space, now, size, ack_eliciting, largest_acked, queue };",
        "if let Answer::Sent { number, .. } = recovery.apply(sent)? {",
        '    println!("write the number {number} into the header");',
        "}",
        "// in flight are the packets that elicit an ACK, or have padding (RFC 9002, 2)",
        "let path = PathName::Current;",
        "let flight = recovery.apply(Event::InFlight { path })?;",
        "assert_eq!(flight, Answer::InFlight { bytes: 1200, ack_eliciting: 1 });",
        "# Ok::<(), Box<dyn std::error::Error>>(())",
        "```",
    ],
    "Refusal": [
        "",
        "```",
        "# use quic_recovery::*;",
        "# let now = Instant::from_nanos(1);",
        "# let mut recovery = Recovery::new(&RecoveryConfig::default(), now)?;",
        "let space = SpaceId::Initial;",
        "let acked = Event::Acked { space, now, number: 9, app_limited: false };",
        "// no packet of this number was sent (RFC 9002, A.7)",
        "assert_eq!(recovery.apply(acked), Err(Refusal::NotTracked));",
        "recovery.apply(Event::DiscardSpace { space })?;",
        "match recovery.apply(acked) {",
        "    // the keys are dropped, and the packets with them (RFC 9002, 6.4): drop the frame",
        "    Err(Refusal::SpaceDiscarded) => {}",
        '    other => panic!("{other:?}"),',
        "}",
        "# Ok::<(), Box<dyn std::error::Error>>(())",
        "```",
    ],
}
SCARCE = 64 << 20  # bytes of address space for what is run with little memory
NUMBERS = {"u8": "uint8_t", "u16": "uint16_t", "u32": "uint32_t", "u64": "uint64_t", "usize": "size_t", "bool": "bool"}

# what a word of an answer's line says, and which answer a word is
TOLD = {"yes": "flag", "no": "flag"}
ONE = {"AckedProbe": "Acked", "LostProbe": "Lost"}

# what a reply's `flag`, `first`, `second`, `other` and `size` are, by its kind: their names in C, and what each says
REPLIES = {
    "NEW": [("arm", "flag", "Whether to start the ACK delay timer.")],
    "SENT": [("number", "first", "The number of the packet."),
             ("has_forgotten", "flag", "Whether a non-ack-eliciting packet is no longer tracked."),
             ("forgotten", "second", "The number of that packet.")],
    "ACKED": [("is_probe", "flag", "Whether the packet was the MTU probe of the path.")],
    "LOST": [("is_probe", "flag", "Whether the packet was the MTU probe of the path.")],
    "RETIRE": [("some", "flag", "Whether connection IDs of the peer are to be retired."),
               ("start", "first", "The first of their sequence numbers."),
               ("end", "second", "One above the last of their sequence numbers.")],
    "FLAG": [("value", "flag", "Yes or no, as the event asks.")],
    "TIMEOUT": [("some", "flag", "Whether a timer is running."),
                ("nanos", "first", "When the earliest timer expires, in nanoseconds.")],
    "IN_FLIGHT": [("bytes", "first", "The bytes in flight."),
                  ("ack_eliciting", "second", "How many packets in flight are ack-eliciting.")],
    "DELAYED": [("until", "first", "Until when the pacer delays the datagram, in nanoseconds."),
                ("ack", "flag", "Whether an ACK is required in the space, for a sender.")],
    "FULL": [("ack", "flag", "Whether an ACK is required in the space.")],
    "PROBE": [("number", "first", "The number of the probe's packet."),
              ("size", "size", "The size of the probe's datagram, in bytes.")],
    "BLACK_HOLE": [("found", "flag", "Whether a black hole is reported.")],
    "SENDABLE": [("acks", "flag", "Whether an ACK is to be sent."),
                 ("other", "other", "Whether there is something else to send.")],
    "ACKNOWLEDGED": [("count", "first", "How many packets the frame newly acknowledges."),
                     ("lost", "second", "How many packets are declared lost."),
                     ("has_more", "flag", "Whether `recovery_ffi_last_outcome` has more than these two counts.")],
    "LOSSES": [("space", "first", "The space of the lost packets, for a timeout.")],
    "PROBES": [("space", "first", "The space to probe in."),
               ("count", "second", "How many probes are due, 1 or 2.")],
    "NEEDS_ROOM": [("packets", "first", "How many words of packets the caller needs room for."),
                   ("lost", "second", "How many lost numbers the caller needs room for.")],
    "REFUSED": [("fault", "first", "The fault, if the error is `RECOVERY_REFUSAL_ECN`.")],
}
BARE = set("DUPLICATE TRANSMITTED BLOCKED READY NO_PROBE QUEUE DONE NOTHING".split())  # answers that hold no more
IN_C = {"flag": "bool", "other": "bool", "size": "uint16_t", "first": "uint64_t", "second": "uint64_t"}

# what each group of numbers says
PROGRAMS_IN_C = "transfer.c", "handshake.c", "sender.c", "tunnel.c", "main.c"  # whose calls the header shows, the first that has one
# the toolchain's functions for memory, which call malloc, realloc and free of the C library
ALLOCATOR = """
// What the allocator returns: whether there is memory, and where. If there is none, `p` is any pointer that is not null.
struct rattle_tried {
    bool ok;
    void *p;
};

// The allocator, which a program may define itself (rust/c/static_memory.h): all three functions, which the linker then
// does not take from the archive. The shared library keeps its own. They may run in each thread that calls the library.
//
// Allocates `size` bytes, aligned to `align`, a power of two up to 16.
struct rattle_tried rattle_alloc(size_t size, size_t align);

// Resizes a block to `size` bytes, of which the first `kept` stay, and may move it. On failure it is unchanged.
struct rattle_tried rattle_realloc(void *old, size_t kept, size_t size, size_t align);

// Frees a block.
void rattle_dealloc(void *old);"""
GROUPS = {
    "ANSWER": "The answers: `kind` of a reply.",
    "REFUSAL": "The errors: `refusal` of a reply.",
    "FAULT": "What is wrong with the peer's ECN counts (RFC 9000, 13.4.2.1): `first` of a reply with the ECN error.",
    "ECN": "The outcome of an ACK frame's ECN counts for a sender (RFC 9000, 13.4.2.1).",
    "AWAITS": "The purpose of a sender's loss detection timer: `awaits` of a sender's view.",
    "NEW": "The results of `recovery_ffi_new`.",
    "CONTROLLER": "Which congestion controller paths have.",
    "SKIPS": "How packet numbers are skipped (RFC 9000, 21.4).",
    "SPACE": "The packet number spaces (RFC 9000, 12.3).",
    "TIMER": "The timers of a connection.",
}

# ---- the declarations


def documented(text):
    return [line.strip()[4:] for line in text.split("\n") if line.strip().startswith("///")]


def in_c_words(docs):
    """Documentation as C has it: the names of numbers begin otherwise there."""
    return [re.sub(rf"`((?:{'|'.join(GROUPS)})_[A-Z_]+)`", r"`RECOVERY_\1`", it) for it in docs]


def snake(name):
    return re.sub(r"(?<=[a-z0-9])(?=[A-Z])", "_", name).upper()


def struct_in_c(name):
    return f"struct recovery_{snake(name).lower()}"


def variants(path, name):
    """The variants of an enum, each with its documentation."""
    body = re.search(rf"^pub enum {name}(?:<.*?>)? \{{\n(.*?)^\}}", (ROOT / "crates" / path).read_text(), re.M | re.S).group(1)
    form = re.compile(r"((?:^    ///[^\n]*\n)*)(?:^    #\[[^\n]*\n)*^    (\w+)(?=[,({ ])", re.M)
    return {it: documented(docs) for docs, it in form.findall(body)}


def coded(source, enum, form):
    """The numbers of an enum's variants, as the code has them."""
    docs = variants(source, enum)
    return [(snake(it), number, docs[it]) for number, it in form]


def constants():
    """The numbers that stand for what crosses, by groups: the name, the number and what it is."""
    text = (KEPT / "src" / "numbers.rt").read_text()
    found = re.findall(r"((?:///[^\n]*\n)+)pub const ([A-Z]+)_(\w+): u\d+ = (\d+);", text)
    groups = {}
    for docs, group, name, number in found:
        groups.setdefault(group, []).append((name, number, documented(docs)))
    codes = (STACK / "src" / "codes.rt").read_text()
    numbered = [(str(number), name) for number, (name, _) in enumerate(tree.refusals(), 1)]
    groups["REFUSAL"] = coded(EVENTS, "Refusal", numbered) + groups["REFUSAL"]
    groups["SPACE"] = coded("recovery_base/src/below.rt", "SpaceId", re.findall(r"(\d+) => Some\(SpaceId::(\w+)\)", codes))
    groups["TIMER"] = coded(TIMERS, "Timer", [(str(number), name) for number, name in enumerate(variants(TIMERS, "Timer"))])
    return groups


def structs():
    """The structs that the exports take and return, each with its fields and documentation; a struct in a struct becomes its fields."""
    inner = {name: fields for _, name, fields in all_structs()}
    for docs, name, fields in all_structs():
        if not any(kind == name for others in inner.values() for _, _, kind in others):
            yield docs, name, [flat for it in fields for flat in inner.get(it[2], [it])]


def all_structs():
    form = re.compile(r"((?:///[^\n]*\n)*)#\[repr\(C\)\]\n(?:#\[derive[^\n]*\n)?pub struct (\w+) \{\n(.*?)\n\}", re.S)
    field = re.compile(r"((?: *///[^\n]*\n)*) *(?:pub )?(\w+): ([^\n,]+),")
    for path in sorted((it for crate in (KEPT, STACK) for it in (crate / "src").glob("*.rt")), key=lambda it: it.name):
        for docs, name, body in form.findall(path.read_text()):
            fields = [(documented(more), it, kind) for more, it, kind in field.findall(body) if not re.match(r"Global|\{", kind)]
            yield documented(docs), name, fields


def exports():
    """The exported functions, each with its parameters and its result, and their documentation."""
    for path in sorted((CRATE / "src").glob("*.rt"), key=lambda it: (it.name != "lib.rt", it.name)):
        for docs, name, given, result, _ in EXPORT.findall(path.read_text()):
            parameters = [it.strip().split(": ", 1) for it in given.replace("\n", " ").split(",") if it.strip()]
            yield documented(docs), name, [it for it in parameters if it[1] != "Global"], result


def checksum():
    """The layout of what crosses, by a checksum of it: of the structs, the exports and the numbers."""
    crossing = [(name, [it[1:] for it in fields]) for _, name, fields in structs()], [it[1:] for it in exports()]
    numbers = [(group, name, number) for group, found in constants().items() for name, number, _ in found]
    return hashlib.sha256(repr((crossing, numbers)).encode()).hexdigest()[:8]


def declared_in_library():
    yield "//! The layout of the interface: written by `tests/rust.py --write`."
    yield ""
    yield "/// A program for this layout names this function, and so links only with a library of the same layout."
    yield "/// Does nothing."
    yield "#[unsafe(no_mangle)]"
    yield f'pub extern "C" fn recovery_ffi_layout_{checksum()}() {{}}'


def crossing(name, kind, in_c):
    """A parameter as it is declared; a slice is a pointer and a length."""
    how, slice_of, array_of, plain = re.fullmatch(r"(&mut |&)?(?:\[(\w+)\]|\[(\w+; \w+)\]|(\w+))", kind).groups()
    of = slice_of or array_of or plain
    if in_c:
        of, _, size = of.partition("; ")
        of = NUMBERS.get(of) or struct_in_c(of)
        pointed = f"{of} *{name}" if how == "&mut " else f"const {of} *{name}"
        first = pointed if how else f"{of} {name}"
        return [first, f"size_t {name}_len"] if slice_of else [first]
    of = f"[{of}]" if array_of else of
    first = f"{name}: {'*mut' if how == '&mut ' else '*const'} {of}" if how else f"{name}: {of}"
    return [first, f"{name}_len: usize"] if slice_of else [first]


def declared_in_rust():
    yield "//! The declarations of the proved library. `tests/rust.py --write` writes them from its sources, and its tests"
    yield "//! compare them."
    for group, found in constants().items():
        yield ""
        for name, number, docs in found:
            yield from (f"/// {it}" for it in docs)
            yield f"pub const {group}_{name}: {'u64' if group == 'FAULT' else 'u8'} = {number};"
    for docs, name, fields in structs():
        yield ""
        yield from (f"/// {it}" for it in docs)
        yield "#[repr(C)]"
        if not name.endswith("Handle"):
            yield "#[derive(Clone, Copy, Debug, PartialEq, Eq)]"
        yield f"pub struct {name} {{"
        for more, it, kind in fields:
            yield from (f"    /// {line}" for line in more)
            yield f"    pub {it}: {kind},"
        yield "}"
    yield ""
    yield 'unsafe extern "C" {'
    yield "    /// Does nothing. A library of another layout does not have it."
    yield f'    #[link_name = "recovery_ffi_layout_{checksum()}"]'
    yield "    pub fn recovery_ffi_layout();"
    yield ""
    for at, (docs, name, parameters, result) in enumerate(exports()):
        if at:
            yield ""
        yield from (f"    /// {it}" for it in docs)
        given = ", ".join(word for it, kind in parameters for word in crossing(it, kind, False))
        yield f"    pub fn {name}({given})" + (f" -> {result};" if result else ";")
    yield "}"


def sentence(docs):
    """The meaning of a number, as an error text: the first sentence of its documentation, without what follows in brackets or after a colon."""
    said = re.split(r" \(|: |, in these words|\.$|\. ", " ".join(docs))[0]
    return said[0].lower() + said[1:]


def texts_in_c():
    """Functions that say the texts of numbers."""
    told = dict(tree.refusals())
    ecn = next(name for name, said in told.items() if "{0}" in said)
    texts = {snake(name): said for name, said in told.items() if name != ecn}
    groups = constants()
    refusals = [(name, texts.get(name) or sentence(docs)) for name, _, docs in groups["REFUSAL"]]
    functions = [
        ("recovery_ffi_text", "refusal", "REFUSAL", refusals, [
            "Returns the text of an error, the `refusal` of a reply. For an ECN error, `recovery_ffi_fault_text` returns more."]),
        ("recovery_ffi_fault_text", "fault", "FAULT", fault_texts().items(), ["Returns the text of an ECN fault, the `recovery_refused_fault` of a reply."]),
        ("recovery_ffi_new_text", "code", "NEW", [(name, sentence(docs)) for name, _, docs in groups["NEW"]], ["Returns the text of a result of `recovery_ffi_new`."]),
    ]
    for name, given, group, arms, docs in functions:
        yield ""
        yield from (f"// {it}" for it in docs)
        yield f"static inline const char *{name}({'uint64_t' if group == 'FAULT' else 'uint8_t'} {given}) {{"
        yield f"    switch ({given}) {{"
        if group == "REFUSAL":
            yield '    case RECOVERY_OK: return "no error";'
        yield from (f'    case RECOVERY_{group}_{it}: return "{said}";' for it, said in arms)
        yield '    default: return "a number that this header does not name";'
        yield "    }"
        yield "}"


def readers_in_c():
    """What a reply says, by its kind: a function for each."""
    known = {name for name, _, _ in constants()["ANSWER"]}
    if known != BARE | set(REPLIES):
        sys.exit(f"rust: REPLIES and BARE of tests/rust.py do not have the answers of numbers.rt: {', '.join(sorted(known ^ (BARE | set(REPLIES))))}")
    yield ""
    yield "// The contents of replies by name: each function reads replies of the kind in its name, and no others."
    for kind, fields in REPLIES.items():
        yield ""
        for name, field, docs in fields:
            yield f"// {docs}"
            yield f"static inline {IN_C[field]} recovery_{kind.lower()}_{name}(struct recovery_encoded_reply reply) {{ return reply.{field}; }}"


def statement(lines, at):
    """The statement of a line, with its block; nothing if it is long, or a declaration of a function."""
    ends = lambda line: line.endswith(("{", "}", ";")) or not line.strip() or line.strip().startswith(("//", "#"))
    while not ends(lines[at - 1]):
        at -= 1
    end = at
    while not ends(lines[end]):
        end += 1
    if lines[end].endswith("{"):
        indent = re.match(" *", lines[at])[0]
        end = next(it for it in range(end + 1, len(lines)) if lines[it].startswith(f"{indent}}}"))
    said = textwrap.dedent("\n".join(lines[at : end + 1])).split("\n")
    return said if lines[at].startswith(" ") and len(said) <= 6 and not said[0].startswith("}") else None


def called_in_c(name):
    """How a program in C calls a function: its first short statement with the call."""
    for program in PROGRAMS_IN_C:
        lines = (ROOT / "rust" / "c" / program).read_text().splitlines()
        for at, line in enumerate(lines):
            if f"{name}(" in line and (said := statement(lines, at)):
                return program, said
    return None


def example_in_c(name):
    """The lines of a comment with that statement; nothing if no program calls the function."""
    found = called_in_c(name)
    if found:
        yield "//"
        yield f"// In rust/c/{found[0]}:"
        yield "//"
        yield from (f"//     {line}".rstrip() for line in found[1])


def declared_in_c():
    yield "// The declarations of the proved library. tests/rust.py --write writes them from its sources, and its tests compare"
    yield "// them. docs/C.md states what a caller must ensure. A handle begins as all zeros."
    yield "#ifndef RECOVERY_FFI_H"
    yield "#define RECOVERY_FFI_H"
    yield ""
    yield "#include <stdbool.h>"
    yield "#include <stddef.h>"
    yield "#include <stdint.h>"
    yield ""
    yield "#ifdef __cplusplus"
    yield 'extern "C" {'
    yield "#endif"
    yield ""
    yield "// No error: the result of `recovery_ffi_new` and its like, and the `refusal` of a reply, if nothing is wrong."
    yield "enum recovery_ok { RECOVERY_OK = 0 };"
    for group, found in constants().items():
        yield ""
        yield f"// {GROUPS[group]}"
        yield f"enum recovery_{group.lower()} {{"
        for name, number, docs in found:
            yield from (f"    // {line}" for line in in_c_words(docs))
            yield f"    RECOVERY_{group}_{name} = {number},"
        yield "};"
    for docs, name, fields in structs():
        yield ""
        yield from (f"// {it}" for it in in_c_words(docs))
        yield f"{struct_in_c(name)} {{"
        for more, it, kind in fields:
            yield from (f"    // {line}" for line in in_c_words(more))
            of, _, size = kind.strip("[]").partition("; ")
            of = "void *" if of.startswith("*") else NUMBERS[of] + " "
            yield f"    {of}{it}" + (f"[{size}];" if size else ";")
        yield "};"
    for docs, name, parameters, result in exports():
        yield ""
        yield from (f"// {it}" for it in in_c_words(docs))
        yield from example_in_c(name)
        given = ", ".join(word for it, kind in parameters for word in crossing(it, kind, True))
        result = NUMBERS.get(result) or (struct_in_c(result) if result else "void")
        yield f"{result} {name}({given or 'void'});"
    yield from texts_in_c()
    yield from readers_in_c()
    yield from ALLOCATOR.split("\n")
    yield ""
    yield "// Does nothing. A library of another layout does not have it, so a program with this header does not link with it."
    yield f'void recovery_ffi_layout(void) __asm__("recovery_ffi_layout_{checksum()}");'
    yield "__attribute__((used)) static void (*const recovery_ffi_has_this_layout)(void) = recovery_ffi_layout;"
    yield ""
    yield "#ifdef __cplusplus"
    yield "}"
    yield "#endif"
    yield ""
    yield "#endif"


# ---- events, answers and errors in Rust, and a table of them


def fields(body):
    """The fields of a variant as Rust has them, with their documentation. The arguments of a queue, and what is kept next to it, have no field there."""
    for docs, name, kind in re.findall(r"((?:^        ///[^\n]*\n)*)^        (\w+): ([^\n]*),$", body, re.M):
        if not kind.startswith("Q::"):
            yield documented(docs), name, IN_RUST.get(kind, kind)


def enum_in_rust(name, derived, parameters=""):
    """An enum as the library has it, with Rust's own types, and with the documentation that only Rust has."""
    docs, body = re.search(rf"((?:^///[^\n]*\n)+)^#[^\n]*\n^pub enum {name}(?:<.*?>)? \{{\n(.*?)^\}}", EVENT.read_text(), re.M | re.S).groups()
    yield from (f"/// {it}".rstrip() for it in BESIDE.get(name, documented(docs)) + EXAMPLES.get(name, []))
    yield f"#[derive({derived})]"
    yield "#[non_exhaustive]"
    yield f"pub enum {name}{parameters} {{"
    for docs, variant, held, inside in re.findall(r"((?:^    ///[^\n]*\n)*)(?:^    #\[[^\n]*\n)*^    (\w+)(?:\(([^\n]*)\)| \{\n(.*?)^    \})?,$", body, re.M | re.S):
        yield from (f"    /// {it}".rstrip() for it in documented(docs) + BESIDE.get(f"{name}::{variant}", []))
        if inside:
            yield f"    {variant} {{"
            for more, it, kind in fields(inside):
                yield from (f"        /// {line}" for line in more)
                yield f"        {it}: {kind},"
            yield "    },"
        else:
            yield f"    {variant}{IN_RUST.get(f'({held})') or f'({IN_RUST.get(held, held)})'}," if held else f"    {variant},"
    yield "}"


def cases(arms, what):
    """What a number is; one that the library does not have stops, and is named."""
    yield "        match number {"
    yield from (f"            {left} => {right}," for left, right in arms)
    yield f'            _ => unreachable!("the library names the {what} {{number}}"),'
    yield "        }"


def shown(name, arms):
    """What an enum is shown as."""
    yield ""
    yield f"impl fmt::Display for {name} {{"
    yield "    fn fmt(&self, f: &mut fmt::Formatter<'_>) -> fmt::Result {"
    yield "        f.write_str(match self {"
    yield from (f"            {left} => {right}," for left, right in arms)
    yield "        })"
    yield "    }"
    yield "}"


def fault_texts():
    """The texts by which the library knows what is wrong with counts of ECN."""
    text = (KEPT / "src" / "spelling.rt").read_text()
    told = {name: said for said, name in re.findall(r'text == "([^"]+)" \{\s+FAULT_(\w+)', text)}
    told[constants()["FAULT"][-1][0]] = CORRUPTED
    return told


def faults_in_rust():
    """What is wrong with counts of ECN."""
    found, told = constants()["FAULT"], fault_texts()
    camel = {name: "".join(it.capitalize() for it in name.split("_")) for name, _, _ in found}
    yield "/// What is wrong with the peer's ECN counts (RFC 9000, 13.4.2.1)."
    yield "#[derive(Clone, Copy, Debug, PartialEq, Eq, Hash)]"
    yield "#[non_exhaustive]"
    yield "pub enum EcnFault {"
    for name, _, docs in found:
        yield from (f"    /// {it}" for it in docs)
        yield f"    {camel[name]},"
    yield "}"
    yield ""
    yield "impl EcnFault {"
    yield "    fn from_number(number: u64) -> Self {"
    yield from cases([(f"ffi::FAULT_{name}", f"EcnFault::{camel[name]}") for name, _, _ in found], "fault")
    yield "    }"
    yield "}"
    yield from shown("EcnFault", [(f"EcnFault::{camel[name]}", f'"{told[name]}"') for name, _, _ in found])


def refusals_in_rust():
    """The numbers and the texts of errors."""
    texts = dict(tree.refusals())
    numbered = [(name, "(_)" if "{0}" in said else "") for name, said in texts.items()]
    yield ""
    yield "impl Refusal {"
    yield "    /// Returns the error with this number of the library; for the ECN error, with the number of the fault."
    yield "    pub(crate) fn from_number(number: u8, fault: u64) -> Self {"
    made = lambda name, holds: f"Refusal::{name}(EcnFault::from_number(fault))" if holds else f"Refusal::{name}"
    yield from cases([(f"ffi::REFUSAL_{snake(name)}", made(name, holds)) for name, holds in numbered], "refusal")
    yield "    }"
    yield ""
    yield "    /// Returns the number of the error in scripts and logs."
    yield "    pub fn number(self) -> u8 {"
    yield "        match self {"
    yield from (f"            Refusal::{name}{holds} => ffi::REFUSAL_{snake(name)}," for name, holds in numbered)
    yield "        }"
    yield "    }"
    yield "}"
    arms = [(f"Refusal::{name}{'(fault)' if holds else ''}", "return fault.fmt(f)" if holds else f'"{texts[name]}"') for name, holds in numbered]
    yield from shown("Refusal", arms)
    yield ""
    yield "impl Error for Refusal {}"


def events_in_rust():
    yield "//! Events, answers and errors. `tests/rust.py --write` writes them from the sources of the library, and its tests"
    yield "//! compare them."
    yield "use crate::ffi;"
    yield "use crate::timer::Timer;"
    yield "use crate::types::{AckFrequency, ConnectionId, EcnCounts, Instant, IssuedCid, NewConnectionId, PathName, SendableFrames, SpaceId};"
    yield "use std::error::Error;"
    yield "use std::fmt;"
    yield "use std::net::SocketAddr;"
    yield "use std::ops::Range;"
    yield "use std::time::Duration;"
    yield ""
    yield from enum_in_rust("Event", "Clone, Copy, Debug, PartialEq, Eq", "<'a>")
    yield ""
    yield from enum_in_rust("Answer", "Clone, Debug, PartialEq, Eq")
    yield ""
    yield from faults_in_rust()
    yield ""
    yield from enum_in_rust("Refusal", "Clone, Copy, Debug, PartialEq, Eq, Hash")
    yield from refusals_in_rust()


def timers_in_rust():
    yield "//! Timers, and their names. `tests/rust.py --write` writes them from the sources of the library, and its tests"
    yield "//! compare them."
    yield "use crate::ffi;"
    yield ""
    yield "/// The timers of a connection."
    yield "#[derive(Clone, Copy, Debug, PartialEq, Eq, PartialOrd, Ord, Hash)]"
    yield "#[repr(u8)]"
    yield "pub enum Timer {"
    found = [*itertools.zip_longest(variants(TIMERS, "Timer").items(), tree.timers())]  # a difference in length fails below
    for (name, docs), _ in found:
        yield from (f"    /// {it}" for it in docs)
        yield f"    {name} = ffi::TIMER_{snake(name)},"
    yield "}"
    yield ""
    yield "impl Timer {"
    yield "    /// All timers, in the order of the enum."
    yield f"    pub const VALUES: [Timer; {len(found)}] = [{', '.join(f'Timer::{name}' for (name, _), _ in found)}];"
    yield ""
    yield "    /// Returns the timer's name in scripts and logs: small letters with hyphens."
    yield "    pub fn name(self) -> &'static str {"
    yield "        match self {"
    yield from (f'            Timer::{name} => "{said}",' for (name, _), said in found)
    yield "        }"
    yield "    }"
    yield ""
    yield "    /// Returns the timer with this name, or `None` if none has it."
    yield "    pub fn named(name: &str) -> Option<Self> {"
    yield "        Timer::VALUES.into_iter().find(|it| it.name() == name)"
    yield "    }"
    yield "}"


def table():
    """The events in Rust by their answers, as docs/PROGRAMS.md has those of lines, with the exports that pass them."""
    lines = PROGRAMS.read_text().partition("| Line | Answers |\n")[2].partition("\n\n")[0]
    answers = dict(re.findall(r"^\| `([a-z-]+)[^|]*` \| ([^;|]*)", lines.replace("\\|", "/"), re.M))
    told = {}
    for line, said in answers.items():
        said = re.sub(r"\(.*?\)|, each.*", "", said)
        names = ["".join(it.capitalize() for it in re.split("[ -]", TOLD.get(word, word))) for word in re.findall(r"`([a-z][a-z-]*(?: probe\b)?)", said)]
        told[line] = list(dict.fromkeys(ONE.get(it, it) for it in names))
    docs = {re.search(r"the event `(\w+)`", " ".join(it[0]), re.I): it[1] for it in exports()}
    exported = {found.group(1): name for found, name in docs.items() if found}
    rows = {}
    for event in variants(EVENTS, "Event"):
        if event not in exported:
            sys.exit(f"rust: {event} has no export in crates/recovery_ffi/src whose documentation says 'the event `{event}`'")
        name = exported[event].replace("recovery_ffi_", "")
        line = name.replace("_", "-")
        if line not in told:
            sys.exit(f"rust: docs/PROGRAMS.md has no row of the line {line}, with the answers to {event}")
        rows.setdefault(", ".join(f"`{it}`" for it in told[line]), []).append(f"`{event}` (`{name}`)")
    yield "| Answers | Events, each with its function: `recovery_ffi_` and this |"
    yield "|---|---|"
    yield from (f"| {answers} | {'; '.join(events)} |" for answers, events in rows.items())


def documented_in_rust():
    """docs/C.md, with its table written."""
    before, mark, rest = DECLARED["document"].read_text().partition("<!-- this table is written by tests/rust.py --write -->\n")
    _, end, after = rest.partition("<!-- its end -->\n")
    return before + mark + "\n".join(table()) + "\n" + end + after


def formatted(text):
    """As rustfmt has it."""
    return subprocess.run(["rustfmt", "--edition", "2021"], input=text, stdout=subprocess.PIPE, text=True, check=True).stdout


def declarations():
    written = {"library": declared_in_library(), "rust": declared_in_rust(), "events": events_in_rust(), "timers": timers_in_rust(),
               "c": declared_in_c()}
    texts = {which: "\n".join(lines) + "\n" for which, lines in written.items()}
    texts["document"] = documented_in_rust()
    return {which: formatted(text) if which in ("rust", "events", "timers") else text for which, text in texts.items()}


# ---- the library


def compiled():
    """Builds the library over what the crates below it were built as, which proves it; the gate leaves those."""
    at = tree.kit()
    words = [at / "bin" / "rattle", "build", *tree.words_of(CRATE.name, "--crate-type", "staticlib", *tree.BASELINE)]
    words += ["--toolchain", at / "toolchain", "--backend", "llvm", "-o", LIBRARY]
    LIBRARY.parent.mkdir(exist_ok=True)
    sources = tree.sum_of_sources(CRATE.name)
    build = subprocess.run(words, cwd=CRATE, stdin=subprocess.DEVNULL, stdout=subprocess.PIPE, stderr=subprocess.STDOUT, text=True)
    verdict = re.findall(r"^logic=proved .*$", build.stdout, re.M)
    if build.returncode or len(verdict) != 1:
        print(build.stdout, file=sys.stderr)
        return False
    VERDICT.write_text(f"{toolchain()}\n{verdict[0]}\n")
    tree.record(CRATE.name, sources, LIBRARY.name, VERDICT.name)
    return True


def toolchain():
    """The toolchain's line: its name and its logic."""
    return subprocess.run(["rt", "version"], stdin=subprocess.DEVNULL, stdout=subprocess.PIPE, text=True, check=True).stdout.split("\n")[0]


def is_built():
    """Whether the library and its verdict are of the sources here, and of this toolchain."""
    made = all(tree.is_built(CRATE.name, it.name) for it in (LIBRARY, VERDICT))
    return made and VERDICT.read_text().startswith(f"{toolchain()}\n")


def built():
    """Whether the library is there, with its verdict. If it is not, it is proved and built, with those of its dependencies that are missing."""
    if is_built():
        return True
    if not all(map(tree.is_built, tree.below(CRATE.name))):
        if subprocess.run([ROOT / "prove", CRATE.name], stdin=subprocess.DEVNULL).returncode:
            return False
    return compiled()


# ---- what uses it


class RustTest(tree.TestCase):
    def ran(self, words, scarce=None, **how):
        """Status, output and errors of a command, if need be with little memory."""
        limit = (lambda: resource.setrlimit(resource.RLIMIT_AS, (scarce, scarce))) if scarce else None
        return tree.ran(words, stdin=subprocess.DEVNULL, text=True, preexec_fn=limit, **how)

    def passes(self, words, **how):
        """The output of a command that ends well."""
        status, output, errors = self.ran(words, **how)
        self.assertEqual(status, 0, f"{words}:\n{output}{errors}")
        return output

    def fails(self, wanted, words, **how):
        """A command fails, and says why in these words."""
        status, output, errors = self.ran(words, **how)
        self.assertNotEqual(status, 0, f"{words}:\n{output}{errors}")
        self.assertIn(wanted, output + errors)


def cargo_with(folder, **more):
    """How cargo is called, over the library of a folder."""
    return {"cwd": RUST, "env": {**os.environ, "QUIC_RECOVERY_LIB": str(folder), "RUSTDOCFLAGS": "-D warnings", "CARGO_TERM_COLOR": "never", **more}}


def in_c(folder, source, program):
    """How a program in C or C++ is compiled and linked."""
    compilers, more = (("g++", "clang++"), ["-std=c++11"]) if source.endswith(".cpp") else (("cc", "clang"), [])
    compiler = next((it for it in compilers if shutil.which(it)), compilers[0])
    words = [compiler, *more, "-Wall", "-Wextra", "-Werror", "-O2", ROOT / "rust" / "c" / source, "-o", program]
    return [str(it) for it in [*words, f"-L{folder}", "-lrecovery_ffi", "-llibc_c"]]


def readers():
    """The exports that guarantee to change nothing: `ReadsHandle` of their contracts."""
    return {it.group(2) for path in (CRATE / "src").glob("*.rt") for it in EXPORT.finditer(path.read_text()) if "ReadsHandle" in it.group(5)}


class Declared(RustTest):
    """What needs no library."""

    @tree.each([(which, path.relative_to(ROOT)) for which, path in DECLARED.items()], "{1}")
    def test_declares_what_the_library_does(self, which, path):
        self.assertEqual((ROOT / path).read_text(), declarations()[which], "tests/rust.py --write writes it")

    @tree.each([("ANSWER", "Answer"), ("REFUSAL", "Refusal")])
    def test_numbers_of_senders_lie_apart(self, group, enum):
        """The numbers of events' answers and errors differ from those that only senders have, which begin at 128."""
        of_events = len(variants(EVENTS, "Answer")) if enum == "Answer" else len(tree.refusals()) + 1
        text = (KEPT / "src" / "numbers.rt").read_text()
        numbers = [int(it) for it in re.findall(rf"^pub const {group}_\w+: u8 = (\d+);", text, re.M)]
        own = sorted(it for it in numbers if group == "REFUSAL" or it >= of_events)
        self.assertLessEqual(of_events, 128)
        self.assertGreaterEqual(own[0], 128)
        self.assertEqual(len(set(own)), len(own))

    def test_readers_in_c(self):
        """rust/c/readers.c calls each reader with all memory of the library write-protected."""
        called = re.findall(r"READ\((recovery_ffi_\w+)\(", (ROOT / "rust" / "c" / "readers.c").read_text())
        self.assertEqual(sorted(called), sorted(readers()))

    @tree.each(["recovery.rs", "sender.rs", "mtud.rs"])
    def test_shared_methods_only_read(self, name):
        """What `&self` permits are readers of the library: so the types are `Sync`."""
        methods = re.compile(r"^    (?:pub(?:\(crate\))? )?fn (\w+)[^;{]*?\(\s*(&self|&mut self)?.*?^    \}", re.M | re.S)
        found = [it.group() for it in methods.finditer((RUST / "src" / name).read_text()) if it.group(2) == "&self"]
        called = {call for it in found for call in re.findall(r"ffi::(recovery_ffi_\w+)\(", it)}
        self.assertTrue(called)
        self.assertEqual(called - readers(), set())

    @unittest.skipIf(tree.is_toolchain_missing(), "rt is missing")
    def test_logic(self):
        """The logic of the toolchain is the one that LOGIC names."""
        self.assertTrue(toolchain().endswith(f" {tree.logic()}"), toolchain())

    def test_logic_in_documents(self):
        named = re.findall(r"logic ([0-9a-f]{16})", (ROOT / "docs" / "RUST.md").read_text() + (ROOT / "README.md").read_text())
        self.assertEqual({f"logic {it}" for it in named}, {tree.logic()})

    def test_cargo_fmt(self):
        self.passes(["cargo", "fmt", "--check"], cwd=RUST)

    def test_rustfmt_of_bench(self):
        self.passes(["rustfmt", "--edition", "2021", "--check", ROOT / "bench" / "frames.rs"])


class WithoutLibrary(RustTest):
    """Without the library, the crate is checked and documented, and its error names what a program needs to link."""

    @classmethod
    def setUpClass(cls):
        cls.target, cls.empty = tempfile.TemporaryDirectory(), tempfile.TemporaryDirectory()
        cls.addClassCleanup(cls.target.cleanup)
        cls.addClassCleanup(cls.empty.cleanup)
        cls.how = cargo_with(cls.empty.name, CARGO_TARGET_DIR=cls.target.name)
        names = f"neither libquic_recovery.a nor both {LIBRARY.name} and liblibc_c.a"
        cls.missing = f"no program links: QUIC_RECOVERY_LIB names {cls.empty.name}, which has {names}"

    def test_cargo_check(self):
        status, _, errors = self.ran(["cargo", "check", "--all-targets", "--offline"], **self.how)
        self.assertEqual(status, 0, errors)
        self.assertIn(self.missing, errors)

    def test_cargo_doc(self):
        self.passes(["cargo", "doc", "--no-deps", "--all-features", "--offline"], **self.how)

    def test_hostile_frames_fit_the_crate(self):
        self.passes([ROOT / "bench" / "frames.py", "--check"], **self.how)

    def test_no_program_links(self):
        self.fails(self.missing, ["cargo", "build", "--example", "memory", "--offline"], **self.how)


class WithLibrary(RustTest):
    """Tests over the library, in a folder with what it needs of the toolchain."""

    @classmethod
    def setUpClass(cls):
        if not built():
            raise tree.Unfit("the library is not built")
        folder = tempfile.TemporaryDirectory()
        cls.addClassCleanup(folder.cleanup)
        cls.folder = pathlib.Path(folder.name)
        shutil.copy(LIBRARY, cls.folder)
        shutil.copy(tree.kit() / "c" / "liblibc_c.a", cls.folder)

    def setUp(self):
        made = tempfile.TemporaryDirectory()
        self.addCleanup(made.cleanup)
        self.made = pathlib.Path(made.name)


class Library(WithLibrary):
    def test_frames(self):
        """In no function a probe of its frame overwrites a register that is in use: clang takes %r11 for it, also after instructions that set it."""
        listing = self.passes(["objdump", "-d", "--no-show-raw-insn", "--no-addresses", self.folder / LIBRARY.name])
        functions = re.findall(r"^<(.+)>:\n((?:\t.*\n)+)", listing, re.M)
        probed = {name: body.split("mov    %rsp,%r11", 1)[0] for name, body in functions if "mov    %rsp,%r11" in body}
        self.assertGreater(len(functions), 30)
        self.assertEqual([name for name, before in probed.items() if "%r11" in before], [])

    @unittest.skipUnless(shutil.which("valgrind"), "valgrind is missing")
    def test_cost_of_hostile_frames(self):
        """Hostile ACK frames keep their linear bound."""
        self.passes([ROOT / "bench" / "frames.py", "--quick"], **cargo_with(self.folder))

    def other_layout(self):
        """A folder with a library of another layout, and the symbol that it lacks."""
        here, other = (f"recovery_ffi_layout_{it}".encode() for it in (checksum(), "00000000"))
        data = (self.folder / LIBRARY.name).read_bytes()
        self.assertIn(here, data)
        (self.made / LIBRARY.name).write_bytes(data.replace(here, other))
        shutil.copy(self.folder / "liblibc_c.a", self.made)
        return here.decode()

    def test_other_layout_in_c(self):
        self.fails(self.other_layout(), in_c(self.made, "main.c", self.made / "other"))

    def test_other_layout_in_rust(self):
        wanted = f"{LIBRARY.name} is of another version of this crate, for it lacks the symbol {self.other_layout()}"
        how = cargo_with(self.made, CARGO_TARGET_DIR=str(self.made / "target"))
        self.fails(wanted, ["cargo", "build", "--example", "memory", "--offline"], **how)


class Cargo(WithLibrary):
    """The Rust crate."""

    # the name of a test, the words with which an example is run, and what it prints then
    examples = [
        ("a sender over UDP", ["sender"], "all 200 were acknowledged"),
        ("the logic", ["sender"], f", proved with {tree.logic()}\n"),
        ("a sender that loses three of ten datagrams", ["sender", "30"], "all 200 were acknowledged"),
        ("a transfer over UDP", ["transfer", "2000000", "20"], "2000000 bytes came, as they were sent"),
        ("a second of random events", ["fuzz", "1"], ""),
        ("200,000 random steps, compared with a careful peer", ["beside", "7", "200000"], ""),
    ]

    def example(self, name):
        self.passes(["cargo", "build", "--release", "--example", name, "--offline"], **cargo_with(self.folder))
        return RUST / "target" / "release" / "examples" / name

    def test_tests(self):
        said = self.passes(["cargo", "test", "--release", "--all-features", "--offline"], **cargo_with(self.folder))
        self.assertGreater(sum(int(it) for it in re.findall(r"^test result: ok\. (\d+) passed", said, re.M)), 100)

    def test_clippy(self):
        self.passes(["cargo", "clippy", "--all-targets", "--all-features", "--offline", "--", "-D", "warnings"], **cargo_with(self.folder))

    @tree.each(examples)
    def test_example(self, title, words, wanted):
        self.assertIn(wanted, self.passes([self.example(words[0]), *words[1:]]))

    def test_little_memory(self):
        said = self.passes([self.example("memory")], scarce=SCARCE)
        self.assertIn("out of memory", said)
        self.assertIn("goes on", said)

    def test_tutorial(self):
        """It prints what docs/TUTORIAL.md shows."""
        self.assertEqual(self.passes([self.example("tutorial")]), (RUST / "examples" / "tutorial.out").read_text())


class ProgramsInC(WithLibrary):
    """The programs in C and C++: each prints what the file next to it has."""

    @tree.each([*PROGRAMS_IN_C, "misuse.c", "static_memory.c", "readers.c", "main.cpp"])
    def test_program(self, source):
        program = self.made / "program"
        self.passes(in_c(self.folder, source, program))
        wanted = (ROOT / "rust" / "c" / f"{re.sub('[.]c$', '', source).replace('.', '_')}.out").read_text()
        self.assertEqual(self.passes([program]), wanted)
        if shutil.which("valgrind"):
            # no leak, and no access that is not its own
            self.passes(["valgrind", "--leak-check=full", "--error-exitcode=9", program])


def main():
    words = sys.argv[1:]
    if words == ["--write"]:
        written = declarations()
        for which, path in DECLARED.items():
            path.write_text(written[which])
        return 0
    if words == ["--library"]:
        return 0 if built() else 1
    if "--declared" in words:
        words = [it for it in words if it != "--declared"] + ["Declared", "WithoutLibrary"]
    return tree.main("rust", words)


if __name__ == "__main__":
    try:
        sys.exit(main())
    except tree.Unfit as why:
        sys.exit(f"rust: {why}")
