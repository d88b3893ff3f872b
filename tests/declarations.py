#!/usr/bin/env python3
"""What crosses between the layer and its hosts is declared three times: in the crates, in include/tilgurap.h and in
rust/tilgurap/src. Here the three are held against each other: functions (arguments in order, with names and types; results),
structs (fields in order, with types), the interface's number, limits, opcodes, refusals, flags and kinds. All are read from the
text; in addition a C compiler is asked whether the header's functions are those of ffi.rs, and whether its structs have the sizes
and offsets that the Rust compiler gives to those of ffi.rs.

    tests/declarations.py               hold them against each other
    tests/declarations.py --self-test   try edits of each of the three, every one of which has to be found

Not held against the crates, since no single line there says them: the kinds of an effect (held against effect.rs), the errors by
name (against errno.rs), and the kinds of a reply and of an opened file, which stand in the header alone. tests/c_calls.c asks the
library about all of them.
"""
import pathlib
import re
import shutil
import subprocess
import sys
import tempfile

TOP = pathlib.Path(__file__).resolve().parent.parent
EXPORTS = "crates/tilgurap/src/lib.rt"
HEADER = "include/tilgurap.h"
RUST = "rust/tilgurap/src/"
FFI = RUST + "ffi.rs"
LIMITS = RUST + "limits.rs"
STACK = "tests/shipped.py"

C_TYPES = {"uint8_t": "u8", "uint32_t": "u32", "uint64_t": "u64", "int32_t": "i32", "size_t": "usize", "bool": "bool", "void": ""}
# `errno` is a macro of C's
C_ARGUMENTS = {"error_number": "errno"}

# Where the crates say each limit: every number found has to be the same.
LAYER_LIMITS = {
    "ABI": [("tilgurap", r"fn tilgurap_abi\(\) -> u64\s+ensures \{ result ≡ (\d+) \}"),
            ("tilgurap", r"fn tilgurap_abi\(\) -> u64\s[^{]*\{[^}]*\}\s*\{\s*(\d+)\s*\}")],
    "STATE_WORDS": [("tilgurap", r"words: &(?:mut )?\[u64; (\d+)\]")],
    "QUEUE_WORDS": [("tilgurap", r"queue: &(?:mut )?\[u64; (\d+)\]")],
    "STATUS_WORDS": [("tilgurap", r"fn tilgurap_status\([^)]*out: &mut \[u64; (\d+)\]")],
    "SQE_BYTES": [("tilgurap", r"fn tilgurap_sqe_bytes\([^)]*out: &mut \[u8; (\d+)\]"),
                  ("wait_queue_receive", r"if room < (\d+)")],
    "CQE_BYTES": [("tilgurap", r"fn tilgurap_cqe_bytes\([^)]*out: &mut \[u8; (\d+)\]"), ("write", r"bytes\.len\(\) / (\d+)")],
    "SLOTS": [("table", r"pub slots: \[Slot; (\d+)\]"), ("ids", r"let n = tag\.0;\s+if n < (\d+)")],
    "QUEUE_ENTRIES": [("queue_words", r"(\d+) <= s\[layout::UNREAD\]"), ("queue_words", r"if len < (\d+)"),
                      ("wake_decision", r"if (\d+) <= unread")],
    "DESCRIPTIONS": [("holds", r"pub \w+: \[u64; (\d+)\]"), ("ids", r"if word < (\d+)")],
    "HANDLES": [("handles", r"pub at: \[u64; (\d+)\]"), ("ids", r"NO_HANDLE: Handle = Handle\((\d+)\)")],
    "LIST": [("fd_list", r"pub at: \[Description; (\d+)\]")],
    "HOLDS": [("host", r"holds_of\(s, d\) == (\d+)"), ("counts", r"if n < (\d+)")],
    "EFFECT_WORDS": [("write", r"fx\.len\(\) / (\d+) < n")],
    "ERRNO_FIRST": [("error", r"const ERROR_1: u32 = (\w+)")],
    "ERRNO_LAST": [("error", r"const ERROR_132: u32 = (\w+)")],
    "PAGE_BYTES": [("provide_mmap", r"(?:offset|base) % (\d+) != 0")],
    "READ_NONBLOCK": [("wait_queue_receive", r"if flags / (\w+) % 2 == 0")],
}
RUST_LIMITS = {"ABI", "SLOTS", "QUEUE_ENTRIES", "DESCRIPTIONS", "HANDLES", "LIST", "HOLDS", "EFFECTS", "EFFECT_WORDS",
               "STATE_WORDS"}
# the crates' names for structs that have another at a host
HOST_NAMES = {"EffectWords": "Effect"}
# the crates' names for the kinds of a completion entry
CQE_KINDS = {"RespondRegular": "REGULAR", "RespondWithFd": "DESCRIPTOR", "SendFevent": "EVENT", "ObtainFd": "OBTAIN",
             "RespondWithMultipleFds": "MANY", "RespondAndNotifyOnDetach": "NOTICE"}
# prefixes of what stands in the header alone
C_ALONE = ("REPLY_", "OPENED_")


def sources():
    paths = [*sorted(TOP.glob("crates/*/src/lib.rt")), TOP / HEADER, *sorted((TOP / RUST).glob("*.rs")), TOP / STACK]
    return {str(path.relative_to(TOP)): path.read_text() for path in paths}


def number(text):
    return int(text.replace("_", ""), 0)


def capitals(name):
    return re.sub(r"(?<!^)(?=[A-Z])", "_", name).upper()


def arguments(text):
    return [tuple(part.strip().split(": ", 1)) for part in re.split(r",(?![^\[]*\])", text) if part.strip()]


def constants(text, kind):
    """`const NAME: KIND = NUMBER;` or `= KIND(NUMBER);`"""
    return {name: number(value) for name, value in re.findall(rf"\bconst (\w+): {kind} = (?:{kind}\()?(\d\w*)\)?;", text)}


# Functions: of each name its arguments and its result, in Rust's notation.


def layer_functions(texts):
    def crossed(name, kind):
        lent = re.fullmatch(r"&(mut )?\[(\w+)(?:; (\d+))?\]", kind)
        if not lent:
            return [(name, kind)]
        pointer = "*mut" if lent[1] else "*const"
        if lent[3] is None:
            return [(name, f"{pointer} {lent[2]}"), (f"{name}_len", "usize")]
        return [(name, f"{pointer} [{lent[2]}; {lent[3]}]")]

    exported = re.findall(r'pub extern "C" fn (\w+)\((.*?)\)(?: -> (\w+))?\s*\n\s+ensures', texts[EXPORTS], re.S)
    return {name: ([pair for arg in arguments(inside) for pair in crossed(*arg)], out) for name, inside, out in exported}


def rust_functions(texts):
    text = texts[FFI]
    # the state's words and the queue's have names there
    arrays = dict(re.findall(r"^pub type (\w+) = (\[.*\]);$", text, re.M))
    found = re.findall(r"pub fn (tilgurap_\w+)\((.*?)\)(?: -> (\w+))?;", text, re.S)

    def spelled(kind):
        return with_lengths(texts, re.sub(r"\w+$", lambda of: arrays.get(of[0], of[0]), kind))

    return {name: ([(arg, spelled(kind)) for arg, kind in arguments(inside)], out) for name, inside, out in found}


def with_lengths(texts, kind):
    """An array's length may be a constant of limits.rs."""
    named = constants(texts[LIMITS], r"\w+")
    return re.sub(r"; (?:\w+::)*([A-Z_]+)\]", lambda of: f"; {named.get(of[1], of[1])}]", kind)


def c_code(texts):
    return re.sub(r"/\*.*?\*/", "", texts[HEADER], flags=re.S)


def c_kind(texts, kind, pointer="", length=""):
    kind = C_TYPES.get(kind, re.sub("^Tilgurap", "", kind))
    if length:
        kind = f"[{kind}; {c_numbers(texts).get(length.removeprefix('TILGURAP_'), length)}]"
    return f"{pointer} {kind}".strip()


def c_functions(texts):
    found = {}
    for out, name, inside in re.findall(r"^(\w+) (tilgurap_\w+)\(([^)]*)\);", c_code(texts), re.M):
        args = []
        for part in inside.split(",") if inside.strip() != "void" else []:
            parsed = re.fullmatch(r"\s*(const )?(\w+) (\*?)(\w+)(?:\[(\w+)\])?\s*", part)
            if not parsed:
                args.append((part.strip(), "not understood"))
                continue
            const, kind, star, arg, length = parsed.groups()
            pointer = "" if not star and not length else "*const" if const else "*mut"
            args.append((C_ARGUMENTS.get(arg, arg), c_kind(texts, kind, pointer, length)))
        found[name] = (args, c_kind(texts, out))
    return found


# Structs: of each name its fields. A tuple struct has one field without a name, of its one type or an array of its equal ones;
# where a field has the type of a tuple struct, it is spelled out.


def written_structs(text):
    head = r"#\[repr\(C\)\]\n(?:#\[[^\]]*\]\n)*pub struct (\w+)"
    tuples = {}
    for name, inside in re.findall(head + r"\((.*?)\);", text):
        kinds = [kind.strip().removeprefix("pub ") for kind in re.split(r",(?![^\[]*\])", inside)]
        tuples[name] = kinds[0] if len(kinds) == 1 else f"[{kinds[0]}; {len(kinds)}]" if len(set(kinds)) == 1 else inside
    named = {}
    for name, inside in re.findall(head + r" \{\n(.*?)\n\}", text, re.S):
        named[name] = re.findall(r"^    pub (\w+): (.*?),$", inside, re.M)
    return tuples, named


def spelled_out(tuples, named):
    def kind_of(kind):
        return re.sub(r"\b[A-Z]\w*", lambda of: tuples.get(of[0], of[0]), kind)

    found = {name: [("", kind)] for name, kind in tuples.items()}
    found.update({name: [(field, kind_of(kind)) for field, kind in fields] for name, fields in named.items()})
    return found


def layer_structs(texts):
    """Those that a function takes or gives, and the structs in them."""
    parts = [written_structs(text) for path, text in texts.items() if path.endswith(".rt")]
    all_tuples = {name: kind for tuples, _ in parts for name, kind in tuples.items()}
    everywhere = spelled_out(all_tuples, {name: fields for _, named in parts for name, fields in named.items()})
    functions = layer_functions(texts).values()
    crossing, todo = {}, [kind for inside, out in functions for kind in [out, *(of for _, of in inside)]]
    while todo:
        for name in re.findall(r"\b[A-Z]\w*", todo.pop()):
            if name in everywhere and name not in crossing:
                crossing[name] = everywhere[name]
                todo += [of for _, of in everywhere[name]]

    def at_host(kind):
        return re.sub(r"\b[A-Z]\w*", lambda of: HOST_NAMES.get(of[0], of[0]), kind)

    return {at_host(name): [(field, at_host(kind)) for field, kind in fields] for name, fields in crossing.items()}


def rust_structs(texts):
    found = spelled_out(*written_structs(texts[FFI]))
    return {name: [(field, with_lengths(texts, kind)) for field, kind in fields] for name, fields in found.items()}


def c_structs(texts):
    found = {}
    for name, inside in re.findall(r"^typedef struct Tilgurap(\w+) \{(.*?)\} Tilgurap\1;", c_code(texts), re.M | re.S):
        fields = re.findall(r"(\w+) (\w+)(?:\[(\w+)\])?;", inside)
        found[name] = [(field, c_kind(texts, kind, length=length)) for kind, field, length in fields]
    return found


# Numbers


def c_numbers(texts):
    return {name: number(value) for name, value in re.findall(r"^#define TILGURAP_(\w+) (\d\w*)", c_code(texts), re.M)}


def layer_limits(texts):
    found = {}
    for limit, places in LAYER_LIMITS.items():
        said = [(crate, re.findall(where, texts[f"crates/{crate}/src/lib.rt"])) for crate, where in places]
        numbers = {number(one) for _, all_of in said for one in all_of}
        silent = [crate for crate, all_of in said if not all_of]
        found[limit] = f"nothing in {silent}" if silent else numbers.pop() if len(numbers) == 1 else f"several: {sorted(numbers)}"
    # the layer tells an errno by its error word's low 32 bits, 2^32 less it
    for errno in "ERRNO_FIRST", "ERRNO_LAST":
        if isinstance(found[errno], int):
            found[errno] = 2**32 - found[errno]
    if isinstance(found["EFFECT_WORDS"], int):
        found["EFFECTS"] = found["EFFECT_WORDS"] // len(layer_structs(texts).get("Effect", "?"))
    # the layer's stack need is read from its code by that script, which fails above these
    run, state, step = re.search(r"^RUN, STATE, STEP = (.*), (.*), (.*)$", texts[STACK], re.M).groups()
    for name, product in ("RUN", run), ("STATE", state), ("STEP", step):
        found[f"STACK_{name}"] = 1
        for factor in product.split("*"):
            found[f"STACK_{name}"] *= number(factor.strip())
    return found


def tables(texts):
    """Of each sort of number what each of the three says, where it says it."""
    header, limits = c_numbers(texts), layer_limits(texts)
    in_rust = constants(texts[LIMITS], r"(?:usize|u64)")
    flags = constants(texts["crates/flag/src/lib.rt"], "u(?:8|64)")
    taken = set(limits)

    def c(prefix, without=()):
        mine = [name for name in header if name.startswith(prefix) and name not in limits]
        taken.update(mine)
        return {name[len(prefix):]: header[name] for name in mine if name[len(prefix):] not in without}

    def listed(file, pattern):
        """What a pattern finds, a number and a name either way round."""
        pairs = (sorted(pair) for pair in re.findall(pattern, texts[file], re.M))
        return {CQE_KINDS.get(name) or capitals(name): number(value) for value, name in pairs}

    def layer_flags(prefix):
        return {name[len(prefix):]: bits for name, bits in flags.items() if name.startswith(prefix)}

    def rust_flags(file, kind):
        inside = re.search(rf"^    {kind}\(\w+\) \{{\n(.*?)^    \}}$", texts[RUST + file], re.M | re.S)
        return {name: number(bits) for name, bits in re.findall(r"^ +(\w+) = (\w+);$", inside[1] if inside else "", re.M)}

    in_table = re.findall(r"^    Opcode::(\w+),$", texts["crates/opcode/src/lib.rt"], re.M)
    answers, refusals = "crates/answer_words/src/lib.rt", "crates/answer/src/lib.rt"
    refused, errors, rust_errors = c("REFUSAL_"), c("ERRNO_"), constants(texts[RUST + "errno.rs"], "Errno")
    found = {
        "limit": {"the layer": limits, "tilgurap.h": {name: header.get(name) for name in limits}},
        "limit in Rust": {"the layer": {name: limits.get(name) for name in RUST_LIMITS | set(in_rust)}, "limits.rs": in_rust},
        "opcode": {"the layer": listed("crates/opcode/src/lib.rt", r"^    (\w+) = (\d+),$"),
                   "the layer's table": {capitals(name): 3 + place for place, name in enumerate(in_table)},
                   "tilgurap.h": c("OP_"),
                   "opcode.rs": listed(RUST + "opcode.rs", r"^    (\w+) = (\d+),$")},
        "refusal": {"tilgurap.h": refused, "refusal.rs": listed(RUST + "refusal.rs", r"\(\s*Refusal::(\w+),\s*(\d+),")},
        "refusal's number": {"the layer": {of: of for of in map(number, re.findall(r"Refusal::\w+ => (\d+),", texts[refusals]))},
                             "tilgurap.h": {of: of for of in refused.values()}},
        "event flag": {"the layer": layer_flags("EVENT_"), "tilgurap.h": c("EVENT_"),
                       "effect.rs": rust_flags("effect.rs", "EventFlags")},
        "entry flag": {"the layer": layer_flags("SQE_"), "tilgurap.h": c("SQE_"), "entry.rs": rust_flags("entry.rs", "SqeFlags")},
        "obtain flag": {"the layer": layer_flags("FOBTAIN_"), "tilgurap.h": c("OBTAIN_"),
                        "entry.rs": rust_flags("entry.rs", "ObtainFlags")},
        "call flag": {"the layer": {f"FD_{name}": bits for name, bits in layer_flags("FD_").items()}, "tilgurap.h": c("CALL_"),
                      "flags.rs": rust_flags("flags.rs", "CallFlags")},
        "flag of sent descriptions": {"the layer": layer_flags("SEND_FD_"), "tilgurap.h": c("SEND_FD_"),
                                      "entry.rs": rust_flags("entry.rs", "SendFdFlags")},
        "flag of descriptions asked for": {"the layer": layer_flags("RECV_FD_"), "tilgurap.h": c("RECV_FD_"),
                                           "entry.rs": rust_flags("entry.rs", "RecvFdFlags")},
        "flag of a new file": {"the layer": layer_flags("NEW_FD_"), "tilgurap.h": c("NEW_FD_")},
        "answer's kind": {"the layer": {**listed(answers, r"pub fn (done|refused)\([^{]*\{ result ≡ record \{ kind = (\d)"),
                                        **listed(answers, r"Ok\(Accepted::(\w+)\) => AnswerWords \{ kind: (\d)")},
                          "tilgurap.h": c("ANSWER_")},
        "completion's kind": {"the layer": listed("crates/schemev2/src/lib.rt", r"(\d) => Some\(CqeOpcode::(\w+)\)"),
                              "tilgurap.h": c("CQE_")},
        "slot's state": {"the layer": listed("crates/slot/src/lib.rt", r"(\d) => Phase::(\w+)"),
                         "tilgurap.h": c("SLOT_", {"VACANT"})},
        "effect's kind": {"effect.rs": listed(RUST + "effect.rs", r"(\d) => Effect::(\w+)"),
                          "tilgurap.h": c("EFFECT_", {"NONE"})},
        "error": {"errno.rs": {name: rust_errors.get(name) for name in errors}, "tilgurap.h": errors},
    }
    stray = {name: of for name, of in header.items() if name not in taken and not name.startswith(C_ALONE)}
    found["number without a counterpart"] = {"the layer": {}, "tilgurap.h": stray}
    return found


def differences(texts):
    """What differs, as text, and how much was compared."""
    tuples = {name for name, fields in layer_structs(texts).items() if fields[0][0] == ""}
    in_c = c_structs(texts)
    for name in tuples & set(in_c):
        # C has a name for a tuple's one field
        in_c[name] = [("", kind) for _, kind in in_c[name]]
    held = {
        "function": {"the layer": layer_functions(texts), "tilgurap.h": c_functions(texts), "ffi.rs": rust_functions(texts)},
        "struct": {"the layer": layer_structs(texts), "tilgurap.h": in_c, "ffi.rs": rust_structs(texts)},
        **tables(texts),
    }
    found, counts = [], {}
    for what, sides in held.items():
        names = sorted({name for side in sides.values() for name in side}, key=str)
        counts[what] = len(names)
        if not names and what != "number without a counterpart":
            found.append(f"{what}: nothing was found to compare")
        for name in names:
            said = {side: table.get(name) for side, table in sides.items()}
            if any(other != next(iter(said.values())) for other in said.values()):
                found.append("\n".join([f"{what} {name}:", *(f"  {side} has {of}" for side, of in said.items())]))
    return found, counts


# The compilers


def c_redeclared(texts):
    """ffi.rs's functions in C: the compiler refuses them where the header has other types."""
    of_rust = {rust: c for c, rust in C_TYPES.items()}

    def kind_in_c(kind):
        lent = re.fullmatch(r"\*(mut|const) \[?(\w+)(?:; \d+\])?", kind)
        if lent:
            return ("const " if lent[1] == "const" else "") + kind_in_c(lent[2]) + " *"
        return of_rust.get(kind, f"Tilgurap{kind}")

    for name, (args, out) in rust_functions(texts).items():
        inside = ", ".join(kind_in_c(kind) for _, kind in args) or "void"
        yield f"{kind_in_c(out)} {name}({inside});"


def rust_layout(texts, folder):
    """Sizes and offsets by the Rust compiler."""
    lines = ["mod ffi;", "mod limits;", "use std::mem::{offset_of, size_of};", "fn main() {"]
    for name, fields in rust_structs(texts).items():
        lines.append(f'    println!("{name} - {{}}", size_of::<ffi::{name}>());')
        lines += [f'    println!("{name} {of or 0} {{}}", offset_of!(ffi::{name}, {of or 0}));' for of, _ in fields]
    (folder / "main.rs").write_text("\n".join(lines + ["}", ""]))
    for file in FFI, LIMITS:
        (folder / pathlib.Path(file).name).write_text(texts[file])
    made = ["rustc", "--edition", "2024", "--cfg", 'feature="script"', "-A", "warnings", "-o", "layout", "main.rs"]
    subprocess.run(made, cwd=folder, check=True)
    printed = subprocess.run([folder / "layout"], capture_output=True, text=True, check=True).stdout
    return [line.split() for line in printed.splitlines()]


def compilers():
    return next((name for name in ("gcc", "clang", "cc") if shutil.which(name)), None), shutil.which("rustc")


def refused_by_compiler(texts):
    """What a C compiler says against the header beside ffi.rs; nothing where all is well or there is none."""
    compiler, rustc = compilers()
    if not compiler:
        return ""
    with tempfile.TemporaryDirectory() as made:
        folder = pathlib.Path(made)
        (folder / "tilgurap.h").write_text(texts[HEADER])
        lines = ['#include "tilgurap.h"', *c_redeclared(texts)]
        fields = c_structs(texts)
        for name, field, bytes_of in rust_layout(texts, folder) if rustc else []:
            # a tuple struct's field
            field = fields[name][0][0] if field == "0" and name in fields else field
            place = f"sizeof(Tilgurap{name})" if field == "-" else f"offsetof(Tilgurap{name}, {field})"
            lines.append(f'_Static_assert({place} == {bytes_of}, "{place} is {bytes_of} in Rust");')
        (folder / "held.c").write_text("\n".join(lines + [""]))
        asked = subprocess.run([compiler, "-std=c11", "-fsyntax-only", "held.c"], cwd=folder, capture_output=True, text=True)
        return asked.stderr if asked.returncode else ""


# Edits, each of one of the three: what it is, in which file, what stands there, what comes in its place, what has to be named.
STEP_C = "uint64_t words[TILGURAP_STATE_WORDS]"
WIDER_FLAGS = (HEADER, "size_t out_len, uint32_t flags", "size_t out_len, uint64_t flags")
SWAPPED_MARKS = (FFI, "pub ended: bool,\n    pub returned: bool", "pub returned: bool,\n    pub ended: bool")
EDITS = [
    ("swapped arguments", EXPORTS, "description: u64, handle: u64", "handle: u64, description: u64", "function tilgurap_put"),
    ("swapped arguments", HEADER, f"{STEP_C}, uint64_t id, uint64_t pid", f"{STEP_C}, uint64_t pid, uint64_t id",
     "function tilgurap_detach"),
    ("swapped arguments", FFI, "base: u64,\n        count: u64,\n    ) -> WakeWords",
     "count: u64,\n        base: u64,\n    ) -> WakeWords", "function tilgurap_wake"),
    ("changed width", EXPORTS, "caller: u32) -> StepWords", "caller: u64) -> StepWords", "function tilgurap_ended"),
    ("swapped arguments", HEADER, "uint64_t len,\n    uint64_t flags", "uint64_t flags,\n    uint64_t len",
     "function tilgurap_kfdread"),
    ("changed width", *WIDER_FLAGS, "function tilgurap_read"),
    ("changed width", FFI, "flags: u8,\n        args", "flags: u32,\n        args", "function tilgurap_submit"),
    ("lent for reading alone", HEADER, "uint64_t *fx,\n    size_t fx_len,\n    const",
     "const uint64_t *fx,\n    size_t fx_len,\n    const", "function tilgurap_write"),
    ("another result", HEADER, "TilgurapOpenedWords tilgurap_kdup", "TilgurapAnswerWords tilgurap_kdup",
     "function tilgurap_kdup"),
    ("another length", HEADER, "uint8_t out[TILGURAP_CQE_BYTES]", "uint8_t out[TILGURAP_SQE_BYTES]",
     "function tilgurap_cqe_bytes"),
    ("missing function", EXPORTS, 'pub extern "C" fn tilgurap_status', "pub fn tilgurap_status", "function tilgurap_status"),
    ("missing function", HEADER, f"TilgurapStepWords tilgurap_close({STEP_C}, uint64_t id);", "", "function tilgurap_close"),
    ("missing function", FFI, "    pub fn tilgurap_demux(word: u64) -> AnswerWords;\n", "", "function tilgurap_demux"),
    ("swapped fields", "crates/run/src/lib.rt", "pub number: u64,\n    pub place: u64", "pub place: u64,\n    pub number: u64",
     "struct RunEnd"),
    ("swapped fields", HEADER, "uint64_t first;\n    uint64_t len;", "uint64_t len;\n    uint64_t first;", "struct WaitQueue"),
    ("swapped fields", *SWAPPED_MARKS, "struct Slot"),
    ("changed field", "crates/schemev2/src/lib.rt", "ExtraRaw(pub u8, pub u8, pub u8)", "ExtraRaw(pub u8, pub u8)", "struct Cqe"),
    ("changed field", HEADER, "uint64_t at[6];", "uint64_t at[5];", "struct Args"),
    ("changed field", FFI, "pub struct Tag(pub u64);", "pub struct Tag(pub u32);", "struct Tag"),
    ("changed interface", EXPORTS, "{ result ≡ 3 }\n{\n    3\n}", "{ result ≡ 4 }\n{\n    4\n}", "limit ABI"),
    ("changed interface", HEADER, "#define TILGURAP_ABI 3", "#define TILGURAP_ABI 4", "limit ABI"),
    ("changed interface", LIMITS, "ABI: u64 = 3;", "ABI: u64 = 4;", "limit in Rust ABI"),
    ("changed limit", EXPORTS, "tilgurap_open(words: &mut [u64; 2060]", "tilgurap_open(words: &mut [u64; 2061]",
     "limit STATE_WORDS"),
    ("changed limit", "crates/queue_words/src/lib.rt", "128 <= s[layout::UNREAD]", "256 <= s[layout::UNREAD]",
     "limit QUEUE_ENTRIES"),
    ("changed limit", "crates/write/src/lib.rt", "fx.len() / 54", "fx.len() / 51", "limit EFFECTS"),
    ("changed limit", "crates/host/src/lib.rt", "== 65535", "== 65534", "limit HOLDS"),
    ("changed limit", HEADER, "#define TILGURAP_HOLDS 65535", "#define TILGURAP_HOLDS 65536", "limit HOLDS"),
    ("changed limit", "crates/error/src/lib.rt", "ERROR_1: u32 = 0xffff_ffff", "ERROR_1: u32 = 0xffff_fffe", "limit ERRNO_FIRST"),
    ("changed limit", HEADER, "#define TILGURAP_ERRNO_LAST 132", "#define TILGURAP_ERRNO_LAST 133", "limit ERRNO_LAST"),
    ("changed limit", LIMITS, "LIST: usize = 16", "LIST: usize = 32", "limit in Rust LIST"),
    ("missing limit", HEADER, "#define TILGURAP_HANDLES 64 ", "#define HANDLES 64 ", "limit HANDLES"),
    ("missing limit", LIMITS, "pub const HANDLES: usize = 64;", "", "limit in Rust HANDLES"),
    ("changed stack need", HEADER, "#define TILGURAP_STACK_STEP 1024", "#define TILGURAP_STACK_STEP 512", "limit STACK_STEP"),
    ("changed opcode", "crates/opcode/src/lib.rt", "CloseMsg = 27", "CloseMsg = 26", "opcode CLOSE_MSG"),
    ("changed opcode", "crates/opcode/src/lib.rt", "    Opcode::CloseMsg,\n    Opcode::Call,",
     "    Opcode::Call,\n    Opcode::CloseMsg,", "opcode CLOSE_MSG"),
    ("changed opcode", HEADER, "TILGURAP_OP_DETACH 34", "TILGURAP_OP_DETACH 33", "opcode DETACH"),
    ("changed opcode", RUST + "opcode.rs", "Cancel = 25", "Cancel = 26", "opcode CANCEL"),
    ("changed refusal", "crates/answer/src/lib.rt", "TooManyHolds => 207", "TooManyHolds => 208", "refusal's number 207"),
    ("changed refusal", HEADER, "QUEUE_FULL 203", "QUEUE_FULL 208", "refusal QUEUE_FULL"),
    ("changed refusal", RUST + "refusal.rs", "(Refusal::Ebadfd, 77,", "(Refusal::Ebadfd, 9,", "refusal EBADFD"),
    ("changed flag", "crates/flag/src/lib.rt", "SQE_ONEWAY: u8 = 1", "SQE_ONEWAY: u8 = 4", "entry flag ONEWAY"),
    ("changed flag", HEADER, "TILGURAP_EVENT_HUP 4", "TILGURAP_EVENT_HUP 32", "event flag HUP"),
    ("changed flag", RUST + "entry.rs", "CLOEXEC = 8;", "CLOEXEC = 16;", "obtain flag CLOEXEC"),
    ("changed flag", "crates/flag/src/lib.rt", "const FD_UPPER: u64 = 0x4000", "const FD_UPPER: u64 = 0x2000", "call flag FD_UPPER"),
    ("changed flag", HEADER, "CALL_FD_EXCLUSIVE 0x1000", "CALL_FD_EXCLUSIVE 0x800", "call flag FD_EXCLUSIVE"),
    ("changed flag", RUST + "flags.rs", "FD_UPPER = 0x4000;", "FD_UPPER = 0x8000;", "call flag FD_UPPER"),
    ("changed flag", "crates/flag/src/lib.rt", "SEND_FD_EXCLUSIVE: u64 = 1", "SEND_FD_EXCLUSIVE: u64 = 2",
     "flag of sent descriptions EXCLUSIVE"),
    ("changed flag", HEADER, "RECV_FD_UPPER_TBL 2", "RECV_FD_UPPER_TBL 4", "flag of descriptions asked for UPPER_TBL"),
    ("changed kind", "crates/schemev2/src/lib.rt", "3 => Some(CqeOpcode::ObtainFd)", "6 => Some(CqeOpcode::ObtainFd)",
     "completion's kind OBTAIN"),
    ("changed kind", HEADER, "TILGURAP_ANSWER_BLOCKED 3", "TILGURAP_ANSWER_BLOCKED 5", "answer's kind BLOCKED"),
    ("changed kind", RUST + "effect.rs", "2 => Effect::Unmap", "6 => Effect::Unmap", "effect's kind UNMAP"),
    ("number of no known sort", HEADER, "#define TILGURAP_ABI 3", "#define TILGURAP_ABI 3\n#define TILGURAP_LAPS 8",
     "number without a counterpart LAPS"),
]
# and those that the compilers have to find by themselves
COMPILED = [
    ("changed width", *WIDER_FLAGS, "tilgurap_read"),
    ("swapped arguments", FFI, "tag: Tag,\n        caller: u32,\n        killed",
     "caller: u32,\n        tag: Tag,\n        killed", "tilgurap_wake"),
    ("missing const", FFI, "tilgurap_sqe(bytes: *const u8", "tilgurap_sqe(bytes: *mut u8", "tilgurap_sqe"),
    ("changed field", HEADER, "uint64_t b;\n} TilgurapEffect", "uint32_t b;\n    uint32_t c;\n    uint32_t d;\n} TilgurapEffect",
     "TilgurapEffect"),
    ("swapped fields", *SWAPPED_MARKS, "TilgurapSlot"),
]


def self_test():
    texts = sources()
    if differences(texts)[0] or refused_by_compiler(texts):
        sys.exit("declarations: they differ without an edit")
    compiled = COMPILED if all(compilers()) else []
    if not compiled:
        print("skipped: edits that the compilers have to find, since there is no C compiler or no rustc")
    missed = 0
    for edits, find in (EDITS, lambda edited: "\n".join(differences(edited)[0])), (compiled, refused_by_compiler):
        for what, file, old, new, name in edits:
            if old not in texts[file]:
                missed += 1
                print(f"{what} in {file}: {old!r} does not stand there")
                continue
            found = find({**texts, file: texts[file].replace(old, new, 1)})
            if not re.search(rf"(?<!\w){re.escape(name)}(?!\w)", found):
                missed += 1
                print(f"{what} in {file}: nothing is said of {name}:\n{found}")
    print(f"{len(EDITS) + len(compiled)} edits, {missed} not found")
    sys.exit(missed != 0)


def main():
    if sys.argv[1:] == ["--self-test"]:
        self_test()
    texts = sources()
    found, counts = differences(texts)
    said = refused_by_compiler(texts)
    if said:
        found.append(f"the C compiler says:\n{said}")
    for difference in found:
        print(difference)
    compiler, rustc = compilers()
    if not compiler:
        print("skipped: functions, sizes and offsets by the compilers, since there is no C compiler")
    elif not rustc:
        print("skipped: sizes and offsets by the compilers, since there is no rustc")
    numbers = sum(counts.values()) - counts["function"] - counts["struct"]
    print(f"{counts['function']} functions, {counts['struct']} structs and {numbers} numbers, {len(found)} differ")
    sys.exit(bool(found))


if __name__ == "__main__":
    main()
