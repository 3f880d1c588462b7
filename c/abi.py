#!/usr/bin/env python3
"""Holds the exports, the C functions over them, the header and the Python package to each other, and the soname's number to the interface.

    abi.py             says what differs; status 1 where something does
    abi.py --record    writes abi.txt anew, unless the soname's number has to be raised first
    abi.py --plant     tries that each kind of change is found

It reads text alone: the exports and structs in crates/wuleshomia/src, what its numbers stand for in specs/Codes.antt and Spools.antt,
the sizes and the kinds of targets of a spool and the standard's conditions in the crates that have them, calls.c, wuleshomia.h, _native.py,
_endpoint.py, _spool.py and conditions.py. It needs no compiler, no proof and no library.

A call that may get NULL, or a text that ends with a zero byte, is exported as wuleshomia_NAME, and calls.c has wule_NAME over it.
"""

from __future__ import annotations

import re
import sys
from pathlib import Path

HERE = Path(__file__).resolve().parent
CRATE = HERE.parent / "crates" / "wuleshomia"
FORMAT = [f"amqp_spool/src/{name}.rt" for name in ("head", "batch_head", "end", "floor", "position")] + ["amqp_spool_records/src/target.rt"]
PYTHON = HERE.parent / "python" / "src" / "wuleshomia"

STRUCTS = {  # in Rattle: in C, in Python
    "EndpointHandle": ("wule_endpoint", "Handle"),
    "Settings": ("wule_settings", "Settings"),
    "LimitRow": ("wule_limit", "Limit"),
    "FedReport": ("wule_fed", "Fed"),
    "TakenReport": ("wule_taken", "Taken"),
    "LinkReport": ("wule_link_state", "LinkState"),
    "AddressReport": ("wule_address", "Address"),
    "ServeRule": ("wule_rule", "Rule"),
    "StepReport": ("wule_step", "Step"),
    "Part": ("wule_part", "Part"),
    "SpoolHead": ("wule_spool_head", "SpoolHead"),
    "SpoolBatch": ("wule_spool_batch", "SpoolBatch"),
    "SpoolEntry": ("wule_spool_entry", "SpoolEntry"),
    "SpoolEnd": ("wule_spool_end", "SpoolEnd"),
    "SpoolFloor": ("wule_spool_floor", "SpoolFloor"),
    "SpoolPosition": ("wule_spool_position", "SpoolPosition"),
}
WORDS = {"u32": "uint32_t", "u64": "uint64_t", "usize": "size_t", "*mut u8": "void *", "[u8; 16]": "uint8_t[16]", "[u8; 32]": "uint8_t[32]", "[u8; 256]": "uint8_t[256]"}
PYTHON_WORDS = {
    "void": "None", "uint32_t": "u32", "uint64_t": "c_uint64", "size_t": "c_size_t", "void *": "c_void_p", "uint8_t[16]": "c_uint8 * 16",
    "uint8_t[32]": "c_uint8 * 32", "uint8_t[256]": "c_uint8 * 256", "uint32_t *": "POINTER(u32)", "uint64_t *": "POINTER(c_uint64)", "size_t *": "POINTER(c_size_t)",
    "const uint8_t *": "c_void_p", "uint8_t *": "c_void_p", "const char *": "c_char_p",
}
INNER = "wuleshomia_"  # begins the names of the exports that calls.c hands on to
IN_C = {"WULE_NULL": 31}  # the codes that calls.c alone returns
SIZES = {"uint32_t": (4, 4), "uint64_t": (8, 8), "void *": (8, 8), "uint8_t": (1, 1)}
TEXTS = {"container_id", "condition", "description"}  # bytes that C writes as a text
MEASURED = {"condition", "description"}  # of these texts calls.c alone has the length
DESCRIBED = "described"  # and this, whether there is a description

# What the numbers stand for: the definition in Codes.antt, the enum in C, its prefix, the one in Python. The last arm of a definition is
# all numbers that are not named before it, so that its number is given here.
ENUMS = [
    ("fault_at", "wule_code", "WULE_", "Code", 13),
    ("open_fault_at", "wule_code", "WULE_", "Code", 26),
    ("settlement_at", "wule_outcome", "WULE_", "Outcome", None),
    ("end_at", "wule_end", "WULE_END_", "End", 4),
    ("condition_at", "wule_condition", "WULE_", "Condition", 0),
    ("scope_at", "wule_scope", "WULE_", "Scope", 3),
    ("event_at", "wule_event", "WULE_", None, 12),
    ("outcome_at", "wule_fed_outcome", "WULE_", None, 5),
    ("receipt_at", "wule_receipt", "WULE_RECEIPT_", "Receipt", 4),
    ("address_at", "wule_address_kind", "WULE_ADDRESS_", "AddressKind", 4),
    ("entry_at", "wule_spool_kind", "WULE_SPOOL_", "_Kind", 2),
]
# Enums whose numbers are those of a spool's format: their prefix in C, the enum in Python.
FORMAT_ENUMS = {"wule_spool_size": ("WULE_SPOOL_", "_Size"), "wule_spool_target": ("WULE_SPOOL_", "TargetKind")}
RENAMED = {
    ("fault_at", "Dead"): "CONNECTION_OVER",
    ("open_fault_at", "Settings"): "BAD_SETTINGS",
    ("open_fault_at", "Limits limit.TooMany"): "TOO_MANY_LIMITS",
    ("open_fault_at", "Limits (limit.BadRow row)"): "BAD_LIMIT",
    ("open_fault_at", "Limits (limit.SamePrefix row)"): "SAME_PREFIX",
    ("settlement_at", "Modified false false"): "MODIFIED",
    ("settlement_at", "Modified true false"): "MODIFIED_FAILED",
    ("settlement_at", "Modified false true"): "MODIFIED_UNDELIVERABLE",
    ("settlement_at", "Modified true true"): "MODIFIED_FAILED_UNDELIVERABLE",
    ("outcome_at", "NoMemory"): "STARVED",
    ("receipt_at", "Nothing"): "NONE",
    ("address_at", "Made"): "DYNAMIC",
    ("address_at", "Nameless"): "ABSENT",
    ("address_at", "NoNode"): "NO_TARGET",
    ("address_at", "OtherNode"): "OTHER",
}


class Sources:
    """The texts that are compared."""

    def __init__(self) -> None:
        self.exports = "\n".join(path.read_text() for path in sorted((CRATE / "src").glob("*.rt")) if path.name != "tests.rt")
        self.calls = (HERE / "calls.c").read_text()
        self.codes = "\n".join((CRATE / "specs" / name).read_text() for name in ("Codes.antt", "Spools.antt"))
        record = (CRATE.parent / "amqp_records/src/record.rt").read_text().replace("const HEAD:", "const RECORD_HEAD:")
        self.format = "\n".join([*((CRATE.parent / name).read_text() for name in FORMAT), record])
        self.header = (HERE / "wuleshomia.h").read_text()
        self.named = (CRATE.parent / "amqp_reason/src/conditions.rt").read_text()
        self.conditions = (PYTHON / "conditions.py").read_text()
        self.native = (PYTHON / "_native.py").read_text()
        self.endpoint = "\n".join((PYTHON / name).read_text() for name in ("_endpoint.py", "_spool.py"))
        self.makefile = (HERE / "Makefile").read_text()
        self.recorded = (HERE / "abi.txt").read_text() if (HERE / "abi.txt").exists() else ""


# ---- the exports

def type_in_c(name: str, word: str) -> list[tuple[str, str]]:
    """The parameters in C of one in Rattle."""
    struct = re.fullmatch(r"(&mut |&)(\w+)", word)
    rows = re.fullmatch(r"&\[(\w+)\]", word)
    if word == "Global":
        return []
    if word in ("&[u8]", "&mut [u8]"):
        kind = "const char *" if name in TEXTS else "const uint8_t *"
        return [(name, kind if word == "&[u8]" else "uint8_t *"), (f"{name}_len" if name in MEASURED else "", "size_t")]
    if rows and rows[1] in STRUCTS:
        return [(name, f"const {STRUCTS[rows[1]][0]} *"), ("", "size_t")]
    if struct and struct[2] in STRUCTS:
        known = STRUCTS[struct[2]][0]
        return [("e" if struct[2] == "EndpointHandle" else name, f"{'const ' if struct[1] == '&' else ''}{known} *")]
    if struct:
        return [(name, f"{WORDS[struct[2]]} *")]
    return [(name, WORDS[word])]


def public(name: str) -> str:
    """The name that a host calls."""
    return "wule_" + name.removeprefix(INNER) if name.startswith(INNER) else name


def measured(call: tuple) -> tuple:
    """What a host hands in, of a call that gets texts with their lengths."""
    result, words = call
    return result, [(name, word) for name, word in words if name not in {DESCRIBED, *(f"{text}_len" for text in MEASURED)}]


def exported(text: str) -> dict[str, tuple]:
    found = {}
    for name, words, result in re.findall(r'#\[unsafe\(no_mangle\)\]\s*pub extern "C" fn (\w+)\((.*?)\)(?: -> (\w+))?\s*\n', text, re.S):
        given = [word.strip().split(": ") for word in words.split(",") if word.strip()]
        found[name] = (WORDS[result] if result else "void", [p for word in given for p in type_in_c(*word)])
    return found


def structs_of_exports(text: str) -> dict[str, list[tuple[str, str]]]:
    found = {}
    for name, body in re.findall(r"#\[repr\(C\)\][^{]*?pub struct (\w+) \{(.*?)\n\}", text, re.S):
        plain = re.sub(r"//.*", "", body)
        fields = re.findall(r"^\s*(?:pub )?(\w+): ([^,{]+),", plain, re.M)
        found[name] = [(n, WORDS.get(t.strip()) or STRUCTS[t.strip()][0]) for n, t in fields]
    return found


def upper(name: str) -> str:
    return re.sub(r"(?<=[a-z])(?=[A-Z])", "_", name).upper()


def numbers_of_specs(text: str, definition: str, last: int | None) -> dict[str, int]:
    body = re.search(rf"\n{definition} [^\n]*=\n(.*?)\n\n", text, re.S)[1]
    found = {}
    for number, what in re.findall(r"nat_eq [\w.]+ (\d+) then (.*)", body):
        found[name_of(definition, what)] = int(number)
    if last is not None:
        found[name_of(definition, re.search(r"\n\s*else (?!if)(.*)", body)[1])] = last
    return found


def name_of(definition: str, what: str) -> str:
    what = re.sub(r"^Some ", "", what.strip()).strip("()") if definition == "settlement_at" else what.strip()
    what = re.sub(r"^\w+\.", "", what)
    return RENAMED.get((definition, what)) or upper(what.split(" ")[0])


def numbers_of_format(text: str) -> dict[str, dict[str, int]]:
    """The numbers that crates below have for the enums of a spool's format."""
    sizes = {name: int(number) for name, number in re.findall(r"^pub const (\w+): usize = (\d+);", text, re.M)}
    arms = re.findall(r"^ +(\d+|_) => Target::(\w+)", text, re.M)
    targets = {upper(name): number for number, (_, name) in enumerate(arms)}
    return {"wule_spool_size": sizes, "wule_spool_target": targets}


# ---- the header

def plain(header: str) -> str:
    return re.sub(r"/\*.*?\*/", "", header, flags=re.S)


def c_type(words: str) -> str:
    return re.sub(r" ?\* ?$", " *", re.sub(r"\s+", " ", words.strip()))


def declared(header: str, after: str = ";") -> dict[str, tuple]:
    """The functions whose heads stand in a text, with what follows a head."""
    found = {}
    for result, name, words in re.findall(rf"^(uint32_t|uint64_t|size_t|void) (wule\w+)\(([^)]*)\)(?: WULE_\w+)?{after}", plain(header), re.M):
        given = []
        for word in [] if words.strip() == "void" else words.split(","):
            parts = re.fullmatch(r"\s*(.*?)(\w+)\s*", word, re.S)
            given.append((parts[2], c_type(parts[1])))
        found[name] = (result, given)
    return found


def structs_of_header(header: str) -> dict[str, list[tuple[str, str]]]:
    found = {}
    for name, body in re.findall(r"typedef struct (\w+) \{(.*?)\} \1;", plain(header), re.S):
        fields = []
        for words, field, size in re.findall(r"([\w ]+?\*?) ?\b(\w+)((?:\[\d+\])?);", body):
            fields.append((field.removeprefix("wule_"), c_type(words) + size))
        found[name] = fields
    return found


def enums_of_header(header: str) -> dict[str, dict[str, int]]:
    found = {}
    for name, body in re.findall(r"typedef enum (\w+) \{(.*?)\} \1;", plain(header), re.S):
        found[name] = {n: int(v) for n, v in re.findall(r"(\w+) = (\d+)", body)}
    return found


def size_of(kind: str, structs: dict) -> tuple[int, int]:
    array = re.fullmatch(r"(.*)\[(\d+)\]", kind)
    if array:
        size, align = size_of(array[1], structs)
        return size * int(array[2]), align
    if kind in structs:
        at, most = 0, 1
        for _, field in structs[kind]:
            size, align = size_of(field, structs)
            at = (at + align - 1) // align * align + size
            most = max(most, align)
        return (at + most - 1) // most * most, most
    return SIZES[kind]


def interface(header: str) -> list[str]:
    """One line for each thing that a program is built against."""
    structs = structs_of_header(header)
    lines = []
    for name, (result, words) in declared(header).items():
        lines.append(f"function {name}: {', '.join(f'{t} {n}' for n, t in words) or 'void'} -> {result}")
    for name, fields in structs.items():
        lines.append(f"struct {name}: {', '.join(f'{t} {n}' for n, t in fields)}; {size_of(name, structs)[0]} bytes")
    for name, values in enums_of_header(header).items():
        lines += [f"enum {name}: {n} = {v}" for n, v in values.items()]
    return sorted(lines)


# ---- Python

def python_functions(native: str) -> dict[str, tuple]:
    found = {}
    for name, result, words in re.findall(r'^    "(\w+)": \((\w+), \[(.*?)\]\),$', native, re.M):
        found[name] = (result, re.findall(r"POINTER\(\w+\)|\w+", words))
    return found


def python_structs(native: str) -> dict[str, list[tuple[str, str]]]:
    found = {}
    for name, body in re.findall(r"^class (\w+)\(Structure\):\n    _fields_ = \[(.*?)\]$", native, re.M | re.S):
        found[name] = re.findall(r'\("(\w+)", ([\w *]+?)\)', body)
    return found


def python_enums(endpoint: str) -> dict[str, dict[str, int]]:
    found = {}
    for name, body in re.findall(r"^class (\w+)\(IntEnum\):\n(.*?)\n\n\n", endpoint, re.M | re.S):
        found[name] = {n: int(v) for n, v in re.findall(r"^    ([A-Z_]+) = (\d+)$", body, re.M)}
    return found


def python_events(endpoint: str) -> dict[str, int]:
    return {upper(name): int(number) for number, name in re.findall(r"^    (\d+): lambda f: _?(\w+)\(", endpoint, re.M)}


# ---- what is compared

def compared(s: Sources) -> list[str]:
    bad: list[str] = []

    def same(what: str, left: object, right: object, sides: str) -> None:
        if left != right:
            bad.append(f"{what}: {sides}: {left} and {right}")

    all_exports, header, native = exported(s.exports), declared(s.header), python_functions(s.native)
    exports = {public(name): measured(export) for name, export in all_exports.items()}
    inner = {name for name in all_exports if name.startswith(INNER)}
    asked, made = declared(s.calls), declared(s.calls, r" \{")
    same("calls.c", sorted(inner), sorted(asked), "exports of inner names, and what it asks for")
    same("calls.c", sorted(map(public, inner)), sorted(made), "exports of inner names, and what it has")
    for name in sorted(asked):
        same(name, measured(asked[name]), header.get(public(name)), "calls.c and header")
        same(name, [t for _, t in asked[name][1]], [t for _, t in all_exports.get(name, ("", []))[1]], "calls.c and export")
    for name in sorted(made):
        same(name, made[name], header.get(name), "calls.c and header")
    for name in sorted({*exports, *header, *native}):
        if name not in exports or name not in header or name not in native:
            bad.append(f"{name}: it is not exported, declared and in Python")
            continue
        result, words = exports[name]
        told = header[name]
        same(name, (result, [t for _, t in words]), (told[0], [t for _, t in told[1]]), "export and header")
        same(name, [n for n, _ in words if n], [t for (n, _), (t, _) in zip(words, told[1]) if n], "names of parameters")
        types = [PYTHON_WORDS.get(t) or f"POINTER({python_struct(t)})" for t in [result, *[t for _, t in words]]]
        same(name, types, [native[name][0], *native[name][1]], "export and Python")
    mine, c, python = structs_of_exports(s.exports), structs_of_header(s.header), python_structs(s.native)
    for name, (c_name, python_name) in STRUCTS.items():
        same(name, mine.get(name), c.get(c_name), "struct in the crate and in the header")
        same(name, [(n, PYTHON_WORDS.get(t) or python_struct(t + " *")) for n, t in mine.get(name, [])], python.get(python_name), "struct in the crate and in Python")
    enums, python_numbers = enums_of_header(s.header), python_enums(s.endpoint)
    for definition, c_name, prefix, python_name, last in ENUMS:
        for name, number in numbers_of_specs(s.codes, definition, last).items():
            same(f"{c_name} {name}", number, enums[c_name].get(prefix + name), "specs and header")
            if python_name:
                same(f"{c_name} {name}", number, python_numbers[python_name].get(name), "specs and Python")
    for c_name, numbers in numbers_of_format(s.format).items():
        prefix, python_name = FORMAT_ENUMS[c_name]
        same(c_name, {prefix + name: number for name, number in numbers.items()}, enums[c_name], "the format and the header")
        same(c_name, numbers, python_numbers[python_name], "the format and Python")
    constants = {f"WULE_{name}": int(number) for name, number in re.findall(r"pub const (\w+): u32 = (\d+);", s.exports) if name != "VERSION"}
    for name, number in constants.items():
        same(name, number, enums["wule_code"].get(name), "constant and header")
    for c_name in enums.keys() - FORMAT_ENUMS.keys():
        known = {p + n for d, c, p, _, last in ENUMS if c == c_name for n in numbers_of_specs(s.codes, d, last)}
        named = known | ({*constants, *IN_C} if c_name == "wule_code" else set())
        same(c_name, sorted(named), sorted(enums[c_name]), "names in specs and crate, and in the header")
    same("calls.c", sorted(set(re.findall(r"\bWULE_\w+", plain(s.calls)))), sorted(IN_C), "the codes that it returns, and those that are its own")
    for name, number in IN_C.items():
        same(name, number, enums["wule_code"].get(name), "a code of C, and the header")
    named = dict(re.findall(r'^pub const (\w+): &str = ("[^"]+");$', s.named, re.M))
    same("conditions", named, dict(re.findall(r'^#define WULE_SYMBOL_(\w+) ("[^"]+")$', s.header, re.M)), "crate and header")
    same("conditions", named, dict(re.findall(r'^(\w+) = ("[^"]+")$', s.conditions, re.M)), "crate and Python")
    same("wule_code", {n.removeprefix("WULE_"): v for n, v in enums["wule_code"].items() if v}, python_numbers["Code"], "header and Python")
    same("wule_event", {n.removeprefix("WULE_"): v for n, v in enums["wule_event"].items()}, python_events(s.endpoint), "header and Python")
    major, minor, patch = (int(re.search(rf"#define WULE_VERSION_{w} (\d+)", s.header)[1]) for w in ("MAJOR", "MINOR", "PATCH"))
    version = str(major * 65536 + minor * 256 + patch)
    same("version", version, re.search(r"VERSION: u32 = (\d+);", s.exports)[1], "header and crate")
    same("version", version, re.search(r"^VERSION = (\d+)$", s.native, re.M)[1], "header and Python")
    same("version", f"{major}.{minor}.{patch}", re.search(r"^VERSION  = (.*)$", s.makefile, re.M)[1], "header and Makefile")
    return bad


def python_struct(kind: str) -> str:
    name = kind.replace("const ", "").removesuffix(" *")
    return next((p for c, p in STRUCTS.values() if c == name), name)


def soname(s: Sources) -> str:
    return re.search(r"^SOVERSION = (\d+)$", s.makefile, re.M)[1]


def held_to_record(s: Sources) -> list[str]:
    lines, recorded = interface(s.header), s.recorded.splitlines()
    head = recorded[0] if recorded else ""
    gone = [line for line in recorded[1:] if line not in lines]
    new = [line for line in lines if line not in recorded]
    if head == f"soname {soname(s)}" and gone:
        return [f"the soname's number has to be raised (SOVERSION in Makefile): {line}" for line in gone]
    if head != f"soname {soname(s)}" or new:
        return ["abi.txt is not of this interface: abi.py --record", *new]
    return []


def record(s: Sources) -> list[str]:
    raised = [line for line in held_to_record(s) if line.startswith("the soname")]
    if not raised:
        (HERE / "abi.txt").write_text("\n".join([f"soname {soname(s)}", *interface(s.header)]) + "\n")
    return raised


# ---- planted changes

PLANTS = [
    ("a name in the header", "header", "wule_has_output(wule_endpoint *e);", "wule_has_out(wule_endpoint *e);"),
    ("a type in the header", "header", "uint32_t wule_widen(wule_endpoint *e, uint32_t channel, uint32_t n)", "uint32_t wule_widen(wule_endpoint *e, uint32_t channel, uint64_t n)"),
    ("two parameters that are swapped", "header", "uint32_t channel, uint32_t first, uint32_t last, uint32_t outcome,", "uint32_t channel, uint32_t last, uint32_t first, uint32_t outcome,"),
    ("an enum's value in the header", "header", "WULE_DETACHED = 9,", "WULE_DETACHED = 13,"),
    ("a struct's size", "header", "    uint32_t refused; /*", "    uint32_t most;\n    uint32_t refused; /*"),
    ("a field's order", "header", "    uint32_t id;      /* the delivery-id, for wule_settle() */\n    uint32_t format;", "    uint32_t format;\n    uint32_t id;"),
    ("a type in an export", "exports", "    at: usize,\n    room: &mut [u8],\n) -> usize", "    at: u32,\n    room: &mut [u8],\n) -> usize"),
    ("a constant of the crate", "exports", "pub const UNSENT: u32 = 28;", "pub const UNSENT: u32 = 32;"),
    ("an export that a host is to call itself", "exports", "fn wuleshomia_take(", "fn wule_take("),
    ("an export that calls.c leaves out", "exports", "fn wule_has_output(", "fn wuleshomia_has_output("),
    ("two texts that are swapped in an export", "exports", "    first: u32,\n    last: u32,\n    condition: &[u8],\n    description: &[u8],", "    first: u32,\n    last: u32,\n    description: &[u8],\n    condition: &[u8],"),
    ("a condition in the header", "header", '#define WULE_SYMBOL_STOLEN "amqp:link:stolen"', '#define WULE_SYMBOL_STOLEN "amqp:stolen"'),
    ("a condition in Python", "conditions", 'NOT_FOUND = "amqp:not-found"', 'NOT_FOUND = "amqp:not_found"'),
    ("a type in calls.c", "calls", "size_t wuleshomia_records(wule_endpoint *e, uint8_t *room, size_t len);", "uint32_t wuleshomia_records(wule_endpoint *e, uint8_t *room, size_t len);"),
    ("another code in calls.c", "calls", "wuleshomia_link(e, channel, handle, link, name, len) : WULE_NULL;", "wuleshomia_link(e, channel, handle, link, name, len) : WULE_NO_LINK;"),
    ("a number in the specs", "codes", "if nat_eq n 1 then Some settlement.Rejected", "if nat_eq n 1 then Some settlement.Released"),
    ("a number of a spool's format", "format", "pub const BATCH_HEAD: usize = 32;", "pub const BATCH_HEAD: usize = 40;"),
    ("a kind of entry in the specs", "codes", "if nat_eq r.kind 1 then Introduction", "if nat_eq r.kind 3 then Introduction"),
    ("a type in Python", "native", '"wule_held": (c_uint64,', '"wule_held": (u32,'),
    ("a field in Python", "native", '("tag_len", u32),', '("tag_size", u32),'),
    ("a number in Python", "endpoint", "    MODIFIED_FAILED = 4", "    MODIFIED_FAILED = 5"),
    ("an event in Python", "endpoint", "    5: lambda f: _ready(", "    5: lambda f: Aborted("),
]
SONAME_PLANTS = {"a name in the header", "a type in the header", "two parameters that are swapped", "an enum's value in the header", "a struct's size", "a field's order"}


def planted() -> list[str]:
    missed = []
    for what, where, old, new in PLANTS:
        s = Sources()
        text = getattr(s, where)
        if text.count(old) != 1:
            missed.append(f"{what}: the text to be changed stands {text.count(old)} times")
            continue
        setattr(s, where, text.replace(old, new))
        if not compared(s):
            missed.append(f"{what}: the parts still agree")
        if what in SONAME_PLANTS and not any(line.startswith("the soname") for line in held_to_record(s)):
            missed.append(f"{what}: the soname's number may stay")
    return missed


def main() -> int:
    words = sys.argv[1:]
    s = Sources()
    if words == ["--record"]:
        bad = compared(s) + record(s)
    elif words == ["--plant"]:
        bad = planted()
    else:
        bad = compared(s) + held_to_record(s)
    print("\n".join(bad) or f"abi: {len(declared(s.header))} functions, {len(STRUCTS)} structs and {sum(map(len, enums_of_header(s.header).values()))} numbers agree; "
          f"soname {soname(s)}" + (f"; {len(PLANTS)} planted changes are found" if words == ["--plant"] else ""))
    return 1 if bad else 0


if __name__ == "__main__":
    sys.exit(main())
