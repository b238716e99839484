#!/usr/bin/env python3
"""The headers against all that is written beside them: names, sizes, places, alignments and codes.

    layout.py FOLDER      a folder for the programs that it compiles

1. The core's header (service/src/hindcore.h) against the declarations of crates/hs_c: each call with its parameters, each struct with its fields, each
   code.
2. The public headers against those that were shipped (service/include/kept): each call has the parameters that it had, each code its number, each struct
   its fields where they were. A struct that begins with its size may have more behind them, and no other may.
3. The public header against what the Rust crate and the Python module declare.
"""
import pathlib
import re
import subprocess
import sys

TOP = pathlib.Path(__file__).resolve().parent.parent.parent
SERVICE = TOP / "service"
faults = []


def fault(text):
    faults.append(text)


# ---- C


def without_comments(text):
    return re.sub(r"/\*.*?\*/|//[^\n]*", " ", text, flags=re.S)


def structs_of(text):
    """The named structs of a header with their fields; those inside them have no name."""
    found = {}
    for body, name in re.findall(r"typedef struct (?:\w+ )?\{(.*?)\n\} (\w+);", text, re.S):
        flat = re.sub(r"struct \{[^}]*\} (\w+);", r"void *\1;", body)
        found[name] = [word for line in flat.split(";") for word in names_in(line)]
    return found


def names_in(line):
    """What a line of a struct declares: int a, b[4] and the like."""
    parts = line.split(",")
    words = [re.search(r"(\w+)\s*(?:\[[^\]]*\])?\s*$", part) for part in parts if part.strip()]
    return [word[1] for word in words if word]


def enums_of(text):
    return [word.split("=")[0].strip() for body in re.findall(r"\benum \{(.*?)\}", text, re.S) for word in body.split(",") if word.strip()]


def defines_of(text):
    return [name for name, value in re.findall(r"^#define (HIND\w+) (.+)$", text, re.M) if not name.endswith(("_INIT", "_H", "_API", "_CHECK"))]


def calls_of(text):
    """Each call with its result and the types of its parameters."""
    found = {}
    for result, name, inside in re.findall(r"^(?:HIND_API )?(?:HIND_CHECK )?((?:const )?\w+ \**)(hind(?:core)?_\w+)\((.*?)\);$", text, re.M | re.S):
        inside = re.sub(r"\(\*\w+\)\([^)]*\)", "*function", inside)
        types = [type_of(part) for part in inside.split(",") if part.strip() != "void"]
        found[name] = [result.replace(" ", "")] + types
    return found


def type_of(parameter):
    array = "*" if "[" in parameter else ""
    words = re.sub(r"\[[^\]]*\]", "", parameter).strip()
    return re.sub(r"\s+", " ", re.sub(r"\b\w+$", "", words) + array).replace(" *", "*").strip()


def measured(folder, header, includes, name):
    """What a program says that was compiled from a header: sizes, alignments, places and codes."""
    text = without_comments(header.read_text())
    lines = [f'#include "{header}"', "#include <stdio.h>", "#define ALIGN(type) offsetof(struct { char c; type t; }, t)", "int main(void) {"]
    for struct, fields in structs_of(text).items():
        lines.append(f'    printf("struct {struct} %zu %zu\\n", sizeof({struct}), ALIGN({struct}));')
        lines += [f'    printf("field {struct}.{field} %zu %zu\\n", offsetof({struct}, {field}), sizeof((({struct} *)0)->{field}));' for field in fields]
    for code in enums_of(text) + defines_of(text):
        lines.append(f'    printf("code {code} %lld\\n", (long long)({code}));')
    lines += ["    return 0;", "}", ""]
    source, program = folder / f"{name}.c", folder / name
    source.write_text("\n".join(lines))
    subprocess.run(["gcc", "-std=gnu11", *[f"-I{path}" for path in includes], source, "-o", program], check=True)
    said = subprocess.run([program], check=True, capture_output=True, text=True).stdout
    return {tuple(line.split()[:2]): tuple(map(int, line.split()[2:])) for line in said.splitlines()}


# ---- Rust, by repr(C)

SIZES = {"u8": 1, "u16": 2, "u32": 4, "u64": 8, "i32": 4, "i64": 8, "f64": 8, "usize": 8, "c_int": 4}


def size_of(kind, structs):
    """Size and alignment of a type."""
    kind = kind.strip()
    if kind in SIZES:
        return SIZES[kind], SIZES[kind]
    if kind.startswith("*"):
        return 8, 8
    array = re.fullmatch(r"\[(.+); (\d+)\]", kind)
    if array:
        size, align = size_of(array[1], structs)
        return size * int(array[2]), align
    *_, end, align = placed(structs[kind], structs)
    return end[1], align[1]


def placed(fields, structs):
    """Each field with its place and its size, then the size and the alignment of all."""
    at, widest, found = 0, 1, []
    for name, kind in fields:
        size, align = size_of(kind, structs)
        at = (at + align - 1) // align * align
        found.append((name, at, size))
        at, widest = at + size, max(widest, align)
    return found + [("", (at + widest - 1) // widest * widest), ("", widest)]


def rust_structs(text):
    """The structs with repr(C); what is ghost takes no place."""
    found = {}
    for name, body in re.findall(r"#\[repr\(C\)\]\n(?:#\[[^\n]*\]\n)*pub struct (\w+) \{\n(.*?)\n\}", text, re.S):
        lines = [re.fullmatch(r"\s*(?:pub(?:\(crate\))? )?(?:r#)?(\w+): (.+),", line) for line in body.splitlines()]
        found[name] = [(line[1], line[2]) for line in lines if line]
    return found


def compare_struct(who, fields, structs, name, told):
    *places, (_, size), (_, align) = placed(fields, structs)
    if told.get(("struct", name)) != (size, align):
        fault(f"{who}: {name} has {size} bytes, alignment {align}; the header says {told.get(('struct', name))}")
    for field, at, length in places:
        if told.get(("field", f"{name}.{field}")) != (at, length):
            fault(f"{who}: {name}.{field} is at {at}, {length} bytes; the header says {told.get(('field', f'{name}.{field}'))}")
    others = {key[1] for key in told if key[0] == "field" and key[1].startswith(f"{name}.")} - {f"{name}.{field}" for field, *_ in places}
    for other in sorted(others):
        fault(f"{who}: {other} is missing")


def c_class(kind):
    """What a type is for a call: a pointer, or a number of so many bytes."""
    if "*" in kind:
        return "pointer"
    kind = kind.replace("const ", "").strip()
    wide = {"uint8_t": 1, "uint16_t": 2, "hind_node_id": 2, "uint32_t": 4, "int": 4, "hind_code": 4, "uint64_t": 8, "int64_t": 8, "size_t": 8, "hind_span_id": 8}
    return "real" if kind == "double" else f"number {wide[kind]}" if kind in wide else kind


def rust_classes(parameters):
    """The same of Rust's parameters. A slice is a pointer and a length; an allocator takes no place."""
    found = []
    for part in re.split(r",(?![^\[(]*[\])])", parameters):
        kind = part.split(":", 1)[1].strip() if ":" in part else ""
        if not kind or kind == "Global":
            continue
        if re.match(r"&(mut )?\[", kind):
            found += ["pointer", "number 8"]
        elif kind.startswith(("&", "*", "extern")):
            found.append("pointer")
        else:
            found.append("real" if kind == "f64" else f"number {SIZES.get(kind, 4 if kind == 'Code' else 8)}")
    return found


# ---- the comparisons


def snake(name):
    words = re.sub(r"(?<!^)([A-Z])", r"_\1", name.removeprefix("Hind")).lower()
    return "hindcore_" + {"counts": "count", "hub_counts": "hub_count"}.get(words, words)


def core(folder):
    header = SERVICE / "src" / "hindcore.h"
    told = measured(folder, header, [], "of_core")
    text = without_comments(header.read_text())
    source = "\n".join(path.read_text() for path in sorted((TOP / "crates" / "hs_c" / "src").glob("*.rt")))
    structs = rust_structs(source)
    named = {name for name in structs if name.startswith("Hind")}
    for name in sorted(named):
        compare_struct("hs_c", structs[name], structs, snake(name), told)
    for name in set(structs_of(text)) - {snake(name) for name in named}:
        fault(f"hs_c has no struct {name}")
    calls = calls_of(text)
    exports = dict(re.findall(r'#\[unsafe\(no_mangle\)\]\npub extern "C" fn (\w+)\((.*?)\) -> u32', source, re.S))
    for name in sorted(set(calls) ^ set(exports)):
        fault(f"hs_c and hindcore.h: {name} is in one alone")
    for name in sorted(set(calls) & set(exports)):
        if [c_class(kind) for kind in calls[name][1:]] != rust_classes(exports[name]):
            fault(f"hs_c: {name} has other parameters than hindcore.h: {rust_classes(exports[name])}")
    codes = dict(re.findall(r"^pub const (\w+): u32 = (\d+);", (TOP / "crates" / "hs_c" / "src" / "codes.rt").read_text(), re.M))
    enum = re.findall(r"HINDCORE_(\w+)", re.search(r"enum \{(.*?)\}", text, re.S)[1])
    for name in sorted(set(codes) ^ set(enum)):
        fault(f"hs_c and hindcore.h: the code {name} is in one alone")
    for name in sorted(set(codes) & set(enum)):
        if (int(codes[name]),) != told[("code", f"HINDCORE_{name}")]:
            fault(f"hs_c: {name} is {codes[name]}")


def kept(folder):
    """What was shipped still holds."""
    for header in sorted((SERVICE / "include" / "kept").glob("*/*.h")):
        version, now_at = header.parent.name, SERVICE / "include" / header.name
        name = f"of_{version.replace('.', '_')}_{header.stem}"
        then, now = measured(folder, header, [header.parent], name), measured(folder, now_at, [now_at.parent], f"{name}_now")
        for key, value in sorted(then.items()):
            if key[1].startswith("HIND_VERSION_"):
                continue
            grows = key[0] == "struct" and then.get(("field", f"{key[1]}.size")) == (0, 8)
            if key not in now or (now[key] != value and not (grows and now[key][0] >= value[0] and now[key][1] == value[1])):
                fault(f"{version}: {' '.join(key)} was {value}, and is {now.get(key)}")
        for key in sorted(set(now) - set(then)):
            struct = key[1].split(".")[0]
            if key[0] == "field" and ("struct", struct) in then and now[key][0] < then[("struct", struct)][0] and now[key][0] < last_end(then, struct):
                fault(f"{version}: {key[1]} came between fields that were there")
        before, after = (calls_of(without_comments(path.read_text())) for path in (header, now_at))
        for call, types in before.items():
            if after.get(call) != types:
                fault(f"{version}: {call} was {types}, and is {after.get(call)}")


def last_end(then, struct):
    return max(at + size for key, (at, size) in ((k, v) for k, v in then.items() if k[0] == "field" and k[1].startswith(f"{struct}.")))


def rust(told, calls):
    text = (SERVICE / "bindings" / "rust" / "src" / "sys.rs").read_text()
    structs = rust_structs(text)
    for name, fields in structs.items():
        if any(field != "_private" for field, _ in fields):
            compare_struct("sys.rs", fields, structs, name, told)
    for name, value in re.findall(r"pub const (\w+): \w+ = (\d+);", text):
        if told.get(("code", name)) != (int(value),):
            fault(f"sys.rs: {name} is {value}; the header says {told.get(('code', name))}")
    for name, parameters in re.findall(r"pub fn (\w+)\((.*?)\)(?: -> [^;]+)?;", text.replace("extern \"C\" fn(*mut c_void, *const c_char, usize)", "*function"), re.S):
        if name not in calls or [c_class(kind) for kind in calls[name][1:]] != rust_classes(parameters):
            fault(f"sys.rs: {name} has other parameters than the header")
    for code, name in re.findall(r"^\s+(-\d+) => (?:return )?Error::(\w+)", (SERVICE / "bindings" / "rust" / "src" / "error.rs").read_text(), re.M):
        known = {"NoMemory": "NOMEM", "NoTrace": "NOTRACE", "TooLong": "TOOLONG", "Abi": "ABI_WRONG"}.get(name, name.upper())
        if told.get(("code", f"HIND_{known}")) != (int(code),):
            fault(f"error.rs: {name} is {code}")


# the structs of ctypes
OWN = {"_NodeOptions": "hind_node_options", "_HubOptions": "hind_hub_options", "_Message": "hind_message", "_Info": "hind_trace_info", "_Record": "hind_record",
       "_NodeCounts": "hind_node_counts", "_Context": "hind_context", "_NatsOptions": "hind_nats_options"}


def compare_module(module, told):
    import ctypes

    for name, kind in vars(module).items():
        if not (isinstance(kind, type) and issubclass(kind, ctypes.Structure)):
            continue
        struct = OWN[name]
        if told[("struct", struct)] != (ctypes.sizeof(kind), ctypes.alignment(kind)):
            fault(f"{module.__name__}: {name} has another size than {struct}")
        for field, *_ in kind._fields_:
            place = getattr(kind, field)
            if told.get(("field", f"{struct}.{field}")) != (place.offset, place.size):
                fault(f"{module.__name__}: {name}.{field} is elsewhere in {struct}")
        if len(kind._fields_) != sum(key[0] == "field" and key[1].startswith(f"{struct}.") for key in told):
            fault(f"{module.__name__}: {name} has not all fields of {struct}")


def python(told):
    sys.path.insert(0, str(SERVICE / "bindings" / "python"))
    sys.dont_write_bytecode = True
    import hindsight
    import hindsight_web

    compare_module(hindsight, told)
    compare_module(hindsight_web, told)
    named = {f"HIND_{name}": value for name, value in vars(hindsight).items() if name.isupper() and isinstance(value, int)}
    web = vars(hindsight_web)
    named |= {f"HIND_KIND_{name}": web[name] for name in ("INTERNAL", "SERVER", "CLIENT", "PRODUCER", "CONSUMER")}
    named |= {"HIND_STATUS_UNSET": web["UNSET"], "HIND_STATUS_OK": web["OK"], "HIND_STATUS_ERROR": web["FAILED"], "HIND_TAKEN": web["TAKEN"], "HIND_AWAY": web["AWAY"]}
    for name, value in named.items():
        if ("code", name) in told and told[("code", name)] != (value,):
            fault(f"Python: {name} is {value}")


def main():
    folder = pathlib.Path(sys.argv[1])
    core(folder)
    kept(folder)
    header = SERVICE / "include" / "hindsight.h"
    told = measured(folder, header, [header.parent], "of_public")
    rust(told, calls_of(without_comments(header.read_text())))
    nats = header.parent / "hindsight_nats.h"
    python(measured(folder, nats, [nats.parent], "of_nats") | told)
    for text in faults:
        print(text)
    print(f"{len(told)} sizes, places and codes of hindsight.h")
    return bool(faults)


if __name__ == "__main__":
    sys.exit(main())
