"""Compares the structs of include/tamsklor.h with those of the Rattle source.

Each struct TamsklorNAME of the header is the #[repr(C)] struct NAME of the
source: the same fields, in the same order, of the same types and lengths, and
the functions that the source exports are those that the header declares. Each
export takes and answers what the library's function of its name does.
"""
import re
import sys
from pathlib import Path

SOURCES = ["plan", "state", "tamsklor"]
LIBRARY, EXPORTS = "tamsklor", "tamsklor_c"
NUMBERS = {"uint8_t": "u8", "uint16_t": "u16", "uint32_t": "u32"}
PREFIX = "Tamsklor"


def bare(text):
    """The text without its comments and continued lines."""
    text = re.sub(r"/\*.*?\*/", " ", text, flags=re.S)
    return re.sub(r"//[^\n]*", " ", text).replace("\\\n", " ")


def constants(header):
    """The header's #define lines that are a number."""
    return {name: int(value) for name, value in re.findall(r"#define (\w+) (\d+)\s*\n", header)}


def length(text, known):
    """What an array's length comes to: a product of constants."""
    total = 1
    for part in text.split("*"):
        part = part.strip()
        total *= known[part] if part in known else int(part)
    return total


def header_structs(header):
    known = constants(header)
    found = {}
    for body, name in re.findall(r"typedef struct \w+ \{(.*?)\} (\w+);", header, flags=re.S):
        fields = []
        for kind, field, size in re.findall(r"(\w+) (\w+)(?:\[([^]]*)\])?;", body):
            kind = NUMBERS.get(kind, kind.removeprefix(PREFIX))
            fields.append((field, f"[{kind}; {length(size, known)}]" if size else kind))
        found[name.removeprefix(PREFIX)] = fields
    return found


def source_structs(source):
    pattern = r"#\[repr\(C\)\]\s*(?:#\[derive\([\w, ]*\)\]\s*)?pub struct (\w+) \{(.*?)\}"
    return {name: re.findall(r"pub (\w+): ([^,]*),", body) for name, body in re.findall(pattern, source, flags=re.S)}


def source_functions(source, before):
    """Name: parameters, result and clauses of each public function with these words before `fn`."""
    found = re.findall(rf"^{before}fn (tamsklor_\w+)(.*?)\n\{{$", source, flags=re.M | re.S)
    return {name: " ".join(signature.split()).replace("( ", "(").replace(", )", ")") for name, signature in found}


def main():
    header = bare(Path("include/tamsklor.h").read_text())
    sources = {name: bare(Path(f"crates/{name}/src/lib.rt").read_text()) for name in [*SOURCES, EXPORTS]}
    source = "".join(sources[name] for name in SOURCES)
    ours, theirs = header_structs(header), source_structs(source)
    wrong = 0
    for name in sorted(ours):
        if ours[name] != theirs.get(name):
            print(f"{name}: {ours[name]} in the header, {theirs.get(name)} in the source")
            wrong += 1
    declared = set(re.findall(r"\b(tamsklor_\w+)\(", header))
    exported = source_functions(sources[EXPORTS], r'#\[unsafe\(no_mangle\)\]\npub extern "C" ')
    if declared != set(exported):
        print(f"functions: {sorted(declared)} in the header, {sorted(exported)} in the source")
        wrong += 1
    behind = source_functions(sources[LIBRARY], "pub ")
    for name in sorted({**exported, **behind}):
        if exported.get(name) != behind.get(name):
            print(f"{name}: {exported.get(name)} exported, {behind.get(name)} in the library")
            wrong += 1
    fields = sum(len(struct) for struct in ours.values())
    print(f"structs of the header: {len(ours)}, fields {fields}, functions {len(declared)}, differing {wrong}")
    return 1 if wrong or len(ours) < 8 else 0


sys.exit(main())
