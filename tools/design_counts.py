"""Counts the places of docs/DESIGN-PASS.md's points in crates/*/src of a commit (no argument: of the files as they are) and prints them.

    python3 tools/design_counts.py [COMMIT] [-v]      -v prints each place
"""
import re
import subprocess
import sys
from pathlib import Path


def sources(commit):
    """Returns (path, text) of each source file."""
    if commit is None:
        return [(str(p), p.read_text()) for p in sorted(Path("crates").glob("*/src/*.rt"))]
    run = lambda *words: subprocess.run(["git", *words], capture_output=True, text=True, check=True).stdout
    names = [n for n in run("ls-tree", "-r", "--name-only", commit, "crates").splitlines() if re.fullmatch(r"crates/[^/]+/src/[^/]+\.rt", n)]
    return [(n, run("show", f"{commit}:{n}")) for n in sorted(names)]


def lines_of(files, pattern, without=None):
    """Returns the lines that a pattern fits, comments left out."""
    found = []
    for path, text in files:
        for number, line in enumerate(text.splitlines(), 1):
            if line.lstrip().startswith("//"):
                continue
            if re.search(pattern, line) and not (without and re.search(without, line)):
                found.append(f"{path}:{number}: {line.strip()}")
    return found


def functions(files):
    """Returns (place, name, parameters, clauses) of each function."""
    found = []
    for path, text in files:
        for m in re.finditer(r"\bfn (\w+)(?:<[^(]*>)?\(((?:[^(){}]|\([^()]*\))*)\)(?: -> [^\n{]*)?((?:\n\s+(?:requires|ensures)[^\n]*)*)", text):
            line = text.count("\n", 0, m.start()) + 1
            parameters = [p for p in re.split(r",\s*(?![^<(\[]*[>)\]])", m.group(2)) if p.strip()]
            found.append((f"{path}:{line}", m.group(1), parameters, m.group(3)))
    return found


def main():
    words = [w for w in sys.argv[1:] if w != "-v"]
    files = sources(words[0] if words else None)
    every = functions(files)
    facts = [c for _, _, _, clauses in every for c in re.findall(r"requires[^\n]*", clauses)]
    counts = {
        "1a own enums": lines_of(files, r"^(pub )?enum "),
        "1b numbers for refusals": lines_of(files, r"\b(refused|refusal)\(\d+|number: \d+ ?[,}]|return 2\d;|^\s+2\d$|\{ 0 \} else \{ 2\d \}|^\s+2[0-9]\b"),
        "1c numbers for kinds": lines_of(files, r"\b(code|kind) == \d"),
        "1d answers as a bool or a number beside a value": lines_of(files, r"pub number: u32,|\bmore: bool,|-> bool \{$", r"Verdict|PlanRead"),
        "2 names in twos (by a size, a type, a table)": lines_of(files, r"\bfn \w*(_64|_512|_bad)\b|\bfn (input_buffer|text_buffer|print_text|next_case|next_record|put_reply|refused|refusal|to_index|to_word|byte_to_pair|byte_to_word|word_to_index|read_part|write_part)\b"),
        "3a while and loop": lines_of(files, r"\b(while|loop)\b"),
        "3b counted by hand": lines_of(files, r"\b\w+ \+= 1;"),
        "4a conversions by `as` and by own functions": lines_of(files, r"\bas (u8|u16|u32|u64|usize)\b|numerals::(to_index|to_word|byte_to_pair|byte_to_word|word_to_index)|\b(to_index)\("),
        "4b comparing and choosing by hand": lines_of(files, r"\bfn (smaller|greater|least|one_if|above|not_above|is_edge_at|outcome_of|as_call_answer|as_token_answer|put_level|put_began)\b"),
        "5a functions of six parameters and more": [f"{p}: {n}({len(q)})" for p, n, q, _ in every if len(q) >= 6],
        "5b bounds of counts in requires": [f for f in facts if re.search(r"≤ (64|512)\b", f)],
        "6a a buffer with an offset beside it": [f"{p}: {n}" for p, n, q, _ in every if any("&mut [u8" in x for x in q) and any(re.match(r"\s*(offset|length)\b", x) for x in q)],
        "6b tables of a plan lent one by one": lines_of(files, r"^\s+(lengths|order|counter|increment|source|destination|tokens|positions|opened|marks|counters): &"),
        "7 a number that says which step": lines_of(files, r"if (code|kind) == \d"),
    }
    for name, places in counts.items():
        print(f"{len(places):5}  {name}")
        if "-v" in sys.argv:
            for place in places:
                print(f"         {place}")


main()
