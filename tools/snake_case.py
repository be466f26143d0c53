#!/usr/bin/env python3
"""Brings the repository's own names in specs and proofs to snake case, once, after port.py.

usage: tools/snake_case.py [--list] in the repository's top folder

A name of the repository is one that a file below specs/ or proofs/ of one of its crates defines, declares or binds. Names of the kit's
library and names that the checker makes from the code (goals, steps) keep their dashes. Names in src/ outside clauses are untouched.
--list prints the names that would change and those that fall together, and changes nothing.
"""
import glob
import os
import re
import sys

WORD = r"[^\W\d][\w']*"
DASHED = re.compile(r"(?<![\w'◌+*-])(?:\w[\w']*)(?:-[\w'+*]+)+(?![\w'◌])", re.U)
CRATES = sorted(os.path.basename(p.rstrip("/")) for p in glob.glob("crates/*/"))
OWN_PATH = re.compile(r"^Rattle[.·](%s)([.·]|$)" % "|".join(CRATES))


def bare(text, mark):
    return "\n".join(re.sub(mark + r".*", "", line) for line in text.split("\n"))


def library_names(texts):
    """Names that an import takes from elsewhere than the repository, and names the checker makes."""
    out = set()
    for text in texts.values():
        for path, names in re.findall(r"use\s+([^\s{]+?)\.\{([^}]*)\}", text):
            made = re.search(r"\.(Goals|Given)\b", path) or ".proofs." in path and not re.search(r"\.proofs\.[A-Z]\w*$", path)
            if not OWN_PATH.match(path) or made:
                for name in names.split(","):
                    name = name.strip().split(" as ")[0]
                    if "-" in name:
                        out.add(name)
    return out


def function_proof(path):
    """Whether the file is a proof of one function: its names are mostly the checker's."""
    return re.search(r"/proofs/.+/[^/]+\.antt$", path) is not None


def own_names(texts):
    out = set()
    for path, text in texts.items():
        if not path.endswith(".antt") or function_proof(path):
            continue
        text = bare(text, "--")
        for name in DASHED.findall(text):
            out.add(name)
    return out


def write(path, old, new):
    if new != old:
        with open(path, "w", encoding="utf-8") as f:
            f.write(new)


def main():
    paths = sorted(p for p in glob.glob("crates/*/**/*", recursive=True) if p.endswith((".antt", ".rt")) and "/out/" not in p)
    texts = {p: open(p, encoding="utf-8").read() for p in paths}
    library = library_names(texts)
    names = {n for n in own_names(texts) if n not in library}
    turned = {n: n.replace("-", "_") for n in names}
    plain = set()
    for p, text in texts.items():
        if p.endswith(".antt"):
            plain.update(re.findall(r"(?<![\w'.-])[\w']+(?![\w'-])", bare(text, "--")))
        else:
            plain.update(re.findall(r"(?<![\w'.-])[\w']+(?![\w'-])", bare(text, "//")))
    together = sorted(n for n, t in turned.items() if t in plain)
    if "--list" in sys.argv:
        print(len(turned), "names;", len(together), "fall together with a name that is there:")
        print(" ".join(together))
        return
    for p, text in texts.items():
        def turn(m):
            return turned.get(m.group(0), m.group(0))
        write(p, text, DASHED.sub(turn, text))
    plain.update(turned.values())
    for p in sorted(glob.glob("crates/*/must-fail/*.edit") + glob.glob("tests/edits/*/*.edit")):
        with open(p, encoding="utf-8") as f:
            text = f.read()
        def turn_there(m):
            snake = m.group(0).replace("-", "_")
            return snake if m.group(0) not in library and snake in plain else m.group(0)
        lines = [DASHED.sub(turn_there, line) if line.startswith(("old:", "new:")) else line for line in text.split("\n")]
        write(p, text, "\n".join(lines))


if __name__ == "__main__":
    main()
