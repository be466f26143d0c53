"""Fails where a source holds a hole, an axiom of the project's own, or antt's axioms lem and ac.

Sources are the files .rt and .antt of crates/; crates/*/out is made by rt and is none. Comments and texts between quotes are not read.

A hole is a word of antt that begins with `?`. The code of a .rt file has `?` behind an expression and in the bound `?Sized`, and a method
`resize`, which are no faults; in its clauses and ghost items, which are antt, they are.

Before the tree it tries itself on TEXTS, some with a fault and some without.
"""
import pathlib
import re
import sys

FORBIDDEN = {
    "axiom": "an axiom of the project's own",
    "Axiom": "the module of antt's axioms",
    "lem": "excluded middle",
    "Lem": "excluded middle",
    "LEM": "excluded middle",
    "ac": "choice",
    "Ac": "choice",
    "AC": "choice",
    "resize": "a consequence of excluded middle",
}

# comments and quoted texts: of Rust (raw texts and characters among them, lifetimes not), of antt
BLANK = {
    ".rt": re.compile(r"//[^\n]*|/\*.*?\*/|b?r(#*)\".*?\"\1|b?\"(?:[^\"\\]|\\.)*\"|b?'(?:[^'\\\n]|\\[^\n]+?)'", re.S),
    ".antt": re.compile(r"(?<!\S)--(?=\s|-|$)[^\n]*|\{-.*?-\}|\"(?:[^\"\\\n]|\\.)*\"", re.S | re.M),
}
# what in Rust's code only looks like a fault: a `?` behind an expression or in a bound, a method
RUST = re.compile(r"(?<=[\w)\]}>])\?+|\?(?=Sized\b)|\.resize(?=\()")
# the beginning of a clause or a ghost item, up to its brace
GHOST = re.compile(r"\b(?:requires|ensures|ghost)\b[^{};]*\{")
WORD = re.compile(r"[^\s(){}\[\].,;:=|@«»]+")


def bare(text, suffix):
    """The text without its comments and quoted texts, and of Rust's code without what only looks like a fault. Lines stay where they are."""
    text = BLANK[suffix].sub(lambda match: re.sub(r"[^\n]", " ", match.group()), text)
    if suffix == ".antt":
        return text
    parts, place = [], 0
    while match := GHOST.search(text, place):
        end, depth = match.end(), 1
        while depth and end < len(text):
            depth += (text[end] == "{") - (text[end] == "}")
            end += 1
        parts += [RUST.sub("", text[place:match.start()]), text[match.start():end]]
        place = end
    return "".join([*parts, RUST.sub("", text[place:])])


def faults(text, suffix):
    """The line of each forbidden word of a text, the word, and what it is."""
    for number, line in enumerate(bare(text, suffix).splitlines(), 1):
        for word in WORD.findall(line):
            if word.startswith("?") or word in FORBIDDEN:
                yield number, word, FORBIDDEN.get(word, "a hole")


# ---- texts, each with the words that are faults of it

TEXTS = [
    (".antt", "f : ℕ\nf = ?\n", ["?"]),
    (".antt", "f x = g ?here (? , ?)\n", ["?here", "?", "?"]),
    (".antt", "f x = (g x $ ?)\n", ["?"]),
    (".antt", "-- ? lem\nf x = g?\n--- ac\n{- axiom\n? -}\nt = \"? lem\"\n", []),
    (".antt", "axiom pub f : ℕ\n", ["axiom"]),
    (".antt", "  axiom f : ℕ\n", ["axiom"]),
    (".antt", "use Prim.Axiom.{lem, ac as choice}\n", ["Axiom", "lem", "ac"]),
    (".antt", "f = Prim.Axiom.resize (Lem {0})\n", ["Axiom", "resize", "Lem"]),
    (".antt", "place-lem : ℕ\nlemma = pac (x.acs)\n", []),
    (".rt", "fn f() -> Option<u8> {\n    let x = read(a)?.b[0]?;\n    Some(x?)\n}\n", []),
    (".rt", "fn f<T: ?Sized>(v: &mut Vec<u8>) {\n    v.resize(3, 0)?;\n    println!(\"{x:?} ? lem\", b'?', '\"');\n}\n", []),
    (".rt", "// ? lem\n/* axiom\n? */\nfn f<'a>(x: &'a u8) -> char { '?' }\n", []),
    (".rt", "fn f()\n    ensures { ? }\n", ["?"]),
    (".rt", "fn f()\n    ensures { g ? ≡ (?) }\n", ["?", "?"]),
    (".rt", "fn f()\n    requires a { g (x)? }\n    ensures* b { P { h? } (x ?y) }\n{\n    g(x)?;\n}\n", ["?", "?y"]),
    (".rt", "struct S {\n    ghost law: { (x)? },\n}\nghost use Prim.Axiom.{lem};\nfn f() { a()?; }\n", ["?", "Axiom", "lem"]),
    (".rt", "fn f()\n    ensures { resize x ≡ Prim.resize (x) }\n", ["resize", "resize"]),
]


def misjudged():
    """Each of TEXTS that is judged wrongly."""
    for suffix, text, wanted in TEXTS:
        found = [word for _, word, _ in faults(text, suffix)]
        if found != wanted:
            yield f"self-test: {text!r}: wanted {wanted}, and the check said {found}"


def main():
    wrong = list(misjudged())
    root = pathlib.Path(__file__).resolve().parent.parent
    parts = [part for part in [*root.glob("crates/*"), *root.glob("crates/*/*")] if part.name != "out"]
    deeper = (path for part in parts if part.parent.name != "crates" for path in part.rglob("*"))
    files = sorted(path for path in [*parts, *deeper] if path.suffix in BLANK)
    found = []
    for path in files:
        for number, word, what in faults(path.read_text(encoding="utf-8"), path.suffix):
            found.append(f"{path.relative_to(root)}:{number}: {word} ({what})")
    print("\n".join([*wrong, *found, f"{len(files)} files read, {len(found)} faults; {len(TEXTS)} texts tried, {len(wrong)} judged wrongly"]))
    if wrong or found or not files:
        sys.exit(1)


main()
