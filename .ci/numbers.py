"""Holds docs/NUMBERS.md against include/ (names, words) and every name in it against its file.

numbers.py          fails where a number, a name or a word differs, or a file does not have what a row says
numbers.py --fill   writes the names and words of include/ into the table
"""
import pathlib
import re
import sys

ROOT = pathlib.Path(__file__).resolve().parent.parent
TABLE = ROOT / "docs/NUMBERS.md"
HEADER = ROOT / "include/tamsklor.h"
TEXTS = ROOT / "include/tamsklor_text.h"
COLUMNS = ["No.", "Name", "Words", "Place", "Code", "Test", "Fault", "Theorem", "Edit", "Planted"]


def read(path):
    return path.read_text(encoding="utf-8") if path.is_file() else ""


def folded(text):
    """A text with its runs of blanks as one."""
    return " ".join(text.split())


def header_numbers():
    """Number: (name, comment) of each constant above 0 in the header's enums of numbers."""
    found = {}
    for body in re.findall(r"\benum\s+\w*[Nn]umber\w*\s*\{(.*?)\}", read(HEADER), re.S):
        for comment, name, value in re.findall(r"(?:/\*((?:(?!\*/).)*)\*/\s*)?\b([A-Z]\w*)\s*=\s*(\d+)", body, re.S):
            if int(value) > 0:
                found[int(value)] = (name, folded(comment))
    return found


def header_texts(numbers):
    """Number: words of each constant that the header of texts names before a string."""
    found = {}
    for number, (name, _) in numbers.items():
        match = re.search(r"\b%s\b\s*[\]:,)]\s*=?\s*(?:return\s*)?\(?\s*((?:\"(?:[^\"\\]|\\.)*\"\s*)+)" % name, read(TEXTS))
        if match:
            found[number] = folded("".join(re.findall(r"\"((?:[^\"\\]|\\.)*)\"", match[1])))
    return found


def table_rows():
    """Number: the cells of its row by column."""
    lines = [line for line in read(TABLE).splitlines() if line.startswith("|")]
    rows = [[cell.strip() for cell in line.strip("|").split("|")] for line in lines]
    if not rows or rows[0] != COLUMNS:
        sys.exit(f"{TABLE}: the table's columns are not {COLUMNS}")
    return {int(row[0]): dict(zip(COLUMNS, row)) for row in rows[2:]}


def words_fit(row, comment, text):
    """The words are the text's where there is one; else the comment's, with or without the place."""
    if text:
        return row["Words"] == text
    return comment in (row["Words"], row["Words"] + "; " + row["Place"])


def ticked(cell):
    return re.findall(r"`([^`]+)`", cell)


def functions_missing(cell):
    for function in ticked(cell):
        crate, *_, name = function.split("::")
        sources = (ROOT / "crates" / crate / "src").glob("*.rt")
        if not any(re.search(r"\bfn %s\b" % name, read(path)) for path in sources):
            yield f"no function {function}"


def definitions_missing(cell):
    groups = re.findall(r"((?:`[^`]+`,? )+)\(`(\w+)/(\w+)`\)", cell)
    if len(ticked(cell)) != sum(len(ticked(names)) + 1 for names, _, _ in groups) or not groups:
        yield f"not of the form `name` (`crate/File`): {cell}"
    for names, crate, file in groups:
        places = [f"crates/{crate}/{below}/{file}.antt" for below in ("specs", "proofs")]
        text = "\n".join(re.sub(r"(^|\s)--.*", "", read(ROOT / place)) for place in places)
        for name in ticked(names):
            if not re.search(r"^\s*(?:(?:pattern|unfoldable|abbrev|pub|record|data) )*%s (?:\(.*\) )?:" % re.escape(name), text, re.M):
                yield f"neither {places[0]} nor {places[1]} defines {name}"


def edits_missing(cell):
    if cell != "none" and not ticked(cell):
        yield "no edit, and not `none`"
    for edit in ticked(cell):
        crate, _, name = edit.partition("/")
        places = [ROOT / "crates" / crate / "must-fail", ROOT / "tests/edits" / crate]
        if not any((place / (name + ".edit")).is_file() for place in places):
            yield f"no edit {edit}"


def planted_missing(number, words):
    if not any(f"FAULT({number}," in read(path) for path in (ROOT / "second").glob("second_*.c")):
        yield "no planted fault in second/"
    if f"| {number} | {words} |" not in read(ROOT / "second/README.md"):
        yield "second/README.md says the planted fault otherwise"


def row_faults(number, row, name, comment, text):
    if row["Name"] != f"`{name}`":
        yield f"is {name} in the header"
    if not words_fit(row, comment, text):
        yield f"the words in include/ are: {text or comment}"
    yield from functions_missing(row["Code"])
    for column in ("Test", "Fault", "Theorem"):
        yield from definitions_missing(row[column])
    yield from edits_missing(row["Edit"])
    yield from planted_missing(number, row["Planted"])


def faults(rows, numbers, texts):
    if not numbers:
        yield f"{HEADER}: no numbers found"
    for number in sorted(set(rows) | set(numbers)):
        if number not in rows:
            yield f"{number}: in the header, not in the table"
        elif number not in numbers:
            yield f"{number}: in the table, not in the header"
        else:
            for fault in row_faults(number, rows[number], *numbers[number], texts.get(number)):
                yield f"{number}: {fault}"
    if TEXTS.is_file():
        yield from (f"{number}: no text in {TEXTS.name}" for number in numbers if number not in texts)


def filled(line, numbers, texts):
    """A line of the page with its name and its words taken over."""
    cells = line.split("|")
    number = cells[1].strip() if len(cells) > 3 else ""
    if not number.isdigit() or int(number) not in numbers:
        return line
    name, comment = numbers[int(number)]
    cells[2] = f" `{name}` "
    cells[3] = f" {texts.get(int(number)) or comment.removesuffix('; ' + cells[4].strip())} "
    return "|".join(cells)


def main():
    numbers = header_numbers()
    texts = header_texts(numbers)
    if sys.argv[1:] == ["--fill"]:
        TABLE.write_text("".join(filled(line, numbers, texts) for line in read(TABLE).splitlines(True)), encoding="utf-8")
    rows = table_rows()
    found = list(faults(rows, numbers, texts))
    print("\n".join(found + [f"{len(rows)} numbers read, {len(found)} faults"]))
    if found:
        sys.exit(1)


main()
