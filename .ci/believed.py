"""What must be believed of the theorems: every definition that a statement reaches stands in a file of definitions only.

Markers, in the leading comment of a file below crates/*/specs or crates/*/proofs:
  "-- Statements .."   a line that begins so marks a statement file. Those of STATED are statement files in any case, and have to be there.
  "Definitions only."  marks a file of definitions only: `use` and `mod` lines, fixities, sections, records, data types, and definitions
                       marked `abbrev` or `unfoldable`, with no tactic in them.

From the type of each public statement every name is followed to its definition, and on through that definition's sections, type and
clauses, a record's fields, a data type's constructors. Proofs are not followed. The struct or enum behind `specs.declared` is believed
through the source that declares it, and has no ghost parts. The kit's libraries are not followed.

A name's module says where its file stands: `Rattle.X.specs.Y` is crates/X/specs/Y.antt, `Rattle.X.proofs.Y` crates/X/proofs/Y.antt.

Fails, one line each, where
- a reached definition stands in a file that is not one of definitions only; in the statement file itself only an `abbrev` may stand;
- a theorem, or a definition that is marked neither `abbrev` nor `unfoldable`, is reached;
- a file marked as definitions only holds anything else;
- a name of a statement or of a reached definition cannot be resolved;
- a statement file of STATED is missing;
- a public statement of Demands.antt is not proved by one citation of another file's proof.

    believed.py              check the tree
    believed.py --list       print the files of definitions that the statements reach, and what each is reached for
    believed.py --selftest   check the check: small trees that must pass, and that must fail
"""
import collections
import pathlib
import re
import sys
import tempfile

# the crates that state what is proved, and the file in which each does, below its specs/ or its proofs/; the first is always there
STATED = {"demands": "Demands", "demands_c": "DemandsC", "judge": "Theorems", "reader": "Theorems"}
BELOW = ("specs", "proofs")
STATEMENTS = "-- Statements"
DEFINITIONS = "Definitions only."

OPENS, CLOSES = {"(": ")", "{": "}", "[": "]"}, {")", "}", "]"}
MARKS = ("pattern", "unfoldable", "abbrev", "pub")
TACTICS = set("rw rw⁻¹ simp search grw cc omega grind hlevel assumption first_of cap ground".split())
# what no direct citation holds: proof steps, and terms put together on the spot
STEPS = TACTICS | {"let", "elim", "record", "where", "λ", "do", "unfold"}
RESERVED = set(
    "data record deriving module where use mod pub package open as pattern unfoldable abbrev axiom unfold unfolding ruleset mutual "
    "infix infixl infixr elim let in do λ ∀ Type 𝕀 𝔽 coe fcoe tcoe hcom com ∨ ∧ : = → × ↦ | ← _ ⊔ [ ] ( ) { } . ; , @".split()
)
# the kit's prelude, open in every file
PRELUDE = set(
    "IsProp IsSet ⊥ absurd ¬◌ ¬ Dec yes no Discrete ∥◌∥₁ ∣◌∣₁ squash₁ ∥ ∥₁ ∣ ∣₁ Unit tt Id J Path".split()
)
LIBRARIES = ("mathlib", "Prim", "lib", "native", "borrow", "denote", "mir")
# the crate of the kit whose words statements use
KIT = "Rattle.std."

Token = collections.namedtuple("Token", "text spaced line")
# a definition that is reached: where it stands (a file, or a crate's source) and its name
Place = collections.namedtuple("Place", "file name")
SOURCE = "source of "


def is_kit(module):
    """Is a module the kit's?"""
    return module.split(".", 1)[0] in LIBRARIES or (module + ".").startswith(KIT)


WORD = re.compile(r'"(?:[^"\\]|\\.)*"|«[^»]*»|[(){}.;,@]|[^\s(){}.;,@"«»]+')


def tokens(lines):
    """The words of numbered lines."""
    for number, line in lines:
        for match in WORD.finditer(line):
            spaced = match.start() == 0 or line[match.start() - 1].isspace()
            yield Token(match.group(), spaced, number)


def without_comments(text):
    """Numbered lines, their comments blank."""
    text = re.sub(r"\{-.*?-\}", lambda m: re.sub(r"[^\n]", " ", m.group()), text, flags=re.S)
    return [(n, re.sub(r"(^|(?<=\s))--(\s.*|-*)$", "", line).rstrip()) for n, line in enumerate(text.splitlines(), 1)]


def indentation(line):
    return len(line) - len(line.lstrip())


def chunks(lines):
    """The items of a block: each line at the block's own column begins one, deeper lines and closing brackets go on with it."""
    lines = [(n, line) for n, line in lines if line.strip()]
    column = indentation(lines[0][1]) if lines else 0
    chunk = []
    for n, line in lines:
        if chunk and indentation(line) <= column and line.lstrip()[0] not in ")}]":
            yield chunk
            chunk = []
        chunk.append((n, line))
    if chunk:
        yield chunk


def top(words, wanted):
    """The place of the first word of `wanted` that stands in no bracket, or None."""
    depth = 0
    for k, word in enumerate(words):
        if depth == 0 and word.text in wanted:
            return k
        if word.text in OPENS:
            depth += 1
        elif word.text in CLOSES:
            depth -= 1
    return None


class Item:
    """A declaration: its marks, its kind, its name, the sections around it, its type, its clauses; of a record or a data type its block."""

    def __init__(self, kind, name, marks, sections, line):
        self.kind, self.name, self.marks, self.sections, self.line = kind, name, marks, sections, line
        self.levels, self.type, self.clauses, self.members = [], [], [], []

    def is_definition(self):
        return self.kind in ("record", "data") or "abbrev" in self.marks or "unfoldable" in self.marks

    def what(self):
        if self.kind in ("record", "data"):
            return self.kind
        return next((m for m in self.marks if m != "pub"), "a theorem, or a definition with no mark")


class Clause:
    """A clause: its left side, its right side, and the helpers of its `where` block."""

    def __init__(self, left, right, helpers):
        self.left, self.right, self.helpers = left, right, helpers


class Broken(Exception):
    pass


def stated(crate):
    """The places where the statement file of a crate may stand."""
    return [f"crates/{crate}/{below}/{STATED[crate]}.antt" for below in BELOW]


def is_stated(name):
    return any(name in stated(crate) for crate in STATED)


class File:
    """A file of specs/ or proofs/: its imports, its items in order, and what else stands in it."""

    def __init__(self, root, name):
        self.root, self.name = root, name
        text = (root / name).read_text(encoding="utf-8")
        self.leading = []
        for line in text.splitlines():
            if not line.startswith("--"):
                break
            self.leading.append(line)
        self.imports, self.aliases, self.items, self.others = {}, {}, [], []
        self.block(without_comments(text), [], self.items)
        self.own = {}
        for item in self.items:
            self.own.setdefault(item.name, item)
        self.constructors = {}
        for item in self.items:
            if item.kind == "data":
                for member in item.members:
                    self.constructors.setdefault(member.name, item)
        # a part of an operator's name stands for it: `≡` for `◌≡◌`
        self.operators = {}
        for name in [*self.imports, *self.own, *self.constructors]:
            for part in name.split("◌"):
                if part and part != name:
                    self.operators.setdefault(part, name)

    def hidden(self):
        """The names of tactics that stand for something of the file's own: declared here, or brought in from elsewhere than `Prim`."""
        brought = {name for name, (module, _) in self.imports.items() if not (module + ".").startswith("Prim.")}
        return TACTICS.intersection([*self.own, *brought])

    def is_definitions(self):
        return any(DEFINITIONS in line for line in self.leading)

    def is_statements(self):
        return is_stated(self.name) or any(line.startswith(STATEMENTS) for line in self.leading)

    def block(self, lines, sections, items):
        """The items of a block, into `items`."""
        last = None
        for chunk in chunks(lines):
            words = list(tokens(chunk))
            marks = []
            while len(marks) < len(words) and words[len(marks)].text in MARKS:
                marks.append(words[len(marks)].text)
            rest = words[len(marks):]
            head = rest[0].text if rest else ""
            if head == "use":
                self.use(rest[1:])
            elif head == "mod" or head in ("infix", "infixl", "infixr"):
                pass
            elif head == "module":
                end = top(rest, {"where"})
                if end is None:
                    raise Broken(f"{self.name}:{rest[0].line}: a section without `where`")
                self.block([(n, line) for n, line in chunk if n > rest[end].line], sections + [rest[2:end]], items)
            elif head in ("record", "data"):
                last = self.declared(head, marks, rest, chunk, sections)
                items.append(last)
            elif head in ("ruleset", "axiom", "open", "mutual"):
                self.others.append((rest[0].line, head))
                last = None
            elif head == "unfolding":
                pass
            else:
                k = top(rest, {":", "="})
                if k is None:
                    raise Broken(f"{self.name}:{words[0].line}: neither a signature nor a clause")
                if rest[k].text == ":":
                    last = Item("plain", head.strip("«»"), marks, sections, rest[0].line)
                    last.levels, last.type = rest[1:k], rest[k + 1:]
                    items.append(last)
                else:
                    end = top(rest, {"where"})
                    helpers = []
                    if end is not None:
                        self.block([(n, line) for n, line in chunk if n > rest[end].line], [], helpers)
                    if last is None:
                        raise Broken(f"{self.name}:{rest[0].line}: a clause of nothing")
                    last.clauses.append(Clause(rest[:k], rest[k + 1:end], helpers))

    def declared(self, kind, marks, rest, chunk, sections):
        """A record or a data type: `type` is its parameters and its sort, `members` its fields or constructors."""
        item = Item(kind, rest[1].text.strip("«»"), marks, sections, rest[0].line)
        end = top(rest, {"where"})
        item.type = rest[2:end]
        if end is not None:
            for part in chunks([(n, line) for n, line in chunk if n > rest[end].line]):
                words = [w for w in tokens(part) if w.text != "pub"]
                k = top(words, {":"})
                if words[0].text == "deriving":
                    continue
                if k is None:
                    raise Broken(f"{self.name}:{words[0].line}: neither a field nor a constructor")
                for word in words[:k]:
                    member = Item("member", word.text.strip("«»"), [], [], word.line)
                    member.type = words[k + 1:]
                    item.members.append(member)
        return item

    def use(self, words):
        """A `use` line: `M.{a, b as c, N.d}`, `M as m`, `M`. Names that a glob `M.*` brings are not resolved."""
        brace = next((k for k, w in enumerate(words) if w.text == "{"), None)
        if brace is None:
            named = next((k for k, w in enumerate(words) if w.text == "as"), None)
            path = "".join(w.text for w in words[:named])
            self.aliases[words[-1].text if named is not None else path.rsplit(".", 1)[-1]] = path
            return
        path = "".join(w.text for w in words[:brace - 1])
        entry = []
        for word in words[brace + 1:]:
            if word.text not in (",", "}"):
                entry.append(word.text)
                continue
            if entry:
                local = entry[-1]
                full = entry[:entry.index("as")] if "as" in entry else entry
                below = "".join(full[:-1]).strip(".")
                self.imports[local.strip("«»")] = (f"{path}.{below}" if below else path, full[-1].strip("«»"))
            entry = []


class Tree:
    """The files of specs/ and proofs/ of a tree, read when they are needed."""

    def __init__(self, root):
        self.root, self.files = root, {}

    def names(self):
        paths = (p for below in BELOW for p in self.root.glob(f"crates/*/{below}/**/*.antt"))
        return sorted(str(p.relative_to(self.root)) for p in paths)

    def file(self, name):
        if name not in self.files:
            self.files[name] = File(self.root, name)
        return self.files[name]

    def place(self, module, name):
        """Where the name of a module is defined; None for the kit's."""
        module = module.removeprefix("package.")
        if is_kit(module):
            return None
        match = re.fullmatch(r"Rattle\.([^.]+)\.(specs|proofs)\.(.+)", module)
        if not match or not (self.root / "crates" / match[1]).is_dir():
            raise Broken(f"the module {module} of {name} is not known")
        crate, below, path = match.groups()
        if below == "specs" and path.startswith("declared."):
            return self.declared(crate, path.split(".")[1:], name)
        stem = f"crates/{crate}/{below}/{path.replace('.', '/')}"
        file = next((f for f in (f"{stem}.antt", f"{stem}/Lib.antt") if (self.root / f).is_file()), None)
        if not file:
            raise Broken(f"{stem}.antt, named for {name}, is missing")
        found = self.file(file)
        if name in found.own:
            return Place(file, name)
        if name in found.constructors:
            return Place(file, found.constructors[name].name)
        if name in found.imports:
            return self.place(*found.imports[name])
        raise Broken(f"{file} does not declare {name}")

    def declared(self, crate, path, name):
        """The struct, enum or constant of a crate's source that stands behind a name below `specs.declared`."""
        name = name if path[-1] == "TheConstants" else [part for part in path if part != "TheVariants"][-1]
        for source in sorted((self.root / "crates" / crate / "src").glob("**/*.rt")):
            text = re.sub(r"//[^\n]*", "", source.read_text(encoding="utf-8"))
            match = re.search(r"\b(?:struct|enum|const|static) %s\b[^;{]*(?:;|\{[^}]*\})" % re.escape(name), text)
            if match and re.search(r"\bghost\b", match[0]):
                raise Broken(f"{name} of {source.relative_to(self.root)} has ghost parts")
            if match:
                return Place(SOURCE + crate, name)
        raise Broken(f"no source of {crate} declares {name}")

    def resolve(self, file, word):
        """Where a name that stands in a file is defined; None for the kit's."""
        for name in (word, file.operators.get(word), file.operators.get(word.strip("◌"))):
            if name in file.own:
                return Place(file.name, name)
            if name in file.constructors:
                return Place(file.name, file.constructors[name].name)
            if name in file.imports:
                return self.place(*file.imports[name])
        if word in TACTICS or word in PRELUDE or word.strip("◌") in PRELUDE:
            return None
        raise Broken(f"the name {word} cannot be resolved")

    def is_constructor(self, file, word):
        """Is the word of a pattern a constructor, and no variable?"""
        if word in file.constructors or word in file.operators:
            return True
        if word not in file.imports:
            return word in ("yes", "no", "tt")
        module, name = file.imports[word]
        if is_kit(module) or ".TheVariants" in module:
            return True
        place = self.place(module, name)
        return name in self.file(place.file).constructors if place and not place.file.startswith(SOURCE) else False

    # ---- the names of a text, less those that it binds

    def pattern(self, file, words):
        """The variables that a pattern binds, and its words that name constructors."""
        bound, named, k = set(), [], 0
        while k < len(words):
            text = words[k].text
            tight = k + 2 < len(words) and words[k + 1].text == "." and not words[k + 1].spaced and not words[k + 2].spaced
            if tight and text in file.aliases:
                named += words[k:k + 3]
                k += 3
                continue
            if text in RESERVED or text[0].isdigit() or text[0] == '"':
                pass
            elif self.is_constructor(file, text):
                named.append(words[k])
            elif k + 1 < len(words) and words[k + 1].text == "=" and words[k - 1].text in ("{", ";"):
                pass
            else:
                bound.add(text)
            k += 1
        return bound, named

    def free(self, file, words, bound):
        """The places that a text names. `bound` are the variables around it."""
        frames = [[set(bound), [], None]]  # of each bracket: its variables, its lets that wait for `in`, and what it binds behind itself
        out, k = [], 0

        def name(word):
            if not any(word in frame[0] for frame in frames):
                place = self.resolve(file, word)
                if place:
                    out.append(place)

        def binders(j):
            """The names of a group `x y :` that begins at j, where it is one."""
            names = []
            while j < len(words) and words[j].text not in RESERVED and not words[j].text[0].isdigit():
                names.append(words[j].text)
                j += 1
            return (names, j) if names and j < len(words) and words[j].text == ":" else (None, None)

        def case(j):
            """The pattern of a case that begins at j: bound in the innermost bracket. The place behind its `↦`."""
            depth, end = 0, j
            while end < len(words) and not (depth == 0 and words[end].text in ("↦", "|", "]")):
                depth += (words[end].text in OPENS) - (words[end].text in CLOSES)
                end += 1
            if end < len(words) and words[end].text == "↦":
                variables, named = self.pattern(file, words[j:end])
                out.extend(self.free(file, named, bound))
                frames[-1][0] = variables
                return end + 1
            return j

        while k < len(words):
            word = words[k]
            text = word.text
            if text in OPENS:
                names, j = binders(k + 1) if text != "[" else (None, None)
                frames.append([set(), [], names])
                k = j + 1 if names else k + 1
                if text == "[" and k < len(words) and words[k].text != "|":
                    k = case(k)
                elif text == "{" and k + 1 < len(words) and words[k + 1].text == "=":
                    k += 1
            elif text in CLOSES:
                names = frames.pop()[2]
                if names and not (text == "}" and k and self.is_record(words, k)):
                    frames[-1][0] |= set(names)
                k += 1
            elif text in (",", ";"):
                frames[-1][0] = set() if len(frames) > 1 else frames[-1][0]
                k += 1
                if text == ";":
                    if frames[-1][2]:
                        # a record type: its earlier fields are known in the later ones
                        frames[-1][0] |= set(frames[-1][2])
                    names, j = binders(k)
                    if names:
                        frames[-1][2] = (frames[-1][2] or []) + names
                        k = j + 1
                    elif k + 1 < len(words) and words[k + 1].text == "=":
                        k += 1
            elif text == "|":
                k = case(k + 1)
            elif text == "λ":
                end = k + 1 + (top(words[k + 1:], {"."}) or 0)
                j = k + 1
                while j < end:
                    names, after = binders(j + 1) if words[j].text in OPENS else (None, None)
                    if names:
                        depth, stop = 1, after
                        while depth:
                            stop += 1
                            depth += (words[stop].text in OPENS) - (words[stop].text in CLOSES)
                        inner = set().union(*(frame[0] for frame in frames))
                        out.extend(self.free(file, words[after + 1:stop], inner))
                        frames[-1][0] |= set(names)
                        j = stop + 1
                    else:
                        frames[-1][0] |= self.pattern(file, words[j:j + 1])[0]
                        j += 1
                k = end + 1
            elif text == "let":
                end = k + 1 + (top(words[k + 1:], {":", "="}) or 0)
                frames[-1][1].append(self.pattern(file, words[k + 1:end])[0])
                k = end + 1
            elif text == "in":
                if frames[-1][1]:
                    frames[-1][0] |= frames[-1][1].pop()
                k += 1
            elif text == ".":
                # a field: ` .f`, or `.f` behind a name or a bracket
                k += 2
            elif text in RESERVED or text[0].isdigit() or text[0] == '"':
                k += 1
            else:
                plain = text.strip("«»")
                path, j = [plain], k
                while j + 2 < len(words) and words[j + 1].text == "." and not words[j + 1].spaced and not words[j + 2].spaced:
                    path.append(words[j + 2].text.strip("«»"))
                    j += 2
                bare = not any(plain in frame[0] for frame in frames)
                if bare and len(path) > 1 and plain in file.aliases:
                    place = self.place(".".join([file.aliases[plain], *path[1:-1]]), path[-1])
                    out += [place] if place else []
                    k = j + 1
                elif bare and len(path) > 2 and plain in ("Rattle", "package"):
                    place = self.place(".".join(path[:-1]), path[-1])
                    out += [place] if place else []
                    k = j + 1
                elif bare and len(path) > 1 and plain in LIBRARIES:
                    k = j + 1
                else:
                    name(plain)
                    k += 1
        return out

    @staticmethod
    def is_record(words, close):
        """Does the brace that closes at `close` belong to a record type or literal?"""
        depth = 0
        for k in range(close, -1, -1):
            depth += (words[k].text in CLOSES) - (words[k].text in OPENS)
            if depth == 0:
                return k > 0 and words[k - 1].text == "record"
        return False

    def around(self, file, item, bound):
        """The places that the sections of an item name, and the variables that they bind."""
        out, bound = [], set(bound)
        for section in item.sections:
            out += self.free(file, section, bound)
            bound |= self.bound_by(section)
        return out, bound

    @staticmethod
    def bound_by(words):
        """The names of the binder groups that stand in no other bracket."""
        names, depth = set(), 0
        for k, word in enumerate(words):
            if word.text in OPENS:
                depth += 1
                j = k + 1
                while depth == 1 and j < len(words) and words[j].text not in RESERVED:
                    j += 1
                if depth == 1 and j < len(words) and words[j].text == ":":
                    names |= {w.text for w in words[k + 1:j]}
            elif word.text in CLOSES:
                depth -= 1
        return names

    def of_type(self, file, item, bound=()):
        """The places that the type of an item names, its sections included."""
        out, bound = self.around(file, item, bound)
        bound |= {w.text for w in item.levels if w.text not in RESERVED}
        return out + self.free(file, item.type, bound)

    def of_definition(self, file, item, bound=()):
        """The places that a definition names: in its sections, its type, its clauses, its fields or constructors."""
        out = self.of_type(file, item, bound)
        _, bound = self.around(file, item, bound)
        if item.kind in ("record", "data"):
            bound |= self.bound_by(item.type)
            for member in item.members:
                out += self.free(file, member.type, bound)
                if item.kind == "record":
                    bound.add(member.name)
        for clause in item.clauses:
            variables, named = self.pattern(file, [w for w in clause.left if w.text != item.name])
            within = bound | variables | {helper.name for helper in clause.helpers}
            out += self.free(file, named, bound) + self.free(file, clause.right, within)
            for helper in clause.helpers:
                out += self.of_definition(file, helper, within)
        return out


class Check:
    """The check of a tree: its faults, and what its statements reach."""

    def __init__(self, root):
        self.tree = Tree(root)
        self.faults, self.statements, self.reached, self.shorthands, self.sources = [], 0, {}, [], set()
        names = self.tree.names()
        for crate in STATED:
            wanted = crate == next(iter(STATED)) or (root / "crates" / crate).is_dir()
            if wanted and not any(name in names for name in stated(crate)):
                self.faults.append(f"{STATED[crate]}.antt of {crate} is missing")
        for name in names:
            leading = (root / name).read_text(encoding="utf-8")
            if is_stated(name) or STATEMENTS in leading or DEFINITIONS in leading:
                try:
                    file = self.tree.file(name)
                    if file.is_definitions():
                        self.definitions_only(file)
                    if file.is_statements():
                        self.follow(file)
                    if file.name in stated("demands"):
                        self.cites(file)
                except Broken as fault:
                    self.faults.append(f"{name}: {fault}")

    def definitions_only(self, file):
        """Nothing but definitions stands in a file that says so."""
        for line, word in file.others:
            self.faults.append(f"{file.name}:{line}: `{word}` in a file of definitions only")
        for item in file.items:
            if not item.is_definition():
                self.faults.append(f"{file.name}:{item.line}: {item.name} is {item.what()}, in a file of definitions only")
            for word in sorted(TACTICS.intersection(self.words(item)).difference(file.hidden())):
                self.faults.append(f"{file.name}:{item.line}: {item.name} is made with `{word}`, in a file of definitions only")

    def words(self, item):
        """The words of an item's type, members and right sides, and of its helpers'."""
        for part in (item, *item.members):
            yield from (word.text for word in part.type)
        for clause in item.clauses:
            yield from (word.text for word in clause.right)
            for helper in clause.helpers:
                yield from self.words(helper)

    def follow(self, file):
        """From the types of a file's public statements to every definition that they reach, the nearest first."""
        chain, queue = {}, collections.deque()

        def reach(places, behind):
            for place in places:
                if place not in chain:
                    chain[place] = behind + [place.name]
                    queue.append(place)

        for item in file.items:
            if item.kind == "plain" and "pub" in item.marks and not item.is_definition():
                self.statements += 1
                try:
                    reach(self.tree.of_type(file, item), [item.name])
                except Broken as fault:
                    self.faults.append(f"{file.name}: {item.name}: {fault}")
        while queue:
            place = queue.popleft()
            if place.file.startswith(SOURCE):
                self.sources.add((place.file[len(SOURCE):], place.name))
                continue
            there = self.tree.file(place.file)
            item = there.own[place.name]
            self.reached.setdefault(place, chain[place])
            way = " > ".join(chain[place])
            if not item.is_definition():
                self.faults.append(f"{file.name}: {way}: {place.name} is {item.what()}: {place.file}")
            elif place.file == file.name:
                if "abbrev" not in item.marks:
                    self.faults.append(f"{file.name}: {way}: {place.name} ({item.what()}) stands among the statements: {place.file}")
                self.shorthands.append(f"{file.name}: {place.name}")
            elif not there.is_definitions():
                self.faults.append(f"{file.name}: {way}: {place.name} ({item.what()}) stands in no file of definitions only: {place.file}")
            try:
                # the proof of a theorem is not followed
                reach((self.tree.of_definition if item.is_definition() else self.tree.of_type)(there, item), chain[place])
            except Broken as fault:
                self.faults.append(f"{file.name}: {way}: {place.file}: {fault}")

    def cites(self, file):
        """Every public statement is proved by one citation: another file's proof, applied, or a part of what that proves."""
        for item in file.items:
            if item.kind != "plain" or "pub" not in item.marks or item.is_definition():
                continue
            texts = [w.text for clause in item.clauses for w in clause.left[1:] + clause.right]
            steps = sorted(STEPS.intersection(texts))
            proof = self.whole(item.clauses[0].right) if len(item.clauses) == 1 else []
            head = proof[:3]
            why = None
            if len(item.clauses) != 1 or item.clauses[0].helpers:
                why = "it has cases or helpers"
            elif steps:
                why = "it holds " + ", ".join(f"`{s}`" for s in steps)
            elif not head or head[0].text in RESERVED or top(proof, {",", ";"}) is not None:
                why = "it does not begin with the name of a proof, or is put together"
            elif not (len(head) == 3 and head[1].text == "." and head[0].text in file.aliases) and head[0].text not in file.imports:
                why = f"{head[0].text} is no proof of another file"
            if why:
                self.faults.append(f"{file.name}:{item.line}: {item.name} is not proved by one citation: {why}")

    @staticmethod
    def whole(words):
        """What `(..).f` is a part of: the words in its brackets; else the words themselves."""
        if words and words[0].text == "(":
            close = 1 + (top(words[1:] + [Token(")", False, 0)], {")"}) or 0)
            fields = [w.text for w in words[close + 1:]]
            if fields and set(fields[::2]) == {"."} and len(fields) % 2 == 0:
                return words[1:close]
        return words

    def files(self):
        """The files in which what is reached stands, with the names."""
        held = collections.defaultdict(list)
        for place in self.reached:
            held[place.file].append(place.name)
        return held


def report(check, listed):
    held = check.files()
    if listed:
        for file in sorted(held):
            print(f"{file}: {', '.join(sorted(held[file]))}")
        for crate in sorted({crate for crate, _ in check.sources}):
            print(f"crates/{crate}/src: {', '.join(sorted(name for c, name in check.sources if c == crate))}")
        return
    for fault in check.faults:
        print(fault)
    for shorthand in check.shorthands:
        print(f"a name for an expression, among the statements: {shorthand}")
    print("what must be believed:")
    for file in sorted(held):
        print(f"  {file} ({len(held[file])})")
    print(f"  and of the sources: {', '.join(sorted(f'{name} ({crate})' for crate, name in check.sources))}")
    print(f"{check.statements} statements, {len(check.reached)} definitions reached in {len(held)} files, {len(check.faults)} faults")


# ---- small trees, each with the words of the fault that it must give, or with None

DEMANDS, DEFS, MORE, LAWS = (f"crates/{f}.antt" for f in ("demands/specs/Demands", "a/specs/Defs", "a/specs/More", "a/proofs/Laws"))
PLAN = "crates/a/src/lib.rt"
GOOD = {
    DEMANDS: """-- Statements; each cites its proof.
use Rattle.std.specs.Prelude.{◌≡◌, ℕ, ◌<◌}
use Rattle.a.specs.Defs.{Small, Way, twice}
use Rattle.a.proofs.Laws as laws
use Rattle.a.specs.declared.Plan.{Plan}

module _ (pl : Plan) where
  abbrev pub four : ℕ
  four = twice 2

  pub small : (n : ℕ) → Small n → Way n four → twice n < four
  small = laws.small pl

  pub part : (n : ℕ) → n ≡ pl.nodes
  part n = (laws.parts pl (laws.small pl n)).0.1
""",
    DEFS: """-- Numbers. Definitions only.
use Rattle.std.specs.Prelude.{ℕ, zero, suc, ◌+◌, ◌<◌}
use Rattle.a.specs.More.{bound, helped}

-- below the bound
pub record Small (n : ℕ) : Type 0 where
  pub twice_lt : n < bound

pub data Way : ℕ → ℕ → Type 0 where
  done : {n : ℕ} → Way n n
  then : {n m : ℕ} → Way (suc n) m → Way n m

module _ (a b : ℕ) where
  unfoldable pub twice : ℕ → ℕ
  twice zero = zero
  twice (suc n) = let law = n + n in suc (suc (helped law))
""",
    MORE: """-- Definitions only.
use Rattle.std.specs.Prelude.{ℕ}

abbrev pub bound : ℕ
bound = 2

unfoldable helped : ℕ → ℕ
helped n = go n
  where
    go : ℕ → ℕ
    go m = m
""",
    LAWS: """-- Proofs.
use Rattle.std.specs.Prelude.{◌≡◌, ℕ, ◌<◌}
use Rattle.a.specs.Defs.{Small, Way, twice}
use Rattle.a.specs.declared.Plan.{Plan}

pub law : ℕ
law = 3

pub small : (pl : Plan) (n : ℕ) → Small n → twice n < 4
small pl n s = omega s
""",
    PLAN: """// a plan
pub struct Plan {
    pub nodes: u16,
}
""",
}

TREES = [
    ("nothing wrong", None, []),
    ("a variable spelled like a lemma", None, [(DEFS, "-- below", "use Rattle.a.proofs.Laws.{law}\n\n-- below")]),
    ("the lemma where the variable is not known", "small > twice > law: law is a theorem",
     [(DEFS, "-- below", "use Rattle.a.proofs.Laws.{law}\n\n-- below"), (DEFS, "let law = n + n in", "let law = law + n in")]),
    ("a lemma by its whole path", "small > Small > law: law is a theorem", [(DEFS, "n < bound", "n < Rattle.a.proofs.Laws.law")]),
    ("a reached definition beside a lemma", "helped (unfoldable) stands in no file of definitions only",
     [(MORE, "-- Definitions only.", "-- Definitions."), (MORE, "abbrev pub bound", "pub lemma : ℕ\nlemma = 1\n\nabbrev pub bound")]),
    ("a missing marker", "small > Small > bound: bound (abbrev) stands in no file of definitions only", [(MORE, "-- Definitions only.\n", "")]),
    ("a marker below the leading comment", "stands in no file of definitions only", [(DEFS, "-- Numbers. Definitions only.\n", ""), (DEFS, "-- below", "-- Definitions only. below")]),
    ("a definition among proofs", "small > Small > near: near (unfoldable) stands in no file of definitions only: crates/a/proofs/Laws.antt",
     [(LAWS, "pub law", "unfoldable pub near : ℕ\nnear = 2\n\npub law"), (DEFS, "-- below", "use Rattle.a.proofs.Laws.{near}\n\n-- below"), (DEFS, "n < bound", "n < near")]),
    ("a file of definitions only below proofs", None,
     [(LAWS, "-- Proofs.", "-- Definitions only."), (LAWS, "pub law", "abbrev pub law"), (LAWS, "pub small", "abbrev pub small"), (LAWS, "= omega s", "= s"),
      (DEFS, "-- below", "use Rattle.a.proofs.Laws.{law}\n\n-- below"), (DEFS, "n < bound", "n < law")]),
    ("a lemma in a file of definitions only", "lemma is a theorem, or a definition with no mark, in a file of definitions only",
     [(MORE, "abbrev pub bound", "pub lemma : ℕ\nlemma = 1\n\nabbrev pub bound")]),
    ("a lemma in a section of such a file", "lemma is a theorem", [(DEFS, "  unfoldable pub twice", "  lemma : ℕ\n  lemma = 1\n\n  unfoldable pub twice")]),
    ("a lemma marked as a definition", "bound is made with `omega`", [(MORE, "bound = 2", "bound = omega arith")]),
    ("another tactic", "bound is made with `grind`", [(MORE, "bound = 2", "bound = grind")]),
    ("a definition spelled like a tactic", None, [(MORE, "bound = 2", "bound = first_of 2"), (MORE, "unfoldable helped", "abbrev pub first_of : ℕ → ℕ\nfirst_of n = n\n\nunfoldable helped")]),
    ("a tactic by its path", "bound is made with `grind`", [(MORE, "bound = 2", "bound = Prim.grind")]),
    ("a tactic brought in", "bound is made with `grind`", [(MORE, "bound = 2", "bound = grind"), (MORE, "{ℕ}\n", "{ℕ}\nuse Prim.{grind}\n")]),
    ("a tactic in a helper", "helped is made with `search`", [(MORE, "go m = m", "go m = search")]),
    ("a tactic in a field", "Small is made with `search`", [(DEFS, "n < bound", "n < search bound")]),
    ("a set of rules in such a file", "`ruleset` in a file of definitions only", [(MORE, "abbrev pub bound", "pub ruleset all = (bound)\n\nabbrev pub bound")]),
    ("an axiom in such a file", "`axiom` in a file of definitions only", [(MORE, "abbrev pub bound", "axiom pub all : ℕ\n\nabbrev pub bound")]),
    ("a theorem in a statement", "law is a theorem", [(DEMANDS, "twice n < four", "twice n < laws.law")]),
    ("a theorem behind a definition", "small > Small > bound > law: law is a theorem",
     [(MORE, "bound = 2", "bound = law"), (MORE, "{ℕ}\n", "{ℕ}\nuse Rattle.a.proofs.Laws.{law}\n")]),
    ("a theorem among specs", "small > Small > bound > law: law is a theorem",
     [(MORE, "bound = 2", "bound = law"), (MORE, "{ℕ}\n", "{ℕ}\nuse Rattle.a.specs.Laws.{law}\n"), ("crates/a/specs/Laws.antt", "", "pub law : ℕ\nlaw = 3\n")]),
    ("a record among the statements", "Own (record) stands among the statements",
     [(DEMANDS, "module _", "pub record Own : Type 0 where\n  pub n : ℕ\n\nmodule _"), (DEMANDS, "→ Small n", "→ Own → Small n")]),
    ("a name that is not known", "the name unknown cannot be resolved", [(DEMANDS, "→ Small n", "→ unknown n → Small n")]),
    ("a name of every kind at once", "the name Small cannot be resolved", [(DEMANDS, "Rattle.a.specs.Defs.{Small, Way, twice}", "Rattle.a.specs.Defs.*")]),
    ("a file that is not there", "crates/a/specs/Gone.antt, named for twice, is missing", [(DEMANDS, "{Small, Way, twice}", "{Small, Way}\nuse Rattle.a.specs.Gone.{twice}")]),
    ("a crate that is not there", "the module Rattle.b.specs.Defs of twice is not known", [(DEMANDS, "{Small, Way, twice}", "{Small, Way}\nuse Rattle.b.specs.Defs.{twice}")]),
    ("a module as it was once written", "the module Rattle·a.specs.Defs of twice is not known", [(DEMANDS, "{Small, Way, twice}", "{Small, Way}\nuse Rattle·a.specs.Defs.{twice}")]),
    ("what a function's proof makes", "crates/a/proofs/f/Goals.antt, named for twice, is missing", [(DEMANDS, "{Small, Way, twice}", "{Small, Way}\nuse Rattle.a.proofs.f.Goals.{twice}")]),
    ("a struct that is not there", "no source of a declares Plan", [(PLAN, "Plan {", "Another {")]),
    ("a struct with ghost parts", "Plan of crates/a/src/lib.rt has ghost parts", [(PLAN, "    pub nodes", "    ghost law: { law }\n    pub nodes")]),
    ("another statement file", "crates/a/proofs/Laws.antt: small > law: law is a theorem",
     [(LAWS, "-- Proofs.", "-- Statements of proofs."), (LAWS, "twice n < 4", "twice n < law")]),
    ("a statement file of another crate", "crates/judge/specs/Theorems.antt: sound > lemma: lemma is a theorem",
     [("crates/judge/specs/Theorems.antt", "", "lemma : Type 0\nlemma = Unit {0}\n\npub sound : lemma\nsound = tt\n")]),
    ("the same below proofs", "crates/judge/proofs/Theorems.antt: sound > lemma: lemma is a theorem",
     [("crates/judge/proofs/Theorems.antt", "", "lemma : Type 0\nlemma = Unit {0}\n\npub sound : lemma\nsound = tt\n")]),
    ("a statement file that is gone", "Theorems.antt of judge is missing", [("crates/judge/specs/Lib.antt", "", "-- nothing\n")]),
    ("two statement files", "crates/judge/proofs/Theorems.antt: sound > lemma: lemma is a theorem",
     [("crates/judge/specs/Theorems.antt", "", "pub sound : Unit {0}\nsound = tt\n"),
      ("crates/judge/proofs/Theorems.antt", "", "lemma : Type 0\nlemma = Unit {0}\n\npub sound : lemma\nsound = tt\n")]),
    ("a proof of several steps", "small is not proved by one citation: it holds `let`", [(DEMANDS, "small = laws.small pl", "small = let p = pl in laws.small p")]),
    ("a proof by a tactic", "small is not proved by one citation: it holds `grind`", [(DEMANDS, "small = laws.small pl", "small = grind laws.small")]),
    ("a proof put together", "small is not proved by one citation: it does not begin with the name of a proof", [(DEMANDS, "small = laws.small pl", "small = (laws.small pl, pl)")]),
    ("a part of a proof put together", "part is not proved by one citation: it does not begin with the name of a proof",
     [(DEMANDS, "(laws.parts pl (laws.small pl n)).0.1", "(laws.parts pl, laws.small pl n).0")]),
    ("a part, applied", "part is not proved by one citation: it does not begin with the name of a proof",
     [(DEMANDS, "(laws.parts pl (laws.small pl n)).0.1", "(laws.parts pl).0 n")]),
    ("a lemma among the statements", "lemma is no proof of another file",
     [(DEMANDS, "  pub small", "  lemma : ℕ\n  lemma = laws.law\n\n  pub small"), (DEMANDS, "small = laws.small pl", "small = lemma")]),
    ("a definition passed on by a file of proofs", None,
     [(DEFS, "specs.More.{bound, helped}", "specs.More.{helped}\nuse Rattle.a.proofs.Laws.{bound}"),
      (LAWS, "use Rattle.std", "unfoldable pub use Rattle.a.specs.More.{bound}\nuse Rattle.std")]),
    ("a lemma passed on by a file of definitions only", "law is a theorem",
     [(MORE, "use Rattle.std", "pub use Rattle.a.proofs.Laws.{law}\nuse Rattle.std"),
      (DEFS, "specs.More.{bound, helped}", "specs.More.{bound, helped, law}"), (DEFS, "n < bound", "n < law")]),
    ("no statements", "Demands.antt of demands is missing", [(DEMANDS, None, None)]),
    ("the demands below proofs", None, [(DEMANDS, None, None), ("crates/demands/proofs/Demands.antt", "", GOOD[DEMANDS])]),
    ("the demands below proofs, with a proof of several steps", "part is not proved by one citation: it holds `search`",
     [(DEMANDS, None, None), ("crates/demands/proofs/Demands.antt", "", GOOD[DEMANDS].replace("(laws.parts", "search (laws.parts"))]),
]


def selftest():
    wrong = 0
    for title, wanted, edits in TREES:
        files = dict(GOOD)
        for name, old, new in edits:
            if old is None:
                del files[name]
            elif old == "":
                files[name] = new
            else:
                if files[name].count(old) < 1:
                    sys.exit(f"self-test: {title}: {old!r} is not in {name}")
                files[name] = files[name].replace(old, new, 1)
        with tempfile.TemporaryDirectory() as room:
            for name, text in files.items():
                path = pathlib.Path(room, name)
                path.parent.mkdir(parents=True, exist_ok=True)
                path.write_text(text, encoding="utf-8")
            faults = Check(pathlib.Path(room)).faults
        if (wanted is None and faults) or (wanted is not None and not any(wanted in fault for fault in faults)):
            wrong += 1
            print(f"self-test: {title}: wanted {wanted!r}, and the check said {faults}")
    print(f"self-test: {len(TREES)} trees, {wrong} judged wrongly")
    sys.exit(1 if wrong else 0)


def main():
    if "--selftest" in sys.argv[1:]:
        selftest()
    check = Check(pathlib.Path(__file__).resolve().parent.parent)
    report(check, "--list" in sys.argv[1:])
    if check.faults or not check.statements:
        sys.exit(1)


main()
