"""Contracts of crates/*/src/*.rt, as tools/believe reads them: types, traits, ghost items, functions with their clauses."""

import re

from sources.expressions import CLOSE, OPEN, binder_at, words_of
from sources.specs import Fault, add_use

ITEM = re.compile(r'(?:pub(?:\([a-z]+\))? )?(?:const |unsafe |extern "C" )*(struct|enum|type|trait|impl|fn|lemma|law)\b')
CONSTANT = re.compile(r"(?:pub(?:\([a-z]+\))? )?(?:const|static) (\w+):")
MEMBER = re.compile(r"    (?:pub(?:\([a-z]+\))? )?(?:const |unsafe )*(fn|ghost) (\w+)")
CLAUSE = re.compile(r"^\s*(requires|ensures)\s*(\w*)\s*\{", re.M)
LITERAL = re.compile(r"""\"(?:\\.|[^"\\])*\"|'(?:\\.|[^'\\])'""")
# Types and traits of the language and of what it always brings in.
PRELUDE = set("Box Clone Copy Debug Drop Err Fn FnMut FnOnce HostRuntime Iterator None Ok Option Result Self Send Some String Sync Vec".split())


class Item:
    """A type, a trait, an impl, a function or a ghost item: its lines, and what its header says."""

    def __init__(self, source, kind, name, first, last, inside=None):
        self.source, self.kind, self.name, self.inside = source, kind, name, inside
        self.path, self.line = source.path, first + 1
        self.lines = [(number + 1, source.lines[number]) for number in range(first, last)]
        self.about = comment_above(source.lines, first)
        self.members = []

    def text(self):
        return "\n".join(without_comment(text) for _, text in self.lines)

    def size(self):
        return len([text for _, text in self.lines if without_comment(text).strip()])

    def clauses(self):
        """(requires or ensures, name, words, lines) of each clause of a function."""
        text, found = self.header(), []
        for clause in CLAUSE.finditer(text):
            begin = clause.end() - 1
            end = closing_brace(text, begin)
            line = self.line + text.count("\n", 0, clause.start(1))
            lines = [(line + at, part) for at, part in enumerate(text[begin + 1 : end].split("\n"))]
            found.append((clause[1], clause[2], words_of(lines), len(lines)))
        return found

    def header(self):
        """What stands before the body of a function."""
        text = self.text()
        body = re.search(r"^ *\{", text, re.M)
        return text[: body.start()] if body else text

    def is_law(self):
        """Whether a ghost item of a trait says something of every value: "{ (x : Self) → .. }"."""
        return self.kind == "ghost" and bool(binder_at(self.value(), 0))

    def value(self):
        """The words of a ghost item after its name."""
        text = self.text()
        begin = text.index("{")
        line = self.line + text.count("\n", 0, begin)
        return words_of([(line + at, part) for at, part in enumerate(text[begin + 1 : closing_brace(text, begin)].split("\n"))])


def without_comment(text):
    if text.lstrip().startswith("//"):
        return ""
    return re.sub(r"(?<!:)//.*$", "", text) if '"' not in text else text


def closing_brace(text, begin):
    depth = 0
    for at in range(begin, len(text)):
        depth += (text[at] == "{") - (text[at] == "}")
        if depth == 0:
            return at
    return len(text)


def comment_above(lines, at):
    """The first paragraph of the comment right above a line, as one text."""
    texts = []
    while at > 0 and re.match(r"\s*(//|#\[)", lines[at - 1]):
        at -= 1
        if "//" in lines[at]:
            texts.insert(0, re.sub(r"^\s*//[/!]? ?", "", lines[at]))
    return " ".join(texts[: texts.index("")] if "" in texts else texts)


class Source:
    """A file of a crate's src: what it uses, and its items."""

    def __init__(self, top, crate, file):
        self.crate, self.path = crate, str(file.relative_to(top))
        self.lines = file.read_text().split("\n")
        # The lines without comments, texts and letters.
        self.bare = [without_comment(LITERAL.sub("0", line)).rstrip() for line in self.lines]
        self.names, self.aliases, self.operators = {}, {}, {}
        # name: the path that a use line of the language gives it
        self.rust, self.types, self.traits, self.impls, self.functions = {}, {}, {}, [], []
        text = "\n".join(without_comment(line) for line in self.lines)
        for crate_, module, names in re.findall(r"^\s*ghost use (?:Rattle\.)?(\w+)\.([\w.]+?)\.\{([^}]*)\};", text, re.M):
            add_use(self, crate_, module, names.replace("\n", " "), True)
        for crate_, module, name in re.findall(r"^\s*ghost use Rattle\.(\w+)\.([\w.]+) as (\w+);", text, re.M):
            self.add_alias(crate_, module, name)
        for path in re.findall(r"^(?:pub(?:\([a-z]+\))? )?use ([^;]+);", text, re.M):
            self.rust.update(flattened(re.sub(r"\s+", " ", path), crate))
        self.read_items()

    def add_alias(self, crate, module, name):
        if self.aliases.get(name, (crate, module)) != (crate, module):
            raise Fault(f"{self.path}: {name} names two modules")
        self.aliases[name] = (crate, module)

    def read_items(self):
        for number, text in enumerate(self.lines):
            found = ITEM.match(text)
            if found:
                self.read_item(found[1], number, self.end_of(number, ""))
            elif CONSTANT.match(text):
                name = CONSTANT.match(text)[1]
                self.types[name] = Item(self, "const", name, number, self.end_of(number, ""))

    def end_of(self, first, indent):
        """The line after an item: its last one closes it, or ends with ";"."""
        depth = 0
        for number in range(first, len(self.lines)):
            line = self.bare[number]
            depth += sum(map(line.count, OPEN)) - sum(map(line.count, CLOSE))
            is_body = line in (indent + "}", indent + "{}") or number == first and line.endswith("}")
            if depth == 0 and (is_body or line.endswith(";")):
                return number + 1
        raise Fault(f"{self.path}:{first + 1}: this item has no end")

    def read_item(self, kind, first, last):
        header = " ".join(line.strip() for line in self.lines[first:last]).split("{")[0]
        if kind in ("struct", "enum", "type"):
            name = re.search(r"(?:struct|enum|type) (\w+)", header)[1]
            self.types[name] = Item(self, kind, name, first, last)
        elif kind == "trait":
            name = re.search(r"trait (\w+)", header)[1]
            self.traits[name] = self.with_members(Item(self, kind, name, first, last), first, last)
            self.traits[name].generics, above = trait_header(header)
            self.traits[name].above = re.findall(r"\b[A-Z]\w*", above)
        elif kind == "impl":
            it = self.with_members(Item(self, kind, "", first, last), first, last)
            it.generics, it.trait, it.name = impl_header(header)
            self.impls.append(it)
        else:
            name = re.search(r"(?:fn|lemma|law) (\w+)", header)[1]
            self.functions.append(Item(self, "fn", name, first, last))

    def with_members(self, it, first, last):
        for number in range(first + 1, last):
            found = MEMBER.match(self.lines[number])
            if found and found[2] != "use":
                it.members.append(Item(self, found[1], found[2], number, self.end_of(number, "    "), it))
        return it


def impl_header(header):
    """The generics, the trait (or None) and the type of "impl<..> Trait for Type<..>"."""
    rest = header.removeprefix("impl").strip()
    generics = ""
    if rest.startswith("<"):
        end = closing_angle(rest, 0)
        generics, rest = rest[1:end], rest[end + 1 :].strip()
    rest, _, where = rest.partition(" where ")
    trait, _, name = rest.partition(" for ") if " for " in rest else ("", "", rest)
    first = re.match(r"&?(?:mut )?([\w:]+)", name.strip())
    short = re.match(r"([\w:]+)", trait.strip())
    return generics + ", " + where, short[1].split("::")[-1] if short else None, first[1].split("::")[-1] if first else name.strip()


def trait_header(header):
    """The generics of "trait Name<..>: Above", and what stands above it."""
    rest = re.split(r"trait \w+", header, maxsplit=1)[1]
    end = closing_angle(rest, 0) if rest.startswith("<") else 0
    return rest[1:end], rest[end:].partition(":")[2]


def closing_angle(text, begin):
    depth = 0
    for at in range(begin, len(text)):
        depth += (text[at] == "<") - (text[at] == ">" and text[at - 1] != "-")
        if depth == 0:
            return at
    return len(text)


def flattened(path, crate):
    """The names that "a::b::{c, d::{e as f}}" brings in, each with its path."""
    path = path.strip()
    if "{" not in path:
        path, _, short = path.partition(" as ")
        parts = [crate if part in ("crate", "self", "super") else part for part in path.split("::")]
        return {short or parts[-1]: parts}
    head, inner = path.split("{", 1)
    found, depth, start = {}, 0, 0
    inner = inner.rsplit("}", 1)[0] + ","
    for at, char in enumerate(inner):
        depth += (char == "{") - (char == "}")
        if char == "," and depth == 0:
            if inner[start:at].strip():
                found.update(flattened(head + inner[start:at].strip(), crate))
            start = at + 1
    return found


def bounds_of(text):
    """The traits that "K: Keeper + Drop, N" asks of each parameter."""
    found = {}
    for name, _, traits in (part.split("=")[0].partition(":") for part in split_commas(text)):
        name = name.strip().removeprefix("const ")
        if re.fullmatch(r"[A-Z]\w*", name):
            found[name] = found.get(name, []) + re.findall(r"\b([A-Z]\w*)", traits)
    return found


def split_commas(text):
    """The parts of a text between commas that stand in no brackets."""
    parts, depth, start = [], 0, 0
    for at, char in enumerate(text + ","):
        depth += char in "<([{"
        depth -= char in ")]}" or char == ">" and text[at - 1] != "-"
        if char == "," and depth == 0:
            parts.append(text[start:at].strip())
            start = at + 1
    return [part for part in parts if part]


class Signature:
    """The parameters of a function with their types, its result's type, and the bounds of its type parameters."""

    def __init__(self, it):
        text = re.sub(r"\s+", " ", CLAUSE.split(it.header())[0])
        at = re.search(r"\b(?:fn|lemma|law) \w+", text).end()
        generics = ""
        if text[at] == "<":
            end = closing_angle(text, at)
            generics, at = text[at + 1 : end], end + 1
        depth, end = 0, at
        for end in range(at, len(text)):
            depth += (text[end] == "(") - (text[end] == ")")
            if depth == 0:
                break
        self.types = {}
        for part in split_commas(text[at + 1 : end]):
            name, _, type_ = part.partition(":")
            self.types[name.replace("mut ", "").replace("&", "").strip()] = type_.strip() or "Self"
        rest, _, where = text[end + 1 :].partition(" where ")
        self.types["result"] = rest.partition("->")[2].strip(" ;{")
        outer = it.inside.generics if it.inside is not None else ""
        self.bounds = bounds_of(generics + ", " + where + ", " + outer)
