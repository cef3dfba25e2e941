"""Definitions of crates/*/specs/*.antt, as tools/believe reads them."""

import re

from sources.expressions import CLOSE, OPEN, binder_at, free_names, is_name, split_at, words_of


class Fault(Exception):
    """What the sources don't say, with file and line."""


class Definition:
    """A definition of a specs file: its words, and the names that it uses."""

    def __init__(self, path, name, kind, first, about, around):
        self.path, self.name, self.kind, self.line, self.about = path, name, kind, first, about
        # What nothing unfolds is a proof: the prover checks it, and nobody must read it.
        self.is_proof = kind == "definition"
        # What the modules around it bind, as words.
        self.around = around
        self.lines, self.members, self.equations, self.type = [], [], [], []

    def size(self):
        return len([text for _, text in self.lines if text.strip() and not text.strip().startswith("--")])


def comment_above(lines, at):
    """The lines of comment right above a line, as one text."""
    texts = []
    while at > 0 and lines[at - 1].strip().startswith("--"):
        at -= 1
        texts.insert(0, lines[at].strip()[2:].strip())
    return " ".join(texts)


def indent_of(text):
    return len(text) - len(text.lstrip())


def is_code(text):
    return bool(text.strip()) and not text.strip().startswith("--")


def chunks(lines, first, last):
    """Each declaration of these lines: its first line with the deeper ones below it."""
    codes = [number for number in range(first, last) if is_code(lines[number])]
    if not codes:
        return
    depth = indent_of(lines[codes[0]])
    starts = [number for number in codes if indent_of(lines[number]) <= depth and lines[number].strip()[0] not in CLOSE]
    for start, end in zip(starts, starts[1:] + [last]):
        while end > start + 1 and not is_code(lines[end - 1]):
            end -= 1
        yield start, end


class Specs:
    """A specs file: what it uses, and what it defines."""

    def __init__(self, file, crate, path):
        self.crate, self.path, self.lines = crate, path, file.read_text().split("\n")
        # name: (crate, module, name in it); an alias: (crate, module)
        self.names, self.aliases, self.operators = {}, {}, {}
        self.definitions, self.members = {}, {}
        self.read(0, len(self.lines), [], "")

    def read(self, first, last, around, about, unfolds=False):
        for start, end in chunks(self.lines, first, last):
            self.read_chunk(start, end, around, about, unfolds)

    def read_chunk(self, start, end, around, about, unfolds):
        text = self.lines[start].strip()
        text = text.removeprefix("pub ") if text.startswith("pub use ") else text
        above = comment_above(self.lines, start) or about
        if text.startswith("use "):
            self.read_use(" ".join(self.lines[start:end]))
        elif re.fullmatch(r"(abbrev )?mutual|unfolding \w+", text):
            self.read(start + 1, end, around, above, text.startswith("abbrev"))
        elif text.startswith("module _"):
            self.read_module(start, end, around)
        elif not text.startswith("pub mod "):
            self.define(start, end, around, above, unfolds)

    def read_module(self, start, end, around):
        """Definitions of a module with parameters, which each of them has."""
        body = next(number for number in range(start, end) if self.lines[number].rstrip().endswith("where")) + 1
        header = words_of([(number + 1, self.lines[number]) for number in range(start, body)])
        self.read(body, end, around + header[2:-1], "")

    def read_use(self, text):
        found = re.match(r"\s*(?:pub )?use ([\w.-]+?)\.\{(.*)\}", text) or re.match(r"\s*(?:pub )?use ([\w.-]+) as (\w+)", text)
        if not found:
            raise Fault(f"{self.path}: can't read {text.strip()}")
        path = found[1].removeprefix("Rattle.")
        crate, _, module = path.partition(".")
        add_use(self, crate, module, found[2], "{" in text)

    def define(self, start, end, around, about, unfolds):
        numbered = [(number + 1, self.lines[number]) for number in range(start, end)]
        words = words_of(numbered)
        prefix = []
        while words[0][0] in ("pub", "abbrev", "unfoldable", "def"):
            prefix.append(words.pop(0)[0])
        kind = words.pop(0)[0] if words[0][0] in ("record", "data") else "definition"
        name = words[0][0]
        is_new = kind != "definition" or len(words) > 1 and words[1][0] == ":"
        if is_new:
            self.definitions[name] = Definition(self.path, name, kind, start + 1, about, around)
            self.definitions[name].is_proof &= not (unfolds or "abbrev" in prefix or "unfoldable" in prefix)
        if name not in self.definitions:
            raise Fault(f"{self.path}:{start + 1}: can't read {self.lines[start].strip()}")
        it = self.definitions[name]
        it.lines += numbered
        if kind != "definition":
            self.read_members(it, start, end)
        elif is_new:
            it.type = words[2:]
        else:
            it.equations.append(words)

    def read_members(self, it, start, end):
        """The header of a record or of data, and each field or constructor: (names, words of its type)."""
        header = words_of([(start + 1, self.lines[start])])
        at = [word for word, _ in header].index(it.name)
        it.type = header[at + 1 :]
        for first, last in chunks(self.lines, start + 1, end):
            words = [word for word in words_of([(number + 1, self.lines[number]) for number in range(first, last)]) if word[0] != "pub"]
            colon = [word for word, _ in words].index(":")
            names = [word for word, _ in words[:colon]]
            it.members.append((names, words[colon + 1 :]))
            if it.kind == "data":
                self.members.update({name: it.name for name in names})

    def uses_of(self, it, is_constructor):
        """The names that a definition uses, with their lines. is_constructor tells of a name that is brought in whether it can be in a pattern."""
        bound = bound_by(it.around)
        found = free_names(it.around) + free_names(it.type, bound)
        bound = bound + (bound_by(it.type) if it.kind != "definition" else [])
        for names, words in it.members:
            found += free_names(words, bound)
            bound += names if it.kind == "record" else []
        for words in it.equations:
            found += self.uses_of_equation(words, bound_by(it.around), is_constructor)
        return [(name, line) for name, line in found if name != it.name]

    def uses_of_equation(self, words, bound, is_constructor):
        left = split_at(words, "=")[0]
        names = [(word, line) for word, line in left[1:] if is_name(word) and word != "_"]
        known = [it for it in names if self.is_known(it[0], is_constructor)]
        return known + free_names(words[len(left) + 1 :], bound + [it[0] for it in names if it not in known])

    def is_known(self, name, is_constructor):
        """Whether a name of a pattern is a constructor or an operator, and no variable."""
        if "." in name or name in self.members or name in self.operators:
            return True
        return name in self.names and is_constructor(*self.names[name])


def add_use(holder, crate, module, names, is_list):
    """What "use CRATE.MODULE.{names}" or "use CRATE.MODULE as names" brings in."""
    if not is_list:
        holder.aliases[names] = (crate, module)
        return
    for name in (part.strip() for part in names.split(",") if part.strip()):
        original, _, short = name.partition(" as ")
        holder.names[short or original] = (crate, module, original)
        for part in original.split("◌") if "◌" in original else []:
            if part:
                holder.operators[part] = (crate, module, original)


def bound_by(words):
    """The names that binder groups at the top of these words bind."""
    found, depth = [], 0
    for at, (word, _) in enumerate(words):
        if word in OPEN and depth == 0:
            found += binder_at(words, at)
        depth += (word in OPEN) - (word in CLOSE)
    return found
