"""Expressions of specs and of clauses, as words: which of their names no binder binds, and which hypotheses they have. For tools/believe.

A word is (text, line). Strings and comments are none."""

import re

WORD = re.compile(r'"(?:\\.|[^"\\])*"|(?<!\S)--.*$|\[\]|[(){}\[\];,]|[^\s(){}\[\];,"]+')
OPEN, CLOSE = "([{", ")]}"
# What the language itself gives.
SYNTAX = {":", "→", "×", "=", "λ", ".", "_", "|", "↦", "let", "in", "record", "where", "Type", "Unit", "⊥", "¬", "∥", "∥₁", "tt", "absurd", "cc", "elim", "omega", "rw", ";", ",", "as", *OPEN, *CLOSE}


def words_of(lines):
    """The words of lines, each of which is (number, text)."""
    found = [(word, number) for number, text in lines for word in WORD.findall(text)]
    return [(word, number) for word, number in found if word[0] != '"' and not word.startswith("--")]


def text_of(words):
    """Words as one line, spaced as the sources are."""
    text = " ".join(word for word, _ in words)
    text = re.sub(r"([(\[{]) ", r"\1", text)
    text = re.sub(r" ([)\]};,])", r"\1", text)
    text = re.sub(r"\)\s(\.\w)", r")\1", text)
    return re.sub(r"\b(record\S*)\{", r"\1 {", text).replace("record{", "record {")


def closing(words, at):
    """Where the group that opens there is closed."""
    depth = 0
    for place in range(at, len(words)):
        depth += (words[place][0] in OPEN) - (words[place][0] in CLOSE)
        if depth == 0:
            return place
    return len(words) - 1


def binder_at(words, at):
    """The names that a group "(x y : T)" binds, if it is one."""
    names, place = [], at + 1
    while place < len(words) and words[place][0] not in SYNTAX - {"_"}:
        names.append(words[place][0])
        place += 1
    return names if names and place < len(words) and words[place][0] == ":" else []


class Scope:
    """The names that are bound where a reader stands."""

    def __init__(self, bound):
        self.bound, self.groups = list(bound), []

    def enter(self, names):
        self.groups.append((len(self.bound), names))

    def leave(self):
        if self.groups:
            size, names = self.groups.pop()
            del self.bound[size:]
            self.bound += names

    def next_member(self):
        """After a ";" of a record, what the member before it bound is unbound."""
        if self.groups:
            del self.bound[self.groups[-1][0] :]


def is_label(words, at):
    """Whether this is the name of a record's member: {name = .. or ; name : .."""
    return at > 0 and at + 1 < len(words) and words[at - 1][0] in "{;" and words[at + 1][0] in ("=", ":")


def alternative(words, at):
    """The variables of a pattern "[ C x y ↦ .." or "| C x y ↦ ..", or none."""
    for place in range(at + 1, min(at + 6, len(words))):
        if words[place][0] == "↦":
            return [word for word, _ in words[at + 2 : place]]
    return []


def lambda_names(words, at):
    """The names after a λ up to its point, and how many words they are; of "λ (x : T)." none, as its group binds it."""
    names = []
    for word, _ in words[at + 1 :]:
        if word == "(":
            return [], 0
        names.append(word.rstrip("."))
        if word.endswith("."):
            break
    return [name for name in names if name], len(names)


def free_names(words, bound=()):
    """The names that no binder binds, with their lines; of w.log.items the whole."""
    scope, found, at = Scope(bound), [], 0
    while at < len(words):
        word, line = words[at]
        if word in ("[", "|"):
            scope.bound += alternative(words, at)
        if word in OPEN:
            names = binder_at(words, at)
            scope.enter(names)
            at += len(names)
        elif word in CLOSE:
            scope.leave()
        elif word == ";":
            scope.next_member()
        elif word == "λ":
            names, size = lambda_names(words, at)
            scope.bound += names
            at += size
        elif word == "let":
            scope.bound.append(words[at + 1][0])
            at += 1
        elif is_name(word) and not is_label(words, at) and word.split(".")[0] not in scope.bound:
            found.append((word, line))
        at += 1
    return found


def is_name(word):
    return word not in SYNTAX and not word[0].isdigit() and word[0] != "."


def split_at(words, mark):
    """The parts of words between marks that stand in no group."""
    parts, at = [[]], 0
    while at < len(words):
        if words[at][0] in OPEN:
            end = closing(words, at)
            parts[-1] += words[at : end + 1]
            at = end
        elif words[at][0] == mark:
            parts.append([])
        else:
            parts[-1].append(words[at])
        at += 1
    return parts


def without_group(words):
    """The words inside, if they are one group in parentheses."""
    while words and words[0][0] == "(" and closing(words, 0) == len(words) - 1 and not binder_at(words, 0):
        words = words[1:-1]
    return words


def arguments(words):
    """The head of an application and its arguments, each a list of words."""
    parts, at = [], 0
    while at < len(words):
        end = closing(words, at) if words[at][0] in OPEN else at
        if words[at][0] == "λ":
            end = len(words) - 1
        while end + 1 < len(words) and re.fullmatch(r"\.\w+", words[end + 1][0]):
            end += 1
        parts.append(words[at : end + 1])
        at = end + 1
    return parts


def put_for(words, values):
    """The words with each of these names replaced by words; an argument of several words stands in parentheses."""
    out = []
    for word, line in words:
        head, _, rest = word.partition(".")
        value = values.get(head)
        if value is None:
            out.append((word, line))
        elif len(value) == 1:
            out.append((value[0][0] + ("." + rest if rest else ""), line))
        else:
            grouped = value if value[0][0] == "(" and closing(value, 0) == len(value) - 1 else [("(", line), *value, (")", line)]
            out += grouped + ([("." + rest, line)] if rest else [])
    return out


def reduced(words):
    """An application of a λ to its arguments, put in; other words as they are."""
    parts = arguments(words)
    inner = without_group(parts[0]) if parts else []
    if len(parts) < 2 or not inner or inner[0][0] != "λ":
        return words
    names, size = lambda_names(inner, 0)
    if len(names) != len(parts) - 1:
        return words
    return reduced(without_group(put_for(inner[size + 1 :], dict(zip(names, parts[1:])))))
