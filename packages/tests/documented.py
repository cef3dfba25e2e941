#!/usr/bin/env python3
"""documented.py: names each public member without a doc comment: in the types for JavaScript and React, in the package for Python, in the C headers.

- Types: each exported declaration and each member of a class or interface has a `/** */` right before it, or before the overload above it. What the
  modules export, and each member of their classes, is in the types (members.mjs); needs node.
- Python: each public class, function, method and property has a docstring, and so has each constant that the package exports, after it. Each public
  attribute of a dataclass, or that `__init__` of an exported class sets, is named in the docstring of the class, or has a comment.
- C: each declaration, type and macro has a comment right before it, or on its line; each field has one, or stands in a type that has one. One of an
  enumeration stands for its constants.

Then it takes away each comment that is needed, and must name its member."""

import ast
import json
import pathlib
import re
import subprocess
import sys

HERE = pathlib.Path(__file__).resolve().parents[1]
TYPES = ["js/types/index.d.ts", "js/types/api.d.ts", "react/types/index.d.ts"]
# Members that other modules of the package for JavaScript call, and no program.
INTERNAL = {"Flow.reset", "Flow.startedAnew", "Presence.heard", "Presence.lost", "Signals.soon", "Signals.wasSet"}
DECLARED = re.compile(r"(?:export )?(?:declare )?(class|interface|type|const|function) (\w+)")
MEMBER = re.compile(r"(?:(?:static|readonly|private|get|set) )*(\w+)")


class Types:
    """The declarations of a file of types: `names` has those that are values, with the members of each; `faults` those without a comment."""

    def __init__(self, text):
        self.names, self.faults = {}, []
        self._depth, self._inside, self._comment, self._union = 0, None, False, False
        documented, previous = False, ""
        for number, line in enumerate(text.split("\n"), 1):
            words = line.strip()
            if self._comment or words.startswith("/**"):
                self._comment = not words.endswith("*/")
                documented = documented or not self._comment
                continue
            if not words or words.startswith(("//", "}")):
                documented = documented and not words
                self._depth += line.count("{") - line.count("}")
                continue
            name = self._take(words)
            if name and not documented and name != previous:
                self.faults.append((number, name))
            documented, previous = False, name
            self._depth += line.count("{") - line.count("}")
            self._union = not words.endswith((";", "{", "}"))

    def _take(self, words):
        """The name of the declaration or member that begins on this line, or None."""
        if self._depth == 0 and words.startswith("export ") and not words.startswith("export *"):
            kind, self._inside = DECLARED.match(words).groups()
            if kind in ("class", "const", "function"):
                self.names[self._inside] = set()
            return self._inside
        if self._depth != 1 or self._union or words.startswith(("|", "private")):
            return None
        name = MEMBER.match(words).group(1)
        self.names.get(self._inside, set()).add(name)
        return name


def not_in_types():
    """What the modules have at run time, and the types don't; or the other way round."""
    done = subprocess.run(["node", HERE / "tests/members.mjs"], capture_output=True, text=True, check=True)
    for package, found in json.loads(done.stdout).items():
        known = {}
        for name in TYPES:
            if name.startswith(package):
                known |= Types((HERE / name).read_text()).names
        for name in sorted(found.keys() ^ known.keys()):
            yield f"{package}: {name} is {'not in the types' if name in found else 'in the types alone'}"
        for name in sorted(found.keys() & known.keys()):
            for member in found[name]:
                if member not in known[name] and f"{name}.{member}" not in INTERNAL:
                    yield f"{package}: {name}.{member} is not in the types"


def exported():
    """The names that the package for Python exports."""
    tree = ast.parse((HERE / "python/src/lugcurrant/__init__.py").read_text())
    return {name for it in tree.body if isinstance(it, ast.Assign) and it.targets[0].id == "__all__" for name in ast.literal_eval(it.value)}


def is_text(node):
    return isinstance(node, ast.Expr) and isinstance(node.value, ast.Constant) and isinstance(node.value.value, str)


def attributes(node):
    """The public attributes that the class declares, or that its `__init__` sets, with their lines."""
    for it in node.body:
        if isinstance(it, ast.AnnAssign) and isinstance(it.target, ast.Name):
            yield it.target.id, it.lineno
        if isinstance(it, ast.FunctionDef) and it.name == "__init__":
            for part in ast.walk(it):
                if isinstance(part, ast.Attribute) and isinstance(part.ctx, ast.Store) and isinstance(part.value, ast.Name) and part.value.id == "self":
                    yield part.attr, part.lineno


def python_class(node, lines):
    doc = ast.get_docstring(node)
    if not doc:
        yield node.lineno, node.name
    for name, line in attributes(node):
        if not name.startswith("_") and f"`{name}`" not in (doc or "") and "  # " not in lines[line - 1]:
            yield line, f"{node.name}.{name}"
    for it in node.body:
        if isinstance(it, (ast.FunctionDef, ast.AsyncFunctionDef)) and not it.name.startswith("_"):
            is_setter = any(isinstance(d, ast.Attribute) and d.attr == "setter" for d in it.decorator_list)
            if not ast.get_docstring(it) and not is_setter:
                yield it.lineno, f"{node.name}.{it.name}"


def python(text):
    tree, lines, names = ast.parse(text), text.split("\n"), exported()
    if not ast.get_docstring(tree):
        yield 1, "the module"
    for it, after in zip(tree.body, [*tree.body[1:], None]):
        if isinstance(it, ast.ClassDef) and not it.name.startswith("_"):
            yield from python_class(it, lines)
        elif isinstance(it, (ast.FunctionDef, ast.AsyncFunctionDef)) and not it.name.startswith("_") and not ast.get_docstring(it):
            yield it.lineno, it.name
        elif isinstance(it, (ast.Assign, ast.AnnAssign)):
            name = getattr(it.targets[0] if isinstance(it, ast.Assign) else it.target, "id", None)
            if name in names and not (after and is_text(after)):
                yield it.lineno, name


def c(text):
    """A line that begins a declaration, a field or a macro needs a comment on it or right before it; the bodies of functions need none."""
    covered = comment = body = False
    depth = 0
    for number, line in enumerate(text.split("\n"), 1):
        words = line.strip()
        if comment or words.startswith("/*"):
            comment = "*/" not in words
            covered = True
            continue
        if not words:
            covered = False
            continue
        if re.match(r"#(ifndef|ifdef|endif|include|define LUGCURRANT(_FLOW)?_H$)|extern \"C\"", words):
            continue
        if not body and not covered and "/*" not in words and not words.startswith("}"):
            yield number, words[:70]
        body = body or words.startswith("static inline")
        depth = max(0, depth + line.count("{") - line.count("}"))
        body = body and (depth > 0 or not words.startswith("}"))
        covered = covered and (depth > 0 or not words.endswith(";") and not words.startswith("#"))  # the next declaration needs its own


def faults_of(path, text):
    if path.suffix == ".ts":
        return Types(text).faults
    return list(python(text) if path.suffix == ".py" else c(text))


def comments_of(path, text):
    """Where in the text the comments are that are needed: in types all, in C those right before a declaration, in Python the docstrings of what is
    public."""
    if path.suffix == ".ts":
        return [it.span() for it in re.finditer(r"/\*\*.*?\*/", text, re.S)]
    if path.suffix == ".h":
        return [it.span(1) for it in re.finditer(r"^(/\*(?:(?!\*/).)*\*/)\n(?=[a-z]|#define)", text, re.S | re.M)]
    starts = [0, *(at.end() for at in re.finditer("\n", text))]
    return [(starts[it.lineno - 1] + it.col_offset, starts[it.end_lineno - 1] + it.end_col_offset) for it in docstrings(ast.parse(text))]


def docstrings(tree):
    """The docstrings of a module, of its public classes, and of the public functions of both, as expressions."""
    yield tree.body[0]
    for it in tree.body:
        if isinstance(it, (ast.ClassDef, ast.FunctionDef)) and not it.name.startswith("_"):
            yield it.body[0]
        for part in it.body if isinstance(it, ast.ClassDef) and not it.name.startswith("_") else []:
            if isinstance(part, (ast.FunctionDef, ast.AsyncFunctionDef)) and not part.name.startswith("_") and is_text(part.body[0]):
                yield part.body[0]


def unseen(path, text):
    """The comments that can be taken away, and no member is named then."""
    known, blank = len(faults_of(path, text)), "0" if path.suffix == ".py" else ""
    for begin, end in comments_of(path, text):
        rest = blank + "\n" * text.count("\n", begin, end)
        if len(faults_of(path, text[:begin] + rest + text[end:])) <= known:
            yield text[begin:end]


def main():
    paths = [HERE / name for name in TYPES] + sorted((HERE / "python/src/lugcurrant").glob("*.py")) + sorted((HERE / "c/include").glob("*.h"))
    faults, taken = list(not_in_types()), 0
    for path in paths:
        text, name = path.read_text(), path.relative_to(HERE)
        faults += [f"{name}:{number}: {member}" for number, member in faults_of(path, text)]
        faults += [f"{name}: nothing is seen without {comment[:70]}" for comment in unseen(path, text)]
        taken += len(comments_of(path, text))
    print("\n".join([*faults, f"{taken} comments, {len(faults)} faults"]))
    return 1 if faults else 0


if __name__ == "__main__":
    sys.exit(main())
