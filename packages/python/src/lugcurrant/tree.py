"""The tree as it is written."""

import json
from dataclasses import dataclass, field
from typing import Iterator

from .values import ObjectId, Value, value_of


@dataclass
class Node:
    """An object: its `id`, `kind` and `position`, its `properties` by their names, and its `children` in order."""

    id: ObjectId
    kind: str
    position: str
    properties: dict[str, Value] = field(default_factory=dict)
    children: list["Node"] = field(default_factory=list)

    def walk(self) -> Iterator["Node"]:
        """This object and those below it, each before its children."""
        pending = [self]
        while pending:
            node = pending.pop()
            yield node
            pending.extend(reversed(node.children))

    def find(self, wanted: ObjectId) -> "Node | None":
        """The object of this id, here or below."""
        return next((node for node in self.walk() if node.id == wanted), None)


def read_tree(text: str) -> Node:
    """The tree of the text that the library leaves: a line an object, two blanks deeper at each level, and its properties' lines."""
    path: list[Node] = []
    for line in text.split("\n"):
        rest = line.lstrip(" ")
        depth = (len(line) - len(rest)) // 2
        if rest.startswith("."):
            name, _, value = rest[1:].partition(" ")
            path[depth - 1].properties[name] = value_of(json.loads(value))
        elif rest:
            at, kind, *position = rest.split(" ", 2)
            node = Node(ObjectId.parse(at), kind, position[0] if position else "")
            del path[depth:]
            if path:
                path[-1].children.append(node)
            path.append(node)
    return path[0]
