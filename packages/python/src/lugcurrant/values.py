"""Ids, and what a property holds."""

import json
from dataclasses import dataclass
from typing import Any, NamedTuple, Union


class ObjectId(NamedTuple):
    """An object's id: the `client` that created it, and which of that client's creations it was, its `counter`."""

    client: int
    counter: int

    def __str__(self) -> str:
        return f"{self.client}:{self.counter}"

    @classmethod
    def parse(cls, text: str) -> "ObjectId":
        """The id of a text like `1:2`."""
        client, counter = text.split(":")
        return cls(int(client), int(counter))


ROOT = ObjectId(0, 0)
"""The id of the document itself, `0:0`."""


@dataclass(frozen=True)
class Colour:
    """A colour: `rgba` has 8 bits each for red, green, blue and how opaque it is."""

    rgba: int

    def __post_init__(self) -> None:
        if not 0 <= self.rgba <= 0xFFFFFFFF:
            raise ValueError("a colour is a number of 32 bits")

    @classmethod
    def of(cls, text: str) -> "Colour":
        """The colour that is written `#rrggbb` or `#rrggbbaa`."""
        if text[:1] != "#" or len(text) not in (7, 9):
            raise ValueError("a colour is written #rrggbb or #rrggbbaa")
        return cls(int(text[1:].ljust(8, "f"), 16))

    def __str__(self) -> str:
        return f"#{self.rgba:08x}"


Value = Union[int, bool, str, Colour, list["Value"]]
"""What a property holds: a whole number, a truth value, a text, a colour, or a list of values."""


def value_text(value: Value) -> str:
    """The JSON of a value."""
    if isinstance(value, Colour):
        return f'["rgba",{value.rgba}]'
    if isinstance(value, (list, tuple)):
        return "[" + ",".join(['"list"', *(value_text(it) for it in value)]) + "]"
    if isinstance(value, (bool, int, str)):
        return json.dumps(value, ensure_ascii=False)
    raise TypeError(f"a value is a whole number, a truth value, a text, a colour or a list of values, and {value!r} is none")


def value_of(tree: Any) -> Value:
    """The value of the JSON tree."""
    if not isinstance(tree, list):
        whole: int | bool | str = tree
        return whole
    if tree[0] == "rgba":
        return Colour(tree[1])
    return [value_of(it) for it in tree[1:]]
