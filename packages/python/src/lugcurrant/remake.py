"""Edits as texts: the parts of a message, and an edit that is made again out of its text, for the same client or another one."""

import json

from .client import Client
from .library import ClientError
from .values import ObjectId, value_of, value_text


def members(text: str) -> list[str]:
    """The members of a JSON list's text, each as its text."""
    found: list[str] = []
    depth, begin, at, in_text = 0, 1, 0, False
    while at < len(text):
        c = text[at]
        if in_text:
            if c == "\\":
                at += 1
            elif c == '"':
                in_text = False
        elif c == '"':
            in_text = True
        elif c == "[":
            depth += 1
        elif c == "]":
            depth -= 1
            if depth == 0 and at > begin:
                found.append(text[begin:at])
        elif c == "," and depth == 1:
            found.append(text[begin:at])
            begin = at + 1
        at += 1
    return found


def change_of(message: bytes) -> str:
    """The change of the text of a client's edit message."""
    return members(message.decode())[3]


def is_shown(client: Client, change: str) -> bool:
    """Whether the document that the client shows has what the change did: then the change was judged, or isn't missed."""
    what, first, *rest = json.loads(change)
    shown = client.objects().get(ObjectId(*first))
    if what == "delete":
        return shown is None
    if what == "clear":
        return shown is None or rest[0] not in shown.properties
    if shown is None:
        return False
    if what == "create":
        return bool(shown.kind == rest[0])
    if what == "move":
        parent, position = rest[0]
        return shown.parent == ObjectId(*parent) and bool(shown.position == position)
    name, value = rest
    return name in shown.properties and value_text(shown.properties[name]) == value_text(value_of(value))


def remake(client: Client, change: str, ids: dict[ObjectId, ObjectId] | None = None) -> str | None:
    """Makes the change again: in a client that has another id under the ids that `ids` gives for those of objects made again. None, or
    the code for which it can't be made."""
    known: dict[ObjectId, ObjectId] = {} if ids is None else ids
    word, first, *rest = members(change)
    what, at = json.loads(word), ObjectId(*json.loads(first))
    now = known.get(at, at)
    try:
        if what == "create":
            kind, (parent, position) = json.loads(rest[0]), json.loads(rest[1])
            under = known.get(ObjectId(*parent), ObjectId(*parent))
            try:
                made = client.create_at(kind, under, position)
            except ClientError as fault:
                if fault.code != "Taken":
                    raise
                made = client.create_last(kind, under)
            known[at] = made
        elif what == "set":
            client.set_json(now, json.loads(rest[0]), rest[1])
        elif what == "clear":
            client.clear(now, json.loads(rest[0]))
        elif what == "delete":
            client.delete(now)
        else:
            parent, position = json.loads(rest[0])
            under = known.get(ObjectId(*parent), ObjectId(*parent))
            try:
                client.move_at(now, under, position)
            except ClientError as fault:
                if fault.code != "Taken":
                    raise
                client.move_last(now, under)
    except ClientError as fault:
        return fault.code
    return None
