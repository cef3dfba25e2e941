"""The client: its edits, what it receives, and what it shows."""

import ctypes
import json
import re
from dataclasses import dataclass, field
from typing import Callable

from . import _api as calls
from ._api import KINDS, Handle, MadeId, What
from .library import ClientError, library
from .shown import Shown, Tree, read_row
from .tree import Node, read_tree
from .values import ROOT, ObjectId, Value, value_text

Watcher = Callable[[str, bytes | None], None]


@dataclass(frozen=True)
class Heard:
    """What was heard of the server: `what` it was to the client. `reason` is the number of a No, and else 0."""

    what: What
    reason: int = 0

    @property
    def took(self) -> bool:
        """Whether the client took the message."""
        return self.what is What.TOOK

    @property
    def ends(self) -> bool:
        """Whether the answer ends with it."""
        return self.what in (What.IDLE, What.NO)


@dataclass
class Changes:
    """What has become other in the tree: `put` has the objects that are new or changed, and `gone` the ids that are gone."""

    put: list[Shown] = field(default_factory=list)
    gone: list[ObjectId] = field(default_factory=list)

    def __bool__(self) -> bool:
        return bool(self.put or self.gone)


class Client:
    """A client of one document. It isn't to be used by two threads at once."""

    def __init__(self, saved: bytes | None = None) -> None:
        self._calls = library()
        self._handle = Handle()
        self._shown = Tree()
        self._watchers: dict[int, Watcher] = {}
        self._saved_to = 0
        self._need(self._calls("new", self._handle) if saved is None else self._calls("load", self._handle, saved, len(saved)))
        if saved is None:
            self.changed()
        else:
            self._saved_to = self.last_edit

    def watch(self, told: Watcher) -> Callable[[], None]:
        """Calls `told` with "edit" after each edit, with "took" and its bytes after each message that was taken, and with "anew" after
        `become`. Gives a function that ends it."""
        key = max(self._watchers, default=0) + 1
        self._watchers[key] = told
        return lambda: self._watchers.pop(key, None) and None

    def _tell(self, what: str, message: bytes | None = None) -> None:
        for told in list(self._watchers.values()):
            told(what, message)

    def become(self, other: "Client") -> None:
        """Becomes another client, which is none any more then: whoever holds this one goes on with it."""
        self._need(self._calls("free", self._handle))
        self._handle.at, self._handle.mark = other._handle.at, other._handle.mark
        other._handle.at, other._handle.mark = None, 0
        self._saved_to = other._saved_to
        self._shown.touch_all()
        self._tell("anew")

    @classmethod
    def load(cls, saved: bytes) -> "Client":
        """The client that was saved as these bytes: with its id, its view and what waits. Load it for the same document alone.
        All that it shows counts as added at first."""
        return cls(saved)

    def save(self) -> bytes:
        """The client as bytes, of which `load` makes it again: to be kept before an edit is sent. In its place a line may be kept for each edit made
        and each message taken since the last save, to be played by `resume` and `receive`. `Kept` does so by itself."""
        saved = self._text(self._calls("save", self._handle))
        self._saved_to = self.last_edit
        return saved

    def emptied(self, heard: "Client") -> "Client":
        """This client with its first edit that waits replaced by one that changes nothing: it clears a property that no object has. `heard` shows
        the document by which all edits before that one are judged, and none since; it has no edits. The core has no call for it: it loads such a
        client without a document, and that one receives the document as a copy."""
        numbers = re.match(rb'\["client",\[(\d+),(\d+),', self._text(self._calls("save", self._handle)))
        assert numbers
        rows = re.sub(rb'^\["client",\[[\d,]+\],\[\],', b"", heard._text(heard._calls("save", heard._handle)), count=1)[:-1]
        name = b"_"
        while b'["%b",' % name in rows:
            name += b"_"
        changes = [b'["clear",[0,0],"%b"]' % name]
        changes += [re.sub(rb'^\["edit",\d+,\d+,', b"", message, count=1)[:-1] for message in self.messages()[1:]]
        begun = b"%b,%b,%d,%d" % (numbers.group(1), numbers.group(2), heard.version - 1, self.acknowledged)
        made = Client(b'["client",[%b],[%b],[[[0,0],"document",null,[]]]]' % (begun, b",".join(changes)))
        made.receive(b'["copy",%d,%d,%b]' % (heard.version, self.acknowledged, rows))
        made._saved_to = self._saved_to
        return made

    def close(self) -> None:
        """Ends the client, with all that waits."""
        if self._handle.at:
            self._calls("free", self._handle)

    def __enter__(self) -> "Client":
        return self

    def __exit__(self, *_: object) -> None:
        self.close()

    def __del__(self) -> None:
        if hasattr(self, "_handle"):
            self.close()

    @property
    def id(self) -> int | None:
        """The id under which the server knows it, once it has joined."""
        return self._calls("id", self._handle) or None

    @property
    def version(self) -> int:
        """The version that it has reached."""
        return self._calls("version", self._handle)

    @property
    def acknowledged(self) -> int:
        """The number of its last edit of which it has taken the entry."""
        return self._calls("acknowledged", self._handle)

    @property
    def waiting(self) -> int:
        """How many of its edits wait."""
        return self._calls("waiting", self._handle)

    @property
    def last_edit(self) -> int:
        """The number of its last edit."""
        return self.acknowledged + self.waiting

    @property
    def saved_to(self) -> int:
        """The number of the last edit that stands in a save: another program that loads it sends the same edits up to this one."""
        return self._saved_to

    def create(self, kind: str, parent: ObjectId, after: ObjectId | None = None) -> ObjectId:
        """Creates an object under the parent, after a child of it, or as the first. Its id."""
        made = MadeId()
        self._done(self._calls("create", self._handle, KINDS.get(kind, 0), *parent, *(after or ROOT), made))
        return self._made(made)

    def create_last(self, kind: str, parent: ObjectId) -> ObjectId:
        """Creates an object behind all children of the parent, of which there is room for 41 million. Its id."""
        made = MadeId()
        self._done(self._calls("create_last", self._handle, KINDS.get(kind, 0), *parent, made))
        return self._made(made)

    def create_first(self, kind: str, parent: ObjectId) -> ObjectId:
        """Creates an object before all children of the parent. Its id."""
        made = MadeId()
        self._done(self._calls("create_first", self._handle, KINDS.get(kind, 0), *parent, made))
        return self._made(made)

    def create_at(self, kind: str, parent: ObjectId, position: str) -> ObjectId:
        """Creates an object under the parent, at a position that no other child of it has. Its id."""
        made, at = MadeId(), position.encode()
        self._done(self._calls("create_at", self._handle, KINDS.get(kind, 0), *parent, at, len(at), made))
        return self._made(made)

    def set(self, id: ObjectId, name: str, value: Value) -> None:
        """Gives a property of an object a value."""
        self.set_json(id, name, value_text(value))

    def clear(self, id: ObjectId, name: str) -> None:
        """Takes a property of an object away."""
        word = name.encode()
        self._done(self._calls("clear", self._handle, *id, word, len(word)), id)

    def move(self, id: ObjectId, parent: ObjectId, after: ObjectId | None = None) -> None:
        """Moves an object under the parent, after a child of it, or as the first."""
        self._done(self._calls("move", self._handle, *id, *parent, *(after or ROOT)), id)

    def move_last(self, id: ObjectId, parent: ObjectId) -> None:
        """Moves an object behind all other children of the parent."""
        self._done(self._calls("move_last", self._handle, *id, *parent), id)

    def move_first(self, id: ObjectId, parent: ObjectId) -> None:
        """Moves an object before all other children of the parent."""
        self._done(self._calls("move_first", self._handle, *id, *parent), id)

    def move_at(self, id: ObjectId, parent: ObjectId, position: str) -> None:
        """Moves an object under the parent, to a position that no other child of it has."""
        text = position.encode()
        self._done(self._calls("move_at", self._handle, *id, *parent, text, len(text)), id)

    def delete(self, id: ObjectId) -> None:
        """Removes an object; what lies below it is shown no more."""
        self._done(self._calls("delete", self._handle, *id), id)

    def edit(self, line: str) -> int:
        """Makes the edit of a line, as docs/lines.md has them: `create KIND PARENT AFTER`, `set ID NAME JSON`, `clear ID NAME`,
        `move ID PARENT AFTER`, `delete ID`; AFTER is an id, or `-` for the first place. The edit's number."""
        word, _, rest = line.partition(" ")
        try:
            self._edit(word, rest)
        except ValueError:
            raise ValueError(f"no edit line: {line}") from None
        return self.last_edit

    def _edit(self, word: str, rest: str) -> None:
        if word == "create":
            kind, parent, after = rest.split(" ")
            self.create(kind, ObjectId.parse(parent), _after(after))
        elif word == "set":
            at, name, value = rest.split(" ", 2)
            self.set_json(ObjectId.parse(at), name, value)
        elif word == "clear":
            at, name = rest.split(" ")
            self.clear(ObjectId.parse(at), name)
        elif word == "move":
            at, parent, after = rest.split(" ")
            self.move(ObjectId.parse(at), ObjectId.parse(parent), _after(after))
        elif word == "delete":
            self.delete(ObjectId.parse(rest))
        else:
            raise ValueError(word)

    def receive(self, message: bytes) -> Heard:
        """Receives one message of the server."""
        number = self._calls("receive_and_tell", self._handle, message, len(message))
        if number > calls.NO:
            return Heard(What.NO, number - calls.NO)
        if not calls.TOOK <= number <= calls.IDLE:
            self._need(number)
        if number == calls.TOOK:
            self._touch_told()
            self._tell("took", message)
        return Heard(What(number))

    def resume(self, message: bytes) -> bool:
        """Makes an edit of this client's again by its message, as `edit_message` gave it. False if the client had made one of this number already.
        Raises ClientError (`NotAnEdit`, `NotOwn`, `Gap`, `Inconsistent`, or why it is no message) if it can't be the next edit; nothing has changed
        then."""
        number = self._calls("resume", self._handle, message, len(message))
        if number == calls.OLD:
            return False
        self._need(number)
        self._saved_to = self.last_edit
        named = re.match(rb'\["edit",\d+,\d+,\["[a-z]+",\[(\d+),(\d+)\]', message)
        if named:
            self._shown.touch([ObjectId(int(named.group(1)), int(named.group(2)))])
        else:
            self._shown.touch_all()
        self._tell("edit")
        return True

    def _touch_told(self) -> None:
        """Notes the objects that the library has told to be changed, or any where it says so."""
        ids = json.loads(self._text(calls.DONE))
        if ids is None:
            self._shown.touch_all()
        else:
            self._shown.touch(ObjectId(*at) for at in ids)

    def join_message(self) -> bytes:
        """The text that asks for an id."""
        return self._text(self._calls("join", self._handle))

    def ask_message(self) -> bytes | None:
        """The text that asks for what came after the version; none while it has no id."""
        return self._left(self._calls("ask", self._handle))

    def edit_message(self, i: int) -> bytes | None:
        """The text of the i-th edit that waits, counted from 1, if so many wait."""
        return self._left(self._calls("edit", self._handle, i))

    def messages(self) -> list[bytes]:
        """The texts of all edits that wait, in order."""
        return [text for i in range(1, self.waiting + 1) if (text := self.edit_message(i)) is not None]

    def text(self) -> str:
        """The tree as text: a line an object, and one for each of its properties."""
        return self._text(self._calls("tree", self._handle)).decode()

    def tree(self) -> Node:
        """The tree that it shows."""
        return read_tree(self.text())

    def object(self, id: ObjectId) -> Shown | None:
        """The object of the view, in the tree or not, without its children."""
        text = self._left(self._calls("object", self._handle, *id))
        return None if text is None else read_row(text)

    def children(self, id: ObjectId) -> list[ObjectId]:
        """The objects of the view whose place names this one, in order."""
        return [ObjectId(*child) for child in json.loads(self._text(self._calls("children", self._handle, *id)))]

    def is_in_tree(self, id: ObjectId) -> bool:
        """Whether parents lead from the object to the document's root."""
        number = self._calls("in_tree", self._handle, *id)
        if number != calls.NOT_SHOWN:
            self._need(number)
        return number == calls.DONE

    def objects(self) -> dict[ObjectId, Shown]:
        """The objects of the tree. What has changed is read when this is called, and no other object."""
        return self._shown.update(self)

    def changed(self) -> Changes:
        """What differs in the tree since this was last asked. It reads the objects that changed, and no other."""
        told = Changes()
        before = self._shown.take(self)
        now = self._shown.update(self)
        for at, was in before.items():
            shown = now.get(at)
            if shown is None and was is not None:
                told.gone.append(at)
            elif shown is not None and (was is None or was.words() != shown.words() or was.children != shown.children):
                told.put.append(shown)
        return told

    def set_json(self, id: ObjectId, name: str, value: str) -> None:
        """The same with the JSON of the value."""
        word, text = name.encode(), value.encode()
        self._done(self._calls("set", self._handle, *id, word, len(word), text, len(text)), id)

    def _made(self, made: MadeId) -> ObjectId:
        at = ObjectId(made.client, made.counter)
        self._shown.touch([at])
        self._tell("edit")
        return at

    def _need(self, number: int) -> None:
        if number == calls.MEMORY:
            raise MemoryError
        if number != calls.DONE:
            raise ClientError(number)

    def _done(self, number: int, edited: ObjectId | None = None) -> None:
        self._need(number)
        if edited is not None:
            self._shown.touch([edited])
            self._tell("edit")

    def _text(self, number: int) -> bytes:
        text = self._left(number)
        assert text is not None
        return text

    def _left(self, number: int) -> bytes | None:
        if number == calls.NONE:
            return None
        self._need(number)
        length = self._calls("length", self._handle)
        room = ctypes.create_string_buffer(max(length, 1))
        self._calls("read", self._handle, room, length)
        return room.raw[:length]


def _after(text: str) -> ObjectId | None:
    return None if text == "-" else ObjectId.parse(text)
