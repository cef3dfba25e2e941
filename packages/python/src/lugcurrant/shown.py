"""The objects of a client's tree, as they were when they were read last. Only what has changed since is read again."""

import json
from dataclasses import dataclass, replace
from typing import TYPE_CHECKING, Iterable

from .values import ROOT, ObjectId, Value, value_of, value_text

if TYPE_CHECKING:
    from .client import Client


@dataclass(frozen=True, eq=False)
class Shown:
    """An object in the tree: its `id`, `kind`, `parent` and `position` (None and "" for the document), its `properties` by their names, and the ids of
    its `children` in order."""

    id: ObjectId
    kind: str
    parent: ObjectId | None
    position: str
    properties: dict[str, Value]
    children: tuple[ObjectId, ...] = ()

    def words(self) -> tuple[str, ObjectId | None, str, str]:
        """What tells it from another one but for its children. Of properties it takes the JSON, as 1 and True are equal."""
        return (self.kind, self.parent, self.position, ",".join(f"{name}:{value_text(value)}" for name, value in self.properties.items()))


class Tree:
    """The objects of a client's tree by their ids. Which may have changed is told by `touch` and `touch_all`."""

    def __init__(self) -> None:
        self._objects: dict[ObjectId, Shown] = {}
        self._all = True
        self._touched: dict[ObjectId, None] = {}
        self._stale: dict[ObjectId, None] = {}
        self._before: dict[ObjectId, Shown | None] = {}

    def touch(self, ids: Iterable[ObjectId]) -> None:
        """These objects may have changed."""
        if not self._all:
            self._touched.update(dict.fromkeys(ids))

    def touch_all(self) -> None:
        """Any object may have changed."""
        self._all = True
        self._touched.clear()

    def update(self, client: "Client") -> dict[ObjectId, Shown]:
        """The objects as the client shows them now."""
        if self._all:
            self._read_all(client)
        while self._touched:
            at = next(iter(self._touched))
            self._refresh(client, at)
            del self._touched[at]
        while self._stale:
            at = next(iter(self._stale))
            self._list(client, at)
            self._stale.pop(at, None)
        return self._objects

    def take(self, client: "Client") -> dict[ObjectId, Shown | None]:
        """The objects that may have changed since this was last asked, as they were before, or none."""
        self.update(client)
        changed, self._before = self._before, {}
        return changed

    def _read_all(self, client: "Client") -> None:
        for at in self._objects:
            self._keep(at)
        self._objects = {}
        self._load(client, ROOT)
        self._all = False

    def _keep(self, at: ObjectId) -> None:
        """Notes how the object was, before it changes."""
        self._before.setdefault(at, self._objects.get(at))

    def _refresh(self, client: "Client", at: ObjectId) -> None:
        """An object may have come into the tree, changed in it, or gone from it with what is below it."""
        if client.is_in_tree(at):
            self._load(client, at)
        elif at in self._objects:
            self._remove(at)

    def _load(self, client: "Client", at: ObjectId) -> None:
        """Reads an object of the tree. Where its place is another, so are the children of its parents, before and now."""
        was, now = self._objects.get(at), client.object(at)
        assert now is not None
        self._keep(at)
        self._objects[at] = replace(now, children=was.children if was else ())
        if was is None:
            self._stale[at] = None
        elif (was.parent, was.position) == (now.parent, now.position):
            return
        for parent in (was.parent if was else None, now.parent):
            if parent is not None:
                self._stale[parent] = None

    def _list(self, client: "Client", at: ObjectId) -> None:
        """Reads the children of an object, and of these the ones that weren't known to be its children."""
        if at not in self._objects:
            return
        children = client.children(at)
        for child in children:
            known = self._objects.get(child)
            if known is None or known.parent != at:
                self._load(client, child)
        self._keep(at)
        self._objects[at] = replace(self._objects[at], children=tuple(children))

    def _remove(self, at: ObjectId) -> None:
        """Forgets an object, and what stood below it and isn't known to stand elsewhere by now."""
        parent = self._objects[at].parent
        if parent is not None:
            self._stale[parent] = None
        pending = [at]
        while pending:
            gone = pending.pop()
            self._keep(gone)
            for child in self._objects.pop(gone).children:
                known = self._objects.get(child)
                if known is not None and known.parent == gone:
                    pending.append(child)


def read_row(text: bytes) -> Shown:
    """The object of a row: its id, kind, place and properties."""
    at, kind, place, properties = json.loads(text)
    parent, position = (ObjectId(*place[0]), place[1]) if place else (None, "")
    return Shown(ObjectId(*at), kind, parent, position, {name: value_of(value) for name, value in properties})
