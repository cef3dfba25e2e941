#!/usr/bin/env python3
"""Twelve plausible misreadings of docs/clients.md, each as a small change of client.py, and whether the vectors find them:  wrong.py FILE..

A suite that lets one of them through would let a client through that shows another document than the server has."""

import sys

from client import ROOT, Client, Object
from run import play, read


class ShownIsInTheTree(Client):
    """Takes no property and no place for an object that hangs below one that is gone, or in a temporary cycle."""

    def in_tree(self, id):
        for _ in range(len(self.view) + 1):
            if id == ROOT:
                return True
            object = self.view.get(id)
            if not object:
                return False
            id = object.place[0]
        return False

    def take_property(self, id, change):
        if self.in_tree(id):
            super().take_property(id, change)

    def take_place(self, id, place):
        if self.in_tree(id):
            super().take_place(id, place)


class TakesTheAskedPlace(Client):
    """Gives a created or moved object the place that was asked for, and not that of the outcome."""

    def take(self, own, change, outcome):
        asked = {"created": 3, "moved": 2}.get(outcome[0])
        super().take(own, change, [outcome[0], change[asked]] if asked else outcome)


class IdleAcknowledges(Client):
    """Takes an idle after an edit for its entry: the edit waits no more."""

    def edit_message(self, i):
        self.is_sent = True
        return super().edit_message(i)

    def idle(self):
        if getattr(self, "is_sent", False) and self.waiting:
            del self.waiting[0]
            self.acknowledged += 1
        self.is_sent = False
        return "idle"


class OwnEntryStays(Client):
    """Counts the edit of an own entry among those that still wait while the entry is taken."""

    def take(self, own, change, outcome):
        if own:
            self.waiting.insert(0, change)
        super().take(own, change, outcome)
        if own:
            del self.waiting[0]


class ServerAlwaysWins(Client):
    """Takes what the server says also for fields that an edit of its own still writes."""

    def stays(self, id, what, name=None):
        return False


class DeletesBelow(Client):
    """Lays a deletion over all that stands below the object, and not over the object alone."""

    def lay_deletion(self, id):
        for child in [other for other, object in self.view.items() if object.place and object.place[0] == id]:
            self.lay_deletion(child)
        super().lay_deletion(id)


class ClearDoesNotStay(Client):
    """Forgets that a clear that waits keeps the property away."""

    def stays(self, id, what, name=None):
        return what != "clear" and super().stays(id, what, name)


class RefusedMoveChangesNothing(Client):
    """Leaves an object where a refused move had put it."""

    def take_refused_move(self, id, place):
        pass


class RefusedCreationStays(Client):
    """Leaves an object of its own that the server didn't create."""

    def take_refused_creation(self, id):
        pass


class RemovesTheFirst(Client):
    """Takes away the object that was deleted, and not those below it."""

    def take_removal(self, ids):
        super().take_removal(ids[:1])


class CopyLaysNothing(Client):
    """Shows a copy as it is, without the edits that wait."""

    def lay_waiting(self):
        pass


class CreationComesBack(Client):
    """Shows an object that it has deleted when the creation's entry comes."""

    def take_creation(self, id, change, place):
        if not self.in_view(id):
            self.view[id] = Object(change[2], place)
        super().take_creation(id, change, place)


WRONG = [ShownIsInTheTree, TakesTheAskedPlace, IdleAcknowledges, OwnEntryStays, ServerAlwaysWins, DeletesBelow, ClearDoesNotStay,
         RefusedMoveChangesNothing, RefusedCreationStays, RemovesTheFirst, CopyLaysNothing, CreationComesBack]


def finds(kind, vectors):
    """The vectors that tell this client from a right one."""
    found = []
    for name, lines in vectors:
        try:
            fault = play(kind(), lines)
        except Exception as error:
            fault = str(error)
        if fault:
            found.append(name)
    return found


def main(names):
    vectors = list(read(names))
    missed = 0
    for kind in WRONG:
        found = finds(kind, vectors)
        missed += not found
        print(f"{kind.__name__}: found by {len(found)} of {len(vectors)}" if found else f"{kind.__name__}: NOT FOUND")
    right = finds(Client, vectors)
    print(f"{len(WRONG) - missed} of {len(WRONG)} wrong clients found; the right one {'FAILS' if right else 'passes'}")
    return 1 if missed or right else 0


if __name__ == "__main__":
    sys.exit(main(sys.argv[1:]))
