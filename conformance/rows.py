#!/usr/bin/env python3
"""Which rows of the merge table the vectors meet, and how often:  rows.py FILE..   Status 1 where there is one that none meets."""

import collections
import json
import sys

from client import ROOT, Client
from run import play, read
from wrong import ShownIsInTheTree

REASONS = {1: "IsRoot", 2: "BadId", 3: "Gone", 4: "ParentGone", 5: "BadParent", 6: "Cycle", 7: "Crowded", 8: "TooDeep"}
LOCAL = ["NotOpen", "IsRoot", "NotShown", "ParentNotShown", "BadParent", "OwnDescendant", "TooDeep", "Crowded"]

ROWS = [
    "join",
    "created, own, in the view", "created, own, in the view, a move stays", "created, own, not in the view, a deletion stays",
    "created, another's, not in the view",
    *[f"{what}, {where}" for what in ("set", "clear") for where in
      ("own, in the view", "another's, in the view", "in the view, a set stays", "in the view, a clear stays", "not in the view")],
    "moved, own, in the view", "moved, another's, in the view", "in the view, a move stays", "moved, not in the view",
    "removed, own", "removed, another's", "removed, several", "removed, one is not in the view",
    "move refused, own, place given back", "move refused, a later move stays", "move refused, not in the view", "move refused, no place",
    "creation refused, own, in the view", "creation refused, own, not in the view", "creation refused, another's",
    *[f"{what} refused, {whose}" for what in ("set", "clear", "delete", "move") for whose in ("own", "another's")],
    *[f"refused by {name}, another's" for name in REASONS.values()],
    *[f"refused by {REASONS[reason]}, own" for reason in (3, 4, 6, 7, 8)],
    "a place other than asked, own", "a place other than asked, another's",
    "not in the tree: a property", "not in the tree: a place", "not in the tree: a creation",
    "copy, nothing waits", "copy, some were judged and some wait", "copy old", "copy not for me, too few done", "copy not for me, too many done",
    *[f"laid over a copy: {what}" for what in ("create", "set", "clear", "move", "delete", "set, not there", "move, not there", "the root's property")],
    "entry old", "entry ahead", "entry not for me", "welcome took", "welcome old", "idle",
    *[f"no {reason}" for reason in (1, 3, 4, 5, 6, 7, 8, 9)],
    *[f"the client refuses: {name}" for name in LOCAL],
]


class Counting(Client):
    """The right client, which counts the rows that it meets."""

    in_tree = ShownIsInTheTree.in_tree

    def __init__(self, counts):
        self.counts, self.own, self.is_laying = counts, False, False
        super().__init__()

    def met(self, row):
        self.counts[row] += 1

    def whose(self):
        return "own" if self.own else "another's"

    def receive(self, message):
        before = self.acknowledged, len(self.waiting)
        heard = super().receive(message)
        word = message[0]
        if word in ("entry", "welcome") and f"{word} {heard}" in ROWS:
            self.met(f"{word} {heard}")
        elif word == "copy":
            self.meet_copy(message[2], before, heard)
        elif word == "idle":
            self.met("idle")
        elif word == "no":
            self.met(f"no {message[1]}")
        return heard

    def meet_copy(self, done, before, heard):
        acknowledged, waiting = before
        if heard == "old":
            self.met("copy old")
        elif heard == "not for me":
            self.met("copy not for me, too few done" if done < acknowledged else "copy not for me, too many done")
        elif not waiting:
            self.met("copy, nothing waits")
        elif acknowledged < done < acknowledged + waiting:
            self.met("copy, some were judged and some wait")

    def lay_waiting(self):
        self.is_laying = True
        super().lay_waiting()
        self.is_laying = False

    def lay(self, change):
        what, id = change[0], tuple(change[1])
        if self.is_laying:
            self.met("laid over a copy: the root's property" if id == ROOT else f"laid over a copy: {what}")
            if not self.in_view(id) and what in ("set", "move"):
                self.met(f"laid over a copy: {what}, not there")
        super().lay(change)

    def entry(self, version, entry):
        self.own = entry[0] == self.id
        heard = super().entry(version, entry)
        if heard == "took" and entry[2] == "join":
            self.met("join")
        return heard

    def take(self, own, change, outcome):
        if outcome[0] == "refused":
            what = "creation" if change[0] == "create" else change[0]
            self.met(f"{what} refused, {self.whose()}")
            self.met(f"refused by {REASONS[outcome[1]]}, {self.whose()}")
            if what == "move" and not outcome[2]:
                self.met("move refused, no place")
        elif outcome[0] in ("created", "moved") and outcome[1] != change[-1]:
            self.met(f"a place other than asked, {self.whose()}")
        super().take(own, change, outcome)

    def take_creation(self, id, change, place):
        row = f"created, {self.whose()}, {'' if self.in_view(id) else 'not '}in the view"
        stays = "a move" if self.in_view(id) and self.stays(id, "move") else "a deletion" if not self.in_view(id) and self.stays(id, "delete") else None
        self.met(f"{row}, {stays} stays" if stays else row)
        super().take_creation(id, change, place)
        if self.in_view(id) and not self.in_tree(id):
            self.met("not in the tree: a creation")

    def take_property(self, id, change):
        what, name = change[0], change[2]
        if not self.in_view(id):
            self.met(f"{what}, not in the view")
        elif self.stays(id, "set", name) or self.stays(id, "clear", name):
            self.met(f"{what}, in the view, a {'set' if self.stays(id, 'set', name) else 'clear'} stays")
        else:
            self.met(f"{what}, {self.whose()}, in the view")
            if not self.in_tree(id):
                self.met("not in the tree: a property")
        super().take_property(id, change)

    def take_place(self, id, place):
        if not self.in_view(id):
            self.met("moved, not in the view")
        elif self.stays(id, "move"):
            self.met("in the view, a move stays")
        else:
            self.met(f"moved, {self.whose()}, in the view")
            if not self.in_tree(id):
                self.met("not in the tree: a place")
        super().take_place(id, place)

    def take_refused_move(self, id, place):
        if not self.in_view(id):
            self.met("move refused, not in the view")
        elif self.stays(id, "move"):
            self.met("move refused, a later move stays")
        elif self.own:
            self.met("move refused, own, place given back")
        super().take_refused_move(id, place)

    def take_refused_creation(self, id):
        self.met(f"creation refused, own, {'' if self.in_view(id) else 'not '}in the view")
        super().take_refused_creation(id)

    def take_removal(self, ids):
        self.met(f"removed, {self.whose()}")
        if len(ids) > 1:
            self.met("removed, several")
        if any(not self.in_view(tuple(id)) for id in ids):
            self.met("removed, one is not in the view")
        super().take_removal(ids)


def main(names):
    counts = collections.Counter()
    for name, lines in read(names):
        fault = play(Counting(counts), lines)
        if fault:
            print(f"{name}: {fault}")
            return 1
        for line in lines:
            word, *rest = json.loads(line)
            if word == "refused":
                counts[f"the client refuses: {rest[1]}"] += 1
    for row in ROWS:
        print(f"{counts[row]:6} {row}")
    missed = [row for row in ROWS if not counts[row]]
    print(f"{len(ROWS) - len(missed)} of {len(ROWS)} rows met")
    return 1 if missed else 0


if __name__ == "__main__":
    sys.exit(main(sys.argv[1:]))
