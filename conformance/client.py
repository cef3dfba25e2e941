"""The merge of a client, written by hand from docs/clients.md: what it shows, its edits that wait, and what it does with each message.

It has no connection and takes the positions of its edits as they are given: it is there to be tried by the vectors."""

import json

ROOT = (0, 0)


def compact(value):
    return json.dumps(value, separators=(",", ":"), ensure_ascii=False)


class Object:
    def __init__(self, kind, place):
        self.kind = kind
        self.place = place and (tuple(place[0]), place[1])  # None for the root: else the parent's id and the position
        self.properties = {}


class Client:
    def __init__(self):
        self.id = None
        self.version = 0
        self.acknowledged = 0
        self.waiting = []
        self.view = {ROOT: Object("document", None)}

    # What is sent.

    def join_message(self):
        return ["join", 2]

    def ask_message(self):
        return ["ask", self.id, self.version]

    def edit_message(self, i):
        """The i-th edit that waits, counted from 1."""
        return ["edit", self.id, self.acknowledged + i, self.waiting[i - 1]]

    # Its own edits.

    def edit(self, change):
        self.waiting.append(change)
        self.lay(change)

    def lay(self, change):
        """Lays a change over the view."""
        what, id, *rest = change
        object = self.in_view(tuple(id))
        if what == "set" and object:
            object.properties[rest[0]] = rest[1]
        elif what == "clear" and object:
            object.properties.pop(rest[0], None)
        elif tuple(id) == ROOT:
            pass
        elif what == "create" and not object:
            self.view[tuple(id)] = Object(*rest)
        elif what == "move" and object:
            object.place = (tuple(rest[0][0]), rest[0][1])
        elif what == "delete":
            self.lay_deletion(tuple(id))

    def lay_deletion(self, id):
        self.view.pop(id, None)

    def in_view(self, id):
        return self.view.get(id)

    # What it hears.

    def receive(self, message):
        """Takes a message, and says what it did: took, old, ahead, not for me, idle or no."""
        hear = {"welcome": self.welcome, "entry": self.entry, "copy": self.copy, "idle": self.idle, "no": lambda _: "no"}
        return hear[message[0]](*message[1:])

    def idle(self):
        return "idle"

    def welcome(self, id):
        if self.id is not None:
            return "old"
        self.id = id
        return "took"

    def copy(self, version, done, rows):
        if self.id is None:
            return "not for me"
        if version <= self.version:
            return "old"
        if not self.acknowledged <= done <= self.acknowledged + len(self.waiting):
            return "not for me"
        del self.waiting[: done - self.acknowledged]
        self.version, self.acknowledged, self.view = version, done, {}
        for id, kind, place, properties in rows:
            self.view[tuple(id)] = Object(kind, place)
            self.view[tuple(id)].properties = dict(properties)
        self.lay_waiting()
        return "took"

    def lay_waiting(self):
        for change in self.waiting:
            self.lay(change)

    def entry(self, version, entry):
        if self.id is None:
            return "not for me"
        if version <= self.version:
            return "old"
        if version > self.version + 1:
            return "ahead"
        author, number, what, outcome = entry
        own = author == self.id
        if own and not self.acknowledge(number, what):
            return "not for me"
        self.version = version
        if what != "join":
            self.take(own, what, outcome)
        return "took"

    def acknowledge(self, number, what):
        """Takes an own entry's edit out of those that wait, where it is the first of them."""
        if number != self.acknowledged + 1 or not self.waiting or self.waiting[0] != what:
            return False
        del self.waiting[0]
        self.acknowledged = number
        return True

    def take(self, own, change, outcome):
        what, id = change[0], tuple(change[1])
        said, *rest = outcome
        if said == "created":
            self.take_creation(id, change, rest[0])
        elif said == "wasset":
            self.take_property(id, change)
        elif said == "moved":
            self.take_place(id, rest[0])
        elif said == "removed":
            self.take_removal(rest[0])
        elif what == "move" and rest[1]:
            self.take_refused_move(id, rest[1])
        elif what == "create" and own:
            self.take_refused_creation(id)

    def take_creation(self, id, change, place):
        if self.in_view(id):
            self.take_place(id, place)
        elif not self.stays(id, "delete"):
            self.view[id] = Object(change[2], place)

    def take_property(self, id, change):
        object, name = self.in_view(id), change[2]
        if not object or self.stays(id, "set", name) or self.stays(id, "clear", name):
            return
        if change[0] == "set":
            object.properties[name] = change[3]
        else:
            object.properties.pop(name, None)

    def take_place(self, id, place):
        object = self.in_view(id)
        if object and id != ROOT and not self.stays(id, "move"):
            object.place = (tuple(place[0]), place[1])

    def take_removal(self, ids):
        for id in ids:
            self.view.pop(tuple(id), None)

    def take_refused_move(self, id, place):
        self.take_place(id, place)

    def take_refused_creation(self, id):
        self.view.pop(id, None)

    def stays(self, id, what, name=None):
        """Whether an edit of this object, and of this property, still waits."""
        return any(change[0] == what and tuple(change[1]) == id and (name is None or change[2] == name) for change in self.waiting)

    # What it shows.

    def text(self):
        """The tree as text, as `lugcurrant show` prints it."""
        children = {}
        for id, object in self.view.items():
            if object.place:
                children.setdefault(object.place[0], []).append((object.place[1], id))
        lines, stack = [], [(ROOT, 0)]
        while stack:
            id, depth = stack.pop()
            object, blanks = self.view[id], "  " * depth
            position = f" {object.place[1]}" if object.place else ""
            lines.append(f"{blanks}{id[0]}:{id[1]} {object.kind}{position}\n")
            lines += [f"{blanks}  .{name} {compact(value)}\n" for name, value in sorted(object.properties.items())]
            stack += [(child, depth + 1) for _, child in sorted(children.get(id, []), reverse=True)]
        return "".join(lines)
