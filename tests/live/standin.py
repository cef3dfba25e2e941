"""A stand-in for the client of packages/python if no library was built: the calls that a link and the storm use, over the simple merge of
examples/plain/merging.py. It tests nothing of the library."""

import json

import merging
from lugcurrant import FAULTS, ROOT, Client, ClientError, Heard, LibraryMissing, ObjectId, Shown, What
from lugcurrant.library import library
from lugcurrant.values import value_text

WORDS = {"idle": What.IDLE, "no": What.NO}


def has_library():
    try:
        library()
    except LibraryMissing:
        return False
    return True


def new_client():
    """Returns a client over the library, or a stand-in if there is none."""
    return Client() if has_library() else StandIn()


def over_what():
    return "over liblugcurrant.so" if has_library() else "over a stand-in, as there is no liblugcurrant.so"


def refusal(code):
    return ClientError(next(number for number, (name, _) in FAULTS.items() if name == code))


class StandIn:
    """The calls of lugcurrant.Client."""

    saved_to = 0

    def __init__(self):
        self.plain, self._watchers, self._view = merging.Client(), [], None

    id = property(lambda self: self.plain.id)
    version = property(lambda self: self.plain.version)
    acknowledged = property(lambda self: self.plain.acknowledged)
    waiting = property(lambda self: len(self.plain.waiting))
    last_edit = property(lambda self: self.acknowledged + self.waiting)

    def watch(self, told):
        self._watchers.append(told)
        return lambda: self._watchers.remove(told)

    def _tell(self, what, message=None):
        self._view = None
        for told in list(self._watchers):
            told(what, message)

    def receive(self, message):
        word, *rest = json.loads(message)
        if word in WORDS:
            return Heard(WORDS[word], *rest)
        what = self._receive([word, *rest])
        if what is What.TOOK:
            self._tell("took", message)
        return Heard(what)

    def _receive(self, message):
        if message[0] == "welcome":
            if self.id is not None:
                return What.OLD
        elif self.id is None:
            return What.NOT_FOR_ME
        elif message[1] <= self.version:
            return What.OLD
        elif message[0] == "entry" and message[1] > self.version + 1:
            return What.AHEAD
        try:
            self.plain.receive(message)
        except merging.AnotherHistory:
            return What.NOT_FOR_ME
        return What.TOOK

    def join_message(self):
        return b'["join",2]'

    def edit_message(self, i):
        if not 1 <= i <= self.waiting:
            return None
        message = ["edit", self.id, self.acknowledged + i, self.plain.waiting[i - 1]]
        return json.dumps(message, separators=(",", ":"), ensure_ascii=False).encode()

    def messages(self):
        return [self.edit_message(i) for i in range(1, self.waiting + 1)]

    def view(self):
        self._view = self.plain.view() if self._view is None else self._view
        return self._view

    def text(self):
        return "\n".join(merging.tree_text(self.view())) + "\n"

    def object(self, id):
        return self.view().get(tuple(id))

    def objects(self):
        view, children = self.view(), {}
        for name, it in sorted(view.items(), key=lambda pair: (pair[1]["place"] or [None, ""])[1]):
            if it["place"]:
                children.setdefault(tuple(it["place"][0]), []).append(ObjectId(*name))
        return {ObjectId(*name): Shown(ObjectId(*name), it["kind"], it["place"] and ObjectId(*it["place"][0]), it["place"][1] if it["place"] else "", it["props"],
                                       tuple(children.get(name, ())))
                for name, it in view.items() if merging.in_tree(view, name)}

    # Edits. Only the refusals that the storm meets are implemented.

    def _edit(self, act, *given):
        before = self.waiting
        act(*given)
        if self.waiting == before:
            raise refusal("BadParent")
        self._tell("edit")

    def create(self, kind, parent, after=None):
        self._edit(self.plain.create, kind, parent, after)

    def move(self, id, parent, after=None):
        if id == after:
            raise refusal("NotShown")
        self._edit(self.plain.move, id, parent, after)

    def set(self, id, name, value):
        self._edit(self.plain.waiting.append, ["set", list(id), name, json.loads(value_text(value))])

    def clear(self, id, name):
        self._edit(self.plain.waiting.append, ["clear", list(id), name])

    def delete(self, id):
        if id == ROOT:
            raise refusal("IsRoot")
        self._edit(self.plain.waiting.append, ["delete", list(id)])
