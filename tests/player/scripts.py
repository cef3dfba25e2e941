"""Scripts that are being played by the model: of a world, and of a log. Each keeps its events, the lines that ask them of `scene`, and the lines
that `scene` must answer. Events can be played once more, without some of them."""

import collections

import draw
from draw import Ref, name_in
from model import ROOT, Server, World, above, below, outcome_text, text_of


def spelled(word):
    """A word as it stands in a line."""
    if word is None:
        return "-"
    return text_of(word) if isinstance(word, tuple) else str(word)


class Script:
    """Events, the lines of each, and the lines that answer these."""

    def __init__(self):
        self.met = collections.Counter()
        self.events, self.asked, self.answered = [], [], []

    def input(self):
        return "\n".join([self.first, *(line for lines in self.asked for line in lines)]) + "\n"

    def output(self):
        return [line for lines in self.answered for line in lines] + self.report()

    def events_before(self, line):
        """How many events are played by the time that this line is written."""
        for index, lines in enumerate(self.answered):
            line -= len(lines)
            if line < 0:
                return index + 1
        return len(self.answered)

    def count_verdict(self, change, outcome):
        """Counts what became of a change."""
        said, *rest = outcome
        self.met[f"refused {rest[0]}" if said == "refused" else "granted"] += 1
        self.met["elsewhere"] += said in ("created", "moved") and tuple(rest) != tuple(change[-2:])


class WorldScript(Script):
    """A script of a world."""

    first = "world"

    def __init__(self):
        super().__init__()
        self.world = World()
        self.given, self.giver = {}, {}
        self.blocks = {}
        self.logs = []

    # Events whose numbers are those of events before.

    def refer(self, words):
        """The words, with a `Ref` in place of each number and id that an event gave."""
        word, *rest = map(spelled, words)
        if word in ("take", "deliver"):
            return [word, self.giver.get(("message", rest[0]), rest[0])]
        if word in ("welcome", "tell", "restart"):
            return [word, self.giver.get(("version", rest[0]), rest[0]), *rest[1:]]
        return [word, *(self.giver.get(("object", text), text) for text in rest)]

    def resolve(self, words):
        """The words of a line; None where one refers to an event that was left out."""
        texts = [self.given.get(word) if isinstance(word, Ref) else word for word in words]
        return None if None in texts else texts

    def note(self, number, words, answer):
        """Notes what an event gave."""
        what = {"message": "message", "judged": "version"}.get(answer.split()[0])
        text = answer.split()[-1]
        if words[0] == "edit" and words[2] == "create" and answer.startswith("edit "):
            what, text = "object", text_of(self.world.nodes[words[1]].made[-1][1])
        if what:
            self.given[Ref(what, number)] = text
            self.giver[what, text] = Ref(what, number)

    # Playing.

    def play(self, words, number=None, shows=True):
        """Plays an event of which the words were drawn, or which another script had under this number. Its words and answer."""
        event = words if number is not None else self.refer(words)
        number = len(self.events) if number is None else number
        texts = self.resolve(event)
        if texts is None:
            return None, None
        answer = self.answer(texts)
        self.count(texts, answer)
        self.note(number, texts, answer)
        shown = self.show() if shows else ([], [])
        self.events.append((number, event))
        self.asked.append([" ".join(texts), *shown[0]])
        self.answered.append([*(self.block(texts[1]) if texts[0] == "show" else [answer]), *shown[1]])
        self.count_pairs()
        return texts, answer

    def answer(self, texts):
        """What the model answers a line."""
        word, *rest = texts
        world = self.world
        if word == "show":
            world.node(rest[0])
            return "shown"
        if word == "edit":
            return world.edit(rest[0], *self.wish(rest[1:]))
        if word == "restart":
            self.keep_log(int(rest[0]))
        return getattr(world, word)(*(int(text) if text.isdigit() else text for text in rest))

    def wish(self, texts):
        """What a user asks for, as the model takes it."""
        word, *rest = texts
        if word == "create":
            return word, rest[0], name_in(rest[1]), name_in(rest[2])
        if word == "set":
            return word, name_in(rest[0]), rest[1], draw.VALUES[rest[2]]
        if word == "clear":
            return word, name_in(rest[0]), rest[1]
        return (word, *map(name_in, rest))

    def keep_log(self, version):
        """Keeps the log that stands before a restart which drops some of it."""
        log = self.world.server.log
        if self.world.synced <= version < len(log):
            self.met["lost"] += 1
            self.logs.append(list(log))

    def show(self):
        """The lines that show the server and each node, and what they are answered."""
        names = list(self.world.nodes)
        blocks = [self.block(name) for name in ["server", *names]]
        return [f"show {name}" for name in ["server", *names]], [line for block in blocks for line in block]

    def block(self, name):
        """A block of the report, made anew where something has changed."""
        world, node = self.world, self.world.nodes.get(name)
        if node:
            key = node.id, node.version, node.acknowledged, len(node.made)
        else:
            key = world.server.version, world.synced, world.published, world.floor, len(self.logs)
        if self.blocks.get(name, (None,))[0] != key:
            self.blocks[name] = key, self.node_block(node) if node else world.server_block()
        return self.blocks[name][1]

    def node_block(self, node):
        """A node's block. Nothing shows a line more, by which the model itself would break the promise."""
        self.count_hidden(self.world.view(node))
        kept = self.world.keeps_acknowledged(node)
        return self.world.node_block(node.name) + ([] if kept else ["the acknowledged edits don't stand in the log once, in their order"])

    # What was met.

    def count(self, texts, answer):
        """Counts an event by its answer."""
        self.met["events"] += 1
        self.met["answered " + answer.rstrip("0123456789 ")] += 1
        if texts[0] == "take" and answer.startswith("judged ") and self.world.server.log[-1].change:
            self.count_verdict(*self.world.server.log[-1][2:])

    def count_hidden(self, view):
        """Counts whether a view has objects that aren't in its tree, and whether some of these are each other's parents."""
        shown = below(view, ROOT)
        hidden = [name for name in view if name not in shown]
        self.met["hidden"] += bool(hidden)
        self.met["cycles"] += any(view[above(view, name)[-1]].parent in view for name in hidden)

    def count_pairs(self):
        """Counts the pairs of nodes that are at one version with nothing waiting. They are shown alike: each is shown as the model says."""
        level = collections.Counter(node.version for node in self.world.nodes.values() if node.version and not node.waiting())
        self.met["pairs"] += sum(count * (count - 1) // 2 for count in level.values())

    def report(self):
        return self.show()[1]


class LogScript(Script):
    """A log of requests."""

    first = "log"

    def __init__(self):
        super().__init__()
        self.server = Server()

    def play(self, request, *_, **__):
        self.events.append((len(self.events), request))
        self.asked.append([" ".join(map(spelled, request))])
        self.answered.append([self.answer(request)])

    def answer(self, request):
        if request == ["join"]:
            outcome = self.server.join().outcome
            return f"{self.server.version} {outcome_text(outcome)}"
        author, *change = request
        if author not in self.server.edits:
            return "stranger"
        if change[0] == "set":
            change[3] = draw.VALUES[change[3]]
        outcome = self.server.edit(author, self.server.done(author) + 1, tuple(change)).outcome
        self.count_verdict(change, outcome)
        return f"{self.server.version} {outcome_text(outcome)}"

    def report(self):
        """The version, and the live objects in the order of their ids."""
        lines = [f"version {self.server.version}"]
        for name, it in sorted(self.server.documents[-1].items()):
            lines.append(f"{text_of(name)} {it.kind}" + (f" {text_of(it.parent)} {it.position}" if it.parent else ""))
            lines += [f"  .{key} {value}" for key, value in sorted(it.props.items())]
        return lines
