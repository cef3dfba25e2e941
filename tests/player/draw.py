"""What scripts are drawn from: how they begin, what a random player does next, and how they end. A script of a world is a list of events,
each the words of a line; `Ref` stands for the number or the id that an earlier event gave, so that events can be left out. A script of a log
is a list of requests."""

from typing import NamedTuple

from model import ROOT, below, siblings

MANY = 16  # more objects than so many are many
PAGE, FRAME, TOP = (2, 1), (2, 2), (2, 3)
CHAIN = 97  # how many frames are drawn one below the other in FRAME, which stands at 2: the last of them stands at 99
# Values of properties, as they are asked for and as they are shown.
VALUES = {text: text for text in ("1", "-2", "true", '"a b"')}
VALUES |= {'"\\u00e9"': '"é"', '[ "rgba", 255 ]': '["rgba",255]', '["list",1, ["list"]]': '["list",1,["list"]]'}
PROPS = ["fill", "fill", "size"]


class Ref(NamedTuple):
    """What the event of this number gave: a `message`, a `version` or an `object`."""

    what: str
    event: int


def name_in(text):
    """The object of this id; None for none."""
    return None if text == "-" else tuple(map(int, text.split(":")))


# How scripts begin.

# Three nodes get their ids, of which the first gets the second; it draws a page with two frames, and all three show them.
PAGE_EVENTS = [line.split() for line in """show a/show b/show c/join a/join b/join c/take 2/take 1/take 3/sync/publish/welcome 1/welcome 2
welcome 3/deliver 4/deliver 5/deliver 6/edit a create page 0:0 -/edit a create frame 2:1 -/edit a create frame 2:1 2:2/send a 1/send a 2
send a 3/take 7/take 8/take 9/sync/publish/copy a/copy b/copy c/deliver 10/deliver 11/deliver 12""".replace("\n", "/").split("/")]

# All three nodes show the chain. Node b moves it into the first frame, so that the last one stands at 100; node a doesn't know that when it
# draws a frame at 100, and it refuses itself one at 101. The server takes the move first, and refuses the frame.
LIMIT_EVENTS = [line.split() for line in """sync/publish/copy a/copy b/copy c/deliver 110/deliver 111/deliver 112/edit b move 2:3 2:2 -
edit a create frame 2:100 -/edit a create frame 2:101 -/send b 1/send a 1/take 113/take 114""".replace("\n", "/").split("/")]


def chain_events():
    """The first node draws, sends and has taken a chain of frames, each below the one before."""
    for number in range(CHAIN):
        yield ["edit", "a", "create", "frame", f"2:{number + 3}", "-"]
        yield ["send", "a", str(number + 1)]
        yield ["take", str(number + 13)]


OPENINGS = {"drawn": [], "page": PAGE_EVENTS, "chain": [*PAGE_EVENTS, *chain_events(), *LIMIT_EVENTS]}


# What a random player does next.


def comes(dice, chances):
    """Whether one of so many equal chances comes."""
    return dice.randrange(chances) == 0


def draw_shown(dice, names):
    """An object among those that are shown; of many, one of the first or of the last, so that a long chain changes mostly at its ends."""
    if len(names) <= MANY:
        return dice.choice(names)
    return dice.choice(names[: MANY // 2] + names[-MANY // 2 :])


def draw_object(dice, names):
    """An object that is shown, or now and then any id."""
    return (dice.randrange(5), dice.randrange(10)) if comes(dice, 24) else draw_shown(dice, names)


def draw_lower(dice, names):
    """An object, mostly not the root."""
    name = draw_object(dice, names)
    return draw_object(dice, names) if name == ROOT else name


def draw_parent(dice, view, names):
    """A parent, mostly one that may have children; where many objects are shown, often the deepest frame."""
    if len(names) > MANY and comes(dice, 3):
        return deepest_frame(view, names)
    name = draw_lower(dice, names)
    return draw_lower(dice, names) if name in view and view[name].kind in ("shape", "text") else name


def deepest_frame(view, names):
    depths = below(view, ROOT)
    return max((name for name in names if name in depths and view[name].kind == "frame"), key=depths.get, default=ROOT)


def draw_child(dice, view, names, parent):
    """A child to come after, mostly one of this parent, or none."""
    name = draw_object(dice, names)
    return name if name in view and (view[name].parent == parent or comes(dice, 16)) else None


def draw_kind(dice, parent):
    """A kind for a new child, mostly one that may stand there."""
    if parent == ROOT and not comes(dice, 16):
        return "page"
    return dice.choice(["page"] + 12 * ["frame"] + 2 * ["shape"] + ["text"])


def draw_wish(dice, view):
    """What a user asks for who sees this."""
    names = sorted(view)
    name, parent = draw_lower(dice, names), draw_parent(dice, view, names)
    side = dice.randrange(16)
    if side < 6:
        return "create", draw_kind(dice, parent), parent, draw_child(dice, view, names, parent)
    if side < 9:
        prop = dice.choice(PROPS)
        return ("clear", name, prop) if comes(dice, 4) else ("set", name, prop, dice.choice(list(VALUES)))
    if side < 14:
        return "move", name, parent, draw_child(dice, view, names, parent)
    # Among many objects one of the last is deleted, so that a long chain isn't deleted as a whole.
    return "delete", dice.choice(names[-MANY // 2 :]) if len(names) > MANY else name


def draw_letter(dice, world):
    """A message, mostly one of the last."""
    count = len(world.letters)
    return dice.randrange(count + 2) if comes(dice, 4) else max(0, count - dice.randrange(6))


def draw_version(dice, node):
    """A version, mostly the next one of the node."""
    return dice.randrange(node.version + 4) if comes(dice, 8) else node.version + 1


def draw_service(dice, world, name):
    """An event of the server alone, or a rare one of a node."""
    side = dice.randrange(16)
    if side < 7:
        return ["sync"]
    if side < 9:
        return ["publish"]
    if side == 9:
        return ["checkpoint"]
    if side < 12:
        return ["restart", max(0, world.synced + dice.randrange(4) - 1)]
    if side == 12 and len(world.nodes) < 4:
        return ["show", "abcd"[len(world.nodes)]]
    if side == 13:
        return ["join", name]
    if side == 14:
        return ["welcome", dice.randrange(world.server.version + 2)]
    return ["copy", name]


def draw_any(dice, world):
    """Any event."""
    if not world.nodes:
        return ["show", "a"]
    name = dice.choice(list(world.nodes))
    node, side = world.nodes[name], dice.randrange(16)
    if side < 5:
        return ["edit", name, *draw_wish(dice, world.view(node))]
    if side < 10:
        return ["send", name, dice.randrange(2) + 1]
    if side == 10:
        return ["take", draw_letter(dice, world)]
    if side < 13:
        return ["tell", draw_version(dice, node), name]
    if side == 13:
        return ["deliver", draw_letter(dice, world)]
    return draw_service(dice, world, name)


def draw_next(dice, world, words, answer):
    """What mostly follows an event that was answered so: a message arrives, what is synced is published, a node that took an entry is told the
    next one, and now and then a move into an object is crossed by another node's move the other way."""
    if answer.startswith("message "):
        letter = world.letters[-1]
        return ["take" if letter.word in ("join", "edit") else "deliver", len(world.letters)]
    if words[0] == "sync":
        return ["publish"]
    if words[0] == "deliver" and answer == "took":
        node = world.letters[int(words[1]) - 1].node
        if node.version < world.published:
            return ["tell", node.version + 1, node.name]
    if words[0] == "edit" and words[2] == "move" and answer.startswith("edit ") and comes(dice, 3):
        other = dice.choice(list(world.nodes))
        return ["edit", other, "move", name_in(words[4]), name_in(words[3]), None] if other != words[1] else None
    return None


# How scripts end.


def draw_last(world):
    """The next event by which each node with an id has its edits judged one after the other and reaches the last version, so that what was
    hidden in a view comes to light; None where all of that has happened."""
    if world.published < world.server.version:
        return ["sync"] if world.synced < world.server.version else ["publish"]
    for name, node in world.nodes.items():
        if node.id is not None and node.version < world.published:
            far = node.version < world.floor or world.published - node.version > MANY
            return ["copy", name] if far else ["tell", node.version + 1, name]
    for name, node in world.nodes.items():
        if node.waiting():
            return ["send", name, 1]
    return None


# Requests of a log, judged without clients: any author asks for any id at any position.

POSITIONS = ["O", "g", "7", "[", "P", "OO", "O O", "O!", "!", "~", "~~~~", 127 * "O", 128 * "O", 127 * "O" + "P", 128 * "~", 127 * " " + "!"]


def draw_position(dice, document, parent):
    """A position, often one that is taken."""
    taken = sorted(siblings(document, parent))
    if taken and comes(dice, 2):
        return dice.choice(taken)
    return dice.choice(POSITIONS)


def draw_request(dice, server):
    """The words of a request, but for the spelling of ids and values."""
    document, names = server.documents[-1], sorted(server.documents[-1])
    if len(server.edits) < 2 or comes(dice, 40):
        return ["join"]
    author = dice.randrange(1, len(server.edits) + 1 + comes(dice, 20))
    name, parent = draw_object(dice, names), draw_parent(dice, document, names)
    side, place = dice.randrange(16), (parent, draw_position(dice, document, parent))
    used = server.used(author) if author in server.edits else 0
    if side < 8:
        new = draw_object(dice, names) if comes(dice, 12) else (author, used + dice.choice([1, 1, 1, 1, 1, 1, 2, 0]))
        return [author, "create", new, draw_kind(dice, parent), *place]
    if side < 10:
        prop = dice.choice(PROPS)
        return [author, "clear", name, prop] if comes(dice, 4) else [author, "set", name, prop, dice.choice(list(VALUES))]
    if side < 15:
        return [author, "move", name, *place]
    return [author, "delete", names[-1] if len(names) > MANY else name]


def chain_requests():
    """A page and as many frames one below the other as may be, and one more, which is too deep."""
    yield ["join"]
    yield [1, "create", (1, 1), "page", ROOT, "O"]
    for counter in range(2, 102):
        yield [1, "create", (1, counter), "frame", (1, counter - 1), "O"]
