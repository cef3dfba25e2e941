"""The kinds of work: for each a log of `scene`, whose lines before `begin` only make ready."""
import random
from dataclasses import dataclass, field
from typing import Callable

DEPTH = 100  # the greatest depth at which an object may be put
DIGITS = [chr(c) for c in range(33, 127)]  # without the blank, in which no position ends


def pos(number, width=4):
    """The position of so many digits that stands for a number."""
    digits = []
    for _ in range(width):
        number, digit = divmod(number, len(DIGITS))
        digits.append(DIGITS[digit])
    return "".join(reversed(digits))


@dataclass
class Log:
    """The lines of a log; those after `begin` are the work, whose operations are counted."""

    authors: int = 1
    lines: list = field(default_factory=list)
    used: list = field(default_factory=list)
    setup: int = 0
    operations: int = 0

    def __post_init__(self):
        self.lines = ["log"] + ["join"] * self.authors
        self.used = [0] * self.authors

    def begin(self):
        self.setup = len(self.lines)

    def add(self, line):
        self.lines.append(line)
        self.operations = len(self.lines) - self.setup

    def create(self, kind, parent, position, author=1):
        self.used[author - 1] += 1
        made = f"{author}:{self.used[author - 1]}"
        self.add(f"{author} create {made} {kind} {parent} {position}")
        return made

    def page(self):
        return self.create("page", "0:0", "O")

    def fill(self, count, size, position=lambda i: pos(2 * i)):
        """A page with so many shapes, by all authors in turn, in frames of a size."""
        page, frame, shapes = self.page(), None, []
        for i in range(count):
            author = i % self.authors + 1
            if i % size == 0:
                frame = self.create("frame", page, pos(i // size), author)
            shapes.append((self.create("shape", frame, position(i % size), author), frame))
        return page, shapes

    def chains(self, count):
        """Chains of frames in one another, each as deep as an object may stand."""
        page, last = self.page(), None
        for i in range(count):
            first = i % (DEPTH - 1) == 0
            parent, position = (page, pos(i)) if first else (last, "O")
            last = self.create("frame", parent, position)
        return page, last


def joins(count):
    log = Log(0)
    log.begin()
    for _ in range(count):
        log.add("join")
    return log


def creations(count, authors=1, **how):
    log = Log(authors)
    log.begin()
    log.fill(count, 100, **how)
    return log


def sets_on_one(count):
    log = Log()
    page = log.page()
    log.begin()
    for i in range(count):
        log.add(f"1 set {page} x {i}")
    return log


def sets_on_all(count):
    log = Log()
    _, shapes = log.fill(count, 100)
    log.begin()
    random.Random(1).shuffle(shapes)
    for i, (shape, _) in enumerate(shapes):
        log.add(f"1 set {shape} x {i}")
    return log


def moves(count, siblings):
    """Moves of any sibling to a place between any two, which is free."""
    log = Log()
    _, shapes = log.fill(siblings, siblings)
    log.begin()
    pick = random.Random(1)
    for i in range(count):
        shape, frame = pick.choice(shapes)
        log.add(f"1 move {shape} {frame} {pos(2 * pick.randrange(siblings) + 1)}{pos(i)}")
    return log


def deletion(count):
    log = Log()
    page, _ = log.fill(count, 100)
    log.begin()
    log.add(f"1 delete {page}")
    log.operations = sum(log.used)
    return log


def half_deletion(count):
    """Of two pages the one that was made first is deleted; all ids of the other are greater."""
    log = Log()
    page, _ = log.fill(count // 2, 100)
    removed = sum(log.used)
    log.fill(count // 2, 100)
    log.begin()
    log.add(f"1 delete {page}")
    log.operations = removed
    return log


def chains(count):
    log = Log()
    log.begin()
    log.chains(count)
    return log


def chain_deletion(count):
    log = Log()
    page, _ = log.chains(count)
    log.begin()
    log.add(f"1 delete {page}")
    log.operations = sum(log.used)
    return log


def chain_moves(count):
    """A hundred moves of one shape, to a parent as deep as one may stand and out again."""
    log = Log()
    page, _ = log.chains(count)
    _, last = log.chains(DEPTH - 2)
    shape = log.create("shape", page, "a")
    log.begin()
    for i in range(100):
        log.add(f"1 move {shape} {page if i % 2 else last} a")
    return log


def frame_moves(count, target):
    """Four hundred moves of one frame with all the shapes, to and fro: among its siblings, to
    another page, or into its sibling, where it stands a step deeper."""
    log = Log()
    page = log.page()
    frame = log.create("frame", page, "O")
    parents = {"sibling": page, "page": log.create("page", "0:0", "g"),
               "deeper": log.create("frame", page, "g")}
    for i in range(count):
        log.create("shape", frame, pos(i))
    log.begin()
    for i in range(200):
        log.add(f"1 move {frame} {parents[target]} P")
        log.add(f"1 move {frame} {page} O")
    return log


@dataclass
class Kind:
    name: str
    words: str
    log: Callable
    is_judged: bool = False  # then a peer that judges nothing has nothing to do


KINDS = [
    Kind("join", "joins", joins, True),
    Kind("create", "creations by one author", creations),
    Kind("create100", "creations by 100 authors", lambda n: creations(n, authors=100)),
    Kind("middle", "creations at a taken place", lambda n: creations(n, position=lambda i: "O")),
    Kind("set", "sets on one object", sets_on_one),
    Kind("setall", "sets, one on each object", sets_on_all),
    Kind("move", "moves among 100 siblings", lambda n: moves(n, 100)),
    Kind("moveall", "moves among n siblings", lambda n: moves(n, n)),
    Kind("delete", "one deletion of all objects", deletion),
    Kind("deletehalf", "one deletion of the older half", half_deletion),
    Kind("chain", "creations in chains as deep as may be", chains),
    Kind("chaindelete", "one deletion of such chains", chain_deletion),
    Kind("chainmove", "100 moves to a chain's end or back", chain_moves),
    Kind("framestay", "moves of a frame of n among its siblings",
         lambda n: frame_moves(n, "sibling")),
    Kind("framemove", "moves of a frame of n to another page and back",
         lambda n: frame_moves(n, "page")),
    Kind("framedeep", "moves of a frame of n a step deeper and back",
         lambda n: frame_moves(n, "deeper")),
]
