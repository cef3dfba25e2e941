"""The clients of the storm: links of the packages on live connections, and older clients, which only ask. Each records its edits by their numbers, and
the entries that it received by their versions."""

import asyncio
import json
import os
import threading
import time

import merging
from lugcurrant import ROOT, ClientError, Colour, Link, State
from lugcurrant.remake import change_of
from shared import require
from standin import new_client

LIMIT = float(os.environ.get("H_LIMIT", 300))  # seconds that a step may take, on a machine that may be busy

KINDS = ("page", "frame", "shape", "text")
VALUES = (1, -7, True, 'a\n"\u00e9\U0001f600', Colour(255), [2, ["b"]])
BURSTS = (1, 1, 1, 2, 5, 12)
PAUSE = 0.04  # mean seconds between two bursts
HERE = os.path.dirname(os.path.abspath(__file__))


def edit_at_random(client, dice):
    """Makes a random edit, unless the client refuses it."""
    objects = list(client.objects().values())
    it, holder = dice.choice(objects), dice.choice(objects)
    after, act = dice.choice([None, *holder.children]), dice.randrange(20)
    try:
        if act < 7:
            client.create(dice.choice(KINDS), holder.id, after)
        elif act < 12:
            client.set(it.id, dice.choice("xyz"), dice.choice(VALUES))
        elif act < 13:
            client.clear(it.id, dice.choice("xyz"))
        elif act < 19:
            client.move(it.id, holder.id, after)
        elif it.id != ROOT and len(objects) > 8:
            client.delete(it.id)
    except ClientError:
        pass


class Player:
    """A client with its records: changes by number, entries by version, and faults. `count` is called with the number of edits that were made."""

    def __init__(self, name, count):
        self.name, self.count = name, count
        self.made, self.entries, self.faults = {}, {}, []

    def make(self, number, change):
        """Records an edit. No number may be used twice."""
        require(number not in self.made, self.name, "has used the number", number, "twice")
        self.made[number] = change
        self.count(1)

    def take(self, version, entry):
        """Records an entry. It must be the same each time."""
        require(self.entries.setdefault(version, entry) == entry, self.name, "received for version", version, "first", self.entries[version], "and then", entry)


class LivePlayer(Player):
    """A link of the package for Python."""

    def __init__(self, name, count, dice, url, bursts):
        super().__init__(name, count)
        self.dice, self.bursts, self.client = dice, bursts, new_client()
        self.client.watch(self._watched)
        self.link = Link(self.client, url, retry=0.05, most_retry=0.4, patience=LIMIT, state=self._turns)
        self.link._flow.begin_anew = self._begins_anew
        self.task = None

    id = property(lambda self: self.client.id)
    version = property(lambda self: self.client.version)
    last_edit = property(lambda self: self.client.last_edit)

    def _watched(self, what, message):
        if what == "edit":
            self.make(self.client.last_edit, json.loads(change_of(self.client.edit_message(self.client.waiting))))
        elif what == "took" and message.startswith(b'["entry",'):
            self.take(*json.loads(message)[1:])

    def _turns(self, link):
        if link.state in (State.FAULT, State.ANOTHER_DOCUMENT):
            self.faults.append(f"{link.state.value}: {link.words}")

    def _begins_anew(self, state, **_):
        self.faults.append(f"begins anew: {state.value}")
        self.link.close()

    async def play(self):
        """Makes its bursts of edits."""
        self.task = asyncio.create_task(self.link.run())
        await self.link.ready()
        for _ in range(self.bursts):
            for _ in range(self.dice.choice(BURSTS)):
                edit_at_random(self.client, self.dice)
            await asyncio.sleep(self.dice.expovariate(1 / PAUSE))

    async def settle(self):
        await self.link.settled()

    async def reaches(self, version):
        """Waits until the client has this version."""
        while self.version < version and not self.faults:
            await asyncio.sleep(0.005)

    async def end(self):
        self.link.close()
        if self.task:
            await self.task

    def shown(self):
        return self.client.text()

    def state(self):
        under_way = [it.what for it in self.link._flow.fifo]
        return f"{self.link.state.value} at version {self.version}, {self.client.waiting} of {self.last_edit} edits wait, live {self.link._flow.is_live}, under way {under_way}"


class OldPlayer(Player):
    """A client that asks, in a thread of its own."""

    def __init__(self, name, count, dice, port, bursts):
        super().__init__(name, count)
        self.dice, self.port, self.bursts = dice, port, bursts
        self.client, self.line, self._ends = merging.Client(), None, threading.Event()
        self._receive, self.client.receive = self.client.receive, self._noted

    id = property(lambda self: self.client.id)
    version = property(lambda self: self.client.version)
    last_edit = property(lambda self: self.client.acknowledged + len(self.client.waiting))

    def _noted(self, message):
        if message[0] == "entry" and self.client.id is not None:
            self.take(*message[1:])
        self._receive(message)

    async def play(self):
        await asyncio.to_thread(self._play)

    def _play(self):
        for _ in range(self.bursts):
            if self._ends.is_set():
                return
            before = self.last_edit
            for _ in range(self.dice.choice(BURSTS) if self.client.id else 0):
                merging.edit_at_random(self.client, self.dice)
            for number in range(before + 1, self.last_edit + 1):
                self.make(number, self.client.waiting[number - self.client.acknowledged - 1])
            self._exchange()
            time.sleep(self.dice.expovariate(1 / PAUSE))

    def _exchange(self):
        """Sends what waits and asks for the rest. Returns whether the connection lasted."""
        try:
            if self.line is None:
                self.line = merging.Link(self.port)
                self.line.socket.settimeout(LIMIT)
            self.client.exchange(self.line)
            return True
        except OSError:
            self.drop()
            time.sleep(0.05)
            return False

    def drop(self):
        line, self.line = self.line, None
        if line:
            line.stream.close()
            line.socket.close()

    async def settle(self):
        await self._until(lambda: self.client.id and not self.client.waiting)

    async def reaches(self, version):
        await self._until(lambda: self.version >= version)

    async def _until(self, holds):
        while not (await asyncio.to_thread(self._exchange) and holds()):
            await asyncio.sleep(0.02)

    async def end(self):
        self._ends.set()
        self.drop()

    def shown(self):
        return "\n".join(merging.tree_text(self.client.view())) + "\n"

    def state(self):
        return f"at version {self.version}, {len(self.client.waiting)} of {self.last_edit} edits wait"


class NodePlayer(Player):
    """A link of the package for JavaScript in a process of its own: player.mjs."""

    def __init__(self, name, count, dice, url, bursts):
        super().__init__(name, count)
        self.words = ["node", "--no-warnings", "--experimental-websocket", os.path.join(HERE, "player.mjs"), url, str(dice.randrange(1 << 31)), str(bursts)]
        self.process, self.ended, self.found = None, False, {}

    id = property(lambda self: self.found["id"])
    version = property(lambda self: self.found["version"])
    last_edit = property(lambda self: self.found["lastEdit"])

    async def _hear(self, word):
        """Reads its lines up to one of this word, and returns the value of that one."""
        while line := await self.process.stdout.readline():
            heard, given = json.loads(line)
            if heard == "made":
                self.make(int(given[0]), given[1])
            elif heard == "fault":
                self.faults.append(given)
                return None
            elif heard == word:
                return given
        self.faults.append("its process has ended")
        return None

    async def play(self):
        pipe = asyncio.subprocess.PIPE
        self.process = await asyncio.create_subprocess_exec(*self.words, stdin=pipe, stdout=pipe, limit=1 << 26)
        await self._hear("played")

    async def settle(self):
        self.process.stdin.write(b"settle\n")
        await self._hear("settled")

    async def reaches(self, version):
        self.process.stdin.write(b"%d\n" % version)
        self.found = await self._hear("reached") or {"id": 0, "version": 0, "lastEdit": 0, "text": ""}
        for message in self.found.get("entries", ()):
            self.take(*json.loads(message)[1:])

    async def end(self):
        if self.process and self.process.returncode is None:
            self.process.kill()
            await self.process.wait()

    def shown(self):
        return self.found["text"]

    def state(self):
        return f"{len(self.made)} edits made, found {self.found.get('version')}"
