"""The storm: live and older clients edit one document and lose their connections with edits under way, and the server is killed and started again. At
the end all clients have the same document, and each edit is in the log once."""

import asyncio
import json
import random
import re
import shutil

import shared
from players import LIMIT, LivePlayer, NodePlayer, OldPlayer
from proxy import Proxy
from shared import Wrong, require

LEAST_BURSTS, MOST_BURSTS = 12, 36
MEAN_CUT = (1500, 6000, 25000)  # mean number of bytes after which a connection is cut
NODE_GOES = 4  # one go in four has a client in node
NO_LOSS = b"no loss: a crash may have left it so\n"


class Storm:
    """One go. Its seed decides all but the timing."""

    def __init__(self, program, room, seed):
        self.program, self.room = program, room
        self.dice = dice = random.Random(f"storm {seed}")
        self.server = shared.Server([program, "serve", room, "--quiet"], f"{room}.log")
        self.proxy = Proxy(self._dice(), self.server.port, dice.choice(MEAN_CUT))
        self.live, self.old, self.bursts = dice.randint(2, 6), dice.randint(0, 2), dice.randint(LEAST_BURSTS, MOST_BURSTS)
        self.with_node = seed % NODE_GOES == 0 and shutil.which("node") is not None
        self.kills = dice.randint(0, 2)
        # The numbers of edits after which the server is killed. A burst has some 2.5 edits that the client doesn't refuse.
        self.kill_at = sorted(dice.uniform(0.05, 0.9) * 2.5 * self.bursts * (self.live + self.old) for _ in range(self.kills))
        self.players, self.edits, self.entries, self.killer, self.all_played, self.joined = [], 0, {}, None, False, 0

    def _dice(self):
        return random.Random(self.dice.random())

    def _count(self, edits):
        self.edits += edits

    async def begin(self):
        await self.proxy.begin()
        url, port = f"ws://127.0.0.1:{self.proxy.port}/", self.proxy.port
        for number in range(1, self.live + 1):
            kind = NodePlayer if self.with_node and number == 1 else LivePlayer
            self.players.append(kind(f"live client {number}", self._count, self._dice(), url, self.bursts))
        self.players += [OldPlayer(f"older client {number}", self._count, self._dice(), port, self.bursts) for number in range(1, self.old + 1)]
        # A client without the proxy that makes no edit: it receives almost every entry.
        self.players.append(LivePlayer("observer", self._count, self._dice(), f"ws://127.0.0.1:{self.server.port}/", 0))
        self.killer = asyncio.create_task(self._kill())

    async def _kill(self):
        """Kills the server and starts it again, each time once enough edits were made, or all."""
        for at in self.kill_at:
            while self.edits < at and not self.all_played:
                await asyncio.sleep(0.01)
            await asyncio.to_thread(self.server.kill)
            await asyncio.sleep(self.dice.uniform(0, 0.2))
            await asyncio.to_thread(self._read_log)
            await asyncio.to_thread(self.server.start)

    def _read_log(self):
        """Records the entries after the last checkpoint: the next start makes another checkpoint."""
        for line in shared.call(self.program, "log", self.room).splitlines():
            self._record("the log", *json.loads(line)[1:])

    def _record(self, who, version, entry):
        require(self.entries.setdefault(version, entry) == entry, who, "has for version", version, entry, "and another one has", self.entries[version])

    async def play(self):
        """Has all clients edit, and then catch up. Returns the last version."""
        await self._all("played", (player.play() for player in self.players))
        self.all_played = True
        await self._all("come to the last kill", [asyncio.wait({self.killer})])
        self.proxy.is_calm = True
        await self._all("settled", (player.settle() for player in self.players))
        self.joined = await asyncio.to_thread(self._join)
        version = await asyncio.to_thread(self._version)
        await self._all(f"reached version {version}", (player.reaches(version) for player in self.players))
        return version

    def _version(self):
        return int(re.search(r"(?m)^lugcurrant_version (\d+)$", self.server.get("/metrics")[2].decode())[1])

    def _join(self):
        """Joins once more. Returns the id, which is the number of all joins."""
        client = shared.Client(self.server.port, timeout=LIMIT)
        name = client.join()
        client.leave()
        return name

    async def _all(self, what, tasks):
        """Waits for all of these tasks. Fails if a client has a fault, or if not all have done `what` in time."""
        pending = {asyncio.create_task(task) for task in tasks}
        try:
            async with asyncio.timeout(LIMIT):
                while pending:
                    done, pending = await asyncio.wait(pending, timeout=0.5, return_when=asyncio.FIRST_COMPLETED)
                    for task in done:
                        task.result()
                    if self.killer.done():
                        self.killer.result()
                    for player in self.players:
                        require(not player.faults, player.name, *player.faults)
        except TimeoutError:
            states = "; ".join(f"{player.name}: {player.state()}" for player in self.players)
            raise Wrong(f"after {LIMIT} seconds not all have {what}: {states}; the server has version {self._version()}") from None
        finally:
            for task in pending:
                task.cancel()

    async def end(self):
        try:
            if self.killer:
                self.killer.cancel()
            await asyncio.gather(self.proxy.end(), *(player.end() for player in self.players))
        finally:
            self.server.kill()

    def compare(self, version):
        """Checks that all clients show what the folder holds, which has lost nothing and has each edit once."""
        self._read_log()
        head, tree = shared.call(self.program, "show", self.room).decode().split("\n", 1)
        require(head == f"version {version}", "the folder has", head, "and the server had version", version)
        require(shared.call(self.program, "check", self.room).endswith(NO_LOSS), "the folder has lost something")
        for player in self.players:
            require(player.version == version and player.shown() == tree, player.name, "shows another document than the folder has, at version", player.version)
            require(sorted(player.made) == list(range(1, player.last_edit + 1)), player.name, "has made edits", sorted(player.made), "of", player.last_edit)
            for at, entry in player.entries.items():
                self._record(player.name, at, entry)
        self._count_edits(version)

    def _count_edits(self, version):
        """Checks that each edit is in the log once. Of entries that a checkpoint hid from all clients only the number is known."""
        made = {(player.id, number): change for player in self.players for number, change in player.made.items()}
        require(version == self.joined + len(made), "there were", self.joined, "joins and", len(made), "edits, and the log has", version, "entries")
        found = set()
        for at, (author, number, change, _) in sorted(self.entries.items()):
            if author == 0:
                continue
            require((author, number) not in found, "edit", number, "of client", author, "is in the log twice")
            require(made.get((author, number)) == change, "edit", number, "of client", author, "is in the log as", change, "and was made as", made.get((author, number)))
            found.add((author, number))
        if len(self.entries) == version:
            require(made.keys() == found, "edits are missing:", sorted(made.keys() - found)[:5])


async def go(program, room, seed):
    storm = Storm(program, room, seed)
    try:
        await storm.begin()
        version = await storm.play()
    finally:
        await storm.end()
    storm.compare(version)
    return {"seed": seed, "live": storm.live, "in node": int(storm.with_node), "old": storm.old, "kills": storm.kills, "cuts": storm.proxy.cuts, "edits": storm.edits,
            "version": version, "hidden": version - len(storm.entries)}
