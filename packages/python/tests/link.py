#!/usr/bin/env python3
"""A link against a real server:  link.py LUGCURRANT. Needs the package `websockets`."""

import asyncio
import json
import pathlib
import re
import subprocess
import sys
import tempfile

import websockets
from lugcurrant import ROOT, Client, ClientError, Colour, FileShelf, Kept, Link, State


class Server:
    def __init__(self, program: str, folder: pathlib.Path) -> None:
        self.program, self.folder, self.port = program, folder, 0

    def run(self, name: str = "canvas") -> None:
        self.process = subprocess.Popen([self.program, "serve", str(self.folder / name), "--port", str(self.port)], stderr=subprocess.PIPE, text=True)
        self.port = int(re.search(r"127\.0\.0\.1:(\d+)", self.process.stderr.readline())[1])

    def kill(self) -> None:
        self.process.kill()
        self.process.wait()

    @property
    def url(self) -> str:
        return f"ws://127.0.0.1:{self.port}/"

    def tree(self) -> str:
        return subprocess.run([self.program, "show", str(self.folder / "canvas")], capture_output=True, text=True, check=True).stdout.split("\n", 1)[1]


async def becomes(link: Link, state: State) -> None:
    for _ in range(600):
        if link.state is state:
            return
        await asyncio.sleep(0.05)
    raise AssertionError(f"{link.state} ({link.words}) in place of {state}")


class Refusing:
    """A made-up server that takes pages and whole numbers, and answers any other edit by the No `no`. It ends the connection then. With `live` it
    tells unasked what it has."""

    def __init__(self, no: int, live: bool) -> None:
        self.no, self.live, self.clients, self.log = no, live, 0, []

    async def talk(self, socket, path=None) -> None:
        place = None
        async for message in socket:
            what, *given = json.loads(message)
            if what == "live":
                place = given[1] if self.live else None
                await socket.send(b'["no",9]' if place is None else b'["idle"]')
                continue
            answers = self.answers(what, *given)
            if place is not None and answers != [["no", self.no]]:
                answers += self.answers("ask", given[0], place)[:-1]
                place = len(self.log)
            for answer in answers:
                await socket.send(json.dumps(answer, separators=(",", ":")).encode())
                if answer[0] == "no":
                    return

    def answers(self, what: str, *given) -> list:
        if what == "join":
            self.clients += 1
            self.log.append([0, 0, "join", ["joined", self.clients]])
            return [["welcome", self.clients]]
        if what == "ask":
            return [["entry", version, entry] for version, entry in enumerate(self.log, 1) if version > given[1]] + [["idle"]]
        _, _, change = given
        if change[0] == "set" and not isinstance(change[3], int):
            return [["no", self.no]]
        self.log.append([*given, ["created", change[3]] if change[0] == "create" else ["wasset"]])
        return [["idle"]]


async def taken_out_later(no: int, reason: State, live: bool) -> None:
    """The connection ends right after the No to an edit. The edit is lost for the reason of that No, whatever the state is on the next connection, and
    the client goes on under its id."""
    refused, states = [], []
    async with websockets.serve(Refusing(no, live).talk, "127.0.0.1", 0) as server:
        url = f"ws://127.0.0.1:{server.sockets[0].getsockname()[1]}/"
        async with Link(Client(), url, document=False, retry=0.05, refused=refused.append, state=lambda it: states.append(it.state)) as link:
            page = link.client.create_last("page", ROOT)
            await link.settled()
            link.client.set(page, "a", "text")
            link.client.set(page, "b", 2)
            await link.settled()
            assert (link.client.id, link.client.acknowledged, link.client.object(page).properties) == (1, 3, {"b": 2})
    assert [(it["number"], it["name"], json.loads(it["change"])[2]) for it in refused] == [(2, reason.value, "a")], refused
    assert states == [State.ONLINE, reason, State.ONLINE, State.CLOSED], states


async def cut_answer() -> None:
    """A server whose answers are cut within their first line is away, and is tried again."""
    asked = []

    async def cut(reader, writer) -> None:
        asked.append(await reader.readuntil(b"\r\n\r\n"))
        writer.write(b"HTTP/1.1 20")
        writer.close()

    async with await asyncio.start_server(cut, "127.0.0.1", 0) as server:
        link = Link(Client(), f"ws://127.0.0.1:{server.sockets[0].getsockname()[1]}/", retry=0.05)
        task = asyncio.create_task(link.run())
        while len(asked) < 3:
            await asyncio.sleep(0.05)
            assert not task.done(), task.result()
        assert link.state is State.NO_SERVER, (link.state, link.words)
        link.close()
        await task


async def offline(link: Link) -> None:
    """A link is offline at once, and reports nothing else until it may connect again. What comes over the old connection isn't taken."""
    page, states = link.client.children(ROOT)[0], []
    link._callbacks = (lambda it: states.append(it.state), None, None, None)
    for pause in (0.5, 0.0, None):
        link.client.set(page, "offline", str(pause))
        await asyncio.sleep(0)  # the edit is sent, and its answer is under way
        version = link.client.version
        link.offline = True
        assert link.state is State.OFFLINE
        if pause is not None:
            await asyncio.sleep(pause)
            assert (link.state, link.client.version) == (State.OFFLINE, version)
        link.offline = False
        await becomes(link, State.ONLINE)
        await link.settled()
    assert states == [State.OFFLINE, State.ONLINE] * 3, states
    link._callbacks = (None, None, None, None)


async def main(program: str) -> None:
    for live in (False, True):
        await taken_out_later(8, State.TOO_LARGE, live)
        await taken_out_later(9, State.UNREADABLE, live)
    await cut_answer()
    folder = pathlib.Path(tempfile.mkdtemp())
    server = Server(program, folder)
    server.run()
    try:
        async with Link(Client(), server.url, retry=0.05, most_retry=0.4) as link:
            client = link.client
            page = client.create_last("page", ROOT)
            client.set(page, "name", "Plan")
            client.set(page, "at", [1, 2])
            client.set(page, "fill", Colour.of("#112233"))
            await link.settled()
            assert server.tree() == client.text() and link.unsent == 0
            heard = []
            other = Link(Client(), server.url)
            task = asyncio.create_task(other.run())

            async def listen() -> None:
                async for changes in other.changes():
                    heard.extend(it.properties.get("name") for it in changes.put)
                    if "late" in heard:
                        return

            listening = asyncio.create_task(listen())
            await other.ready()
            client.set(page, "name", "late")
            await asyncio.wait_for(listening, 20)
            await offline(link)
            server.kill()
            await becomes(link, State.NO_SERVER)
            client.set(page, "name", "meanwhile")
            assert link.unsent == 1 and link.is_losing
            server.run()
            await becomes(link, State.ONLINE)
            await link.settled()
            await other.settled()
            assert other.client.text() == client.text() == server.tree()

            # Twins of one saved client: one begins anew, and no edit is lost.
            twin = Link(Client.load(client.save()), server.url, retry=0.05)
            states = []
            twin._callbacks = (lambda it: states.append(it.state), None, None, None)
            client.set(page, "a", 1)
            twin.client.set(page, "b", 2)
            running = asyncio.create_task(twin.run())
            await twin.settled()
            await link.settled()
            await other.settled()
            twin.client.set(page, "c", 3)
            await twin.settled()
            await other.settled()
            await asyncio.sleep(0.6)
            await other.settled()
            found = other.client.object(page).properties
            assert (found["a"], found["b"], found["c"]) == (1, 2, 3), found
            print("twins", [it.value for it in states], "ids", client.id, twin.client.id)

            # Kept: the same client again, with what waits.
            shelf = Kept(FileShelf(folder / "kept"))
            mine = shelf.load()
            keeping = Link(mine, server.url, kept=shelf)
            third = asyncio.create_task(keeping.run())
            await keeping.ready()
            mine.set(page, "kept", 1)
            await keeping.settled()
            keeping.offline = True
            mine.set(page, "kept", 2)
            try:
                FileShelf(folder / "kept")
                raise AssertionError("two have the shelf")
            except BlockingIOError as fault:
                assert "already" in str(fault)
            keeping.close()
            await third
            keeping.offline = True
            assert keeping.state is State.CLOSED
            shelf.close()
            again = Kept(FileShelf(folder / "kept"))
            same = again.load()
            assert (same.id, same.waiting, again.fault) == (mine.id, 1, None), (same.id, mine.id, same.waiting, again.fault)
            async with Link(same, server.url, kept=again) as last:
                await last.settled()
                assert same.text() == server.tree()
            again.close()

            # Another folder at the same port.
            server.kill()
            server.run("another")
            await becomes(other, State.ANOTHER_DOCUMENT)
            follower = Link(Client(), server.url, follow=True)
            for one in (twin, other):
                one.close()
            await asyncio.gather(task, running)
            follower.close()
            try:
                client.set(page, "Name", 1)
            except ClientError as fault:
                assert fault.code == "NameBadByte"
    finally:
        server.kill()
    print("all as it should be")


asyncio.run(asyncio.wait_for(main(sys.argv[1]), 120))
