#!/usr/bin/env python3
"""What links show of themselves, over a real server:  presence.py LUGCURRANT [OLDER].. Needs the package `websockets`.

Links show and go in random order, one goes offline, the server is killed and started again, a thousand values come in a second, values that can't be
shown, an older connection that ends late. Then the same links over each OLDER, a program like LUGCURRANT without the word."""

import asyncio
import json
import pathlib
import random
import re
import subprocess
import sys
import tempfile
import time

import websockets
from lugcurrant import ROOT, Client, Link, State


class Server:
    def __init__(self, program):
        self.program, self.folder, self.port = program, pathlib.Path(tempfile.mkdtemp()) / "canvas", 0
        self.run()

    def run(self):
        self.process = subprocess.Popen([self.program, "serve", str(self.folder), "--port", str(self.port)], stderr=subprocess.PIPE, text=True)
        self.port = int(re.search(r"127\.0\.0\.1:(\d+)", self.process.stderr.readline())[1])

    def kill(self):
        self.process.kill()
        self.process.wait()


class Shower:
    """A link with what it shows in `shows`, and all changes that it told in `told`."""

    def __init__(self, port):
        self.told, self.shows = [], None
        self.link = Link(Client(), f"ws://127.0.0.1:{port}/", retry=0.05, most_retry=0.2, presence=lambda client, value: self.told.append((client, value)))
        self.task = asyncio.create_task(self.link.run())

    def show(self, value):
        self.shows = value
        self.link.presence.set(value)

    async def close(self):
        self.link.close()
        await self.task

    def told_by(self):
        """What the changes that it told come to."""
        others = {}
        for client, value in self.told:
            if value is None:
                del others[client]  # it is told once
            else:
                others[client] = value
        return others


async def until(holds, what, seconds=20):
    end = time.monotonic() + seconds
    while not holds():
        assert time.monotonic() < end, what()
        await asyncio.sleep(0.01)


class Links:
    def __init__(self, server):
        self.server, self.all = server, []

    async def open(self):
        one = Shower(self.server.port)
        await one.link.ready()
        self.all.append(one)
        return one

    async def close(self, one):
        self.all.remove(one)
        await one.close()

    def others(self, one):
        """What a link is to know."""
        shown = {it.link.client.id: it.shows for it in self.all if it is not one and not it.link.offline and it.shows is not None}
        return {} if one.link.offline else shown

    async def agree(self, what):
        """Each link has what the others show, and told it."""
        await until(
            lambda: all(dict(it.link.presence.others) == it.told_by() == self.others(it) for it in self.all),
            lambda: (what, [(it.link.client.id, it.link.state, dict(it.link.presence.others), it.told_by(), self.others(it)) for it in self.all]),
        )


VALUES = [0, -1.5, True, "", 'é\n"\\u', [], [1, [2]], {}, {"name": "Ann", "at": [1, 2]}, "\U0001f600" * 255, "x" * 1022]


async def random_order(links, dice):
    for _ in range(4):
        await links.open()
    for turn in range(6):
        for k in range(20):
            one, what = dice.choice(links.all), dice.randrange(12)
            if what < 6:
                one.show(dice.choice(VALUES))
            elif what == 6:
                one.show(None)
            elif what == 7:
                one.link.client.set(ROOT, "a", k)
            elif what == 8:
                one.link.offline = not one.link.offline
            elif what == 9 and len(links.all) > 2:
                await links.close(one)
            elif what == 10 and len(links.all) < 8:
                (await links.open()).show({"number": k})
            else:
                await asyncio.sleep(dice.random() / 25)
        await links.agree(f"round {turn}")
    for one in links.all:
        one.link.offline = False
    await links.agree("all are online")


async def reconnects(links):
    """Without a connection nobody is known, at once; then all that are there, and this one is shown again."""
    one, two = links.all[:2]
    two.show("two")
    await links.agree("before")
    before = one.link.presence.others
    assert one.link.presence.others is before and before[two.link.client.id] == "two"
    one.link.offline = True
    assert (dict(one.link.presence.others), before[two.link.client.id], one.told_by()) == ({}, "two", {})
    one.show("offline")
    await links.agree("offline")
    one.link.offline = False
    await links.agree("online again")
    links.server.kill()
    await until(lambda: not any(it.link.presence.others for it in links.all), lambda: "somebody is there without a server")
    one.show("later")
    two.show(None)
    links.server.run()
    await links.agree("the server is back")


async def thousand(links):
    one, two = links.all[:2]
    await links.agree("before")
    two.told.clear()
    begun = time.monotonic()
    for k in range(1000):
        one.show(k)
        if k % 50 == 0:
            one.link.client.set(ROOT, "a", k)
        if k % 10 == 9:
            await asyncio.sleep(0.01)
    seconds = time.monotonic() - begun
    await until(lambda: two.link.presence.others.get(one.link.client.id) == 999, lambda: two.told[-3:])
    values = [value for client, value in two.told if client == one.link.client.id]
    assert 10 < len(values) <= 31 * (seconds + 0.1) + 1 and values == sorted(values), (len(values), seconds)
    for k in range(1000):
        one.show(-k)
    await until(lambda: two.link.presence.others.get(one.link.client.id) == -999, lambda: two.told[-3:])
    await one.link.settled()
    two.told[:] = two.link.presence.others.items()
    await links.agree("after")
    return f"1,000 values in {seconds:.1f} s were heard as {len(values)}"


async def refused(links):
    one, circle = links.all[0], []
    circle.append(circle)
    one.show("good")
    for value, fault in [(b"", TypeError), ({1, 2}, TypeError), (float("nan"), ValueError), ({"at": [1, float("inf")]}, ValueError), (circle, ValueError), ("\ud800", ValueError),
                         ({"\udc00": 1}, ValueError), ("x" * 1023, ValueError), ("é" * 512, ValueError), ("\n" * 512, ValueError), (nested(101), ValueError),
                         (nested(100_000), ValueError), ("x" * (1 << 20), ValueError)]:  # fmt: skip
        try:
            one.link.presence.set(value)
            raise AssertionError("it is taken")
        except fault:
            pass
    await links.agree("a value that can not be shown changes nothing")
    for value in ("\\ud800", "[[" * 200, "é" * 511, "\n" * 511, nested(100)):
        one.show(value)
        await links.agree(f"{value!r:.20} can be shown")


def nested(depth):
    value = 1
    for k in range(depth):
        value = [value] if k % 2 else {"a": value}
    return value


async def ends_late(links):
    """An older connection of a link's client, on which it showed something else, ends now. The client is still there."""
    one, two = links.all[:2]
    client = one.link.client
    old = await websockets.connect(f"ws://127.0.0.1:{links.server.port}/")
    for message in (["live", client.id, client.version], ["here", client.id, "older"]):
        await old.send(json.dumps(message).encode())
    await until(lambda: two.link.presence.others.get(client.id) == "older", lambda: two.told[-3:])
    one.show("newer")
    await links.agree("it shows something else")
    await old.close()
    await asyncio.sleep(0.3)
    await links.agree("an older connection has ended")


async def without_the_word(program):
    """A server without the word: nobody is shown, and nothing else is other than before."""
    server = Server(program)
    try:
        links = Links(server)
        one, two = await links.open(), await links.open()
        for k in range(30):
            one.link.presence.set(k)
            one.link.client.set(ROOT, "a", k)
            await asyncio.sleep(0.005)
        await one.link.settled()
        await until(lambda: two.link.client.text() == one.link.client.text(), lambda: "an edit isn't heard")
        assert (dict(two.link.presence.others), two.told, one.link.state, two.link.state) == ({}, [], State.ONLINE, State.ONLINE)
        for it in (one, two):
            await it.close()
    finally:
        server.kill()


async def main(program, *older):
    server = Server(program)
    links = Links(server)
    try:
        await random_order(links, random.Random(1))
        await reconnects(links)
        heard = await thousand(links)
        await refused(links)
        await ends_late(links)
        for one in links.all:
            await one.link.settled()
        assert len({one.link.client.text() for one in links.all}) == 1
        for one in list(links.all):
            await links.close(one)
    finally:
        server.kill()
    for it in older:
        await without_the_word(it)
    print(f"presence, each as it should be; {heard}; {len(older)} servers without it")


asyncio.run(asyncio.wait_for(main(*sys.argv[1:]), 150))
