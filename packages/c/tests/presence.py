#!/usr/bin/python3
"""presence.py LUGCURRANT: what clients show of themselves, by flows for C with gcc's sanitizers for addresses and undefined behaviour.

- values: random JSON, whole and damaged. A value is taken if Python reads it too, and is shown without its blanks; the last one stays if it isn't.
- pace: a thousand values in a second; a server that doesn't answer, has no memory, has no such word, can't take a value, or lies.
- others: what is heard is listed by id, and told; when the connection is lost nobody is there.
- together: three flows and two links for Python over LUGCURRANT, which is killed and started again; a connection that ends late.

Needs cc, and Debian's python3-websockets."""

import asyncio
import json
import pathlib
import random
import re
import subprocess
import sys
import tempfile
import time

import c_flow
import websockets
from c_flow import DONE
from lugcurrant import ROOT, Client, Link, State

NOT_JSON, TOO_DEEP, NO_ROOM = 40, 11, 23
VALUES = [0, -1.5, True, "", 'é\n"\\u', [], [1, [2]], {}, {"name": "Ann", "at": [1, 2]}, "\U0001f600" * 255, "x" * 1022]


def made(calls, **options):
    return c_flow.Flow(calls, Client(), **options)


def text(value):
    return json.dumps(value, separators=(",", ":")).encode()


def go_live(flow, now=0.0):
    """Opens a connection, on which it has the id 1 and is live."""
    flow.open(now)
    if flow.client.id is None:
        flow.outgoing(now)
        flow.hear(b'["welcome",1]', now)
    assert len(flow.outgoing(now)) == 1
    flow.hear(b'["idle"]', now)
    assert flow.outgoing(now) == [b'["live",%d,0]' % flow.client.id]
    flow.hear(b'["idle"]', now)


def heres(flow, now):
    """What is sent now, but for asks."""
    found = [json.loads(it) for it in flow.outgoing(now)]
    return [it[2] for it in found if it[0] == "here"]


# ---- values ----


def without_blanks(value):
    return re.sub(r'("(?:[^"\\]|\\.)*")|[ \t\n\r]+', lambda it: it[1] or "", value, flags=re.S)


def depth_of(value):
    depth, level = 0, [value]
    while level := [it for it in level if isinstance(it, (list, dict))]:
        depth += 1
        level = [part for it in level for part in (it.values() if isinstance(it, dict) else it)]
    return depth


def wanted(value):
    """Why this can't be shown, or DONE, and what is shown then."""

    def no_number(word):
        raise ValueError(word)

    try:
        words = value.decode()
        read = json.loads(words, parse_constant=no_number)
        json.dumps(read, ensure_ascii=False).encode()  # half of a surrogate pair is no text
    except ValueError:
        return NOT_JSON, None
    except RecursionError:
        return TOO_DEEP, None
    if depth_of(read) > 100:
        return TOO_DEEP, None
    shown = without_blanks(words).encode()
    return (DONE, shown) if len(shown) <= 1024 else (NO_ROOM, None)


def random_value(chance, depth=0):
    roll = chance.randrange(9 if depth < 4 else 6)
    if roll >= 7:
        return [random_value(chance, depth + 1) for _ in range(chance.randrange(4))]
    if roll == 6:
        return {chance.choice(["a", "", "é", 'b"\\']): random_value(chance, depth + 1) for _ in range(chance.randrange(4))}
    return chance.choice([None, True, False, 0, -7, 1.5e300, -0.0, 2**70, "", "\U0001f600 \x7f", "tab\t\\ \x01", "x" * chance.randrange(300)])


def random_text(chance):
    value = json.dumps(random_value(chance), ensure_ascii=chance.random() < 0.5, indent=chance.choice([None, 1]), separators=chance.choice([None, (" ,\r", "\t: ")]))
    bytes = value.encode()
    for _ in range(chance.choice([0, 0, 1, 2])):
        at = chance.randrange(len(bytes) + 1)
        insert = chance.choice([b"", b"]", b"{", b'"', b"\\", b"\\ud83d", b"\\ude00", b",", b" ", b"\x00", b"\xff", b"\xc3", b"\xed\xa0\x80", b"0", b"e", b"-"])
        bytes = bytes[:at] + insert + bytes[at + chance.randrange(2) :]
    return bytes


def values(calls):
    chance, flow, now = random.Random(1), made(calls), 0.0
    go_live(flow)
    nested = [b'[{"a":' * k + b"1" + b"}]" * k for k in (50, 51)] + [b"[" * 5000, b"[" * 101 + b"]" * 101, b"[" * 100 + b"]" * 100]
    sizes = [b'"' + b"x" * k + b'"' for k in (1022, 1023)] + [b" " * 5000 + b"1" + b"\n" * 5000]
    counts, last = {}, None
    for given in [*nested, *sizes, *(random_text(chance) for _ in range(20000))]:
        number, shown = wanted(given)
        found = flow.presence_set(given)
        assert found == number or (found, number) == (TOO_DEEP, NOT_JSON), (given, found, number)
        counts[found] = counts.get(found, 0) + 1
        now += 40
        sent = flow.outgoing(now)
        if found == DONE:
            last = shown
            assert sent[0] == b'["here",1,%s]' % shown, (given, sent)
            flow.hear(b'["idle"]', now)
        assert not any(it.startswith(b'["here"') for it in sent) or found == DONE, (given, sent)
        if any(it.startswith(b'["ask"') for it in sent):
            flow.hear(b'["idle"]', now)
    flow.lost()
    go_live(flow, now)
    assert flow.outgoing(now) == [b'["here",1,%s]' % last] or last == b"null", "the last one that was taken stays"
    flow.free()
    assert min(counts[it] for it in (DONE, NOT_JSON)) > 4000 and counts[TOO_DEEP] == 3 and counts[NO_ROOM] >= 1, counts
    return f"{counts[DONE]} values taken, {counts[NOT_JSON]} no JSON"


# ---- pace ----


def pace(calls):
    flow, sent = made(calls), []
    flow.show('"early"')
    go_live(flow)
    assert heres(flow, 0) == ["early"]
    flow.hear(b'["idle"]', 0)
    for now in range(40, 1040):
        flow.show(str(now))
        if now % 100 == 0:
            flow.client.set(ROOT, "a", now)
        for message in flow.outgoing(now):
            if message.startswith(b'["here"'):
                sent.append((now, json.loads(message)[2]))
            flow.hear(b'["idle"]', now)
    due = flow.due(1039)
    assert due is not None and due <= 34, due
    sent += [(1039 + due, it) for it in heres(flow, 1039 + due)]
    assert 25 <= len(sent) <= 31 and sent[-1][1] == 1039 and all(b[0] - a[0] >= 33 for a, b in zip(sent, sent[1:])), sent
    flow.free()


def slow_server(calls):
    """It has 16 values under way at most, and the last one follows once an answer comes."""
    flow, sent = made(calls), []
    go_live(flow)
    for k in range(40):
        flow.show(str(k))
        sent += heres(flow, 40.0 * k)
    assert sent == list(range(16)) and flow.due(1600) > 100, sent
    flow.hear(b'["idle"]', 1600)
    assert heres(flow, 1600) == [39] and heres(flow, 1700) == []
    flow.free()


def refusals(calls):
    flow = made(calls)
    go_live(flow)
    flow.show("1")
    assert heres(flow, 0) == [1]
    flow.hear(b'["no",7]', 0)
    assert heres(flow, 900) == [] and flow.due(900) == 100 and heres(flow, 1000) == [1], "no memory for it now"
    flow.hear(b'["idle"]', 1000)
    for k, no in enumerate((9, 8, 1)):
        flow.show(str(k))
        assert heres(flow, 2000 + 100 * k) == [k]
        flow.hear(b'["no",%d]' % no, 2000 + 100 * k)
    flow.show("4")
    assert heres(flow, 3000) == [4] and flow.state is State.ONLINE
    flow.hear(b'["idle"]', 3000)
    flow.lost()
    go_live(flow, 4000)
    assert heres(flow, 4000) == [4], "it is shown again on the next connection"
    flow.hear(b'["no",9]', 4000)
    for k in range(5, 20):
        flow.show(str(k))
        assert heres(flow, 4000 + 100 * k) == [] and (flow.due(4000 + 100 * k) or 1e9) > 1000, "the server has no such word"
    flow.lost()
    go_live(flow, 9000)
    assert heres(flow, 9000) == [19]
    flow.hear(b'["idle"]', 9000)
    flow.show("null")
    assert heres(flow, 9100) == [None]
    flow.lost()
    go_live(flow, 9200)
    assert heres(flow, 9200) == [], "nothing is shown"
    flow.free()


# ---- others ----


def others(calls):
    flow = made(calls)
    go_live(flow)
    flow.show("1")
    heres(flow, 0)
    for message in (["here", 5, {"a": [1, "}"], "b": {}}], ["here", 3, "é"], ["here", 9, None], ["here", 1, "own"], ["here", 2**32 - 1, 0], ["here", 5, 6]):
        flow.hear(text(message), 0)
    flow.hear(b'["here",4,{ "a" : [ 1 ] }]', 0)
    assert flow.others == {3: "é", 4: {"a": [1]}, 5: 6, 2**32 - 1: 0}, flow.others
    assert flow.changes == [[5, {"a": [1, "}"], "b": {}}], [3, "é"], [2**32 - 1, 0], [5, 6], [4, {"a": [1]}]], flow.changes
    flow.hear(b'["here",4,null]', 0)
    flow.hear(b'["here",4,null]', 0)
    assert flow.changes[5:] == [[4, None]] and list(flow.others) == [3, 5, 2**32 - 1]
    flow.hear(b'["idle"]', 0)
    assert heres(flow, 100) == []
    flow.hear(b'["here",1,null]', 100)
    assert heres(flow, 100) == [1], "who is taken for gone shows itself again"
    flow.changes.clear()
    flow.lost()
    assert flow.others == {} and flow.changes == [[3, None], [5, None], [2**32 - 1, None]], flow.changes
    for lie in ("here", "here,1", 'here,"1",1', "here,1,2,3", "hear,1,2", "here,1,", "here,-1,2", "here,4294967296,1", "here,2,nul", "here,2,1]"):
        flow = made(calls)
        go_live(flow)
        word, *rest = lie.split(",")
        flow.hear(f'["{word}"{"".join("," + it for it in rest)}]'.encode(), 0)
        assert flow.state is State.FAULT, lie
        flow.free()


# ---- together ----


class Server:
    def __init__(self, program):
        self.program, self.folder, self.port = program, pathlib.Path(tempfile.mkdtemp()) / "canvas", 0
        self.run()

    def run(self):
        self.process = subprocess.Popen([self.program, "serve", str(self.folder), "--port", str(self.port)], stderr=subprocess.PIPE, text=True)
        self.port = int(re.search(r"127\.0\.0\.1:(\d+)", self.process.stderr.readline())[1])

    def kill(self):
        self.process.kill()
        self.process.wait()


class Peer:
    """A flow for C over WebSockets, with the names of a link for Python."""

    def __init__(self, calls, port):
        self.calls, self.port, self.flow = calls, port, made(calls)
        self.told, self.shows, self.is_over = [], None, False
        self.wake, self.task = asyncio.Event(), asyncio.create_task(self.run())

    @property
    def id(self):
        return self.flow.client.id

    @property
    def others(self):
        return self.flow.others

    def show(self, value):
        self.shows = value
        self.flow.show(json.dumps(value, ensure_ascii=False))
        self.wake.set()

    def take(self):
        self.told += map(tuple, self.flow.changes)
        self.flow.changes, self.flow.events = [], []

    async def run(self):
        while not self.is_over:
            try:
                async with websockets.connect(f"ws://127.0.0.1:{self.port}/", max_size=None) as self.socket:
                    self.flow.open(time.monotonic() * 1000)
                    await self.talk(asyncio.create_task(self.read()))
            except (OSError, asyncio.TimeoutError, websockets.exceptions.WebSocketException):
                await asyncio.sleep(0.05)
            self.flow.lost()
            self.take()

    async def read(self):
        async for message in self.socket:
            self.flow.hear(message, time.monotonic() * 1000)
            self.take()
            self.wake.set()

    async def talk(self, reading):
        while not self.is_over and not reading.done():
            self.wake.clear()
            for message in self.flow.outgoing(time.monotonic() * 1000):
                await self.socket.send(message)
            due = self.flow.due(time.monotonic() * 1000)
            woken = asyncio.create_task(self.wake.wait())
            await asyncio.wait([reading, woken], timeout=None if due is None else due / 1000, return_when=asyncio.FIRST_COMPLETED)
            woken.cancel()
        await self.socket.close()
        await asyncio.gather(reading, return_exceptions=True)

    async def close(self):
        self.is_over = True
        self.wake.set()
        await self.task
        self.flow.free()


class Linked:
    """A link for Python with the same names."""

    def __init__(self, port):
        self.told, self.shows = [], None
        self.link = Link(Client(), f"ws://127.0.0.1:{port}/", retry=0.05, most_retry=0.2, presence=lambda client, value: self.told.append((client, value)))
        self.task = asyncio.create_task(self.link.run())

    @property
    def id(self):
        return self.link.client.id

    @property
    def others(self):
        return dict(self.link.presence.others)

    def show(self, value):
        self.shows = value
        self.link.presence.set(value)

    async def close(self):
        self.link.close()
        await self.task


def told_by(one):
    found = {}
    for client, value in one.told:
        if value is None:
            del found[client]  # it is told once
        else:
            found[client] = value
    return found


async def agree(peers, what, wanted=None):
    """Each has what the others show, and told it."""
    end = time.monotonic() + 60
    while True:
        shown = {it.id: it.shows for it in peers if it.shows is not None} if wanted is None else wanted
        if all(it.id for it in peers) and all(it.others == told_by(it) == {id: value for id, value in shown.items() if id != it.id} for it in peers):
            return
        assert time.monotonic() < end, (what, shown, [(it.id, it.others, told_by(it)) for it in peers])
        await asyncio.sleep(0.02)


async def together(calls, program):
    server, chance = Server(program), random.Random(1)
    peers = [*(Peer(calls, server.port) for _ in range(3)), *(Linked(server.port) for _ in range(2))]
    try:
        for turn in range(6):
            for _ in range(20):
                chance.choice(peers).show(chance.choice([None, *VALUES]))
                await asyncio.sleep(chance.random() / 25)
            await agree(peers, f"round {turn}")
        for it in peers:
            it.show({"id": it.id})
        await agree(peers, "all show something")
        server.kill()
        await agree(peers, "the server is away", {})
        server.run()
        await agree(peers, "the server is back")
        await ends_late(peers[0], server)
        await agree(peers, "an older connection has ended")
        await peers.pop(0).close()
        await agree(peers, "one has gone")
        for it in peers:
            await it.close()
    finally:
        server.kill()


async def ends_late(peer, server):
    """An older connection of a flow's client, on which it showed something else, ends now."""
    old = await websockets.connect(f"ws://127.0.0.1:{server.port}/")
    for message in (["live", peer.id, peer.flow.client.version], ["here", peer.id, "older"]):
        await old.send(text(message))
        while json.loads(await old.recv())[0] != "idle":
            pass
    peer.show("newer")
    await asyncio.sleep(0.2)
    await old.close()
    await asyncio.sleep(0.2)


def main():
    def act(calls):
        told = values(calls)
        pace(calls)
        slow_server(calls)
        refusals(calls)
        others(calls)
        asyncio.run(asyncio.wait_for(together(calls, sys.argv[1]), 400))
        print(f"presence by flows for C, each as it should be; {told}")
        return 0

    return c_flow.run("--sanitize", __file__, sys.argv[1:], act)


if __name__ == "__main__":
    sys.exit(main())
