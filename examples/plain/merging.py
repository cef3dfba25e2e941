#!/usr/bin/env python3
"""A whole client in plain Python, by the simple merge of docs/clients.md: merging.py PORT [ROUNDS [SEED]].

It keeps the server's document as entries and copies tell it, and lays the edits that wait over a copy of it. Played as a program it
joins, makes random edits in so many rounds (20), sends them, and prints its version and its tree as `lugcurrant show` does.
Needs no package."""

import base64
import copy
import json
import os
import random
import socket
import struct
import sys

ROOT = (0, 0)
# Under which kinds a kind may stand.
UNDER = {"page": {"document"}, "frame": {"page", "frame"}, "shape": {"page", "frame"}, "text": {"page", "frame"}}


class AnotherHistory(Exception):
    """The server has another history than this client, or another program uses the client's id: begin anew."""


def lay(document, change, place=None):
    """Lays a change over a document. Nobody judges it; `place` is where the server put the object, if it is the server's."""
    word, name = change[0], tuple(change[1])
    there = document.get(name)
    if word == "set" and there:
        there["props"][change[2]] = change[3]
    elif word == "clear" and there:
        there["props"].pop(change[2], None)
    elif name == ROOT:
        return
    elif word == "create" and not there:
        document[name] = {"kind": change[2], "place": place or change[3], "props": {}}
    elif word == "move" and there:
        there["place"] = place or change[2]
    elif word == "delete":
        document.pop(name, None)


def between(low, high):
    """A position between two, where "" is an end; None where there is no room. Behind the last one it is a step of four digits, so
    that a parent takes millions of children; before the first one too; between two it is the middle."""
    for size in range(1 if low and high or not (low or high) else 4, 129):
        number = lambda text: sum((ord(byte) - 32) * 95 ** (size - 1 - i) for i, byte in enumerate(text[:size]))
        least = number(low) + 1
        greatest = number(high) - (len(high) <= size) if high else 95**size - 1
        if least <= greatest:
            middle = least if low and not high else greatest if high and not low else (least + greatest) // 2
            digits = "".join(chr(32 + middle // 95 ** (size - 1 - i) % 95) for i in range(size))
            return digits.rstrip(" ")
    return None


class Client:
    """What a client keeps, and what it does with each message."""

    def __init__(self):
        self.id, self.counter, self.version, self.acknowledged = None, 0, 0, 0
        self.waiting = []
        self.base = {ROOT: {"kind": "document", "place": None, "props": {}}}

    def view(self):
        """The server's document at this version, with what waits laid over it."""
        document = copy.deepcopy(self.base)
        for change in self.waiting:
            lay(document, change)
        return document

    def receive(self, message):
        if self.id is None:
            self.id = message[1] if message[0] == "welcome" else None
        elif message[0] == "entry" and message[1] == self.version + 1:
            self.take_entry(*message[2])
            self.version = message[1]
        elif message[0] == "copy" and message[1] > self.version:
            self.take_copy(*message[1:])

    def take_entry(self, author, number, what, outcome):
        if author == self.id:
            if not self.waiting or number != self.acknowledged + 1 or what != self.waiting[0]:
                raise AnotherHistory
            self.waiting.pop(0)
            self.acknowledged = number
        if outcome[0] == "removed":
            for name in outcome[1]:
                self.base.pop(tuple(name))
        elif outcome[0] in ("created", "moved"):
            lay(self.base, what, outcome[1])
        elif outcome[0] == "wasset":
            lay(self.base, what)

    def take_copy(self, version, done, rows):
        if not self.acknowledged <= done <= self.acknowledged + len(self.waiting):
            raise AnotherHistory
        del self.waiting[: done - self.acknowledged]
        self.version, self.acknowledged = version, done
        self.base = {tuple(name): {"kind": kind, "place": place, "props": dict(props)} for name, kind, place, props in rows}

    def create(self, kind, parent, after=None):
        """An edit of the user's: an object of this kind, behind the child `after` of that parent, or in front."""
        view = self.view()
        place = view[parent]["kind"] in UNDER[kind] and place_after(view, parent, after)
        if place:
            self.counter += 1
            self.waiting.append(["create", [self.id, self.counter], kind, place])

    def move(self, name, parent, after=None):
        view = self.view()
        if name == ROOT or view[parent]["kind"] not in UNDER[view[name]["kind"]] or name in chain(view, parent):
            return
        place = place_after(view, parent, after, name)
        if place:
            self.waiting.append(["move", list(name), place])

    def exchange(self, link):
        """Sends what waits, and asks until an answer brings the client no further."""
        if self.id is None:
            self.round(link, ["join", 2])
        for at in range(len(self.waiting)):
            number = self.acknowledged + 1 + at
            if self.round(link, ["edit", self.id, number, self.waiting[at]]) == "no":
                self.empty(at)
                self.round(link, ["edit", self.id, number, self.waiting[at]])
        before = None
        while before != self.version:
            before = self.version
            self.round(link, ["ask", self.id, self.version])

    def empty(self, at):
        """Puts an edit that changes nothing in the place of one that the server can't take. No edit gets another number: the server may still
        read one of the old number from a connection that is lost, and would judge it in place of the one that has the number now."""
        name = "_"
        while name in self.base[ROOT]["props"]:
            name += "_"
        self.waiting[at] = ["clear", list(ROOT), name]

    def round(self, link, message):
        """Sends a message, and receives its answer up to the message that ends it. The word of that: `no` says that an edit is too large or can't
        be read."""
        link.send(message)
        while True:
            answer = link.receive()
            self.receive(answer)
            if answer[0] == "no" and (message[0] != "edit" or answer[1] not in (8, 9)):
                raise RuntimeError(f"{message} was answered no {answer[1]}")
            if answer[0] in ("welcome", "idle", "no"):
                return answer[0]


def place_after(view, parent, after, moved=None):
    """The place behind that child, or in front. The moved object is no neighbour of itself, and of several children at one position the
    next greater position is the neighbour."""
    taken = [it["place"][1] for name, it in view.items() if it["place"] and tuple(it["place"][0]) == parent and name != moved]
    low = view[after]["place"][1] if after else ""
    high = min((position for position in taken if position > low), default="")
    position = between(low, high)
    return position and [list(parent), position]


def chain(view, name):
    """The object and those above it, as far as they go."""
    above = []
    while name in view and name not in above:
        above.append(name)
        name = tuple(view[name]["place"][0]) if view[name]["place"] else None
    return above


def in_tree(view, name):
    return name in view and chain(view, name)[-1] == ROOT


def tree_text(view, name=ROOT, level=0):
    it = view[name]
    lines = ["  " * level + f"{name[0]}:{name[1]} {it['kind']}" + (f" {it['place'][1]}" if it["place"] else "")]
    for prop in sorted(it["props"]):
        lines.append("  " * (level + 1) + f".{prop} " + json.dumps(it["props"][prop], separators=(",", ":"), ensure_ascii=False))
    children = [(other["place"][1], child) for child, other in view.items() if other["place"] and tuple(other["place"][0]) == name]
    for _, child in sorted(children):
        lines += tree_text(view, child, level + 1)
    return lines


class Link:
    """A WebSocket (RFC 6455): messages in, messages out."""

    def __init__(self, port, path="/"):
        self.socket = socket.create_connection(("127.0.0.1", port))
        self.stream = self.socket.makefile("rb")
        key = base64.b64encode(os.urandom(16)).decode()
        head = [f"GET {path} HTTP/1.1", f"Host: 127.0.0.1:{port}", "Upgrade: websocket", "Connection: Upgrade",
                f"Sec-WebSocket-Key: {key}", "Sec-WebSocket-Version: 13", "", ""]
        self.socket.sendall("\r\n".join(head).encode())
        status = self.stream.readline().split()
        if status[1:2] != [b"101"]:
            raise ConnectionError(f"no WebSocket: {status}")
        while self.stream.readline() not in (b"\r\n", b""):
            pass

    def send(self, message, opcode=2):
        data = message if opcode != 2 else json.dumps(message, separators=(",", ":"), ensure_ascii=False).encode()
        mask, size = os.urandom(4), len(data)
        length = bytes([128 | size]) if size < 126 else struct.pack("!BH", 254, size) if size < 65536 else struct.pack("!BQ", 255, size)
        self.socket.sendall(bytes([128 | opcode]) + length + mask + bytes(byte ^ mask[i & 3] for i, byte in enumerate(data)))

    def read(self, size):
        data = self.stream.read(size)
        if len(data) < size:
            raise ConnectionError("the connection has ended")
        return data

    def receive(self):
        data = b""
        while True:
            first, size = self.read(2)
            size = size if size < 126 else struct.unpack("!H", self.read(2))[0] if size == 126 else struct.unpack("!Q", self.read(8))[0]
            part = self.read(size)
            if first & 15 == 9:
                self.send(part, 10)
            elif first & 15 == 8:
                raise ConnectionError("the server has closed the connection")
            elif first & 15 < 3:
                data += part
                if first & 128:
                    return json.loads(data)


def edit_at_random(client, dice):
    view = client.view()
    shown = sorted(name for name in view if in_tree(view, name))
    name, parent = dice.choice(shown), dice.choice(shown)
    after = dice.choice([None] + [child for child in shown if view[child]["place"] and tuple(view[child]["place"][0]) == parent])
    act = dice.randrange(20)
    if act < 7:
        client.create(dice.choice(sorted(UNDER)), parent, after)
    elif act < 12:
        client.waiting.append(["set", list(name), dice.choice("xyz"), dice.choice([1, -7, "a\n\"é😀", ["rgba", 255], ["list", 2]])])
    elif act < 13:
        client.waiting.append(["clear", list(name), dice.choice("xyz")])
    elif act < 19:
        if after != name:
            client.move(name, parent, after)
    elif name != ROOT and len(shown) > 8:
        client.waiting.append(["delete", list(name)])


def main(port, rounds=20, seed=1):
    dice, client, link = random.Random(seed), Client(), Link(port)
    client.exchange(link)
    for _ in range(rounds):
        for _ in range(dice.randrange(8)):
            edit_at_random(client, dice)
        client.exchange(link)
    print(f"version {client.version}", *tree_text(client.view()), sep="\n")


if __name__ == "__main__":
    main(*map(int, sys.argv[1:]))
