#!/usr/bin/env python3
"""garbage.py [ROUNDS]: flows for C with a server that breaks every rule, under gcc's address and undefined behaviour sanitizers.

Each of ROUNDS (300) flows has a client of its own. It sends what it has, and hears messages out of an alphabet: answers to the point, answers to
nothing, with numbers that are others, cut, with bytes altered, with a byte after them; connections are lost between them. It must take each one,
give finitely many messages to send, and count what is under way."""

import json
import random
import sys

import c_flow
from lugcurrant import ROOT, Client, ClientError, State

NUMBERS = [0, 1, 2, 3, 5, 64, 65, 2**32 - 1, 2**32, 2**62, 2**64 - 1, 2**64, -1]
CHANGES = [["create", [1, 1], "page", [[0, 0], "O"]], ["set", [0, 0], "a", "x"], ["delete", [1, 1]], ["move", [1, 1], [[0, 0], "P"]], "join"]
OUTCOMES = [["created", [[0, 0], "O"]], ["wasset"], ["removed", [[1, 1]]], ["refused", 3, None], ["refused", 99, [[0, 0], "P"]], ["joined", 1]]


def text(value):
    return json.dumps(value, separators=(",", ":")).encode()


def message(chance, client, version):
    """A message that may be to the point, or not."""
    me = chance.choice([client.id or 1, client.id or 1, chance.choice(NUMBERS)])
    number = chance.choice([client.acknowledged + 1, client.acknowledged + 2, chance.choice(NUMBERS)])
    at = chance.choice([version + 1, version + 1, chance.choice(NUMBERS)])
    waits = client.edit_message(1)
    change = json.loads(waits)[3] if waits and chance.random() < 0.5 else chance.choice(CHANGES)
    rows = [[[0, 0], "document", None, [["a", "x"]]]]
    return text(chance.choice([
        ["welcome", me], ["idle"], ["idle"], ["idle"], ["no", chance.choice([1, 2, 3, 4, 5, 6, 7, 8, 9, 10, 0])],
        ["entry", at, [me, number, change, chance.choice(OUTCOMES)]], ["entry", at, [me, number, change, chance.choice(OUTCOMES)]],
        ["entry", at, [9, 1, "join", ["joined", 9]]], ["copy", at, number, rows], ["entry"], ["copy"], ["here", me, 1], ["here", 7, chance.choice([None, {"a": [1, "]}"]}])],
        ["here", 7, [[]], 1], ["here"], [], "entry", ["edit", 1, 1, CHANGES[1]],
    ]))  # fmt: skip


def damaged(chance, bytes):
    """Mostly the same bytes."""
    roll = chance.random()
    if roll < 0.03:
        return bytes[: chance.randrange(len(bytes) + 1)]
    if roll < 0.06:
        at = chance.randrange(len(bytes))
        return bytes[:at] + chance.choice([b"[", b"]", b'"', b"\\", b",", b" ", b"\x00", b"\xff", b"9" * 30]) + bytes[at + 1 :]
    return bytes + b"]" if roll < 0.07 else bytes


def edit(chance, client):
    try:
        objects = list(client.objects().values())
        if chance.random() < 0.5:
            client.create_last(chance.choice(["page", "frame"]), chance.choice(objects).id)
        else:
            client.set(chance.choice(objects).id, "a", 'quoted " and \\ and \u00e9'[: chance.randrange(20)])
    except ClientError:
        pass


def play(calls, seed):
    """A flow that hears 400 messages. The states that it had."""
    chance, client, now, seen = random.Random(seed), Client(), 0.0, set()
    flow = c_flow.Flow(calls, client, window=chance.choice([1, 64]))
    flow.open(now)
    for _ in range(400):
        now += chance.choice([0, 1, 50, 3000])
        sent = flow.outgoing(now)
        assert len(sent) <= 200, len(sent)
        due = flow.due(now)
        assert due is None or due >= 0, due
        version = client.version
        if chance.random() < 0.3 and client.id is None:
            flow.hear(b'["welcome",1]', now)
        flow.hear(damaged(chance, message(chance, client, version)), now)
        seen.add(flow.state)
        flow.events.clear()
        flow.changes.clear()
        if chance.random() < 0.3:
            edit(chance, client)
        if chance.random() < 0.1:
            flow.presence_set(damaged(chance, b'{"at": [1.5, "\\u00e9\\n"], "b": null}'))
        if chance.random() < 0.02:
            flow.lost()
            assert calls.lugcurrant_flow_unanswered(flow.at) == 0 and flow.outgoing(now) == [] and flow.others == {}
            flow.open(now)
        if chance.random() < 0.01:
            flow.begin_anew(State.STRANGER, scan=True)
    assert client.object(ROOT) is not None
    flow.free()
    return seen


def hears_others(calls):
    """What other clients show of themselves comes before, among and after answers, and answers nothing."""
    client, now = Client(), 0.0
    flow = c_flow.Flow(calls, client)
    flow.open(now)
    for answers in ([["welcome", 1]], [["entry", 1, [0, 0, "join", ["joined", 1]]], ["idle"]], [["idle"]]):
        assert flow.outgoing(now)
        for answer in answers:
            flow.hear(text(["here", 2, {"at": [now, "e"]}]), now)
            flow.hear(text(answer), now)
        now += 1
    client.set(ROOT, "a", 1)
    assert len(flow.outgoing(now)) == 1
    for answer in (["here", 1, 5], ["idle"], ["here", 2, None], ["entry", 2, [1, 1, ["set", [0, 0], "a", 1], ["wasset"]]], ["here", 2, "x" * 1022]):
        flow.hear(text(answer), now)
    assert (flow.state, client.waiting, client.version, flow.is_settled) == (State.ONLINE, 0, 2, True), (flow.state, client.waiting, client.version)
    assert flow.changes[-3:] == [[2, {"at": [2, "e"]}], [2, None], [2, "x" * 1022]] and flow.others == {2: "x" * 1022}, (flow.changes, flow.others)
    flow.lost()
    assert flow.changes[-1] == [2, None] and flow.others == {}
    flow.free()


def main():
    rounds = int(sys.argv[1]) if len(sys.argv) > 1 else 300

    def act(calls):
        hears_others(calls)
        states = set()
        for seed in range(rounds):
            states |= play(calls, seed)
        print(f"{rounds} flows, 400 messages each, states: {', '.join(sorted(it.value for it in states))}")
        assert len(states) >= 9, "too few states were seen"
        return 0

    return c_flow.run("--sanitize", __file__, sys.argv[1:], act)


if __name__ == "__main__":
    sys.exit(main())
