#!/usr/bin/env python3
"""A connection that is lost while a flow for C is out of memory and has made some of its edits again, but not all: it must start over, with
another id. Before it has made any it continues.

The allocation that fails is the first one of the call, then the second one, and so on until none fails."""

import ctypes
import sys

import c_flow
from lugcurrant import ROOT, Client

EDITS = 5


def hear(flow, *messages):
    for message in messages:
        flow.outgoing(0)
        flow.hear(message, 0)


def joins(flow, number):
    """The fresh client joins, and what it asks is under way."""
    while flow.calls.lugcurrant_flow_unanswered(flow.at) > 0:
        flow.hear(b'["no",3]', 0)
    hear(flow, b'["welcome",%d]' % number)
    assert flow.outgoing(0) == [b'["ask",%d,0]' % number]


def play(calls, after):
    """Whether the call was out of memory with so many allocations before the one that fails, and the client's id in the end."""
    client = Client()
    flow = c_flow.Flow(calls, client)
    flow.open(0)
    hear(flow, b'["welcome",1]', b'["idle"]')
    page = client.create_last("page", ROOT)
    for value in range(1, EDITS):
        client.set(page, "a", value)
    hear(flow, b'["no",1]')
    joins(flow, 2)
    flow.events.clear()

    failed = calls.failing_hear(after, flow.at, b'["idle"]', 8, 0) == c_flow.MEMORY
    if failed:
        flow.lost()
        flow.open(0)
        assert client.waiting == EDITS and client.id == 1 and flow.unsent == EDITS, "the client has changed"
        hear(flow, *[b'["welcome",3]'] if flow.outgoing(0) == [b'["join",2]'] else [], b'["idle"]')
    flow._take_events()
    made = [event.detail for event in flow.events if event.type == "anew"]
    assert [(it["made"], it["lost"], it["unsure"]) for it in made] == [(EDITS, [], [])], made
    assert client.waiting == EDITS and client.text().count("\n") == 3, client.text()
    assert [str(it) for it in made[0]["ids"].values()] == [f"{client.id}:1"], made
    flow.free()
    return failed, client.id


def main():
    def act(calls):
        ids = []
        for after in range(10000):
            failed, number = play(calls, after)
            if not failed:
                break
            ids.append(number)
        assert not failed and number == 2
        assert ids == sorted(ids) and ids.count(2) > 0 and ids.count(3) > EDITS, ids
        held = [ctypes.c_long.in_dll(calls, name).value for name in ("failing_blocks", "failing_clients")]
        assert held == [0, 0], f"after all flows were freed they hold blocks and clients: {held}"
        print(f"out of memory at each of {len(ids)} allocations, then a lost connection: {ids.count(3)} times it started over")
        return 0

    return c_flow.run("--memory", __file__, sys.argv[1:], act)


if __name__ == "__main__":
    sys.exit(main())
