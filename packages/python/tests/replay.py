#!/usr/bin/env python3
"""Replays the random worlds of js/test/worlds.mjs on the flow of this package, whose every answer and event has to be the same:

    node js/test/worlds.mjs 1 200 --trace | python/tests/replay.py

c/tests/replay.py does the same with the flow for C."""

import json
import re
import sys

from lugcurrant import Client, ClientError, Colour, Flow, ObjectId, State
from lugcurrant.presence import Presence

CALLS = {"open": "open", "lost": "lost", "wake": "wake", "show": "show", "outgoing": "outgoing", "due": "due", "hear": "hear", "beginAnew": "begin_anew"}
NAMES = {"create": "create", "createLast": "create_last", "set": "set", "clear": "clear", "move": "move", "delete": "delete"}
OPTIONS = {"window": "window", "windowBytes": "window_bytes", "asks": "asks", "mostAsks": "most_asks"}


class Linked(Flow):
    """The flow of this package, with the presence of a link: `changes` has what was told of the others, and `others` what they show."""

    def __init__(self, client, **options):
        super().__init__(client, second=1000, **options)
        self.changes = []
        self.presence = Presence(self.show, lambda client, value: self.changes.append([client, value]))

    @property
    def others(self):
        return self.presence.others

    def hear(self, message, now):
        super().hear(message, now)
        for event in [it for it in self.events if it.type == "here"]:
            self.events.remove(event)
            self.presence._heard(event.detail["client"], event.detail["value"])

    def lost(self):
        super().lost()
        self.presence._lost()


def given(value):
    return ObjectId.parse(value) if isinstance(value, str) and re.fullmatch(r"\d+:\d+", value) else value


def call(flow, name, args):
    if name == "beginAnew":
        return flow.begin_anew(State(args[0]), **(args[1] if len(args) > 1 else {}))
    if name == "hear":
        return flow.hear(args[0].encode(), args[1])
    answer = getattr(flow, CALLS[name])(*args)
    return [message.decode() for message in answer] if name == "outgoing" else answer


def edit(client, name, args):
    try:
        made = getattr(client, NAMES[name])(*map(given, args))
    except ClientError as fault:
        return "refused", fault.code
    return "edit", None if made is None else str(made)


def plain(event):
    """An event as the trace has it."""
    told = {"type": event.type, **event.detail}
    if event.type == "state":
        told["state"] = event.detail["state"].value
    if event.type == "refused":
        told["id"] = str(event.detail["id"])
    if event.type == "anew":
        told["lost"] = [{"change": change, "code": code} for change, code in event.detail["lost"]]
        told["unsure"] = [{"change": change} for change in event.detail["unsure"]]
        told["ids"] = {str(was): str(now) for was, now in event.detail["ids"].items()}
    return told


def replay(lines, make_flow):
    """Replays the lines of a trace on flows that `make_flow` makes for a client and options. How many worlds, calls, edits, events and ends, and how
    often other clients showed something else."""
    flows, heard, changed, counts = {}, None, None, {"worlds": 0, "calls": 0, "edits": 0, "events": 0, "ends": 0, "presence": 0}
    for number, line in enumerate(lines, 1):
        what, n, *rest = json.loads(line)
        where = f"line {number}: {line.strip()[:300]}"
        if what == "events":
            found = [plain(event) for event in flows[n].events]
            counts["events"] += len(found)
            flows[n].events.clear()
            assert found == rest[0], f"{where}: here {found}"
            continue
        if what == "presence":
            flow = flows[n]
            found = [sorted(flow.changes, key=lambda change: change[0]), [list(it) for it in sorted(flow.others.items())]]
            flow.changes = []
            counts["presence"] += 1
            assert found == rest, f"{where}: here {found}"
            continue
        assert heard is None or not flows[heard].events, f"{where}: before it {flows[heard].events}"
        assert changed is None or not flows[changed].changes, f"{where}: before it {flows[changed].changes}"
        heard = n if what == "hear" else None
        changed = n if what in ("hear", "lost", "open") else None
        if what == "new":
            counts["worlds"] += n == 0
            saved, options = rest
            client = Client(saved.encode()) if saved else Client()
            flows[n] = make_flow(client, **{OPTIONS[k]: v for k, v in options.items()}, least_pause=5, most_pause=400)
        elif what == "save":
            assert flows[n].client.save().decode() == rest[0], f"{where}: another save"
        elif what == "forget":
            flows[n].anew = None
        elif what in ("edit", "refused"):
            counts["edits"] += 1
            name, args, wanted = rest
            found = edit(flows[n].client, name, args)
            assert found == (what, wanted), f"{where}: here {found}"
        elif what == "end":
            counts["ends"] += 1
            flow = flows[n]
            found = [flow.client.text(), flow.client.version, flow.client.acknowledged, flow.client.waiting, flow.unsent, flow.state.value]
            assert found == rest and not flow.events and not flow.changes, f"{where}: here {found}, {flow.events}, {flow.changes}"
        else:
            counts["calls"] += 1
            args, wanted = rest
            found = call(flows[n], what, args)
            assert found == wanted, f"{where}: here {found}"
    return counts


def main():
    print(replay(sys.stdin, Linked), "each answer and event the same")


if __name__ == "__main__":
    assert Colour.of("#112233").rgba == 0x112233FF
    main()
