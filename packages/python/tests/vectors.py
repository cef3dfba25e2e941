#!/usr/bin/env python3
"""Plays the vectors of conformance/ on the Python package:  vectors.py FILE..

An edit is made by what a person asked for, and has to come to the very change that stands in the vector."""

import json
import sys

from lugcurrant import Client, ClientError, ObjectId, What
from lugcurrant.remake import change_of, members


def make(client: Client, request: str) -> None:
    word, *rest = members(request)
    what = json.loads(word)
    ids = [json.loads(it) for it in (rest[:2] if what == "set" else rest)]
    at = [ObjectId(*it) if isinstance(it, list) else None for it in ids]
    if what == "create":
        client.create(ids[0], at[1], at[2])
    elif what == "set":
        client.set_json(at[0], ids[1], rest[2])
    elif what == "clear":
        client.clear(at[0], ids[1])
    elif what == "move":
        client.move(*at)
    else:
        client.delete(at[0])


def step(client: Client, line: str) -> str | None:
    kind, *parts = members(line)
    what = json.loads(kind)
    if what == "begin":
        return None
    first, *second = parts
    if what in ("edit", "refused"):
        try:
            make(client, second[0] if what == "edit" else first)
            code = None
        except ClientError as fault:
            code = fault.code
        if what == "refused":
            return None if code == json.loads(second[0]) else f"refuses by {code} in place of {second[0]}"
        change = code or change_of(client.edit_message(client.waiting) or b"[0,0,0,0]")
        return None if change == first else f"makes {change} in place of {first}"
    if what == "receive":
        heard = client.receive(first.encode()).what
        name = {What.NOT_FOR_ME: "not for me"}.get(heard, heard.name.lower())
        return None if name == json.loads(second[0]) else f"says {name} in place of {second[0]}"
    if what == "send":
        head, *rest = json.loads(first)
        sent = client.join_message() if head == "join" else client.ask_message() if head == "ask" else client.edit_message(rest[1] - client.acknowledged)
        return None if sent and sent.decode() == first else f"would send {sent!r}"
    return None


def play(lines: list[str]) -> str | None:
    client, wanted = Client(), None
    for at, line in enumerate(lines):
        if line.startswith('["view",'):
            continue
        fault = step(client, line)
        if fault:
            return f"line {at + 1}: the client {fault}"
        if at + 1 < len(lines) and lines[at + 1].startswith('["view",'):
            wanted = json.loads(lines[at + 1])[1:]
        shown = [client.version, client.acknowledged, client.waiting, client.text()]
        if shown != wanted:
            return f"line {at + 1}: after it the client shows {shown} in place of {wanted}"
    return None


def main(names: list[str]) -> int:
    faults = 0
    for name in names:
        with open(name, encoding="utf-8") as file:
            fault = play(file.read().splitlines())
        faults += fault is not None
        if fault:
            print(f"{name}: {fault}")
    print(f"{len(names)} vectors, {faults} with a fault")
    return 1 if faults else 0


if __name__ == "__main__":
    sys.exit(main(sys.argv[1:]))
