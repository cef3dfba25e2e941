#!/usr/bin/env python3
"""Plays vectors on the client of client.py:  run.py FILE..

For a client of your own, replace `Client` by a class with the same five calls: edit, receive, text, and the messages that it sends."""

import json
import sys

from client import Client


def sent_by(client, message):
    """What the client sends, where the vector says that it sends this message."""
    if message[0] == "join":
        return client.join_message()
    if message[0] == "ask":
        return client.ask_message()
    i = message[2] - client.acknowledged
    return client.edit_message(i) if 1 <= i <= len(client.waiting) else None


def play(client, lines):
    """Plays the lines of a vector. The first fault as a text, or None."""
    wanted = None
    for at, line in enumerate(lines):
        word, *rest = json.loads(line)
        if word == "view":
            continue
        if word == "edit":
            client.edit(rest[0])
        elif word == "receive":
            heard = client.receive(rest[0])
            if heard != rest[1]:
                return f"line {at + 1}: the client says {heard} in place of {rest[1]}"
        elif word == "send":
            sent = sent_by(client, rest[0])
            if sent != rest[0]:
                return f"line {at + 1}: the client would send {json.dumps(sent)}"
        next_line = json.loads(lines[at + 1]) if at + 1 < len(lines) else [None]
        if next_line[0] == "view":
            wanted = next_line[1:]
        shown = [client.version, client.acknowledged, len(client.waiting), client.text()]
        if shown != wanted:
            return f"line {at + 1}: after it the client shows {json.dumps(shown)} in place of {json.dumps(wanted)}"
    return None


def read(names):
    for name in names:
        with open(name, encoding="utf-8") as file:
            yield name, file.read().splitlines()


def main(names):
    faults = 0
    for name, lines in read(names):
        try:
            fault = play(Client(), lines)
        except Exception as error:  # a client that breaks is a fault like another
            fault = f"{type(error).__name__}: {error}"
        faults += fault is not None
        if fault:
            print(f"{name}: {fault}")
    print(f"{len(names)} vectors, {faults} with a fault")
    return 1 if faults else 0


if __name__ == "__main__":
    sys.exit(main(sys.argv[1:]))
