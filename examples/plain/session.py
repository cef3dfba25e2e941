#!/usr/bin/env python3
"""A client of canvasd: session.py PORT [EDITS]. Plays a first session with a server that nobody has joined, and checks each answer;
then sends so many edits (1000), each followed by an ask, and prints how many round trips it made a second.
Needs Debian's python3-websockets."""

import asyncio
import json
import sys
import time

import websockets

# What is sent, and the messages of its answer.
SESSION = [
    (["join", 2], [["welcome", 1]]),
    (["ask", 1, 0], [["entry", 1, [0, 0, "join", ["joined", 1]]], ["idle"]]),
    (["edit", 1, 1, ["create", [1, 1], "page", [[0, 0], "O"]]], [["idle"]]),
    (["edit", 1, 1, ["create", [1, 1], "page", [[0, 0], "O"]]], [["idle"]]),
    (["edit", 1, 3, ["delete", [1, 1]]], [["no", 3]]),
    (
        ["ask", 1, 1],
        [
            ["entry", 2, [1, 1, ["create", [1, 1], "page", [[0, 0], "O"]], ["created", [[0, 0], "O"]]]],
            ["idle"],
        ],
    ),
    (["ask", 7, 0], [["no", 1]]),
]
LAST = {"welcome", "idle", "no"}


async def round_trip(socket, message):
    """Sends a message, and gives the messages of its answer, in order."""
    await socket.send(json.dumps(message, separators=(",", ":")).encode())
    answer = []
    while not answer or answer[-1][0] not in LAST:
        answer.append(json.loads(await socket.recv()))
    return answer


def tells(answer, version, entry):
    """Whether an answer tells this entry: by itself, or in a copy of the document, where the server has made a checkpoint meanwhile."""
    first, *rest = answer
    return rest == [["idle"]] and (first == ["entry", version, entry] or first[:3] == ["copy", version, entry[1]])


async def play(port, edits):
    async with websockets.connect(f"ws://127.0.0.1:{port}/", compression=None, max_size=None) as socket:
        for message, wanted in SESSION:
            answer = await round_trip(socket, message)
            if answer != wanted:
                sys.exit(f"to {message} came {answer} in place of {wanted}")
        start = time.perf_counter()
        for k in range(edits):
            change = ["set", [1, 1], "n", k]
            outcome = await round_trip(socket, ["edit", 1, 2 + k, change])
            told = await round_trip(socket, ["ask", 1, 2 + k])
            if outcome != [["idle"]] or not tells(told, 3 + k, [1, 2 + k, change, ["wasset"]]):
                sys.exit(f"edit {2 + k}: {outcome}, {told}")
        seconds = time.perf_counter() - start
    print(f"{edits} edits and asks: {2 * edits / seconds:.0f} round trips a second")


asyncio.run(play(int(sys.argv[1]), int(sys.argv[2]) if len(sys.argv) > 2 else 1000))
