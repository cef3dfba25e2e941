#!/usr/bin/env python3
"""Edits beside the pages:  partner.py PORT   with packages/python/src on PYTHONPATH.

It makes an edit every tenth of a second, away for a time in between. On standard input it is told `rest`, `go`, and `end VERSION`: then it goes
on until nothing waits and it has this version, and prints what it shows as JSON."""

import asyncio
import json
import random
import sys
import threading

from lugcurrant import ROOT, Client, ClientError, Link

AWAY = range(20, 40)  # of the edits, those that are made without a connection
MOST = 160  # edits, after which no shapes come any more


def edit(client, frame, chance, n):
    if n % 4 == 0 and n < MOST:
        shape = client.create("shape", frame)
        client.set(shape, "at", [chance.randrange(160), chance.randrange(130)])
        client.set(shape, "size", [20, 20])
    else:
        client.set(frame, "name", f"Python {n}")


class Told:
    """What standard input has told last."""

    def __init__(self):
        self.rests, self.end = False, None
        threading.Thread(target=self.listen, daemon=True).start()

    def listen(self):
        for line in sys.stdin:
            word, *version = line.split()
            self.rests = word == "rest"
            if word == "end":
                self.end = int(version[0])


async def frame_in(client):
    """Makes a frame on the first page, once there is a page."""
    while not (pages := client.children(ROOT)):
        await asyncio.sleep(0.05)
    frame = client.create("frame", pages[0])
    client.set(frame, "at", [20, 430])
    client.set(frame, "size", [180, 150])
    return frame


async def make_edits(link, told):
    """Edits until `end` is told. How many edits it tried."""
    client, chance, n = link.client, random.Random(1), 0
    frame = await frame_in(client)
    while told.end is None:
        await asyncio.sleep(0.1)
        if told.rests:
            continue
        if n == AWAY.start:
            link.offline = True
        elif n == AWAY.stop:
            link.offline = False
        try:
            edit(client, frame, chance, n)
        except ClientError:
            pass  # somebody has deleted the frame
        n += 1
    return n


async def main(port):
    told = Told()
    async with Link(Client(), f"ws://127.0.0.1:{port}/") as link:
        client, n = link.client, await make_edits(link, told)
        link.offline = False
        await link.settled()
        while client.version < told.end:
            await asyncio.sleep(0.05)
        print(json.dumps({"edits": n, "version": client.version, "text": client.text()}), flush=True)


asyncio.run(main(int(sys.argv[1])))
