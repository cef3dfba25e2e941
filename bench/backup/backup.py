#!/usr/bin/env python3
"""backup.py CANVASD [TIMES]: starts a server of a new folder, has a client make pages as fast as it is answered, and meanwhile copies the
folder so many times (200), the highest-numbered segment last, and again where a file vanished. Looks with `canvasd show` whether each copy
holds the pages 1, 2, .. up to one that is at least the last answered by idle when the copy began, and no page that was sent after it
ended. Exit status 1 where one doesn't. Needs Debian's python3-websockets."""

import asyncio
import json
import os
import random
import shutil
import subprocess
import sys
import tempfile
import threading
import time

import websockets

PORT = 7434


class Client(threading.Thread):
    """Makes pages until it is told to stop."""

    def __init__(self):
        super().__init__(daemon=True)
        self.sent, self.answered, self.stopped, self.fault = 0, 0, False, None

    def run(self):
        try:
            asyncio.run(self.edit())
        except Exception as fault:
            self.fault = fault

    async def edit(self):
        async with websockets.connect(f"ws://127.0.0.1:{PORT}/", compression=None) as socket:
            await self.ask(socket, ["join", 2], ["welcome", 1])
            while not self.stopped:
                self.sent += 1
                page = ["create", [1, self.sent], "page", [[0, 0], f"{self.sent:06d}O"]]
                await self.ask(socket, ["edit", 1, self.sent, page], ["idle"])
                self.answered = self.sent

    async def ask(self, socket, message, wanted):
        await socket.send(json.dumps(message).encode())
        answer = json.loads(await socket.recv())
        if answer != wanted:
            raise ValueError(f"to {message} came {answer}")


def copied(folder, to):
    """Copies the folder's files in order of their names. Whether none vanished meanwhile."""
    os.mkdir(to)
    try:
        for name in sorted(os.listdir(folder)):
            shutil.copyfile(os.path.join(folder, name), os.path.join(to, name))
        return True
    except FileNotFoundError:
        shutil.rmtree(to)
        return False


def pages(canvasd, folder):
    """The counters of the pages that the folder's document shows."""
    text = subprocess.run([canvasd, "show", folder], check=True, capture_output=True, text=True).stdout
    return [int(line.split()[0].split(":")[1]) for line in text.splitlines()[2:]]


def main():
    canvasd, times = os.path.abspath(sys.argv[1]), int(sys.argv[2]) if len(sys.argv) > 2 else 200
    base = tempfile.mkdtemp(prefix="canvasd-backup-")
    folder, to = os.path.join(base, "served"), os.path.join(base, "copy")
    server = subprocess.Popen([canvasd, "serve", folder, str(PORT), "1"], stdout=subprocess.PIPE, text=True)
    server.stdout.readline()
    client = Client()
    client.start()
    again, wrong = 0, 0
    for _ in range(times):
        time.sleep(random.uniform(0, 0.02))
        least = client.answered
        while not copied(folder, to):
            again, least = again + 1, client.answered
        most, found = client.sent, pages(canvasd, to)
        wrong += found != list(range(1, len(found) + 1)) or not least <= len(found) <= most
        shutil.rmtree(to)
    client.stopped = True
    client.join()
    server.wait()
    shutil.rmtree(base)
    print(f"{times} copies while {client.answered} edits were answered, {again} begun again, {wrong} wrong")
    sys.exit(1 if wrong or client.fault else 0)


main()
