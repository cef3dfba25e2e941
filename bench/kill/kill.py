#!/usr/bin/env python3
"""kill.py CANVASD [TIMES [CLIENTS]]: starts a server of a new folder so many times (50), has so many clients (1) edit at once, each as fast
as it is answered, kills the server with SIGKILL at a random moment, and looks with `canvasd show` whether each edit that was answered by
idle is there. Exit status 1 where one is lost. Needs Debian's python3-websockets."""

import asyncio
import json
import os
import random
import shutil
import subprocess
import sys
import tempfile
import threading
from pathlib import Path

import websockets

PORT = 7433
FIGURES = Path(__file__).resolve().parents[2] / "tools" / "figures"


async def ask(socket, message):
    await socket.send(json.dumps(message).encode())
    return json.loads(await socket.recv())


async def edit(acknowledged):
    """Makes pages until the server is killed, and keeps the ids of those that were answered by idle. How many were sent."""
    sent = 0
    try:
        async with websockets.connect(f"ws://127.0.0.1:{PORT}/", compression=None) as socket:
            client = (await ask(socket, ["join", 2]))[1]
            while True:
                sent += 1
                page = ["create", [client, sent], "page", [[0, 0], f"{client:05d}{sent:06d}O"]]
                answer = await ask(socket, ["edit", client, sent, page])
                if answer != ["idle"]:
                    sys.exit(f"an edit was answered {answer}")
                acknowledged.add(f"{client}:{sent}")
    except (OSError, websockets.ConnectionClosed):
        return sent


async def edit_all(server, clients, acknowledged):
    """Has all clients edit at once until the server is killed. How many edits were sent."""
    threading.Timer(random.uniform(0.05, 0.5), server.kill).start()
    return sum(await asyncio.gather(*(edit(acknowledged) for _ in range(clients))))


def shown(canvasd, folder):
    """The ids of the objects that the folder's document shows."""
    text = subprocess.run([canvasd, "show", folder], check=True, capture_output=True, text=True).stdout
    return {line.split()[0] for line in text.splitlines()[1:]}


def main():
    canvasd, times = os.path.abspath(sys.argv[1]), int(sys.argv[2]) if len(sys.argv) > 2 else 50
    clients = int(sys.argv[3]) if len(sys.argv) > 3 else 1
    folder = tempfile.mkdtemp(prefix="canvasd-kill-")
    acknowledged, sent, lost = set(), 0, set()
    for _ in range(times):
        server = subprocess.Popen([canvasd, "serve", folder, str(PORT), str(clients)], stdout=subprocess.PIPE, text=True)
        server.stdout.readline()
        sent += asyncio.run(edit_all(server, clients, acknowledged))
        server.wait()
        lost |= acknowledged - shown(canvasd, folder)
    print(f"{times} kills, {sent} edits sent, {len(acknowledged)} answered by idle, {len(lost)} lost")
    figures = [f"kills={times}", f"answered={len(acknowledged)}", f"lost={len(lost)}"]
    subprocess.run([FIGURES, "--record", f"kills with {clients}", *figures], check=True)
    shutil.rmtree(folder)
    sys.exit(1 if lost else 0)


main()
