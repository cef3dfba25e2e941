#!/usr/bin/env python3
"""opening.py CANVASD [OBJECTS [one|rows]]: measures opening a folder whose document has so many objects (100,000). Its segment is a
checkpoint in one text, as it was written before, or a head and rows. `canvasd serve` opens it, which reads it and writes a checkpoint of
its own, is joined once, and ends with that connection; `canvasd show` reads what it left, and writes it as lines. Of each the CPU
seconds, and the most memory that it had. Needs Debian's python3-websockets and time."""

import asyncio
import json
import os
import shutil
import struct
import subprocess
import sys
import tempfile
import time

import websockets

PORT = 7436
DIGITS = [chr(c) for c in range(33, 127)]  # without the blank, in which no position ends


def pos(number):
    return DIGITS[number // 94 // 94 % 94] + DIGITS[number // 94 % 94] + DIGITS[number % 94]


def rows(objects):
    """The rows of a page with frames of 100 shapes, each with four properties."""
    made = [[[0, 0], "document", None, []], [[1, 1], "page", [[0, 0], "O"], []]]
    frame = None
    for i in range(objects - 2):
        number, place, within = i + 2, i // 101, i % 101
        if within == 0:
            frame = number
            made.append([[1, number], "frame", [[1, 1], pos(place)], []])
        else:
            properties = [["fill", ["rgba", 4278190335]], ["width", 100 + i % 50], ["x", i % 1000], ["y", i % 777]]
            made.append([[1, number], "shape", [[1, frame], pos(within)], properties])
    return made


def record(tree):
    text = json.dumps(tree, separators=(",", ":")).encode()
    return struct.pack(">I", len(text)) + text


def write(folder, objects, form):
    made = rows(objects)
    version, counts = len(made), [[len(made) - 1, len(made) - 1]]
    with open(os.path.join(folder, "segment-0000000001"), "wb") as segment:
        if form == "one":
            segment.write(record(["checkpoint", 1, version, counts, made]))
        else:
            segment.write(record(["checkpoint", 2, version, counts, len(made)]))
            for row in made:
                segment.write(record(row))


def size(folder):
    return sum(os.path.getsize(os.path.join(folder, name)) for name in os.listdir(folder))


async def join():
    """Joins, in the version that the server speaks, and ends."""
    while True:
        try:
            async with websockets.connect(f"ws://127.0.0.1:{PORT}/", compression=None, open_timeout=None) as socket:
                for version in (2, 1):
                    await socket.send(json.dumps(["join", version]).encode())
                    if json.loads(await socket.recv())[0] == "welcome":
                        return
        except OSError:
            await asyncio.sleep(0.05)


def measured(name, words):
    """Runs a command, and tells its CPU seconds and its peak memory. `serve` is joined once."""
    with tempfile.NamedTemporaryFile(mode="r") as told:
        started = time.time()
        timed = ["/usr/bin/time", "-f", "%U %S %M", "-o", told.name, *words]
        with subprocess.Popen(timed, stdout=subprocess.DEVNULL, stderr=subprocess.DEVNULL) as process:
            if name == "serve":
                asyncio.run(join())
            process.wait()
        user, system, peak = told.read().split()[-3:]
    print(f"{name}: {float(user) + float(system):.2f} CPU seconds, {time.time() - started:.2f} in all, peak {int(peak) / 1024:.0f} MB")


def main():
    canvasd, objects = os.path.abspath(sys.argv[1]), int(sys.argv[2]) if len(sys.argv) > 2 else 100_000
    form = sys.argv[3] if len(sys.argv) > 3 else "one"
    folder = tempfile.mkdtemp(prefix="canvasd-opening-")
    write(folder, objects, form)
    print(f"{objects} objects, {size(folder) / 1e6:.2f} MB, form: {form}")
    measured("serve", [canvasd, "serve", folder, str(PORT), "1"])
    print(f"left: {size(folder) / 1e6:.2f} MB in {', '.join(sorted(os.listdir(folder)))}")
    measured("show", [canvasd, "show", folder])
    shutil.rmtree(folder)


main()
