#!/usr/bin/env python3
"""run.py CANVASD: lets each call of the system that a server makes on its folder fail in turn, once and from then on, with
EIO and ENOSPC, and lets each write be cut short. A client edits meanwhile, past two checkpoints. Where the server got as
far as serving, the edit whose call failed is answered No 5, and each later one No 6; an Ask is answered on; at the end
the server ends with status 4. Where no file is left to be opened for a checkpoint, it goes on; where none is left for
the first segment, it ends with status 3. A server that starts on the folder afterwards has every edit that was answered by
idle, in order, and at most one more. Then two servers on one folder: the second ends with status 4, and the first goes on.
Prints how many runs of each kind there were, and exits with 1 where one went wrong.
Needs cc, and Debian's python3-websockets. The folder of the kit isn't needed: it tries a built program."""

import asyncio
import errno
import itertools
import json
import os
import re
import shutil
import subprocess
import sys
import tempfile

import websockets

HERE = os.path.dirname(os.path.abspath(__file__))
EDITS = 530  # past two checkpoints of 256 entries
HARMLESS = ("0", str(errno.EMFILE))  # a short write is gone on with, and without an open file no segment is made


async def ask(socket, message):
    await socket.send(json.dumps(message).encode())
    return json.loads(await socket.recv())


async def news(socket, client, version):
    """The version up to which an Ask is answered."""
    await socket.send(json.dumps(["ask", client, version]).encode())
    while True:
        answer = json.loads(await socket.recv())
        if answer[0] in ("entry", "copy"):
            version = answer[1]
        else:
            return version if answer == ["idle"] else answer


async def session(port):
    """Joins and makes pages. The edits answered by idle, the other answers in order, and what an Ask is answered at the end."""
    async with websockets.connect(f"ws://127.0.0.1:{port}/", compression=None) as socket:
        joined = await ask(socket, ["join", 2])
        if joined[0] != "welcome":
            return [], [joined], None
        client, kept, refused = joined[1], [], []
        for number in range(1, EDITS):
            page = ["create", [client, number], "page", [[0, 0], f"{number:06d}O"]]
            answer = await ask(socket, ["edit", client, number, page])
            if answer == ["idle"]:
                kept.append(f"{client}:{number}")
            else:
                refused.append(answer)
            if len(refused) == 3:
                break
        return kept, refused, await news(socket, client, 0)


def start(canvasd, folder, port, environment):
    return subprocess.Popen([canvasd, "serve", folder, str(port), "1"], env={**os.environ, **environment},
                            stdout=subprocess.PIPE, stderr=subprocess.PIPE, text=True)


def shown(canvasd, folder):
    text = subprocess.run([canvasd, "show", folder], check=True, capture_output=True, text=True).stdout
    return [line.split()[0] for line in text.splitlines()[2:]]


def run(canvasd, library, port, fault):
    """One run with this fault: what went wrong, or None; and how many calls were counted."""
    room = tempfile.mkdtemp(prefix="canvasd-device-")
    folder, count = f"{room}/folder", f"{room}/count"
    subprocess.run([canvasd, "trial", folder], check=True, capture_output=True)
    before = shown(canvasd, folder)
    try:
        server = start(canvasd, folder, port, {"LD_PRELOAD": library, "FAULT_FOLDER": folder, "FAULT_COUNT": count, **fault})
        head = server.stdout.readline()
        kept, refused, last = [], [], None
        if head:
            kept, refused, last = asyncio.run(session(port))
        out, err = server.communicate(timeout=60)
        calls = int(open(count).read()) if os.path.exists(count) else 0
        harmless = fault["FAULT_ERROR"] in HARMLESS
        wrong = judge(canvasd, folder, before, head, kept, refused, last, server.returncode, out, err, harmless)
        if head and refused and harmless:
            wrong = f"refused by {refused}"
        return wrong, calls
    finally:
        shutil.rmtree(room)


def judge(canvasd, folder, before, head, kept, refused, last, status, out, err, harmless):
    """What went wrong, or None."""
    if refused and refused[0] not in (["no", 5], ["no", 6]):
        return f"the first refusal is {refused[0]}"
    if any(answer != ["no", 6] for answer in refused[1:]):
        return f"refused by {refused}"
    if refused and last is not None and not isinstance(last, int):
        return f"an Ask is answered {last}"
    ending = (3, "out of memory\n") if harmless and not head else (4, "device or socket failed\n")
    if (refused or not head) and (status, err) != ending:
        return f"status {status}, {err!r}"
    if head and not re.fullmatch(r"served 1 version \d+\n", out):
        return f"the last line is {out!r}"
    after = subprocess.run([canvasd, "trial", folder], capture_output=True, text=True)
    if after.returncode != 0:
        return f"a trial afterwards ends with {after.returncode}: {after.stderr}"
    pages = [page for page in shown(canvasd, folder) if page.split(":")[0] not in {old.split(":")[0] for old in before}]
    found = [page for page in pages if kept and page.split(":")[0] == kept[0].split(":")[0]]
    if found[:len(kept)] != kept or len(found) > len(kept) + 1:
        return f"{len(kept)} answered, {len(found)} found"
    return None


def faults():
    """Each kind of fault: the calls that are counted, and what happens at one of them."""
    for call, error in itertools.product(("create", "write", "fsync", "unlink"), (errno.EIO, errno.ENOSPC)):
        for ever in ({}, {"FAULT_EVER": "1"}):
            yield {"FAULT_CALL": call, "FAULT_ERROR": str(error), **ever}
    yield {"FAULT_CALL": "write", "FAULT_ERROR": "0"}
    yield {"FAULT_CALL": "create", "FAULT_ERROR": str(errno.EMFILE)}


def two_servers(canvasd):
    """Whether a second server of a folder ends with status 4, and the first goes on."""
    room = tempfile.mkdtemp(prefix="canvasd-two-")
    try:
        first = start(canvasd, f"{room}/folder", 7442, {})
        first.stdout.readline()
        files = sorted(os.listdir(f"{room}/folder"))
        second = start(canvasd, f"{room}/folder", 7443, {})
        out, err = second.communicate(timeout=60)
        kept, refused, _ = asyncio.run(session(7442))
        first.communicate(timeout=60)
        is_told = (second.returncode, out, err) == (4, "", "device or socket failed\n")
        return is_told and not refused and shown(canvasd, f"{room}/folder") == kept and files
    finally:
        shutil.rmtree(room)


def main():
    canvasd, room, wrong = os.path.abspath(sys.argv[1]), tempfile.mkdtemp(prefix="canvasd-faults-"), 0
    library = f"{room}/faults.so"
    subprocess.run(["cc", "-shared", "-fPIC", "-O", "-o", library, f"{HERE}/faults.c", "-ldl"], check=True)
    for fault in faults():
        runs, at = 0, 1
        while True:
            why, calls = run(canvasd, library, 7441, {**fault, "FAULT_AT": str(at)})
            if why:
                wrong += 1
                print(f"{fault} at {at}: {why}")
            runs += 1
            if calls < at:
                break
            # The calls of edits are many and alike: each of the first, and then each tenth or so.
            at += 1 if at < 12 else 1 + at // 4
        print(f"{fault['FAULT_CALL']} {fault['FAULT_ERROR']} {'ever' if 'FAULT_EVER' in fault else 'once'}: {runs} runs", flush=True)
    if not two_servers(canvasd):
        wrong += 1
        print("two servers on one folder")
    shutil.rmtree(room)
    print(f"{wrong} went wrong")
    sys.exit(1 if wrong else 0)


if __name__ == "__main__":
    main()
