#!/usr/bin/env python3
"""run.py SCENE CANVASD STOPS: refuses each call by which a program asks for memory, one in each run, until a run has no such call.

- `scene` with a log and with a world, and `canvasd show`: the program ends with status 3, `out of memory` and no output, or does as it does
  without.
- `canvasd edit`: the same, but for the answers that it wrote before. Before it has joined it may end with status 4 in place of 3, since a
  handshake doesn't tell want of memory from a socket that fails. The server's folder then has a beginning of its edits.
- `canvasd trial`: the same, or it ends with status 4, as a client does that is answered No 7; the folder can be shown then, if it is there.
- `canvasd serve` with a session of a client, which asks what is answered No 7 once more, and comes back where its connection ends. Each of
  its edits then stands once, in order, also in the folder. Where the server can't begin to serve, or to write its last line, it ends with
  status 3; what was answered stands then too.
- `test_stops` with a room's script, of which it says what each line is answered; then with two calls in a row refused. Each answer is that
  of a room in the state that stands then: a line that is refused memory has changed nothing and is answered as usual the next time; an entry
  that is owed (by a submit, a batch, or told by a checkpoint) is published by the next line, before that one's own; where memory is
  refused inside of the shelf, Device is answered once, and then Failed. Each of the three is met. A program whose own call is refused ends
  with status 1.

Prints how many runs of each kind there were and what came of them; exits with 1 where something else came. A program of several threads
asks in another order each time, so some call of it may be refused in two runs and another in none.
Needs cc, and Debian's python3-websockets."""

import asyncio
import collections
import concurrent.futures
import json
import os
import re
import shutil
import socket
import subprocess
import sys
import tempfile

import websockets

HERE = os.path.dirname(os.path.abspath(__file__))
ROOM = "/dev/shm" if os.path.isdir("/dev/shm") else None
LOG = """log
join
1 create 1:1 page 0:0 O
1 create 1:2 frame 1:1 O
1 set 1:2 name "Toolbar"
1 move 1:2 0:0 O
1 delete 1:1
"""
WORLD = """world
join a
join b
take 1
take 2
sync
publish
welcome 1
welcome 2
deliver 3
deliver 4
edit a create page 0:0 -
send a 1
take 5
sync
publish
copy a
copy b
deliver 6
deliver 7
edit a set 1:1 name "A"
edit b set 1:1 name "B"
send a 1
send b 1
take 9
take 8
sync
publish
tell 4 a
tell 5 b
deliver 10
deliver 11
show a
show server
"""
LINES = """create page 0:0 -
create frame 1:1 -
set 1:2 name "Toolbar"
exchange
clear 1:2 name
move 1:2 1:1 -
show
"""
# What a client asks for beside its Join. `ME` is its id.
CHANGES = [
    ["create", ["ME", 1], "page", [[0, 0], "O"]],
    ["create", ["ME", 2], "frame", [["ME", 1], "O"]],
    ["set", ["ME", 2], "name", "Toolbar"],
    ["set", ["ME", 2], "list", ["list", 1, True, ["rgba", 255]]],
    ["clear", ["ME", 2], "name"],
    ["move", ["ME", 2], [["ME", 1], "a"]],
    ["delete", ["ME", 9]],
    ["create", ["ME", 3], "page", [[0, 0], "a"]],
    ["delete", ["ME", 3]],
]


JOIN = '["join",2]'


def edit_of(client, seq, change):
    return json.dumps(["edit", client, seq, change], separators=(",", ":"))


PAGE = edit_of(1, 1, ["create", [1, 1], "page", [[0, 0], "O"]])
FRAME = edit_of(1, 2, ["create", [1, 2], "frame", [[1, 1], "O"]])
NAME = edit_of(1, 3, ["set", [1, 2], "name", "Toolbar"])
MOVE = edit_of(2, 1, ["move", [1, 2], [[1, 1], "a"]])
BATCH = f"{NAME} & {MOVE} & {JOIN}"
# What a room is asked, line by line.
ROOM_SCRIPT = [JOIN, JOIN, JOIN, "read", PAGE, PAGE, "read", FRAME, "checkpoint", "checkpoint", FRAME, "read", BATCH, BATCH, "read", JOIN, "read"]


class Wrong(Exception):
    """What came that mustn't."""


class Ended(Exception):
    """The server is no longer there."""


class Run:
    """A folder, and the environment of a program of which one call is refused."""

    def __init__(self, programs, at):
        self.programs, self.at = programs, at
        self.room = tempfile.mkdtemp(prefix="malloc-", dir=ROOM)
        self.folder = f"{self.room}/folder"
        self.port = free_port(20000 + 7 * at % 10000)

    def environment(self):
        return {"PATH": os.environ["PATH"], "LD_PRELOAD": self.programs["library"], "REFUSE_FILE": f"{self.room}/asked",
                "REFUSE_AT": str(self.at)}

    def asked(self):
        with open(f"{self.room}/asked", "rb") as file:
            return int.from_bytes(file.read(), sys.byteorder)

    def refused(self, words, given=""):
        """What a program writes of which one call is refused: its status, its output and what it says of its faults."""
        return ran(words, given, self.environment())

    def show(self):
        """What the folder holds."""
        status, out, err = ran([self.programs["canvasd"], "show", self.folder])
        if status != 0:
            raise Wrong(f"show: {status}, {err!r}")
        return out

    def serve(self, connections, environment):
        return subprocess.Popen([self.programs["canvasd"], "serve", self.folder, str(self.port), str(connections)],
                                stdout=subprocess.PIPE, stderr=subprocess.PIPE, text=True, env=environment)


def free_port(first):
    """The first of seven ports, which are one run's own, that no other program has."""
    for port in range(first, first + 7):
        with socket.socket() as probe:
            try:
                probe.bind(("127.0.0.1", port))
                return port
            except OSError:
                pass
    raise Wrong(f"the ports from {first} on are taken")


def ran(words, given="", environment=None):
    ended = subprocess.run(words, input=given, capture_output=True, text=True, timeout=60, env=environment)
    return ended.returncode, ended.stdout, ended.stderr


def same_or_ended(ended, whole):
    """What became of a program that writes at its end, where it writes this without a refusal."""
    if ended == whole:
        return "as without"
    if ended == (3, "", "out of memory\n"):
        return "status 3"
    raise Wrong(str(ended))


def scene(given):
    def play(run, whole):
        ended = run.refused([run.programs["scene"]], given)
        return ended, whole and same_or_ended(ended, whole)
    return play


def show(run, whole):
    status, _, err = ran([run.programs["canvasd"], "trial", run.folder])
    if status != 0:
        raise Wrong(f"trial: {status}, {err!r}")
    ended = run.refused([run.programs["canvasd"], "show", run.folder])
    # Two clients of a trial come in any order, so what is shown differs; not so the version that it begins with.
    ended = (ended[0], ended[1].split("\n")[0], ended[2])
    return ended, whole and same_or_ended(ended, whole)


def trial(run, whole):
    ended = run.refused([run.programs["canvasd"], "trial", run.folder])
    if os.path.isdir(run.folder):
        run.show()
    if whole and ended == (4, "", "device or socket failed\n"):
        return ended, "status 4"
    return ended, whole and same_or_ended(ended, whole)


def edit(run, whole):
    server = run.serve(1, None)
    server.stdout.readline()
    ended = run.refused([run.programs["canvasd"], "edit", str(run.port)], LINES)
    server.kill()
    server.communicate()
    shown = run.show()
    if whole is None or ended == whole:
        return ended, "as without"
    status, out, err = ended
    if (status, err) == (4, "device or socket failed\n") and shown == "version 0\n0:0 document\n":
        return ended, "status 4 in its handshake"
    if (status, err) != (3, "out of memory\n") or not whole[1].startswith(out):
        raise Wrong(str(ended))
    if not re.match(r"version [0-6]\n0:0 document\n", shown):
        raise Wrong(f"the folder: {shown!r}")
    return ended, "status 3"


async def answers(socket, message):
    """The messages of an answer."""
    await socket.send(json.dumps(message).encode())
    told = []
    while not told or told[-1][0] not in ("welcome", "idle", "no"):
        told.append(json.loads(await asyncio.wait_for(socket.recv(), 20)))
    return told


class Client:
    """A client that asks once more what it is answered No 7, and comes back where its connection ends."""

    def __init__(self, port):
        self.port, self.socket, self.came, self.done = port, None, collections.Counter(), 0

    async def ask(self, message):
        while True:
            try:
                if self.socket is None:
                    self.socket = await websockets.connect(f"ws://127.0.0.1:{self.port}/", compression=None, open_timeout=20)
                told = await answers(self.socket, message)
                if told[-1] != ["no", 7]:
                    return told
                self.came["No 7"] += 1
            except ConnectionRefusedError as error:
                raise Ended from error
            except (websockets.WebSocketException, ConnectionError, EOFError) as error:
                self.socket = None
                self.came["its connection ended"] += 1
                if self.came["its connection ended"] > 1:
                    raise Wrong(f"a second connection ended: {error!r}") from error

    async def fill(self):
        """The server serves two connections: if this is the first of them, comes once more."""
        if self.came["its connection ended"]:
            return
        try:
            await (await websockets.connect(f"ws://127.0.0.1:{self.port}/", compression=None)).close()
        except (websockets.WebSocketException, ConnectionError, EOFError):
            self.came["its connection ended"] += 1

    async def play(self):
        """Joins and makes its edits; gives them, and the entries that stand then."""
        joined = await self.ask(["join", 2])
        if joined[0][0] != "welcome":
            raise Wrong(f"a Join is answered {joined}")
        me = joined[0][1]
        wanted = []
        for seq, change in enumerate(CHANGES, 1):
            change = json.loads(json.dumps(change).replace('"ME"', str(me)))
            wanted.append([me, seq, change])
            if await self.ask(["edit", me, seq, change]) != [["idle"]]:
                raise Wrong(f"edit {seq}")
            self.done = seq
            if seq % 3 == 0:
                await self.ask(["ask", me, 0])
        entries = [message[2] for message in (await self.ask(["ask", me, 0]))[:-1]]
        await self.socket.close()
        await self.fill()
        return me, wanted, entries


def stopped(server, client, run):
    """What became of a server that ended before its client had asked all: what was answered stands."""
    _, err = server.communicate(timeout=60)
    version = int(run.show().split()[1])
    if (server.returncode, err) != (3, "out of memory\n") or version < client.done:
        raise Wrong(f"the server ended: {server.returncode}, {err!r}, {client.done} edits, version {version}")
    return "status 3 while it serves"


def serve(run, whole):
    server = run.serve(2, run.environment())
    try:
        head = server.stdout.readline()
        if not head:
            out, err = server.communicate(timeout=60)
            return None, same_or_ended((server.returncode, out, err), None)
        client = Client(run.port)
        try:
            me, wanted, entries = asyncio.run(client.play())
        except Ended:
            return None, stopped(server, client, run)
        out, err = server.communicate(timeout=60)
    finally:
        server.kill()
    if [entry[:3] for entry in entries if entry[0] == me] != wanted:
        raise Wrong(f"{entries} in place of {wanted}")
    if any(entry[2] != "join" for entry in entries if entry[0] != me):
        raise Wrong(f"another's edit: {entries}")
    if (server.returncode, err) not in ((0, ""), (3, "out of memory\n")):
        raise Wrong(f"{server.returncode}, {out!r}, {err!r}")
    if server.returncode == 0 and out != f"served 2 version {len(entries)}\n":
        raise Wrong(f"{len(entries)} entries: {out!r}")
    shown = run.show()
    if shown.split("\n")[:2] != [f"version {len(entries)}", "0:0 document"] or f"\n    {me}:2 frame a\n" not in shown:
        raise Wrong(f"the folder: {shown!r}")
    came = [what for what, times in client.came.items() if times] or ["as without"]
    return None, " and ".join(came) if server.returncode == 0 else "status 3 at the end"


class Desk:
    """What a room may answer, whatever it is refused: its version, the one that is published, and the clients' judged edits."""

    def __init__(self):
        self.version, self.shown, self.done, self.has_failed, self.pending = 0, 0, [], False, 0
        self.came = collections.Counter()

    def judge(self, request):
        """What a request is answered; an entry's is its version, and takes effect."""
        if request[0] == "edit":
            client, seq = request[1:3]
            if client > len(self.done):
                return "Stranger"
            done = self.done[client - 1]
            if seq != done + 1:
                return f"{'Gap' if seq > done else 'Repeat'} {{ done: {done} }}"
            self.done[client - 1] = seq
        else:
            self.done.append(0)
        self.version += 1
        return self.version

    def stops(self, told, requests):
        """Whether this answer is none to the requests: the keeper failed, or memory was refused before any was judged."""
        if self.has_failed or told == "Failed":
            if not self.has_failed or told != "Failed":
                raise Wrong(f"{told} {'after' if self.has_failed else 'before'} a failure")
            return True
        if told == "Device":
            self.has_failed, self.pending = True, len(requests)
            self.came["Device and then Failed"] += 1
        if told == "Memory":
            self.came["Memory"] += 1
        return told in ("Device", "Memory")

    def submit(self, requests, told):
        """The answers to a batch, or to one request."""
        if self.stops(told[0], requests):
            return
        self.shown = self.version
        if "Memory" in told:
            # It stops the batch there: the lines behind it are refused too.
            self.came["Memory in a batch"] += 1
            requests = requests[:told.index("Memory")]
            told, rest = told[:len(requests)], told[len(requests):]
            if set(rest) != {"Memory"}:
                raise Wrong(f"{rest} in a batch")
        wanted = [self.judge(request) for request in requests]
        if told == [f"Owed {answer}" if isinstance(answer, int) else answer for answer in wanted] and self.version > self.shown:
            self.came["Owed by a batch" if len(requests) > 1 else "Owed by a submit"] += 1
        elif told == [str(answer) for answer in wanted]:
            self.shown = self.version
        else:
            raise Wrong(f"{told} in place of {wanted}")

    def checkpoint(self, told):
        if self.stops(told, []):
            return
        if told == f"Owed {self.version}" and self.shown < self.version:
            self.came["Owed told by a checkpoint"] += 1
        elif told == "checkpoint":
            self.shown = self.version
        else:
            raise Wrong(f"a checkpoint is answered {told}")

    def read(self, told):
        """What is published: all that isn't owed, and that too where the last line published it and was refused memory then."""
        told = 0 if told == "nothing" else int(told)
        if told not in (self.shown, self.version):
            raise Wrong(f"{told} is read in place of {self.shown} or {self.version}")
        self.shown = told


def play_script(text):
    """What a room's answers come to."""
    if re.fullmatch(r"all: (device failed|out of memory); found 0 to \d+, 0 to \d+, 0 to \d+; again 0 to \d+", text):
        return ["not opened"]
    said, read, found = re.fullmatch(r"all: (.*); read (.*); found (.*)", text).groups()
    told = re.findall(r"Owed \d+|reads \w+|\w+ \{ done: \d+ \}|\([^)]*\)|\w+", said)
    desk = Desk()
    for line, answer in zip(ROOM_SCRIPT, told, strict=True):
        if line == "read":
            desk.read(answer.split()[1])
        elif line == "checkpoint":
            desk.checkpoint(answer)
        else:
            answers = re.findall(r"Owed \d+|\w+ \{ done: \d+ \}|\w+", answer)
            desk.submit([json.loads(message) for message in line.split(" & ")], answers)
    for answer in read.split():
        desk.read(answer)
    for version in re.findall(r"(\d+) to", found):
        if not desk.shown <= int(version) <= desk.version + desk.pending:
            raise Wrong(f"{version} is found of {desk.shown} to {desk.version}")
    return desk.came


def room(more):
    def play(run, whole):
        given = "".join(f"> {line}\n" for line in [*ROOM_SCRIPT, "play"])
        status, out, err = ran([run.programs["stops"]], given, {**run.environment(), "REFUSE_MORE": str(more)})
        if whole and status == 1 and out == "":
            return None, "status 1"
        if status != 0:
            raise Wrong(f"{status}, {out!r}, {err!r}")
        came = play_script(out.strip().split("\n")[-1])
        return out, " and ".join(sorted(came)) or "as without"
    return play


PATHS = ("Owed by a submit", "Owed by a batch", "Owed told by a checkpoint")


def kinds(programs):
    yield "scene, a log", scene(LOG)
    yield "scene, a world", scene(WORLD)
    yield "canvasd show", show
    yield "canvasd edit", edit
    yield "canvasd serve", serve
    yield "canvasd trial", trial
    yield "a room", room(0)
    yield "a room, two in a row", room(1)


def one(programs, play, at, whole):
    """What came of one run, and whether it had the call of that number; or what it wrote, where none is refused."""
    run = Run(programs, at)
    try:
        ended, came = play(run, whole)
        return ended if at == 0 else came, run.asked() >= at
    except (Wrong, subprocess.TimeoutExpired, asyncio.TimeoutError) as wrong:
        return f"wrong, call {at}: {wrong}", True
    finally:
        shutil.rmtree(run.room)


def each(programs, play, pool):
    """What came of each run, the first call being refused in the first one."""
    whole, _ = one(programs, play, 0, None)
    came, at = [], 1
    while True:
        runs = list(pool.map(lambda n: one(programs, play, n, whole), range(at, at + 16)))
        came += [what for what, has_call in runs if has_call]
        at += 16
        if not all(has_call for _, has_call in runs):
            return came


def main():
    folder = tempfile.mkdtemp(prefix="malloc-")
    programs = dict(zip(("scene", "canvasd", "stops"), map(os.path.abspath, sys.argv[1:])), library=f"{folder}/refuse.so")
    subprocess.run(["cc", "-shared", "-fPIC", "-O", "-o", programs["library"], f"{HERE}/refuse.c", "-ldl"], check=True)
    wrong, met = [], ""
    with concurrent.futures.ThreadPoolExecutor(os.cpu_count()) as pool:
        for name, play in kinds(programs):
            came = each(programs, play, pool)
            wrong += [f"{name}: {what}" for what in came if what.startswith("wrong")]
            counts = collections.Counter(what for what in came if not what.startswith("wrong"))
            met += "\n".join(came)
            print(f"{name}: {len(came)} runs, " + ", ".join(f"{times} {what}" for what, times in counts.most_common()), flush=True)
    shutil.rmtree(folder)
    wrong += [f"never met: {path}" for path in PATHS if path not in met]
    for line in wrong[:20]:
        print(line)
    print(f"{len(wrong)} went wrong")
    sys.exit(1 if wrong else 0)


if __name__ == "__main__":
    main()
