"""Parts of the groups of hostile clients: a server whose log, metrics and memory are read, peers that send raw frames, and two clients that measure
how late edits arrive."""

import contextlib
import json
import os
import re
import select
import socket
import statistics
import struct
import sys
import threading
import time

import shared
from shared import Wrong, require, text_of

PROGRAM = os.path.abspath(sys.argv[1])
LIMIT = 300  # seconds that a step may take, on a machine that may be busy
MIB = 1 << 20
PAUSE = 0.01  # seconds between two edits of the writer that is watched
BASE = 1.0  # seconds of the measurement without others
# How a connection ended, in the server's log.
SLOW = "it took too little of what waited for it"
SILENT = "it was silent too long"
BROKEN = "the client broke the protocol, or went without a word"
FAILED = "the socket failed"
TOO_LARGE = "a message was too large"


def until(holds, *words):
    """Waits until it holds."""
    end = time.monotonic() + LIMIT
    while not holds():
        require(time.monotonic() < end, *words)
        time.sleep(0.05)


class Server(shared.Server):
    """A server whose log, metrics and memory are read. It has the allocator's settings of the unit in deploy."""

    def __init__(self, room, *options):
        os.environ.update(MALLOC_ARENA_MAX="2", MALLOC_MMAP_THRESHOLD_="131072")
        super().__init__([PROGRAM, "serve", room, *options], f"{room}.log")

    def text(self):
        with open(self.told) as told:
            return told.read()

    def ended(self, why=""):
        """Returns how many connections have ended for this reason."""
        return self.text().count(f"has ended: {why}")

    def metric(self, name):
        return int(re.search(rf"(?m)^lugcurrant_{name} (\d+)$", self.get("/metrics")[2].decode())[1])

    def forget_peak(self):
        """Resets the peak of its memory. Returns the memory, in kB."""
        with open(f"/proc/{self.process.pid}/clear_refs", "w") as file:
            file.write("5")
        return self.memory()

    def peak(self):
        """Returns the peak of its memory, in kB."""
        with open(f"/proc/{self.process.pid}/status") as status:
            return int(re.search(r"VmHWM:\s+(\d+)", status.read())[1])


class Peer(shared.Client):
    """A client that sends anything. The last messages of answers go to `ends`, entries and copies to `told`, what others tell of themselves to `heres`."""

    def __init__(self, server, room=None, timeout=LIMIT):
        super().__init__(server.port, timeout=timeout, room=room)
        require(self.status == 101, "a client is answered", self.head)
        self.name, self.version, self.done, self.told, self.ends = 0, 0, 0, [], []
        self.heres, self.whole = [], threading.Lock()

    def begin(self, version=None):
        """Joins, and becomes a live client from this version on, or from the current one."""
        self.name = self.join()
        self.version = self.current() if version is None else version
        self.say("live", self.name, self.version)
        require(self.answers(1) == [["idle"]], "`live` isn't answered idle")
        return self

    def current(self):
        """Asks until there is nothing more. Returns the version."""
        version, answer = 0, []
        while len(answer) != 1:
            answer = self.ask("ask", self.name, version)
            for message in answer[:-1]:
                version = message[1]
        return version

    def send_frames(self, frames):
        """Sends frames, also while another thread reads and answers pings."""
        for frame in frames:
            with self.whole:
                self.socket.sendall(frame)

    def edit(self, number, *change):
        self.say("edit", self.name, number, list(change))

    def take_whole(self):
        """Takes the whole frames that have come: their opcodes and payloads."""
        found, at = [], 0
        while len(self.rest) - at >= 2:
            size, head = self.rest[at + 1] & 127, 2
            if size > 125:
                head = 4 if size == 126 else 10
                size = int.from_bytes(self.rest[at + 2 : at + head], "big") if len(self.rest) - at >= head else len(self.rest)
            if len(self.rest) - at < head + size:
                break
            found.append((self.rest[at] & 15, self.rest[at + head : at + head + size]))
            at += head + size
        self.rest = self.rest[at:]
        return found

    def read(self, seconds):
        """Waits up to this time for bytes, and takes the frames that are whole then. Returns whether any bytes came."""
        if not select.select([self.socket], [], [], seconds)[0]:
            return False
        part = self.socket.recv(MIB)
        if not part:
            raise ConnectionError("the server closed the connection")
        self.rest += part
        for opcode, payload in self.take_whole():
            self.take_frame(opcode, payload)
        return True

    def take_frame(self, opcode, payload):
        if opcode == 9:
            self.send_frames([shared.framed(payload, opcode=10)])
        elif opcode == 8:
            raise ConnectionError(f"the server closed: {payload!r}")
        elif opcode == 2:
            message = json.loads(payload)
            if message[0] in shared.LAST:
                self.ends.append(message)
            elif message[0] == "here":
                self.heres.append(message)
            else:
                self.told.append(message)
                self.follow(message)

    def follow(self, message):
        """Checks that entries come without a gap, and keeps the version and `done`, the number of the last own edit that was judged."""
        require(message[0] == "copy" or message[1] <= self.version + 1, "after version", self.version, "comes", message[:2])
        self.version = max(self.version, message[1])
        if message[0] == "copy":
            self.done = max(self.done, message[2])
        elif message[2][0] == self.name:
            self.done = max(self.done, message[2][1])

    def answers(self, count):
        """Waits for this number of answers. Returns their last messages."""
        end = time.monotonic() + LIMIT
        while len(self.ends) < count:
            require(time.monotonic() < end, "of", count, "answers only", len(self.ends), "came")
            self.read(1)
        taken, self.ends = self.ends[:count], self.ends[count:]
        return taken

    def reset(self):
        """Resets the connection."""
        self.socket.setsockopt(socket.SOL_SOCKET, socket.SO_LINGER, struct.pack("ii", 1, 0))
        self.socket.close()

    def await_end(self):
        """Reads until the server ends the connection. Returns the code of its closing frame, if it sent one."""
        code = None
        self.socket.settimeout(LIMIT)
        try:
            while True:
                for opcode, payload in self.take_whole():
                    if opcode == 8:
                        code = int.from_bytes(payload[:2], "big")
                    elif opcode == 2:
                        self.take_frame(opcode, payload)
                part = self.socket.recv(MIB)
                if not part:
                    return code
                self.rest += part
        except TimeoutError as fault:
            raise Wrong("the server doesn't end a connection") from fault
        except OSError:
            return code

    def push_bytes(self, data):
        """Sends bytes, and reads nothing, until all are sent or the server ends the connection. Returns whether all were sent."""
        self.socket.setblocking(False)
        end, at = time.monotonic() + LIMIT, 0
        with contextlib.suppress(ConnectionError):
            while at < len(data):
                require(time.monotonic() < end, "of", len(data), "bytes the server has read", at, "and doesn't end the connection")
                if select.select([], [self.socket], [], 1)[1]:
                    at += self.socket.send(data[at : at + MIB])
            return True
        return False


def cheap_frame(text):
    """A frame with a mask of zeros."""
    size = len(text)
    head = bytes([130, 128 | size]) if size < 126 else struct.pack("!BBH", 130, 254, size) if size < 65536 else struct.pack("!BBQ", 130, 255, size)
    return head + bytes(4) + text


def edit_frame(name, number, change):
    return cheap_frame(text_of(["edit", name, number, change]).encode())


class Watch:
    """Two live clients: one edits all the time, the other one measures how late each edit arrives."""

    def __init__(self, server):
        self.server = server
        self.writer, self.looker = Peer(server).begin(), Peer(server).begin()
        self.sent, self.late, self.faults = {}, [], []
        self.is_done, self.stops_writing = threading.Event(), threading.Event()
        self.threads = [threading.Thread(target=self._run, args=(act,), daemon=True) for act in (self._write, self._look)]
        for thread in self.threads:
            thread.start()
        time.sleep(BASE)
        self.base, self.late = self.late, []
        self.memory = server.forget_peak()

    def _run(self, act):
        try:
            act()
        except Exception as fault:  # `end` reports it
            self.faults.append(f"{act.__name__}: {type(fault).__name__}: {fault}")

    def _write(self):
        number = 0
        while not self.stops_writing.is_set():
            number += 1
            self.sent[number] = time.monotonic()
            self.writer.edit(number, "set", [0, 0], "count", number)
            self.writer.read(PAUSE)
        while len(self.writer.ends) < number:
            self.writer.read(1)
        require(all(end == ["idle"] for end in self.writer.ends), "an edit of the writer wasn't judged")

    def _look(self):
        seen = 0
        while not (self.stops_writing.is_set() and seen == len(self.sent) and not self.threads[0].is_alive()) and not self.is_done.is_set():
            self.looker.read(0.1)
            for message in self.looker.told:
                if message[0] == "entry" and message[2][0] == self.writer.name:
                    seen = message[2][1]
                    self.late.append(time.monotonic() - self.sent[seen])
                elif message[0] == "copy":
                    seen = max(seen, dict((name, value) for name, value in message[3][0][3])["count"])
            self.looker.told.clear()

    def end(self, most_kilobytes, most_later):
        """Waits until the second client has received all edits, and checks how much memory the server took more, and how many seconds later edits arrived,
        by the median, if there is a bound. Returns a sentence about both."""
        self.stops_writing.set()
        for thread in self.threads:
            thread.join(LIMIT)
        self.is_done.set()
        require(not self.faults, *self.faults)
        require(not any(thread.is_alive() for thread in self.threads), "an edit doesn't arrive")
        took = self.server.peak() - self.memory
        require(took < most_kilobytes, "the server took", took, "kB more, and may take", most_kilobytes)
        if most_later is not None:
            later = statistics.median(self.late) - statistics.median(self.base)
            require(later < most_later, "edits arrive", later, "s later, by the median, than before")
        return f"at most {took / 1024:.1f} MB more; edits arrive after {spread(self.late)} ms, before that {spread(self.base)}"


def spread(late):
    """Median and 95th percentile, in milliseconds."""
    ordered = sorted(late) or [float("nan")]
    return f"{1000 * statistics.median(ordered):.1f} ({1000 * ordered[len(ordered) * 95 // 100]:.1f})"


@contextlib.contextmanager
def watched(room, notes, most_kilobytes, *options, most_later=None):
    """A server with two clients that measure. It may take this much more memory, and edits may arrive so many seconds later, by the median. The sentence
    about both goes to `notes`."""
    server = Server(room, *options)
    try:
        watch = Watch(server)
        yield server
        notes.append(watch.end(most_kilobytes, most_later))
    except Exception as fault:
        raise Wrong(f"{type(fault).__name__}: {fault}; the server's log ends with {server.text().splitlines()[-4:]}") from fault
    server.kill()
    require(shared.call(PROGRAM, "check", room).endswith(b"no loss: a crash may have left it so\n"), "the folder has lost something")
