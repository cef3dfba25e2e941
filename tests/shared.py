"""What the scripts of tests/host, tests/etcd and tests/canvasd share: a WebSocket client, a server as a process, and groups that are tried one
after the other. Needs no package."""

import base64
import json
import os
import random
import re
import shutil
import signal
import socket
import struct
import subprocess
import sys
import tempfile
import time

FIGURES = os.path.join(os.path.dirname(os.path.dirname(os.path.abspath(__file__))), "tools", "figures")
LAST = {"welcome", "idle", "no"}
RUNNING = []  # the processes that a group has started
GIVEN = set()  # the ports that were given
LIMIT = float(os.environ.get("H_LIMIT", 30))  # seconds that an answer may take, on a machine that may be busy


class Wrong(Exception):
    """Something is not as it should be."""


def require(holds, *words):
    if not holds:
        raise Wrong(" ".join(str(word) for word in words))


def record(name, **figures):
    """Puts a result into the file that LUGCURRANT_RESULTS names, for the figures of pages; nothing without that variable."""
    subprocess.run([FIGURES, "--record", name, *(f"{key}={value}" for key, value in figures.items())], check=True)


class Client:
    """A WebSocket client that waits for each answer. With `room` the system keeps that many bytes for it, and a server's rest soon waits there."""

    def __init__(self, port, path="/", origin=None, timeout=LIMIT, room=None, fields=()):
        self.socket = socket.socket()
        self.socket.settimeout(timeout)
        if room is not None:
            self.socket.setsockopt(socket.SOL_SOCKET, socket.SO_RCVBUF, room)
            # The system keeps less for segments as those of a network than for those of the own machine, of 64 KiB.
            self.socket.setsockopt(socket.IPPROTO_TCP, socket.TCP_MAXSEG, 1460)
        self.socket.connect(("127.0.0.1", port))
        lines = [f"GET {path} HTTP/1.1", f"Host: 127.0.0.1:{port}", "Upgrade: websocket", "Connection: Upgrade",
                 "Sec-WebSocket-Key: " + base64.b64encode(os.urandom(16)).decode(), "Sec-WebSocket-Version: 13"]
        if origin is not None:
            lines.append(f"Origin: {origin}")
        lines += fields
        self.socket.sendall(("\r\n".join(lines) + "\r\n\r\n").encode())
        self.rest = b""
        while b"\r\n\r\n" not in self.rest:
            part = self.socket.recv(65536)
            if not part:
                break
            self.rest += part
        head, _, self.rest = self.rest.partition(b"\r\n\r\n")
        self.head = head.decode()
        self.status = int(self.head.split()[1]) if self.head else 0

    def send(self, payload, opcode=2):
        self.socket.sendall(framed(payload, opcode))

    def take(self, count):
        while len(self.rest) < count:
            part = self.socket.recv(1 << 20)
            if not part:
                raise ConnectionError("the server closed the connection")
            self.rest += part
        taken, self.rest = self.rest[:count], self.rest[count:]
        return taken

    def head_of_frame(self):
        """What kind of message comes, and how long it is."""
        first, second = self.take(2)
        size = second & 127
        if size == 126:
            size = struct.unpack("!H", self.take(2))[0]
        elif size == 127:
            size = struct.unpack("!Q", self.take(8))[0]
        return first & 15, size

    def frame(self):
        opcode, size = self.head_of_frame()
        return opcode, self.take(size)

    def pass_over(self):
        """Reads a message, and keeps nothing of it but its first bytes. How long it was, and these."""
        _, size = self.head_of_frame()
        first = self.take(min(size, 8))
        known = min(size - len(first), len(self.rest))
        self.rest, left = self.rest[known:], size - len(first) - known
        part = memoryview(bytearray(1 << 20))
        while left:
            count = self.socket.recv_into(part, min(left, 1 << 20))
            if not count:
                raise ConnectionError("the server closed the connection")
            left -= count
        return size, first

    def say(self, *message):
        """Sends a message."""
        self.send(text_of(list(message)).encode())

    def hear(self):
        """The messages of an answer, in order."""
        answer = []
        while not answer or answer[-1][0] not in LAST:
            opcode, payload = self.frame()
            if opcode == 8:
                raise ConnectionError(f"the server closed: {payload!r}")
            answer.append(json.loads(payload))
        return answer

    def ask(self, *message):
        """Sends a message. The messages of its answer, in order."""
        self.say(*message)
        return self.hear()

    def join(self):
        answer = self.ask("join", 2)
        require(answer[0][0] == "welcome", "a join is answered", answer)
        return answer[0][1]

    def leave(self):
        self.send(struct.pack("!H", 1000), opcode=8)
        try:
            self.frame()
        except (ConnectionError, OSError):
            pass
        self.socket.close()

    def drop(self):
        self.socket.close()


def framed(payload, opcode=2, is_last=True):
    """The frame of a client that holds this payload (RFC 6455, section 5.2)."""
    mask = os.urandom(4)
    first, size = (128 if is_last else 0) | opcode, len(payload)
    if size < 126:
        head = struct.pack("!BB", first, 128 | size)
    elif size < 65536:
        head = struct.pack("!BBH", first, 128 | 126, size)
    else:
        head = struct.pack("!BBQ", first, 128 | 127, size)
    key = (mask * (size // 4 + 1))[:size]
    masked = (int.from_bytes(payload, "big") ^ int.from_bytes(key, "big")).to_bytes(size, "big") if size else b""
    return head + mask + masked


class Server:
    """A server that is called with these words, at a port of its own. What it tells is added to the file `told`."""

    def __init__(self, words, told, listens=True):
        self.words, self.told = words, told
        self.port = free_port()
        self.start(listens)

    def start(self, listens=True):
        """Starts it, and waits until it listens, where it is to."""
        self.log = open(self.told, "ab")
        self.process = spawn([*self.words, "--port", str(self.port)], self.log)
        if listens:
            self.await_port()

    def await_port(self):
        for _ in range(600):
            try:
                socket.create_connection(("127.0.0.1", self.port), timeout=5).close()
                return
            except OSError:
                require(self.process.poll() is None, "the server ended at once with", self.process.returncode)
                time.sleep(0.02)
        raise Wrong("the server doesn't listen")

    def kill(self):
        self.process.send_signal(signal.SIGKILL)
        self.process.wait()
        self.log.close()

    def memory(self):
        with open(f"/proc/{self.process.pid}/status") as status:
            return int(re.search(r"VmRSS:\s+(\d+)", status.read()).group(1))

    def get(self, path, method="GET", *fields, host=None):
        """Status, head and body of an answer."""
        with socket.create_connection(("127.0.0.1", self.port), timeout=LIMIT) as peer:
            host = host or f"127.0.0.1:{self.port}"
            lines = [f"{method} {path} HTTP/1.1", f"Host: {host}", *fields]
            peer.sendall(("\r\n".join(lines) + "\r\n\r\n").encode())
            return read_answer(peer)

    def identity(self):
        name = self.get("/document")[2].decode().strip()
        require(re.fullmatch("[0-9a-f]{32}", name), "the identity is", name)
        return name


def spawn(words, log, folder=None):
    """A process, in this folder where one is named, whose output and faults go to this file. It ends with its group."""
    process = subprocess.Popen(words, cwd=folder, stdin=subprocess.DEVNULL, stdout=log, stderr=log)
    RUNNING.append(process)
    return process


def read_answer(peer):
    data = b""
    while True:
        part = peer.recv(1 << 20)
        if not part:
            break
        data += part
    head, _, body = data.partition(b"\r\n\r\n")
    head = head.decode()
    return (int(head.split()[1]) if head else 0), head, body


def free_port():
    """A port that nobody has. It lies below those that the system gives to connections, so none of them takes it while its server is
    away."""
    for _ in range(1000):
        port = random.randrange(15000, 32000)
        with socket.socket() as probe:
            try:
                probe.bind(("127.0.0.1", port))
            except OSError:
                continue
        if port not in GIVEN:
            GIVEN.add(port)
            return port
    raise Wrong("no port is free")


def call(program, *words, text=b"", status=0, told=""):
    """What the program writes, once it has ended with this status and told this."""
    done = subprocess.run([program, *words], input=text, capture_output=True, timeout=4 * LIMIT)
    require(done.returncode == status and told in done.stderr.decode(), words, "end with", done.returncode, done.stderr)
    return done.stdout


def text_of(message):
    return json.dumps(message, separators=(",", ":"))


def page(client, number):
    return ["create", [client, number], "page", [[0, 0], f"{number:06d}O"]]


def draw(server, edits):
    """Has a client edit so often: pages, texts and fills. Its id."""
    client = Client(server.port)
    name = client.join()
    for number in range(1, edits + 1):
        change = page(name, number)
        if number % 3 == 2:
            change = ["set", [name, number - 1], "text", f"line {number}\nand \"another\"\t\u00e9"]
        if number % 3 == 0:
            change = ["set", [name, number - 2], "fill", ["list", 1, True, ["rgba", 255], -number]]
        require(client.ask("edit", name, number, change) == [["idle"]], "an edit isn't judged")
    client.drop()
    return name


def numbers_and_names(words):
    """The numbers that these words begin with, and the names of groups behind them."""
    count = 0
    while count < len(words) and re.fullmatch(r"\d+(\.\d+)?", words[count]):
        count += 1
    return [float(word) for word in words[:count]], words[count:]


def end_all():
    """Ends each process that still runs."""
    for process in RUNNING:
        if process.poll() is None:
            process.kill()
            process.wait()
    RUNNING.clear()


def try_groups(groups, names):
    """Tries the groups of these names, or all, each on a folder of its own that it may make. Prints a line for each; 1 where one went
    wrong."""
    known = {group.__name__: group for group in groups}
    for name in names:
        if name not in known:
            print(f"there is no group {name}, but", *known, file=sys.stderr)
            return 2
    signal.signal(signal.SIGTERM, lambda *_: sys.exit(1))
    wrong = 0
    for name in names or known:
        above = tempfile.mkdtemp()
        try:
            print(f"{name}: {known[name](os.path.join(above, 'room'))}", flush=True)
        except Exception as error:  # every group is tried
            wrong += 1
            print(f"{name}: WRONG: {type(error).__name__}: {error}", flush=True)
        finally:
            end_all()
            shutil.rmtree(above, ignore_errors=True)
    return 1 if wrong else 0
