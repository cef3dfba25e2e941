"""Faults between the servers of a document and the members of its etcd: a proxy before each member, which passes requests on, or makes the
fault that it is told; and faults of the etcd itself."""

import base64
import http.client
import json
import os
import re
import select
import shutil
import socket
import subprocess
import threading
import time
from collections import Counter

from parts import NAME, Pair, Served, free_port, require

TRANSACTION, KEEP_ALIVE = b"/v3/kv/txn", b"/v3/lease/keepalive"
DRIP = 1.5  # seconds from one byte to the next
HOLD = 60  # seconds that a connection is held at most without a word
MOST = 100  # connections that a proxy has at once at most


def answer_of(status, body):
    return b"HTTP/1.1 %s\r\nContent-Type: application/json\r\nContent-Length: %d\r\n\r\n%s" % (status, len(body), body)


# What comes in place of the answer, by the kind of the fault.
FALSE = {"error": answer_of(b"500 Internal Server Error", b'{"error":"etcdserver: request timed out","code":14}'),
         "garbage": b"\0\xff no answer of HTTP\r\n\r\n", "nonsense": answer_of(b"200 OK", b"nonsense"), "empty": answer_of(b"200 OK", b"{}")}


class Fault:
    """A fault that requests meet: all of them, or a number; at one member, or at any; of one path, or of any.

    - swallowed: the request isn't passed on, and the connection is cut. lost: it is, and so is the connection, before the answer.
    - cut: half the answer comes. half: none, and the connection ends in one direction.
    - late: the answer comes so many milliseconds late. doubled: the request is kept, to be sent again later. strayed: it is kept, and the
      connection is cut.
    - dripped: a byte of the answer comes each 1.5 seconds.
    - silent: the request isn't passed on, and nothing comes. mute: it is passed on, and nothing comes.
    - error, garbage, nonsense, empty: it is passed on, and another answer comes."""

    def __init__(self, kind, path=b"", count=None, at=None, millis=0, skips=0):
        self.kind, self.path, self.left, self.at, self.millis, self.skips = kind, path, count, at, millis, skips
        self.met, self.lock, self.over = 0, threading.Lock(), threading.Event()

    def takes(self, at, request):
        """Checks whether this request, to this member, meets it."""
        with self.lock:
            if self.over.is_set() or self.left == 0 or self.at not in (None, at) or self.path not in request[:100]:
                return False
            self.skips -= 1
            if self.skips >= 0:
                return False
            self.left = self.left and self.left - 1
            self.met += 1
            return True

    def hold(self, peer):
        """Keeps a connection without a word, until the fault is over or the other side ends it."""
        end = time.monotonic() + HOLD
        while time.monotonic() < end and not self.over.is_set():
            if select.select([peer], [], [], 0.1)[0] and not peer.recv(65536):
                return

    def drip(self, peer, answer):
        for at in range(len(answer)):
            peer.sendall(answer[at:at + 1])
            if self.over.wait(DRIP):
                return


class Proxy:
    """A proxy before a member of an etcd. It passes requests on, each as the fault says that it meets."""

    def __init__(self, front, at):
        self.front, self.at, self.member, self.port = front, at, front.etcd.ports[at][0], free_port()
        self.peers, self.listener = set(), None
        self.open()

    def open(self):
        if not self.listener:
            self.listener = socket.create_server(("127.0.0.1", self.port), backlog=MOST)
            threading.Thread(target=self.accept, args=(self.listener,), daemon=True).start()

    def refuse(self):
        """Refuses connections from now on, and cuts those that are there."""
        if self.listener:
            self.listener.shutdown(socket.SHUT_RDWR)
            self.listener.close()
            self.listener = None
        self.cut()

    def cut(self):
        for peer in list(self.peers):
            try:
                peer.shutdown(socket.SHUT_RDWR)
            except OSError:
                pass

    def accept(self, listener):
        while True:
            try:
                peer = listener.accept()[0]
            except OSError:
                return
            if len(self.peers) < MOST:
                self.peers.add(peer)
                threading.Thread(target=self.serve, args=(peer,), daemon=True).start()
            else:
                peer.close()

    def serve(self, peer):
        """Answers each request of a connection."""
        try:
            peer.setsockopt(socket.IPPROTO_TCP, socket.TCP_NODELAY, 1)
            with socket.create_connection(("127.0.0.1", self.member), timeout=HOLD) as member:
                while (request := message(peer)) and self.answer(peer, member, request):
                    pass
        except OSError:
            pass
        finally:
            self.peers.discard(peer)
            peer.close()

    def answer(self, peer, member, request):
        """Answers a request. Returns whether the connection continues."""
        fault = self.front.fault_of(self.at, request)
        kind = fault.kind if fault else "pass"
        if kind == "silent":
            fault.hold(peer)
        if kind in ("doubled", "strayed"):
            self.front.doubles.append((self.member, request))
        if kind in ("silent", "swallowed", "strayed"):
            return False
        member.sendall(request)
        answer = message(member)
        if not answer:
            return False
        if kind == "late":
            time.sleep(fault.millis / 1000)
        if kind in ("mute", "half", "dripped", "lost", "cut"):
            return self.spoil(peer, fault, answer)
        peer.sendall(FALSE.get(kind, answer))
        return kind != "garbage"

    def spoil(self, peer, fault, answer):
        """Sends a part of an answer, or none of it."""
        if fault.kind == "cut":
            peer.sendall(answer[:len(answer) // 2])
        if fault.kind == "half":
            peer.shutdown(socket.SHUT_WR)
        if fault.kind in ("half", "mute"):
            fault.hold(peer)
        if fault.kind == "dripped":
            fault.drip(peer, answer)
        return False


def message(peer):
    """Returns the bytes of the next request or answer of a connection; none, if it ends before."""
    data, end = bytearray(), -1
    while end < 0 or not is_whole(data, end):
        part = peer.recv(1 << 20)
        if not part:
            return b""
        data += part
        if data[:1] < b"A":  # no HTTP, as the beginning of TLS: the member says what it makes of it
            break
        end = data.find(b"\r\n\r\n") if end < 0 else end
    return bytes(data)


def is_whole(data, end):
    """Checks whether a message is complete whose head ends here."""
    size = re.search(rb"(?i)\r\ncontent-length: *(\d+)", data[:end])
    return len(data) >= end + 4 + int(size.group(1)) if size else bool(re.search(rb"\r\n0\r\n([^\r\n]+\r\n)*\r\n$", data[-1000:]))


class Front:
    """Proxies before the members of an etcd, for the servers of one document, which name this one first. Servers take it for the etcd."""

    def __init__(self, etcd, name=NAME, first=0):
        self.etcd, self.name, self.first, self.room = etcd, name, first, etcd.room
        self.faults, self.doubles = [], []
        self.proxies = [Proxy(self, at) for at in range(len(etcd.ports))]

    def words(self, _=None):
        ports = [proxy.port for proxy in self.proxies]
        return ["--etcd", ",".join(f"http://127.0.0.1:{port}" for port in ports[self.first:] + ports[:self.first]), "--document", self.name]

    def await_health(self):
        self.etcd.await_health()

    def fault_of(self, at, request):
        return next((fault for fault in list(self.faults) if fault.takes(at, request)), None)

    def begin(self, *what, **how):
        """Begins a fault, and returns it."""
        self.faults.append(Fault(*what, **how))
        return self.faults[-1]

    def end(self):
        """Ends all faults: requests are passed on."""
        for fault in self.faults:
            fault.over.set()
        self.faults.clear()
        for proxy in self.proxies:
            proxy.open()

    def refuse(self):
        for proxy in self.proxies:
            proxy.refuse()

    def send_doubles(self):
        """Sends the kept requests again. Returns how many."""
        doubles, self.doubles = self.doubles[:200], []
        for port, request in doubles:
            with socket.create_connection(("127.0.0.1", port), timeout=10) as member:
                member.sendall(request)
                require(message(member), "a member doesn't answer a late double")
        return len(doubles)


def post(etcd, path, tree):
    """Returns the answer of the first member's gateway."""
    peer = http.client.HTTPConnection("127.0.0.1", etcd.ports[0][0], timeout=30)
    peer.request("POST", path, json.dumps(tree))
    answer = json.loads(peer.getresponse().read())
    peer.close()
    return answer


def put_all(etcd, pairs):
    """Writes these keys, 100 in a transaction."""
    for at in range(0, len(pairs), 100):
        puts = [{"request_put": {"key": coded(key.encode()), "value": coded(value)}} for key, value in pairs[at:at + 100]]
        require(post(etcd, "/v3/kv/txn", {"success": puts}).get("succeeded"), "keys aren't written")


def coded(data):
    return base64.b64encode(data).decode()


def states(etcd):
    """Returns the status of each member."""
    return [it["Status"] for it in json.loads(etcd.ctl("endpoint", "status", "-w", "json"))]


def leader(etcd):
    """Returns which member leads."""
    return next(at for at, state in enumerate(states(etcd)) if state["leader"] == state["header"]["member_id"])


def move_leader(etcd):
    """Has another member lead."""
    at = (leader(etcd) + 1) % len(etcd.ports)
    etcd.ctl("move-leader", f"{states(etcd)[at]['header']['member_id']:x}")


def compact(etcd):
    etcd.ctl("compaction", str(states(etcd)[0]["header"]["revision"]))


def save(etcd):
    """Saves a snapshot of the etcd, and returns its file."""
    file = os.path.join(etcd.room, f"snapshot-{time.monotonic_ns()}")
    etcd.ctl("snapshot", "save", file, at=0)
    return file


def put_back(etcd, file, token=None):
    """Puts a snapshot back at all members, as the same cluster, or as another of this token."""
    token = token or os.path.basename(os.path.dirname(etcd.room))
    peers = [f"http://127.0.0.1:{peer}" for _, peer in etcd.ports]
    cluster = ",".join(f"member{at}={peer}" for at, peer in enumerate(peers))
    for at, peer in enumerate(peers):
        etcd.kill(at)
        folder = os.path.join(etcd.room, f"member{at}")
        shutil.rmtree(folder)
        subprocess.run(["etcdctl", "snapshot", "restore", file, "--name", f"member{at}", "--data-dir", folder, "--initial-cluster", cluster,
                        "--initial-cluster-token", token, "--initial-advertise-peer-urls", peer],
                       env={**os.environ, "ETCDCTL_API": "3"}, capture_output=True, timeout=60, check=True)
    for at in range(len(peers)):
        etcd.start(at)
    etcd.await_health()


class Lone(Pair):
    """One server, which must not end."""

    def __init__(self, front):
        self.etcd, self.server, self.step = front, Served(front, name=front.name), "its start"
        self.servers = [self.server]

    def tend(self):
        status = self.server.process.poll()
        require(status is None or self.server.is_killed, "a server ended with", status, "after", self.step, self.server.text()[-200:])


class Accounted(Pair):
    """Two servers, one of which waits. A server ends if the test kills it or takes its document away. Other ends are wrong; they are counted
    by the kind of the last fault, and what each of them told is kept."""

    def __init__(self, front):
        self.kind, self.times, self.wrong_ends, self.ends, self.last_words = "none", Counter(), Counter(), Counter(), []
        self.seen, self.pardoned, self.taken = set(), {}, set()
        super().__init__(front)

    def begin(self, kind):
        """Notes the kind of the fault that follows."""
        self.tend()
        self.kind = kind
        self.times[kind] += 1

    def pardon(self, is_taken):
        """The server that serves may end; it has to if its document is taken away."""
        server = self.serving()
        self.pardoned[server] = self.kind
        if is_taken:
            self.taken.add(server)

    def serving(self):
        """The one that serves, once there is one: none whose document was taken away, which may not have ended yet."""
        found = []

        def is_found():
            found[:] = [server for server in self.servers if server.serves() and server not in self.taken]
            return found

        self.until(is_found, 90, "no server serves")
        return found[0]

    def await_ends(self, seconds):
        """Waits until each server has ended whose document was taken away."""
        self.until(lambda: all(server.process.poll() is not None for server in self.taken), seconds,
                   "a server whose document was taken away doesn't end")
        self.tend()

    def tend(self):
        for server in self.servers:
            if server.process.poll() is not None and not server.is_killed and server not in self.seen:
                self.seen.add(server)
                counts = self.ends if server in self.pardoned else self.wrong_ends
                counts[self.pardoned.get(server, self.kind)] += 1
                if counts is self.wrong_ends:
                    self.last_words.append(f"status {server.process.returncode}: {server.text().splitlines()[-1:]}")
        super().tend()


class Health(threading.Thread):
    """Asks a server for its health ten times a second. Notes when it last reported `serving`, and when it ended."""

    def __init__(self, server):
        super().__init__(daemon=True)
        self.server, self.served, self.ended, self.ends = server, 0.0, None, False

    def run(self):
        while not self.ends and self.ended is None:
            moment = time.monotonic()
            try:
                if self.server.get("/health")[2].startswith(b"serving"):
                    self.served = time.monotonic()
            except OSError:
                pass
            if self.server.process.poll() is not None:
                self.ended = time.monotonic()
            time.sleep(max(0.0, moment + 0.1 - time.monotonic()))
