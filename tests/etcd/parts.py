"""What tests/etcd/run.py is made of: an etcd on loopback, servers of a document in it, clients that edit and read while either is lost, and
what has to hold at the end."""

import json
import os
import signal
import subprocess
import sys
import threading
import time
from pathlib import Path

TOP = Path(__file__).resolve().parents[2]
sys.path[:0] = [str(TOP / "tests"), str(TOP / "examples" / "plain")]

import merging  # noqa: E402
import shared  # noqa: E402
from shared import Client, Wrong, free_port, page, require, spawn  # noqa: E402

PROGRAM = os.path.abspath(sys.argv[1])
NAME = "canvas"
LEASE = 10  # seconds after which a lost server's document is free
RESTART = 1  # seconds after which a server that ended is started anew
ENDINGS = (f"the store of {NAME} failed", f"the lease of the document {NAME} has ended",
           f"the etcd of the document {NAME} ")


def call(*words, **wanted):
    """What the program writes, once it has ended as is wanted."""
    return shared.call(PROGRAM, *words, **wanted)


class Etcd:
    """An etcd of so many members on loopback, each with its data in a folder of its own below this one."""

    def __init__(self, room, members=1, *options):
        os.makedirs(room, exist_ok=True)
        self.room, self.options = room, options
        self.ports = [(free_port(), free_port()) for _ in range(members)]
        self.processes = [None] * members
        for at in range(members):
            self.start(at)
        self.await_health()

    def urls(self):
        return ",".join(f"http://127.0.0.1:{port}" for port, _ in self.ports)

    def words(self, name=NAME):
        """The words that name a document of this name here."""
        return ["--etcd", self.urls(), "--document", name]

    def start(self, at):
        port, peer = (f"http://127.0.0.1:{port}" for port in self.ports[at])
        members = ",".join(f"member{number}=http://127.0.0.1:{port}" for number, (_, port) in enumerate(self.ports))
        words = ["etcd", "--name", f"member{at}", "--data-dir", os.path.join(self.room, f"member{at}"), "--enable-v2=false",
                 "--listen-client-urls", port, "--advertise-client-urls", port, "--listen-peer-urls", peer, "--initial-advertise-peer-urls", peer,
                 "--initial-cluster", members, "--initial-cluster-token", os.path.basename(os.path.dirname(self.room)), "--logger", "zap",
                 *self.options]
        with open(os.path.join(self.room, f"member{at}.log"), "ab") as log:
            self.processes[at] = spawn(words, log)

    def kill(self, at):
        self.processes[at].kill()
        self.processes[at].wait()

    def pause(self, at):
        self.processes[at].send_signal(signal.SIGSTOP)

    def wake(self, at):
        self.processes[at].send_signal(signal.SIGCONT)

    def ctl(self, *words, at=None):
        """What etcdctl writes: of one member, or of whichever answers."""
        urls = self.urls() if at is None else f"http://127.0.0.1:{self.ports[at][0]}"
        done = subprocess.run(["etcdctl", "--endpoints", urls, *words], capture_output=True, text=True, timeout=60,
                              env={**os.environ, "ETCDCTL_API": "3"})
        require(done.returncode == 0, "etcdctl", *words, "ends with", done.returncode, done.stderr)
        return done.stdout

    def await_health(self):
        """Waits until each member answers, which wants a majority of them."""
        for at, process in enumerate(self.processes):
            for attempt in range(120):
                require(process.poll() is None, "a member of etcd ended with", process.returncode)
                try:
                    self.ctl("endpoint", "health", at=at)
                    break
                except (Wrong, subprocess.TimeoutExpired):
                    require(attempt < 119, "a member of etcd isn't healthy")
                    time.sleep(0.5)

    def await_free(self, name=NAME):
        """Waits until nobody has the document. After how many seconds that was."""
        start = time.monotonic()
        while self.keys(f"lugcurrant/{name}/owner"):
            require(time.monotonic() - start < 3 * LEASE, "the document stays another's")
            time.sleep(0.1)
        return time.monotonic() - start

    def keys(self, beginning):
        """The keys that begin so."""
        return self.ctl("get", beginning, "--prefix", "--keys-only").split()

    def value(self, key):
        return self.ctl("get", key, "--print-value-only").strip()

    def bytes_in_use(self):
        """How many bytes of the first member's database are in use, once it has written what it was asked."""
        time.sleep(0.5)
        return json.loads(self.ctl("endpoint", "status", "-w", "json", at=0))[0]["Status"]["dbSizeInUse"]


class Served(shared.Server):
    """A server of a document in an etcd, with a log of its own."""

    count = 0

    def __init__(self, etcd, *options, name=NAME, listens=True):
        Served.count += 1
        self.name, self.is_paused, self.is_killed = name, False, False
        super().__init__([PROGRAM, "serve", *etcd.words(name), *options], os.path.join(etcd.room, f"server-{Served.count}.log"), listens)

    def text(self):
        """What it has told."""
        with open(self.told) as told:
            return told.read()

    def serves(self):
        return self.process.poll() is None and not self.is_paused and f"serving at http://127.0.0.1:{self.port}/ version " in self.text()

    def waits(self):
        return f"waiting for the document {self.name}: another server has it\n" in self.text()

    def await_serving(self, seconds=60):
        """Waits until it serves. It may have to wait for the lease of the one before."""
        until(self.serves, seconds, "a standby doesn't serve", tend=self.require_running)
        return self

    def await_waiting(self):
        until(self.waits, 30, "a standby doesn't tell that it waits", tend=self.require_running)
        return self

    def require_running(self):
        require(self.process.poll() is None, "a standby ended with", self.process.returncode, self.text()[-300:])

    def kill(self):
        self.is_killed = True
        super().kill()

    def pause(self):
        self.is_paused = True
        self.process.send_signal(signal.SIGSTOP)

    def wake(self):
        self.process.send_signal(signal.SIGCONT)


def until(holds, seconds, *words, tend=None):
    """Waits until something holds, and tends to the servers meanwhile."""
    end = time.monotonic() + seconds
    while not holds():
        require(time.monotonic() < end, *words, f"in {seconds} seconds")
        if tend:
            tend()
        time.sleep(0.02)


def served(etcd, name=NAME):
    """A server that has the document, as soon as nobody else has it."""
    return Served(etcd, "--standby", name=name, listens=False).await_serving()


class Pair:
    """Two servers of the document, one of which waits. Where one has ended it is started anew as a standby, as systemd does. Each has a port
    of its own that no other had, so a port tells which server answered."""

    def __init__(self, etcd):
        self.etcd, self.own_ends, self.due = etcd, 0, {}
        self.servers = [self.fresh(), self.fresh()]

    def fresh(self):
        return Served(self.etcd, "--standby", listens=False)

    def ports(self):
        return [server.port for server in self.servers]

    def tend(self):
        """Starts those anew that have ended, and looks why they did."""
        for at, server in enumerate(self.servers):
            status = server.process.poll()
            if status is None:
                continue
            if not server.is_killed and at not in self.due:
                text = server.text()
                require(status in (4, 10) and any(ending in text for ending in ENDINGS), "a server ended with", status, text[-300:])
                self.own_ends += 1
                self.due[at] = time.monotonic() + RESTART
            if time.monotonic() >= self.due.get(at, 0):
                self.due.pop(at, None)
                self.servers[at] = self.fresh()

    def until(self, holds, seconds, *words):
        until(holds, seconds, *words, tend=self.tend)

    def serving(self):
        """The one that serves, once there is one."""
        self.until(lambda: any(server.serves() for server in self.servers), 90, "no server serves")
        return next(server for server in self.servers if server.serves())

    def end(self):
        for server in self.servers:
            server.kill()


class Editor(threading.Thread):
    """A client that makes pages, each with the next number, at whichever of these ports answers. It repeats what wasn't acknowledged."""

    def __init__(self, ports, pause=0.05, most=None):
        super().__init__(daemon=True)
        self.ports, self.pause, self.most = ports, pause, most
        self.id, self.number, self.wrong = 0, 1, None
        self.firsts, self.lasts = {}, {}  # for each port: when the first Idle came, and when the last edit that got one was sent
        self.last, self.refused, self.ends = 0, 0, False

    def run(self):
        while not self.is_done():
            for port in self.ports():
                try:
                    self.edit_at(port)
                except (OSError, ValueError):
                    pass
            time.sleep(0.05)

    def is_done(self):
        return self.ends or self.wrong is not None or self.most is not None and self.number > self.most

    def edit_at(self, port):
        """Edits there until something fails."""
        client = self.connect(port)
        try:
            while client and not self.is_done() and self.edit(client, port):
                time.sleep(self.pause)
        finally:
            if client:
                client.drop()

    def connect(self, port):
        """A connection to the server there, which knows this client; or None."""
        client = Client(port, timeout=4)
        if client.status == 101 and not self.id:
            answer = client.ask("join", 2)[-1]
            self.id = answer[1] if answer[0] == "welcome" else 0
        if client.status == 101 and self.id:
            return client
        client.drop()
        return None

    def edit(self, client, port):
        """Makes the next page. Whether that was acknowledged."""
        sent = time.monotonic()
        client.say("edit", self.id, self.number, page(self.id, self.number))
        return self.hear(client, port, sent)

    def hear(self, client, port, sent):
        """Hears the answer to the edit that was sent then. Whether that was acknowledged."""
        answer = client.hear()
        if answer == [["idle"]]:
            self.firsts.setdefault(port, time.monotonic())
            self.lasts[port] = self.last = sent
            self.number += 1
            return True
        if answer not in ([["no", 5]], [["no", 6]], [["no", 7]]):
            self.wrong = f"edit {self.number} of client {self.id} is answered {answer}"
        self.refused += 1
        return False

    def acknowledged(self):
        return self.number - 1


class Reader(threading.Thread):
    """A client that asks for what is new, and keeps the document by entries and copies."""

    def __init__(self, ports):
        super().__init__(daemon=True)
        self.ports, self.client, self.wrong, self.ends = ports, merging.Client(), None, False

    def run(self):
        while not self.ends and self.wrong is None:
            for port in self.ports():
                try:
                    self.read_at(port)
                except OSError:
                    pass
                except (merging.AnotherHistory, RuntimeError) as error:
                    # A server that has failed refuses a join, and one with too little memory a copy.
                    if self.client.id is not None and not str(error).endswith("no 7"):
                        self.wrong = f"a reader met {type(error).__name__}: {error}"
            time.sleep(0.2)

    def read_at(self, port):
        client = Client(port, timeout=4)
        try:
            while client.status == 101 and not self.ends:
                self.client.round(Talk(client), ["ask", self.client.id, self.client.version] if self.client.id else ["join", 2])
                time.sleep(0.1)
        finally:
            client.drop()

    def rows(self):
        return rows_of(self.client)


class Talk:
    """A connection as merging.py wants it."""

    def __init__(self, client):
        self.client = client

    def send(self, message):
        self.client.say(*message)

    def receive(self):
        opcode, payload = self.client.frame()
        if opcode == 8:
            raise ConnectionError("the server closed")
        return json.loads(payload)


def rows_of(client):
    """The rows of the document that a client of merging.py holds."""
    return [[list(name), it["kind"], it["place"] and [list(it["place"][0]), it["place"][1]], sorted(map(list, it["props"].items()))]
            for name, it in sorted(client.base.items())]


def read_all(port):
    """What a new client is told of the document: its version, and its rows."""
    reader = Reader(lambda: [port])
    talk = Client(port)
    reader.client.exchange(Talk(talk))
    talk.drop()
    return reader.client.version, reader.rows()


class Crowd:
    """Clients that edit, and two that read, at a pair of servers."""

    def __init__(self, pair, count):
        self.pair, self.editors, self.readers = pair, [Editor(pair.ports) for _ in range(count)], [Reader(pair.ports) for _ in range(2)]
        for client in self.editors + self.readers:
            client.start()

    def goes_on(self, moment=None):
        """Waits until an edit is acknowledged that was sent after this moment, or from now on. The seconds that it took."""
        moment = moment or time.monotonic()
        self.pair.until(lambda: self.went_on(moment), 90, "no edit is acknowledged")
        return time.monotonic() - moment

    def went_on(self, moment):
        for client in self.editors + self.readers:
            require(client.wrong is None, client.wrong)
        return any(editor.last > moment for editor in self.editors)

    def acknowledged(self):
        return sum(editor.acknowledged() for editor in self.editors)

    def settle(self):
        """Ends the clients and the servers, and looks at what a new server has of the document. A text of it."""
        for client in self.editors + self.readers:
            client.ends = True
        for client in self.editors + self.readers:
            client.join(30)
            require(not client.is_alive(), "a client doesn't end")
            require(client.wrong is None, client.wrong)
        self.pair.end()
        never_together(self.editors)
        self.pair.etcd.await_health()
        server = served(self.pair.etcd)
        told = agree(self.pair.etcd, server, self.editors, self.readers)
        server.kill()
        return told


def never_together(editors):
    """No server acknowledged an edit that was sent after a later server had acknowledged one."""
    firsts, lasts = {}, {}
    for editor in editors:
        for port, moment in editor.firsts.items():
            firsts[port] = min(moment, firsts.get(port, moment))
            lasts[port] = max(editor.lasts[port], lasts.get(port, editor.lasts[port]))
    for one, first in firsts.items():
        for other, later in firsts.items():
            require(first >= later or lasts[one] <= later, "a server acknowledged an edit", lasts[one] - later,
                    "seconds after the next one had acknowledged one")


def agree(etcd, server, editors, readers):
    """Every acknowledged edit stands exactly once, nothing stands twice, and every client has the rows that `show` shows."""
    client = Client(server.port)
    last = client.join()
    rows = json.loads(call("show", *etcd.words(), "--json"))
    version = int(call("show", *etcd.words()).split()[1])
    done = {}
    for name in range(1, last + 1):
        copy = client.ask("ask", name, 0)
        require([message[0] for message in copy] == ["copy", "idle"], "client", name, "is told", [message[:2] for message in copy])
        require(copy[0][1] == version and copy[0][3] == rows, "client", name, "has other rows than are shown")
        done[name] = copy[0][2]
    for editor in editors:
        require(not editor.id or editor.acknowledged() <= done[editor.id] <= editor.number, "of client", editor.id,
                editor.acknowledged(), "edits were acknowledged, and", done.get(editor.id), "stand")
    ids = [tuple(row[0]) for row in rows]
    wanted = {(0, 0)} | {(name, number) for name, count in done.items() for number in range(1, count + 1)}
    require(len(ids) == len(wanted) and set(ids) == wanted, len(wanted - set(ids)), "judged edits don't stand, and",
            len(set(ids) - wanted), "stand that weren't judged")
    require(version == last + sum(done.values()), "version", version, "has", last, "joins and", sum(done.values()), "edits")
    for reader in readers:
        if reader.client.id is not None:
            reader.client.exchange(Talk(client))
            require(reader.client.version == version and reader.rows() == rows, "a reader has other rows than are shown")
    client.drop()
    call("check", *etcd.words())
    return f"{sum(editor.acknowledged() for editor in editors)} edits acknowledged, each stands once among {sum(done.values())} of version {version}"
