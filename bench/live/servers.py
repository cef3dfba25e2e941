"""The kinds of server that are measured, and the processes of a measurement."""
import json
import os
import re
import shutil
import subprocess
import sys
import time
import urllib.request
from contextlib import contextmanager
from pathlib import Path

from peers import OUT, Missing, output_of
from shared import free_port

HERE = Path(__file__).resolve().parent
PROGRAMS = {
    "clients": ["clients", "lug", "yjs", "redis", "stream", "websocket", "meter"],
    "hostile": ["hostile", "lug", "stream", "websocket"],
    "delay": ["delay", "stream"],
}
MOST_CLIENTS = 6000  # of Lugcurrant
MOST_SECONDS = 60  # for a server to become ready, and to answer a check


# ---- programs and processes ----

def program(name):
    return f"{OUT}/live_{name}"


def build_programs():
    """Compiles each program that is older than a source."""
    newest = max(path.stat().st_mtime for path in HERE.glob("*.[ch]"))
    os.makedirs(OUT, exist_ok=True)
    for name, parts in PROGRAMS.items():
        if not os.path.exists(program(name)) or os.path.getmtime(program(name)) < newest:
            sources = [f"{HERE}/{part}.c" for part in parts]
            output_of("cc", "-O2", "-Wall", "-Wextra", "-o", program(name), *sources, "-pthread")


@contextmanager
def running(words, log, environment=None):
    """A process that is ended with the block. Its output goes to the file `log`."""
    with open(log, "wb") as out:
        process = subprocess.Popen(words, stdin=subprocess.DEVNULL, stdout=out, stderr=out,
                                   env={**os.environ, **(environment or {})})
    try:
        yield process
    finally:
        end(process)


def end(process):
    process.terminate()
    try:
        process.wait(10)
    except subprocess.TimeoutExpired:
        process.kill()
        process.wait()


def await_ready(is_ready, process, log):
    limit = time.monotonic() + MOST_SECONDS
    while time.monotonic() < limit:
        if process.poll() is not None:
            raise Missing(f"the server ended with {process.returncode}: {Path(log).read_text()}")
        try:
            if is_ready():
                return
        except OSError:
            pass
        time.sleep(0.05)
    raise Missing(f"the server isn't ready after {MOST_SECONDS} seconds")


@contextmanager
def serving(server, folder):
    """A new server of this kind that is ready: its process and its port."""
    port, log = free_port(), f"{folder}/log"
    words, environment = server.words(folder, port)
    with running(words, log, environment) as process:
        await_ready(lambda: server.is_ready(port), process, log)
        yield process, port


@contextmanager
def delayed(port, round_trip, folder):
    """A proxy before a port that adds this round trip: its process and its port. None adds 0."""
    if round_trip == 0:
        yield None, port
        return
    own = free_port()
    words = [program("delay"), str(own), str(port), str(round_trip / 2)]
    with running(words, f"{folder}/delay") as process:
        time.sleep(0.2)
        yield process, own


@contextmanager
def hostile_client(port, kind, folder):
    """A hostile client of this kind, or None for `nothing`."""
    if kind == "nothing":
        yield None
        return
    with running([program("hostile"), str(port), kind], f"{folder}/hostile") as process:
        yield process


def end_hostile(process, folder):
    """Ends a hostile client, and returns what it has done. Fails if that is nothing."""
    end(process)
    done = json.loads(Path(f"{folder}/hostile").read_text())
    if not done["messages"]:
        raise ValueError("the hostile client has sent nothing")
    return done


# ---- the kinds of server ----

def get(port, path):
    with urllib.request.urlopen(f"http://127.0.0.1:{port}{path}", timeout=MOST_SECONDS) as reply:
        return reply.read().decode()


class Lugcurrant:
    name = "lug"
    title = "Lugcurrant"

    def __init__(self, server):
        self.program = os.path.abspath(server)
        if not os.access(self.program, os.X_OK):
            raise Missing(f"no program {server}")

    def words(self, folder, port):
        return [self.program, "serve", f"{folder}/canvas", "--port", str(port), "--quiet",
                "--clients", str(MOST_CLIENTS)], {}

    def is_ready(self, port):
        return get(port, "/health").startswith("serving")

    def counts(self, port):
        """The server's own counts: edits judged, and syncs of its journal."""
        text = get(port, "/metrics")
        return {name: int(re.search(rf"^lugcurrant_{name}_total (\d+)", text, re.M)[1])
                for name in ("edits", "syncs")}

    def holds(self, port, steps):
        """Checks whether the server has judged each step, and each client's first edit."""
        return self.counts(port)["edits"] == sum(steps) + len(steps)


class Yjs:
    name = "yjs"

    def __init__(self, root):
        self.modules = Path(root) / "usr/share/nodejs"
        self.environment = {"NODE_PATH": str(self.modules)}
        if not shutil.which("node"):
            raise Missing("no node")
        for name in ("yjs", "ws", "y-websocket"):
            if not (self.modules / name / "package.json").exists():
                raise Missing(f"no node-{name} in {root}")
        package = json.loads((self.modules / "y-websocket/package.json").read_text())
        self.title = f"y-websocket {package['version']}"

    def words(self, folder, port):
        script = str(self.modules / "y-websocket/bin/server.js")
        return ["node", script], {**self.environment, "HOST": "127.0.0.1", "PORT": str(port)}

    def is_ready(self, port):
        return get(port, "/") == "okay"

    def counts(self, port):
        return {}

    def holds(self, port, steps):
        """Checks whether a client of Yjs itself reads the last step of each client."""
        held = subprocess.run(["node", f"{HERE}/held.cjs", str(port)], capture_output=True,
                              text=True, env={**os.environ, **self.environment})
        return held.returncode == 0 and json.loads(held.stdout) == steps


class Redis:
    name = "redis"

    def __init__(self, root):
        self.folder = f"{root}/usr/bin"
        self.environment = {"LD_LIBRARY_PATH": f"{root}/usr/lib/x86_64-linux-gnu"}
        if not os.path.exists(f"{self.folder}/redis-server"):
            raise Missing(f"no redis-server in {root}")
        version = re.search("v=([0-9.]+)", self.output_of("redis-server", "--version"))
        if not version:
            raise Missing("redis-server doesn't run: its libraries are missing")
        self.title = f"Redis {version[1]}"

    def output_of(self, name, *words):
        return subprocess.run([f"{self.folder}/{name}", *words], capture_output=True, text=True,
                              env={**os.environ, **self.environment}).stdout

    def words(self, folder, port):
        options = {"port": port, "bind": "127.0.0.1", "dir": folder, "save": "",
                   "appendonly": "yes", "appendfsync": "always"}
        words = [f"{self.folder}/redis-server"]
        for name, value in options.items():
            words += [f"--{name}", str(value)]
        return words, self.environment

    def is_ready(self, port):
        return self.output_of("redis-cli", "-p", str(port), "ping") == "PONG\n"

    def counts(self, port):
        return {}

    def holds(self, port, steps):
        """Checks whether the stream has each step, and each client's first entry."""
        count = self.output_of("redis-cli", "-p", str(port), "xlen", "s")
        return count == f"{sum(steps) + len(steps)}\n"


KINDS = {"lug": Lugcurrant, "yjs": Yjs, "redis": Redis}


def find_servers(server, root):
    """The servers that are here. Prints why another one isn't."""
    found = []
    for name, kind in KINDS.items():
        try:
            found.append(kind(server if name == "lug" else root))
        except Missing as why:
            print(f"{name} is skipped: {why}", file=sys.stderr)
    return found
