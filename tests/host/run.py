#!/usr/bin/env python3
"""run.py LUGCURRANT [SECONDS [KILLS [CHECKS [STARTS]]]] [GROUP..]: tries `lugcurrant serve` as its users and its attackers would, each group on a folder of its
own; only the named groups, where some are named.

- reuse: 1,000 clients one after the other, where 4 may be served at once; each joins, edits and is answered.
- full: 64 clients at once, and the 65th is answered 503; once one has left, the next is served.
- quiet: a peer that says nothing, one that sends half a head, one that sends it byte by byte, and one that closes its half: none
  keeps a seat or the port. A client that is silent past --idle gives its seat back.
- strangers: 10,000 connections that say nothing, and others in their place; 50 at once that send a byte and go; 500 that send a byte each
  4.5 s; 500 that read a byte of a page each 4.5 s; 50 at once that reset. Beside each, /health and a handshake take less than 50 ms (median), and
  one that joined goes on. Where the server may have 256 descriptors, silent connections, and those that stay once they are answered, don't
  keep others out either.
- ended: a connection that closes its half before its head is whole is closed at once, so is one whose head is none; one that sends nothing is closed
  after 10 s, and one that sends a byte now and then too.
- unread: nothing reads the standard error of a server: 2,000 clients come and go, one after the other. Once it is read, a line says how many
  were left out. One that ends by a fault ends although its sentence isn't read.
- stopped: a server that is stopped by a signal and goes on keeps its clients.
- pages: health, metrics, document, the page's files, HEAD, what isn't there, paths that lead out of the folder, wrong methods.
- origins: a page of the same host, of a named one, of a foreign one, and none.
- hosts: the machine's own names and those of --host are served, with and without a port; every other is answered 421, whatever it asks for; two are 400.
- handshakes: one of another version is answered 426 with the version that is served; one without a key, with two or with a bad one, without its words or
  by HTTP/1.0 is answered 400; none is closed without an answer.
- identity: /document/ID connects, another ID doesn't; the ID stands in the answer, and stays after a restart. A folder whose identity is a
  pipe, or isn't one, or has any bit turned, is left alone; a link that stands where a new identity is written first isn't followed.
- kills: 16 clients edit while the server is killed KILLS (40) times; every edit that was answered is there at the end.
- figures: the whole text of /metrics after a known session: edits judged and refused by each reason, Noes, syncs, a checkpoint.
- sizes: an edit whose text has --message-bytes is judged, one of a byte more is answered No 8 and changes nothing, and a message above
  twice as many ends its connection with code 1009; the next client is served.
- copies: 63 clients ask for a copy of 10 MB at once, as after a restart, while one edits: all have it, stay, and edit; the memory goes back
  while they are there. One that reads nothing of its copy loses its connection. (Figures: the memory above the document, the longest edit,
  and the seconds.)
- pace: a client that is up to 255 entries late at a checkpoint is told entries, and no copy. A document of 20 large values isn't written again for
  600 small edits. One value that is set again and again, 1 MiB each time, takes little memory.
- pieces: a client asks for a large copy and begins an edit in the same write, cut at each byte in turn; also where the edit comes in two frames
  with a ping between them, and behind a large edit. Nothing is lost where the server lets go of what a large message took.
- large: a document of 100 MB is imported, served, and copied to a client in one message.
- disk: on a disk that is full an edit is answered No 5 (or No 6, after a checkpoint that failed), the server ends with status 4 and its sentence, and every edit that was
  answered is there afterwards. (It mounts a small tmpfs, and passes where it may not.)
- space: on a disk that has no room for another segment a server ends with status 9 and says how many bytes are missing, STARTS (20) times over, and leaves
  the folder as it was; so where the segment itself can't be written. Once the bytes are free it serves. While it runs edits go on, a
  checkpoint that has no room is told once and counted, and tried again after as many entries more; so where no open file is left. (As disk.)
- sentences: each fault that can be had has its sentence and its status.
- rights: a folder without rights, and one below a folder without rights, are told by a sentence each and status 8. (As root alone: it starts servers as
  nobody.)
- rows: what `show --json` and `show --lines` write is imported to the same document; a folder that holds anything of a document isn't imported
  to; of rows that make no document the line is told, and why.
- restored: a backup's folder is restored with another identity, with which clients of the old document aren't served; one that has lost
  something only with --accept-loss.
- lost: a bit is turned in each byte of a folder's segment, in turn: each time the server ends with status 5, says where, and touches nothing. So
  where a segment is cut below what was synced, and where one that is passed over isn't a checkpoint cut short. With --accept-loss it opens
  the folder once the segments are copied, and never over an earlier copy; killed then, it does so at the next start. What a crash leaves is
  opened.
- torn: what crashes left of checkpoints above the segment that recovery takes is removed at a start, before anything is written: so it takes no
  room that the next checkpoint needs (in a small tmpfs, if one can be mounted). Where the folder has lost something, or its identity isn't one,
  nothing is. Servers are killed while they do it.
- gone: a folder whose segments are removed or cut to nothing, while its identity or its sums are there, isn't served, shown, checked, moved or
  restored: status 5, the sentence names what is left, and nothing is written. With --accept-loss it opens as another document. What a crash
  of the first start leaves is opened.
- whole: `import` and `restore` are killed at random moments: the folder then has the whole document, or nothing that is opened, and the next
  one makes it. A folder with sums of an earlier document isn't taken.
- moved: a folder that is served is moved, and another document is put at its path, or the link that led to it is turned to another one: the
  server goes on in its own folder, makes its checkpoint there, and neither writes into the other one nor removes anything there.
- checked: `check` tells segments, whole records, torn rests and damage, and `log` the entries past the checkpoint; neither writes anything.
- served: CHECKS (200) checks of a folder of 256 objects whose server is edited by 62 clients in two processes: none reports damage or a loss.
- memory: each call by which `check` asks for memory is refused, one in each run, from the reading of its words on: it ends with status 3, with 4
  where it can't write its output, or does as it does without. (It needs cc, and passes where there is none.)
- kick: an operator ends connections by their numbers: live, busy, silent and deaf ones, and 300 at once; the others go on. A `kick` that no server
  takes leaves nothing. A file with something else, a large one, a link, a pipe and a folder end nothing and hold up nothing; nor does one
  that was there before the server.
- forwarded: with --trust-forwarded the log tells the address that a proxy names last, if it is one, and else the peer's alone.
- edits: `edit` plays the lines of its input against a server: each is answered before the next is read, a refused edit ends nothing, and `show` has what
  was made. A bad line, a No, a server that isn't there, is no server or is killed, and an output that takes nothing end it with a sentence and a status.
- coming: six clients come, edit and go again for SECONDS (30), and the server's memory stays flat.

Prints a line for each group, and exits with 1 where one went wrong. With H_LIMIT in the environment an answer may take so many seconds (30), for a
machine that is busy. Needs no package."""

import functools
import json
import multiprocessing
import os
import random
import re
import resource
import select
import shutil
import signal
import socket
import struct
import subprocess
import sys
import threading
import time
from pathlib import Path

sys.path.insert(0, str(Path(__file__).resolve().parents[1]))

import operators  # noqa: E402
import shared  # noqa: E402
from shared import Client, Wrong, draw, framed, numbers_and_names, page, read_answer, record, require, text_of, try_groups  # noqa: E402

PROGRAM = os.path.abspath(sys.argv[1])
NUMBERS, NAMES = numbers_and_names(sys.argv[2:])
SECONDS = NUMBERS[0] if NUMBERS else 30.0
KILLS = int(NUMBERS[1]) if len(NUMBERS) > 1 else 40
CHECKS = int(NUMBERS[2]) if len(NUMBERS) > 2 else 200
STARTS = int(NUMBERS[3]) if len(NUMBERS) > 3 else 20


class Server(shared.Server):
    """A server on a folder, at a port of its own."""

    def __init__(self, folder, *options, log=None):
        super().__init__([PROGRAM, "serve", folder, *options], log or os.path.join(os.path.dirname(folder), "log"))


call = functools.partial(shared.call, PROGRAM)


def shown(folder):
    done = subprocess.run([PROGRAM, "show", folder], capture_output=True)
    require(done.returncode == 0, "show ended with", done.returncode, done.stderr)
    return done.stdout.decode()


def reuse(room):
    server = Server(room, "--clients", "4", "--quiet")
    for _ in range(1000):
        client = Client(server.port)
        require(client.status == 101, "a client was answered", client.head)
        name = client.join()
        require(client.ask("edit", name, 1, ["delete", [name, 9]]) == [["idle"]], "an edit wasn't judged")
        client.leave()
    metrics = server.get("/metrics")[2].decode()
    require("lugcurrant_connections_total 1000\n" in metrics, metrics)
    server.kill()
    return "1000 clients, one after the other, where 4 may be served"


def full(room):
    server = Server(room, "--clients", "64", "--quiet")
    clients = [Client(server.port) for _ in range(64)]
    require(all(client.status == 101 for client in clients), "a client of 64 wasn't served")
    for client in clients:
        client.join()
    late = Client(server.port)
    require(late.status == 503 and "Retry-After" in late.head, "the 65th was answered", late.head)
    status, _, body = server.get("/health")
    require(status == 200 and b"clients 64\n" in body, "health:", status, body)
    clients.pop().leave()
    after = Client(server.port)
    require(after.status == 101 and after.join() > 0, "the place that was left isn't given again")
    server.kill()
    return "64 at once, 503 for the 65th, and its place once one has left"


def quiet(room):
    server = Server(room, "--clients", "2", "--idle", "2", "--quiet")
    peers = [socket.create_connection(("127.0.0.1", server.port)) for _ in range(3)]
    peers[1].sendall(b"GET / HTTP/1.1\r\nHost: localhost\r\n")
    peers[2].sendall(b"GET / HTTP/1.1\r\n")
    peers[2].shutdown(socket.SHUT_WR)
    slow = socket.create_connection(("127.0.0.1", server.port))

    def drip():
        try:
            for byte in b"GET /health HTTP/1.1\r\nX-Long: " + b"a" * 2000:
                slow.sendall(bytes([byte]))
                time.sleep(0.02)
        except OSError:
            pass

    threading.Thread(target=drip, daemon=True).start()
    start = time.time()
    require(server.get("/health")[0] == 200, "health isn't answered beside silent peers")
    one, two = Client(server.port), Client(server.port)
    one.join()
    two.join()
    require(time.time() - start < 5, "clients wait for silent peers")
    time.sleep(3)
    again = Client(server.port)
    require(again.status == 101, "a silent client keeps its seat:", again.head)
    for peer in [*peers, slow]:
        peer.settimeout(15)
        while True:
            try:
                if not peer.recv(4096):
                    break
            except socket.timeout as error:
                raise Wrong("a silent peer isn't closed in 15 seconds") from error
            except OSError:
                break
    server.kill()
    return "silent, slow and half-closed peers are closed, and keep no seat"


# How many connections strangers open, and for how long /health and handshakes are measured beside them.
STRANGERS = 10_000
BESIDE = 6.0


def reached(port):
    peer = socket.socket()
    peer.settimeout(30)
    peer.connect(("127.0.0.1", port))
    return peer


def say_nothing(port, ready):
    peers = []
    for number in range(STRANGERS):
        peers.append(begun(port))
        if number % 50 == 0:
            time.sleep(0.005)
    time.sleep(3)
    ready.set()
    while True:
        for at, peer in enumerate(peers):
            peer.close()
            peers[at] = begun(port)
            time.sleep(0.001)


def begun(port):
    """A connection that isn't waited for."""
    peer = socket.socket()
    peer.setblocking(False)
    peer.connect_ex(("127.0.0.1", port))
    return peer


def come_and_go(port, ready):
    ready.set()
    while True:
        peers = [reached(port) for _ in range(50)]
        for peer in peers:
            peer.sendall(b"G")
            peer.close()
        time.sleep(0.05)


def say_a_byte(port, ready):
    peers = [reached(port) for _ in range(500)]
    ready.set()
    while True:
        for at, peer in enumerate(peers):
            try:
                peer.sendall(b"G")
            except OSError:
                peers[at] = reached(port)
        time.sleep(4.5)


def read_a_byte(port, ready):
    peers = []
    for _ in range(500):
        peer = socket.socket()
        peer.setsockopt(socket.SOL_SOCKET, socket.SO_RCVBUF, 1024)
        peer.connect(("127.0.0.1", port))
        peer.sendall(f"GET /canvas.wasm HTTP/1.1\r\nHost: 127.0.0.1:{port}\r\n\r\n".encode())
        peers.append(peer)
    ready.set()
    while True:
        time.sleep(4.5)
        for peer in peers:
            try:
                peer.recv(1)
            except OSError:
                pass


def reset(port, ready):
    ready.set()
    while True:
        peers = [reached(port) for _ in range(50)]
        for number, peer in enumerate(peers):
            peer.setsockopt(socket.SOL_SOCKET, socket.SO_LINGER, struct.pack("ii", 1, 0))
            if number % 2:
                peer.sendall(b"GET / HTTP/1.1\r\n")
            peer.close()
        time.sleep(0.05)


def stay(port, ready):
    """Connections that are answered, and don't end."""
    peers = []
    ready.set()
    while True:
        peer = reached(port)
        peer.sendall(f"GET /health HTTP/1.1\r\nHost: 127.0.0.1:{port}\r\n\r\n".encode())
        peers.append(peer)
        if len(peers) > 5000:
            peers.pop(0).close()
        time.sleep(0.001)


def timed(work):
    start = time.time()
    work()
    return (time.time() - start) * 1000


def measured(server, seconds):
    """The milliseconds that each /health and each handshake takes."""
    def look():
        require(server.get("/health")[0] == 200, "health isn't answered")

    def shake():
        client = Client(server.port)
        require(client.status == 101, "a handshake is answered", client.head)
        client.leave()

    looks, shakes, end = [], [], time.time() + seconds
    while time.time() < end:
        looks.append(timed(look))
        shakes.append(timed(shake))
        time.sleep(0.02)
    return sorted(looks), sorted(shakes)


def beside(server, attack):
    """The medians and the worst of both beside strangers who do this."""
    ready = multiprocessing.Event()
    stranger = multiprocessing.Process(target=attack, args=(server.port, ready), daemon=True)
    stranger.start()
    try:
        require(ready.wait(60), "the strangers don't get through:", attack.__name__)
        looks, shakes = measured(server, BESIDE)
    finally:
        stranger.kill()
        stranger.join()
    middle = max(looks[len(looks) // 2], shakes[len(shakes) // 2])
    require(middle < 50, attack.__name__, "has /health take", looks, "and handshakes", shakes)
    return f"{attack.__name__} {middle:.1f} ms (at worst {max(looks[-1], shakes[-1]):.0f})"


def strangers(room):
    _, most = resource.getrlimit(resource.RLIMIT_NOFILE)
    resource.setrlimit(resource.RLIMIT_NOFILE, (most, most))
    require(most > STRANGERS + 1000, "this group needs", STRANGERS + 1000, "descriptors, and may have", most)
    site = os.path.join(os.path.dirname(room), "page")
    os.mkdir(site)
    Path(site, "index.html").write_bytes(b"<!doctype html>")
    Path(site, "canvas.wasm").write_bytes(bytes(1 << 20))
    server = Server(room, "--page", site, "--quiet")
    inside = Client(server.port)
    name = inside.join()
    told = []
    for number, attack in enumerate((say_nothing, come_and_go, say_a_byte, read_a_byte, reset), 1):
        told.append(beside(server, attack))
        require(inside.ask("edit", name, number, ["delete", [name, 9]]) == [["idle"]], "an edit isn't judged beside", attack.__name__)
    require(server.memory() < 500_000, "the server has", server.memory(), "kB")
    server.kill()
    resource.setrlimit(resource.RLIMIT_NOFILE, (256, most))
    server = Server(room, "--clients", "8", "--quiet")
    resource.setrlimit(resource.RLIMIT_NOFILE, (most, most))
    told.append("256 descriptors: " + beside(server, say_nothing))
    told.append(beside(server, stay))
    server.kill()
    return "; ".join(told)


def ended(room):
    server = Server(room, "--quiet")

    def until_closed(peer):
        start = time.time()
        try:
            while peer.recv(4096):
                pass
        except ConnectionResetError:
            pass
        return time.time() - start

    for text in (b"", b"G", b"GET /health HTTP/1.1\r\nHost: loc"):
        peer = reached(server.port)
        peer.sendall(text)
        time.sleep(0.1)
        peer.shutdown(socket.SHUT_WR)
        took = until_closed(peer)
        require(took < 1, "a connection that ends behind", text, "is closed after", took, "s")
    peer = reached(server.port)
    peer.sendall(b"GET /health HTTP/1.1\r\nHost: localhost\r\n\r\n")
    peer.shutdown(socket.SHUT_WR)
    require(read_answer(peer)[0] == 200, "a whole head before the end isn't answered")
    silent, slow = reached(server.port), reached(server.port)
    begun = time.time()
    threading.Thread(target=drip, args=(slow,), daemon=True).start()
    for peer in (silent, slow):
        until_closed(peer)
        took = time.time() - begun
        require(9 < took < 13, "a connection without a head is closed after", took, "s")
    server.kill()
    return "closed at once at an end, and after 10 s"


def drip(peer):
    """Sends the first line of a request, a byte each second."""
    try:
        for byte in b"GET /health HTTP/1.1":
            peer.sendall(bytes([byte]))
            time.sleep(1)
    except OSError:
        pass


def unread(room):
    port = shared.free_port()
    read, write = os.pipe()
    process = subprocess.Popen([PROGRAM, "serve", room, "--port", str(port)], stdin=subprocess.DEVNULL, stdout=write, stderr=write)
    shared.RUNNING.append(process)
    os.close(write)
    begun = time.time()
    while True:
        try:
            reached(port).close()
            break
        except OSError:
            require(time.time() < begun + 20, "the server doesn't listen")
            time.sleep(0.05)
    for number in range(2000):
        client = Client(port, timeout=10)
        require(client.status == 101, "client", number, "is answered", client.head)
        client.leave()
    lines, rest = [], b""
    while not any("were left out" in line for line in lines):
        require(select.select([read], [], [], 5)[0], "no line says how many were left out, of", len(lines), "lines")
        *whole, rest = (rest + os.read(read, 1 << 16)).split(b"\n")
        lines += [line.decode() for line in whole]
    os.close(read)
    process.kill()
    process.wait()
    require(lines[0].startswith("serving at"), "the first line is", lines[:1])
    left_out = next(line for line in lines if "were left out" in line)
    with socket.create_server(("127.0.0.1", 0)) as other:
        read, write = full_pipe()
        begun = time.time()
        process = subprocess.Popen([PROGRAM, "serve", room, "--port", str(other.getsockname()[1])], stdin=subprocess.DEVNULL, stderr=write)
        shared.RUNNING.append(process)
        require(process.wait(20) == 4, "a server whose fault isn't read ends with", process.returncode)
        took = time.time() - begun
        os.close(read)
        os.close(write)
    return f"2000 clients served; {left_out}; one whose fault isn't read ends after {took:.1f} s"


def full_pipe():
    """The ends of a pipe that takes no byte more."""
    read, write = os.pipe()
    os.set_blocking(write, False)
    try:
        while True:
            os.write(write, bytes(4096))
    except BlockingIOError:
        os.set_blocking(write, True)
    return read, write


def stopped(room):
    server = Server(room, "--quiet")
    clients = [Client(server.port) for _ in range(8)]
    names = [client.join() for client in clients]
    for number in range(1, 6):
        server.process.send_signal(signal.SIGSTOP)
        time.sleep(0.2)
        server.process.send_signal(signal.SIGCONT)
        for name, client in zip(names, clients):
            require(client.ask("edit", name, number, ["delete", [name, 9]]) == [["idle"]], "an edit isn't judged")
    require(server.get("/health")[0] == 200, "health isn't answered")
    server.kill()
    return "8 clients stay over 5 stops"


def pages(room):
    site = os.path.join(os.path.dirname(room), "page")
    os.mkdir(site)
    with open(os.path.join(site, "index.html"), "w") as index:
        index.write("<!doctype html>")
    with open(os.path.join(site, "secret"), "w") as secret:
        secret.write("no")
    server = Server(room, "--page", site, "--quiet")
    status, head, body = server.get("/")
    require((status, body) == (200, b"<!doctype html>") and "text/html" in head, head)
    require("Content-Security-Policy" in head and "nosniff" in head, head)
    status, head, body = server.get("/", "HEAD")
    require(status == 200 and body == b"" and "Content-Length: 15" in head, head)
    require(server.get("/index.html?x=1")[2] == b"<!doctype html>", "a query changes the file")
    wanted = {"/health": 200, "/metrics": 200, "/document": 200, "/page.js": 404, "/secret": 404, "/../log": 404, "/%2e%2e/log": 404,
              "//index.html": 404, "/index.html/": 404, "http://x/": 400, "*": 400}
    for path, status in wanted.items():
        require(server.get(path)[0] == status, path, "is answered", server.get(path)[0])
    require(server.get("/health", "POST")[0] == 405, "POST is answered", server.get("/health", "POST")[0])
    with socket.create_connection(("127.0.0.1", server.port), timeout=30) as peer:
        peer.sendall(b"\x16\x03\x01\x02\x00\x01\x00")
        require(read_answer(peer)[0] == 400, "a TLS hello isn't answered 400")
    with socket.create_connection(("127.0.0.1", server.port), timeout=30) as peer:
        peer.sendall(b"GET / HTTP/1.1\r\nHost: localhost\r\nX: " + b"a" * 20000)
        require(read_answer(peer)[0] == 400, "a head of 20,000 bytes isn't answered 400")
    server.kill()
    return "the page, health, metrics and document are answered, and nothing else"


def origins(room):
    server = Server(room, "--origin", "https://canvas.example", "--quiet")
    own = f"127.0.0.1:{server.port}"
    wanted = {None: 101, f"http://{own}": 101, f"https://{own}": 101, "https://canvas.example": 101, "https://evil.example": 403,
              "null": 403, f"http://{own}.evil.example": 403, "http://127.0.0.1": 403, "https://canvas.example.evil": 403, "": 403}
    for origin, status in wanted.items():
        client = Client(server.port, origin=origin)
        require(client.status == status, "Origin", origin, "is answered", client.status)
        client.drop()
    server.kill()
    named = ["null", "http://[::1]:8000", "capacitor://localhost", "file://"]
    server = Server(room, *[word for origin in named for word in ("--origin", origin)], "--quiet")
    for origin in named:
        client = Client(server.port, origin=origin)
        require(client.status == 101, "the named Origin", origin, "is answered", client.status)
        client.drop()
    server.kill()
    return f"{len(wanted) + len(named)} origins"


def answer_to(server, head):
    with socket.create_connection(("127.0.0.1", server.port), timeout=30) as peer:
        peer.sendall(head.encode())
        data = b""
        while b"\r\n\r\n" not in data:
            part = peer.recv(4096)
            if not part:
                break
            data += part
    head = data.partition(b"\r\n\r\n")[0].decode()
    return (int(head.split()[1]) if head else 0), head


def hosts(room):
    server = Server(room, "--host", "canvas.example", "--host", "b.example:80", "--quiet")
    wanted = {"localhost": 101, "LOCALHOST:7411": 101, "127.0.0.1:1": 101, "[::1]": 101, "canvas.example": 101, "Canvas.Example:443": 101,
              "b.example:80": 101, "b.example": 421, "evil.example": 421, f"evil.example:{server.port}": 421, "canvas.example.evil": 421,
              "127.0.0.1.evil.example": 421, "": 421}
    offer = "Upgrade: websocket\r\nConnection: Upgrade\r\nSec-WebSocket-Version: 13\r\nSec-WebSocket-Key: dGhlIHNhbXBsZSBub25jZQ==\r\n"
    for host, status in wanted.items():
        require(answer_to(server, f"GET / HTTP/1.1\r\nHost: {host}\r\n{offer}\r\n")[0] == status, "Host", host)
    evil = "Host: evil.example\r\n"
    for head in (f"GET /health HTTP/1.1\r\n{evil}\r\n", f"GET / HTTP/1.1\r\n{evil}Origin: http://evil.example\r\n{offer}\r\n"):
        require(answer_to(server, head)[0] == 421, "a foreign host is answered:", head)
    require(answer_to(server, "GET /health HTTP/1.1\r\nHost: localhost\r\nHost: localhost\r\n\r\n")[0] == 400, "two hosts are answered")
    server.kill()
    return f"{len(wanted)} hosts"


def handshakes(room):
    server = Server(room, "--quiet")
    key = "Sec-WebSocket-Key: dGhlIHNhbXBsZSBub25jZQ==\r\n"
    version, other = "Sec-WebSocket-Version: 13\r\n", "Sec-WebSocket-Version: 12\r\n"
    connection = "Connection: keep-alive, Upgrade\r\n"
    wanted = [(connection + version + key, 101), (connection + other + key, 426), (connection + key, 400), (connection + version, 400),
              (version + key, 400), (connection + version + key + key, 400), (connection + version + version + key, 400),
              (connection + version + key.replace("Q==", "R=="), 400), (connection + version + key.replace("ZQ==", "Z==="), 400),
              ("Connection: close\r\n" + version + key, 400)]
    for fields, status in wanted:
        answer = answer_to(server, f"GET / HTTP/1.1\r\nHost: localhost\r\nUpgrade: websocket\r\n{fields}\r\n")
        require(answer[0] == status, fields, "is answered", answer[0])
        require(status != 426 or "Sec-WebSocket-Version: 13" in answer[1], "426 names no version:", answer[1])
    old = f"GET / HTTP/1.0\r\nHost: localhost\r\nUpgrade: websocket\r\n{connection}{version}{key}\r\n"
    require(answer_to(server, old)[0] == 400, "a handshake by HTTP/1.0 is answered")
    server.kill()
    return f"{len(wanted) + 1} handshakes"


def identity(room):
    server = Server(room, "--quiet")
    name = server.identity()
    client = Client(server.port, f"/document/{name}")
    require(client.status == 101 and f"lugcurrant-document: {name}" in client.head.lower(), client.head)
    other = ("0" if name[0] != "0" else "1") + name[1:]
    require(Client(server.port, f"/document/{other}").status == 404, "another identity is served")
    require(Client(server.port, "/elsewhere").status == 404, "another path is served")
    server.kill()
    server.start()
    require(server.identity() == name, "the identity changes with a restart")
    server.kill()
    flips = changed_identities(room, name)
    odd_identities(room)
    return f"the document's own identity, and no other; one that can't be read is left alone; {flips} flips told"


def changed_identities(room, name):
    """Turns each bit of the file of an identity, and of its sum: each time the server says so, and writes nothing. How many bits."""
    flips, above = 0, os.path.dirname(room)
    held = files_of(room)
    require(held["identity"] == name.encode() + b"\n" and "identity.sum" in held, "the files of an identity are", list(held))
    for file in ("identity", "identity.sum"):
        for at in range(len(held[file])):
            for bit in range(8):
                content = bytearray(held[file])
                content[at] ^= 1 << bit
                Path(room, file).write_bytes(content)
                before = files_of(room)
                call("serve", room, "--port", "0", "--quiet", status=5, told=f"the file identity in {room} isn't ")
                require(files_of(room) == before, "a folder with a changed identity is written to")
                flips += 1
        Path(room, file).write_bytes(held[file])
    os.remove(os.path.join(room, "identity.sum"))
    server = Server(room, "--quiet")
    require(server.identity() == name, "a folder of an older version gets another identity")
    server.kill()
    require(files_of(room)["identity.sum"] == held["identity.sum"], "a folder of an older version gets no sum of its identity")
    Path(room, "identity").write_bytes(b"0" * 32 + b"\n")
    before = files_of(room)
    call("serve", room, "--port", "0", "--quiet", "--accept-loss", status=5, told=f"the file identity in {room} isn't the one that identity.sum names")
    require(files_of(room) == before, "a folder with another's identity is written to")
    os.remove(os.path.join(room, "identity"))
    other = copied(room, "restored")
    server = Server(room, "--quiet")
    require(server.identity() not in (name, "0" * 32), "a folder whose identity was deleted keeps it")
    server.kill()
    require(files_of(room)["identity.sum"] != held["identity.sum"], "another identity has the sum of the old one")
    for left in ("segment", "lost"):
        for file in [file for file in os.listdir(other) if file.startswith(left)]:
            os.remove(os.path.join(other, file))
    require(os.listdir(other) == ["identity.sum"], "left in the folder is", os.listdir(other))
    call("restore", room, other)
    require(os.listdir(other) == ["segment-0000000001"], "a restore leaves the sum of another identity", os.listdir(other))
    return flips


def odd_identities(room):
    above = os.path.dirname(room)
    file, other = Path(room, "identity"), Path(above, "other file")
    file.write_text("no identity\n")
    before = files_of(room)
    call("serve", room, "--port", "0", "--quiet", status=5, told=f"the file identity in {room} isn't 32 hex digits")
    require(files_of(room) == before, "a folder with a bad identity is written to")
    file.unlink()
    os.mkfifo(file)
    call("serve", room, "--port", "0", "--quiet", status=5, told=f"the file identity in {room} isn't 32 hex digits")
    file.unlink()
    other.write_text("another's\n")
    Path(room, "identity.new").symlink_to(other)
    server = Server(room, "--quiet")
    made = server.identity()
    require(file.read_text() == made + "\n" and other.read_text() == "another's\n", "a new identity is written through a link")
    server.kill()


def kills(room):
    server = Server(room, "--clients", "20", "--quiet")
    kept, stop = [[] for _ in range(16)], threading.Event()

    def edit(mine):
        name = number = 0
        while not stop.is_set():
            try:
                client = Client(server.port, timeout=10)
                if client.status != 101:
                    client.drop()
                    continue
                if not name:
                    name = client.join()
                    number = 1
                while not stop.is_set():
                    answer = client.ask("edit", name, number, page(name, number))
                    if answer == [["no", 1]]:
                        raise Wrong(f"client {name} is unknown")
                    if answer == [["idle"]]:
                        mine.append(f"{name}:{number}")
                        number += 1
                client.leave()
            except (OSError, ConnectionError, ValueError):
                time.sleep(0.01)

    threads = [threading.Thread(target=edit, args=(mine,)) for mine in kept]
    for thread in threads:
        thread.start()
    for _ in range(KILLS):
        time.sleep(random.uniform(0.05, 0.4))
        server.kill()
        server.start()
    stop.set()
    for thread in threads:
        thread.join()
    server.kill()
    tree = set(re.findall(r"\d+:\d+", shown(room)))
    answered = [name for mine in kept for name in mine]
    lost = [name for name in answered if name not in tree]
    require(len(answered) > 16 and not lost, len(lost), "of", len(answered), "answered edits are lost")
    record("host kills", kills=KILLS, answered=len(answered), lost=len(lost))
    return f"{KILLS} kills, {len(answered)} answered edits, 0 lost"


REASONS = ("is_root", "bad_id", "gone", "parent_gone", "bad_parent", "cycle", "crowded", "too_deep")
NOES = ("stranger", "repeat", "gap", "full", "device", "failed", "memory", "too_large", "not_read")


def metrics(seconds, **numbers):
    """The text of /metrics with these numbers, and 0 for all others."""
    def family(name, kind, value):
        return f"# TYPE lugcurrant_{name} {kind}\nlugcurrant_{name} {value}\n"

    def gauge(name, key):
        return family(name, "gauge", numbers.get(key, 0))

    def counter(name, key):
        return family(f"{name}_total", "counter", numbers.get(key, 0))

    def by_reason(name, reasons):
        lines = [f'lugcurrant_{name}_total{{reason="{reason}"}} {numbers.get(reason, 0)}\n' for reason in reasons]
        return f"# TYPE lugcurrant_{name}_total counter\n" + "".join(lines)

    return "".join([
        gauge("version", "version"), gauge("published_version", "version"), gauge("floor_version", "floor"), gauge("objects", "objects"),
        gauge("clients", "clients"), gauge("live_clients", "live"), counter("connections", "connections"),
        counter("turned_away", "turned_away"), counter("pushes", "pushes"), counter("requests", "requests"), counter("edits", "edits"), by_reason("refused", REASONS), by_reason("no", NOES),
        counter("entries", "entries"), counter("syncs", "syncs"), counter("checkpoints", "checkpoints"),
        counter("checkpoints_refused", "checkpoints_refused"),
        family("checkpoint_seconds_total", "counter", seconds), gauge("checkpoint_bytes", "checkpoint_bytes")])


def figures(room):
    server = Server(room, "--message-bytes", "2000", "--quiet")
    client = Client(server.port)
    name, number = client.join(), 0

    def edit(*change):
        nonlocal number
        number += 1
        require(client.ask("edit", name, number, change) == [["idle"]], change, "isn't judged")

    def no(reason, *message):
        require(client.ask(*message) == [["no", reason]], message, "isn't answered No", reason)

    def told(seconds, **numbers):
        """Compares the numbers, once the server has looked at its document."""
        time.sleep(0.5)
        text = server.get("/metrics")[2].decode()
        found = re.search(r"(?m)^lugcurrant_checkpoint_seconds_total ([0-9]+\.[0-9]{6})$", text)
        require(found and (float(found.group(1)) > 0) == seconds, "the seconds of checkpoints:", text)
        found_bytes = re.search(r"(?m)^lugcurrant_checkpoint_bytes ([0-9]+)$", text)
        wanted = metrics(found.group(1), checkpoint_bytes=found_bytes and found_bytes.group(1), **numbers)
        require(text == wanted, "the numbers are", [line for line in text.splitlines() if line not in wanted.splitlines()])

    first, frame, shape = [name, 1], [name, 2], [name, 3]
    edit("create", first, "page", [[0, 0], "O"])
    edit("create", frame, "frame", [first, "O"])
    edit("create", shape, "shape", [frame, "O"])
    edit("set", shape, "name", "a\n\"b\"")
    edit("move", [0, 0], [first, "O"])  # is_root
    edit("delete", [0, 0])
    edit("create", first, "page", [[0, 0], "g"])  # bad_id
    edit("set", [name, 99], "name", 1)  # gone
    edit("clear", [name, 99], "name")
    edit("delete", [name, 99])
    edit("create", [name, 4], "shape", [[name, 99], "O"])  # parent_gone
    edit("create", [name, 4], "page", [frame, "O"])  # bad_parent
    edit("move", frame, [frame, "g"])  # cycle
    last = "O" * 127 + "P"
    edit("create", [name, 4], "shape", [frame, "O" * 128])
    edit("create", [name, 5], "shape", [frame, last])
    edit("create", [name, 6], "shape", [frame, "O" * 128])  # crowded
    above = first
    for counter in range(10, 108):
        edit("create", [name, counter], "frame", [above, "a"])
        above = [name, counter]
    edit("create", [name, 200], "frame", [above, "a"])
    edit("create", [name, 201], "shape", [[name, 200], "a"])  # too_deep
    no(1, "ask", 99, 0)
    no(1, "edit", 99, 1, ["delete", first])
    no(3, "edit", name, number + 2, ["delete", first])
    no(8, "edit", name, number + 1, ["set", first, "text", "a" * 2000])
    no(9, "welcome", 1)
    no(9, "nonsense")
    require(client.ask("edit", name, number, ["delete", first]) == [["idle"]], "a repeated edit isn't answered Idle")
    counts = {"is_root": 2, "bad_id": 1, "gone": 3, "parent_gone": 1, "bad_parent": 1, "cycle": 1, "crowded": 1, "too_deep": 1}
    noes = {"stranger": 2, "gap": 1, "too_large": 1, "not_read": 2}
    told(False, version=number + 1, objects=105, clients=1, connections=1, requests=1, edits=number, entries=number + 1, syncs=number + 1,
         **counts, **noes)
    while number < 300:
        edit("set", first, "count", number)
    told(True, version=301, floor=256, objects=105, clients=1, connections=1, requests=2, edits=300, entries=301, syncs=301, checkpoints=1,
         **counts, **noes)
    client.leave()
    server.kill()
    server.start()
    told(False, version=301, floor=301, objects=105, requests=1)
    server.kill()
    return "every number after 300 edits, of which 11 were refused, 6 Noes, a checkpoint and a restart"


def sizes(room):
    server = Server(room, "--message-bytes", "100000", "--quiet")
    client = Client(server.port)
    name = client.join()
    first = page(name, 1)[1]
    require(client.ask("edit", name, 1, page(name, 1)) == [["idle"]], "an edit isn't judged")
    bare = len(text_of(["edit", name, 2, ["set", first, "text", ""]]))
    before = client.ask("ask", name, 0)
    for number, text in ((2, "a" * (100001 - bare)), (2, "\u0001" * 17000), (2, ["list"] + ["ab"] * 20000)):
        require(client.ask("edit", name, number, ["set", first, "text", text]) == [["no", 8]], "an edit that is too large is answered otherwise")
    require(client.ask("ask", name, 0) == before, "an edit that is too large changes something")
    for number, text in ((2, "a" * (100000 - bare)), (3, "\u0001" * 16000), (4, ["list"] + ["ab"] * 19980)):
        require(client.ask("edit", name, number, ["set", first, "text", text]) == [["idle"]], "an edit that isn't too large isn't judged")
    spaced = json.dumps(["edit", name, 5, ["set", first, "text", "a" * 90000]]) + " " * 100000
    client.send(spaced.encode())
    require(json.loads(client.frame()[1]) == ["idle"], "an edit in a long message isn't judged")
    client.send(text_of(["edit", name, 6, ["set", first, "text", "a" * 200000]]).encode())
    opcode, payload = client.frame()
    require(opcode == 8 and payload[:2] == struct.pack("!H", 1009), "a message of more than 200,000 bytes is answered", opcode, payload)
    again = Client(server.port)
    require(again.ask("edit", name, 6, ["clear", first, "text"]) == [["idle"]], "the client isn't served again")
    require('lugcurrant_no_total{reason="too_large"} 3\n' in server.get("/metrics")[2].decode(), "the Noes aren't counted")
    server.kill()
    server = Server(room, "--message-bytes", "67108864", "--quiet")
    again = Client(server.port)
    require(again.ask("edit", name, 7, ["set", first, "text", "a" * 40_000_000]) == [["idle"]], "an edit of 40 MB isn't judged")
    server.kill()
    return "No 8 above the limit, 1009 above twice as much, and an edit of 40 MB where that is allowed"


def large(room):
    rows = ['[[0,0],"document",null,[]]']
    rows += [text_of([[1, number], "page", [[0, 0], f"{number:04d}O"], [["text", "x" * 1_000_000]]]) for number in range(1, 101)]
    require(call("import", room, text="\n".join(rows).encode()) == b"version 1, objects 101\n", "100 MB aren't imported")
    server = Server(room, "--quiet")
    client = Client(server.port)
    name = client.join()
    client.send(text_of(["ask", name, 0]).encode())
    copy = client.frame()[1]
    require(copy.startswith(b'["copy",2,0,[') and len(copy) > 100_000_000, "a copy of 100 MB is", len(copy), copy[:100])
    require(json.loads(client.frame()[1]) == ["idle"], "the answer doesn't end")
    server.kill()
    return f"a copy of {len(copy)} bytes in one message"


def watched(server, done, most):
    """Adds the most memory that a server has to `most`, until it is done."""
    while not done.is_set():
        most.append(max(server.memory(), most.pop()))
        time.sleep(0.01)


def edits_meanwhile(client, name, done, longest):
    """Has a client edit until it is done, and adds the seconds of the longest edit to `longest`."""
    number = 0
    while not done.is_set():
        number += 1
        start = time.monotonic()
        require(client.ask("edit", name, number, ["set", [1, 1], "count", number]) == [["idle"]], "an edit isn't judged")
        longest.append(max(time.monotonic() - start, longest.pop()))
        time.sleep(0.002)


def sent_a_copy(client, name, sizes):
    """Has a client ask for a copy, and adds its size to `sizes`."""
    client.say("ask", name, 1)
    size, first = client.pass_over()
    if first.startswith(b'["copy"') and client.hear() == [["idle"]]:
        sizes.append(size)


def copies(room):
    rows = ['[[0,0],"document",null,[]]']
    rows += [text_of([[1, number], "page", [[0, 0], f"{number:06d}O"], [["fill", ["rgba", number]], ["text", "x" * 24]]]) for number in range(1, 100001)]
    require(call("import", room, text="\n".join(rows).encode()) == b"version 1, objects 100001\n", "10 MB aren't imported")
    os.environ.update(MALLOC_ARENA_MAX="2", MALLOC_MMAP_THRESHOLD_="131072")  # as the unit in deploy has them
    server = Server(room, "--quiet")
    names = []
    for _ in range(64):
        client = Client(server.port)
        names.append(client.join())
        client.leave()
    server.kill()
    server.start()
    first = Client(server.port)
    first.ask("ask", names[0], 2)
    first.leave()
    time.sleep(1)
    before, most, longest, sizes, done = server.memory(), [0], [0.0], [], threading.Event()
    clients = [Client(server.port, timeout=2 * shared.LIMIT) for _ in range(64)]
    besides = [threading.Thread(target=watched, args=(server, done, most)),
               threading.Thread(target=edits_meanwhile, args=(clients[0], names[0], done, longest))]
    askers = [threading.Thread(target=sent_a_copy, args=(clients[i], names[i], sizes)) for i in range(1, 64)]
    start = time.monotonic()
    for thread in besides + askers:
        thread.start()
    for thread in askers:
        thread.join()
    seconds = time.monotonic() - start
    done.set()
    for thread in besides:
        thread.join()
    require(len(sizes) == 63, "of 63 clients so many have a copy:", len(sizes))
    time.sleep(1)
    above, there = (most[0] - before) // 1024, (server.memory() - before) // 1024
    for client, name in zip(clients[1:], names[1:]):
        require(client.ask("edit", name, 1, ["set", [1, 2], "by", name]) == [["idle"]], "a client that has its copy isn't served")
        client.leave()
    clients[0].leave()
    time.sleep(1)
    left = (server.memory() - before) // 1024
    require(above < 300 and there < 100 and left < 100, "copies take so many MB above the document, and leave, first with all there:", above, there, left)
    stuck = Client(server.port)
    for _ in range(4):  # more than the system keeps for a socket
        stuck.say("ask", names[1], 1)
    until = time.monotonic() + 30
    while 'lugcurrant_clients 0\n' not in server.get("/metrics")[2].decode():
        require(time.monotonic() < until, "a client that doesn't read its copy isn't let go")
        time.sleep(0.5)
    server.kill()
    return (f"63 copies of {sizes[0] / 1e6:.1f} MB in {seconds:.1f} s, at most {above} MB above the document, {there} with all there and {left} afterwards, "
            f"the longest edit {longest[0] * 1000:.0f} ms")


def number_of(server, name):
    """What a server counts under this name."""
    return int(re.search(rf"(?m)^lugcurrant_{name} ([0-9]+)$", server.get("/metrics")[2].decode()).group(1))


def pace(room):
    os.makedirs(room)
    server = Server(os.path.join(room, "late"), "--quiet")
    client, late = Client(server.port), Client(server.port)
    name, other = client.join(), late.join()
    require(client.ask("edit", name, 1, page(name, 1)) == [["idle"]], "an edit isn't judged")
    for number in range(2, 1101):
        require(client.ask("edit", name, number, ["set", [name, 1], "count", number]) == [["idle"]], "an edit isn't judged")
        if number % 50 == 0 and number > 255:
            answer = late.ask("ask", other, number + 2 - 255)
            require(answer[0][0] == "entry" and len(answer) == 65, "a client that is 255 entries late is told", answer[0][0], len(answer) - 1)
    made, tail = number_of(server, "checkpoints_total"), late.ask("ask", other, 2)
    require(3 <= made <= 4, "of 1,102 entries so many checkpoints are made:", made)
    require(tail[0][0] == "copy", "a client that is 1,100 entries late is told", tail[0][0])
    server.kill()
    server = Server(os.path.join(room, "large"), "--message-bytes", "4194304", "--quiet")
    client = Client(server.port)
    name = client.join()
    for number in range(1, 21):
        require(client.ask("edit", name, 2 * number - 1, page(name, number)) == [["idle"]], "an edit isn't judged")
        require(client.ask("edit", name, 2 * number, ["set", [name, number], "text", "a" * (1 << 20)]) == [["idle"]], "an edit isn't judged")
    before = number_of(server, "checkpoints_total")
    require(1 <= before <= 10, "of 20 MB so many checkpoints are made:", before)
    for number in range(41, 641):
        require(client.ask("edit", name, number, ["set", [name, 1], "count", number]) == [["idle"]], "an edit isn't judged")
    after = number_of(server, "checkpoints_total")
    require(after == before, "for 600 small edits 20 MB are written again so many times:", after - before)
    server.kill()
    server = Server(os.path.join(room, "again"), "--message-bytes", "4194304", "--quiet")
    client = Client(server.port)
    name = client.join()
    require(client.ask("edit", name, 1, page(name, 1)) == [["idle"]], "an edit isn't judged")
    for number in range(2, 202):
        require(client.ask("edit", name, number, ["set", [name, 1], "text", "a" * (1 << 20)]) == [["idle"]], "an edit isn't judged")
    memory = server.memory() // 1024
    require(memory < 100, "a value of 1 MiB that is set 200 times takes so many MB:", memory)
    server.kill()
    return f"{made} checkpoints of 1,102 entries, {before} of 20 MB, none for 600 small edits; 200 values of 1 MiB in the place of one: {memory} MB"


def two_frames(payload):
    """A message in two frames, with a ping between them."""
    half = len(payload) // 2
    return framed(payload[:half], is_last=False) + framed(b"there?", opcode=9) + framed(payload[half:], opcode=0)


def pieces(room):
    rows = ['[[0,0],"document",null,[]]']
    rows += [text_of([[1, number], "page", [[0, 0], f"{number:06d}O"], [["text", "x" * 200]]]) for number in range(1, 2001)]
    require(call("import", room, text="\n".join(rows).encode()) == b"version 1, objects 2001\n", "the rows aren't imported")
    server = Server(room, "--quiet")
    client = Client(server.port)
    name = client.join()
    ask, number = framed(text_of(["ask", name, 0]).encode()), 0

    def edit():
        return text_of(["edit", name, number, ["set", [1, 1], "count", number]]).encode()

    def hear():
        """The messages of an answer, without pongs."""
        answer = []
        while not answer or answer[-1][0] not in shared.LAST:
            opcode, payload = client.frame()
            if opcode == 10:
                require(payload == b"there?", "a ping is answered", payload)
                continue
            answer.append(json.loads(payload))
        return answer

    for form in (framed, two_frames):
        for at in range(len(form(edit())) + 1):
            number += 1
            frames = form(edit())
            client.socket.sendall(ask + frames[:at])
            copy = hear()
            require(copy[0][0] == "copy" and len(copy[0][3]) == 2001, "a copy isn't sent, but", copy[0][:2])
            client.socket.sendall(frames[at:])
            require(hear() == [["idle"]], "an edit that began with byte", at, "isn't judged")
    for at in range(40):
        number += 2
        large = framed(text_of(["edit", name, number - 1, ["set", [1, 1], "text", "y" * 500_000]]).encode())
        frames = two_frames(edit())
        client.socket.sendall(large + frames[:at])
        require(hear() == [["idle"]], "a large edit isn't judged")
        client.socket.sendall(frames[at:])
        require(hear() == [["idle"]], "an edit behind a large one isn't judged, cut at", at)
    server.kill()
    require(f".count {number}\n" in shown(room), "the last edit isn't there")
    return f"{number} edits, none lost"


def disk(room):
    above = os.path.dirname(room)
    small = os.path.join(above, "small")
    os.mkdir(small)
    if subprocess.run(["mount", "-t", "tmpfs", "-o", "size=400k", "tmpfs", small], capture_output=True).returncode:
        return "not tried: no tmpfs can be mounted here"
    try:
        room = os.path.join(small, "room")
        server = Server(room, "--quiet", log=os.path.join(above, "log"))
        client = Client(server.port)
        name, number, kept = client.join(), 0, []
        answer = [["idle"]]
        while answer == [["idle"]] and number < 100000:
            number += 1
            answer = client.ask("edit", name, number, page(name, number))
            if answer == [["idle"]]:
                kept.append(f"{name}:{number}")
        # Where it was a checkpoint that failed, its edit was judged, and the next one is answered so.
        require(answer in ([["no", 5]], [["no", 6]]), "a full disk is answered", answer)
        require(client.ask("edit", name, number, page(name, number)) == [["no", 6]], "the next edit isn't answered No 6")
        require(server.process.wait(timeout=20) == 4, "the server ends with", server.process.returncode)
        server.log.close()
        with open(server.told) as log:
            require("the disk of" in log.read(), "the fault isn't told")
        copy = os.path.join(above, "copy")
        shutil.copytree(room, copy)
        tree = set(re.findall(r"\d+:\d+", shown(copy)))
        require(all(page in tree for page in kept), "an answered edit is lost")
        return f"{len(kept)} edits on a disk of 400 kB, then No {answer[0][1]}, No 6 and status 4; none lost"
    finally:
        subprocess.run(["umount", "-l", small], check=False)


SPARE = 65536  # what a segment needs beside the bytes of the one before it


def contents(folder):
    """The names in a folder, and what each file has."""
    found = {}
    for name in sorted(os.listdir(folder)):
        with open(os.path.join(folder, name), "rb") as file:
            found[name] = file.read()
    return found


def fill(disk, left):
    """Fills a disk but for so many bytes, with one file, whose size is answered."""
    filler = os.path.join(disk, "filler")
    time.sleep(0.2)  # a removed segment's bytes are given back a moment later
    with open(filler, "ab") as file:
        file.truncate(0)
        free = os.statvfs(disk).f_bavail * os.statvfs(disk).f_bsize
        file.write(bytes(free - left))
    return free - left


def refused_starts(room, times, status, pattern, **how):
    """Starts a server so often in vain: each ends with this status and this sentence, and leaves the folder as it was. The last match."""
    before = contents(room)
    for number in range(1, times + 1):
        done = subprocess.run([PROGRAM, "serve", room, "--port", "0"], capture_output=True, text=True, timeout=60, **how)
        found = re.fullmatch(pattern, done.stderr)
        require(contents(room) == before, "start", number, "leaves", sorted(contents(room)), "of", sorted(before))
        require(done.returncode == status and found, "start", number, "ends with", done.returncode, done.stderr)
    return found


def refusals(server):
    """How many checkpoints were made and refused, by its numbers and by its log."""
    time.sleep(0.3)
    text = server.get("/metrics")[2].decode()
    with open(server.told) as log:
        lines = log.read().splitlines()
    return tuple(int(re.search(rf"(?m)^lugcurrant_{name}_total (\d+)$", text)[1]) for name in ("checkpoints", "checkpoints_refused")), lines


def counting(client, name, numbers):
    """Has a client edit under these numbers, in entries of some 130 bytes."""
    for number in numbers:
        require(client.ask("edit", name, number, ["set", [0, 0], "count", f"{number}{'.' * 75}"]) == [["idle"]], "edit", number, "isn't answered")


def space(room):
    above = os.path.dirname(room)
    small = os.path.join(above, "small")
    os.mkdir(small)
    if subprocess.run(["mount", "-t", "tmpfs", "-o", "size=2m", "tmpfs", small], capture_output=True).returncode:
        return "not tried: no tmpfs can be mounted here"
    try:
        room = os.path.join(small, "room")
        lines = ["[[0,0],\"document\",null,[]]"]
        lines += [text_of([[1, n], "page", [[0, 0], f"{n:06d}O"], [["text", "x" * 3000]]]) for n in range(1, 201)]
        call("import", room, text=("\n".join(lines) + "\n").encode())
        server = Server(room, "--quiet", log=os.path.join(above, "first"))
        server.identity()
        server.kill()
        size = os.path.getsize(os.path.join(room, highest(room)))
        started = starts_without_room(small, room, size)
        # 256 entries are as long as this document, so that a checkpoint is made after each 256.
        os.truncate(os.path.join(small, "filler"), 0)
        room = os.path.join(small, "other")
        call("import", room, text=("\n".join(lines[:11]) + "\n").encode())
        served = runs_without_room(small, room, os.path.join(above, "log"))
        return f"a document of {size} bytes: {started}; {served}"
    finally:
        subprocess.run(["umount", "-l", small], check=False)


def starts_without_room(small, room, size):
    left = 100000
    filled = fill(small, left)
    sentence = f"the disk of {room} has no room to open the document: (\\d+) bytes are missing; free them, or move the folder\n"
    missing = int(refused_starts(room, STARTS, 9, sentence)[1])
    require(abs(missing - (size + SPARE - left)) <= 16384, missing, "bytes are missing of", size)
    os.truncate(os.path.join(small, "filler"), 0)
    # The new segment can't be written for another reason: there is room for a part of it alone.
    limit = {"preexec_fn": lambda: resource.setrlimit(resource.RLIMIT_FSIZE, (size // 2, size // 2)), "restore_signals": False}
    refused_starts(room, 3, 4, f"the folder {room} can't be read and written: .*\n", **limit)
    os.truncate(os.path.join(small, "filler"), filled - missing - 16384)
    os.posix_fallocate(os.open(os.path.join(small, "filler"), os.O_RDWR), 0, filled - missing - 16384)
    Server(room, "--quiet", log=os.path.join(os.path.dirname(small), "started")).kill()
    return f"{STARTS} starts on a full disk say that {missing} are missing"


def runs_without_room(small, room, log):
    # A server that was killed leaves its scratch file, and the next one removes it.
    with open(os.path.join(room, ".space"), "wb") as scratch:
        scratch.write(bytes(1000))
    server = Server(room, "--quiet", log=log)
    client = Client(server.port)
    name = client.join()
    require(not os.path.exists(os.path.join(room, ".space")), "the scratch file that was left is still there")
    line = f"no room for a checkpoint of {room}: (\\d+) bytes are missing; free them, edits go on meanwhile"
    fill(small, 140000)
    counting(client, name, range(1, 300))
    counts, told = refusals(server)
    require(counts == (0, 1) and len(told) == 1 and re.fullmatch(line, told[0]), counts, told)
    counting(client, name, range(300, 600))
    require(refusals(server) == ((0, 2), told), "after as many entries more:", refusals(server))
    require(not os.path.exists(os.path.join(room, ".space")), "a scratch file is left")
    os.truncate(os.path.join(small, "filler"), 0)
    counting(client, name, range(600, 900))
    require(refusals(server) == ((1, 2), told), "with room:", refusals(server))
    fill(small, 140000)
    counting(client, name, range(900, 1200))
    counts, told = refusals(server)
    require(counts == (1, 3) and len(told) == 2 and re.fullmatch(line, told[1]), counts, told)
    os.truncate(os.path.join(small, "filler"), 0)
    # No descriptor is left, while the client is connected.
    most = resource.prlimit(server.process.pid, resource.RLIMIT_NOFILE)
    counting(client, name, range(1200, 1500))
    require(refusals(server) == ((2, 3), told), "with room again:", refusals(server))
    resource.prlimit(server.process.pid, resource.RLIMIT_NOFILE, (3, most[1]))
    counting(client, name, range(1500, 1800))
    resource.prlimit(server.process.pid, resource.RLIMIT_NOFILE, most)
    counts, told = refusals(server)
    require(counts == (2, 5) and len(told) == 3, counts, told)
    require(told[2] == f"no open file is left for a checkpoint of {room}: raise the limit (ulimit -n), edits go on meanwhile", told)
    counting(client, name, range(1800, 2100))
    require(refusals(server) == ((3, 5), told), "with open files:", refusals(server))
    server.kill()
    require(f'.count "2099{"." * 75}"' in shown(room), "the last edit isn't there")
    return "2099 edits, 3 checkpoints, 3 without room and 2 without an open file"


def sentences(room):
    above = os.path.dirname(room)
    server = Server(room, "--quiet")

    def fault(status, sentence, *words):
        done = subprocess.run([PROGRAM, *words], capture_output=True, text=True, timeout=60)
        require(done.returncode == status and sentence in done.stderr, words, "end with", done.returncode, done.stderr)

    fault(7, "is in use", "serve", os.path.join(above, "other"), "--port", str(server.port))
    require(not os.path.exists(os.path.join(above, "other")), "a port in use touches the folder")
    fault(7, "another server has the folder", "serve", room, "--port", "0")
    with open(os.path.join(above, "file"), "w"):
        pass
    fault(4, "can't be read and written", "serve", os.path.join(above, "file"), "--port", "0")
    for most in range(4, 9):  # its port, the folder above, and four of the folder itself
        done = subprocess.run([PROGRAM, "serve", os.path.join(above, "few"), "--port", "0"], capture_output=True, text=True, timeout=60,
                              preexec_fn=lambda: resource.setrlimit(resource.RLIMIT_NOFILE, (most, most)))
        require(done.returncode == 4 and "no more files can be opened" in done.stderr, "with", most, "open files:", done.returncode, done.stderr)
    fault(2, "--clients", "serve", room, "--clients", "100001")
    fault(2, "--clients", "serve", room, "--clients", "0")
    fault(2, "--workers", "serve", room, "--workers", "32")
    fault(2, "--port", "serve", room, "--port", "70000")
    fault(2, "Usage", "serve")
    for origin in ("canvas.example", "https://canvas.example/", "https://Canvas.example", "https://canvas.example/page", "https:canvas.example",
                   "://canvas.example", "https://canvas example", "https://canvas.example,http://b.example", ""):
        fault(2, "--origin wants an origin", "serve", room, "--port", "0", "--origin", origin)
    for host in ("", "https://canvas.example", "Canvas.example", "canvas.example/a"):
        fault(2, "--host wants a host", "serve", room, "--port", "0", "--host", host)
    for site in (above, os.path.join(above, "nothing"), os.path.join(above, "file")):
        fault(2, "--page wants a folder", "serve", os.path.join(above, "other"), "--port", "0", "--page", site)
    require(not os.path.exists(os.path.join(above, "other")), "a missing page touches the folder")
    server.kill()
    with open(os.path.join(room, "identity"), "w") as name:
        name.write("nonsense\n")
    fault(5, "isn't 32 hex digits", "serve", room, "--port", "0")
    segment = [name for name in os.listdir(room) if name.startswith("segment")][0]
    with open(os.path.join(room, segment), "r+b") as damaged:
        damaged.seek(40)
        byte = damaged.read(1)
        damaged.seek(40)
        damaged.write(bytes([byte[0] ^ 1]))
    done = subprocess.run([PROGRAM, "--help"], capture_output=True, text=True)
    require(done.returncode == 0 and "serve" in done.stdout, "--help:", done.returncode, done.stdout)
    done = subprocess.run([PROGRAM, "--version"], capture_output=True, text=True)
    require(done.returncode == 0 and "lugcurrant" in done.stdout, "--version:", done.returncode, done.stdout)
    return "each fault has its sentence and its status"


def files_of(folder):
    return {name: open(os.path.join(folder, name), "rb").read() for name in sorted(os.listdir(folder))}


def drawn(room, edits):
    """The identity of a folder whose document a client has edited so often. Nobody serves it any more."""
    server = Server(room, "--quiet")
    draw(server, edits)
    known = server.identity()
    server.kill()
    return known


def rights(room):
    if os.geteuid() != 0:
        return "not tried: only root can start a server as nobody"
    above = os.path.dirname(room)
    program = shutil.copy(PROGRAM, above)

    def fault(sentence, *words):
        done = subprocess.run([program, *words], capture_output=True, text=True, timeout=60, user=65534, group=65534, extra_groups=[])
        require(done.returncode == 8 and sentence in done.stderr, words, "end with", done.returncode, done.stderr)

    os.chmod(above, 0o755)
    closed, below = os.path.join(above, "closed"), os.path.join(above, "closed", "room")
    os.makedirs(below, mode=0o777)
    os.chmod(below, 0o777)
    os.chmod(closed, 0o700)
    fault(f"the folder {closed} can't be read and written: look at its rights", "serve", closed, "--port", "0")
    fault(f"the folder {below} can't be reached: look at the rights of the folders above it", "serve", below, "--port", "0")
    require(not os.listdir(below), "a folder that can't be reached is written to")
    return "the folder's own, and those above it"


ROOT = b'[[0,0],"document",null,[]]\n'


def line_of(id, kind="page", parent=(0, 0), position=None, props=()):
    """The line of a row; its position is made of its id."""
    position = f"{id[0]:08d}{id[1]:06d}O" if position is None else position
    return text_of([id, kind, [parent, position], list(props)]).encode() + b"\n"


def chain(count):
    """The lines of a page, and of so many frames, each in the one before."""
    return line_of([1, 1]) + b"".join(line_of([1, number], "frame", (1, number - 1)) for number in range(2, count + 2))


def many_pages(count, size):
    """The lines of so many pages, each with a text of so many bytes."""
    return b"".join([ROOT, *(line_of([1, number], props=[["text", "x" * size]]) for number in range(1, count + 1))])


def wrong_rows():
    """Inputs that make no document, and what is told of each."""
    first, deep = line_of([1, 1]), '["list",' * 16 + '["list"]' + "]" * 16
    form, order, root = "no JSON array of an id, a kind, a place and properties", "its id isn't above", "the root [0,0] has to be"
    number, kind, parts = "its id isn't two whole numbers", "its kind isn't", "its place isn't [parent,position]"
    wrong = {b"": "the rows make no document", b"[]\n": "line 1: " + form, first: "line 1: " + root, ROOT + ROOT: "line 2: " + root}
    rows = {b"{}": form, b"\xff": form, b"1": form, b'[[1,1],"page",[[0,0],"O"]]': form, b'[[1,1],"page",[[0,0],"O"],[],[]]': form,
            b'[1,"page",[[0,0],"O"],[]]': number, b'[[1,4294967296],"page",[[0,0],"O"],[]]': number, b'[[1,-1],"page",[[0,0],"O"],[]]': number,
            b'[[1],"page",[[0,0],"O"],[]]': number, b'[[0,1],"page",[[0,0],"O"],[]]': number,
            b'[[1,1],"leaf",[[0,0],"O"],[]]': kind, b'[[1,1],7,[[0,0],"O"],[]]': kind,
            b'[[1,1],"page",[[0,0],""],[]]': parts, b'[[1,1],"page",[[0,0],"O "],[]]': parts, b'[[1,1],"page",null,[]]': parts,
            b'[[1,1],"page",[[0,0],"O"],[["b",1],["a",1]]]': parts, b'[[1,1],"page",[[0,0],"O"],[["",1]]]': parts,
            b'[[1,1],"page",[[0,0],"O"],[["a",null]]]': parts, b'[[1,1],"page",[[0,0],"O"],{}]': parts,
            b'[[1,1],"page",[[0,4294967296],"O"],[]]': "a number is out of its range",
            f'[[1,1],"page",[[0,0],"O"],[["a",{deep}]]]'.encode(): "a value has lists more than 16 deep",
            line_of([1000001, 1]): "the client of its id is above 1000000", line_of([16777216, 1]): "the client of its id is above 1000000",
            line_of([1, 1], parent=(3, 3)): "there is no row of its parent", line_of([1, 1], "shape"): "its kind may not stand under its parent's",
            line_of([1, 1], "document"): "its kind may not stand under its parent's"}
    wrong |= {ROOT + row: "line 2: " + sentence for row, sentence in rows.items()}
    wrong |= {b"[" + ROOT + b"]\n": "line 1: " + form, b'[[0,0],"page",null,[]]\n': "line 1: " + parts, b'[[0,0],"document",[[0,0],"O"],[]]\n': "line 1: " + parts,
              ROOT + first + first: "line 3: " + order, ROOT + line_of([2, 1]) + first: "line 3: " + order,
              ROOT + line_of([1, 1], position="O") + b"\n" + line_of([1, 2], position="O"): "line 2: another child of its parent has its position",
              ROOT + chain(100): "line 102: it stands more than 100 below the root",
              ROOT + first + line_of([1, 2], "frame", (1, 3)) + line_of([1, 3], "frame", (1, 2)): "line 3: its parents lead in a circle",
              ROOT + line_of([1, 2], "frame", (1, 3)) + line_of([1, 3], "frame", (9, 9)): "line 3: there is no row of its parent"}
    return wrong


def rows(room):
    above = os.path.dirname(room)
    drawn(room, 300)
    array, lines = call("show", room, "--json"), call("show", room, "--lines")
    objects = json.loads(array)
    require(len(objects) == 101 and [json.loads(line) for line in lines.splitlines()] == objects, "the rows are", array[:200])
    for number, text in enumerate((array, lines, b"\n" + lines.rstrip(b"\n"))):
        new = os.path.join(above, f"new{number}")
        require(call("import", new, text=text) == b"version 1, objects 101\n", "an import isn't told")
        require(os.listdir(new) == ["segment-0000000001"], "an import makes", os.listdir(new))
        require(call("show", new, "--json") == array and call("show", new, "--lines") == lines, "another document is imported")
        require(call("show", new).split(b"\n", 1)[1] == call("show", room).split(b"\n", 1)[1], "another tree is imported")
        call("import", new, text=text, status=4, told="holds a document, or what is left of one: name a new folder")
    server = Server(os.path.join(above, "new0"), "--quiet")
    client = Client(server.port)
    name = client.join()
    require(client.ask("ask", name, 0)[0][0] == "copy", "a client of an imported document gets no copy")
    require(client.ask("edit", name, 1, page(name, 1)) == [["idle"]], "an imported document isn't edited")
    call("import", os.path.join(above, "new0"), text=array, status=7, told="a server has the folder")
    server.kill()
    left = os.path.join(above, "left")
    os.mkdir(left)
    with open(os.path.join(left, "identity"), "w") as known:
        known.write("0" * 32 + "\n")
    call("import", left, text=array, status=4, told="holds a document, or what is left of one")
    require(os.listdir(left) == ["identity"], "an import writes beside an identity")
    wrong = wrong_rows()
    for text, sentence in wrong.items():
        call("import", os.path.join(above, "wrong"), text=text, status=2, told=sentence)
        require(not os.path.exists(os.path.join(above, "wrong")), text[:200], "makes a folder")
    late = os.path.join(above, "late")
    call("import", late, text=ROOT + line_of([1000000, 1]))
    require(os.path.getsize(os.path.join(late, "segment-0000000001")) < 7_000_000, "the counts of a million clients are large")
    require(call("show", late, "--lines") == ROOT + line_of([1000000, 1]), "the object of a late client is another")
    many = b"".join([ROOT, *(line_of([1, number]) for number in range(1, 1001)), line_of([1002001, 1])])
    call("import", os.path.join(above, "many"), text=many, status=2, told="line 1002: the client of its id is above 1002000,")
    many = b"".join([ROOT, *(line_of([1, number]) for number in range(1, 1100)), line_of([1101000, 1])])
    require(call("import", os.path.join(above, "many"), text=many) == b"version 1, objects 1101\n", "more rows bear no later client")
    with open("/dev/full", "wb") as full:
        done = subprocess.run([PROGRAM, "show", room, "--json"], stdout=full, stderr=subprocess.PIPE)
    require(done.returncode == 4 and b"the output written" in done.stderr, "a full disk for the rows:", done)
    call("show", room, "--json", "--lines", status=2, told="cannot be used with")
    call("show", os.path.join(above, "none"), "--json", status=4, told="can't be read")
    return f"101 objects there and back in three layouts, {len(wrong)} wrong inputs"


def restored(room):
    above = os.path.dirname(room)
    known = drawn(room, 290)
    backup, new = os.path.join(above, "backup"), os.path.join(above, "new")
    shutil.copytree(room, backup)
    before = files_of(backup)
    version = int(call("show", backup).split()[1])
    require(call("restore", backup, new) == f"version {version}, objects 98\n".encode(), "a restore isn't told")
    require(os.listdir(new) == ["segment-0000000001"], "a restore makes", os.listdir(new))
    require(call("show", new) == call("show", backup) and files_of(backup) == before, "another document is restored, or the backup is written")
    server = Server(new, "--quiet")
    fresh = server.identity()
    require(fresh != known, "a restored folder has the identity of its backup")
    require(Client(server.port, f"/document/{known}").status == 404, "a client of the old document goes on over the restored one")
    require(Client(server.port, f"/document/{fresh}").status == 101, "the new identity isn't served")
    server.kill()
    call("restore", backup, new, status=4, told=f"the folder {new} holds a document")
    call("restore", backup, backup, status=4, told=f"the folder {backup} holds a document")
    require(files_of(backup) == before, "a restore writes to its backup")
    call("restore", os.path.join(above, "none"), os.path.join(above, "other"), status=4, told="none can't be read")
    os.mkdir(os.path.join(above, "empty"))
    call("restore", os.path.join(above, "empty"), os.path.join(above, "other"), status=4, told="empty holds no document")
    cut = os.path.join(above, "cut")
    shutil.copytree(backup, cut)
    os.truncate(os.path.join(cut, highest(cut)), os.path.getsize(os.path.join(cut, highest(cut))) - 30)
    call("restore", cut, os.path.join(above, "other"), status=5, told=f"the folder {cut} has lost something, lugcurrant check tells what")
    require(not os.path.exists(os.path.join(above, "other")), "a backup that has lost something is restored unasked")
    require(call("restore", "--accept-loss", cut, os.path.join(above, "left")).startswith(b"version "), "an accepted loss isn't restored")
    hurt(backup, 4)
    call("restore", backup, os.path.join(above, "other"), status=5, told=f"the document in {backup} is damaged in segment ")
    require(not os.path.exists(os.path.join(above, "other")), "a restore that fails makes a folder")
    return "the same document and version, another identity, and the backup as it was"


def highest(folder):
    """The name of the highest segment."""
    return max(name for name in os.listdir(folder) if re.fullmatch(r"segment-\d{10}", name))


def segment_name(number):
    return f"segment-{number:010}"


def hurt(folder, at, bit=1):
    """Turns a bit of the byte at this offset of the highest segment."""
    with open(os.path.join(folder, highest(folder)), "r+b") as damaged:
        damaged.seek(at)
        byte = damaged.read(1)
        damaged.seek(at)
        damaged.write(bytes([byte[0] ^ bit]))


def copied(room, name):
    """A copy of the folder beside it."""
    other = os.path.join(os.path.dirname(room), name)
    shutil.rmtree(other, ignore_errors=True)
    return shutil.copytree(room, other)


def opens(folder, *options):
    """What a folder shows, once its server has opened it and was killed."""
    server = Server(folder, *options)
    require(server.get("/health")[0] == 200, "the server of", folder, "doesn't serve")
    server.kill()
    return shown(folder)


def lost(room):
    drawn(room, 60)
    segment, whole = highest(room), shown(room)
    with open(os.path.join(room, segment), "rb") as held:
        content = held.read()
    number, told = int(segment[8:]), "would lose something: segment"
    serve = ("--port", "0", "--quiet")
    for at in range(len(content)):
        other = copied(room, "other")
        hurt(other, at, 1 << at % 8)
        before = files_of(other)
        call("serve", other, *serve, status=5, told=f"segment {number} ")
        require(files_of(other) == before, "a damaged folder is written to")
    cut = copied(room, "cut")
    os.truncate(os.path.join(cut, segment), len(content) - 30)
    call("serve", cut, *serve, status=5, told=f"{told} {number} had {len(content)} bytes when it was synced, and has fewer")
    above = copied(room, "above")
    with open(os.path.join(above, f"segment-{number + 1:010}"), "wb") as other:
        other.write(b"\0\0\1\x17[\"checkpoint\"")
    call("serve", above, *serve, status=5, told=f"{told} {number + 1} is no checkpoint that a crash cut short, at offset ")
    bare = copied(room, "bare")
    os.remove(os.path.join(bare, segment + ".sum"))
    hurt(bare, 0, 64)
    call("serve", bare, *serve, status=5, told=told)
    require(opens(bare, "--accept-loss") == "version 0\n0:0 document\n", "what is recovered of a bad first length is", shown(bare))
    with open(os.path.join(bare, "lost", segment), "rb") as kept:
        require(kept.read() == bytes([content[0] ^ 64]) + content[1:], "the lost segment isn't kept as it was")
    hurt(bare, 0, 64)
    os.makedirs(os.path.join(bare, "lost"), exist_ok=True)
    with open(os.path.join(bare, "lost", highest(bare)), "wb"):
        pass
    call("serve", bare, *serve, "--accept-loss", status=4, told="can't be copied to")
    cut_short, kept_whole = killed_losses(room, segment)
    require(opens(copied(room, "other")) == whole, "a folder that has lost nothing isn't opened")
    torn = copied(room, "torn")
    with open(os.path.join(torn, segment), "ab") as other:
        other.write(b"\0\0\1\0[1,7,[\"set\"")
    require(opens(torn) == whole, "a torn rest isn't what a crash leaves")
    os.truncate(os.path.join(torn, highest(torn)), 80)
    os.remove(os.path.join(torn, highest(torn) + ".sum"))
    shutil.copy(os.path.join(room, segment), torn)
    require(opens(torn) == whole, "a checkpoint that is cut short isn't what a crash leaves")
    require(not os.path.exists(os.path.join(torn, "lost")), "what a crash leaves is copied")
    return (f"{len(content)} turned bits told, cuts, foreign segments, an accepted loss; what a crash leaves is opened; "
            f"of 40 kills {cut_short} left no copies, {kept_whole} all")


def torn(room):
    drawn(room, 60)
    whole, segment = opens(room), highest(room)
    number, checkpoint = int(segment[8:]), Path(room, highest(room)).read_bytes()
    parts = {segment_name(number + 1): checkpoint[:-1], segment_name(number + 2): checkpoint[:80], segment_name(number + 2) + ".sum": b"",
             segment_name(number + 3): b"", segment_name(number) + ".torn": checkpoint}
    others = {"lost": (segment, bytes([checkpoint[0] ^ 1]) + checkpoint[1:]), "unnamed": ("identity", b"no identity\n")}
    for name, (file, held) in others.items():
        other = copied(room, name)
        put(other, {**parts, file: held})
        before = files_of(other)
        call("serve", other, "--port", "0", "--quiet", status=5)
        require(files_of(other) == before, "a folder that isn't opened is written to")
    left = copied(room, "left")
    put(left, parts)
    names = sorted(name.replace(segment, segment_name(number + 1)) for name in os.listdir(room))
    require(opens(left) == whole and sorted(os.listdir(left)) == names, "of torn segments are left:", sorted(os.listdir(left)))
    first = os.path.join(os.path.dirname(room), "first")
    os.mkdir(first)
    put(first, {segment_name(1): b"", segment_name(2): checkpoint[:3]})
    require(opens(first) == "version 0\n0:0 document\n" and highest(first) == segment_name(1), "a first start leaves", os.listdir(first))
    for _ in range(20):
        other = copied(room, "left")
        put(other, parts)
        killed(("serve", other, "--port", "0", "--quiet"), b"", random.uniform(0, 0.1))
        require(opens(other) == whole, "what a killed start left isn't opened as it was")
        require(not any(name.endswith(".torn") for name in os.listdir(other)), "a renamed segment is left", os.listdir(other))
    return f"removed at a start, 20 kills; {torn_without_room(os.path.dirname(room))}"


def put(folder, files):
    for name, held in files.items():
        Path(folder, name).write_bytes(held)


def torn_without_room(above):
    """A document of 600 kB on a disk that has room for its next segment only if a torn one is removed."""
    small = os.path.join(above, "small")
    os.mkdir(small)
    if subprocess.run(["mount", "-t", "tmpfs", "-o", "size=2m", "tmpfs", small], capture_output=True).returncode:
        return "no tmpfs can be mounted here"
    try:
        room = os.path.join(small, "room")
        lines = ["[[0,0],\"document\",null,[]]"]
        lines += [text_of([[1, n], "page", [[0, 0], f"{n:06d}O"], [["text", "x" * 3000]]]) for n in range(1, 201)]
        call("import", room, text=("\n".join(lines) + "\n").encode())
        whole, checkpoint = opens(room), Path(room, highest(room)).read_bytes()
        put(room, {segment_name(int(highest(room)[8:]) + 1): checkpoint[:-1]})
        fill(small, len(checkpoint) // 2)
        require(opens(room) == whole, "what is opened beside a torn segment is another")
        return "one without whose room there is none for the next"
    finally:
        subprocess.run(["umount", "-l", small], check=False)


def killed_losses(room, segment):
    """Kills servers that are to accept a loss, at random moments: the next start goes on. How many of 40 left no copies, and all."""
    found, folder = [0, 0], copied(room, "large")
    os.remove(os.path.join(folder, segment + ".sum"))
    for number in range(int(segment[8:]) + 1, int(segment[8:]) + 9):
        with open(os.path.join(folder, segment_name(number)), "wb") as other:
            other.write(b"\x7f\xff\xff\xff" + os.urandom(1) * 4_000_000)
    before = {name: held for name, held in files_of(folder).items() if name.startswith("segment-")}
    begun = time.perf_counter()
    require(opens(copied(folder, "turn"), "--quiet", "--accept-loss").startswith("version "), "a loss isn't accepted")
    seconds = time.perf_counter() - begun
    for _ in range(40):
        other = copied(folder, "turn")
        killed(("serve", other, "--port", "0", "--quiet", "--accept-loss"), b"", random.uniform(0.0, 1) * seconds)
        found[os.path.isdir(os.path.join(other, "lost"))] += 1
        require(opens(other, "--quiet", "--accept-loss").startswith("version "), "what a killed one left isn't opened")
        copies = files_of(os.path.join(other, "lost"))
        require(before.items() <= copies.items(), "the copies are others", list(copies))
        require(not os.path.exists(os.path.join(other, ".lost.new")), "a hidden folder is left")
    return found


LEFT = "no segment of the document is left, but its identity is"


def refuses(folder, left, *others):
    """A folder isn't opened, as this is left of its document; what the other commands say has status 5 too. Nothing is written."""
    before = files_of(folder)
    call("serve", folder, "--port", "0", "--quiet", status=5, told=f"opening {folder} would lose something: {left}")
    for command in others:
        call(*command, status=5, told=f"no segment of the document in {folder} is left, but its identity or sums are")
    require(files_of(folder) == before, "a folder whose document has gone is written to")


def gone(room):
    drawn(room, 60)
    segment, above = highest(room), os.path.dirname(room)
    known = Path(room, "identity").read_text()
    new = os.path.join(above, "new")
    removed = copied(room, "removed")
    os.remove(os.path.join(removed, segment))
    refuses(removed, LEFT, ("check", removed), ("show", removed), ("log", removed), ("restore", removed, new))
    empty = copied(room, "empty")
    os.truncate(os.path.join(empty, segment), 0)
    os.remove(os.path.join(empty, segment + ".sum"))
    refuses(empty, LEFT, ("check", empty), ("restore", empty, new))
    require(not os.path.exists(new), "a document that has gone is restored")
    summed = copied(room, "summed")
    for name in (segment, "identity"):
        os.remove(os.path.join(summed, name))
    refuses(summed, f"no segment of the document is left, but sums of segment {int(segment[8:])} are", ("check", summed), ("restore", summed, new))
    require(opens(removed, "--accept-loss") == "version 0\n0:0 document\n", "what is opened of a document that has gone is", shown(removed))
    require(Path(removed, "identity").read_text() != known, "another document has the identity of the one that has gone")
    for name, files in (("nothing", ()), ("torn", (segment_name(1),)), ("summing", (segment_name(1), segment_name(1) + ".sum"))):
        first = os.path.join(above, name)
        os.mkdir(first)
        for file in files:
            Path(first, file).touch()
        require(opens(first) == "version 0\n0:0 document\n", "a first start that a crash cut short isn't gone on with")
    return "told with status 5 and left alone; what a crash of a first start leaves is opened"


def killed(words, text, pause):
    """Starts the program, and kills it after so many seconds."""
    started = subprocess.Popen([PROGRAM, *words], stdin=subprocess.PIPE, stdout=subprocess.DEVNULL, stderr=subprocess.DEVNULL)
    feeder = threading.Thread(target=lambda: feed(started, text))
    feeder.start()
    time.sleep(pause)
    started.kill()
    feeder.join()
    started.wait()


def feed(started, text):
    try:
        started.communicate(text)
    except (BrokenPipeError, ValueError):
        pass


def whole(room):
    above = os.path.dirname(room)
    lines = ["[[0,0],\"document\",null,[]]"] + [text_of([[1, n], "page", [[0, 0], f"{n:06d}O"], [["text", "x" * 200]]]) for n in range(1, 30001)]
    text = ("\n".join(lines) + "\n").encode()
    source = os.path.join(above, "source")
    begun = time.perf_counter()
    made = call("import", source, text=text)
    seconds, found = time.perf_counter() - begun, [0, 0]
    for turn in range(40):
        folder = os.path.join(above, f"turn {turn}")
        words = ("import", folder) if turn % 2 else ("restore", source, folder)
        killed(words, text if turn % 2 else b"", random.uniform(0.3, 1.1) * seconds)
        segments = [name for name in os.listdir(folder) if name.startswith("segment-")] if os.path.isdir(folder) else []
        require(segments in ([], ["segment-0000000001"]), "a killed one leaves", segments)
        found[bool(segments)] += 1
        if not segments:
            require(call(*words, text=text if turn % 2 else b"") == made, "the next one doesn't make the folder")
            require(os.listdir(folder) == ["segment-0000000001"], "left in the folder is", os.listdir(folder))
        require(call("check", folder).endswith(b"no loss: a crash may have left it so\n") and shown(folder) == shown(source), "a killed one leaves another document")
        shutil.rmtree(folder)
    drawn(room, 60)
    for name in (highest(room), "identity"):
        os.remove(os.path.join(room, name))
    call("restore", source, room, status=4, told=f"the folder {room} holds a document, or what is left of one")
    return f"40 kills: {found[0]} left nothing that is opened, {found[1]} the whole document"


def goes_on(server, mine, other):
    """Edits past a checkpoint go into the server's own folder `mine`, and leave the other one alone."""
    before, client = files_of(other), Client(server.port)
    name = client.join()
    for number in range(1, 601):
        require(client.ask("edit", name, number, page(name, number)) == [["idle"]], "an edit isn't answered once its folder was moved")
    require("lugcurrant_checkpoints_total 0\n" not in server.get("/metrics")[2].decode(), "no checkpoint was made")
    server.kill()
    require(files_of(other) == before, "a server writes into another folder, or removes from it")
    require(f"{name}:600 page" in shown(mine), "the edits aren't in the folder that was served")
    require(call("check", mine).endswith(b"no loss: a crash may have left it so\n"), "the folder that was moved has lost something")


def serving(folder):
    """A server that has opened its folder: it listens before."""
    server = Server(folder, "--quiet")
    require(server.get("/health")[0] == 200, "a server isn't healthy")
    return server


def moved(room):
    above = os.path.dirname(room)
    drawn(room, 60)
    old, link = os.path.join(above, "old"), os.path.join(above, "link")
    first = copied(room, "first")
    second = copied(room, "second")
    server = serving(room)
    os.rename(room, old)
    shutil.copytree(first, room)
    goes_on(server, old, room)
    os.symlink(first, link)
    server = serving(link)
    os.remove(link)
    os.symlink(second, link)
    goes_on(server, first, second)
    return "600 edits and their checkpoint after a rename, and after a link was turned, all in the folder that was served"


def checked(room):
    above = os.path.dirname(room)
    drawn(room, 290)
    before = files_of(room)
    segment, content = highest(room), before[highest(room)]
    number, version = int(segment[8:]), int(call("show", room).split()[1])
    texts, at = [], 0
    while at < len(content):
        size = int.from_bytes(content[at:at + 4], "big")
        texts.append((at, json.loads(content[at + 4:at + 4 + size])))
        at += 4 + size
    past = [text for _, text in texts[1 + texts[0][1][4]:]]
    require(0 < len(past) < version, "the entries past the checkpoint are", len(past))
    taken = f"recovery takes segment {number}: version {version}, entries past its checkpoint {len(past)}\n"
    segments = f"segment {number}: bytes {len(content)}, whole records {len(texts)}, torn rest 0\n"
    kept = "no loss: a crash may have left it so\n"
    require(call("check", room).decode() == segments + taken + kept, "a folder is checked:", call("check", room))
    wanted = [["entry", version - len(past) + at + 1, entry] for at, entry in enumerate(past)]
    require([json.loads(line) for line in call("log", room).splitlines()] == wanted, "the log is", call("log", room)[:200])
    require(files_of(room) == before, "check or log writes to the folder")
    with open(os.path.join(room, segment), "ab") as torn:
        torn.write(b"\0\0\0")
    with open(os.path.join(room, f"segment-{number + 1:010}"), "wb") as cut:
        cut.write(content[:3])
    segments = f"segment {number + 1}: bytes 3, whole records 0, torn rest 3\n" + segments.replace("rest 0", "rest 3").replace(
        f"bytes {len(content)}", f"bytes {len(content) + 3}")
    require(call("check", room).decode() == segments + taken + kept, "a torn folder is checked:", call("check", room))
    with open(os.path.join(room, f"segment-{number + 1:010}"), "wb") as other:
        other.write(b"\0\0\1" + content[3:50])
    told = call("check", room, status=5, told=f"in segment {number + 1} at offset 2: ").decode()
    require(told.endswith(f"loss: segment {number + 1} is no checkpoint that was cut short: it differs at offset 2\n"), "a loss is told:", told)
    with open(os.path.join(room, f"segment-{number + 1:010}"), "wb") as cut:
        cut.write(content[:3])
    require([json.loads(line) for line in call("log", room).splitlines()] == wanted, "the log of a torn folder is another")
    for offset, _ in texts[1:]:
        other = os.path.join(above, "other")
        shutil.copytree(room, other)
        os.remove(os.path.join(other, f"segment-{number + 1:010}"))
        hurt(other, offset + 4)
        held = files_of(other)
        text = call("check", other, status=5, told=f"the document in {other} is damaged in segment {number} at offset {offset}: ")
        require(text.decode() == segments.split("\n", 1)[1], "a damaged folder is checked:", text)
        call("log", other, status=5, told=f"in segment {number} at offset {offset}: ")
        require(files_of(other) == held, "check writes to a damaged folder")
        shutil.rmtree(other)
    empty = os.path.join(above, "empty")
    os.mkdir(empty)
    call("check", empty, status=4, told=f"the folder {empty} holds no document")
    call("log", empty, status=4, told=f"the folder {empty} holds no document")
    call("check", os.path.join(above, "none"), status=4, told="can't be read")
    return f"{len(past)} entries past a checkpoint, a torn rest, a cut segment, and {len(texts) - 1} damaged records"


def edits_at(port, count):
    """So many clients edit at once, each with one edit under way, until the process is ended."""
    poll, peers = select.epoll(), {}
    for _ in range(count):
        client = Client(port)
        name = client.join()
        peers[client.socket.fileno()] = [client.socket, name, 0]
        poll.register(client.socket, select.EPOLLIN)

    def edit(peer):
        peer[2] += 1
        text = b'["edit",%d,%d,["set",[0,0],"count",%d]]' % (peer[1], peer[2], peer[2])
        peer[0].sendall(bytes([130, 128 | len(text)]) + bytes(4) + text)

    for peer in peers.values():
        edit(peer)
    while True:
        for number, _ in poll.poll(5):
            answer = peers[number][0].recv(100)
            require(answer == b'\x82\x08["idle"]', "an edit is answered", answer)
            edit(peers[number])


def served(room):
    call("import", room, text=many_pages(255, 100))
    server = Server(room, "--quiet")
    crowds = [multiprocessing.get_context("fork").Process(target=edits_at, args=(server.port, 31), daemon=True) for _ in range(2)]
    for crowd in crowds:
        crowd.start()

    def counts():
        text = server.get("/metrics")[2].decode()
        return [int(re.search(rf"lugcurrant_{name}_total (\d+)", text)[1]) for name in ("edits", "checkpoints")]

    time.sleep(1)
    wrong, busy, begun, before = [], 0, time.perf_counter(), counts()
    for _ in range(CHECKS):
        done = subprocess.run([PROGRAM, "check", room], capture_output=True, timeout=60)
        busy += b"changes while it is checked" in done.stderr
        if done.returncode != 0 and b"changes while it is checked" not in done.stderr:
            wrong.append((done.returncode, done.stderr))
    seconds = time.perf_counter() - begun
    edits, checkpoints = ((after - known) / seconds for after, known in zip(counts(), before))
    require(all(crowd.is_alive() for crowd in crowds), "clients have stopped")
    for crowd in crowds:
        crowd.kill()
    server.kill()
    require(not wrong, len(wrong), "checks of", CHECKS, "report", wrong[:1])
    require(edits > 0 and checkpoints > 0, "there were", edits, "edits and", checkpoints, "checkpoints a second")
    record("checks of a served folder", checks=CHECKS, edits=round(edits), checkpoints=round(checkpoints, 1))
    return f"{CHECKS} checks, none wrong, {busy} too busy, at {edits:.0f} edits and {checkpoints:.1f} checkpoints a second"


def memory(room):
    drawn(room, 10)
    above, plain = os.path.dirname(room), call("check", room)
    library, count = os.path.join(above, "refuse.so"), os.path.join(above, "count")
    source = Path(__file__).resolve().parents[1] / "malloc" / "refuse.c"
    if not shutil.which("cc"):
        return "there is no cc"
    subprocess.run(["cc", "-shared", "-fPIC", "-O", "-o", library, source, "-ldl"], check=True)
    at, asked = 0, 0
    while at <= asked:
        at += 1
        Path(count).unlink(missing_ok=True)
        done = subprocess.run([PROGRAM, "check", room], capture_output=True, env={"LD_PRELOAD": library, "REFUSE_AT": str(at), "REFUSE_FILE": count})
        asked = int.from_bytes(Path(count).read_bytes()[:8], "little")
        wrote = done.returncode == 4 and b"or the output written" in done.stderr
        require(wrote or done.returncode == 3 or done.returncode == 0 and done.stdout == plain, "where call", at, "for memory is refused, check ends with", done.returncode, done.stderr)
    return f"{at - 1} calls refused in turn"


def edited(port, lines, out=subprocess.PIPE):
    """Status, output and faults of `lugcurrant edit` that plays these lines."""
    done = subprocess.run([PROGRAM, "edit", "--port", str(port)], input=lines, stdout=out, stderr=subprocess.PIPE, text=True, timeout=60)
    return done.returncode, done.stdout, done.stderr


def edits(room):
    server, failed = Server(room, "--message-bytes", "1024"), "device or socket failed\n"

    def same(found, wanted):
        require(found == wanted, repr(found), "and not", repr(wanted))

    lines = "# ten edits\ncreate page 0:0 -\ncreate page 1:1 -\n" + "".join(f"set 1:1 n{at} {at}\n" for at in range(9))
    answers = "edit 1\nrefused BadParent\n" + "".join(f"edit {at}\n" for at in range(2, 11))
    tree = "0:0 document\n  1:1 page O\n" + "".join(f"    .n{at} {at}\n" for at in range(9))
    block = "".join(f"  {line}\n" for line in tree.splitlines())
    same(edited(server.port, lines), (0, f"{answers}version 11 waiting 0\nme id 1 version 11 waiting 0\n{block}", ""))
    same(shown(room), "version 11\n" + tree)
    # What is typed is answered line by line.
    with subprocess.Popen([PROGRAM, "edit", "--port", str(server.port)], stdin=subprocess.PIPE, stdout=subprocess.PIPE, bufsize=0) as typed:
        for line, answer in ((b"exchange", b"version 12 waiting 0"), (b"set 1:1 n0 7", b"edit 1"), (b"exchange", b"version 13 waiting 0")):
            typed.stdin.write(line + b"\n")
            same(typed.stdout.readline(), answer + b"\n")
        typed.stdin.close()
        require(b".n0 7\n" in typed.stdout.read() and typed.wait(60) == 0, "an input that ends isn't played to its end")
    same(edited(server.port, "create page 0:0 -\nexchange\nset 3:1 name x\nshow\n"), (2, "edit 1\nversion 15 waiting 0\n", "line 3: cannot read\n"))
    # The server answers `no 8` to an edit that is too large.
    long = "x" * 2000
    same(edited(server.port, f'create page 0:0 -\nset 4:1 name "{long}"\n'), (4, "edit 1\nedit 2\n", failed))
    require("3:1 page" in shown(room) and long not in shown(room), "what a client made before a fault isn't there, or an edit that is too large is")
    with open("/dev/full", "w") as full:
        same(edited(server.port, "show\n", full), (4, None, failed))
    with subprocess.Popen([PROGRAM, "edit", "--port", str(server.port)], stdin=subprocess.PIPE, stdout=subprocess.PIPE, stderr=subprocess.PIPE, bufsize=0) as typed:
        typed.stdin.write(b"create page 0:0 -\n")
        same(typed.stdout.readline(), b"edit 1\n")
        server.kill()
        typed.stdin.close()
        same((typed.stdout.read(), typed.stderr.read().decode(), typed.wait(60)), (b"", failed, 4))
    same(edited(server.port, "show\n"), (4, "", failed))
    with socket.create_server(("127.0.0.1", 0)) as stranger:
        thread = threading.Thread(target=lambda: stranger.accept()[0].close())
        thread.start()
        same(edited(stranger.getsockname()[1], "show\n"), (4, "", failed))
        thread.join()
    for words in (["--port", "0"], ["--port", "65536"], ["--port", "x"], ["7411"]):
        require(call("edit", *words, status=2, told="error: ") == b"", "words for nothing write something")
    return "11 lines, one of them refused, are what `show` has; 3 typed ones; a bad line, a No, no output, 3 servers that aren't there, 4 bad words"


def coming(room):
    server = Server(room, "--clients", "8", "--quiet")
    stop, refused, served = threading.Event(), [0], [0]

    def come():
        name = number = 0
        while not stop.is_set():
            client = Client(server.port)
            if client.status == 503:
                refused[0] += 1
                client.drop()
                continue
            require(client.status == 101, client.head)
            name = name or client.join()
            for _ in range(random.randint(1, 5)):
                number += 1
                require(client.ask("edit", name, number, ["delete", [name, 9]]) == [["idle"]], "an edit isn't judged")
            served[0] += 1
            random.choice([client.leave, client.drop])()

    threads = [threading.Thread(target=come) for _ in range(6)]
    for thread in threads:
        thread.start()
    time.sleep(SECONDS / 3)
    before = server.memory()
    time.sleep(SECONDS * 2 / 3)
    after = server.memory()
    stop.set()
    for thread in threads:
        thread.join()
    server.kill()
    require(refused[0] == 0, refused[0], "of", served[0], "were refused while seats were free")
    require(after < before + 2000, "memory rises from", before, "to", after, "kB")
    return f"{served[0]} clients in {SECONDS:.0f} s, none refused, memory {before} kB after a third, {after} kB at the end"


GROUPS = (reuse, full, quiet, strangers, ended, unread, stopped, pages, origins, hosts, handshakes, identity, kills, figures, sizes, copies, pace, pieces, large, disk, space, sentences, rights, rows, restored, whole, lost, torn, gone, moved, checked, served,
          memory, *operators.GROUPS, edits, coming)

sys.exit(try_groups(GROUPS, NAMES))
