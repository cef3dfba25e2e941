#!/usr/bin/env python3
"""run.py CANVASD [GROUP..]: tries the program `canvasd` from outside, row by row; only the named groups, where some are named. The full check
ends with all of them.

- sessions: a client plays lines over a server of its own: what it writes, tells and ends with, what the server says, and what the folder shows.
- trial: a server and two clients in one process, and once more on the same folder.
- strangers: two peers that don't keep to the protocol, while a client makes a page: what each is answered, and that the server goes on.
- shows: folders of one segment, whole, cut and damaged: what is written and told of each, and that it stays as it was.
- words: lines that ask for something, and lines that ask for nothing.
- faults: each fault that can be had, with its sentence and its status.

Prints a line for each group, with how many rows it has or which of them went wrong, and exits with 1 where one did. Needs no package."""

import contextlib
import os
import resource
import socket
import subprocess
import sys
import time
from pathlib import Path

sys.path.insert(0, str(Path(__file__).resolve().parents[1]))

from shared import Wrong, end_all, free_port, require, spawn, try_groups  # noqa: E402

PROGRAM = os.path.abspath(sys.argv[1]) if len(sys.argv) > 1 else ""
PATIENCE = 20  # for how many seconds anything is waited for
USAGE = "usage: canvasd serve DIR PORT N | edit PORT | show DIR | trial DIR\n"
FAILED = "device or socket failed\n"


def each_row(room, table, try_row):
    """Tries each row, whose name stands first, in a folder of its own. How many there are; names those that went wrong."""
    wrong = []
    for number, (name, *row) in enumerate(table):
        folder = os.path.join(room, str(number))
        os.makedirs(folder)
        try:
            try_row(folder, *row)
        except Exception as error:  # every row is tried
            wrong.append(f"\n  {name}: {type(error).__name__}: {error}")
        finally:
            end_all()
    require(not wrong, len(wrong), "of", len(table), "rows:", *wrong)
    return f"{len(table)} rows"


def same(found, wanted):
    require(found == wanted, repr(found), "and not", repr(wanted))


def ended(folder, *words, text="", out=subprocess.PIPE, err=subprocess.PIPE, before=None):
    """Status, output and faults of the program that is called with these words in this folder."""
    done = subprocess.run([PROGRAM, *words], cwd=folder, input=text, stdout=out, stderr=err, preexec_fn=before, text=True, timeout=PATIENCE)
    return done.returncode, done.stdout, done.stderr


class Server:
    """A server of the document `a` in this folder for so many connections, once it serves."""

    def __init__(self, folder, connections, port=None):
        self.port, self.connections, self.told = port or free_port(), connections, Path(folder, "told")
        with open(self.told, "wb") as log:
            self.process = spawn([PROGRAM, "serve", "a", str(self.port), str(connections)], log, folder)
        deadline = time.monotonic() + PATIENCE
        while "\n" not in self.told.read_text():
            require(self.process.poll() is None, "the server ended at once with", self.process.returncode)
            require(time.monotonic() < deadline, "the server doesn't begin to serve")
            time.sleep(0.002)
        require(self.told.read_text().startswith("serving "), "the server doesn't serve:", self.told.read_text())

    def has_served(self, version):
        """That it ends well at this version, having begun with an empty document, and tells nothing else."""
        status = self.process.wait(PATIENCE)
        lines = f"serving {self.port} version 0\nserved {self.connections} version {version}\n"
        same((status, self.told.read_text()), (0, lines))


PAGE = "version 2\n0:0 document\n  1:1 page O\n"
OWN_PAGE = "me id 1 version 2 waiting 0\n  0:0 document\n    1:1 page O\n"
# What a client plays, how it ends, what it writes and tells, and the server's version then.
SESSIONS = (
    ("a page, and an edit that is refused", "# one page\ncreate page 0:0 -\ncreate page 1:1 -\nshow\n",
     (0, "edit 1\nrefused BadParent\nme id 1 version 0 waiting 1\n  0:0 document\n    1:1 page O\nversion 2 waiting 0\n" + OWN_PAGE, ""), 2),
    ("a bad line", "create page 0:0 -\nexchange\n\nset 1:1 n x\nshow\n", (2, "edit 1\nversion 2 waiting 0\n", "line 4: cannot read\n"), 2),
)


def session(folder, lines, wanted, version):
    server = Server(folder, 1)
    same(ended(folder, "edit", str(server.port), text=lines), wanted)
    server.has_served(version)
    same(ended(folder, "show", "a"), (0, PAGE, ""))


def sessions(room):
    return each_row(room, SESSIONS, session)


def try_clients(folder, times):
    begin = f"version {18 * times}\n0:0 document\n"
    for number in range(1, times + 1):
        same(ended(folder, "trial", "a"), (0, f"trial version {18 * number} equal yes\n", ""))
    status, shown, told = ended(folder, "show", "a")
    same((status, shown[:len(begin)], told), (0, begin, ""))
    same((shown.count(" page "), shown.count(" shape ")), (2 * times, 14 * times))


def trial(room):
    return each_row(room, (("two clients", 1), ("two clients, and two more", 2)), try_clients)


HANDSHAKE = (b"GET / HTTP/1.1\r\nHost: localhost\r\nConnection: Upgrade\r\nUpgrade: websocket\r\nSec-WebSocket-Version: 13\r\n"
             b"Sec-WebSocket-Key: dGhlIHNhbXBsZSBub25jZQ==\r\n\r\n")
# Frames of two strangers each, and what each is answered: the status of the handshake, and the messages behind it.
FRAMES = (
    ("a frame without a mask, and a cut one", (b'\x82\x0a["join",2]', "101"), (b'\x82\x8a\0\0\0\0["jo', "101")),
    ("a text, and a message in parts", (b"\x81\x82\0\0\0\0hi", '101 ["no",9]'), (b'\x02\x84\0\0\0\0["jo\x80\x86\0\0\0\0in",9]', '101 ["no",9]')),
    ("a message of 17 MiB, and one under a mask", (b"\x82\xff\0\0\0\0\x01\x10\0\0\0\0\0\0" + bytes(17 << 20), "101"),
     (b"\x82\x82\x01\x02\x03\x04hi", '101 ["no",9]')),
)
# What two strangers send, and once that is answered, and what each is answered. Who sends frames before is answered nothing.
STRANGERS = (
    ("no handshake, and half of one", (b"\x16\x03\x01 no handshake\r\n\r\n", b"", ""), (b"GET / HTTP/1.1\r\nHost: loc", b"", "")),
    *((name, *((HANDSHAKE, frames, answer) for frames, answer in both)) for name, *both in FRAMES),
    *((f"{name}, too early", *((HANDSHAKE + frames, b"", "") for frames, _ in both)) for name, *both in FRAMES),
)


def stranger(port, request, frames):
    """A connection on which these were sent, as far as the server took them, and what it was answered before the frames."""
    peer, data = socket.create_connection(("127.0.0.1", port), timeout=PATIENCE), b""
    with contextlib.suppress(BrokenPipeError, ConnectionResetError):
        peer.sendall(request)
        while frames and b"\r\n\r\n" not in data:
            part = peer.recv(65536)
            require(part, "a handshake isn't answered")
            data += part
        peer.sendall(frames)
    return peer, data


def answered(peer, data):
    """What a stranger was answered that says no more, in words."""
    with contextlib.suppress(OSError):
        peer.shutdown(socket.SHUT_WR)
    with contextlib.suppress(ConnectionResetError):
        while part := peer.recv(65536):
            data += part
    head, _, rest = data.partition(b"\r\n\r\n")
    words = head.decode().split()[1:2]
    while rest:
        size = 2 + rest[1]
        words.append((rest[2:size] if rest[0] == 0x82 else rest[:size]).decode(errors="backslashreplace"))
        rest = rest[size:]
    return " ".join(words)


def beside(folder, *both):
    server = Server(folder, 3)
    peers = [stranger(server.port, request, frames) for request, frames, _ in both]
    same(ended(folder, "edit", str(server.port), text="create page 0:0 -\n"), (0, "edit 1\nversion 2 waiting 0\n" + OWN_PAGE, ""))
    same([answered(*peer) for peer in peers], [answer for _, _, answer in both])
    server.has_served(2)


def strangers(room):
    return each_row(room, STRANGERS, beside)


ROOT = b'\0\0\0\x32["checkpoint",1,0,[],[[[0,0],"document",null,[]]]]'
JOIN = b'\0\0\0\x19[0,0,"join",["joined",1]]'
# A segment that begins with a checkpoint of the first version, and how showing it ends.
SHOWN = (
    ("a whole segment", ROOT + JOIN, (0, "version 1\n0:0 document\n", "")),
    ("cut in its last record", ROOT + b'\0\0\0\x19[0,0,"join"', (0, "version 0\n0:0 document\n", "")),
    ("cut in its first record", b'\0\0\0\x32["checkpoint",1,0', (0, "version 0\n0:0 document\n", "")),
    ("a record that is no entry", ROOT + b"\0\0\0\x03abc", (5, "", "damaged segment 1 offset 54\n")),
    ("a record that is no checkpoint", b"\0\0\0\x03abc", (5, "", "damaged segment 1 offset 0\n")),
    ("an entry that doesn't come next", ROOT + JOIN + JOIN, (5, "", "damaged segment 1 offset 83\n")),
)


def put(folder, number, segment):
    """Makes the folder `a` with this one segment. Its path."""
    os.mkdir(os.path.join(folder, "a"))
    path = Path(folder, "a", f"segment-{number:010}")
    path.write_bytes(segment)
    return path


def show(folder, segment, wanted):
    path = put(folder, 1, segment)
    same(ended(folder, "show", "a"), wanted)
    same((os.listdir(path.parent), path.read_bytes()), ([path.name], segment))


def shows(room):
    return each_row(room, SHOWN, show)


def ask_for_nothing(folder, *words):
    same(ended(folder, *words), (2, "", USAGE))
    same(os.listdir(folder), [])


def server_at(folder, connections, port):
    """A server at a port that another run of this script may have for a moment."""
    deadline = time.monotonic() + PATIENCE
    while True:
        try:
            return Server(folder, connections, port)
        except Wrong:
            if time.monotonic() > deadline:
                raise
        time.sleep(0.05)


def serve_connections(folder, _serve, _folder, port, connections):
    server = server_at(folder, int(connections), int(port))
    for _ in range(int(connections)):
        socket.create_connection(("127.0.0.1", int(port)), timeout=PATIENCE).close()
    server.has_served(0)


def edit_at_a_port(folder, *words):
    try:
        door = socket.create_server(("127.0.0.1", int(words[1])))
    except OSError:  # root alone may see whether the client comes to port 1
        same(ended(folder, *words), (4, "", FAILED))
        return
    told = Path(folder, "told")
    with open(told, "wb") as log, door:
        door.settimeout(PATIENCE)
        client = spawn([PROGRAM, *words], log, folder)
        door.accept()[0].close()
    same((client.wait(PATIENCE), told.read_text()), (4, FAILED))


def show_a_folder(folder, *words):
    put(folder, 1, ROOT + JOIN)
    same(ended(folder, *words), (0, "version 1\n0:0 document\n", ""))


def try_a_folder(folder, *words):
    same(ended(folder, *words), (0, "trial version 18 equal yes\n", ""))
    same(os.listdir(folder), ["a"])


LINES = (
    ("serve a 65535 64", serve_connections),
    ("serve a 65536 64", ask_for_nothing),
    ("serve a 65535 65", ask_for_nothing),
    ("serve a 0 1", ask_for_nothing),
    ("serve a 1 0", ask_for_nothing),
    ("serve a 01 1", ask_for_nothing),
    ("serve a 1", ask_for_nothing),
    ("edit 1", edit_at_a_port),
    ("edit", ask_for_nothing),
    ("show a", show_a_folder),
    ("trial a", try_a_folder),
    ("trial a b", ask_for_nothing),
    ("Trial a", ask_for_nothing),
)


def words(room):
    return each_row(room, [(line, line, act) for line, act in LINES], lambda folder, line, act: act(folder, *line.split()))


def bad_line(folder):
    server = Server(folder, 1)
    found = ended(folder, "edit", str(server.port), text="\n# a page\nmake page 0:0 -\n")
    server.has_served(1)
    return found


def too_long_a_segment(folder):
    os.truncate(put(folder, 1, b""), 256 << 20)
    return ended(folder, "show", "a", before=lambda: resource.setrlimit(resource.RLIMIT_AS, (128 << 20, 128 << 20)))


def taken_port(folder):
    with socket.create_server(("127.0.0.1", free_port())) as door:
        found = ended(folder, "serve", "a", str(door.getsockname()[1]), "1")
    same(os.listdir(folder), [])
    return found


def full_output(folder):
    put(folder, 1, ROOT + JOIN)
    with open("/dev/full", "wb") as full:
        return ended(folder, "show", "a", out=full)


def full_faults(folder):
    with open("/dev/full", "wb") as full:
        return ended(folder, err=full)


def damage_in_segment_7(folder):
    put(folder, 7, ROOT + JOIN + JOIN)
    return ended(folder, "show", "a")


def no_segment_above(folder):
    path = put(folder, 4294967295, ROOT + JOIN)
    found = ended(folder, "serve", "a", str(free_port()), "1")
    same((os.listdir(path.parent), path.read_bytes()), ([path.name], ROOT + JOIN))
    return found


# What goes wrong, and how the program ends.
FAULTS = (
    ("no words", ended, (2, "", USAGE)),
    ("a bad line", bad_line, (2, "", "line 3: cannot read\n")),
    ("a segment for which there is no memory", too_long_a_segment, (3, "", "out of memory\n")),
    ("no server", lambda folder: ended(folder, "edit", str(free_port())), (4, "", FAILED)),
    ("no folder", lambda folder: ended(folder, "show", "a"), (4, "", FAILED)),
    ("a port that another has", taken_port, (4, "", FAILED)),
    ("a full disk for the output", full_output, (4, None, FAILED)),
    ("a full disk for what is told", full_faults, (4, "", None)),
    ("a damaged segment", damage_in_segment_7, (5, "", "damaged segment 7 offset 83\n")),
    ("no number for a segment", no_segment_above, (6, "", "too large\n")),
)


def faults(room):
    return each_row(room, FAULTS, lambda folder, act, wanted: same(act(folder), wanted))


GROUPS = (sessions, trial, strangers, shows, words, faults)

if not os.path.isfile(PROGRAM):
    sys.exit(f"{sys.argv[0]}: there is no program {PROGRAM or 'named'}: `rt ci`, or `rt run` in its folder, leaves it in crates/canvasd/out")
sys.exit(try_groups(GROUPS, sys.argv[2:]))
