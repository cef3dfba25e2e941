"""Groups of tests/host/run.py about what an operator does with the connections of a server: ends them, and reads in the log where they come
from."""

import os
import re
import subprocess
import sys
import threading
import time

import shared
from shared import Client, page, require

PROGRAM = os.path.abspath(sys.argv[1])
KIB = 1024


class Server(shared.Server):
    """A server on a folder, with a log of its own."""

    count = 0

    def __init__(self, room, *options):
        Server.count += 1
        super().__init__([PROGRAM, "serve", room, *options], os.path.join(os.path.dirname(room), f"log-{Server.count}"))

    def text(self):
        """What it has told."""
        with open(self.told, errors="replace") as told:
            return told.read()

    def await_text(self, text, seconds=5):
        until(lambda: text in self.text(), f"{text!r} isn't told within {seconds} s, but {self.text()[-300:]!r}", seconds)

    def number_of(self, client):
        """The number of a client's connection, as the log tells it."""
        line = re.compile(rf"^connection (\d+) begins, from (?:.*, by )?127\.0\.0\.1:{client.socket.getsockname()[1]}$", re.MULTILINE)
        until(lambda: line.search(self.text()), "it isn't told that a connection begins")
        return line.search(self.text()).group(1)


def until(holds, why, seconds=5):
    """Waits until this holds, which is never anything false."""
    end = time.monotonic() + seconds
    while not holds():
        require(time.monotonic() < end, why)
        time.sleep(0.01)


def kicked(*words, status=0, told=""):
    """What `lugcurrant kick` writes."""
    return shared.call(PROGRAM, "kick", *words, status=status, told=told).decode()


def has_ended(client, seconds=5):
    """Reads what comes until the connection ends."""
    client.socket.settimeout(seconds)
    try:
        while client.socket.recv(1 << 20):
            pass
    except ConnectionError:
        pass
    except TimeoutError:
        require(False, "a connection that an operator ends goes on")


class Member(Client):
    """A client that has joined, and edits each time that it is looked whether its connection goes on."""

    def __init__(self, server, name=None, **options):
        super().__init__(server.port, **options)
        require(self.status == 101, "a client is answered", self.head)
        self.name, self.count = name or self.join(), 0

    def goes_on(self):
        self.count += 1
        require(self.ask("edit", self.name, self.count, page(self.name, self.count)) == [["idle"]], "another connection doesn't go on")


def write_whole(file, data):
    """Writes a file as a person does who has another program for it."""
    with open(file + ".by-hand", "wb") as whole:
        whole.write(data)
    os.rename(file + ".by-hand", file)


def kick(room):
    place = os.path.dirname(room)
    file = os.path.join(place, "kick")
    server = Server(room, "--kick-file", file)
    stays, other = Member(server), Member(server)
    number = server.number_of(other)
    begun = time.monotonic()
    require(kicked(file, number) == f"the server has taken {file}\n", "it isn't told that a file is taken")
    has_ended(other)
    took = time.monotonic() - begun
    require(took < 2, "a connection is ended after", took, "s")
    server.await_text(f"connection {number} has ended: the operator ended it\n")
    require(os.listdir(place).count("kick") + os.listdir(place).count("kick.new") == 0, "a file is left")
    stays.goes_on()
    # Who connects again has another number, and isn't ended.
    back = Member(server, name=other.name)
    back.goes_on()
    require(server.number_of(back) != number, "a number is given twice")
    kicked(file, number, "999999", "0", "18446744073709551615")
    stays.goes_on()
    back.goes_on()
    told = [live_ones(server, file), busy_ones(server, file), many(server, file)]
    stays.goes_on()
    refused(server, file, stays)
    by_hand(server, file, stays)
    back.goes_on()
    require(server.text().count(": the operator ended it\n") == 1 + sum(count for _, count in told), "the log tells another number of ended connections")
    server.kill()
    early(room, file)
    return f"ended after {took:.2f} s; {'; '.join(text for text, _ in told)}; wrong files are told, and end nothing"


def live_ones(server, file):
    """The others are told that a live client has gone which an operator ends. What was counted, and how many were ended."""
    one, two = Member(server), Member(server)
    for client in (one, two):
        require(client.ask("live", client.name, 0)[-1] == ["idle"], "a client doesn't become live")
    two.say("here", two.name, "here I am")
    heard(one, ["here", two.name, "here I am"])
    kicked(file, server.number_of(two))
    has_ended(two)
    heard(one, ["here", two.name, None])
    until(lambda: b"lugcurrant_live_clients 1\n" in server.get("/metrics")[2], "a live client that is ended is counted")
    one.leave()
    return "one that is live is told of as gone", 1


def heard(client, message):
    """Waits for this message among those that a client is told."""
    client.socket.settimeout(5)
    while True:
        opcode, payload = client.frame()
        require(opcode in (1, 2, 9), "a connection that stays is ended")
        if opcode != 9 and shared.json.loads(payload) == message:
            return


def busy_ones(server, file):
    """One sends edits without a pause, one reads nothing of long answers, one has sent half a message, and one says nothing."""
    clients = [Member(server), Member(server), Member(server), Member(server, room=8 * KIB)]
    busy, half, _, deaf = clients
    thread = threading.Thread(target=edit_on, args=(busy,), daemon=True)
    thread.start()
    half.socket.sendall(shared.framed(shared.text_of(["edit", half.name, 1, page(half.name, 1)]).encode())[:-7])
    for _ in range(2000):
        deaf.say("ask", deaf.name, 0)
    kicked(file, *(server.number_of(client) for client in clients))
    for client in clients:
        server.await_text(f"connection {server.number_of(client)} has ended: the operator ended it\n")
    thread.join(10)
    require(not thread.is_alive(), "a busy connection goes on")
    for client in clients[1:]:
        has_ended(client)
    return "busy, half, silent and deaf ones too", 4


def edit_on(client):
    """Sends edits until the connection ends, and reads what comes."""
    try:
        for number in range(1, 1_000_000):
            client.say("edit", client.name, number, ["set", [client.name, 1], "text", "x" * 200] if number > 1 else page(client.name, 1))
            if number % 64 == 0 and not client.socket.recv(1 << 16):
                return
    except OSError:
        pass


def many(server, file):
    """Ends 300 connections at once, of all workers."""
    clients = [Client(server.port) for _ in range(300)]
    numbers = [server.number_of(client) for client in clients]
    begun = time.monotonic()
    kicked(file, *numbers)
    for client in clients:
        has_ended(client)
    took = time.monotonic() - begun
    require(took < 5, "300 connections are ended after", took, "s")
    for number in numbers:
        server.await_text(f"connection {number} has ended: the operator ended it\n")
    return f"300 after {took:.2f} s", 300


def refused(server, file, stays):
    """What `lugcurrant kick` doesn't do."""
    for words in ([], [file], ["--", file], [file, "x"], [file, "-1"], [file, "1.0"], [file, "18446744073709551616"], [file, ""], [file, *["1"] * 1001]):
        kicked(*words, status=2)
    with open(file + ".new", "w"):
        pass
    kicked(file, "1", status=4, told=f"the file {file} is there already, or its .new beside it")
    os.remove(file + ".new")
    lost = os.path.join(os.path.dirname(file), "nobody")
    begun = time.monotonic()
    kicked(lost, "1", status=4, told=f"no server has taken the file {lost} in 5 seconds")
    took = time.monotonic() - begun
    require(4.5 < took < 8, "a kick that no server takes ends after", took, "s")
    require(not os.path.exists(lost) and not os.path.exists(lost + ".new"), "a kick that no server takes leaves its file")
    with open(lost, "w") as there:
        there.write("left")
    kicked(lost, "1", status=4, told=f"the file {lost} is there already")
    with open(lost) as there:
        require(there.read() == "left" and not os.path.exists(lost + ".new"), "a file that is there is written")
    os.remove(lost)
    kicked(os.path.join(lost, "below"), "1", status=4, told="can't be written: look at the rights of its folder")
    full = subprocess.run([PROGRAM, "kick", file, server.number_of(stays) + "0"], stdout=open("/dev/full", "w"), stderr=subprocess.PIPE)
    require(full.returncode == 4 and b"output" in full.stderr, "a kick that can't be told ends with", full.returncode, full.stderr)
    stays.goes_on()


def by_hand(server, file, stays):
    """A file that another program brings, right and wrong."""
    own = server.number_of(stays).encode()
    target = file + "-target"
    with open(target, "wb") as linked:
        linked.write(own + b"\n")
    for data, why in ((own + b"\nx\n", "needs numbers"), (b"", "needs numbers"), (own + b" \n", "needs numbers"), (own + b"\n\n", "needs numbers"), (own, "needs numbers"), (b"\n", "needs numbers"),
                      (b"\xff\n" + own, "needs numbers"), (b"-1\n" + own, "needs numbers"), (own + b"\n18446744073709551616\n", "needs numbers"),
                      (own + b"," + own, "needs numbers"), (b"1\n" * 32 * KIB + b"1", "more than 64 KiB"), (b"1\n" * 4096 * KIB, "more than 64 KiB"),
                      ("link", "no regular file"), ("nowhere", "no regular file"), ("pipe", "no regular file")):
        before = server.text().count("no connection is ended by the file")
        if data == "link":
            os.symlink(target, file)
        elif data == "nowhere":
            os.symlink(target + "-nowhere", file)
        elif data == "pipe":
            os.mkfifo(file)
        else:
            write_whole(file, data)
        until(lambda: not os.path.lexists(file), f"a file of {data[:20]!r} isn't removed")
        server.await_text(f"no connection is ended by the file {file}: it ")
        until(lambda: server.text().count("no connection is ended by the file") == before + 1, f"a file of {data[:20]!r} isn't told once")
        require(why in server.text().splitlines()[-1], "of a file of", data[:20], "is told", server.text().splitlines()[-1])
        stays.goes_on()
    with open(target, "rb") as linked:
        require(linked.read() == own + b"\n", "what a link leads to is changed")
    os.mkdir(file)
    before = server.text().count("it is no regular file")
    until(lambda: server.text().count("it is no regular file") == before + 1, "a folder isn't told of")
    kicked(file, "1", status=4, told="is there already")
    time.sleep(1)
    require(server.text().count("it is no regular file") == before + 1 and os.path.isdir(file), "a folder is told of more than once, or removed")
    os.rmdir(file)
    time.sleep(0.3)
    # As many numbers as fit, and one of them twice.
    write_whole(file, b"7000000\n" + b"".join(b"%07d\n" % at for at in range(7_000_000, 7_008_191)))
    until(lambda: not os.path.exists(file), "a long file isn't taken")
    stays.goes_on()
    kicked(file, "7000000")
    require(server.text().count("no connection is ended by the file") == 16, "a right file is told of as wrong")


def early(room, file):
    """A file that was there before the server ends no connection of it, and is told of also by one that logs faults alone."""
    write_whole(file, b"1\n2\n3\n")
    server = Server(room, "--kick-file", file, "--quiet")
    client = Member(server)
    server.await_text(f"no connection is ended by the file {file}: it was there before the server\n")
    require(not os.path.exists(file), "a file that was there before isn't removed")
    time.sleep(0.5)
    client.goes_on()
    kicked(file, "1")
    has_ended(client)
    require("connection" not in server.text().replace("no connection is ended", ""), "a quiet server logs a connection")
    server.kill()
    # Without the option a file is nothing to a server.
    server = Server(room)
    write_whole(file, b"1\n")
    client = Member(server)
    time.sleep(0.5)
    client.goes_on()
    require(os.path.exists(file), "a file that isn't named is taken")
    os.remove(file)
    server.kill()


def forwarded(room):
    field, count = "X-Forwarded-For: ", 0
    named = (([field + "203.0.113.7"], "203.0.113.7"), ([field + "198.51.100.1, 10.0.0.1,203.0.113.7"], "203.0.113.7"),
             ([field + "198.51.100.1", "X-Other: 1", field + "10.0.0.1, 203.0.113.8 \t"], "203.0.113.8"), (["x-forwarded-FOR:203.0.113.9"], "203.0.113.9"),
             ([field + "2001:db8::1"], "2001:db8::1"), ([field + "[2001:DB8::1]:4711"], "[2001:DB8::1]:4711"), ([field + "a-b_c." + "x" * 58], "a-b_c." + "x" * 58),
             ([field + "evil one, unknown"], "unknown"))
    other = ([], [field], [field + "203.0.113.7,"], [field + ","], [field + "203.0.113.7 by 10.0.0.1"], [field + "203.0.113.7;x"], [field + "x" * 65],
             [field + "203.0.113.7\u00e9"], [field + "\u202e203.0.113.7"], [field + '"203.0.113.7"'], [field + "203.0.113.7", field + "203.0.113.8/24"],
             ["Forwarded: for=203.0.113.7"], ["X-Forwarded-For-Me: 203.0.113.7"], ["X-Real-IP: 203.0.113.7"])
    for trusts in (True, False):
        server = Server(room, *["--trust-forwarded"] * trusts)
        for fields, address in [*named, *((fields, None) for fields in other)]:
            client = Member(server, fields=fields)
            count += 1
            own = f"127.0.0.1:{client.socket.getsockname()[1]}"
            wanted = f"from {address}, by {own}" if trusts and address else f"from {own}"
            server.await_text(f"connection {server.number_of(client)} begins, {wanted}\n")
            client.goes_on()
            client.leave()
        require(Client(server.port, fields=[field + "203.0.113.7\x1b[31m"]).status == 400, "a head with a control character is taken")
        require(all(text.isprintable() for text in server.text().splitlines()), "the log has bytes of a client")
        server.kill()
    return f"{count} connections, of which {len(named)} are told with the address that a proxy names last, and none without the option"


GROUPS = (kick, forwarded)
