#!/usr/bin/env python3
"""run.py LUGCURRANT [KILLS [SECONDS [FAULTS [SEED]]]] [GROUP..]: tries `lugcurrant` with documents in an etcd, each group with an etcd of its
own on loopback; only the named groups, where some are named.

- words: wrong URLs, wrong names, a folder and an etcd, neither: status 2. An etcd that isn't there, is silent, or talks nonsense: status 4.
- alone: one member. A second server is refused while the first lives, and while its lease does; the document and its identity are the same
  after `kill -9`, and what `show` shows is what a client sees.
- move: a folder's document goes into the etcd and back, with its identity and its clients, and never over another document.
- rows: what `show --json` and `show --lines` write is imported to the same document; `check` and `log`; wrong rows; no document.
- standby: two servers; the one that serves is killed five times, and started anew as the one that waits.
- kills: three members. 16 clients edit and two read, while KILLS (50) times in turn a member is killed, the server, or both; or the server is
  paused past its lease and woken. At the end every acknowledged edit stands exactly once, and every client has what `show` shows; no server
  acknowledged an edit after the next one had.
- cut: each of three members is stopped in turn, and edits go on. Two are stopped: none is acknowledged, and the server ends with status 4 or 10.
  With all back, all that was acknowledged is there.
- lost: three members and three servers, each of which names another member first. Answers are lost, cut short or turned into errors, each
  member is killed, and the leader moves: no server ends, and every acknowledged edit is there exactly once.
- slow: all members are silent, send a byte each 1.5 seconds, errors or nonsense; only the lease isn't renewed; the owner's key is deleted.
  Each server, idle, reports `serving` for at most a lease and a second, and ends with status 10.
- opens: documents of 30,000 chunks and of 300,000 objects open, with each answer 10 ms late, while a standby waits. A server whose stop file
  comes while it opens them releases its lease within a second and a half, and ends with status 0.
- backs: a snapshot is put back under an idle server, as the same cluster and as another: the next edit isn't acknowledged, the server ends with
  status 4 or 10, and no edit that is acknowledged later is lost.
- doubles: transactions are sent again, late, also past a checkpoint, and also if the first was lost: the server continues, and `check` and
  `show` find what it serves.
- faults: three members. FAULTS (100) mixed faults in a row, drawn by SEED, while 8 clients edit: at the end every acknowledged edit is there
  exactly once, no server acknowledged an edit after the next one had, and no server ended unless it lost its document.
- space: an etcd without room refuses an edit; it isn't acknowledged, the server ends with status 9, and what was acknowledged is there once
  there is room again.
- large: a document of 20 MB is imported, served and copied to a client; an edit of many chunks; one that is too large.
- opening: a document that takes longer to open than its lease lasts is opened, and that is told; a start that fails releases it.
- lease: an etcd that is silent, dripping, faulty or nonsense to a server, and an owner's key that is deleted or another's: the server ends, and
  says no more that it serves, once its lease has.
- stopped: a file that is there is refused; a server at whose file comes ends with status 0, a standby acknowledges within a second, and all that
  was acknowledged stands once.
- causes: each cause of an etcd that doesn't do what it is asked has its sentence and its status, also one that is lost while a document is
  opened or imported.
- gone: a document whose identity is there and whose segments aren't isn't served, shown, checked, moved or imported over: status 5, and nothing is written.
- killed: an import longer than the lease; a command that is killed frees its document with the lease.
- patience: a standby waits while the etcd has no room, says so, and serves once it has.
- speed: figures alone. Edits a second of 1 and of 64 clients in SECONDS (10), on a folder, on one member and on three; bytes by which the
  database of etcd grows; seconds from a kill to the first acknowledged edit.

Prints a line for each group, and exits with 1 where one went wrong. Needs Debian's etcd-server and etcd-client, and no package of Python."""

import json
import os
import random
import re
import select
import socket
import statistics
import struct
import sys
import threading
import time
from collections import Counter

import ending
from faults import (KEEP_ALIVE, TRANSACTION, Accounted, Front, Health, Lone, compact, move_leader, put_all, put_back, save)
from parts import (ENDINGS, LEASE, NAME, PROGRAM, Crowd, Editor, Etcd, Pair, Served, call, never_together, read_all, require, shared,
                   served, until)
from shared import LIMIT, Client, draw, numbers_and_names, page, text_of, try_groups

NUMBERS, NAMES = numbers_and_names(sys.argv[2:])
KILLS = int(NUMBERS[0]) if NUMBERS else 50
SECONDS = NUMBERS[1] if len(NUMBERS) > 1 else 10.0
FAULTS = int(NUMBERS[2]) if len(NUMBERS) > 2 else 100
SEED = int(NUMBERS[3]) if len(NUMBERS) > 3 else random.randrange(1000000)
ANOTHER = f"another server has the document {NAME}"
ROOT = '[[0,0],"document",null,[]]\n'


def shown(etcd, *options):
    return call("show", *etcd.words(), *options)


def words(room):
    url, name = ["--etcd", "http://127.0.0.1:1"], ["--document", NAME]
    wrong = [["serve"], ["serve", *url], ["serve", *name], ["serve", room, *url, *name], ["serve", room, *name], ["serve", room, "--standby"]]
    for command in ("show", "check", "log", "import"):
        wrong += [[command], [command, *url], [command, *name], [command, room, *url, *name]]
    wrong += [["move", *url, *name], ["move", room, *url], ["move", room, *name], ["move", room], ["move", room, "--back"]]
    for text in ("", "127.0.0.1:1", "http://", "https://127.0.0.1:1", "ftp://127.0.0.1:1", "http://127.0.0.1:1,", "http://127.0.0.1:1,x",
                 "http://a b:1", "http://127.0.0.1:1/path"):
        wrong.append(["serve", "--etcd", text, *name])
    for text in ("", "a/b", "a b", "\u00e9", "x" * 65, "-x"):
        wrong.append(["serve", *url, f"--document={text}"])
    for line in wrong:
        call(*line, status=2)
    require(not os.path.exists(room), "wrong words make a folder")
    for text in ("http://127.0.0.1:1/", " http://127.0.0.1:1 , http://127.0.0.1:1/"):
        call("show", "--etcd", text, *name, status=4)
    for command in (["serve", "--port", "0"], ["show"], ["check"], ["log"]):
        call(*command, *url, *name, status=4, told=ENDINGS[2])
    call("import", *url, *name, text=ROOT.encode(), status=4, told=ENDINGS[2])
    for answer in (None, b"nonsense\r\n\r\n", b"HTTP/1.1 500 No\r\nContent-Length: 2\r\n\r\n{}", b"HTTP/1.1 200 OK\r\nContent-Length: 2\r\n\r\n[]"):
        with socket.create_server(("127.0.0.1", 0)) as listener:
            threading.Thread(target=answer_all, args=(listener, answer), daemon=True).start()
            call("show", "--etcd", f"http://127.0.0.1:{listener.getsockname()[1]}", *name, status=4, told=ENDINGS[2])
    return f"{len(wrong)} wrong lines, and etcds that aren't there, are silent or talk nonsense"


def answer_all(listener, answer):
    """Answers each connection so, or with silence."""
    held = []
    while True:
        try:
            held.append(listener.accept()[0])
            if answer:
                held[-1].recv(65536)
                held[-1].sendall(answer)
        except OSError:
            return


def alone(room):
    etcd = Etcd(room)
    call("show", *etcd.words(), status=4, told=f"there is no document {NAME}")
    server = Served(etcd)
    name = draw(server, 300)
    known = server.identity()
    call("serve", *etcd.words(), "--port", "0", status=7, told=ANOTHER)
    require(etcd.value(f"lugcurrant/{NAME}/identity") == known, "the identity in the etcd is another")
    _, rows = read_all(server.port)
    require(json.loads(shown(etcd, "--json")) == rows and len(rows) == 101, "other rows are shown than a client sees")
    tree = shown(etcd)
    server.kill()
    call("serve", *etcd.words(), "--port", "0", status=7, told=ANOTHER)
    require(shown(etcd) == tree, "another document is shown once its server is killed")
    free = etcd.await_free()
    server = Served(etcd)
    require(server.identity() == known, "the identity changes with a restart")
    require(Client(server.port, f"/document/{known}").status == 101, "the identity isn't served")
    client = Client(server.port)
    require(client.ask("edit", name, 301, page(name, 301)) == [["idle"]], "a client isn't known after a restart")
    require(client.ask("edit", name, 301, page(name, 301)) == [["idle"]], "a repeat isn't answered idle")
    _, rows = read_all(server.port)
    require(json.loads(shown(etcd, "--json")) == rows and len(rows) == 102, "other rows are shown after a restart")
    other = Served(etcd, name="another")
    require(other.identity() != known and len(read_all(other.port)[1]) == 1, "two documents are one")
    other.kill()
    server.kill()
    return f"a client's rows, the identity, another document; the lease of a killed server ends after {free:.1f} s"


def move(room):
    etcd, folder, back = Etcd(room), os.path.join(room, "folder"), os.path.join(room, "back")
    server = shared.Server([PROGRAM, "serve", folder], os.path.join(room, "log"))
    name, known = draw(server, 300), server.identity()
    call("move", folder, *etcd.words(), status=7)
    server.kill()
    tree, lines = call("show", folder), call("show", folder, "--lines")
    call("move", folder, *etcd.words())
    require(shown(etcd) == tree and shown(etcd, "--lines") == lines, "another document is moved in")
    require(not os.path.exists(os.path.join(folder, "identity")), "the folder keeps the identity")
    call("move", folder, *etcd.words(), status=4)
    taken = served(etcd)
    require(taken.identity() == known, "the identity isn't moved in")
    client = Client(taken.port, f"/document/{known}")
    require(client.status == 101 and client.ask("edit", name, 301, page(name, 301)) == [["idle"]], "a client doesn't go on in the etcd")
    client.drop()
    call("move", back, *etcd.words(), "--back", status=7, told=ANOTHER)
    taken.kill()
    etcd.await_free()
    tree = shown(etcd)
    call("move", folder, *etcd.words(), "--back", status=4)
    require(shown(etcd) == tree, "a move that is refused changes something")
    call("move", back, *etcd.words(), "--back")
    require(call("show", back) == tree, "another document is moved back")
    require(not etcd.value(f"lugcurrant/{NAME}/identity"), "the etcd keeps the identity")
    for place, is_same in ((back, True), (folder, False)):
        server = shared.Server([PROGRAM, "serve", place], os.path.join(room, "log"))
        require((server.identity() == known) == is_same, "the identity of", place, "is", server.identity())
        server.kill()
    call("move", os.path.join(room, "none"), *etcd.words("other"), status=4)
    for name in os.listdir(back):
        if re.fullmatch(r"segment-\d{10}", name):
            os.remove(os.path.join(back, name))
    call("move", back, *etcd.words("other"), status=5, told=f"no segment of the document in {back} is left")
    require(os.path.exists(os.path.join(back, "identity")) and not etcd.keys("lugcurrant/other/"), "a document that has gone is moved")
    call("move", os.path.join(room, "none"), *etcd.words("other"), "--back", status=4, told="there is no document other")
    return "300 edits in and back, with the identity and a client; seven that can't be made are refused"


def rows(room):
    etcd, folder = Etcd(room), os.path.join(room, "folder")
    server = shared.Server([PROGRAM, "serve", folder, "--quiet"], os.path.join(room, "log"))
    draw(server, 300)
    server.kill()
    array, lines = call("show", folder, "--json"), call("show", folder, "--lines")
    for name, text in (("array", array), ("lines", lines)):
        there = etcd.words(name)
        require(call("import", *there, text=text) == b"version 1, objects 101\n", "an import isn't told")
        require((call("show", *there, "--json"), call("show", *there, "--lines")) == (array, lines), "another document is imported")
        call("import", *there, text=text, status=4)
        require(b"version 1," in call("check", *there) and call("log", *there) == b"", "an imported document is checked otherwise")
    start = time.monotonic()
    server = served(etcd, "lines")
    waited = time.monotonic() - start
    draw(server, 30)
    log = [json.loads(line) for line in call("log", *etcd.words("lines")).splitlines()]
    require([(entry[0], entry[1]) for entry in log] == [("entry", version) for version in range(2, 33)], "the log is", log[:3])
    require(b"recovery takes segment" in call("check", *etcd.words("lines")), "a served document is checked otherwise")
    server.kill()
    for text in ("", ROOT + "{}\n"):
        call("import", *etcd.words("wrong"), text=text.encode(), status=2)
    for command in ("show", "check", "log"):
        call(command, *etcd.words("wrong"), status=4, told="there is no document wrong")
    return f"101 objects in two layouts, 31 entries in the log; served {waited:.1f} s after the import"


def takeovers(etcd, times):
    """Has an editor at two servers of a document, and kills the one that serves so often. The seconds until an edit is acknowledged."""
    pair = [served(etcd), Served(etcd, "--standby", listens=False).await_waiting()]
    editor, seconds = Editor(lambda: [server.port for server in pair], pause=0.005), []
    editor.start()
    for _ in range(times):
        until(lambda: pair[0].port in editor.firsts or editor.wrong, 30, "no edit is acknowledged")
        require(editor.wrong is None, editor.wrong)
        require(pair[1].text().count(f"waiting for the document {NAME}: another server has it\n") == 1, "it isn't told once that a server waits")
        require(not pair[1].serves(), "two servers serve a document")
        try:
            socket.create_connection(("127.0.0.1", pair[1].port), timeout=5).close()
            require(False, "a server that waits listens")
        except OSError:
            pass
        time.sleep(random.uniform(0.2, 1))
        moment = time.monotonic()
        pair[0].kill()
        until(lambda: pair[1].port in editor.firsts, 60, "the standby doesn't take over")
        require(editor.wrong is None, editor.wrong)
        seconds.append(editor.firsts[pair[1].port] - moment)
        pair = [pair[1], Served(etcd, "--standby", listens=False).await_waiting()]
    editor.ends = True
    editor.join(30)
    require(not editor.is_alive() and editor.wrong is None, editor.wrong)
    never_together([editor])
    for server in pair:
        server.kill()
    return seconds, editor.acknowledged()


def spread(seconds):
    return f"{min(seconds):.1f} to {max(seconds):.1f} s (median {statistics.median(seconds):.1f})" if seconds else "none"


def standby(room):
    etcd = Etcd(room)
    seconds, edits = takeovers(etcd, 5)
    rows = json.loads(shown(etcd, "--json"))
    require(len(rows) in (edits + 1, edits + 2), edits, "edits were acknowledged, and", len(rows) - 1, "stand")
    return f"5 kills, {edits} edits; acknowledged again after {spread(seconds)}"


def paused(pair, crowd):
    """Pauses the server past its lease, and wakes it: it acknowledges nothing any more, and ends. The seconds until the next one
    acknowledged an edit."""
    for _ in range(5):
        server, late = pair.serving(), [Editor(pair.ports, most=1) for _ in range(3)]
        try:
            talks = [editor.connect(server.port) for editor in late]
        except (OSError, ValueError):
            talks = [None]
        if all(talks):
            break
        crowd.goes_on()
    require(all(talks), "a server that serves doesn't let clients join")
    server.pause()
    moment = time.monotonic()
    seconds = crowd.goes_on(moment)
    pair.until(lambda: time.monotonic() > moment + LEASE + 2, 60, "time stands still")
    for editor, talk in zip(late, talks):
        talk.socket.settimeout(30)
        talk.say("edit", editor.id, 1, page(editor.id, 1))
    server.wake()
    for editor, talk in zip(late, talks):
        try:
            is_acknowledged = editor.hear(talk, server.port, time.monotonic())
        except (OSError, ValueError):
            is_acknowledged = False
        require(not is_acknowledged, "a server acknowledges an edit after the next one took the document over")
        talk.drop()
    pair.until(lambda: server.process.poll() is not None, 30, "a server that lost its document doesn't end")
    # They go on at the next one, each with the edit that wasn't acknowledged.
    for editor in late:
        crowd.editors.append(editor)
        editor.start()
    return seconds


def kills(room):
    etcd = Etcd(room, 3, "--auto-compaction-mode", "periodic", "--auto-compaction-retention", "1m")
    pair = Pair(etcd)
    crowd = Crowd(pair, 16)
    seconds = {"member": [], "server": [], "both": [], "pause": []}
    for turn in range(KILLS):
        crowd.goes_on()
        time.sleep(random.uniform(0.1, 1))
        kind = list(seconds)[turn % 4]
        server, at, moment = pair.serving(), random.randrange(3), time.monotonic()
        if kind == "pause":
            seconds[kind].append(paused(pair, crowd))
            continue
        if kind in ("member", "both"):
            etcd.kill(at)
        if kind in ("server", "both"):
            server.kill()
        seconds[kind].append(crowd.goes_on(moment))
        if kind in ("member", "both"):
            etcd.start(at)
            etcd.await_health()
    told = crowd.settle()
    kinds = ", ".join(f"{kind} {len(taken)} times: {spread(taken)}" for kind, taken in seconds.items())
    return f"{KILLS} turns, {told}; {pair.own_ends} servers ended by themselves; edits went on: {kinds}"


def cut(room):
    etcd = Etcd(room, 3)
    pair = Pair(etcd)
    crowd = Crowd(pair, 4)
    crowd.goes_on()
    seconds = []
    for at in range(3):
        etcd.pause(at)
        seconds.append(crowd.goes_on())
        time.sleep(1)
        etcd.wake(at)
        etcd.await_health()
    crowd.goes_on()
    server, lost = pair.serving(), random.sample(range(3), 2)
    for at in lost:
        etcd.pause(at)
    moment = time.monotonic() + 0.5  # a member may still answer what it had in hand
    pair.until(lambda: server.process.poll() is not None, 60, "a server without a majority doesn't end")
    ended = time.monotonic() - moment
    pair.until(lambda: time.monotonic() > moment + ended + 15, 60, "time stands still")
    require(not crowd.went_on(moment), "an edit is acknowledged without a majority")
    for at in lost:
        etcd.wake(at)
    moment = time.monotonic()
    etcd.await_health()
    back = crowd.goes_on(moment)
    told = crowd.settle()
    return f"{told}; a member stopped: {spread(seconds)}; two: it ends after {ended:.1f} s, and edits {back:.1f} s after they are back"


def lost(room):
    etcd = Etcd(room, 3)
    fronts = [Front(etcd, f"first{at}", at) for at in range(3)]
    crowds = [Crowd(Lone(front), 3) for front in fronts]

    def go_on(step):
        for crowd in crowds:
            crowd.pair.step = step
            crowd.goes_on()

    go_on("start")
    for kind, path in [(kind, TRANSACTION) for kind in ("lost", "cut", "half", "swallowed", "error", "nonsense")] + [("lost", KEEP_ALIVE)]:
        met = [front.begin(kind, path, 1) for front in fronts]
        until(lambda: all(fault.met for fault in met), 10, "no request meets the fault", kind)
        go_on(f"an answer {kind}")
    for at in range(3):
        for front in fronts:
            front.proxies[at].refuse()
        etcd.kill(at)
        go_on(f"member {at} killed")
        etcd.start(at)
        etcd.await_health()
        for front in fronts:
            front.end()
        move_leader(etcd)
        go_on("another leader")
    for crowd in crowds:
        crowd.pair.end()
    told = "; ".join(crowd.settle() for crowd in crowds)
    for skips in range(10):
        front = Front(etcd, f"start{skips}")
        fault = front.begin("lost", count=1, skips=skips)
        server = Served(front, name=front.name)
        until(lambda: fault.met, 10, "nothing is asked that often:", skips)
        require(read_all(server.port)[0] == 1, "a server doesn't start whose answer", skips, "is lost")
        server.kill()
    return told


# The faults that all requests of an idle server meet.
SLOW = {"silent": [("silent",)], "bytes": [("dripped",)], "errors": [("error",)], "garbage": [("garbage",)], "nonsense": [("nonsense",)],
        "unrenewed": [("lost", KEEP_ALIVE)], "unheard": [("mute", KEEP_ALIVE)], "owner": []}


def slow(room):
    etcd = Etcd(room, 3)
    fronts = {name: Front(etcd, name) for name in SLOW}
    healths = {name: Health(Served(front, name=name)) for name, front in fronts.items()}
    time.sleep(4)
    for health in healths.values():
        health.start()
    moment = time.monotonic()
    for name, front in fronts.items():
        for what in SLOW[name]:
            front.begin(*what)
    etcd.ctl("del", "lugcurrant/owner/owner")
    for health in healths.values():
        health.join(max(0.1, moment + 4 * LEASE - time.monotonic()))
        health.ends = True
    late = [f"{name} for {health.served - moment:.1f} s, and ends after {f'{health.ended - moment:.1f} s' if health.ended else 'more'}"
            for name, health in healths.items() if not health.ended or max(health.served, health.ended) > moment + LEASE + 1]
    require(not late, "servers that have lost their lease report that they serve:", *late)
    for name, health in healths.items():
        require(health.server.process.returncode == 10, name, "ends with", health.server.process.returncode, health.server.text()[-200:])
        fronts[name].end()
    return ", ".join(f"{name} {health.ended - moment:.1f} s" for name, health in healths.items())


def many_chunks(etcd, name, objects, chunks):
    """Makes a document of so many objects, with so many entries after its checkpoint, each a key of its own."""
    lines = [ROOT] + [text_of([[1, number], *page(1, number)[2:], []]) + "\n" for number in range(1, objects + 1)]
    call("import", *etcd.words(name), text="".join(lines).encode())
    key, pairs = f"lugcurrant/{name}/segment/0000000001/", []
    at = int(etcd.keys(key)[-1][-10:]) + len(etcd.ctl("get", etcd.keys(key)[-1], "--print-value-only").encode()) - 1
    for number in range(chunks):
        entry = [2, number, ["set", [1, 1 + number % objects], "count", number], ["wasset"]] if number else [0, 0, "join", ["joined", 2]]
        record = struct.pack("!I", len(text_of(entry))) + text_of(entry).encode()
        pairs.append((f"{key}{at:010d}", record))
        at += len(record)
    put_all(etcd, pairs)


def stopped_openings(etcd, front, name, moments, most):
    """Stops a server at each of these seconds after it took the document over, while it opens it, and requires that it ends in so many seconds at
    most: it notices only between two requests. After how many seconds the document was free, and the server had ended."""
    told = []
    for number, moment in enumerate(moments):
        file = os.path.join(etcd.room, f"stop-{name}-{number}")
        server = Served(front, *["--standby"][:number % 2], "--stop-file", file, name=name, listens=False)
        until(lambda: etcd.keys(f"lugcurrant/{name}/owner"), 30, "nobody takes the document over", tend=server.require_running)
        time.sleep(moment)
        require(not server.serves(), "a document is open", moment, "s after it was taken over")
        ending.touch(file)
        start = time.monotonic()
        free = etcd.await_free(name)
        require(free <= 1.5, "a server that is stopped while it opens its document has it for", free, "s")
        until(lambda: server.process.poll() is not None, most, "a server that is stopped while it opens its document doesn't end")
        require(server.process.returncode == 0, "a server that is stopped while it opens ends with", server.process.returncode, server.text()[-300:])
        lines = server.text().splitlines()
        require(all(line.startswith(f"opening the document {name}: ") for line in lines), "a server that is stopped tells", lines[-3:])
        told.append(f"{free:.1f} ({time.monotonic() - start:.1f})")
    return told


def opens(room):
    etcd, told = Etcd(room), []
    many_chunks(etcd, "chunks", 30_000, 30_000)
    rows = [ROOT] + [text_of([[1, number], *page(1, number)[2:], [["text", "x" * 64]]]) + "\n" for number in range(1, 300_001)]
    call("import", *etcd.words("objects"), text="".join(rows).encode())
    for name, version, count, moments, most in (("chunks", 30_002, 30_001, (0.3, 1.2, 2.5), 3), ("objects", 2, 300_001, (1, 3, 5), 30)):
        etcd.await_free(name)
        front = Front(etcd, name)
        front.begin("late", millis=10)
        stops = stopped_openings(etcd, front, name, moments, most)
        start = time.monotonic()
        server = Served(front, "--standby", name=name, listens=False)
        until(lambda: etcd.keys(f"lugcurrant/{name}/owner"), 30, "nobody takes the document over", tend=server.require_running)
        other = Served(front, "--standby", name=name, listens=False).await_waiting()
        server.await_serving(45)
        told.append(f"{name} {time.monotonic() - start:.1f} s, and free (ended) after a stop in {', '.join(stops)} s")
        found, shown = read_all(server.port)
        require((found, len(shown)) == (version, count), "a document of", name, "has version", found, "and", len(shown), "rows")
        draw(server, 3)
        require(not other.serves(), "two servers have opened a document")
        server.kill()
        other.kill()
    return ", ".join(told)


def backs(room):
    etcd, told = Etcd(room), []
    for name, token in (("same", None), ("another", "another")):
        front = Front(etcd, name)
        server = Served(front, name=name)
        edited, client = draw(server, 50), Client(server.port)
        author, file = client.join(), save(etcd)
        for number in range(1, 21):
            require(client.ask("edit", author, number, page(author, number)) == [["idle"]], "an edit isn't judged")
        front.refuse()
        put_back(etcd, file, token)
        front.end()
        moment = time.monotonic()
        try:
            answer = client.ask("edit", author, 21, page(author, 21))
        except OSError:
            answer = None
        require(answer in (None, [["no", 5]], [["no", 6]]), "an edit behind a gap is answered", answer)
        require(server.process.wait(timeout=LEASE + 2) in (4, 10), "a server whose etcd was put back ends with", server.process.returncode)
        told.append(f"as {name} cluster status {server.process.returncode} after {time.monotonic() - moment:.1f} s")
        server = Served(front, "--standby", name=name, listens=False).await_serving()
        later = draw(server, 30)
        server.kill()
        server = Served(front, "--standby", name=name, listens=False).await_serving()
        ids = {tuple(row[0]) for row in read_all(server.port)[1]}
        require({(edited, 1), (edited, 49), (later, 1), (later, 28)} <= ids, "an edit that was acknowledged after a snapshot was put back is lost")
        call("check", *front.words())
        server.kill()
    return ", ".join(told)


def doubles(room):
    etcd = Etcd(room)
    front = Front(etcd)
    server, count = Served(front), 0
    for kind, edits in (("doubled", 1), ("doubled", 30), ("strayed", 1), ("strayed", 30)):
        for _ in range(20):
            front.begin(kind, TRANSACTION, 1)
            draw(server, edits)
        front.end()
        count += front.send_doubles()
        require(call("check", *front.words()) and json.loads(shown(front, "--json")) == read_all(server.port)[1], "another document is shown")
    draw(server, 300)
    version, rows = read_all(server.port)
    server.kill()
    server = served(front)
    require(read_all(server.port) == (version + 1, rows), "another document is served after a restart")
    return f"{count} transactions done once more, in a document of {version} versions"


class Trial:
    """An etcd of three members, proxies before them, two servers, and clients that edit while faults are made."""

    def __init__(self, room):
        self.etcd, self.random = Etcd(room, 3), random.Random(SEED)
        self.front = Front(self.etcd)
        self.pair = Accounted(self.front)
        self.crowd, self.stuck = Crowd(self.pair, 8), Counter()

    def kinds(self, count):
        """Draws the kinds of the faults: each rare one once, and the others by their weights."""
        rare = [RARE[at % len(RARE)] for at in range(min(len(RARE), count // 10))]
        drawn = rare + self.random.choices(list(COMMON), [weight for weight, _ in COMMON.values()], k=count - len(rare))
        self.random.shuffle(drawn)
        return drawn

    def make(self, kind):
        """Makes a fault, waits until edits go on, for two leases at most, and ends it."""
        self.crowd.goes_on()
        self.pair.begin(kind)
        if kind in RARE:
            self.take_away(kind)
        else:
            COMMON[kind][1](self)
        moment = time.monotonic()
        self.pair.until(lambda: self.crowd.went_on(moment) or time.monotonic() > moment + 2 * LEASE, 60, "time stands still")
        self.stuck[kind] += not self.crowd.went_on(moment)
        self.front.end()

    def meet(self, kind, path, count, millis):
        fault = self.front.begin(kind, path, count, millis=millis)
        self.pair.until(lambda: fault.met, 10, "no request meets the fault", kind)

    def double(self, kind):
        self.meet(kind, TRANSACTION, self.random.randrange(1, 9), 0)
        self.crowd.goes_on()
        self.front.end()
        self.front.send_doubles()

    def refuse(self):
        self.front.proxies[self.random.randrange(3)].refuse()

    def cut(self):
        for proxy in self.front.proxies:
            proxy.cut()

    def kill_member(self):
        at = self.random.randrange(3)
        self.front.proxies[at].refuse()
        self.etcd.kill(at)
        self.crowd.goes_on()
        self.etcd.start(at)
        self.etcd.await_health()

    def stop_member(self):
        at = self.random.randrange(3)
        self.etcd.pause(at)
        try:
            self.crowd.goes_on()
        finally:
            self.etcd.wake(at)

    def take_away(self, kind):
        """Kills the server, or takes its document away."""
        server = self.pair.serving()
        if kind == "server killed":
            server.kill()
            return
        # A snapshot that is put back holds what the etcd held, so the server may go on.
        self.pair.pardon(is_taken=kind != "put back")
        if kind == "owner deleted":
            self.etcd.ctl("del", f"lugcurrant/{NAME}/owner")
        if kind == "all silent":
            self.front.begin("silent")
            end = time.monotonic() + LEASE + 2
            self.pair.until(lambda: time.monotonic() > end, 60, "time stands still")
        if kind == "put back":
            self.front.refuse()
            time.sleep(0.5)  # what was passed on is done
            put_back(self.etcd, save(self.etcd), "another")
        self.front.end()


def met(kind, path=TRANSACTION, millis=0):
    """Makes a fault that one request meets, or up to three."""
    return lambda trial: trial.meet(kind, path, trial.random.randrange(1, 4) if kind in ("lost", "cut", "swallowed") else 1, millis)


RARE = ("server killed", "owner deleted", "all silent", "put back")
# How often in about a hundred faults, and how it is made.
COMMON = {"lost": (10, met("lost")), "any lost": (4, met("lost", b"")), "keep-alive lost": (3, met("lost", KEEP_ALIVE)), "cut": (8, met("cut")),
          "half": (5, met("half")), "swallowed": (6, met("swallowed")), "late": (6, met("late", millis=700)),
          "doubled": (7, lambda trial: trial.double("doubled")), "strayed": (6, lambda trial: trial.double("strayed")),
          "error": (6, met("error")), "garbage": (5, met("garbage")), "nonsense": (5, met("nonsense")), "empty": (4, met("empty")),
          "silent": (2, met("silent")), "mute": (2, met("mute")), "bytes": (2, met("dripped")), "refused": (5, Trial.refuse),
          "connections cut": (5, Trial.cut), "member killed": (4, Trial.kill_member), "member stopped": (2, Trial.stop_member),
          "another leader": (5, lambda trial: move_leader(trial.etcd)), "compacted": (3, lambda trial: compact(trial.etcd))}


def faults(room):
    trial = Trial(room)
    start = time.monotonic()
    for kind in trial.kinds(FAULTS):
        trial.make(kind)
        if time.monotonic() > start + 100:
            break
    pair, seconds = trial.pair, time.monotonic() - start
    pair.begin("end")
    pair.await_ends(2 * LEASE)
    told = trial.crowd.settle()
    done = sum(pair.times.values()) - 1
    wrong = [f"{name} after {kind} {count} of {pair.times[kind]}" for name, counts in (("ended", pair.wrong_ends), ("no edits", trial.stuck))
             for kind, count in counts.most_common() if count]
    require(not wrong, told, "but of", done, f"faults in {seconds:.0f} s (seed {SEED}):", ", ".join(wrong), *pair.last_words)
    ends = ", ".join(f"{kind} {count}" for kind, count in pair.ends.most_common())
    return f"{done} faults of {len(pair.times) - 1} kinds in {seconds:.0f} s (seed {SEED}), {told}; servers ended by themselves: {ends or 'none'}"


def space(room):
    etcd = Etcd(room, 1, "--quota-backend-bytes", str(16 << 20))
    server = Served(etcd)
    client = Client(server.port)
    name, number, answer = client.join(), 1, [["idle"]]
    require(client.ask("edit", name, 1, page(name, 1)) == answer, "an edit isn't judged")

    def change(number):
        return ["set", [name, 1], "text", f"{number:06d}" + "x" * 20000]

    while answer == [["idle"]] and number < 5000:
        number += 1
        answer = client.ask("edit", name, number, change(number))
    # Where it was a checkpoint that failed, its edit was judged, and the next one is answered so.
    require(answer in ([["no", 5]], [["no", 6]]), "an etcd without room is answered", answer)
    require(client.ask("edit", name, number, change(number)) == [["no", 6]], "the next edit isn't answered No 6")
    require(server.process.wait(timeout=20) == 9 and ENDINGS[0] in server.text(), "the server ends with", server.process.returncode, server.text()[-300:])
    require("NOSPACE" in etcd.ctl("alarm", "list"), "etcd tells no alarm:", etcd.ctl("alarm", "list"))
    etcd.await_free()
    call("serve", *etcd.words(), "--port", "0", status=9, told=ENDINGS[2])
    before = shown(etcd, "--json")
    revision = json.loads(etcd.ctl("endpoint", "status", "-w", "json"))[0]["Status"]["header"]["revision"]
    etcd.ctl("compaction", "--physical", str(revision))
    etcd.ctl("defrag")
    etcd.ctl("alarm", "disarm")
    server = served(etcd)
    client = Client(server.port)
    copy = client.ask("ask", name, 0)[0]
    require(copy[0] == "copy" and number - 1 <= copy[2] <= number, number - 1, "edits were acknowledged, and", copy[:3], "stand")
    require(copy[3] == json.loads(before) and copy[3][1][3] == [["text", change(copy[2])[3]]], "another document stands", copy[3][1][:3])
    require(client.ask("edit", name, copy[2] + 1, ["clear", [name, 1], "text"]) == [["idle"]], "edits don't go on")
    server.kill()
    return f"{number - 1} edits of 20 kB in 16 MiB, then No {answer[0][1]}, No 6 and status 9; none lost once there is room"


def large(room):
    etcd = Etcd(room)
    lines = [ROOT.strip()] + [text_of([[1, number], *page(1, number)[2:], [["text", "x" * 1_000_000]]]) for number in range(1, 21)]
    require(call("import", *etcd.words(), text="\n".join(lines).encode()) == b"version 1, objects 21\n", "20 MB aren't imported")
    server = Served(etcd, "--standby", "--message-bytes", "6000000", listens=False).await_serving()
    client = Client(server.port, timeout=2 * LIMIT)
    name = client.join()
    copy = client.ask("ask", name, 0)[0]
    require(copy[:3] == ["copy", 2, 0] and [text_of(row) for row in copy[3]] == lines, "a copy of 20 MB is another", copy[:3])
    require(client.ask("edit", name, 1, ["set", [1, 1], "text", "y" * 6_000_000]) == [["no", 8]], "an edit that is too large is answered otherwise")
    require(client.ask("edit", name, 1, ["set", [1, 1], "text", "y" * 5_000_000]) == [["idle"]], "an edit of 5 MB isn't judged")
    server.kill()
    kept = [text_of(row) for row in json.loads(shown(etcd, "--json"))]
    require(kept[0] == lines[0] and kept[2:] == lines[2:] and kept[1].count("y") == 5_000_000, "an edit of 5 MB isn't kept")
    server = served(etcd)
    client = Client(server.port, timeout=2 * LIMIT)
    require(client.ask("ask", name, 0)[0][:3] == ["copy", 3, 1], "a large document isn't served again")
    require(client.ask("edit", name, 2, ["set", [1, 1], "text", "y" * 1_100_000]) == [["no", 8]], "an edit above the usual limit is answered otherwise")
    server.kill()
    return "20 MB imported, served and copied; an edit of 5 MB, and two that are too large"


def rate(port, clients):
    """The edits that so many clients were answered, each with one under way at a time, and how many that is a second."""
    poll, peers, count = select.epoll(), {}, 0
    for _ in range(clients):
        client = Client(port)
        name = client.join()
        require(client.ask("edit", name, 1, page(name, 1)) == [["idle"]], "an edit isn't judged")
        peers[client.socket.fileno()] = [client, name, 1]
        poll.register(client.socket, select.EPOLLIN)

    def send(peer):
        client, name, number = peer
        peer[2] = number + 1
        text = b'["edit",%d,%d,["set",[%d,1],"count",%d]]' % (name, peer[2], name, number)
        client.socket.sendall(bytes([130, 128 | len(text)]) + bytes(4) + text)

    start = time.monotonic()
    for peer in peers.values():
        send(peer)
    while time.monotonic() < start + SECONDS:
        ready = poll.poll(5)
        require(ready, "no edit is answered for 5 seconds")
        for number, _ in ready:
            peer = peers[number]
            answer = peer[0].socket.recv(100)
            require(answer == b'\x82\x08["idle"]', "an edit is answered", answer)
            count += 1
            send(peer)
    taken = time.monotonic() - start
    for client, *_ in peers.values():
        client.hear()
        client.drop()
    return count, count / taken


def speed(room):
    folder = os.path.join(room, "folder")
    document = "".join([ROOT] + [text_of([[1, number], *page(1, number)[2:], []]) + "\n" for number in range(1, 10001)]).encode()
    parts = []
    for members in (0, 1, 3):
        etcd = Etcd(os.path.join(room, str(members)), members) if members else None
        call("import", *(etcd.words() if etcd else [folder]), text=document)
        server = served(etcd) if etcd else shared.Server([PROGRAM, "serve", folder, "--quiet"], os.path.join(room, "log"))
        for clients in (1, 64):
            before = etcd.bytes_in_use() if etcd else 0
            count, each = rate(server.port, clients)
            grown = f", {(etcd.bytes_in_use() - before) / count:.0f} bytes of etcd each" if etcd else ""
            parts.append(f"{clients} on {f'{members} members' if etcd else 'a folder'}: {each:.0f}/s{grown}")
        server.kill()
        if members == 3:
            etcd.await_free()
            parts.append(f"acknowledged {spread(takeovers(etcd, 3)[0])} after a kill")
        shared.end_all()
    return "; ".join(parts)


GROUPS = (words, alone, move, rows, standby, kills, cut, lost, slow, opens, backs, doubles, faults, space, large, *ending.GROUPS, speed)

if __name__ == "__main__":
    sys.exit(try_groups(GROUPS, NAMES))
