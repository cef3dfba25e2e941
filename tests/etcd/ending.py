"""Groups of tests/etcd/run.py about how a server of a document in an etcd begins and ends, and what it says of its etcd."""

import json
import os
import signal
import socket
import statistics
import subprocess
import threading
import time

from faults import Front, Health, put_all
from parts import LEASE, NAME, PROGRAM, Editor, Etcd, Served, call, free_port, never_together, read_all, require, served, shared, spawn, until
from shared import Client, page

RANGE, TXN = b"/v3/kv/range", b"/v3/kv/txn"
KINDS = ("silent", "dripped", "error", "garbage", "nonsense", "empty")
ROOT = '[[0,0],"document",null,[]]\n'


def began(server):
    """How often it has told that it opens its document."""
    return server.text().count(f"opening the document {server.name}: ")


def written(etcd, name, count, size):
    """Makes a document of so many pages, each with a text of so many bytes by an edit of its own."""
    server = served(etcd, name)
    client = Client(server.port)
    author = client.join()
    for number in range(1, count + 1):
        require(client.ask("edit", author, 2 * number - 1, page(author, number)) == [["idle"]], "an edit isn't judged")
        change = ["set", [author, number], "text", f"{number:06d}" + "x" * size]
        require(client.ask("edit", author, 2 * number, change) == [["idle"]], "an edit isn't judged")
    server.kill()
    etcd.await_free(name)


def opening(room):
    etcd = Etcd(room)
    written(etcd, NAME, 24, 700_000)
    tree, front = call("show", *etcd.words()), Front(etcd)
    # A renewal asks twice, and may take three seconds.
    front.begin("late", RANGE, millis=1000)
    start = time.monotonic()
    server = Served(front, listens=False)
    until(server.serves, 120, "a document that takes long to open isn't served", tend=server.require_running)
    seconds = time.monotonic() - start
    require(seconds > LEASE, "it was open after", seconds)
    lines = began(server)
    require(seconds / 2 - 3 <= lines <= seconds / 2 + 1, lines, "lines were told in", seconds, "s")
    require(call("show", *etcd.words()) == tree, "another document was opened")
    front.end()
    client = Client(server.port)
    name = client.join()
    require(client.ask("edit", name, 1, page(name, 1)) == [["idle"]], "an edit isn't judged")
    server.kill()
    etcd.await_free()
    # One that fails, while the etcd doesn't take what it writes, lets the next one in at once.
    fault, claims = front.begin("error", TXN), []
    fault.takes = lambda at, request: TXN in request[:100] and (len(claims) > 0 or claims.append(request))
    call("serve", *front.words(), "--port", "0", "--quiet", status=4)
    front.end()
    require(not etcd.keys(f"lugcurrant/{NAME}/owner"), "a start that failed keeps its document")
    return f"24 edits of 700 kB with answers a second late: open after {seconds:.1f} s, {lines} lines; a failed start leaves nothing"


def lease(room):
    """The etcd is lost in each of these ways, at idle servers and at one that is asked to keep an edit."""
    etcd, tried = Etcd(room), []
    for kind in (*KINDS, "deleted", "taken"):
        name = f"idle-{kind}"
        front = Front(etcd, name)
        server = Served(front, name=name)
        tried.append((kind, front, server, Health(server)))
    edited = Front(etcd, "edited")
    writer = Served(edited, name="edited")
    client = Client(writer.port)
    author = client.join()
    tried.append(("silent", edited, writer, Health(writer)))
    time.sleep(4)
    for _, _, _, health in tried:
        health.start()
    ends = []
    for kind, front, server, _ in tried:
        if kind in KINDS:
            front.begin(kind)
        if kind in ("deleted", "taken"):
            etcd.ctl("del", f"lugcurrant/{server.name}/owner")
        if kind == "taken":
            Served(etcd, "--standby", name=server.name)
        ends.append(time.monotonic())
    client.say("edit", author, 1, page(author, 1))
    told = []
    for (kind, _, server, health), moment in zip(tried, ends):
        until(lambda: health.ended is not None, 60, f"a server whose etcd is {kind} doesn't end")
        ended, last = health.ended - moment, health.served - moment
        require(server.process.returncode in (4, 10), "a server ends with", server.process.returncode, server.text()[-200:])
        require(ended <= LEASE + 1.5, "a server whose etcd is", kind, "ends after", ended, "s")
        told.append(f"{kind} {ended:.1f} ({last:.1f})")
    return f"seconds until the end (until the last health): {', '.join(told)}"


def touch(path):
    with open(path, "wb"):
        pass


def stopped(room):
    os.makedirs(room)
    file, folder = os.path.join(room, "stop"), os.path.join(room, "folder")
    etcd, seconds = Etcd(os.path.join(room, "etcd")), []
    touch(file)
    for place in ([folder], etcd.words()):
        call("serve", *place, "--port", "0", "--stop-file", file, status=2, told="--stop-file wants a path at which no file is yet")
    call("serve", folder, "--port", "0", "--stop-file", os.path.join(file, "below"), status=2, told="--stop-file wants")
    require(not os.path.exists(folder) and not etcd.keys("lugcurrant/"), "a refused start touches the document")
    os.remove(file)
    seconds.append(stopped_folder(room, folder, file))
    standby = Served(etcd, "--standby", "--stop-file", file, listens=False)
    standby.await_serving()
    second = Served(etcd, "--standby", "--stop-file", f"{file}-waiting", listens=False).await_waiting()
    touch(f"{file}-waiting")
    require(second.process.wait(10) == 0 and "failed" not in second.text(), "a standby that is stopped ends with", second.process.returncode)
    standby.kill()
    etcd.await_free()
    taken = handed_over(etcd, file, 5)
    return f"a folder's server ended {seconds[0]:.2f} s after its file came; a standby acknowledged after {min(taken):.2f} to {max(taken):.2f} s"


def stopped_folder(room, folder, file):
    """Stops a folder's server while 8 clients edit. After how many seconds it had ended."""
    server = shared.Server([PROGRAM, "serve", folder, "--stop-file", file], os.path.join(room, "log"))
    editors = [Editor(lambda: [server.port], pause=0.001) for _ in range(8)]
    for editor in editors:
        editor.start()
    until(lambda: all(editor.acknowledged() > 20 for editor in editors), 30, "edits aren't acknowledged")
    touch(file)
    moment = time.monotonic()
    require(server.process.wait(10) == 0, "a server that is stopped ends with", server.process.returncode)
    seconds = time.monotonic() - moment
    for editor in editors:
        editor.ends = True
        editor.join(30)
        require(editor.wrong is None and not editor.is_alive(), editor.wrong)
    with open(server.told) as told:
        lines = told.read().splitlines()
    require(all(line.startswith(("serving at", "connection ")) for line in lines), "a server that is stopped tells", lines[-3:])
    require(b"torn rest 0" in call("check", folder), "a server that is stopped leaves a torn rest")
    rows = json.loads(call("show", folder, "--json"))
    count = sum(editor.acknowledged() for editor in editors)
    require(count <= len(rows) - 1 <= count + 8, count, "edits were acknowledged, and", len(rows) - 1, "stand")
    os.remove(file)
    return seconds


def handed_over(etcd, file, times):
    """Stops the one of two servers that serves, so often, while 4 clients edit. The seconds until the other acknowledged an edit."""
    def fresh(number):
        return Served(etcd, "--standby", "--stop-file", f"{file}-{number}", listens=False)

    pair, seconds = [fresh(0).await_serving(), fresh(1).await_waiting()], []
    editors = [Editor(lambda: [server.port for server in pair], pause=0.005) for _ in range(4)]
    for editor in editors:
        editor.start()
    for number in range(2, times + 2):
        until(lambda: all(pair[0].port in editor.firsts for editor in editors), 30, "no edit is acknowledged")
        time.sleep(0.5)
        touch(f"{file}-{number - 2}")
        moment = time.monotonic()
        until(lambda: any(pair[1].port in editor.firsts for editor in editors), 60, "the standby doesn't take over")
        seconds.append(min(editor.firsts[pair[1].port] for editor in editors if pair[1].port in editor.firsts) - moment)
        require(pair[0].process.wait(10) == 0, "a server that is stopped ends with", pair[0].process.returncode, pair[0].text()[-300:])
        require("failed" not in pair[0].text() and "lease" not in pair[0].text(), "a server that is stopped tells", pair[0].text()[-300:])
        pair = [pair[1], fresh(number).await_waiting()]
    for editor in editors:
        editor.ends = True
        editor.join(30)
        require(not editor.is_alive() and editor.wrong is None, editor.wrong)
    never_together(editors)
    count, rows = sum(editor.acknowledged() for editor in editors), len(read_all(pair[0].port)[1])
    require(count <= rows - 1 <= count + 4 * times, count, "edits were acknowledged, and", rows - 1, "stand")
    for server in pair:
        server.kill()
    require(statistics.median(seconds) <= 1, "a standby acknowledged after", seconds, "s")
    return seconds


def told(name, why):
    return f"the etcd of the document {name} {why}"


def refuses(etcd, why, name=NAME, status=4):
    """Every command, and a server, says this of the etcd."""
    words = etcd if isinstance(etcd, list) else etcd.words(name)
    for command in (["serve", "--port", "0"], ["show"], ["check"], ["log"]):
        call(*command, *words, status=status, told=told(name, why))


def causes(room):
    os.makedirs(room)
    nowhere = ["--etcd", f"http://127.0.0.1:{free_port()}", "--document", NAME]
    refuses(nowhere, "can't be reached: look at its URLs, and whether it runs")
    call("import", *nowhere, text=ROOT.encode(), status=4, told=told(NAME, "can't be reached"))
    call("move", os.path.join(room, "back"), *nowhere, "--back", status=4, told=told(NAME, "can't be reached"))
    with socket.create_server(("127.0.0.1", 0)) as listener:
        mute = ["--etcd", f"http://127.0.0.1:{listener.getsockname()[1]}", "--document", NAME]
        call("show", *mute, status=4, told=told(NAME, "doesn't answer: look at its health"))
    etcd = Etcd(os.path.join(room, "etcd"))
    damaged(etcd)
    while_it_runs(etcd)
    while_it_opens(etcd)
    for words in (["user", "add", "root:secret"], ["role", "add", "root"], ["user", "grant-role", "root", "root"], ["auth", "enable"]):
        etcd.ctl(*words)
    refuses(etcd, "wants a password, or denies permission: turn its authentication off", status=8)
    encrypted(os.path.join(room, "tls"))
    return "an etcd that isn't there, is silent, wants a password or TLS, has foreign, damaged and missing keys, the last ones too; while a server runs, and while a document is opened or imported"


def damaged(etcd):
    """Keys are added, cut or deleted by hand: nothing opens it, and a person has to look."""
    why = "holds damaged or foreign keys: delete the foreign ones, or put a snapshot in its place"
    for name in ("foreign", "missing", "short", "last"):
        written(etcd, name, 30, 1000)
        keys = [key for key in etcd.keys(f"lugcurrant/{name}/segment/")]
        chunks = [key for key in keys if key.rsplit("/", 1)[0] == keys[-1].rsplit("/", 1)[0]]
        if name == "foreign":
            etcd.ctl("put", f"{keys[0].rsplit('/', 1)[0]}/note", "by hand")
        if name == "missing":
            etcd.ctl("del", chunks[len(chunks) // 2])
        if name == "short":
            put_all(etcd, [(chunks[len(chunks) // 2], b"x")])
        if name == "last":
            etcd.ctl("del", keys[-1])
        refuses(etcd, why, name, 5)


def while_it_runs(etcd):
    """What a server says whose etcd fails while it runs."""
    front = Front(etcd, "runs")
    for kind, why in (("refuse", "can't be reached"), ("error", "doesn't answer")):
        server = Served(front, "--standby", name="runs", listens=False).await_serving()
        client = Client(server.port)
        name = client.join()
        front.refuse() if kind == "refuse" else front.begin(kind)
        client.say("edit", name, 1, page(name, 1))
        require(server.process.wait(30) in (4, 10), "a server ends with", server.process.returncode)
        require("the store of runs failed" in server.text() and f", because the etcd {why}: what was acknowledged" in server.text()
                or "the lease of the document runs has ended" in server.text(), "a server tells", server.text()[-300:])
        front.end()


def while_it_opens(etcd):
    """What a server and an import tell that lose the document while they open it or write it."""
    lines = "".join([ROOT] + [json.dumps([[1, number], *page(1, number)[2:], [["text", "x" * 100_000]]]) + "\n" for number in range(1, 151)])
    call("import", *etcd.words("opened"), text=lines.encode())
    etcd.await_free("opened")
    front = Front(etcd)
    for name, path, command, text in (("opened", RANGE, ["serve", "--port", "0"], ""), ("imported", TXN, ["import"], lines)):
        front.name = name
        front.begin("late", path, millis=500)
        with open(os.path.join(etcd.room, f"log-{name}"), "w+") as log:
            process = subprocess.Popen([PROGRAM, *command, *front.words()], stdin=subprocess.PIPE, stdout=log, stderr=log)
            threading.Thread(target=feed, args=(process, text), daemon=True).start()
            until(lambda: etcd.keys(f"lugcurrant/{name}/owner") or process.poll() is not None, 60, "a command takes nothing over")
            time.sleep(1.5)
            require(process.poll() is None, command, "has ended with", process.returncode)
            etcd.ctl("del", f"lugcurrant/{name}/owner")
            ended = process.wait(60)
            log.seek(0)
            text = log.read()
        require(ended == 10 and told(name, "no longer names this process as its owner: start again") in text, command, "end with", ended, text[-300:])
        front.end()


def encrypted(room):
    """A member that speaks TLS alone."""
    os.makedirs(room)
    port, peer = free_port(), free_port()
    words = ["etcd", "--data-dir", os.path.join(room, "data"), "--auto-tls", "--listen-client-urls", f"https://127.0.0.1:{port}", "--advertise-client-urls",
             f"https://127.0.0.1:{port}", "--listen-peer-urls", f"http://127.0.0.1:{peer}", "--initial-advertise-peer-urls", f"http://127.0.0.1:{peer}",
             "--initial-cluster", f"default=http://127.0.0.1:{peer}", "--logger", "zap"]
    with open(os.path.join(room, "log"), "ab") as log:
        spawn(words, log)
    until(lambda: is_open(port), 60, "an etcd with TLS doesn't listen")
    refuses(["--etcd", f"http://127.0.0.1:{port}", "--document", NAME], "wants TLS: name a port with plain HTTP, or a tunnel")


def is_open(port):
    try:
        socket.create_connection(("127.0.0.1", port), timeout=5).close()
        return True
    except OSError:
        return False


def killed(room):
    """Commands that write: they may take longer than the lease, and one that is killed frees the document with it."""
    etcd, folder = Etcd(room), os.path.join(room, "folder")
    lines = "".join([ROOT] + [json.dumps([[1, number], *page(1, number)[2:], [["text", "x" * 100_000]]]) + "\n" for number in range(1, 151)])
    call("import", folder, text=lines.encode())
    front, seconds = Front(etcd), {}
    front.begin("late", TXN, millis=500)
    start = time.monotonic()
    require(call("import", *front.words("slow"), text=lines.encode()) == b"version 1, objects 151\n", "an import isn't told")
    slow = time.monotonic() - start
    require(slow > LEASE, "an import took", slow, "s")
    for command in (["import"], ["move", folder], ["move", folder, "--back"]):
        name = "-".join(["killed", *(word.strip("-") for word in command if word != folder)])
        words = etcd.words(name)
        if "--back" in command:
            call("import", *words, text=lines.encode())
            command[1] = os.path.join(room, "back")
            front.begin("late", RANGE, millis=500)
        with open(os.path.join(room, "log"), "ab") as log:
            front.name = name
            process = subprocess.Popen([PROGRAM, *command, *front.words()], stdin=subprocess.PIPE, stdout=log, stderr=log)
            threading.Thread(target=feed, args=(process, lines if command[0] == "import" else ""), daemon=True).start()
            until(lambda: etcd.keys(f"lugcurrant/{name}/owner") or process.poll() is not None, 60, "a command takes nothing over")
            time.sleep(1.5)
            require(process.poll() is None, command, "has ended with", process.returncode)
            process.send_signal(signal.SIGKILL)
            process.wait()
        seconds[name] = etcd.await_free(name)
        require(seconds[name] <= LEASE + 1.5, "a document is free", seconds[name], "s after", name)
    front.end()
    return f"an import of {slow:.1f} s; free after {', '.join(f'{name} {taken:.1f} s' for name, taken in seconds.items())}"


def feed(process, text):
    try:
        process.stdin.write(text.encode())
        process.stdin.close()
    except OSError:
        pass


def gone(room):
    """The segments of a document are deleted, and its identity isn't: it isn't an empty document, and its name isn't free."""
    etcd, back = Etcd(room), os.path.join(room, "back")
    written(etcd, NAME, 20, 1000)
    etcd.ctl("del", "--prefix", f"lugcurrant/{NAME}/segment/")
    keys, ends = etcd.keys("lugcurrant/"), []
    require(keys == [f"lugcurrant/{NAME}/end", f"lugcurrant/{NAME}/identity"], "in the etcd are", keys)
    for command in (["serve", "--port", "0"], ["serve", "--port", "0", "--standby"], ["show"], ["check"], ["log"], ["move", back, "--back"], ["import"]):
        try:
            done = subprocess.run([PROGRAM, *command, *etcd.words()], input=ROOT, capture_output=True, text=True, timeout=20)
            ends.append((command[0], done.returncode, done.stderr.strip()))
            if etcd.keys(f"lugcurrant/{NAME}/owner"):
                ends.append((*ends.pop(), "and keeps its document"))
        except subprocess.TimeoutExpired as error:
            ends.append((command[0], None, (error.stderr or b"").decode().strip()))
            etcd.await_free()
        etcd.await_free()
        if etcd.keys("lugcurrant/") != keys:
            ends.append((*ends.pop(), "and has written", etcd.keys("lugcurrant/")))
            etcd.ctl("del", "--prefix", f"lugcurrant/{NAME}/segment/")
    require(not os.path.exists(back), "a document that has gone is moved back")
    wrong = [end for end in ends if end[1] != 5 or told(NAME, "holds damaged or foreign keys") not in end[2] or len(end) > 3]
    require(not wrong, "a document that has gone:", *wrong)
    return f"{len(ends)} commands report it with status 5, write nothing, and leave nothing behind"


def patience(room):
    """A standby of an etcd without room, which another document has used up, waits on and says why."""
    etcd = Etcd(room, 1, "--quota-backend-bytes", str(16 << 20))
    server = Served(etcd)
    standby = Served(etcd, "--standby", listens=False).await_waiting()
    number = 0
    while "NOSPACE" not in etcd.ctl("alarm", "list"):
        try:
            put_all(etcd, [(f"another/{number}-{at}", os.urandom(20000)) for at in range(20)])
        except Exception:  # it has no room
            pass
        number += 1
        require(number < 200, "an etcd has room for all")
    server.kill()
    said = f"waiting for the document {NAME}: the etcd has no space left"
    until(lambda: said in standby.text(), 30, "a standby doesn't tell that the etcd has no room", tend=standby.require_running)
    etcd.ctl("del", "--prefix", "another/")
    revision = json.loads(etcd.ctl("endpoint", "status", "-w", "json"))[0]["Status"]["header"]["revision"]
    etcd.ctl("compaction", "--physical", str(revision))
    etcd.ctl("defrag")
    etcd.ctl("alarm", "disarm")
    standby.await_serving()
    require(standby.text().count(said) == 1, "it is told", standby.text().count(said), "times")
    return "a standby waits while the etcd has no room, and serves once it has"


GROUPS = (opening, lease, stopped, causes, gone, killed, patience)
