"""The groups of clients that break the protocol, or don't read. In each, two other clients measure how late edits arrive (peers.py)."""

import contextlib
import itertools
import random
import select
import socket
import threading
import time

import shared
from peers import BROKEN, LIMIT, MIB, PROGRAM, SILENT, SLOW, TOO_LARGE, Peer, Server, cheap_frame, edit_frame, until, watched
from shared import framed, require, text_of

# The bounds are kilobytes that the server may take more.
# For a few connections with small messages: 256 KiB of output for each, one answer and one push more, the last entries up to 1 MiB of text on both sides
# of the board and in the history, and the allocator's pages for each thread.
SMALL = 16 * 1024


def unread(name, dice):
    """Messages that the server can't read, with their opcodes."""
    texts = [b"null", b"[]", b"[1]", b"{}", b'{"edit":1}', b'["edit"]', b'["welcome",1]', b'["idle"]', b'["no",9]', b'["entry",1,[0,0,"join",["joined",1]]]',
             b'["join",3]', b'["join","2"]', b'["join",2,2]', b'["ask",1,-1]', b'["ask",1,1.5]', b'["edit",1,1,["create"]]', b'["edit",1,1,["set",[0,0],"A",1]]',
             b'["edit",1,1,["set",[0,0],"a",1.5]]', b"[" * 100, b"[" * 100_000, b'["' + b"a" * 100_000, b"\xef\xbb\xbf[]", b'["join",2]x', b'["join",2']
    found = [(text, 2) for text in texts] + [(b"", 2), (b"\xff\xfe", 2)]
    found += [(bytes(dice.randrange(256) for _ in range(dice.randrange(300))), 2) for _ in range(100)]
    # No text message is read, whatever it says.
    found += [(text, 1) for text in (b"", b"hello", b'["join",2]', text_of(["edit", name, 1, ["set", [0, 0], "a", 1]]).encode(), "\u00e9\U0001f600".encode())]
    return found


BROKEN_FRAMES = {
    "no mask": b"\x82\x05hello",
    "an unknown opcode": framed(b"x", opcode=3),
    "a reserved bit": b"\xc2" + framed(b"x")[1:],
    "a continuation of nothing": framed(b"x", opcode=0),
    "a ping in two frames": framed(b"x", opcode=9, is_last=False),
    "a ping of 126 bytes": framed(b"x" * 126, opcode=9),
    "a text that isn't UTF-8": framed(b"\xff\xfe", opcode=1),
    "a message within a message": framed(b"a", is_last=False) + framed(b"b"),
    "a closing frame of one byte": framed(b"x", opcode=8),
    "a length of 2^63": b"\x82\xff\x80" + bytes(7 + 4),
    "a length of 2^62": b"\x82\xff\x40" + bytes(7 + 4),
}


def garbage(room):
    notes, dice = [], random.Random(1)
    with watched(room, notes, SMALL) as server:
        peer = Peer(server).begin()
        sent = unread(peer.name, dice)
        for payload, opcode in sent:
            peer.send(payload, opcode)
        ends = peer.answers(len(sent))
        wrong = [(payload[:60], opcode, end) for (payload, opcode), end in zip(sent, ends) if end != ["no", 9]]
        require(not wrong, "messages that can't be read aren't answered by No 9:", wrong[:3])
        peer.edit(1, "set", [0, 0], "a", 1)
        require(peer.answers(1) == [["idle"]], "an edit after garbage isn't judged")
        peer.leave()
        for name, frame in BROKEN_FRAMES.items():
            peer = Peer(server).begin()
            peer.socket.sendall(edit_frame(peer.name, 1, ["set", [0, 0], "a", 2]) + frame)
            peer.await_end()
            require(peer.ends == [["idle"]], "an edit before", name, "is answered", peer.ends)
        until(lambda: server.metric("clients") == 2, "the seats of clients that broke the protocol aren't free again")
    return f"{len(sent)} messages answered No 9, {len(BROKEN_FRAMES)} broken frames that end a connection; {notes[0]}"


def spellings(name, version):
    """Spellings of `live`, with the answer to each."""
    right = [f'["live",{name},{version}]', f' [ "live" ,\t{name},\r\n{version} ] ', f'["l\\u0069ve",{name},{version}]', f'["live",{name},0]']
    wrong = ['["live"]', f'["live",{name}]', f'["live",{name},{version},0]', f'["Live",{name},0]', f'["live ",{name},0]', f'["live","{name}",0]', f'["live",{name}.0,0]',
             f'["live",{name}e0,0]', '["live",-1,0]', f'["live",{name},-1]', f'["live",{name},0.5]', '["live",4294967296,0]', f'["live",{name},4611686018427387905]',
             f'["live",{name},18446744073709551616]', f'{{"live":[{name},0]}}', f'["live",[{name}],0]', f'["live",{name},0]x', f'["live",{name},0', f'["live",null,{version}]',
             f'["live",true,{version}]', f'["live",0{name},0]', f"['live',{name},0]", f'[["live",{name},0]]', f'["live",{name},"0"]']
    strangers = ['["live",0,0]', '["live",60000,0]', '["live",4294967295,0]', f'["live",{name},{version + 1_000_000}]', f'["live",{name},4611686018427387904]', '["ask",60000,0]',
                 '["edit",60000,1,["delete",[1,1]]]', '["edit",0,1,["delete",[1,1]]]']
    return [(text, ["idle"]) for text in right] + [(text, ["no", 9]) for text in wrong] + [(text, ["no", 1]) for text in strangers]


LIVES = 5000


def words(room):
    notes, dice = [], random.Random(1)
    with watched(room, notes, SMALL) as server:
        peer = Peer(server).begin()
        sent = spellings(peer.name, peer.version) * 3
        dice.shuffle(sent)
        for text, _ in sent:
            peer.send(text.encode())
        ends = peer.answers(len(sent))
        wrong = [(text, end, wanted) for (text, wanted), end in zip(sent, ends) if end != wanted]
        require(not wrong, "a spelling of `live` has another answer:", wrong[:3])
        begun, last = time.monotonic(), peer.version
        versions = [dice.choice([0, last, dice.randrange(last)]) for _ in range(LIVES)]
        threading.Thread(target=peer.socket.sendall, args=(b"".join(cheap_frame(text_of(["live", peer.name, version]).encode()) for version in versions),)).start()
        require(peer.answers(LIVES) == [["idle"]] * LIVES, "one of many `live` isn't answered by idle")
        seconds = time.monotonic() - begun
        peer.say("live", peer.name, peer.version)
        peer.edit(1, "set", [0, 0], "a", 1)
        require(peer.answers(2) == [["idle"]] * 2, "an edit after many `live` isn't judged")
        end = time.monotonic() + LIMIT
        while peer.done < 1:
            require(time.monotonic() < end, "after many `live` no entry comes")
            peer.read(1)
        peer.leave()
        until(lambda: server.metric("clients") == 2, "a seat isn't free again")
    return f"{len(sent)} spellings and strangers; {LIVES} `live` in one write, answered in {seconds:.1f} s; {notes[0]}"


def counts(room):
    notes = []
    with watched(room, notes, SMALL) as server:
        before = server.metric("pushes_total")
        peers = [Peer(server).begin() for _ in range(5)]
        for peer in peers:
            peer.say("live", peer.name, peer.version)
            peer.answers(1)
        require(server.metric("live_clients") == 7, "of seven live clients are counted", server.metric("live_clients"))
        until(lambda: server.metric("pushes_total") > before, "no push is counted")
        for number, peer in enumerate(peers):
            (peer.leave if number % 2 else peer.reset)()
        until(lambda: server.metric("clients") == 2, "a seat isn't free again")
        require(server.metric("live_clients") == 2, "after five of seven live clients have gone there are counted", server.metric("live_clients"))
    return "pushes and live clients are counted, also those that go"


def hears(peer, wanted, seconds=LIMIT):
    """Waits until this peer is told this last of what clients tell of themselves."""
    end = time.monotonic() + seconds
    while wanted not in peer.heres:
        require(time.monotonic() < end, "isn't told", wanted, "but", peer.heres[-3:])
        peer.read(1)


CROWD, EACH = 1000, 25  # clients, and the kilobytes that each may take


def crowd(room):
    notes = []
    with watched(room, notes, CROWD * EACH) as server:
        before = server.forget_peak()
        peers = [Peer(server).begin() for _ in range(CROWD - 2)]
        require(server.metric("live_clients") == CROWD, "of a crowd are live", server.metric("live_clients"))
        late = Peer.__new__(Peer)
        shared.Client.__init__(late, server.port, timeout=LIMIT)
        require(late.status == 503, "one above --clients is answered", late.head)
        after = server.peak()
        peers[0].edit(1, "set", [0, 0], "a", 1)
        for peer in peers:
            end = time.monotonic() + LIMIT
            while not any(message[0] == "entry" and message[2][:2] == [peers[0].name, 1] for message in peer.told):
                require(time.monotonic() < end, "an edit doesn't reach each of a crowd")
                peer.read(1)
        for number, peer in enumerate(peers):
            (peer.leave if number % 2 else peer.reset)()
        until(lambda: server.metric("clients") == 2, "a place isn't free again")
        until(lambda: server.metric("live_clients") == 2, "live clients that have gone are counted")
    return f"{CROWD} live clients take {(after - before) / CROWD:.1f} kB each, all see an edit, and one more gets 503; {notes[0]}"


HERES = 1000


def here(room):
    notes = []
    with watched(room, notes, SMALL, "--workers", "2") as server:
        one, two, three, plain = Peer(server).begin(), Peer(server).begin(), Peer(server).begin(), Peer(server)
        plain.name = plain.join()
        refused = [(plain, ["here", plain.name, 1], 1), (one, ["here", two.name, 1], 1), (one, ["here", one.name, "x" * 1023], 8), (one, ["here", one.name], 9),
                   (one, ["here", one.name, 1, 2], 9), (one, ["here", -1, 1], 9), (one, ["here", "1", 1], 9), (one, ["hear", one.name, 1], 9), (one, ["here", 1 << 40, 1], 9)]
        for peer, words, reason in refused:
            peer.say(*words)
            answer = peer.answers(1)
            require(answer == [["no", reason]], words, "is answered", answer)
        one.send(b'["here",%d,"%s"]' % (one.name, b"x" * MIB))
        require(one.answers(1) == [["no", 8]], "a value of 1 MiB isn't refused")
        for value in (None, True, -1.5e300, "\u00e9\n", [], {"x": [1, {"y": "z"}]}, "x" * 1022):
            one.say("here", one.name, value)
            require(one.answers(1) == [["idle"]], value, "isn't taken")
            for peer in (one, two, three):
                hears(peer, ["here", one.name, value])
        two.say("here", two.name, {"at": 1})
        two.answers(1)
        late = Peer(server).begin()
        hears(late, ["here", one.name, "x" * 1022])
        hears(late, ["here", two.name, {"at": 1}])
        three.heres.clear()
        begun = time.monotonic()
        for number in range(HERES):
            one.say("here", one.name, number)
            if number % 10 == 9:
                one.answers(10)
                three.read(0)
        seconds = time.monotonic() - begun
        hears(three, ["here", one.name, HERES - 1])
        told = [message[2] for message in three.heres if message[1] == one.name]
        require(told == sorted(told) and len(told) <= 31 * (seconds + 1), HERES, "in", seconds, "seconds were told", len(told), "times")
        two.say("live", two.name, two.version)
        two.answers(1)
        one.leave()
        two.reset()
        hears(three, ["here", one.name, None])
        hears(three, ["here", two.name, None])
        require(not plain.read(0.1) and not plain.heres, "a client that isn't live is told", plain.heres)
        require("here" not in shared.call(PROGRAM, "log", room).decode(), "presence is kept")
    return f"{HERES} in {seconds:.1f} s were told {len(told)} times, the last one too; {len(refused) + 1} refused; null once its connection has ended; {notes[0]}"


SHOWERS, QUIETS = 6, 300
WITHIN = 15  # seconds within which it is told, though nothing else comes: sooner than a ping


def quiet(room):
    server, dice = Server(room), random.Random(1)
    peers = [Peer(server).begin() for _ in range(SHOWERS)]
    for number in range(QUIETS):
        some = dice.sample(peers, dice.randrange(1, SHOWERS + 1))
        for peer in some:
            time.sleep(dice.choice([0, dice.random() / 30]))
            peer.say("here", peer.name, number)
        for peer in some:
            peer.answers(1)
        for peer in peers:
            for other in some:
                hears(peer, ["here", other.name, number], WITHIN)
            peer.heres.clear()
    again, first, other = Peer(server), *peers[:2]
    again.say("live", first.name, first.version)
    again.say("here", first.name, "newer")
    again.answers(2)
    hears(other, ["here", first.name, "newer"])
    first.leave()
    other.read(1)
    require(["here", first.name, None] not in other.heres, "who has told more on another connection is told to have gone")
    again.leave()
    hears(other, ["here", first.name, None])
    server.kill()
    return f"{QUIETS} times some of {SHOWERS} clients tell something of themselves, and all are told"


WRITES, TOGETHER, SENDERS = 20, 64, 8


def masked_edit(name, number, value):
    """The frame of an edit, masked by a random key."""
    return framed(text_of(["edit", name, number, ["set", [0, 0], "a", value]]).encode())


def mixed(name, number):
    """What a client may send between edits, as frames, and how each is answered."""
    return [
        (framed(text_of(["edit", name, number + 1, ["set", [0, 0], "a", 1]]).replace(",", " , ").encode()), ["idle"]),  # not spelt as others
        (edit_frame(name, number + 1, ["set", [0, 0], "a", 2]), ["idle"]),  # a repeat
        (edit_frame(name, number + 3, ["set", [0, 0], "a", 3]), ["no", 3]),  # a gap
        (edit_frame(name, number + 2, ["set", [0, 0], "a", "b" * 20_000]), ["idle"]),  # a long one
        (framed(b"["), ["no", 9]),
        (edit_frame(name + 1000, number + 3, ["set", [0, 0], "a", 4]), ["no", 1]),  # a stranger's
        (edit_frame(name, number + 3, ["set", [0, 0], "a", 5]), ["idle"]),
    ]


def send_together(peer, frames):
    """Sends frames in one write. Returns the answers, and how many syncs the server made meanwhile."""
    peer.socket.sendall(b"".join(frames))
    return peer.answers(len(frames))


def together(room):
    """Edits that come at once share a sync; what comes between them is answered in its order."""
    notes, faults = [], []
    with watched(room, notes, SMALL) as server:
        peer, number, grown = Peer(server).begin(), 0, []
        for _ in range(WRITES):
            edits, syncs = server.metric("edits_total"), server.metric("syncs_total")
            ends = send_together(peer, [masked_edit(peer.name, number + 1 + i, i) for i in range(TOGETHER)])
            number += TOGETHER
            require(ends == [["idle"]] * TOGETHER, "edits that come at once are answered", ends)
            others = server.metric("edits_total") - edits - TOGETHER  # those of the client that is watched
            grown.append(server.metric("syncs_total") - syncs - others)
        for i in range(TOGETHER // 4):
            between = mixed(peer.name, number)
            cut = i % (len(between) + 1)  # what comes in one write and the next
            ends = send_together(peer, [frame for frame, _ in between[:cut]]) + send_together(peer, [frame for frame, _ in between[cut:]])
            wanted = [end for _, end in between]
            require(ends == wanted, "edits and other messages are answered", ends, "in place of", wanted)
            number += 3

        def send(peer):
            last = 0
            for _ in range(WRITES):
                ends = send_together(peer, [edit_frame(peer.name, last + 1 + i, ["set", [0, 0], "b", i]) for i in range(TOGETHER)])
                last += TOGETHER
                if ends != [["idle"]] * TOGETHER:
                    faults.append(ends)

        peers = [Peer(server).begin() for _ in range(SENDERS)]
        edits, syncs = server.metric("edits_total"), server.metric("syncs_total")
        threads = [threading.Thread(target=send, args=(peer,)) for peer in peers]
        for thread in threads:
            thread.start()
        for thread in threads:
            thread.join()
        require(not faults, "edits that eight clients send at once are answered", faults[:1])
        for each in (peer, *peers):
            until(lambda each=each: each.read(0.1) or each.done == (number if each is peer else WRITES * TOGETHER), "not all entries come")
        many = SENDERS * WRITES * TOGETHER
        others = server.metric("edits_total") - edits - many
        shared_syncs = server.metric("syncs_total") - syncs - others
    grown.sort()
    require(grown[len(grown) // 2] <= 4, TOGETHER, "edits of one write take", grown, "syncs")
    require(shared_syncs <= many / 16, many, "edits of eight clients take", shared_syncs, "syncs")
    return (f"{TOGETHER} edits of one write take {grown[len(grown) // 2]} syncs (median), {many} edits of {SENDERS} clients take {shared_syncs}; "
            f"{TOGETHER // 4} mixed writes answered in their order; {notes[0]}")


LARGEST = 2 * MIB  # of a message, if an edit may have 1 MiB
# For each of eight clients a message of 2 MiB, with room for twice as many bytes, and in each of the allocator's two arenas what a JSON tree took: that of
# [0,0,..] has a value of 32 bytes for two bytes of text, in a list with room for twice as many.
LARGE = (8 * 2 * 2 + 2 * 2 * 32) * 1024


def large_messages(name):
    """Messages of the largest size, with the answer to each."""
    edit = text_of(["edit", name, 1, ["set", [0, 0], "a", ""]])
    text = edit[:-3] + "a" * (LARGEST - len(edit)) + edit[-3:]
    return [(text.encode(), ["no", 8]), (b"x" * LARGEST, ["no", 9]), (b"[" + b"0," * (LARGEST // 2 - 1) + b"]", ["no", 9]), (b'["live",' + b" " * (LARGEST - 8), ["no", 9])]


def large(room):
    notes, faults = [], []

    def send(peer):
        for payload, wanted in large_messages(peer.name) * 2:
            peer.socket.sendall(cheap_frame(payload))
            ends = peer.answers(1)
            if ends != [wanted]:
                faults.append((payload[:40], ends))
        peer.edit(1, "set", [0, 0], "a", 1)
        peer.socket.sendall(cheap_frame(b"x" * (LARGEST + 1)))
        code = peer.await_end()
        if (peer.ends, code) != ([["idle"]], 1009):
            faults.append(("an edit, and a message that is too large", peer.ends, code))

    with watched(room, notes, LARGE) as server:
        threads = [threading.Thread(target=send, args=(Peer(server).begin(),)) for _ in range(8)]
        for thread in threads:
            thread.start()
        for thread in threads:
            thread.join(LIMIT)
        require(not faults and not any(thread.is_alive() for thread in threads), "messages of 2 MiB have other answers:", faults[:3])
        require(server.ended(TOO_LARGE) == 8, "of 8 connections ended for a message that was too large", server.ended(TOO_LARGE))
    return f"8 clients send 8 messages of 2 MiB each, and one with a byte more; {notes[0]}"


# For eight clients a message of 2 MiB each, with room for twice as many bytes, and in each of the allocator's two arenas what a JSON tree took: 80 bytes for
# each byte of the text of an edit.
TREES = (8 * 2 * 2 + 2 * 80) * 1024


def nested(head, unit, size):
    """A text of this size at most, which repeats this unit in lists."""
    tail = b"0" + b"]" * head.count(b"[")
    return head + unit * ((size - len(head) - len(tail)) // len(unit)) + tail


def large_trees(name):
    """Messages whose JSON trees are large for their texts, with the answer to each: those that no edit of 1 MiB has are refused unread."""
    objects, lists = (opened * 100 + b"0" + closed * 100 + b"," for opened, closed in ((b'{"":', b"}"), (b"[", b"]")))
    here = b'["here",%d,[' % name
    return [(nested(head, unit, LARGEST), ["no", 7]) for head in (b"[", here) for unit in (objects, lists)] + [
        (nested(b"[", lists, MIB), ["no", 9]), (nested(here, lists, MIB), ["no", 8]), (nested(here, objects, MIB // 64), ["no", 8])]


def trees(room):
    notes, faults = [], []

    def send(peer):
        for payload, wanted in large_trees(peer.name):
            peer.socket.sendall(cheap_frame(payload))
            ends = peer.answers(1)
            if ends != [wanted]:
                faults.append((payload[:40], len(payload), ends))
        peer.leave()

    with watched(room, notes, TREES) as server:
        threads = [threading.Thread(target=send, args=(Peer(server).begin(),)) for _ in range(8)]
        for thread in threads:
            thread.start()
        for thread in threads:
            thread.join(LIMIT)
        require(not faults and not any(thread.is_alive() for thread in threads), "messages with large JSON trees have other answers:", faults[:3])
    return f"8 clients send 7 messages each whose JSON trees are large; {notes[0]}"


HALVES = {
    "nothing": b"",
    "a byte": b"\x82",
    "half a head": b"\x82\xfe\x01",
    "half a payload": framed(b'["live",1,1]' + b" " * 1000)[:500],
    "the first of two frames": framed(b"[", is_last=False),
    "a length of 2 MiB": b"\x82\xff" + LARGEST.to_bytes(8, "big") + bytes(4) + b"[0",
    "half a ping": framed(b"there?", opcode=9)[:5],
}
IDLE = 20


def silent(room):
    notes = []
    with watched(room, notes, SMALL, "--idle", str(IDLE)) as server:
        begun, peers = time.monotonic(), []
        for is_live in (False, True):
            for half in HALVES.values():
                peers.append(Peer(server))
                if is_live:
                    peers[-1].begin()
                peers[-1].socket.sendall(half)
        cut = 0
        for half in list(HALVES.values())[1:]:
            peer = Peer(server).begin()
            peer.socket.sendall(edit_frame(peer.name, 1, ["set", [0, 0], "a", 1]) + half)
            peer.socket.shutdown(socket.SHUT_WR)
            peer.await_end()
            require(peer.ends == [["idle"]], "an edit before half a frame and an end is answered", peer.ends)
            cut += 1
        require(server.ended(BROKEN) == cut, "of", cut, "connections that were closed within a frame ended", server.ended(BROKEN))
        require(server.ended(SILENT) == 0 or time.monotonic() - begun > IDLE, "a silent connection ends too soon")
        # What is pushed to a live one that reads nothing may fill its buffers before.
        until(lambda: server.ended(SILENT) + server.ended(SLOW) == len(peers), "not all connections that are silent within a frame end")
        require(server.ended(SLOW) <= len(HALVES), "connections that wait for nothing took too little:", server.ended(SLOW))
        seconds = time.monotonic() - begun
        require(server.ended() == len(peers) + cut and server.metric("clients") == 2, "other connections have ended too")
    return f"{len(peers)} connections that are silent within a frame end after {seconds:.0f} s, {cut} that are closed within one end at once; {notes[0]}"


EDITS = 100_000


def judged(server, name):
    """Returns how many edits of this client were judged. The next number must be judged, and no other."""
    peer, version, done, answer = Peer(server), 0, 0, []
    while len(answer) != 1:
        answer = peer.ask("ask", name, version)
        for message in answer[:-1]:
            version = message[1]
            if message[0] == "copy":
                done = message[2]
            elif message[2][0] == name:
                require(message[2][1] == done + 1, "in the log of client", name, "edit", message[2][1], "follows", done)
                done += 1
    for number, wanted in ((done + 2, ["no", 3]), (done + 1, ["idle"])):
        answer = peer.ask("edit", name, number, ["delete", [0, 9]])
        require(answer == [wanted], "of client", name, "edit", number, "after", done, "at version", version, "is answered", answer)
    peer.leave()
    return done


def deaf(room):
    notes = []
    with watched(room, notes, SMALL) as server:
        peer = Peer(server, room=4096).begin()
        # Some thousand of these fill what the system keeps of the answers and pushes to this client.
        data = b"".join(edit_frame(peer.name, number, ["set", [0, 0], "deaf", f"{number:0500}"]) for number in range(1, EDITS + 1))
        begun = time.monotonic()
        took_all = peer.push_bytes(data)
        until(lambda: server.ended(SLOW) == 1, "the connection of a client that reads nothing doesn't end")
        seconds = time.monotonic() - begun
        require(server.ended() == 1, "other connections have ended too")
        done = judged(server, peer.name)
        require(64 <= done <= EDITS, "of a client that reads nothing", done, "edits were judged")
    return f"a client that reads nothing is disconnected after {seconds:.0f} s; {done} of its {EDITS} edits were judged{', all were read' if took_all else ''}; {notes[0]}"


PINGS = 200_000


def pings(room):
    notes = []
    with watched(room, notes, SMALL) as server:
        peer = Peer(server, room=4096).begin()
        begun = time.monotonic()
        ping = b"\x89\xfd" + bytes(4) + b"p" * 125
        peer.push_bytes(ping * PINGS)
        until(lambda: server.ended(SLOW) == 1, "the connection of a client that reads no pong doesn't end")
        seconds = time.monotonic() - begun
        again = Peer(server).begin()
        again.socket.sendall(ping * 1000 + edit_frame(again.name, 1, ["delete", [0, 9]]))
        found = []
        while not again.ends:
            again.rest += again.socket.recv(MIB)
            for opcode, payload in again.take_whole():
                found.append(opcode)
                again.take_frame(opcode, payload)
        require(found.count(10) == 1000 and again.ends == [["idle"]], "of 1,000 pings have a pong before the next answer", found.count(10))
        again.leave()
        until(lambda: server.metric("clients") == 2, "a seat isn't free again")
        require(server.ended() == 2, "other connections have ended too")
    return f"a client that reads no pong is disconnected after {seconds:.0f} s; 1,000 pings have their pongs before the next answer; {notes[0]}"


VALUE = "v" * 500_000
VALUES = 8
# A document of 4 MB is on both sides of the board and in the server's state. For each of five clients there is a copy as text, and once more as output.
COPIED = 5 * 3 * VALUES * len(VALUE) // 1024 + SMALL


@contextlib.contextmanager
def sipping(peers, count, pause):
    """Meanwhile these clients read so many bytes at a time, with this pause between."""
    stop = threading.Event()

    def sip(peer):
        peer.socket.settimeout(1)
        while not stop.wait(pause):
            with contextlib.suppress(OSError):
                peer.socket.recv(count)

    for peer in peers:
        threading.Thread(target=sip, args=(peer,), daemon=True).start()
    try:
        yield
    finally:
        stop.set()


def trickle(room):
    notes = []
    with watched(room, notes, COPIED) as server:
        author = Peer(server).begin()
        for number in range(1, VALUES + 1):
            author.edit(number, "set", [0, 0], f"v{number}", VALUE)
            require(author.answers(1) == [["idle"]], "a value isn't set")
        author.leave()
        peers = [Peer(server, room=4096) for _ in range(4)]
        for peer in peers:
            peer.name = peer.join()
            peer.socket.sendall(b"".join(cheap_frame(text_of(["ask", peer.name, 0]).encode()) for _ in range(10)))
        begun = time.monotonic()
        with sipping(peers, 1, 1):
            other = Peer(server)
            answer = other.ask("ask", other.join(), 0)
            waited = time.monotonic() - begun
            require(answer[0][0] == "copy" or len(answer) > VALUES, "another client than the slow readers is answered", answer[-1])
            other.leave()
            until(lambda: server.ended(SLOW) == 4, "the connection of a client that reads a byte a second doesn't end")
            seconds = time.monotonic() - begun
        until(lambda: server.metric("clients") == 2, "a seat isn't free again")
        require(server.ended() == 6, "other connections have ended too")
    return f"4 clients that read a byte a second are disconnected after {seconds:.0f} s; another one has its copy after {waited:.1f} s; {notes[0]}"


BUSY_IDLE, BUSY = 6, 14


def busy(room):
    """A client sends without a pause, for longer than it may be silent."""
    notes, block = [], 1000
    with watched(room, notes, SMALL, "--idle", str(BUSY_IDLE)) as server:
        peer = Peer(server).begin()
        asks = cheap_frame(text_of(["ask", peer.name, 1 << 40]).encode()) * block
        begun, sent = time.monotonic(), [0]

        def flood():
            while time.monotonic() - begun < BUSY:
                peer.socket.sendall(asks)
                sent[0] += block

        flooder = threading.Thread(target=flood)
        flooder.start()
        while flooder.is_alive() or len(peer.ends) < sent[0]:
            peer.read(0.1)
        require(peer.ends == [["idle"]] * sent[0], "one of many asks has another answer")
        peer.edit(1, "set", [0, 0], "a", 1)
        require(peer.answers(sent[0] + 1)[-1] == ["idle"] and server.ended() == 0, "the connection of a busy client has ended")
        peer.leave()
    return f"a client that sent {sent[0]} asks within {BUSY} s isn't silent; {notes[0]}"


# For how many seconds a client sends, longer than a slow reader is waited for; the bytes of its edits; and the most seconds between two answers, on a machine
# that may be busy.
EAGER, EAGER_BYTES, EAGER_PAUSE = 25, (10_000, 1_000_000), 15


def eager(room):
    """Clients send large edits without a pause, and read what comes: they are answered all the time, and stay."""
    notes, found = [], []
    with watched(room, notes, LARGE) as server:
        for size in EAGER_BYTES:
            peer = Peer(server).begin()
            frames = (edit_frame(peer.name, number, ["set", [0, 0], "a", "x" * size]) for number in itertools.count(1))
            is_over, begun = time.monotonic() + EAGER, time.monotonic()
            sender = threading.Thread(target=peer.send_frames, args=(itertools.takewhile(lambda _, end=is_over: time.monotonic() < end, frames),), daemon=True)
            sender.start()
            last, longest = begun, 0.0
            while sender.is_alive():
                count = len(peer.ends)
                peer.read(0.1)
                if len(peer.ends) > count:
                    last = time.monotonic()
                longest = max(longest, time.monotonic() - last)
            found.append((len(peer.ends), longest))
            require(all(end == ["idle"] for end in peer.ends) and server.ended(SLOW) == 0, "the connection of a client that reads has ended")
            peer.leave()
    require(all(longest < EAGER_PAUSE for _, longest in found), "between two answers of a client that sends without a pause pass so many seconds:", found)
    return f"clients that send edits of {EAGER_BYTES} bytes without a pause have {[count for count, _ in found]} answers within {EAGER} s; {notes[0]}"


RESETS = 40


def resets(room):
    notes, dice, done = [], random.Random(1), 0
    with watched(room, notes, SMALL) as server:
        for turn in range(RESETS):
            peer = Peer(server).begin()
            count = dice.randint(1, 200)
            data = b"".join(edit_frame(peer.name, number, ["set", [0, 0], "reset", number]) for number in range(1, count + 1))
            peer.socket.sendall(data[: dice.randint(1, len(data))])
            time.sleep(dice.choice([0, 0.001, 0.02]))
            peer.reset()
            # Edits that were read before the reset may be judged until the connection has ended.
            until(lambda: server.metric("clients") == 2, "the seat of a connection that was reset isn't free again")
            found = judged(server, peer.name)
            require(found <= count, "of", count, "edits before a reset were judged", found)
            done += found
    return f"{RESETS} connections are reset with edits under way, {done} of these were judged; {notes[0]}"


READERS, BATCH, BATCHES, LEAST_SECONDS = 20, 20, 5, 12
BIG = 200_000
# For each reader 256 KiB of output and one edit more, and as much once more for the next push. The last entries up to 1 MiB, and as much since the last
# checkpoint, on both sides of the board and in the history. A batch of the writer, as it came and as its answers.
READ_NOTHING = READERS * 2 * (256 + BIG // 1024) + 3 * 2 * 1024 + 2 * BATCH * BIG // 1024 + SMALL


def batch(writer, number):
    """Sends a batch of edits, and waits for their entries. Returns the number of the last one, and the seconds."""
    begun = time.monotonic()
    for _ in range(BATCH):
        number += 1
        writer.edit(number, "set", [0, 0], "big", f"{number:08}" + "b" * (BIG - 8))
    require(writer.answers(BATCH) == [["idle"]] * BATCH, "an edit of a batch isn't judged")
    end = time.monotonic() + LIMIT
    while writer.done < number:
        require(time.monotonic() < end, "of", number, "edits the entries came up to", writer.done)
        writer.read(1)
    writer.told.clear()
    return number, time.monotonic() - begun


def slow(room):
    notes = []
    with watched(room, notes, READ_NOTHING) as server:
        writer, number, alone, beside = Peer(server).begin(), 0, [], []
        for _ in range(BATCHES):
            number, seconds = batch(writer, number)
            alone.append(seconds)
        readers = [Peer(server, room=4096).begin() for _ in range(READERS)]
        begun = time.monotonic()
        while server.ended(SLOW) < len(readers) or time.monotonic() - begun < LEAST_SECONDS:
            require(time.monotonic() - begun < LIMIT, "of", READERS, "clients that read nothing were disconnected", server.ended(SLOW))
            number, seconds = batch(writer, number)
            beside.append(seconds)
        ended = time.monotonic() - begun
        require(server.ended() == READERS and server.metric("clients") == 3, "other connections have ended too")
    mean = [1000 * sum(them) / len(them) for them in (beside, alone)]
    return (f"{READERS} clients that read nothing are disconnected within {ended:.0f} s; a batch of {BATCH} edits of 200 kB takes {mean[0]:.0f} ms with them "
            f"(at most {1000 * max(beside):.0f}), {mean[1]:.0f} before (at most {1000 * max(alone):.0f}); {notes[0]}")


# The document of the groups below has 10 MB, and a copy of it as many.
ROWS, ROW = 100, 100_000
COPY = ROWS * ROW // 1024
# What all connections together may have waiting, and each one besides.
POOL, EACH = 64 * 1024, 512
# Seconds within which a client has its copy that waits for nobody, and by which edits of others may arrive later, on a machine that may be busy.
SOON, LATER = 5, 0.25


def imported(room, rows, size):
    """Makes a folder that holds a document of so many objects, each with a text of this size."""
    lines = ['[[0,0],"document",null,[]]']
    lines += [text_of([[1, number], "page", [[0, 0], f"{number:06d}O"], [["text", "x" * size]]]) for number in range(1, rows + 1)]
    shared.call(PROGRAM, "import", room, text="\n".join(lines).encode())


def own_copy(server):
    """Has another client join and ask for a copy, which no client had before. Returns the client, and the seconds until it had its copy."""
    begun, peer = time.monotonic(), Peer(server)
    answer = peer.ask("ask", peer.join(), 0)
    require(answer[-1] == ["idle"] and answer[0][0] == "copy" and len(answer[0][3]) == ROWS + 1, "a client that asks for a copy is answered", answer[-1])
    return peer, time.monotonic() - begun


def next_copy(server):
    """Another client has a copy of its own soon, and leaves. Returns the seconds."""
    peer, seconds = own_copy(server)
    require(seconds < SOON, "another client has its copy only after", seconds, "s")
    peer.leave()
    return seconds


# The text of eight clients, that of the ninth, and the state that it is written from.
NINTH = 3 * COPY + SMALL


def ninth(room):
    notes = []
    imported(room, ROWS, ROW)
    with watched(room, notes, NINTH, most_later=LATER) as server:
        peers = [Peer(server, room=4096) for _ in range(8)]
        for peer in peers:
            peer.name = peer.join()
        begun = time.monotonic()
        for peer in peers:
            peer.say("ask", peer.name, 0)
        for peer in peers:
            peer.socket.recv(1)
        with sipping(peers, 1, 1):
            waited = next_copy(server)
            require(server.ended(SLOW) == 0, "a client has its copy only once slow readers have been disconnected")
            until(lambda: server.ended(SLOW) == 8, "the connection of a client that reads a byte a second doesn't end")
            seconds = time.monotonic() - begun
        until(lambda: server.metric("clients") == 2, "a seat isn't free again")
        again = next_copy(server)
    return (f"8 clients read a byte a second of their copies of {COPY / 1024:.0f} MB, and are disconnected after {seconds:.0f} s; a ninth one has its own copy after "
            f"{waited:.1f} s, one more afterwards after {again:.1f} s; {notes[0]}")


IDLERS = 12
# The copy that is written, the one before, and the state that it is written from.
RESTING = 3 * COPY + SMALL


def resting(room):
    """Nothing of a copy is kept once it is sent: neither its memory nor its place among what all connections may have waiting."""
    notes, peers, waited = [], [], []
    imported(room, ROWS, ROW)
    with watched(room, notes, RESTING, most_later=LATER) as server:
        for _ in range(IDLERS):
            peer, seconds = own_copy(server)
            require(seconds < SOON, "with", len(peers), "idle clients that have their copies another one has its copy only after", seconds, "s")
            peers.append(peer)
            waited.append(seconds)
        require(server.ended() == 0 and server.metric("clients") == 2 + IDLERS, "a connection of an idle client has ended")
        for peer in peers:
            peer.leave()
    return f"each of {IDLERS} clients that stay has a copy of its own after at most {max(waited):.1f} s; {notes[0]}"


HOARDERS = 16
# The texts that are counted, the last one, and the state that it is written from.
HOARDED = POOL + HOARDERS * EACH + 2 * COPY + SMALL


NEWCOMERS, BEHIND = 24, 20


def newcomers(room):
    """Live clients that begin at version 0 get a copy each, and behind it each entry, while another one edits: nobody waits while copies are written."""
    notes = []
    imported(room, ROWS, ROW)
    with watched(room, notes, POOL + NINTH, most_later=LATER) as server:
        begun = time.monotonic()
        peers = [Peer(server).begin(0) for _ in range(NEWCOMERS)]
        until_told(peers, 1)
        seconds = time.monotonic() - begun
        until_told(peers, 1 + BEHIND)
        for peer in peers:
            kinds, versions = [message[0] for message in peer.told], [message[1] for message in peer.told]
            last = max(at for at, kind in enumerate(kinds) if kind == "copy")
            require(len(peer.told[last][3]) == ROWS + 1, "a copy has so many objects:", len(peer.told[last][3]))
            require(versions[last:] == list(range(versions[last], versions[last] + len(versions) - last)), "behind its copy a client is told", versions[last:])
            require(last == kinds.index("copy"), "a client is told a second copy, after", versions[:last])
            peer.leave()
        until(lambda: server.metric("clients") == 2, "a seat isn't free again")
    return f"{NEWCOMERS} live clients have their copies of {COPY / 1024:.0f} MB within {seconds:.1f} s, and then each entry; {notes[0]}"


def until_told(peers, count):
    """Waits until each of these clients was told so many entries and copies."""
    end = time.monotonic() + LIMIT
    for peer in peers:
        while len(peer.told) < count:
            require(time.monotonic() < end, "a client is told only", len(peer.told), "messages")
            peer.read(1)


def is_told_full(peer):
    """Checks whether a client that reads nothing was answered No 7."""
    with contextlib.suppress(OSError):
        return b'["no",7]' in peer.socket.recv(64, socket.MSG_PEEK | socket.MSG_DONTWAIT)
    return False


def hoarders(room):
    notes, peers = [], []
    imported(room, ROWS, ROW)
    with watched(room, notes, HOARDED, most_later=LATER) as server:
        begun = time.monotonic()
        for _ in range(HOARDERS):
            peer = Peer(server, room=4096)
            peer.say("ask", peer.join(), 0)
            # The next one joins after this one's copy was made, unless there is no room for it.
            select.select([peer.socket], [], [], 1)
            peers.append(peer)
        until(lambda: server.ended(SLOW) + sum(map(is_told_full, peers)) == HOARDERS, "the connection of a client that reads nothing doesn't end")
        seconds, full = time.monotonic() - begun, sum(map(is_told_full, peers))
        require(0 < full <= HOARDERS - POOL // COPY, "of", HOARDERS, "clients that read nothing of their copies are answered No 7", full)
        for peer in peers:
            peer.reset()
        until(lambda: server.metric("clients") == 2, "a seat isn't free again")
        again = next_copy(server)
    return (f"of {HOARDERS} clients that read nothing of their copies {full} are answered No 7, and the others are disconnected within {seconds:.0f} s; another one "
            f"has its copy then after {again:.1f} s; {notes[0]}")


BIG_ROWS, BIG_EDITS, WAITING = 24, 16, 4
SLOW_SPAN = 8  # seconds within which a reader must take enough
# What all may have waiting; the entries on both sides of the board and in the history; an answer, as text and as output.
FILLED = POOL + (3 + 2) * 1000 * BIG_EDITS + SMALL


def big_entries(server):
    """Has a client make edits of 1 MB. Returns the version before them, and the bytes of an answer to a client at this version."""
    author, text = Peer(server).begin(), "b" * 1_000_000
    edits = [edit_frame(author.name, number, ["set", [0, 0], "big", text]) for number in range(1, BIG_EDITS + 1)]
    # It reads while it sends: a server that has much for it reads nothing of it.
    sender = threading.Thread(target=author.send_frames, args=(edits,), daemon=True)
    sender.start()
    require(author.answers(BIG_EDITS) == [["idle"]] * BIG_EDITS, "an edit of 1 MB isn't judged")
    end = time.monotonic() + LIMIT
    while author.done < BIG_EDITS:
        require(time.monotonic() < end, "of", BIG_EDITS, "edits the entries came up to", author.done)
        author.read(1)
    version = next(message[1] for message in author.told if message[2][0] == author.name) - 1
    author.leave()
    other = Peer(server)
    answer = other.ask("ask", other.join(), version)
    require(answer[0][0] == "entry" and answer[-1] == ["idle"], "a client is answered", answer[0][0], answer[-1])
    other.leave()
    return version, sum(len(text_of(message)) for message in answer)


def ask_beside(server, version, found):
    """A client asks from this version until it isn't answered No 7. Adds the seconds of the first answer, whether that was No 7, and the seconds of the
    last to `found`."""
    peer = Peer(server)
    name, begun = peer.join(), time.monotonic()
    is_refused = peer.ask("ask", name, version)[-1] == ["no", 7]
    first = last = time.monotonic() - begun
    while is_refused and peer.ask("ask", name, version)[-1] != ["idle"]:
        require(last < LIMIT, "a client is answered No 7 without an end")
        time.sleep(0.25)
        last = time.monotonic() - begun
    found.append((is_refused, first, last))
    peer.leave()


def filled(room):
    notes, found = [], []
    imported(room, BIG_ROWS, 1_000_000)
    with watched(room, notes, FILLED, most_later=LATER) as server:
        version, size = big_entries(server)
        holders = [Peer(server, room=4096) for _ in range(POOL * 1024 // size)]
        for peer in holders:
            peer.say("ask", peer.join(), version)
            peer.socket.recv(1)
        with sipping(holders, 4096, 0.25):
            time.sleep(SLOW_SPAN + 1)
            require(server.ended(SLOW) == 0, "a client that reads 16 kB a second is disconnected, and no other one waits")
            more = [threading.Thread(target=ask_beside, args=(server, version, found)) for _ in range(WAITING)]
            for thread in more:
                thread.start()
            for thread in more:
                thread.join(LIMIT)
        require(len(found) == WAITING and all(is_refused and first < SOON and last < 3 * SLOW_SPAN for is_refused, first, last in found),
                "of", WAITING, "clients for whose answers there is no room, the answers come so:", found)
        served = [last for _, _, last in found]
        require(0 < server.ended(SLOW) <= len(holders), "of", len(holders), "slow readers were disconnected", server.ended(SLOW))
        for peer in holders:
            peer.reset()
        until(lambda: server.metric("clients") == 2, "a seat isn't free again")
    return (f"{len(holders)} clients that read 16 kB a second hold answers of {size / 1e6:.1f} MB; {WAITING} more are answered No 7 at once, and "
            f"are served after {min(served):.1f} to {max(served):.1f} s; {notes[0]}")


BURST = 40
# What all may have waiting, as text and as output; the entries on both sides of the board and in the history.
BURSTS = 2 * POOL + 3 * 1000 * BIG_EDITS + SMALL


def burst(room):
    """An answer takes its place among what all may have waiting before its text is written."""
    notes = []
    imported(room, BIG_ROWS, 1_000_000)
    with watched(room, notes, BURSTS) as server:
        version, size = big_entries(server)
        # They ask for half as much again as there is room for.
        count = max(BURST, 3 * POOL * 1024 // (2 * size))
        peers = [Peer(server, room=4096) for _ in range(count)]
        for peer in peers:
            peer.name = peer.join()
        for peer in peers:
            peer.say("ask", peer.name, version)
        until(lambda: server.ended(SLOW) + sum(map(is_told_full, peers)) == count, "of clients that ask at once not all are answered No 7, or disconnected")
        full = sum(map(is_told_full, peers))
        require(full > 0, "of", count, "clients that ask for", size, "bytes none is answered No 7")
        for peer in peers:
            peer.reset()
        until(lambda: server.metric("clients") == 2, "a seat isn't free again")
    return f"of {count} clients that ask at once for answers of {size / 1e6:.1f} MB {full} are answered No 7, and the others are disconnected; {notes[0]}"


GROUPS = (garbage, words, here, quiet, crowd, counts, together, large, trees, silent, deaf, pings, trickle, busy, eager, resets, slow, ninth, resting, newcomers, hoarders, filled, burst)
