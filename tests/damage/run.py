#!/usr/bin/env python3
"""run.py CANVASD [TIMES [SEED]]: damages the segments of a journal at random, so many times (100000), and looks at each with `canvasd show`.

The journals are of one log: in the form of today and in the older one, from the opening on and from a checkpoint in the middle, and with the
segment below that checkpoint still there. A damage is one of these: a bit is flipped; two records are swapped; a record stands twice; a
segment is cut; foreign bytes stand in a segment, behind one, or in one of their own, among them another journal's.

`show` ends with status 0 or 5 and never with another, says where the damage is, and leaves the folder as it was. With 0 the document is that
of a beginning of the log, or of the foreign log where a foreign segment was put. One thing is let pass, and counted: a flipped bit may leave
a text that still reads as such a record, as records have no check sum; then the document is that of another log.

Prints how many damages of each kind there were, and what `show` said; exits with 1 where it said something else. The same SEED gives the same
damages, however many processors there are. Needs nothing but Python."""

import collections
import json
import multiprocessing
import os
import random
import re
import shutil
import subprocess
import sys
import tempfile

CHUNK = 500
ROOT = [[0, 0], "document", None, []]
LOG = [
    [0, 0, "join", ["joined", 1]],
    [0, 0, "join", ["joined", 2]],
    [1, 1, ["create", [1, 1], "page", [[0, 0], "O"]], ["created", [[0, 0], "O"]]],
    [1, 2, ["create", [1, 2], "frame", [[1, 1], "O"]], ["created", [[1, 1], "O"]]],
    [2, 1, ["create", [2, 1], "page", [[0, 0], "a"]], ["created", [[0, 0], "a"]]],
    [1, 3, ["set", [1, 2], "name", "Toolbar"], ["wasset"]],
    [2, 2, ["set", [2, 1], "list", ["list", 1, True, ["rgba", 255]]], ["wasset"]],
    [1, 4, ["create", [1, 3], "shape", [[1, 2], "O"]], ["created", [[1, 2], "O"]]],
    [1, 5, ["move", [1, 3], [[1, 1], "a"]], ["moved", [[1, 1], "a"]]],
    [2, 3, ["delete", [2, 9]], ["refused", 3, None]],
    [1, 6, ["clear", [1, 2], "name"], ["wasset"]],
    [2, 4, ["create", [2, 2], "text", [[2, 1], "O"]], ["created", [[2, 1], "O"]]],
    [1, 7, ["delete", [1, 2]], ["removed", [[1, 2]]]],
    [0, 0, "join", ["joined", 3]],
    [3, 1, ["create", [3, 1], "page", [[0, 0], "7"]], ["created", [[0, 0], "7"]]],
    [3, 2, ["set", [0, 0], "title", "All of it"], ["wasset"]],
]
# After the first eight entries.
MIDDLE, COUNTS = 8, [[4, 3], [2, 1]]
ROWS = [
    ROOT,
    [[1, 1], "page", [[0, 0], "O"], []],
    [[1, 2], "frame", [[1, 1], "O"], [["name", "Toolbar"]]],
    [[1, 3], "shape", [[1, 2], "O"], []],
    [[2, 1], "page", [[0, 0], "a"], [["list", ["list", 1, True, ["rgba", 255]]]]],
]
FOREIGN = [
    [0, 0, "join", ["joined", 1]],
    [1, 1, ["create", [1, 1], "page", [[0, 0], "F"]], ["created", [[0, 0], "F"]]],
    [1, 2, ["set", [1, 1], "foreign", True], ["wasset"]],
]


def record(tree):
    text = json.dumps(tree, separators=(",", ":")).encode()
    return len(text).to_bytes(4, "big") + text


def today(version, counts, rows, entries):
    return [record(tree) for tree in [["checkpoint", 2, version, counts, len(rows)], *rows, *entries]]


def older(version, counts, rows, entries):
    return [record(tree) for tree in [["checkpoint", 1, version, counts, rows], *entries]]


def journals():
    """Each journal: its segments by their numbers, each a list of records."""
    for form in (today, older):
        begun = form(0, [], [ROOT], LOG[:MIDDLE])
        gone_on = form(MIDDLE, COUNTS, ROWS, LOG[MIDDLE:])
        yield {1: form(0, [], [ROOT], LOG)}
        yield {2: gone_on}
        yield {1: begun, 2: gone_on}


def write(folder, segments):
    shutil.rmtree(folder, ignore_errors=True)
    os.mkdir(folder)
    for number, content in segments.items():
        with open(f"{folder}/segment-{number:010d}", "wb") as file:
            file.write(content)


def held(folder):
    return {int(name[8:]): open(f"{folder}/{name}", "rb").read() for name in os.listdir(folder)}


def show(canvasd, folder):
    try:
        ended = subprocess.run([canvasd, "show", folder], capture_output=True, text=True, timeout=60)
    except subprocess.TimeoutExpired:
        return None, "", "it doesn't end"
    return ended.returncode, ended.stdout, ended.stderr


def beginnings(canvasd, folder, log):
    """What is shown of each beginning of a log."""
    texts = []
    for count in range(len(log) + 1):
        write(folder, {1: b"".join(today(0, [], [ROOT], log[:count]))})
        status, out, err = show(canvasd, folder)
        if status != 0 or not out.startswith(f"version {count}\n"):
            sys.exit(f"the beginning of {count} entries: status {status}, {out!r}, {err!r}")
        texts.append(out)
    return set(texts)


def flip(dice, segments):
    """A bit of a segment."""
    number = dice.choice(sorted(segments))
    content = bytearray(b"".join(segments[number]))
    at = dice.randrange(8 * len(content))
    content[at // 8] ^= 1 << at % 8
    return {**joined(segments), number: bytes(content)}


def swap(dice, segments):
    """Two records of a segment."""
    number = dice.choice(sorted(segments))
    records = list(segments[number])
    one, two = dice.sample(range(len(records)), 2)
    records[one], records[two] = records[two], records[one]
    return joined({**segments, number: records})


def double(dice, segments):
    """A record once more, behind itself or anywhere."""
    number = dice.choice(sorted(segments))
    records = list(segments[number])
    one = dice.randrange(len(records))
    records.insert(dice.choice([one + 1, dice.randrange(len(records) + 1)]), records[one])
    return joined({**segments, number: records})


def cut(dice, segments):
    """A segment."""
    number = dice.choice(sorted(segments))
    content = b"".join(segments[number])
    return {**joined(segments), number: content[:dice.randrange(len(content))]}


def foreign(dice, segments):
    """Bytes from elsewhere in place of a segment, behind one, or in a further one. Another journal's segment stands in one of its own."""
    whole, number = joined(segments), dice.choice([*segments, dice.randrange(1, 12), 4294967294])
    noise = dice.choice([dice.randbytes(dice.randrange(1, 200)), b"# notes\n" * dice.randrange(1, 9), record("abc"), record([9, 1, ["delete", [9, 1]], ["removed", [[9, 1]]]])])
    if dice.random() < 0.4:
        return {**whole, number: b"".join(dice.choice([today, older])(0, [], [ROOT], FOREIGN))}
    if dice.random() < 0.5:
        return {**whole, number: noise}
    number = dice.choice(sorted(segments))
    return {**whole, number: whole[number] + noise}


def joined(segments):
    return {number: b"".join(records) for number, records in segments.items()}


DAMAGES = {"a flipped bit": flip, "swapped records": swap, "a record twice": double, "a cut segment": cut, "foreign bytes": foreign}


def said(ended, kind, texts, foreign_texts):
    """What `show` said of a damage."""
    status, out, err = ended
    if status == 5 and out == "" and re.fullmatch(r"damaged segment \d+ offset \d+\n", err):
        return "damaged"
    if status != 0 or err:
        return f"wrong: status {status}, {out!r}, {err!r}"
    if out in texts:
        return "a beginning"
    if kind == "foreign bytes" and out in foreign_texts:
        return "the foreign log"
    if kind == "a flipped bit":
        return "another log: the text still reads as a record"
    return f"wrong: {out!r}"


def chunk(task):
    """What became of some damages, by their kinds, and the first that went wrong."""
    canvasd, seed, index, times, texts, foreign_texts = task
    dice, counts, wrong = random.Random(f"{seed} {index}"), collections.Counter(), []
    bases = list(journals())
    room = tempfile.mkdtemp(prefix="damage-", dir="/dev/shm" if os.path.isdir("/dev/shm") else None)
    for turn in range(times):
        kind = dice.choice(list(DAMAGES))
        segments = DAMAGES[kind](dice, dice.choice(bases))
        write(f"{room}/folder", segments)
        end = said(show(canvasd, f"{room}/folder"), kind, texts, foreign_texts)
        if held(f"{room}/folder") != segments:
            end = "wrong: the folder has changed"
        if end.startswith("wrong: "):
            wrong.append(f"{kind}, {index}.{turn}: {end}; {segments}")
            end = "wrong"
        counts[kind, end] += 1
    shutil.rmtree(room)
    return counts, wrong


def main():
    canvasd = os.path.abspath(sys.argv[1])
    times = int(sys.argv[2]) if len(sys.argv) > 2 else 100000
    seed = sys.argv[3] if len(sys.argv) > 3 else "1"
    room = tempfile.mkdtemp(prefix="damage-")
    texts = beginnings(canvasd, f"{room}/folder", LOG)
    foreign_texts = beginnings(canvasd, f"{room}/folder", FOREIGN)
    for segments in journals():
        write(f"{room}/folder", joined(segments))
        status, out, err = show(canvasd, f"{room}/folder")
        if status != 0 or not out.startswith(f"version {len(LOG)}\n") or out not in texts:
            sys.exit(f"a whole journal: status {status}, {out!r}, {err!r}")
    shutil.rmtree(room)
    tasks = [(canvasd, seed, at, min(CHUNK, times - at), texts, foreign_texts) for at in range(0, times, CHUNK)]
    counts, wrong = collections.Counter(), []
    with multiprocessing.Pool() as pool:
        for more, bad in pool.imap_unordered(chunk, tasks):
            counts += more
            wrong += bad
    for kind in DAMAGES:
        print(f"{kind}: " + ", ".join(f"{count} {end}" for (of, end), count in sorted(counts.items()) if of == kind))
    for line in wrong[:20]:
        print(line)
    print(f"{sum(counts.values())} damages, {len(wrong)} went wrong")
    sys.exit(1 if wrong else 0)


if __name__ == "__main__":
    main()
