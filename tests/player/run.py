#!/usr/bin/env python3
"""run.py FOLDER [SCRIPTS [SEED]]: plays random scripts with the `scene` of that folder, and compares what it writes, line by line, with a plain
model (model.py) that shares no code with it.

- Worlds of nodes: users create, set, clear, move and delete; messages are lost, late, repeated and reordered; the server makes checkpoints, and
  starts again with what was synced. After each event the server and each node are shown. SCRIPTS (300) begin with a page that three nodes show,
  or with nothing, and four more with a chain of frames at the limit of depth. In the end what waits is judged, edit by edit, and each node
  reaches the last version: so what was out of a view's tree comes to light too.
- The log of each world, and each that a restart cut, as a log: with the numbers of reasons, and the places that refusals carry.
- A log for each world, without clients: authors also ask for ids that aren't theirs, for positions that are taken, or behind which none is free.

Prints what was met, and ends with 1 at any difference, with the shortest script that was found to show one. The same SEED (1) gives the same
scripts.

    run.py FOLDER --broken NAME..    breaks the model on purpose (broken.py), and prints by which script that is found first; ends with 1 where
                                     304 scripts don't find it. `all` stands for all breaks.

Needs nothing but Python."""

import collections
import multiprocessing
import os
import random
import subprocess
import sys
import time

import broken
import draw
from scripts import LogScript, WorldScript

SCRIPTS, CHAINS = 300, 4
DRAWN, DRAWN_CHAIN = 100, 150  # how many events are drawn behind an opening; as many more as it is shorter than a page's
END = 1000  # the most events by which a script ends
REQUESTS = 150  # of a log without clients
WORKERS = 4 * (os.cpu_count() or 1)  # most of them wait for `scene`
SHRINKING = 60  # for how many seconds a script is made shorter


# Scripts of each kind, drawn.


def draw_world(seed, opening):
    """Plays a script of a world in the model, that begins so."""
    dice, play, following = random.Random(f"world {seed}"), WorldScript(), None
    begun = draw.OPENINGS[opening]
    for turn, words in enumerate(begun):
        play.play(words, shows=opening != "chain" or turn % 20 == 0)
    for _ in range(DRAWN_CHAIN if opening == "chain" else DRAWN + len(draw.PAGE_EVENTS) - len(begun)):
        words = following if following and not draw.comes(dice, 5) else draw.draw_any(dice, play.world)
        following = draw.draw_next(dice, play.world, *play.play(words))
    draw_end(dice, play)
    play.logs.append(list(play.world.server.log))
    return play


def draw_end(dice, play):
    """Plays events until nothing waits and each node has reached the last version. A model that is broken may never come to that."""
    following = None
    for _ in range(END):
        words = following or draw.draw_last(play.world)
        if not words:
            return
        following = draw.draw_next(dice, play.world, *play.play(words))


def draw_log(seed, chain):
    """Plays a log in the model that may begin with a chain of frames."""
    dice, play = random.Random(f"log {seed}"), LogScript()
    for request in draw.chain_requests() if chain else []:
        play.play(request)
    for _ in range(REQUESTS):
        play.play(draw.draw_request(dice, play.server))
    return play


def log_of(entries):
    """A log that was judged in a world, played once more."""
    play = LogScript()
    values = {shown: asked for asked, shown in draw.VALUES.items()}
    for entry in entries:
        request = [entry.author, *entry.change] if entry.change else ["join"]
        play.play([*request[:-1], values[request[-1]]] if request[1:2] == ["set"] else request)
    return play


# What the program makes of it.


def played(scene, play):
    """The lines that `scene` writes for a script."""
    try:
        done = subprocess.run([scene], input=play.input().encode(), capture_output=True, timeout=60)
    except subprocess.TimeoutExpired:
        return ["it doesn't end"]
    if done.returncode:
        return [f"status {done.returncode}: {done.stderr.decode()}"]
    return done.stdout.decode().split("\n")[:-1]


def difference(scene, play):
    """How many events lead to the first line that isn't the model's, with that line and the model's; None where there is no such line."""
    lines, wanted = played(scene, play), play.output()
    if lines == wanted:
        return None
    at = next((at for at, (line, want) in enumerate(zip(lines, wanted)) if line != want), min(len(lines), len(wanted)))
    return play.events_before(at), "".join(lines[at : at + 1]), "".join(wanted[at : at + 1])


def again(kind, events):
    """These events of a script in the model. An event that refers to one which is left out is left out too. Nothing is shown but in the end."""
    play = kind()
    for number, event in events:
        play.play(event, number, shows=False)
    return play


def shortest(scene, kind, events):
    """A script that still differs, of as few of these events as are left where halves, quarters and so on are dropped as long as it does. None
    where nothing differs that is shown in the end alone."""
    ends = time.monotonic() + SHRINKING
    if not difference(scene, again(kind, events)):
        return None
    size = len(events)
    while size := size // 2:
        for at in range(len(events) - size, -1, -size):
            rest = again(kind, events[:at] + events[at + size :])
            found = time.monotonic() < ends and difference(scene, rest)
            if found:
                events = rest.events[: found[0]]
    return again(kind, events)


# All scripts.


def try_script(task):
    """Plays the scripts of a number. What was met, and the first that differs, if one does, up to there."""
    scene, seed, number, opening = task
    world, log = draw_world(f"{seed} {number}", opening), draw_log(f"{seed} {number}", number % 8 == 0)
    met, first = world.met + collections.Counter({f"log {what}": count for what, count in log.met.items()}), None
    for play in [world, *map(log_of, world.logs), log]:
        met["requests"] += len(play.events) if play is not world else 0
        found = difference(scene, play)
        if found:
            met["differences"] += 1
            first = first or (type(play), play.events[: found[0]], found)
    met["logs"] += len(world.logs) + 1
    return met, first


def tasks(scene, scripts, seed):
    """The scripts that are played. Those with a chain come early, as they are long, but not first, as they are slow."""
    openings = ["drawn" if number % 8 == 0 else "page" for number in range(1, scripts + 1)]
    openings[12:12] = ["chain"] * CHAINS
    return [(scene, seed, number, opening) for number, opening in enumerate(openings, 1)]


def try_all(scene, scripts, seed):
    met, first = collections.Counter(), None
    with multiprocessing.Pool(WORKERS) as pool:
        for more, wrong in pool.imap_unordered(try_script, tasks(scene, scripts, seed)):
            met += more
            if wrong and (not first or len(wrong[1]) < len(first[1])):
                first = wrong
    tell(met, scripts)
    if first:
        tell_difference(scene, *first)
    return 1 if met["differences"] else 0


# What is printed of how events were answered.
MESSAGES = {"taken by a node": "took", "old": "old", "ahead": "ahead", "not for it": "not for me", "repeats": "repeat", "gaps": "gap"}
EVENTS = {"checkpoints": "floor", "restarts": "version", "what can't happen": "nothing"}


def tell(met, scripts):
    """Prints what was met."""

    def refused(start):
        counts = {what[len(start) :]: count for what, count in sorted(met.items()) if what.startswith(start)}
        return f"refused {sum(counts.values()):,} ({', '.join(f'{reason} {count:,}' for reason, count in counts.items())})"

    def answered(words):
        return ", ".join(f"{word} {met['answered ' + answer]:,}" for word, answer in words.items())

    print(f"{scripts + CHAINS:,} scripts, {met['events']:,} events, {met['logs']:,} logs of {met['requests']:,} requests: {met['differences']:,} differences")
    print(f"edits at nodes: made {met['answered edit']:,}, {refused('answered refused ')}")
    print(f"at the server: granted {met['granted']:,}, of these elsewhere {met['elsewhere']:,}, {refused('refused ')}")
    print(f"in logs without clients: granted {met['log granted']:,}, of these elsewhere {met['log elsewhere']:,}, {refused('log refused ')}")
    print(f"messages: {answered(MESSAGES)}")
    print(f"events: {answered(EVENTS)}; restarts that lost entries {met['lost']:,}")
    print(f"views with objects out of the tree {met['hidden']:,}, of these with a cycle {met['cycles']:,}")
    print(f"two nodes at one version with nothing waiting, and equal: {met['pairs']:,}")


def tell_difference(scene, kind, events, found):
    """Prints a difference, and the shortest script that shows one."""
    play = shortest(scene, kind, events)
    if play:
        found = difference(scene, play)
        print("the shortest script with a difference:")
        print("".join("    " + line + "\n" for line in play.input().split("\n")[:-1]), end="")
    print(f"scene:     {found[1]}\nthe model: {found[2]}")


# Breaks of the model.


def try_break(scene, name):
    """Whether a break of the model is found, by how many scripts, and the first difference."""
    with multiprocessing.Pool(WORKERS, initializer=broken.put_in, initargs=(name,)) as pool:
        for count, (_, wrong) in enumerate(pool.imap(try_script, tasks(scene, SCRIPTS, "1")), 1):
            if wrong:
                print(f"{name}: script {count}, after {len(wrong[1]):,} events: scene {wrong[2][1].strip()!r}, the model {wrong[2][2].strip()!r}")
                return True
    print(f"{name}: NOT FOUND by {SCRIPTS + CHAINS} scripts")
    return False


def main(words):
    if not words:
        print(__doc__, file=sys.stderr)
        return 2
    scene, rest = os.path.abspath(os.path.join(words[0], "scene")), words[1:]
    if rest[:1] != ["--broken"]:
        return try_all(scene, int(rest[0]) if rest else SCRIPTS, rest[1] if rest[1:] else "1")
    names = list(broken.BREAKS) if rest[1:] == ["all"] else rest[1:]
    found = [try_break(scene, name) for name in names]
    print(f"{len(found)} breaks of the model, {sum(found)} found")
    return 0 if all(found) else 1


if __name__ == "__main__":
    sys.exit(main(sys.argv[1:]))
