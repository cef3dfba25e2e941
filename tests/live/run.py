#!/usr/bin/env python3
"""run.py LUGCURRANT [GOES [SEED]] [--jobs N] [GROUP..]: tests live connections of `lugcurrant serve`. Each group has a folder of its own; without names
all groups are run.

- storm: GOES (20) goes from SEED on, N (1) at a time. In each, two to six live clients (links of the packages, in one go of four one of them in node) and
  up to two older clients make random edits to one document, over a proxy that cuts connections within frames; the server is killed up to twice. At
  the end all clients show what the folder holds, and each edit is in the log once. `run.py LUGCURRANT 1 SEED storm` repeats a go, but for its timing.
- garbage: messages that the server can't read are answered by No 9, frames that break the protocol end a connection, after the answers before them.
- words: spellings of `live`, unknown ids, versions above the server's; thousands of `live` in one write.
- here: what clients tell of themselves reaches all live ones, the last always, at most 30 a second of each; null at the end; what is refused.
- quiet: what clients tell of themselves arrives though nothing else comes; of a client's two connections that ends which told less.
- crowd: a thousand live clients; each sees an edit; they take at most 25 kB each.
- counts: the metrics count live clients and pushes.
- together: edits that come at once share a sync, also those of several clients; other messages between them are answered in their order.
- large: messages of 2 MiB, and of a byte more, from eight clients at once.
- trees: messages from eight clients at once whose JSON trees are large for their texts.
- silent: connections that are silent within a frame end after --idle; those that are closed within a frame end at once.
- deaf: a client sends 100,000 edits and reads nothing.
- pings: a client sends 200,000 pings and reads no pong; of another one each ping has its pong.
- trickle: four clients ask for copies of 4 MB and read a byte a second.
- busy: a client sends without a pause for longer than --idle, and isn't silent.
- eager: clients send large edits without a pause, longer than a slow reader is waited for, and read: they are answered all the time.
- resets: connections are reset with edits under way; the edits that were judged are the first ones.
- slow: 20 live clients read nothing while another one sends batches of 20 edits of 200 kB.
- ninth: eight clients read a byte a second of their copies of 10 MB; a ninth one joins, and has its own copy.
- resting: twelve clients, one after the other, join, have copies of 10 MB of their own, and stay.
- newcomers: live clients that begin at version 0 have a copy of 10 MB each, and then each entry, while another one edits.
- hoarders: sixteen clients join, ask for copies of 10 MB, and read nothing.
- filled: slow readers hold answers of 64 MiB; four more that ask are answered No 7 at once, and served once slow readers are disconnected.
- burst: forty clients ask for answers of 16 MB at once, and read nothing.

All but storm and quiet also bound the server's memory, and report the milliseconds after which edits of one other client arrive at another (median, 95th percentile),
with the hostile clients and before; ninth, resting, newcomers, hoarders and filled bound how much later they arrive. The storm needs Debian's python3-websockets. Without
liblugcurrant.so or canvas.wasm its clients are stand-ins, as its line says.

Prints a line for each group and each go, and exits with 1 if one failed."""

import asyncio
import concurrent.futures
import multiprocessing
import os
import random
import sys
import traceback
from pathlib import Path

TOP = Path(__file__).resolve().parents[2]
sys.path[:0] = [str(TOP / "tests"), str(TOP / "examples" / "plain"), str(TOP / "packages" / "python" / "src")]

import hostile  # noqa: E402
from shared import numbers_and_names, record, require, try_groups  # noqa: E402

WORDS = sys.argv[1:]
JOBS = 1
if "--jobs" in WORDS:
    at = WORDS.index("--jobs")
    JOBS = int(WORDS[at + 1])
    del WORDS[at : at + 2]
PROGRAM = os.path.abspath(WORDS[0])
NUMBERS, NAMES = numbers_and_names(WORDS[1:])
GOES = int(NUMBERS[0]) if NUMBERS else 20
SEED = int(NUMBERS[1]) if len(NUMBERS) > 1 else random.randrange(1, 1 << 20)


def play(room, seed):
    """Plays one go of the storm."""
    import storm

    return asyncio.run(storm.go(PROGRAM, room, seed))


def storm(room):
    try:
        import websockets  # noqa: F401
    except ImportError:
        return "not tried: there is no package websockets"
    from standin import over_what

    os.mkdir(room)
    wrong, sums = [], {"edits": 0, "kills": 0, "cuts": 0, "hidden": 0}
    with concurrent.futures.ProcessPoolExecutor(JOBS, multiprocessing.get_context("fork")) as pool:
        goes = {pool.submit(play, os.path.join(room, str(seed)), seed): seed for seed in range(SEED, SEED + GOES)}
        try:
            for done in concurrent.futures.as_completed(goes):
                if fault := done.exception():
                    wrong.append(goes[done])
                    print(f"seed {goes[done]}: WRONG: {type(fault).__name__}: {fault}", flush=True)
                    traceback.print_exception(fault)
                    continue
                found = done.result()
                print(", ".join(f"{key} {value}" for key, value in found.items()), flush=True)
                sums = {key: number + found[key] for key, number in sums.items()}
        except BaseException:
            end_goes(pool)
            raise
    require(not wrong, len(wrong), "of", GOES, "goes failed, with the seeds", *wrong)
    record("live storm", goes=GOES, **sums)
    return f"{GOES} goes from seed {SEED} on, {sums['kills']} kills, {sums['cuts']} connections cut, {sums['edits']} edits, each in the log once; {over_what()}"


def end_goes(pool):
    """Ends the goes that are running, with their servers."""
    pool.shutdown(wait=False, cancel_futures=True)
    for process in multiprocessing.active_children():
        process.terminate()


GROUPS = (storm, *hostile.GROUPS)

if __name__ == "__main__":
    sys.exit(try_groups(GROUPS, NAMES))
