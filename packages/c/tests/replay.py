#!/usr/bin/env python3
"""Replays the random worlds of js/test/worlds.mjs on the flow for C, whose every answer and event has to be the same:

    node js/test/worlds.mjs 1 200 --trace | c/tests/replay.py [--memory | --sanitize]

With --memory each call that takes memory is made with its first allocation failing, then with the second one, and so on until none fails. Each
time it has to return LUGCURRANT_MEMORY and to change nothing; in the end the flows must have returned all that they took. With --sanitize the
flow is compiled with gcc's sanitizers for addresses and undefined behaviour. Needs cc, and the library that LUGCURRANT_LIBRARY names or
packages/c/build made."""

import ctypes
import sys
from pathlib import Path

import c_flow

sys.path.insert(0, str(Path(__file__).resolve().parents[2] / "python/tests"))

from replay import replay  # noqa: E402


def main():
    mode = sys.argv[1] if len(sys.argv) > 1 else ""

    def act(calls):
        counts = replay(sys.stdin, lambda client, **options: c_flow.Flow(calls, client, **options))
        for flow in c_flow.Flow.all:
            flow.free()
        if mode == "--memory":
            assert c_flow.Flow.failures > 1000, "allocations have failed"
            held = [ctypes.c_long.in_dll(calls, name).value for name in ("failing_blocks", "failing_clients")]
            assert held == [0, 0], f"after all flows were freed they hold blocks and clients: {held}"
            print(f"{c_flow.Flow.failures} failed allocations, each reported, nothing changed")
        print(counts, "each answer and event the same", mode)
        return 0

    return c_flow.run(mode, __file__, sys.argv[1:], act)


if __name__ == "__main__":
    sys.exit(main())
