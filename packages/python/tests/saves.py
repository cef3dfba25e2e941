#!/usr/bin/env python3
"""Loads the logs of the random worlds of js/test/saves.mjs:  node js/test/saves.mjs 1 100 --trace | python/tests/saves.py

Each must come to the very client that it came to in JavaScript, or to none for the same reason. Then the client of the first part does again what the
log says, kept by `Kept`: what is kept must be that log, until the client is kept anew, and come to that client. Last, what `Kept` does if the shelf
refuses to keep more, and if the whole client is missing. It needs the library, and the module canvas.wasm for the worlds."""

import json
import pathlib
import sys
import tempfile

from lugcurrant import ROOT, Client, FileShelf, Kept, ReplayError

EDIT = b"\x01"


def file_of(parts: list[bytes]) -> bytes:
    return b"".join(len(part).to_bytes(4, "little") + part for part in parts)


class Shelf:
    """Keeps what it is given, or refuses that after so many calls."""

    def __init__(self, parts: list[bytes], calls: int = 1 << 60) -> None:
        self.parts, self.calls, self.puts, self.forgotten = list(parts), calls, 0, False

    def _count(self) -> None:
        self.calls -= 1
        if self.calls < 0:
            raise OSError("no room on the device")

    def read(self) -> list[bytes]:
        return list(self.parts)

    def put(self, whole: bytes) -> None:
        self._count()
        self.puts += 1
        self.parts = [whole]

    def add(self, parts: list[bytes]) -> None:
        self._count()
        self.parts += parts

    def end(self) -> None:
        self.forgotten = True

    def close(self) -> None:
        pass


def do(client: Client, part: bytes) -> None:
    """Does what a part of a log says."""
    if part[:1] == EDIT:
        assert client.resume(part[1:])
    else:
        assert client.receive(part[1:]).took


def written(parts: list[bytes], saved: bytes, k: int) -> None:
    """A client that does this is kept as this log, whenever it is kept."""
    shelf = Shelf(parts[:1])
    kept = Kept(shelf)
    client = kept.load()
    kept.flush()
    for number, part in enumerate(parts[1:]):
        do(client, part)
        if (number + k) % 3 == 0:
            kept.flush()
    kept.flush()
    assert kept.fault is None and client.save() == saved
    assert shelf.parts == parts if shelf.puts == 1 else shelf.parts[1:] == parts[len(parts) - len(shelf.parts) + 1 :]
    assert Kept(Shelf(shelf.parts)).load().save() == saved


def loads(path: pathlib.Path) -> None:
    counts = {"came back": 0, "of a file that was cut": 0, "none": 0}
    for k, line in enumerate(sys.stdin):
        log = json.loads(line)
        parts = [part.encode() for part in log["parts"]]
        path.write_bytes(file_of(parts)[: log.get("length")])
        shelf = FileShelf(path)
        try:
            client = Kept(shelf).load()
            assert client.save() == log["saved"].encode()
            counts["of a file that was cut" if "length" in log else "came back"] += 1
        except ReplayError as fault:
            assert (fault.index, fault.code) == (log["index"], log["code"]), (fault.index, fault.code, log["index"], log["code"])
            counts["none"] += 1
        shelf.close()
        if "saved" in log and "length" not in log:
            written(parts, log["saved"].encode(), k)
    assert all(counts.values()), counts
    print(counts)


def refused(calls: int) -> None:
    """Nothing is kept any more once the shelf has refused a call, and what was kept is forgotten."""
    shelf = Shelf([], calls)
    kept = Kept(shelf)
    client = kept.load()
    kept.flush()
    client.receive(b'["welcome",1]')
    for _ in range(3):
        client.create_last("page", ROOT)
        kept.flush()
    assert (kept.is_keeping, shelf.forgotten, kept.fault is None) == ((False, True, False) if calls < 4 else (True, False, True))


def without_whole() -> None:
    """A log is of no use without the whole client."""
    kept = Kept(Shelf([EDIT + b'["edit",1,1,["create",[1,1],"page",[[0,0],"O"]]]']))
    try:
        kept.load()
    except ReplayError as fault:
        assert (fault.index, fault.code) == (0, "NotJson")
    else:
        raise AssertionError("a log without the whole client was loaded")
    assert kept.load(take_prefix=True).id is None and isinstance(kept.fault, ReplayError)


def main() -> None:
    with tempfile.TemporaryDirectory() as folder:
        loads(pathlib.Path(folder) / "client")
    for calls in range(6):
        refused(calls)
    without_whole()


main()
