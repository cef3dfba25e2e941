#!/usr/bin/env python3
"""A client that is kept in a file, and what was kept changed by hand or cut:  keep.py"""

import pathlib
import tempfile

from lugcurrant import ROOT, FileShelf, Kept, ReplayError

JOINED = b'["entry",1,[0,0,"join",["joined",1]]]'
PAGE = b'["entry",2,[1,1,["create",[1,1],"page",[[0,0],"O"]],["created",[[0,0],"O"]]]]'


def parts_of(file: bytes) -> list[bytes]:
    parts = []
    while file:
        length = int.from_bytes(file[:4], "little")
        parts.append(file[4 : 4 + length])
        file = file[4 + length :]
    return parts


def file_of(parts: list[bytes]) -> bytes:
    return b"".join(len(part).to_bytes(4, "little") + part for part in parts)


def keep(path: pathlib.Path) -> tuple[bytes, str]:
    """Keeps a client with an edit that the server has and two that wait. The file and the tree."""
    kept = Kept(FileShelf(path))
    client = kept.load()
    kept.flush()
    assert client.receive(b'["welcome",1]').took
    page = client.create_last("page", ROOT)
    assert client.receive(JOINED).took and client.receive(PAGE).took
    client.set(page, "name", "Plan")
    kept.flush()
    client.create_last("frame", page)
    kept.close()
    return path.read_bytes(), client.text()


def load(path: pathlib.Path, file: bytes, take_prefix: bool = False) -> tuple[str | None, int, Exception | None, bytes]:
    """The tree, how many edits wait, the error, and the file after it was let go."""
    path.write_bytes(file)
    kept = Kept(FileShelf(path))
    text, waiting, fault = None, 0, None
    try:
        client = kept.load(take_prefix=take_prefix)
        text, waiting, fault = client.text(), client.waiting, kept.fault
    except ReplayError as raised:
        fault = raised
    kept.close()
    return text, waiting, fault, path.read_bytes()


def changed(path: pathlib.Path, parts: list[bytes], index: int, part: bytes, code: str | None) -> None:
    """Nothing of it is touched; and with `take_prefix` the client is what it was before."""
    assert part != parts[index]
    file = file_of([*parts[:index], part, *parts[index + 1 :]])
    text, _, fault, after = load(path, file)
    assert isinstance(fault, ReplayError) and text is None, fault
    assert (fault.index, fault.code, len(fault.left)) == (index, code, len(parts) - index), (fault, fault.code)
    assert code or fault.made != fault.kept
    assert after == file, "what was kept is touched"
    wanted = load(path, file_of(parts[:index]))
    text, waiting, fault, _ = load(path, file, take_prefix=True)
    assert isinstance(fault, ReplayError) and fault.index == index
    assert (text, waiting) == wanted[:2]


def main() -> None:
    with tempfile.TemporaryDirectory() as folder:
        path = pathlib.Path(folder) / "client"
        right, tree = keep(path)
        parts = parts_of(right)
        assert [part[:1] for part in parts[1:]] == [b"\x02", b"\x01", b"\x02", b"\x02", b"\x01", b"\x01"]
        assert load(path, right)[:3] == (tree, 2, None)
        assert load(path, right[:-5])[1:3] == (1, None), "the edit that a crash cut was never sent"
        wrong = [
            (0, parts[0][:-9], "NotJson"),
            (1, parts[1].replace(b"welcome", b"welcomes"), "NotAMessage"),
            (2, parts[2].replace(b"[1,1]", b"[1,7]"), "Inconsistent"),  # not the next id
            (2, parts[2].replace(b'"edit",1,1', b'"edit",2,1'), "NotOwn"),
            (3, parts[3].replace(b'"entry",1', b'"entry",2'), "ahead"),
            (4, parts[4].replace(b"page", b"text"), "not for me"),  # not its own edit
            (4, b"\x01" + parts[4][1:], "NotAnEdit"),
            (5, parts[5].replace(b'"edit",1,2', b'"edit",1,4'), "Gap"),
            (5, parts[5].replace(b'"edit",1,2', b'"edit",1,1'), "old"),
            (5, parts[5].replace(b'["edit",', b'["edit", '), None),  # the same edit, not as the client sends it
            (6, parts[6][:-4], "NotJson"),
            (6, b"\x07" + parts[6][1:], "unknown"),
        ]
        for index, part, code in wrong:
            changed(path, parts, index, part, code)
        # An edit that was changed into another one of the client's own is that one, whatever the client shows: the server judges it.
        others = [(5, parts[5].replace(b"[1,1]", b"[1,2]")), (5, parts[5].replace(b"Plan", b"Place")), (6, parts[6].replace(b"frame", b"page"))]
        for index, part in others:
            assert part != parts[index]
            path.write_bytes(file_of([*parts[:index], part, *parts[index + 1 :]]))
            kept = Kept(FileShelf(path))
            assert kept.load().edit_message(index - 4) == part[1:]
            kept.close()
        print(f"{2 + len(wrong) + len(others)} kept files, each as it should be")


main()
