"""Keeping a client, so that a program which ends goes on as the same one, with what waits. What was kept is all of the client once, and then what
it did since: each edit, and each message that it took. The lock that no other program goes on with the same client is taken here."""

import fcntl
import os
from pathlib import Path
from typing import BinaryIO, Protocol

from .client import Client
from .library import ClientError

_EDIT, _TOOK = b"\x01", b"\x02"
_LEAST_JOURNAL = 65536


class ReplayError(Exception):
    """What was kept doesn't come to the client that kept it. Of what was kept, counted from 0 for the whole client, number `index` is `kept`, and
    here it was `made` another edit, or none for the reason `code`. `left` is this and what follows: ("all", "edit" or "took", the message)."""

    def __init__(self, index: int, code: str | None, made: str | None, left: list[tuple[str, str]]) -> None:
        self.index, self.kept, self.code, self.made, self.left = index, left[0][1], code, made, left
        super().__init__(f"what was kept can't be replayed: number {index} is {self.kept[:200]}, and here {made or code}")


class Shelf(Protocol):
    """Keeps one client. Each call answers once it is kept."""

    def read(self) -> list[bytes]:
        """Returns the whole client, and what was added after it; nothing if none was kept."""
        ...

    def put(self, whole: bytes) -> None:
        """Keeps the whole client, in place of all that was kept."""
        ...

    def add(self, parts: list[bytes]) -> None:
        """Keeps more parts."""
        ...

    def end(self) -> None:
        """Forgets what was kept, and lets the lock go."""
        ...

    def close(self) -> None:
        """Lets the lock go."""
        ...


class FileShelf:
    """A shelf in the file `path`, the same as in JavaScript; with a lock on the file `.lock` beside it."""

    def __init__(self, path: str | os.PathLike[str]) -> None:
        self.path = Path(path)
        self.path.parent.mkdir(parents=True, exist_ok=True)
        self._lock: BinaryIO | None = open(f"{self.path}.lock", "ab")
        self._file: BinaryIO | None = None
        try:
            fcntl.flock(self._lock, fcntl.LOCK_EX | fcntl.LOCK_NB)
        except BlockingIOError:
            self._lock.close()
            raise BlockingIOError(f"{self.path} is kept by another program already: two programs can't go on as one client") from None

    def read(self) -> list[bytes]:
        """The whole client, and what it did since; nothing where none was kept."""
        if not self.path.exists():
            return []
        bytes_, parts, at = self.path.read_bytes(), list[bytes](), 0
        while at + 4 <= len(bytes_):
            length = int.from_bytes(bytes_[at : at + 4], "little")
            if at + 4 + length > len(bytes_):
                break  # cut by a crash: it was never sent
            parts.append(bytes_[at + 4 : at + 4 + length])
            at += 4 + length
        return parts or ([bytes_] if bytes_ else [])  # no crash cuts the whole client: it is no client then

    def put(self, whole: bytes) -> None:
        """Writes the whole client into a new file, which takes the place of the former one."""
        if self._file:
            self._file.close()
        self._file = open(f"{self.path}.new", "wb")
        self.add([whole])
        os.replace(f"{self.path}.new", self.path)
        folder = os.open(self.path.parent, os.O_RDONLY)
        try:
            os.fsync(folder)
        finally:
            os.close(folder)

    def add(self, parts: list[bytes]) -> None:
        """Appends parts, and syncs the file."""
        assert self._file is not None
        self._file.write(b"".join(len(part).to_bytes(4, "little") + part for part in parts))
        self._file.flush()
        os.fsync(self._file.fileno())

    def end(self) -> None:
        """Removes the file, and lets the lock go."""
        self.close()
        self.path.unlink(missing_ok=True)

    def close(self) -> None:
        """Lets the lock go. What was kept stays."""
        for file in (self._file, self._lock):
            if file:
                file.close()
        self._file = self._lock = None


class Kept:
    """Keeps a client on a shelf. `fault` is why nothing is kept any more, or why not all could be read; None while all is well."""

    def __init__(self, shelf: Shelf) -> None:
        self._shelf: Shelf | None = shelf
        self._parts: list[bytes] = []
        self._size = self._whole_size = 0
        self._whole = False
        self._client: Client | None = None
        self.fault: Exception | None = None

    def load(self, *, take_prefix: bool = False) -> Client:
        """The client that was kept, or a new one. Raises ReplayError if what was kept doesn't come to that client; then nothing of it is touched.
        With `take_prefix` it goes on with what came before that, and `fault` has the error."""
        assert self._shelf is not None
        parts = self._shelf.read()
        self.fault = None
        try:
            client = _replayed(parts)
        except ReplayError as fault:
            if not take_prefix:
                raise
            self.fault = fault
            client = _replayed(parts[: fault.index])
        self.watch(client)
        return client

    def watch(self, client: Client) -> None:
        """Keeps this client from now on. `load` does so with the client that it returns."""
        self._client = client
        self._whole = False

        def told(what: str, message: bytes | None) -> None:
            if not self._shelf or not self._whole:
                return
            if what == "anew":
                self._keep_all()
            elif what == "edit":
                self._note(_EDIT, client.edit_message(client.waiting))
            else:
                self._note(_TOOK, message)

        client.watch(told)

    def _note(self, kind: bytes, message: bytes | None) -> None:
        """Notes a part, which is kept with the next flush. After a copy, and once the parts are longer than all of the client, all is kept."""
        assert message is not None
        self._size += len(message) + 1
        if (kind == _TOOK and message.startswith(b'["copy"')) or self._size > max(_LEAST_JOURNAL, self._whole_size):
            self._keep_all()
        else:
            self._parts.append(kind + message)

    def _keep_all(self) -> None:
        self._whole = False
        self._parts.clear()

    @property
    def is_keeping(self) -> bool:
        """Whether it keeps: false after an error or `close`."""
        return self._shelf is not None

    def flush(self) -> None:
        """Keeps what the client is by now. Where that fails, nothing is kept any more, and `fault` says why."""
        if not self._shelf or not self._client:
            return
        parts, self._parts = self._parts, []
        try:
            if self._whole:
                if parts:
                    self._shelf.add(parts)
                return
            whole = self._client.save()
            self._shelf.put(whole)
            self._whole, self._size, self._whole_size = True, 0, len(whole)
        except OSError as fault:
            self.fault = fault
            self._shelf.end()
            self._shelf = None

    def close(self) -> None:
        """Keeps what the client is by now, and lets the lock go."""
        self.flush()
        if self._shelf:
            self._shelf.close()
        self._shelf = None


_WORDS = {_EDIT: "edit", _TOOK: "took"}


def _left(parts: list[bytes], index: int) -> list[tuple[str, str]]:
    """What was kept from this number on."""
    left = [(_WORDS.get(part[:1], "unknown"), part[1:].decode(errors="replace")) for part in parts[max(1, index) :]]
    return left if index else [("all", parts[0].decode(errors="replace")), *left]


def _replayed(parts: list[bytes]) -> Client:
    """The client of which all was kept, with what it did since, or a new one."""
    if not parts:
        return Client()
    try:
        client = Client.load(parts[0])
    except ClientError as fault:
        raise ReplayError(0, fault.code, None, _left(parts, 0)) from None
    for index, part in enumerate(parts[1:], 1):
        code, made = _do_again(client, part[:1], part[1:])
        if code or made != part[1:]:
            raise ReplayError(index, code, made.decode() if made else None, _left(parts, index))
    return client


def _do_again(client: Client, kind: bytes, message: bytes) -> tuple[str | None, bytes | None]:
    """Does again what the client did: the edit that it made then, or the message that it took; or the code for which it can't."""
    try:
        if kind == _TOOK:
            heard = client.receive(message)
            return (None, message) if heard.took else (heard.what.name.lower().replace("_", " "), None)
        if kind != _EDIT:
            return "unknown", None
        return (None, client.edit_message(client.waiting)) if client.resume(message) else ("old", None)
    except ClientError as fault:
        return fault.code, None
