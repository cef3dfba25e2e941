"""The calls of `liblugcurrant.so`. `packages/c/include/lugcurrant.h` says what each does, and what the numbers mean."""

import ctypes
import os
from pathlib import Path
from typing import Any

from ._api import CALLS, FAULTS, VERSION, Handle

BUILD = "packages/c/build --unproved makes it, and packages/python/build a wheel with it; or name it in the variable LUGCURRANT_LIBRARY"


class LibraryMissing(ImportError):
    """The shared library isn't there, can't be loaded, or has another version than this package."""


class ClientError(Exception):
    """Why a call did nothing: `code` is the name, as in all languages, `number` the number, as in C, and `words` a sentence. Nothing has changed."""

    def __init__(self, number: int) -> None:
        self.code, words = FAULTS.get(number, ("Unknown", f"the library answered {number}"))
        self.number = number
        super().__init__(f"{self.code}: {words}")
        self.words = words


class Library:
    """The loaded library: each call by its name, without `lugcurrant_`."""

    def __init__(self, path: str) -> None:
        try:
            loaded = ctypes.CDLL(path)
        except OSError as fault:
            raise LibraryMissing(f"the library {path} can't be loaded ({fault}): {BUILD}") from None
        self._check_version(path, loaded)
        self._calls: dict[str, Any] = {}
        for name, (result, arguments) in CALLS.items():
            call = getattr(loaded, "lugcurrant_" + name, None)
            if call is None:
                raise LibraryMissing(f"the library {path} has no call lugcurrant_{name}: it is another version than this package")
            call.restype = result
            call.argtypes = [ctypes.POINTER(Handle), *arguments]
            self._calls[name] = call

    @staticmethod
    def _check_version(path: str, loaded: Any) -> None:
        """Checks that the library has this package's major and minor version."""
        call, found = getattr(loaded, "lugcurrant_library_version", None), "no version"
        if call is not None:
            call.restype = ctypes.c_uint32
            number = call()
            found = f"version {number // 10000}.{number // 100 % 100}.{number % 100}"
        if found.split(".")[:2] != f"version {VERSION}".split(".")[:2]:
            raise LibraryMissing(f"cannot use the library {path}: it has {found}, and this package version {VERSION}; {BUILD}")

    def __call__(self, name: str, handle: Handle, *arguments: object) -> int:
        """What the call of this name answers."""
        number: int = self._calls[name](handle, *arguments)
        return number


_library: Library | None = None


def places() -> list[Path]:
    """Where the library is looked for: in the variable LUGCURRANT_LIBRARY alone where that is set, beside the package, in `packages/c`."""
    named = os.environ.get("LUGCURRANT_LIBRARY")
    if named:
        return [Path(named)]
    here = Path(__file__).resolve().parent
    built = [above / "packages" / "c" / "liblugcurrant.so" for above in here.parents if (above / "crates").is_dir()]
    return [here / "liblugcurrant.so", *built]


def library() -> Library:
    """The library, loaded once."""
    global _library
    if _library is None:
        found = [path for path in places() if path.exists()]
        if not found:
            raise LibraryMissing(f"there is no {' and no '.join(map(str, places()))}: {BUILD}")
        _library = Library(str(found[0]))
    return _library
