"""Writes the version of api.json into a section of a WebAssembly module: add_version.py MODULE [VERSION]. The package for JavaScript compares it."""

import json
import pathlib
import sys

NAME = b"lugcurrant.version"


def number(value):
    """The number in LEB128."""
    out = bytearray()
    while True:
        value, low = value >> 7, value & 127
        out.append(low | (128 if value else 0))
        if not value:
            return bytes(out)


def section(version):
    """The custom section of this version."""
    text = number(len(NAME)) + NAME + version.encode()
    return b"\0" + number(len(text)) + text


if __name__ == "__main__":
    api = json.loads((pathlib.Path(__file__).resolve().parent.parent / "api.json").read_text())
    with open(sys.argv[1], "ab") as file:
        file.write(section(sys.argv[2] if len(sys.argv) > 2 else api["version"]))
