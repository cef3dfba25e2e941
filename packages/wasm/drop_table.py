"""Drops the table of functions of a WebAssembly module that makes no indirect call: drop_table.py MODULE.

The linker always writes a table, of 64 bits for a module with such a memory, and engines and binaryen of before it don't read that."""

import sys

TABLE, ELEMENTS = 4, 9


def number(data, at):
    """The number in LEB128 at this place, and the place behind it."""
    value = shift = 0
    while True:
        byte = data[at]
        at += 1
        value |= (byte & 127) << shift
        shift += 7
        if byte < 128:
            return value, at


def without_table(data):
    """The module without its section of tables."""
    out, at = bytearray(data[:8]), 8
    while at < len(data):
        kind = data[at]
        length, begin = number(data, at + 1)
        if kind == ELEMENTS:
            sys.exit("the module fills its table: there are indirect calls")
        if kind != TABLE:
            out += data[at : begin + length]
        at = begin + length
    return out


if __name__ == "__main__":
    with open(sys.argv[1], "rb") as file:
        module = file.read()
    with open(sys.argv[1], "wb") as file:
        file.write(without_table(module))
