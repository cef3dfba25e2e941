#!/usr/bin/env python3
"""Keeps the LLVM module that the kit's `rt` makes of a crate: for tools/build-unproved and packages/wasm/build.

    module.py try FOLDER MODULE              writes the module of the program in FOLDER, without proof
    module.py lib FOLDER MODULE [WORD..]     writes the module of the static library in FOLDER, which `rt lib WORD..` proves

`rt` runs in a folder that holds the kit by links, but for programs of our own in place of some.

`rt try` type-checks the program with the crates below it, makes the module, compiles it with sanitizers and runs it twice. A clang of our own
keeps the module and fails, so `rt try` neither compiles nor runs the program. Small modules come first: `rt try` tries out the compiler with
them, so they go to the kit's clang. A rattle of our own leaves out the check beside it, which would take another processor for as long.

In `rt lib` a clang of our own keeps the module and runs the kit's clang. What `rt lib` prints is printed, and its status is this script's.

Needs the kit's `bin` on the PATH."""

import pathlib
import shlex
import shutil
import signal
import subprocess
import sys
import tempfile

# What `rt try` tries out the compiler with is smaller than this, and a program's module is larger, in bytes.
SMALLEST = 1_000

CLANG = """#!/bin/sh
case "$*" in *"-x ir module.bc"*)
  if [ "$(stat -c %s module.bc)" -gt {smallest} ]; then
    cp module.bc {kept} && printf '%s\\n' "$@" >{kept}.words
    {then}
  fi;;
esac
exec {clang} "$@"
"""

# `rt try` starts a check that proves nothing, for what it says of names.
RATTLE = """#!/bin/sh
case "$*" in *"--start no function"*) exit 0;; esac
exec {rattle} "$@"
"""


class Failed(Exception):
    """What stops the work, for whoever called the script."""


def ended(number, _):
    sys.exit(128 + number)


def run(words, **how):
    """Runs a command to its end and returns its status. Ends it if this script is told to stop."""
    with subprocess.Popen(words, **how) as it:
        try:
            return it.wait()
        except BaseException:
            it.terminate()
            raise


def kit():
    """Returns the folder of the kit on the PATH."""
    if not shutil.which("rt"):
        raise Failed("cannot find rt: put the Rattle kit's bin on the PATH")
    page = subprocess.run(["rt", "doc"], check=True, capture_output=True, text=True).stdout
    return pathlib.Path(page.strip()).resolve().parent


def link_kit(kit, room, own):
    """Makes `room` the kit by links, with the scripts of `own`, a text for each path. `rt` looks for the kit beside itself, so it is copied."""
    folders = ["", "bin", "toolchain", "toolchain/bin"]
    for folder in folders:
        (room / folder).mkdir(exist_ok=True)
        for it in (kit / folder).iterdir():
            path = str(it.relative_to(kit))
            if path in own:
                (room / path).write_text(own[path])
                (room / path).chmod(0o755)
            elif path in ("bin/rt", "bin/rtlib.py"):
                shutil.copy(it, room / path)
            elif path not in folders:
                (room / path).symlink_to(it)


def own_clang(kit, kept, then):
    """Returns the text of a clang that keeps a program's module and then runs the line `then`."""
    clang = shlex.quote(str(kit / "toolchain/bin/clang"))
    return CLANG.format(smallest=SMALLEST, kept=shlex.quote(str(kept)), clang=clang, then=then)


def flags_of(kept, room, kit):
    """Returns the flags that `rt` gave to clang with the kept module, with the kit's own folder in them."""
    words = pathlib.Path(f"{kept}.words").read_text().splitlines()
    return [it.replace(str(room), str(kit)) for it in words[: words.index("-x") - 1]]


def made_by_try(folder, module):
    """Writes the module of the program in `folder` to `module`, proving nothing, and returns the flags to compile it with.

    Fails if `rt try` makes none, with the end of what it printed."""
    with tempfile.TemporaryDirectory(prefix="module-") as made:
        room, kept, its = pathlib.Path(made), pathlib.Path(made, "module.bc"), kit()
        rattle = RATTLE.format(rattle=shlex.quote(str(its / "bin/rattle")))
        link_kit(its, room, {"toolchain/bin/clang": own_clang(its, kept, "exit 1"), "bin/rattle": rattle})
        with open(room / "log", "w+b") as log:
            run([room / "bin/rt", "try"], cwd=folder, stdin=subprocess.DEVNULL, stdout=log, stderr=log)
        if not kept.exists():
            said = (room / "log").read_text(errors="replace").splitlines()
            raise Failed("\n".join([*said[-20:], f"cannot build {folder}: rt try made no module"]))
        shutil.move(kept, module)
        return flags_of(kept, room, its)


def made_by_lib(folder, module, words):
    """Proves the static library in `folder` as `rt lib WORDS` does, and returns the status. Writes its module to `module`, if `rt` compiled it."""
    with tempfile.TemporaryDirectory(prefix="module-") as made:
        room, kept, its = pathlib.Path(made), pathlib.Path(made, "module.bc"), kit()
        link_kit(its, room, {"toolchain/bin/clang": own_clang(its, kept, ":")})
        status = run([room / "bin/rt", "lib", *words], cwd=folder)
        if kept.exists():
            shutil.move(kept, module)
        return status


def end_when_told():
    """Lets a signal end this script by an exception, so that it ends its commands and removes its folders."""
    for it in (signal.SIGTERM, signal.SIGINT, signal.SIGHUP):
        signal.signal(it, ended)


def main(verb, folder, module, *words):
    end_when_told()
    if verb == "lib":
        return made_by_lib(folder, module, words)
    made_by_try(folder, module)
    return 0


if __name__ == "__main__":
    if len(sys.argv) < 4 or sys.argv[1] not in ("try", "lib"):
        sys.exit(__doc__.split("\n\n")[1])
    try:
        sys.exit(main(*sys.argv[1:]))
    except Failed as it:
        sys.exit(str(it))
