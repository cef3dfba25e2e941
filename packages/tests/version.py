#!/usr/bin/env python3
"""version.py: tries that one version is in all packages, and that a library or module of another version is refused. Needs a C compiler and node.

- Each place of the version gets another one in a copy of the packages: `generate --check` names the file, and `generate` mends it.
- Shared libraries of empty calls, with the version, with others and without one, are loaded from Python and from C, there also for a flow.
- WebAssembly modules without calls, with the same versions as sections, are loaded from JavaScript.

Loaded is one of the same major and minor version. Any other is refused by a sentence that has both versions."""

import json
import os
import pathlib
import shutil
import subprocess
import sys
import tempfile

HERE = pathlib.Path(__file__).resolve().parents[1]
sys.path.insert(0, str(HERE / "python/src"))

from lugcurrant import LibraryMissing  # noqa: E402
from lugcurrant._api import CALLS, VERSION  # noqa: E402
from lugcurrant.library import Library  # noqa: E402

ROOM = pathlib.Path(tempfile.mkdtemp(prefix="version-"))
MAJOR, MINOR, PATCH = map(int, VERSION.split("."))
SAME, OTHERS = [VERSION, f"{MAJOR}.{MINOR}.{PATCH + 1}"], [f"{MAJOR}.{MINOR + 1}.0", f"{MAJOR + 1}.{MINOR}.{PATCH}"]
PLACES = [("js/package.json", f'"version": "{VERSION}"'), ("react/package.json", f'"version": "{VERSION}"'), ("react/package.json", f'"~{VERSION}"'),
          ("python/pyproject.toml", f'version = "{VERSION}"'), ("c/CMakeLists.txt", f"VERSION {VERSION} "), ("c/include/lugcurrant.h", f'"{VERSION}"'),
          ("python/src/lugcurrant/_api.py", f'"{VERSION}"'), ("js/src/api.js", f"'{VERSION}'")]  # fmt: skip
MODULE = b"\0asm\1\0\0\0"
LOADS = """
import { Client } from %s;
import { readFileSync } from 'node:fs';
for (const path of process.argv.slice(2)) console.log(await Client.load(readFileSync(path)).then(() => 'loaded', (fault) => fault.message));
"""


def run(*words):
    return subprocess.run([str(word) for word in words], capture_output=True, text=True)


def differences():
    top = ROOM / "top"
    shutil.copytree(HERE, top / "packages", ignore=shutil.ignore_patterns("*.so", "*.wasm", "dist", "__pycache__"))
    (top / "crates/canvas_c/src").mkdir(parents=True)
    shutil.copy(HERE.parent / "crates/canvas_c/src/numbers.rt", top / "crates/canvas_c/src")
    generate = top / "packages/generate"
    for name, words in PLACES + [("CHANGELOG.md", f"## [{VERSION}]")]:
        file = top / "packages" / name
        right = file.read_text()
        assert right.count(words) == 1, (name, words)
        file.write_text(right.replace(words, words.replace(VERSION, "7.8.9")))
        done = run(generate, "--check")
        assert done.returncode == 1 and done.stdout.startswith(f"{name}: ") and done.stdout.endswith(" 1 faults\n"), (name, done)
        if name == "CHANGELOG.md":
            file.write_text(right)
        done = run(generate)
        assert done.returncode == 0 and file.read_text() == right, (name, done)
    api = top / "packages/api.json"
    api.write_text(api.read_text().replace(VERSION, "0.2.3"))
    run(generate)
    assert all(words.replace(VERSION, "0.2.3") in (top / "packages" / name).read_text() for name, words in PLACES)
    return len(PLACES) + 2


def library(version):
    """A shared library of empty calls with this version, made by packages/c/version.c and the header."""
    source, out, include = ROOM / "calls.c", ROOM / f"calls-{version}.so", ROOM / f"include-{version}"
    include.mkdir(exist_ok=True)
    header = (HERE / "c/include/lugcurrant.h").read_text()
    if version:
        major, minor, patch = version.split(".")
        header = header.replace(f"LUGCURRANT_VERSION_NUMBER {MAJOR * 10000 + MINOR * 100 + PATCH}", f"LUGCURRANT_VERSION_NUMBER {int(major) * 10000 + int(minor) * 100 + int(patch)}")
    (include / "lugcurrant.h").write_text(header)
    source.write_text("".join(f"unsigned lugcurrant_{name}(void) {{ return 0; }}\n" for name in CALLS))
    subprocess.run(["cc", "-shared", "-fPIC", "-o", out, source, *([f"-I{include}", HERE / "c/version.c"] if version else [])], check=True)
    return out


def refusal(path):
    try:
        Library(str(path))
        return None
    except LibraryMissing as fault:
        return str(fault)


USES = """
#include <lugcurrant_flow.h>
int main(void)
{
    char room[160], little[12];
    const char *fault = lugcurrant_library_fault(room, sizeof room);
    lugcurrant_client client = {0};
    lugcurrant_flow *flow = lugcurrant_flow_new(&client, NULL);
    int agrees = (fault == NULL) == (flow != NULL) && (fault == NULL) == LUGCURRANT_LIBRARY_MATCHES();
    lugcurrant_flow_free(flow);
    if (fault != NULL)
        printf("%s\\n%s", fault, lugcurrant_library_fault(little, sizeof little));
    return !agrees ? 4 : fault != NULL ? 3 : 0;
}
"""


def program():
    """A program in C that says whether it takes the library that it loads, and whether a flow does."""
    (ROOM / "uses.c").write_text(USES)
    sources = [ROOM / "uses.c", *(HERE / "c/src").glob("*.c")]
    subprocess.run(["cc", "-std=c11", "-Wall", "-Wextra", "-Wpedantic", "-Werror", f"-I{HERE}/c/include", "-o", ROOM / "uses", *sources, library(VERSION)], check=True)
    return ROOM / "uses"


def taken_by_c(program, path, version):
    """Whether the program takes this library; the sentence if not, or the loader's."""
    os.replace(path, ROOM / f"calls-{VERSION}.so")          # the name that it was linked with
    done = run(program)
    if version is None:
        assert done.returncode == 127 and "lugcurrant_library_version" in done.stderr, done
        return False, f"no version, and this program {VERSION}"
    sentence, _, cut = done.stdout.partition("\n")
    assert done.returncode in (0, 3) and sentence[:11] == cut, done
    return done.returncode == 0, sentence


def libraries():
    uses = program()
    for version in [*SAME, *OTHERS, None]:
        path, found = library(version), f"version {version}" if version else "no version"
        fault = refusal(path)
        assert (fault is None) == (version in SAME), (version, fault)
        assert fault is None or f"it has {found}, and this package version {VERSION}; " in fault and path.name in fault, fault
        is_taken, sentence = taken_by_c(uses, path, version)
        assert is_taken == (version in SAME), (version, sentence)
        assert is_taken or f"{found}, and this program {VERSION}" in sentence, sentence
    return 2 * len(SAME + OTHERS) + 2


def modules():
    paths = []
    for version in [*SAME, *OTHERS, None]:
        paths.append(ROOM / f"module-{version}.wasm")
        paths[-1].write_bytes(MODULE)
        if version:
            subprocess.run([sys.executable, HERE / "wasm/add_version.py", paths[-1], *([version] if version != VERSION else [])], check=True)
    (ROOM / "loads.mjs").write_text(LOADS % json.dumps((HERE / "js/src/client.js").as_uri()))
    said = run("node", ROOM / "loads.mjs", *paths).stdout.splitlines()
    assert len(said) == len(paths), said
    for version, words in zip([*SAME, *OTHERS, None], said):
        found = f"version {version}" if version else "no version"
        assert (f"cannot use canvas.wasm: it has {found}, and this package version {VERSION}; " in words) == (version not in SAME), (version, words)
        assert version not in SAME or "is not a function" in words, words  # the module has no calls
    return len(paths)


if __name__ == "__main__":
    os.environ["PYTHONDONTWRITEBYTECODE"] = "1"
    try:
        print(f"{differences()} places, {libraries()} libraries, {modules()} modules, each as it should be")
    finally:
        shutil.rmtree(ROOM)
