"""The programs that play a log, each built or found here, or missing with a word why."""
import os
import shutil
import subprocess
from dataclasses import dataclass, field

HERE = os.path.dirname(os.path.abspath(__file__))
TOP = os.path.dirname(HERE)
OUT = f"{HERE}/out"


@dataclass
class Peer:
    name: str
    about: str
    command: list  # the word FILE stands for a file of its own
    judges: bool = True  # then its output is that of `scene`, byte for byte
    is_compiled: bool = True  # before it runs; else its instructions say little
    environment: dict = field(default_factory=dict)


class Missing(Exception):
    """Why a peer can't be measured here."""


def output_of(*command):
    """What a command prints; the peer is missing where there is none, or it fails."""
    try:
        return subprocess.run(command, check=True, capture_output=True, text=True).stdout.strip()
    except FileNotFoundError:
        raise Missing(f"no {command[0]}")
    except subprocess.CalledProcessError as error:
        lines = (error.stdout + error.stderr).strip().splitlines()
        raise Missing(f"{command[0]}: {lines[-1] if lines else 'failed'}")


def file_of(package, name):
    """The file of a Debian package whose path ends so."""
    files = output_of("dpkg", "-L", package).splitlines()
    return next(file for file in files if file.endswith(name))


def version_of(package):
    return output_of("dpkg-query", "-W", "-f", "${Version}", package)


def build(program, *command):
    """Runs the command that builds a program, unless the program is newer than all sources here."""
    files = [f"{folder}/{file}" for folder, _, files in os.walk(HERE) for file in files]
    sources = [file for file in files if file.endswith((".rs", ".toml")) and OUT not in file]
    newest = max(os.path.getmtime(file) for file in sources)
    if not os.path.exists(program) or os.path.getmtime(program) < newest:
        output_of(*command)


def scene():
    program = f"{TOP}/crates/scene/out/scene"
    if not os.path.exists(program):
        raise Missing("not built: (cd crates/scene && rt run < ../../examples/first.scene)")
    return Peer("scene", "`scene` on a log, as LLVM builds it", [program])


def plain(name, about, words, flags=()):
    """The program in plain/, built for one of its stores."""
    program = f"{OUT}/plain_{words[0]}"
    build(program, "rustc", "--edition", "2021", "-C", "opt-level=3", *flags, "-o", program,
          f"{HERE}/plain/main.rs")
    rustc = output_of("rustc", "--version").split(" (")[0]
    return Peer(name, f"{about} ({rustc})", [program, *words])


def ordered_maps():
    about = "the same program in ordinary Rust with two ordered maps"
    return plain("ordered maps", about, ["maps"])


def hash_maps():
    about = "the same with hash maps: objects by id, children by parent"
    return plain("hash maps", about, ["hash"])


def sqlite():
    version = version_of("libsqlite3-dev")
    about = f"the same with tables in a file in WAL mode, an index by place, SQLite {version}"
    return plain("SQLite", about, ["sqlite", "FILE"], ["--cfg", "sqlite"])


def yjs():
    modules = os.path.dirname(os.path.dirname(file_of("node-yjs", "/yjs/package.json")))
    node = output_of("node", "--version")
    about = f"a map of maps, `node-yjs` {version_of('node-yjs')}, node {node}; it judges nothing"
    return Peer("Yjs", about, ["node", f"{HERE}/yjs.js"], judges=False, is_compiled=False,
                environment={"NODE_PATH": modules})


def crdts():
    version = version_of("librust-crdts-dev")
    manifest = file_of("librust-crdts-dev", "/Cargo.toml")
    registry = os.path.dirname(os.path.dirname(manifest))
    shutil.copytree(f"{HERE}/crdts", f"{OUT}/crdts", dirs_exist_ok=True)
    program = f"{OUT}/crdts/target/release/crdts_bench"
    build(program, "cargo", "build", "--quiet", "--release", "--offline",
          "--manifest-path", f"{OUT}/crdts/Cargo.toml",
          "--config", 'source.crates-io.replace-with="debian"',
          "--config", f'source.debian.directory="{registry}"')
    about = f"a map of maps of registers, `librust-crdts-dev` {version}; it judges nothing"
    return Peer("crdts", about, [program], judges=False)


PEERS = {"scene": scene, "maps": ordered_maps, "hash": hash_maps, "sqlite": sqlite,
         "yjs": yjs, "crdts": crdts}


def find_peers(names):
    """The peers that stand here, and why the others don't."""
    found, missing = [], {}
    os.makedirs(OUT, exist_ok=True)
    for name in names:
        try:
            found.append(PEERS[name]())
        except Missing as why:
            missing[name] = str(why)
            print(f"{name} is skipped: {why}")
    return found, missing
