"""How a run is measured: by its CPU time and peak memory, or by its instructions."""
import filecmp
import glob
import os
import re
import subprocess
import sys
import tempfile
from dataclasses import dataclass
from typing import Callable


@dataclass
class Run:
    cost: float  # CPU seconds, user and system, or instructions
    peak: int = 0  # bytes


@dataclass
class Meter:
    """A way to measure a run, and the share of a run's cost that is lost in its noise."""

    name: str
    package: str
    run: Callable
    repeats: int
    noise: float
    digits: int  # after the point, where a cost is told


@dataclass
class Row:
    """What one kind of work took with so many objects: for each peer the run of the setup alone
    and that of the whole log, or none where it took too long."""

    kind: object
    count: int
    lines: int
    operations: int
    runs: dict
    meter: Meter


def start(peer, wrapper, log, folder, limit):
    """Runs a peer on a log, and leaves its output in the folder. Its CPU seconds; none past the
    limit."""
    for file in glob.glob(f"{folder}/table*"):
        os.remove(file)
    words = [word.replace("FILE", f"{folder}/table") for word in peer.command]
    limited = ["prlimit", f"--cpu={limit}", *wrapper, *words]
    with open(log, "rb") as text, open(f"{folder}/output", "wb") as output:
        process = subprocess.Popen(limited, stdin=text, stdout=output,
                                   env=dict(os.environ, **peer.environment))
        _, status, usage = os.wait4(process.pid, 0)
        process.returncode = os.waitstatus_to_exitcode(status)
    cpu = usage.ru_utime + usage.ru_stime
    if process.returncode == 0:
        return cpu
    if cpu < 0.9 * limit:
        sys.exit(f"{peer.name} ends with status {process.returncode}")
    return None


def cpu_run(peer, log, folder, limit):
    """A run with its CPU seconds and its peak memory; none past the limit."""
    wrapper = ["time", "--quiet", "-f", "%M", "-o", f"{folder}/peak"]
    cpu = start(peer, wrapper, log, folder, limit)
    if cpu is None:
        return None
    with open(f"{folder}/peak") as peak:
        return Run(cpu, int(peak.read()) * 1024)


def instruction_run(peer, log, folder, limit):
    """A run with its instructions; none where counting them takes more seconds than the limit."""
    wrapper = ["valgrind", "--tool=callgrind", "--callgrind-out-file=/dev/null",
               f"--log-file={folder}/count"]
    if start(peer, wrapper, log, folder, limit) is None:
        return None
    with open(f"{folder}/count") as count:
        return Run(int(re.search(r"Collected : (\d+)", count.read())[1]))


CPU = Meter("CPU seconds", "time", cpu_run, 9, 0.1, 3)
INSTRUCTIONS = Meter("instructions", "valgrind", instruction_run, 1, 0, 0)


def measure(meter, peer, log, folder, limit):
    """The least of so many runs, or of those that take half a second in all."""
    best, spent = None, 0
    for _ in range(meter.repeats):
        run = meter.run(peer, log, folder, limit)
        if run is None:
            return None
        spent += run.cost
        best = run if best is None or run.cost < best.cost else best
        if spent > 0.5:
            break
    return best


def write_lines(file, lines):
    with open(file, "w") as text:
        text.write("\n".join(lines) + "\n")


def check_output(peer, kind, folder):
    """Stops where what a peer that judges wrote isn't what the first one wrote."""
    first = f"{folder}/first"
    if not os.path.exists(first):
        os.rename(f"{folder}/output", first)
    elif not filecmp.cmp(first, f"{folder}/output", shallow=False):
        sys.exit(f"{kind.name}: {peer.name} writes other bytes than the first peer")


def measure_row(meter, kind, count, peers, limit):
    """The runs of all peers on one log."""
    log = kind.log(count)
    row = Row(kind, count, len(log.lines), log.operations, {}, meter)
    with tempfile.TemporaryDirectory() as folder:
        write_lines(f"{folder}/setup", log.lines[:log.setup])
        write_lines(f"{folder}/whole", log.lines)
        del log
        for peer in peers:
            if kind.is_judged and not peer.judges:
                continue
            setup = measure(meter, peer, f"{folder}/setup", folder, limit)
            whole = setup and measure(meter, peer, f"{folder}/whole", folder, limit)
            if whole and peer.judges:
                check_output(peer, kind, folder)
            row.runs[peer.name] = (setup, whole) if whole else None
            print(f"{kind.name:12} {count:8} {peer.name:13} {told(row, peer.name)}", flush=True)
    return row


def told(row, name):
    if row.runs[name] is None:
        return "took too long"
    setup, whole = row.runs[name]
    digits = row.meter.digits
    return (f"{whole.cost:14,.{digits}f} {row.meter.name}, of which {setup.cost:,.{digits}f} made"
            f" ready, {whole.peak / 2**20:.1f} MiB")


def can_take_more(row, name, limit):
    """Whether a peer's run with ten times the objects may end within the limit."""
    if row.runs.get(name) is None:
        return name not in row.runs
    return row.meter is INSTRUCTIONS or row.runs[name][1].cost * 8 < limit
