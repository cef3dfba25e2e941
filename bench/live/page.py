"""The section of docs/speed.md about live connections, made from docs/results.json. Each figure has
the mark that `tools/figures` reads."""
import json
import re
from pathlib import Path

import cases
from tables import machine

TOP = Path(__file__).resolve().parents[2]
RESULTS, PAGE = TOP / "docs" / "results.json", TOP / "docs" / "speed.md"
BEGIN, END = "<!-- live: bench/live/run writes from here -->", "<!-- to here -->"
WIDTH = 100
TITLES = {"lug": "Lugcurrant", "yjs": "Yjs", "redis": "Redis"}
PEERS = {"yjs": "Yjs ({}) keeps nothing on disk.",
         "redis": "{} syncs each XADD; its clients use XREAD BLOCK."}
HOSTILE = {"nothing": "none", "edits": "100,000 edits, reads nothing", "garbage": "garbage",
           "frames": "edits of 2 MiB", "strangers": "10,000 silent connections"}

# The goals: milliseconds above the round trip, or above those without a hostile client; edits a
# second; the share of a processor.
MOST_MEDIAN, MOST_P95, MOST_HOSTILE = 5, 15, 5
LEAST_ALONE, LEAST_CROWD = 5000, 60000
MOST_IDLE = 0.001
MOST_MANY, MOST_PROCESSORS, MOST_MEGABYTES = (10, 20), 1, 100
MOST_IDLE_MEGABYTES = 150


class Results:
    """What was recorded."""

    def __init__(self, results):
        self.results = results

    def value(self, name, key):
        return self.results.get(name, {}).get(key)

    def figure(self, name, key):
        """A figure with its mark, or `-` if there is none."""
        value = self.value(name, key)
        return "-" if value is None else f"{value:,}<!-- {name}.{key} -->"

    def figures(self, name, *keys):
        """Figures of one case in one cell, or `-` if it wasn't measured."""
        return "/".join(self.figure(name, key) for key in keys) if name in self.results else "-"


# ---- forms ----

def table(heads, rows):
    first, *others = [f"| {' | '.join(cells)} |" for cells in (heads, *rows)]
    return [first, "|---" * len(heads) + "|", *others, ""]


def paragraph(text):
    """The lines of a text, by the width that is shown: comments have none."""
    lines, width = [[]], 0
    for word in re.findall(r"(?:<!--.*?-->|\S)+", text):
        length = len(re.sub(r"<!--.*?-->", "", word))
        if width + length > WIDTH:
            lines.append([])
            width = 0
        lines[-1].append(word)
        width += length + 1
    return [*(" ".join(line) for line in lines), ""]


# ---- goals ----

def verdict(holds):
    return "-" if holds is None else "yes" if holds else "no"


def drag_goal(results, words, key, most):
    """The drag whose figure is the most above its round trip."""
    goal = f"{words} within the round trip and {most} ms"
    all_drags = [(round_trip, cases.drag("lug", round_trip, clients), clients)
                 for round_trip in cases.ROUND_TRIPS for clients in cases.CLIENTS]
    if any(results.value(name, key) is None for _, name, _ in all_drags):
        return [goal, "-", "-"]
    above = [(results.value(name, key) - round_trip, round_trip, name, clients)
             for round_trip, name, clients in all_drags]
    over, round_trip, name, clients = max(above)
    measured = f"at worst {results.figure(name, key)} at {round_trip} ms by {clients}"
    return [goal, measured, verdict(over <= most)]


def rate_goal(results, goal, name, least):
    value = results.value(name, "acknowledged")
    holds = None if value is None else value >= least
    return [goal, results.figure(name, "acknowledged"), verdict(holds)]


def idle_goal(results):
    name = cases.idle("lug")
    cpu, seconds = results.value(name, "cpu"), results.value(name, "seconds")
    measured = f"{results.figure(name, 'cpu')} CPU seconds in {results.figure(name, 'seconds')}"
    holds = None if cpu is None else cpu <= MOST_IDLE * seconds
    return ["50 idle clients: 0.1 % of a processor", measured, verdict(holds)]


def many_goal(results, clients, listeners, most):
    """Those who drag among many."""
    name = cases.many(clients, listeners)
    goal = f"{clients} who drag among {clients + listeners + 1:,}: {most} ms (median)"
    late, processors, peak = (results.value(name, key) for key in ("median", "processors", "peak"))
    if late is None:
        return [goal, "-", "-"]
    measured = results.figure(name, "median")
    if not listeners:
        return [goal, measured, verdict(late <= most)]
    goal += f", {MOST_PROCESSORS} processor, {MOST_MEGABYTES} MB"
    measured += f"; {results.figure(name, 'processors')}; {results.figure(name, 'peak')}"
    holds = late <= most and processors <= MOST_PROCESSORS and peak <= MOST_MEGABYTES
    return [goal, measured, verdict(holds)]


def many_idle_goal(results):
    name = cases.many_idle()
    goal = f"{cases.MANY_IDLE:,} idle clients: {MOST_IDLE_MEGABYTES} MB, 0.1 % of a processor"
    memory, processors = (results.value(name, key) for key in ("memory", "processors"))
    if memory is None:
        return [goal, "-", "-"]
    measured = f"{results.figure(name, 'memory')}; {results.figure(name, 'processors')} processors"
    return [goal, measured, verdict(memory <= MOST_IDLE_MEGABYTES and processors <= MOST_IDLE)]


def strangers_goal(results):
    goal = f"10,000 strangers delay others by {MOST_HOSTILE} ms (99 %)"
    beside, without = (cases.beside(it) for it in ("strangers", "nothing"))
    late = [results.value(name, "p99") for name in (beside, without)]
    if None in late:
        return [goal, "-", "-"]
    measured = f"{results.figure(beside, 'p99')}, without them {results.figure(without, 'p99')}"
    return [goal, measured, verdict(late[0] - late[1] <= MOST_HOSTILE)]


def hostile_goal(results):
    """The hostile client that raises the median or the 95th percentile the most."""
    goal = f"a hostile client delays others by {MOST_HOSTILE} ms"
    late = {kind: [results.value(cases.beside(kind), key) for key in ("median", "p95")]
            for kind in cases.HOSTILE}
    if any(None in pair for pair in late.values()):
        return [goal, "-", "-"]
    without = late.pop("nothing")
    over, kind = max((max(value - base for value, base in zip(pair, without)), kind)
                     for kind, pair in late.items())
    beside, alone = (results.figures(cases.beside(it), "median", "p95") for it in (kind, "nothing"))
    return [goal, f"at worst {beside}, without it {alone}", verdict(over <= MOST_HOSTILE)]


def goals(results):
    one, many = cases.alone("lug", 100, 1024), cases.crowd("lug", 64)
    return table(["Goal", "Measured", "Met"], [
        drag_goal(results, "median", "median", MOST_MEDIAN),
        drag_goal(results, "95 %", "p95", MOST_P95),
        rate_goal(results, f"one client, 100 ms: {LEAST_ALONE:,} edits a second", one, LEAST_ALONE),
        rate_goal(results, f"64 clients: {LEAST_CROWD:,} edits a second", many, LEAST_CROWD),
        idle_goal(results),
        *(many_goal(results, *case, most) for case, most in zip(cases.MANY, MOST_MANY)),
        many_idle_goal(results),
        hostile_goal(results),
        strangers_goal(results),
    ])


# ---- tables ----

def drags(results, kinds):
    rows = [[str(round_trip), str(clients),
             *(results.figures(cases.drag(kind, round_trip, clients), "median", "p95", "cpu")
               for kind in kinds)]
            for round_trip in cases.ROUND_TRIPS for clients in cases.CLIENTS]
    return table(["Round trip", "Clients", *(TITLES[kind] for kind in kinds)], rows)


def alone(results, kinds):
    heads = [f"{TITLES[kind]} {window:,}" for kind in kinds for window in cases.WINDOWS]
    rows = [[str(round_trip),
             *(results.figure(cases.alone(kind, round_trip, window), "acknowledged")
               for kind in kinds for window in cases.WINDOWS)]
            for round_trip in cases.ALONE_ROUND_TRIPS]
    return table(["Round trip", *heads], rows)


def crowds(results, kinds):
    rows = [[str(window),
             *(results.figures(cases.crowd(kind, window), "acknowledged", "received", "copies")
               for kind in kinds)]
            for window in cases.CROWD_WINDOWS]
    return table(["Under way", *(TITLES[kind] for kind in kinds)], rows)


def idle(results, kinds):
    keys = ["cpu", "switches", "memory"]
    rows = [[TITLES[kind], *(results.figure(cases.idle(kind), key) for key in keys)]
            for kind in kinds]
    return table(["50 idle clients", "CPU s", "Switches/s", "MB"], rows)


def many(results):
    rows = [[str(clients), f"{clients + listeners + 1:,}",
             *(results.figures(cases.many(clients, listeners), *keys)
               for keys in (("median", "p95", "p99"), ("processors",), ("peak",)))]
            for clients, listeners in cases.MANY]
    return table(["Who drag", "Clients", "ms", "Processors", "Most MB"], rows)


def hostile(results):
    rows = [[HOSTILE[kind], results.figures(cases.beside(kind), "median", "p95", "longest"),
             *(results.figure(cases.beside(kind), key) for key in ("cpu", "peak"))]
            for kind in cases.HOSTILE]
    return table(["Hostile client", "ms", "CPU s", "Most MB"], rows)


def measured_on(results, servers):
    """What was measured, and where."""
    def figure(key):
        return results.figure(cases.RUN, key)

    build = "proved" if results.value(cases.RUN, "proved") else "**unproved**"
    peers = [words.format(servers[kind]) for kind, words in PEERS.items() if kind in servers]
    return paragraph(
        f"Measured on {results.value(cases.RUN, 'date')} by `bench/live`, with the {build} server, "
        f"on {machine()}. The load was {figure('load')}; other programs had at most "
        f"{figure('others')} processors. A loop that appends 60 bytes and calls fsync made "
        f"{figure('syncs')} rounds a second. {' '.join(peers)}")


def section(results, servers):
    kinds = [kind for kind in TITLES if kind in servers]
    acknowledging = [kind for kind in kinds if kind != "yjs"]
    return [
        "## Live connections", "",
        *measured_on(results, servers),
        *goals(results),
        *paragraph(
            "**Drags**: each client makes 30 edits a second, and one more receives. Milliseconds "
            "until it has that edit or a later one (median/95 %), and CPU seconds of the server in "
            f"{results.figure(cases.RUN, 'seconds')}:"),
        *drags(results, kinds),
        *paragraph("**One client**: acknowledged edits a second, by how many are under way:"),
        *alone(results, acknowledging),
        *paragraph("**64 clients**: acknowledged edits/received entries a second, and copies of "
                   "the document:"),
        *crowds(results, acknowledging),
        *idle(results, kinds),
        *paragraph("**Many**: those who drag at 0 ms among clients that receive; median/95 %/99 %:"),
        *many(results),
        *paragraph("**Beside a hostile client**: 8 clients drag at 0 ms; median/95 %/longest:"),
        *hostile(results),
    ]


def write_section(servers):
    """Writes the section between its marks. `servers` has the title of each server by its kind."""
    results = Results(json.loads(RESULTS.read_text()))
    head, rest = PAGE.read_text().split(BEGIN)
    _, tail = rest.split(END, 1)
    lines = "\n".join(section(results, servers))
    PAGE.write_text(f"{head}{BEGIN}\n\n{lines}{END}{tail}")
