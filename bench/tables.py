"""The tables of what was measured, and the page that shows them."""
import datetime
import re
import textwrap

from meters import INSTRUCTIONS


def work(row, name):
    """The cost of the work alone; none where the difference is lost in the noise."""
    if row.runs.get(name) is None:
        return None
    setup, whole = row.runs[name]
    alone = whole.cost - setup.cost
    return alone if alone > max(0.001, whole.cost * row.meter.noise) else None


def rate(row, name, _):
    """Operations a CPU second, in thousands."""
    cost = work(row, name)
    return cost and row.operations / cost / 1000


def instructions_each(row, name, _):
    """Instructions an operation, in thousands."""
    cost = work(row, name)
    return cost and cost / row.operations / 1000


def growth(row, name, before):
    """How the cost of an operation grew since the row of a tenth of the objects."""
    now, then = work(row, name), before and work(before, name)
    return now and then and now / row.operations / (then / before.operations)


def ratio(row, name, _):
    """The cost of `scene` on the whole log over that of a peer."""
    if row.runs.get("scene") is None or row.runs.get(name) is None:
        return None
    return row.runs["scene"][1].cost / row.runs[name][1].cost


def bytes_each(row, name, before):
    """The peak memory that each further line takes, since the row of a tenth of the objects."""
    if before is None or row.runs.get(name) is None or before.runs.get(name) is None:
        return None
    more = row.runs[name][1].peak - before.runs[name][1].peak
    return more / (row.lines - before.lines)


CPU_TABLES = [
    ("Operations a CPU second, in thousands:", rate),
    ("How many times longer an operation takes than with a tenth of n:", growth),
    ("CPU time of `scene` over that of the peer, whole logs:", ratio),
    ("Bytes of peak memory for each further line of the log:", bytes_each),
]

INSTRUCTION_TABLES = [
    ("Instructions an operation, in thousands:", instructions_each),
    ("How many times more of them an operation takes than with a tenth of n:", growth),
    ("Instructions of `scene` over those of the peer, whole logs:", ratio),
]


def shown(number):
    """A number with two or three digits that count."""
    if number is None:
        return "-"
    if number < 10:
        return f"{number:.2f}"
    return f"{number:,.0f}" if number >= 100 else f"{number:.1f}"


def table(title, cell, names, rows):
    lines = [title, "", "| Work | n | " + " | ".join(names) + " |", "|---|---|" + "---|" * len(names)]
    before = {}
    for row in rows:
        cells = [shown(cell(row, name, before.get(row.kind.name))) for name in names]
        before[row.kind.name] = row
        if set(cells) != {"-"}:
            lines.append(f"| {row.kind.words} | {row.count:,} | " + " | ".join(cells) + " |")
    return lines + [""]


def machine():
    """The machine in words."""
    with open("/proc/cpuinfo") as text:
        cpu = text.read()
    with open("/proc/meminfo") as text:
        memory = int(re.search(r"MemTotal: +(\d+)", text.read())[1]) / 2**20
    with open("/etc/os-release") as text:
        system = re.search('PRETTY_NAME="(.*)"', text.read())[1]
    model = re.sub(r"\((R|TM)\)", "", re.search("model name\t: (.*)", cpu)[1])
    kind = "a virtual machine" if "hypervisor" in cpu else "a machine"
    cores = cpu.count("processor\t")
    return f"{kind} with {cores} cores ({model}), {memory:.0f} GiB of memory, {system}"


def page_part(meter, peers, rows, missing):
    """What is said of the machine and the peers, and the tables."""
    said = [f"Measured on {datetime.date.today()}, on {machine()}.", ""]
    said += [f"- {peer.name}: {peer.about}." for peer in peers]
    said += [f"- {name} wasn't measured: {why}." for name, why in missing.items()]
    lines = [textwrap.fill(line, 100, subsequent_indent="  " * line.startswith("-"))
             for line in said + [""]]
    names = [peer.name for peer in peers]
    for title, cell in INSTRUCTION_TABLES if meter is INSTRUCTIONS else CPU_TABLES:
        shown_names = [name for name in names if cell is not ratio or name != "scene"]
        lines += table(title, cell, shown_names, rows)
    return lines


def write_page(page, meter, lines):
    """Puts the lines into a page, between the meter's two marks."""
    begin, end = f"<!-- {meter.name}: bench/run writes from here -->", "<!-- to here -->"
    with open(page) as text:
        head, rest = text.read().split(begin)
    _, tail = rest.split(end, 1)
    with open(page, "w") as text:
        text.write(head + begin + "\n\n" + "\n".join(lines) + end + tail)
