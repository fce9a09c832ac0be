#!/usr/bin/env python3
# SPDX-License-Identifier: BSD-3-Clause
"""Draws the pictures of docs/pictures that show figures, of the tables of docs/SPEED.md.

    plot.py            writes speed-one-thread.svg, speed-threads.svg and speed-workers.svg
    plot.py --check    says whether those that stand there are of the tables as they are; the status is 1 where one isn't

In each picture a description has all of its numbers in words, for who can't see it.
"""
import itertools
import pathlib
import re
import sys
import textwrap
from xml.sax.saxutils import escape

TOP = pathlib.Path(__file__).resolve().parent.parent
PICTURES = TOP / "docs/pictures"
# By threads, what the picture shows of the table: a worker's bursts, and a producer's.
WORKERS_BURST, PRODUCERS_BURST = "16", "16"
NAMES = ("event_sw", "this device")
# Where the bars begin, how far it is from one group of them to the next, and the room for a number behind a bar.
TITLES, GROUP, NUMBERS = 104, 42, 40
# Where the lines' field lies: from the left, from above, and how large it is.
FIELD = {"left": 56, "top": 92, "width": 520, "height": 220}
STYLE = """.back { fill: #ffffff; }
.theirs { fill: #9aa3af; }
.ours { fill: #2f6fb0; }
.axis { stroke: #4a4f57; }
text { fill: #1d2126; }
@media (prefers-color-scheme: dark) {
.back { fill: #16191d; }
.theirs { fill: #78818d; }
.ours { fill: #6ea8e4; }
.axis { stroke: #aab0ba; }
text { fill: #eceff3; }
}"""


def table(section, first):
    """The rows of a section's first table whose first heading is this one: the numbers of both devices, by the bursts of the columns."""
    text = (TOP / "docs/SPEED.md").read_text().split(f"\n## {section}\n", 1)[1].split("\n## ", 1)[0]
    lines = [[cell.strip() for cell in line.strip("|").split("|")] for line in text.splitlines() if line.startswith("|")]
    start = next(i for i, cells in enumerate(lines) if cells[0] == first)
    bursts = [re.fullmatch(r"(\d+): `event_sw`", cell)[1] for cell in lines[start][1::3]]
    rows = {}
    for name, *numbers in lines[start + 2:]:
        if not name or not re.fullmatch(r"[\d,.]+", numbers[0]):
            break
        values = [float(number.replace(",", "")) for number in numbers]
        rows[name] = {burst: (values[3 * i], values[3 * i + 1]) for i, burst in enumerate(bursts)}
    return bursts, rows


def shown(value):
    return f"{value:,.0f}" if value >= 100 else f"{value:.1f}"


def bars(panels, room):
    """Panels side by side, of which each has a title and groups of bars, one for each device: (label, (theirs, ours))."""
    width = (room["width"] - room["labels"] - 16 * len(panels)) // len(panels)
    scales = [max(max(pair) for _, pair in groups) for _, groups in panels]
    out = []
    for number, (title, groups) in enumerate(panels):
        left, most = room["labels"] + number * (width + 16), max(scales) if room["one scale"] else scales[number]
        lines = textwrap.wrap(title, width // 8)
        for i, line in enumerate(reversed(lines)):
            out.append(f'<text x="{left}" y="{TITLES - 12 - 17 * i}" font-weight="bold">{escape(line)}</text>')
        out.append(f'<path class="axis" d="M{left} {TITLES - 4}V{TITLES + len(groups) * GROUP - 8}"/>')
        for place, (label, pair) in enumerate(groups):
            y = TITLES + place * GROUP
            if number == 0:
                out.append(f'<text x="{left - 8}" y="{y + 21}" text-anchor="end">{escape(label)}</text>')
            for i, (kind, value) in enumerate(zip(("theirs", "ours"), pair)):
                long = round(value / most * (width - NUMBERS))
                out.append(f'<rect class="{kind}" x="{left}" y="{y + 16 * i}" width="{long}" height="14"/>')
                out.append(f'<text x="{left + long + 5}" y="{y + 16 * i + 12}">{shown(value)}</text>')
    return out


def legend(x, y):
    out = []
    for kind, name in zip(("theirs", "ours"), NAMES):
        out += [f'<rect class="{kind}" x="{x}" y="{y - 11}" width="14" height="14"/>', f'<text x="{x + 20}" y="{y}">{name}</text>']
        x += 100
    return out


def picture(title, what, panels, room):
    """The whole picture: a heading, a legend, and the panels."""
    height = TITLES + max(len(groups) for _, groups in panels) * GROUP + 8
    words = "; ".join(f"{name}: " + ", ".join(f"{label} {shown(pair[0])} and {shown(pair[1])}" for label, pair in groups)
                      for name, groups in panels)
    return "\n".join([
        f'<svg xmlns="http://www.w3.org/2000/svg" viewBox="0 0 {room["width"]} {height}" width="{room["width"]}" height="{height}" '
        'role="img" aria-labelledby="title desc" font-family="Helvetica, Arial, sans-serif" font-size="13">',
        f'<title id="title">{escape(title)}</title>',
        f'<desc id="desc">{escape(what)} First {NAMES[0]}, then {NAMES[1]}. {escape(words)}.</desc>',
        f"<style>\n{STYLE}\n</style>", f'<rect class="back" width="{room["width"]}" height="{height}" rx="8"/>',
        f'<text x="16" y="26" font-size="15">{escape(title)}</text>', f'<text x="16" y="46">{escape(what)}</text>',
        *legend(room["width"] - 204, 26), *bars(panels, room), "</svg>"]) + "\n"


def one_thread():
    bursts, rows = table("Beside `event_sw`", "bursts of")
    panels = [(f"bursts of {burst}", [(name, pairs[burst]) for name, pairs in rows.items()]) for burst in bursts]
    return picture("What an event costs in one thread",
                   "Nanoseconds per event, one worker, nothing waits: less is better. Each panel has a scale of its own.",
                   panels, {"width": 780, "labels": 164, "one scale": False})


def threads():
    _, rows = table("By threads", "a producer's bursts of")
    kinds = {}
    for name, pairs in rows.items():
        kind, workers, burst = re.fullmatch(r"(.+); (\d+) workers?, bursts of (\d+)", name).groups()
        if burst == WORKERS_BURST:
            kinds.setdefault(kind, []).append((f"{workers} worker" + "s" * (workers != "1"), pairs[PRODUCERS_BURST]))
    return picture("What threads pass",
                   f"Millions of events a second, a worker's bursts of {WORKERS_BURST}, a producer's of {PRODUCERS_BURST}: more is better.",
                   list(kinds.items()), {"width": 780, "labels": 88, "one scale": True})


def workers_tables():
    """The workers of the rows of the tables of pipelines, and for each line of the picture its name, kind and millions a second."""
    text = (TOP / "docs/SPEED.md").read_text().split("\n## Pipelines\n", 1)[1].split("\n## ", 1)[0]
    rows = [[cell.strip() for cell in line.strip("|").split("|")] for line in text.splitlines() if re.match(r"\| \d", line)]
    singly, bursts = rows[:len(rows) // 2], rows[len(rows) // 2:]
    column = lambda table, place: [float(cells[place].replace(",", "")) / 1e6 for cells in table]
    lines = [("by ports, up to 32 at once", "ours", column(bursts, 2)), ("by ports, one by one", "ours dashed", column(singly, 2)),
             ("by flow lanes, up to 32", "theirs", column(bursts, 4)), ("by flow lanes, one by one", "theirs dashed", column(singly, 4))]
    return [cells[0] for cells in singly], lines


def apart(places):
    """Heights for words behind the ends of lines, so that none lies on another."""
    found = {}
    for place in sorted(range(len(places)), key=lambda i: places[i]):
        found[place] = max(places[place], max(found.values(), default=0) + 17)
    return [found[place] for place in range(len(places))]


def lines_of(workers, lines):
    """A line for each name, over as many workers as each place of the axis says, with its name behind its end."""
    most = max(max(values) for _, _, values in lines)
    across = [FIELD["left"] + round(i * FIELD["width"] / (len(workers) - 1)) for i in range(len(workers))]
    low = FIELD["top"] + FIELD["height"]
    high = lambda value: low - round(value / most * FIELD["height"])
    out = [f'<path class="axis" d="M{FIELD["left"]} {FIELD["top"]}V{low}H{across[-1]}" fill="none"/>']
    out += [f'<text x="{x}" y="{low + 20}" text-anchor="middle">{count}</text>' for x, count in zip(across, workers)]
    out += [f'<text x="{FIELD["left"] - 8}" y="{high(value) + 4}" text-anchor="end">{shown(value)}</text>' for value in (0, most)]
    for (name, kind, values), word in zip(lines, apart([high(values[-1]) for _, _, values in lines])):
        places = [(x, high(value)) for x, value in zip(across, values)]
        out.append(f'<polyline class="{kind} line" points="{" ".join(f"{x},{y}" for x, y in places)}"/>')
        out += [f'<circle class="{kind.split()[0]}" cx="{x}" cy="{y}" r="4"/>' for x, y in places]
        out.append(f'<text x="{across[-1] + 12}" y="{word + 4}">{escape(name)}</text>')
    return out


def by_workers():
    """What a pipeline's threads pass, as lines over the number of workers."""
    workers, lines = workers_tables()
    title, what = "What a pipeline's threads pass, by workers", "Millions of events a second, three stages, on four processors: more is better."
    words = "; ".join(f"{name}: " + ", ".join(f"{count} {shown(value)}" for count, value in zip(workers, values)) for name, _, values in lines)
    extra = ".line { fill: none; stroke-width: 2.5; }\n.theirs.line { stroke: #9aa3af; }\n.ours.line { stroke: #2f6fb0; }\n.dashed { stroke-dasharray: 6 4; }"
    height = FIELD["top"] + FIELD["height"] + 40
    return "\n".join([
        f'<svg xmlns="http://www.w3.org/2000/svg" viewBox="0 0 780 {height}" width="780" height="{height}" '
        'role="img" aria-labelledby="title desc" font-family="Helvetica, Arial, sans-serif" font-size="13">',
        f'<title id="title">{escape(title)}</title>', f'<desc id="desc">{escape(what)} By workers, {escape(words)}.</desc>',
        f"<style>\n{STYLE}\n{extra}\n</style>", f'<rect class="back" width="780" height="{height}" rx="8"/>',
        f'<text x="16" y="26" font-size="15">{escape(title)}</text>', f'<text x="16" y="46">{escape(what)}</text>',
        *lines_of(workers, lines), "</svg>"]) + "\n"


def main():
    if sys.argv[1:] not in ([], ["--check"]):
        sys.exit(__doc__)
    failed = False
    for name, text in (("speed-one-thread.svg", one_thread()), ("speed-threads.svg", threads()), ("speed-workers.svg", by_workers())):
        file = PICTURES / name
        if not sys.argv[1:]:
            file.write_text(text)
        elif not file.exists() or file.read_text() != text:
            print(f"docs/pictures/{name} isn't of the tables of docs/SPEED.md: bench/plot.py draws it anew")
            failed = True
    sys.exit(failed)


main()
