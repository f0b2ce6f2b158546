#!/usr/bin/env python3
"""Compares the pictures in docs/benchmarks with the figures there, and fails if they differ. With --write it writes the pictures.

`NAME.svg` shows the figures of `NAME.csv`. Each row has the date of its figure and the version of this repository that was measured.
Titles and axes are computed from the figures.
The colours have contrast on a white page and on a black one, so no picture has a background of its own.
"""

import csv
import sys
from html import escape
from math import ceil, floor, log10
from pathlib import Path

TOP = Path(__file__).resolve().parent.parent
FOLDER = TOP / "docs/benchmarks"
WIDTH = 760
BAR = 13
STYLE = """<style>
text { font: 13px sans-serif; fill: #767676 }
.title { font-size: 17px; font-weight: bold }
.strong { font-weight: bold }
.start { text-anchor: start }
.middle { text-anchor: middle }
.end { text-anchor: end }
.axis { stroke: #767676; stroke-width: 1.5 }
.grid { stroke: #767676; opacity: 0.35 }
.ours { fill: #2f7fd6 }
.other { fill: #c9651b }
.indexed { fill: #8f5fd0 }
polyline { stroke-width: 2 }
polyline.ours { stroke: #2f7fd6; fill: none }
polyline.other { stroke: #c9651b; fill: none; stroke-dasharray: 6 4 }
polyline.indexed { stroke: #8f5fd0; fill: none }
</style>"""

# The class of a program in a curve, and the outline of its mark.
SERIES = {
    "this project": ("ours", "M-5,0a5,5 0 1,0 10,0a5,5 0 1,0 -10,0z"),
    "at with an index": ("indexed", "M0,-6l6,6l-6,6l-6,-6z"),
    "commonware-utils": ("other", "M-4.5,-4.5h9v9h-9z"),
}
# The calls of growth.csv that read an old version, as the picture of ratios names them. By a call of `at` they are reads in place.
READS = {"one bit of the oldest": "one bit by", "set positions of the oldest": "all set positions by"}
# The batches of commits.csv as the title of their picture names them.
BATCHES = {"1000 sets at random": "random sets", "1000 sets, close together": "close sets", "4096 pushes": "pushes"}
RANKS = ["first", "second", "third", "last"]
TIMES = ["10 ns", "0.1 µs", "1 µs", "10 µs", "100 µs", "1 ms", "10 ms", "100 ms", "1 s", "10 s"]


def figures(name):
    """The rows of a file of figures."""
    with (FOLDER / f"{name}.csv").open(newline="") as file:
        return list(csv.DictReader(file))


def groups(rows, column):
    """The rows by their entry in a column, in the order of the file."""
    found = {}
    for row in rows:
        found.setdefault(row[column], []).append(row)
    return found


def measured(rows, column):
    """A sentence for each measurement. It has the entries of a column that were measured then, unless there is one measurement only."""
    found = {}
    for row in rows:
        found.setdefault(f"Measured on {row['date']} with version {row['version']}", {})[row[column]] = True
    return [f"{when}: {', '.join(names)}." if len(found) > 1 else f"{when}." for when, names in found.items()]


def text(x, y, words, kind="start"):
    return f'<text x="{x:.1f}" y="{y:.1f}" class="{kind}">{escape(words)}</text>'


def texts(y, sentences):
    """Sentences below each other."""
    return [text(20, y + 20 * number, sentence) for number, sentence in enumerate(sentences)]


def line(x1, y1, x2, y2, kind="axis"):
    return f'<line x1="{x1:.1f}" y1="{y1:.1f}" x2="{x2:.1f}" y2="{y2:.1f}" class="{kind}"/>'


def bar(x1, x2, y, kind):
    """A bar between two positions, beside a text at height `y`."""
    return f'<rect x="{min(x1, x2):.1f}" y="{y - BAR + 2:.1f}" width="{max(abs(x2 - x1), 1):.1f}" height="{BAR}" class="{kind}"/>'


def mark(x, y, program):
    kind, outline = SERIES[program]
    return f'<path transform="translate({x:.1f},{y:.1f})" d="{outline}" class="{kind}"/>'


def linear(most, first, last):
    """The positions of values from 0 to `most`, between two positions."""
    return lambda value: first + (last - first) * value / most


def logarithmic(least, most, first, last):
    """The positions of values from 10^`least` to 10^`most` on a logarithmic axis, between two positions."""
    return lambda value: first + (last - first) * (log10(value) - least) / (most - least)


def ticks(rows, column):
    """The ticks of a linear axis for the figures of a column: at most five, from 0 on, with steps of 100, 200, 400 and so on."""
    most, step = max(float(row[column]) for row in rows), 100
    while most > 4 * step:
        step *= 2
    return range(0, step * max(ceil(most / step), 1) + 1, step)


def axis(at, values, bottom, name):
    """A horizontal axis with ticks at some values."""
    first, last = at(values[0]), at(values[-1])
    parts = [line(first, bottom, last, bottom), text((first + last) / 2, bottom + 42, name, "middle")]
    for tick in values:
        parts += [line(at(tick), bottom, at(tick), bottom + 5), text(at(tick), bottom + 20, f"{tick:g}", "middle")]
    return parts


def picture(height, title, subtitle, rows, parts):
    """A whole picture. Its description has the figures."""
    values = [", ".join(f"{column} {value}" for column, value in row.items() if column not in ("date", "version")) for row in rows]
    head = [f'<svg xmlns="http://www.w3.org/2000/svg" viewBox="0 0 {WIDTH} {height}" width="{WIDTH}" height="{height}" role="img">']
    head += [f"<title>{escape(title)}</title>", f"<desc>{escape(subtitle)} {escape('; '.join(values))}.</desc>", STYLE]
    head += [text(20, 28, title, "title"), text(20, 50, subtitle)]
    return "\n".join([*head, *parts, "</svg>", ""])


def commit_bars(rows, y, columns):
    """The bars of a batch, a line per program, and the height after them."""
    parts = [text(20, y, rows[0]["batch"], "strong")]
    parts += [line(at(0), y + 4, at(0), y + 8 + 18 * len(rows)) for at in columns.values()]
    for row in rows:
        y += 18
        kind = "ours" if row["program"] == "this project" else "other"
        ends = {column: at(float(row[column])) for column, at in columns.items()}
        parts.append(text(132, y, row["program"], "end"))
        parts += [bar(columns[column](0), end, y, kind) for column, end in ends.items()]
        parts += [text(end + 6, y, row[column]) for column, end in ends.items()]
    return parts, y + 32


def listed(names):
    """Names with a comma or `and` between them."""
    return " and ".join([part for part in (", ".join(names[:-1]), names[-1]) if part])


def ranked(rows):
    """How many programs are faster than this project in each batch, and its memory divided by the least of the others."""
    for batch, part in groups(rows, "batch").items():
        ours = next(row for row in part if row["program"] == "this project")
        others = [row for row in part if row is not ours]
        faster = sum(float(row["microseconds"]) < float(ours["microseconds"]) for row in others)
        yield BATCHES[batch], faster, float(ours["megabytes"]) / min(float(row["megabytes"]) for row in others)


def commit_titles(rows):
    """The title of the picture of commits, and the line below it."""
    ranks = list(ranked(rows))
    fastest = [name for name, faster, _ in ranks if not faster]
    title = f"This project commits {listed(fastest)} fastest of four" if fastest else "Commits of this project and of three other ways"
    slower = "; ".join(f"{name}: {RANKS[faster]}" for name, faster, _ in ranks if faster).capitalize()
    memory = [f", with {memory:.2f} times the least memory of the others" for _, faster, memory in ranks if faster]
    others = "The others are what a user would take instead."
    return title, f"{others} {slower}{memory[0] if len(memory) == 1 else ''}." if slower else others


def commits():
    """The time and the memory of a commit: bars for each program, by batch."""
    rows, parts, y = figures("commits"), [], 88
    times, memory = ticks(rows, "microseconds"), ticks(rows, "megabytes")
    columns = {"microseconds": linear(times[-1], 140, 380), "megabytes": linear(memory[-1], 450, 690)}
    for part in groups(rows, "batch").values():
        bars, y = commit_bars(part, y, columns)
        parts += bars
    parts += axis(columns["microseconds"], times, y - 10, "time of one commit, microseconds")
    parts += axis(columns["megabytes"], memory, y - 10, "peak memory of 1000 commits, megabytes")
    parts += texts(y + 62, [" ".join(["Chunks of 8 bytes, 2^20 bits.", *measured(rows, "batch")])])
    return picture(y + 76, *commit_titles(rows), rows, parts)


def curve(rows, across, up):
    """The marks of a program's figures, and the line through them."""
    program = rows[0]["program"]
    places = [(across(float(row["commits"])), up(float(row["microseconds"]))) for row in rows]
    points = " ".join(f"{x:.1f},{y:.1f}" for x, y in places)
    return [f'<polyline points="{points}" class="{SERIES[program][0]}"/>', *(mark(x, y, program) for x, y in places)]


def panel(rows, left, top, up, powers):
    """The curves of one call, this project's last, over a grid."""
    right, bottom = left + 200, top + 180
    across = logarithmic(3, 5, left + 20, right - 20)
    parts = [text(left, top - 10, rows[0]["call"], "strong"), text((left + right) / 2, bottom + 40, "kept commits", "middle")]
    parts += [line(left, up(10.0**power), right, up(10.0**power), "grid") for power in powers]
    parts += [line(across(kept), top, across(kept), bottom, "grid") for kept in (1000, 10_000, 100_000)]
    parts += [text(across(kept), bottom + 18, f"{kept:,}", "middle") for kept in (1000, 10_000, 100_000)]
    for part in reversed(groups(rows, "program").values()):
        parts += curve(part, across, up)
    return parts


def panels(calls, top):
    """The panels of some calls beside each other, with the axis of time that they share."""
    values = [float(row["microseconds"]) for rows in calls for row in rows]
    powers = range(floor(log10(min(values))), ceil(log10(max(values))) + 1)
    up = logarithmic(powers[0], powers[-1], top + 174, top + 6)
    parts = [f'<text transform="translate(20,{top + 90}) rotate(-90)" class="middle">time per call</text>']
    parts += [text(84, up(10.0**power) + 4, TIMES[power + 2], "end") for power in powers]
    for number, rows in enumerate(calls):
        parts += panel(rows, 92 + 222 * number, top, up, powers)
    return parts


def by_program(rows):
    """The microseconds of each program, by the number of kept commits."""
    return {program: {row["commits"]: float(row["microseconds"]) for row in part} for program, part in groups(rows, "program").items()}


def times_without_index(rows):
    """The least and the greatest ratio of a read in place without an index to one with an index."""
    pairs = []
    for part in groups(rows, "call").values():
        times = by_program(part)
        indexed = times.get("at with an index", {})
        pairs += [times["this project"][commits] / time for commits, time in indexed.items()]
    return min(pairs), max(pairs)


def longest(rows, *calls):
    """The longest time of this project in some calls, in microseconds."""
    return max((row["microseconds"] for row in rows if row["program"] == "this project" and row["call"] in calls), key=float)


def growth():
    """The time of each call against the number of kept commits."""
    rows, parts = figures("growth"), []
    calls = list(groups(rows, "call").values())
    for number, program in enumerate(SERIES):
        parts += [mark(98 + 160 * number, 73, program), text(110 + 160 * number, 78, program)]
    parts += [*panels(calls[:3], 118), *panels(calls[3:], 380)]
    notes = [
        "Chunks of 8 bytes, 2^20 bits, one set per commit. Both axes are logarithmic.",
        "One bit and set positions: this project by at, without an index and with one made once.",
        "commonware-utils has no at and no rewind_to: it calls get_at_commit, here once per 100 single bits.",
        *measured(rows, "program"),
    ]
    title = "Reads in place take {:.0f} to {:.0f} times as long without an index".format(*times_without_index(rows))
    commit, rewind = longest(rows, "one set and commit", "the same, oldest dropped"), longest(rows, "commit, then rewind")
    subtitle = f"They read the oldest of up to 100,000 commits. A commit takes up to {commit} µs, and with a rewind up to {rewind} µs."
    return picture(630 + 20 * len(notes), title, subtitle, rows, [*parts, *texts(634, notes)])


def read_ratios(commits):
    """The rows of ratios for reads of the oldest of some commits, from the figures of growth."""
    rows = [row for row in figures("growth") if row["commits"] == commits and row["call"] in READS]
    for part in groups(rows, "call").values():
        original = by_program(part)["commonware-utils"][commits]
        for row in [row for row in part if row["program"] != "commonware-utils"]:
            how = "at" if row["program"] == "this project" else row["program"]
            ratio = float(row["microseconds"]) / original
            shown = f"{ratio:.3g}" if ratio >= 1 else f"{ratio:.2f}"
            yield {**row, "bitmap": f"{int(commits):,} commits back in historical", "group": f"{READS[row['call']]} {how}", "ratio": shown}


def ratio_bar(row, at, y):
    """The bar of a group, from the line at 1 to its ratio."""
    end = at(float(row["ratio"]))
    value = text(end + 6, y, row["ratio"]) if end > at(1) else text(end - 6, y, row["ratio"], "end")
    return [text(20, y, row["group"]), bar(at(1), end, y, "other" if end > at(1) else "ours"), value]


def ratio_bars(rows, at, y):
    """The bars of a kind of bitmaps, and the height after them."""
    parts = [text(20, y, f"{rows[0]['bitmap']} bitmaps", "strong")]
    for number, row in enumerate(rows, 1):
        parts += ratio_bar(row, at, y + 20 * number)
    return parts, y + 20 * len(rows) + 30


def ratios():
    """The ratio to commonware-utils: a bar for each group of calls, and for reads of an old version."""
    rows, parts, y = [*figures("ratios"), *read_ratios("1000")], [], 100
    values = [float(row["ratio"]) for row in rows]
    powers = range(floor(log10(min(values))), ceil(log10(max(values))) + 1)
    at = logarithmic(powers[0], powers[-1], 330, 730)
    for part in groups(rows, "bitmap").values():
        bars, y = ratio_bars(part, at, y)
        parts += bars
    parts += [text(at(1) - 8, 84, "faster", "end"), text(at(1) + 8, 84, "slower"), line(at(1), 72, at(1), y - 10)]
    parts += axis(at, [10.0**power for power in powers], y - 10, "time divided by that of commonware-utils (logarithmic)")
    faster = sum(value < 1 for value in values)
    title = f"{faster} of {len(rows)} groups of calls are faster than in commonware-utils"
    subtitle = "Geometric means over calls, widths and sizes. Below 1, this project takes less time."
    notes = measured(rows, "bitmap")
    return picture(y + 56 + 20 * len(notes), title, subtitle, rows, [*parts, *texts(y + 62, notes)])


def main():
    errors = 0
    for name, render in (("commits", commits), ("growth", growth), ("ratios", ratios)):
        path, new = FOLDER / f"{name}.svg", render()
        if sys.argv[1:] == ["--write"]:
            path.write_text(new)
        elif not path.exists() or path.read_text() != new:
            print(f"docs/benchmarks/{name}.svg differs from the figures: run tools/plot.py --write")
            errors += 1
    return 1 if errors else 0


if __name__ == "__main__":
    sys.exit(main())
