#!/usr/bin/env python3
"""Draws the plots of bench/README.md from the medians of some runs, and prints its table: bench/plots.py RUNS.json FOLDER

bench/peer.py --json writes RUNS.json. The plots are FOLDER/since_by_clients.svg, answers a second by clients at the
middle size, and FOLDER/cost_by_files.svg, the time of a question by files on a logarithmic scale. The text under each
says where and when the runs were made."""
import json
import math
import statistics
import sys
from xml.sax.saxutils import escape

WIDTH, HEIGHT, LEFT, TOP, RIGHT, BOTTOM = 780, 440, 90, 50, 40, 130
COLOURS = {"watchmand": "#0b6e99", "watchman": "#b85c00"}
ROWS = {"watch to first answer, ms": "from watch to the first answer", "all files, median ms": "an answer with all files",
        "since, 1,000 changed, median ms": "since, 1,000 files changed",
        "since, nothing changed, median ms": "since, nothing changed"}


class Plot:
    """A picture; `height` gives the place of a value between the bottom (0) and the top (1)."""

    def __init__(self, title, run, height):
        self.parts, self.height, self.title = [], height, title
        self.text(LEFT, 28, title, 16)
        self.text(LEFT, HEIGHT - 40, f"{run['date']}, {run['machine']}", 11)
        self.text(LEFT, HEIGHT - 26, f"load {run['load before']} before the run and {run['load after']} after it", 11)
        self.text(LEFT, HEIGHT - 12, f"Watchman {run['watchman']}; made by make bench NAME=plots", 11)

    def text(self, x, y, told, size=12, anchor="start", colour="#222"):
        place = f'x="{x:.1f}" y="{y:.1f}" font-size="{size}" text-anchor="{anchor}"'
        self.parts.append(f'<text {place} fill="{colour}">{escape(told)}</text>')

    def y(self, value):
        return HEIGHT - BOTTOM - (HEIGHT - BOTTOM - TOP) * self.height(value)

    def level(self, value, told):
        at = self.y(value)
        self.parts.append(f'<line x1="{LEFT}" y1="{at:.1f}" x2="{WIDTH - RIGHT}" y2="{at:.1f}" stroke="#ddd"/>')
        self.text(LEFT - 8, at + 4, told, 11, "end")

    def bar(self, x, width, value, colour, told):
        at = self.y(value)
        size = f'width="{width:.1f}" height="{HEIGHT - BOTTOM - at:.1f}"'
        self.parts.append(f'<rect x="{x:.1f}" y="{at:.1f}" {size} fill="{colour}"/>')
        self.text(x + width / 2, at - 5, told, 11, "middle")

    def line(self, points, colour, dashes):
        at = " ".join(f"{x:.1f},{self.y(value):.1f}" for x, value in points)
        self.parts.append(f'<polyline points="{at}" fill="none" stroke="{colour}" stroke-width="2" stroke-dasharray="{dashes}"/>')
        self.parts += [f'<circle cx="{x:.1f}" cy="{self.y(value):.1f}" r="3" fill="{colour}"/>' for x, value in points]

    def names(self, at):
        for place, (name, colour) in enumerate(COLOURS.items()):
            left = WIDTH - RIGHT - 220 + 110 * place
            self.parts.append(f'<rect x="{left}" y="{at - 10}" width="12" height="12" fill="{colour}"/>')
            self.text(left + 18, at, name)

    def save(self, path):
        with open(path, "w") as file:
            size = f'width="{WIDTH}" height="{HEIGHT}"'
            file.write(f'<svg xmlns="http://www.w3.org/2000/svg" {size} font-family="sans-serif" role="img">\n')
            file.write(f'<title>{escape(self.title)}</title>\n<rect {size} fill="white"/>\n')
            file.write("\n".join(self.parts) + "\n</svg>\n")


def medians(row):
    return {name: statistics.median(found) for name, found in row.items()}


def spread(found):
    """The least and the greatest of some runs."""
    told = [f"{value:,.3f}" if value < 1 else f"{value:,.1f}" if value < 100 else f"{value:,.0f}"
            for value in (min(found), max(found))]
    return told[0] if told[0] == told[1] else f"{told[0]} to {told[1]}"


def cell(row):
    ours, theirs = (statistics.median(row[name]) for name in COLOURS)
    ratio = f"**{ours / theirs:.2f}**" if theirs else "-"
    return f"{spread(row['watchmand'])}; {spread(row['watchman'])}; {ratio}"


def show_table(run):
    """The table in Markdown: each cell has ours, theirs and the ratio of the medians."""
    sizes = sorted(run["sizes"], key=int)
    print("| | " + " | ".join(f"{int(size):,} files" for size in sizes) + " |")
    print("|---" * (1 + len(sizes)) + "|")
    for what in run["sizes"][sizes[0]]:
        if not what.startswith("files in"):
            print(f"| {what} | " + " | ".join(cell(run["sizes"][size][what]) for size in sizes) + " |")


def clients_plot(run):
    size = sorted(run["sizes"], key=int)[len(run["sizes"]) // 2]
    rows = {count: medians(run["sizes"][size][f"since a second, {count} clients"]) for count in (1, 8, 31)}
    most = max(max(row.values()) for row in rows.values())
    top = math.ceil(most / 50000) * 50000
    plot = Plot(f"Answers to since a second, {int(size):,} files, nothing changed", run, lambda value: value / top)
    for step in range(6):
        plot.level(top * step / 5, f"{top * step // 5:,}")
    wide = (WIDTH - LEFT - RIGHT) / 3
    for place, (count, row) in enumerate(rows.items()):
        for side, name in enumerate(COLOURS):
            plot.bar(LEFT + wide * place + 40 + 72 * side, 66, row[name], COLOURS[name], f"{row[name]:,.0f}")
        plot.text(LEFT + wide * (place + 0.5), HEIGHT - BOTTOM + 18, f"{count} client{'s' if count > 1 else ''}", 12, "middle")
    plot.names(HEIGHT - BOTTOM + 42)
    return plot


def files_plot(run):
    sizes = sorted(run["sizes"], key=int)
    found = {(size, row): medians(run["sizes"][size][row]) for size in sizes for row in ROWS}
    values = [value for row in found.values() for value in row.values()]
    low, high = math.floor(math.log10(min(values))), math.ceil(math.log10(max(values)))
    plot = Plot("Milliseconds by files, on a logarithmic scale", run, lambda value: (math.log10(value) - low) / (high - low))
    for power in range(low, high + 1):
        plot.level(10.0 ** power, f"{10.0 ** power:g} ms")
    places = [LEFT + 30 + (WIDTH - LEFT - RIGHT - 60) * place / max(1, len(sizes) - 1) for place in range(len(sizes))]
    for x, size in zip(places, sizes):
        plot.text(x, HEIGHT - BOTTOM + 18, f"{int(size):,} files", 12, "middle")
    for place, (row, told) in enumerate(ROWS.items()):
        dashes = ("", "9 4", "4 4", "1 3")[place]
        for name, colour in COLOURS.items():
            plot.line([(x, found[size, row][name]) for x, size in zip(places, sizes)], colour, dashes)
        x, y = LEFT + 225 * (place % 2), HEIGHT - BOTTOM + 38 + 18 * (place // 2)
        ends = f'x1="{x}" y1="{y - 4}" x2="{x + 34}" y2="{y - 4}"'
        plot.parts.append(f'<line {ends} stroke="#222" stroke-width="2" stroke-dasharray="{dashes}"/>')
        plot.text(x + 40, y, told, 11)
    plot.names(HEIGHT - BOTTOM + 42)
    return plot


def main():
    path, folder = sys.argv[1:]
    with open(path) as file:
        run = json.load(file)
    clients_plot(run).save(f"{folder}/since_by_clients.svg")
    files_plot(run).save(f"{folder}/cost_by_files.svg")
    show_table(run)


if __name__ == "__main__":
    main()
