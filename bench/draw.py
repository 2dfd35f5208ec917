#!/usr/bin/env python3
"""Draws the picture docs/speed.svg from the tables of a run.

usage: bench/draw.py TABLES PICTURE     TABLES is what print_tables.py printed: a file of bench/results/

Above, for each question and zone, this library's time divided by that of the fastest peer whose answers are the same, by one call
for each question; below, times for each number of transitions. The date and the machine are those of
the tables. If a table is missing, its part is left out. It measures nothing.
"""

import math
import re
import sys
from pathlib import Path
from xml.sax.saxutils import escape

OURS = "Sahvumbi"
# The panels of each row.
RATIOS = [
    {
        "An instant, 1900 to 2099": "by instant, 1900 to 2099",
        "An instant, 2020 to 2029": "by instant, 2020 to 2029",
        "Reading a zone": "parsing the zone",
    },
    {
        "A wall clock, 1900 to 2099": "by local time, 1900 to 2099",
        "A wall clock, 2020 to 2029": "by local time, 2020 to 2029",
    },
]
PANELS = 3
WORK = {
    "Instants at work": "The same ratio for work with instants, New York 2020 to 2029, in Rattle",
    "Dates without a time zone": "The same for dates and local date-times without a time zone, 2020 to 2029, in Rattle",
}
GROWTH = {
    "An instant, by the number of transitions": "by instant",
    "A wall clock, by the number of transitions": "by local time",
}
UNITS = {"ns": 1, "µs": 1e3, "ms": 1e6}
WIDTH, MARGIN, LABELS, WORK_LABELS, BAR, GAP, PANEL_GAP = 960, 24, 118, 270, 15, 7, 22
PLOT_HEIGHT = 300
# The ratio at the right end of an axis; its left end has the inverse.
FARTHEST = 24
# The colours of each class on a light and on a dark page: literal ones, since many viewers know no variables.
COLOURS = {
    "paper": ("fill: #ffffff", "fill: #0d1117"),
    "ink": ("fill: #1f2328", "fill: #f0f6fc"),
    "faint": ("fill: #59636e", "fill: #9198a1"),
    "grid": ("stroke: #d1d9e0", "stroke: #3d444d"),
    "mark": ("stroke: #1f2328", "stroke: #f0f6fc"),
    "over": ("stroke: #ffffff", "stroke: #0d1117"),
    "half": ("stroke: #59636e", "stroke: #9198a1"),
    "good": ("fill: #0969da", "fill: #4493f8"),
    "bad": ("fill: #bc4c00", "fill: #f0883e"),
}
LINES = [
    ("#0969da", "#4493f8"), ("#bc4c00", "#f0883e"), ("#1a7f37", "#3fb950"), ("#8250df", "#ab7df8"), ("#9a6700", "#d29922"),
    ("#bf3989", "#db61a2"),
]
COLOURS |= {f"s{number}": (f"stroke: {light}", f"stroke: {dark}") for number, (light, dark) in enumerate(LINES)}
COLOURS |= {f"l{number}": (f"fill: {light}", f"fill: {dark}") for number, (light, dark) in enumerate(LINES)}
STYLE = """
text { font: 12px system-ui, -apple-system, "Segoe UI", "Noto Sans", Helvetica, Arial, sans-serif }
.title { font-size: 15px; font-weight: 600 }
.faint { font-size: 11px }
.end { text-anchor: end }
.middle { text-anchor: middle }
.grid, .mark, .half { stroke-width: 1 }
.half { stroke-dasharray: 1 3 }
.over { paint-order: stroke; stroke-width: 3px }
.line { fill: none; stroke-width: 1.6 }
.ours { stroke-width: 3.2 }
"""


def rules(shade):
    return "".join(f".{kind} {{ {colours[shade]} }}\n" for kind, colours in COLOURS.items())


STYLE += rules(0) + "@media (prefers-color-scheme: dark) {\n" + rules(1) + "}\n"


# In files of before 2026-11-26 the first column and the ratio are those of arrays.
ONE_CALL = "one call a question"


def by_one_call(row):
    """A row whose first figure, and whose ratio, is that of one call for each question."""
    one = row.pop(ONE_CALL, "-")
    if one != "-":
        row["Sahvumbi"] = one
        peer = row["ratio"].partition("(")[2].rstrip(")")
        if peer:
            row["ratio"] = f"{nanoseconds(one) / nanoseconds(row[peer]):.2f} ({peer})"
    return row


def tables(text):
    """Each table below a heading of three marks, as a list of rows by column, under the heading's words."""
    found, title = {}, None
    for line in text.splitlines():
        if line.startswith("#"):
            title = line[4:].strip() if line.startswith("### ") else None
        elif title and line.startswith("|"):
            cells = [cell.strip() for cell in line.strip("|").split("|")]
            found.setdefault(title, []).append(cells)
    return {title: [by_one_call(dict(zip(rows[0], row))) for row in rows[2:]] for title, rows in found.items()}


def nanoseconds(cell):
    """The time in a cell, or None if it has none."""
    words = cell.split()
    return float(words[0]) * UNITS[words[1]] if len(words) > 1 and words[1] in UNITS else None


def ratio(row):
    """This library's time divided by that of the peer which the row names as fastest, and that peer; None if it names none."""
    number, _, peer = row["ratio"].partition(" (")
    return (float(number), peer.rstrip(")")) if peer else None


def measured(text):
    """The day and the machine of the tables, as they say it in a line of their own."""
    found = re.search(r"(?m)^(\d{4}-\d\d-\d\d), (.*?), (\d+ processors)", text)
    return f"{found[1]}, {found[2].replace('(R)', '')}, {found[3]}" if found else "no date"


class Picture:
    def __init__(self):
        self.parts, self.height = [], MARGIN

    def text(self, x, y, words, kind=""):
        colour = "" if re.search(r"faint|l\d", kind) else "ink "
        self.parts.append(f'<text x="{x:.1f}" y="{y:.1f}" class="{(colour + kind).strip()}">{escape(words)}</text>')

    def line(self, x1, y1, x2, y2, kind):
        self.parts.append(f'<line x1="{x1:.1f}" y1="{y1:.1f}" x2="{x2:.1f}" y2="{y2:.1f}" class="{kind}"/>')

    def bar(self, x, y, width, kind):
        self.parts.append(f'<rect x="{x:.1f}" y="{y:.1f}" width="{width:.1f}" height="{BAR}" rx="2" class="{kind}"/>')

    def spelled(self):
        height = self.height + MARGIN
        head = (
            f'<svg xmlns="http://www.w3.org/2000/svg" viewBox="0 0 {WIDTH} {height:.0f}" width="{WIDTH}" height="{height:.0f}" role="img">\n'
            "<title>Times of Sahvumbi's lookups, compared with other libraries</title>\n"
            f"<style>{STYLE}</style>\n"
            '<rect width="100%" height="100%" class="paper"/>\n'
        )
        return head + "\n".join(self.parts) + "\n</svg>\n"


def place(x, width, number):
    """Where a ratio lies on an axis of logarithms with 1 in its middle. A ratio beyond the axis lies at its end."""
    return x + width * (0.5 + max(-1, min(1, math.log(number) / math.log(FARTHEST))) / 2)


def ratio_bar(picture, x, y, width, row):
    """A bar from 1 to the ratio, with words on the other side of 1."""
    middle = place(x, width, 1)
    found = ratio(row) if row else None
    if not found:
        picture.text(middle + 5, y + BAR - 3, "no other library", "faint")
        return
    number, peer = found
    end = place(x, width, number)
    picture.bar(min(middle, end), y, max(abs(end - middle), 1), "good" if number <= 1 else "bad")
    words = f"{number:.2f} {peer}"
    side = (middle + 5, "faint over") if number <= 1 else (middle - 5, "faint over end")
    picture.text(side[0], y + BAR - 3, words, side[1])


def panel(picture, x, top, width, head, rows):
    """Bars from the top on, and lines for a few ratios."""
    bottom = top + len(rows) * (BAR + GAP)
    picture.text(x, top - 14, head)
    for number, words in ((1 / 16, "1/16"), (1 / 4, "1/4"), (1 / 2, "1/2"), (1, "1"), (4, "4"), (16, "16")):
        kind = {1: "mark", 1 / 2: "half"}.get(number, "grid")
        picture.line(place(x, width, number), top - 4, place(x, width, number), bottom, kind)
        picture.text(place(x, width, number), bottom + 13, words, "faint middle")
    for i, row in enumerate(rows):
        ratio_bar(picture, x, top + i * (BAR + GAP), width, row)
    return bottom + 22


def draw_head(picture, text):
    """What the bars mean, and when and where they were measured."""
    picture.text(MARGIN, picture.height + 8, "Sahvumbi's time divided by that of the fastest library with the same answers", "title")
    words = "1: as fast (solid line); 1/2: half the time (dotted). Logarithmic axis; the other library is named. One call for each question."
    for colour, x, meaning in (("good", MARGIN, "Sahvumbi is faster"), ("bad", MARGIN + 150, "Sahvumbi is slower")):
        picture.bar(x, picture.height + 20, BAR, colour)
        picture.text(x + BAR + 6, picture.height + 32, meaning)
    picture.text(MARGIN, picture.height + 54, words, "faint")
    picture.text(MARGIN, picture.height + 70, f"Measured on {measured(text)}; SPEED.md has the load and the versions.", "faint")
    picture.height += 86


def labels(picture, top, width, words):
    """The names of the bars, before them."""
    for i, word in enumerate(words):
        picture.text(MARGIN + width - 8, top + i * (BAR + GAP) + BAR - 3, word, "end")


def draw_ratios(picture, found):
    rows = [{title: head for title, head in row.items() if title in found} for row in RATIOS]
    if not any(rows):
        return
    width = (WIDTH - 2 * MARGIN - LABELS - (PANELS - 1) * PANEL_GAP) / PANELS
    for row in filter(None, rows):
        zones = [each["zone"] for each in found[next(iter(row))]]
        top = end = picture.height + 28
        labels(picture, top, LABELS, [zone.replace("_", " ") for zone in zones])
        for i, (title, head) in enumerate(row.items()):
            of_zone = {each["zone"]: each for each in found[title]}
            x = MARGIN + LABELS + i * (width + PANEL_GAP)
            end = panel(picture, x, top, width, head, [of_zone.get(zone) for zone in zones])
        picture.height = end + 8
    picture.height += 16


def draw_work(picture, found):
    for title, head in WORK.items():
        rows = found.get(title, [])
        if not rows:
            continue
        top = picture.height + 44
        picture.text(MARGIN, picture.height + 8, head, "title")
        labels(picture, top, WORK_LABELS, [row["question"].replace("`", "") for row in rows])
        width = (WIDTH - 2 * MARGIN - WORK_LABELS) * 0.6
        picture.height = panel(picture, MARGIN + WORK_LABELS, top, width, "", rows) + 24


def ticks(least, greatest):
    """The powers of ten, and twice and five times them, from the one to the other."""
    power = math.floor(math.log10(least))
    while 10**power <= greatest:
        yield from (digit * 10**power for digit in (1, 2, 5) if least <= digit * 10**power <= greatest)
        power += 1


def spread(places, least):
    """The heights of labels, moved apart so that no two are nearer than that."""
    order = sorted(range(len(places)), key=lambda i: places[i])
    moved = list(places)
    for _ in range(200):
        for low, high in zip(order, order[1:]):
            overlap = least - (moved[high] - moved[low])
            if overlap > 0.01:
                moved[low] -= overlap / 2
                moved[high] += overlap / 2
    return moved


def draw_lines(picture, x, top, width, head, rows, peers, times):
    """A line for each library over axes of logarithms."""
    counts = [int(row["transitions"].replace(",", "")) for row in rows]
    least, greatest = min(times) / 1.3, max(times) * 1.3
    first, last = math.log2(counts[0]), math.log2(counts[-1])

    def across(count):
        return x + (math.log2(count) - first) / (last - first) * width

    def down(time):
        return top + (1 - math.log(time / least) / math.log(greatest / least)) * PLOT_HEIGHT

    picture.text(x, top - 12, head)
    for tick in ticks(least, greatest):
        picture.line(x, down(tick), x + width, down(tick), "grid")
        picture.text(x - 6, down(tick) + 4, f"{tick:g} ns" if tick < 1000 else f"{tick / 1000:g} µs", "faint end")
    for count in counts[::2]:
        picture.line(across(count), top, across(count), top + PLOT_HEIGHT, "grid")
        picture.text(across(count), top + PLOT_HEIGHT + 15, f"{count:,}", "faint middle")
    ends = []
    for number, peer in enumerate(peers):
        points = [(across(n), down(time)) for n, row in zip(counts, rows) if (time := nanoseconds(row[peer])) is not None]
        if not points:
            continue
        path = " ".join(f"{a:.1f},{b:.1f}" for a, b in points)
        kind = "line ours" if peer == OURS else "line"
        picture.parts.append(f'<polyline points="{path}" class="{kind} s{number}"/>')
        ends.append((peer, number, points[-1][1]))
    for (peer, number, _), height in zip(ends, spread([end for _, _, end in ends], 14)):
        picture.text(x + width + 6, height + 4, peer.split()[0], f"l{number}")


def draw_growth(picture, found):
    shown = {title: head for title, head in GROWTH.items() if title in found}
    if not shown:
        return
    picture.text(MARGIN, picture.height + 8, "Time of one lookup, for zones with this many transitions (one call each, logarithmic axes)", "title")
    columns = [column for title in shown for column in found[title][0] if column != "transitions"]
    peers = list(dict.fromkeys(columns))
    rows = [row for title in shown for row in found[title]]
    times = [time for row in rows for peer in peers if (time := nanoseconds(row.get(peer, "-"))) is not None]
    top, axis, names = picture.height + 52, 48, 72
    width = (WIDTH - 2 * MARGIN) / 2 - axis - names
    for i, (title, head) in enumerate(shown.items()):
        draw_lines(picture, MARGIN + axis + i * (width + axis + names), top, width, head, found[title], peers, times)
    picture.height = top + PLOT_HEIGHT + 20


def main():
    tables_path, picture_path = map(Path, sys.argv[1:3])
    text = tables_path.read_text()
    found = tables(text)
    picture = Picture()
    draw_head(picture, text)
    draw_ratios(picture, found)
    draw_work(picture, found)
    draw_growth(picture, found)
    picture_path.write_text(picture.spelled())


if __name__ == "__main__":
    main()
