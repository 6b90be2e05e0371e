#!/usr/bin/env python3
"""Tells and draws how fast OakMap is beside other maps: prints two tables, and writes a chart of each.

usage: draw_peers.py RESULTS FOLDER

RESULTS is a file of bench/peers.sh, a line for each run: its table (`threads` or `keys`), map, work, keys and threads, how
many calls went through, and the nanoseconds of all. FOLDER gets peers.svg, the calls a second of each work by one thread
and by several, and peers_by_keys.svg, the nanoseconds of a call by the keys that the map has. It ends with 0; with 2 and
one line on standard error where the words or the results are none.
"""
import collections
import math
import statistics
import sys

from picture import COLOURS, FAINT, INK, RULE, Picture

NAMES = {"oakmap": "OakMap", "std": "std::map, rwlock", "tbb": "oneTBB", "java": "skip list"}
COLOUR = dict(zip(NAMES, COLOURS))
WORKS = {
    "add": "add to 1,024 counters", "ingest": "put new keys", "get": "get and sum", "over": "put over",
    "up": "scan up, pairs", "down": "scan down, pairs"}
CALLS = {"get": "a get", "over": "a put over", "ingest": "a put of a new key", "up": "a pair of a scan up"}
MARGIN, GAP = 20, 36
PANEL_HEIGHT, AXIS = 150, 44
BAR, GROUP = 30, 150


class Wrong(Exception):
    """The results are none."""


Cell = collections.namedtuple("Cell", "work keys threads map")


def read_results(path):
    """The nanoseconds of a call in each run, by table and cell."""
    tables = {"threads": collections.defaultdict(list), "keys": collections.defaultdict(list)}
    with open(path, encoding="ascii") as file:
        for line in file:
            words = line.split()
            if len(words) != 7 or words[0] not in tables or words[1] not in NAMES or words[2] not in WORKS:
                raise Wrong(f"no result: {line.strip()}")
            keys, threads, calls, took = map(int, words[3:])
            if 0 in (keys, threads, calls, took):
                raise Wrong(f"a count is 0: {line.strip()}")
            tables[words[0]][Cell(words[2], keys, threads, words[1])].append(took / calls)
    return tables


def columns_of(cells, part):
    """The different values of a part of the cells, in the order in which they came."""
    return list(dict.fromkeys(getattr(cell, part) for cell in cells))


def short(number):
    """A number in two digits or more."""
    return f"{number:.2f}" if number < 0.995 else f"{number:.1f}" if number < 9.95 else f"{number:,.0f}"


def runs_of(cells, work, threads, name):
    """What the calls took in the runs of a map, or none where it does not do the work."""
    return cells.get(Cell(work, columns_of(cells, "keys")[0], threads, name))


def speeds(took):
    """Million calls a second in the best run and in the median one."""
    return f"{short(1e3 / min(took))} ({short(1e3 / statistics.median(took))})"


def print_row(words):
    print("| " + " | ".join(words) + " |")


def print_speeds(cells):
    """Millions of calls a second, best and median, and how many times the best of a map the best of OakMap is."""
    ours, *others = NAMES
    print_row(["Work", "Threads", NAMES[ours], *(word for name in others for word in (NAMES[name], "ratio"))])
    print_row(["---"] * (3 + 2 * len(others)))
    for work in columns_of(cells, "work"):
        for threads in columns_of(cells, "threads"):
            best = min(runs_of(cells, work, threads, ours))
            row = [WORKS[work], str(threads), speeds(runs_of(cells, work, threads, ours))]
            for name in others:
                took = runs_of(cells, work, threads, name)
                row += [speeds(took), short(min(took) / best)] if took else ["none", ""]
            print_row(row)


def print_times(cells):
    """Nanoseconds of a call, best and median, and how many times the best with the fewest keys those with more are."""
    maps, keys = list(NAMES), columns_of(cells, "keys")
    print_row(["Call", "Map", *(f"{count:,} keys" for count in keys), "most to fewest"])
    print_row(["---"] * (len(keys) + 3))
    for work in columns_of(cells, "work"):
        for name in maps:
            all_took = [cells[Cell(work, count, 1, name)] for count in keys]
            row = [f"{short(min(took))} ({short(statistics.median(took))})" for took in all_took]
            print_row([CALLS[work], NAMES[name], *row, short(min(all_took[-1]) / min(all_took[0]))])


def rounded_up(number):
    """The least number of at least this one that an axis of four parts may end with."""
    power = 10 ** math.floor(math.log10(number))
    return next(top * power for top in (1, 1.2, 1.6, 2, 2.4, 3.2, 4, 6, 8, 10) if top * power >= number)


class Panel:
    """A part of a chart, with an axis from 0."""

    def __init__(self, picture, x, y, width, title, unit, most):
        self.picture, self.x, self.y, self.width = picture, x + AXIS, y + 40, width
        self.top = rounded_up(most)
        picture.text(x, y + 12, title, width + AXIS, size=13, bold=True)
        picture.text(x, y + 27, unit, width + AXIS, size=10, fill=FAINT)
        for part in range(5):
            level = self.height_of(self.top * part / 4)
            picture.line(self.x, level, self.x + width, level, INK if part == 0 else RULE)
            picture.text(self.x - 6, level + 4, f"{self.top * part / 4:g}", AXIS, size=10, fill=FAINT, anchor="end")
        picture.reach(self.x + width, self.y + PANEL_HEIGHT + 18)

    def height_of(self, number):
        """Where a number stands."""
        return round(self.y + PANEL_HEIGHT * (1 - number / self.top), 1)

    def name(self, x, words):
        """A name below the axis."""
        self.picture.text(x, self.y + PANEL_HEIGHT + 15, words, self.width, size=10, anchor="middle")


def draw_legend(picture, y, words):
    """The colours of the maps, and what else the marks mean."""
    x = MARGIN
    for name, colour in COLOUR.items():
        picture.rectangle(x, y, 12, 12, colour)
        picture.text(x + 18, y + 10, NAMES[name], 140)
        x += 34 + 7 * len(NAMES[name])
    picture.text(x, y + 10, words, 500, fill=FAINT)


def draw_bars(panel, left, cells, work, threads):
    """A bar for each map: its best run, with a line at the median."""
    for place, name in enumerate(NAMES):
        x = left + place * BAR
        took = runs_of(cells, work, threads, name)
        if took is None:
            low = panel.height_of(0) - 5
            panel.picture.text(x + BAR // 2 - 2, low, "none", BAR, size=9, fill=FAINT, anchor="middle")
            continue
        best, middle = 1e3 / min(took), 1e3 / statistics.median(took)
        high, mark = panel.height_of(best), panel.height_of(middle)
        with panel.picture.group(f"{NAMES[name]}: {short(best)}, median {short(middle)}"):
            panel.picture.rectangle(x, high, BAR - 4, round(panel.height_of(0) - high, 1), COLOUR[name])
            panel.picture.line(x, mark, x + BAR - 4, mark, INK, 2)
            panel.picture.text(x + BAR // 2 - 2, high - 4, short(best), BAR + 6, size=9, anchor="middle")


def draw_speeds(cells):
    """The calls a second: a panel for each work, with the bars of each number of threads."""
    picture = Picture()
    picture.text(MARGIN, MARGIN + 14, "OakMap beside other maps", 700, size=18, bold=True)
    keys = columns_of(cells, "keys")[0]
    told = f"{keys:,} keys of 8 bytes, values of 100 bytes; more is better."
    picture.text(MARGIN, MARGIN + 34, told, 700, fill=FAINT)
    draw_legend(picture, MARGIN + 46, "A line across a bar is the median of its seven runs.")
    all_threads = columns_of(cells, "threads")
    width = GROUP * len(all_threads)
    for place, work in enumerate(columns_of(cells, "work")):
        most = max(1e3 / min(took) for cell, took in cells.items() if cell.work == work)
        x = MARGIN + place % 2 * (width + AXIS + GAP)
        y = MARGIN + 78 + place // 2 * (PANEL_HEIGHT + 90)
        panel = Panel(picture, x, y, width, WORKS[work], "million a second", most * 1.08)
        for group, threads in enumerate(all_threads):
            left = panel.x + group * GROUP + (GROUP - BAR * len(NAMES)) // 2
            draw_bars(panel, left, cells, work, threads)
            panel.name(panel.x + group * GROUP + GROUP // 2, f"{threads} thread" + ("s" if threads > 1 else ""))
    told = "Calls a second by one thread and by several, best of seven runs."
    return picture.svg("OakMap beside other maps", told, MARGIN)


def draw_line(panel, cells, work, name, keys):
    """A map's best runs, by the keys."""
    points = [(place_of(panel, count, keys), panel.height_of(min(cells[Cell(work, count, 1, name)]))) for count in keys]
    for (x, y), (to_x, to_y) in zip(points, points[1:]):
        panel.picture.line(x, y, to_x, to_y, COLOUR[name], 2)
    for count, (x, y) in zip(keys, points):
        took = cells[Cell(work, count, 1, name)]
        told = f"{NAMES[name]}, {count:,} keys: {short(min(took))}, median {short(statistics.median(took))}"
        with panel.picture.group(told):
            panel.picture.circle(x, y, 3.5, COLOUR[name], COLOUR[name])


def place_of(panel, count, keys):
    """Where a number of keys stands, as far from another as they are many times each other."""
    share = math.log(count / keys[0]) / math.log(keys[-1] / keys[0])
    return round(panel.x + 24 + share * (panel.width - 48), 1)


def draw_times(cells):
    """The nanoseconds of a call: a panel for each work, with a line for each map."""
    picture = Picture()
    picture.text(MARGIN, MARGIN + 14, "What a call costs, by the keys", 700, size=18, bold=True)
    picture.text(
        MARGIN, MARGIN + 34, "One thread, keys of 8 bytes, values of 24 bytes; less is better.", 700, fill=FAINT)
    draw_legend(picture, MARGIN + 46, "Best of seven runs.")
    keys = columns_of(cells, "keys")
    width = 2 * GROUP
    for place, work in enumerate(columns_of(cells, "work")):
        most = max(min(took) for cell, took in cells.items() if cell.work == work)
        x = MARGIN + place % 2 * (width + AXIS + GAP)
        y = MARGIN + 78 + place // 2 * (PANEL_HEIGHT + 90)
        panel = Panel(picture, x, y, width, CALLS[work], "nanoseconds", most)
        for name in reversed(NAMES):
            draw_line(panel, cells, work, name, keys)
        for count in keys:
            panel.name(place_of(panel, count, keys), f"{count:,}")
    return picture.svg("What a call costs, by the keys", "Nanoseconds of a call, best of seven runs.", MARGIN)


def refuse(why):
    print(f"draw_peers.py: {why}", file=sys.stderr)
    sys.exit(2)


def main():
    if len(sys.argv) != 3:
        refuse(__doc__.split("\n\n")[1])
    path, folder = sys.argv[1:]
    try:
        tables = read_results(path)
        print_speeds(tables["threads"])
        print()
        print_times(tables["keys"])
        for name, drawn in (("peers", draw_speeds(tables["threads"])), ("peers_by_keys", draw_times(tables["keys"]))):
            with open(f"{folder}/{name}.svg", "w", encoding="utf-8") as file:
                file.write(drawn)
    except OSError as fault:
        refuse(f"{fault.filename}: {fault.strerror}")
    except LookupError:
        refuse(f"{path}: not all runs are there")
    except (Wrong, ValueError) as wrong:
        refuse(f"{path}: {wrong}")


if __name__ == "__main__":
    main()
