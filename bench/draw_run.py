#!/usr/bin/env python3
"""Draws a run: writes one SVG to standard output, of a script and the text of its run.

usage: draw_run.py SCRIPT TEXT

SCRIPT and TEXT are files: a script without a fault, and what `oakmap run` printed for it. The picture has
- each thread with its calls in their order, and what was replied;
- each key with its history: the state at each place, and the replies that stand there, a line for each thread;
- each scan as a bar over the keys of its range;
- at the side what is used of the table at the end, and what the marks mean.
Of more than 200 calls it is a summary: the writes of each key, the refusals by what was lacking, and where in the
histories of their keys the replies of each thread stand.

A text is drawn only where check_run.py finds it right. It ends with 0; with 2 and one line on standard error where a
file can't be read, the script has a fault, or the text is none of a run of it.
"""
import collections
import sys

sys.dont_write_bytecode = True
from check_run import in_range, judge
from picture import COLOURS, FAINT, INK, PAPER, RULE, WARNING, Picture
from run_text import ABSENT, LACKS, WRITES, Wrong, require_script

MOST_CALLS = 200
MARGIN = 20
LABEL = 44
COLUMN = 164
STEP = COLUMN + 12
LEAST_COLUMNS, MOST_COLUMNS = 3, 5
SIDE = 250
LINE = 16
BOX = 52
STATE = 36
MOST_MARKS = 6
SCAN_LABEL = 160
SCAN_STEP = 44
ROW = 24
MOST_BARS = 24
PARTS = 10
WRITE_FILL = "#d9e8f6"
WRITE_EDGE = "#1f4e79"
GROUND = "#f4f5f7"
# From few to many, each with the ink that is read on it.
SHADES = [("#eef4fa", INK), ("#c6dcef", INK), ("#8fbce0", INK),
          ("#3579b1", PAPER), ("#1f5a91", PAPER), ("#0b3a66", PAPER)]


def key_words(key):
    """A key as it is read most easily: its letters, where it has no other bytes, and else its digits."""
    return f'"{key.decode("ascii")}"' if all(0x21 <= byte <= 0x7E for byte in key) else key.hex()


def state_words(state):
    return "absent" if state is ABSENT else state.hex() or "empty"


def counted(number, word):
    return f"{number} {word}" if number == 1 else f"{number} {word}s"


def about(call):
    """What a call is about, its key, name or lower bound, and what it does with it."""
    if call.word in ("scan", "back"):
        low = "" if call.low is None else f"from {key_words(call.low)}"
        high = "" if call.high is None else f"to {key_words(call.high)}"
        return (low, high) if low or high else ("all keys", "")
    if call.word == "look":
        return call.name, ""
    if call.word == "hold":
        return key_words(call.key), f"as {call.name}"
    return key_words(call.key), " ".join(call.words[2:])


def reply_words(reply):
    if reply.word == "=":
        return f"= {state_words(reply.value)}"
    if reply.word == "full":
        return f"full {reply.lack}"
    return reply.word if reply.pairs is None else counted(len(reply.pairs), "pair")


def title_of(call, reply):
    place = "" if reply.place is None else f" @{reply.place}"
    return f"{call.label} {' '.join(call.words)}: {reply_words(reply)}{place}"


class Mark:
    """A reply about one key."""

    def __init__(self, call, reply):
        self.call = call
        self.reply = reply
        self.place = reply.place


def marks_of(run):
    """Of each key that a call names, and of no other, the replies about it, thread by thread in their order."""
    marks = {call.key: [] for calls in run.threads for call in calls if call.key is not None}
    for calls, answers in zip(run.threads, run.replies):
        held = {}
        for call, reply in zip(calls, answers):
            if call.word == "hold":
                held[call.name] = call.key if reply.word == "held" else None
            key = held.get(call.name) if call.word == "look" else call.key
            if key is not None:
                marks[key].append(Mark(call, reply))
    return {key: marks[key] for key in sorted(marks)}


def scans_of(run):
    return [(call, reply) for calls, answers in zip(run.threads, run.replies)
            for call, reply in zip(calls, answers) if reply.pairs is not None]


def heading(picture, y, words, explained, width):
    """The heading of a part with what is to be known of it, and where the part goes on."""
    picture.text(MARGIN, y + 14, words, width, size=14, bold=True)
    picture.text(MARGIN, y + 30, explained, width, fill=FAINT)
    return y + 40


class Sheet:
    """The picture of all calls of a run, part below part."""

    def __init__(self, run):
        self.run = run
        self.marks = marks_of(run)
        self.picture = Picture()
        places = [len(self.states(key)) + self.has_placeless(key) for key in self.marks]
        most = max([len(calls) for calls in run.threads] + places + [LEAST_COLUMNS])
        self.columns = min(most, MOST_COLUMNS)
        self.width = LABEL + self.columns * STEP

    def states(self, key):
        return self.run.histories.get(key, [ABSENT])

    def has_placeless(self, key):
        return any(mark.place is None for mark in self.marks[key])

    def column(self, number):
        """Where the column of a number, from 0, begins."""
        return MARGIN + LABEL + number * STEP

    def thread_label(self, x, y, height, thread):
        self.picture.stripe(x, y, height, thread)
        self.picture.text(x + 10, y + 12, f"t{thread + 1}", LABEL - 12, bold=True)

    def draw(self):
        y = self.draw_threads(MARGIN + 34)
        y = self.draw_keys(y + 20)
        return self.draw_scans(y + 20)

    def draw_threads(self, y):
        y = heading(self.picture, y, "Threads", "Each with its calls in their order, and their replies.", self.width)
        for thread, calls in enumerate(self.run.threads):
            rows = max(1, -(-len(calls) // self.columns))
            self.thread_label(MARGIN, y, rows * (BOX + 8) - 8, thread)
            if not calls:
                self.picture.text(self.column(0), y + 14, "no call", COLUMN, fill=FAINT)
            for number, (call, reply) in enumerate(zip(calls, self.run.replies[thread])):
                row, column = divmod(number, self.columns)
                self.draw_call(self.column(column), y + row * (BOX + 8), call, reply)
            y += rows * (BOX + 8) + 6
        return y

    def draw_call(self, x, y, call, reply):
        writes, refused = reply.word in WRITES, reply.word == "full"
        with self.picture.group(title_of(call, reply)):
            if writes:
                self.picture.rectangle(x, y, COLUMN, BOX, WRITE_FILL, WRITE_EDGE, 1.5, corner=3)
            else:
                self.picture.rectangle(x, y, COLUMN, BOX, PAPER, WARNING if refused else FAINT, 1.5 if refused else 1,
                                       "5 3" if refused else None, 3)
            place = "" if reply.place is None else f"@{reply.place}"
            subject, argument = about(call)
            self.picture.text(x + 8, y + 15, f"{call.number} {call.word} {subject}", COLUMN - 14, bold=True)
            self.picture.text(x + 8, y + 30, argument, COLUMN - 14)
            self.picture.text(x + 8, y + 45, reply_words(reply), COLUMN - 16 - 7 * len(place),
                              fill=WARNING if refused else INK)
            self.picture.text(x + COLUMN - 7, y + 45, place, 40, bold=True, anchor="end")

    def draw_keys(self, y):
        y = heading(self.picture, y, "Keys", "Each with its state at each place, and the replies that stand there.",
                    self.width)
        if not self.marks:
            self.picture.text(MARGIN, y + 14, "No call names a key.", self.width)
            return y + 20
        for key, marks in self.marks.items():
            y = self.draw_key(y, key, marks)
        return y

    def draw_key(self, y, key, marks):
        first, top = len(self.picture.parts), y
        words = key_words(key) if key_words(key) == key.hex() else f"{key_words(key)} = {key.hex()}"
        self.picture.text(MARGIN + 8, y + 17, words, self.width - 140, size=12, bold=True)
        self.picture.text(MARGIN + self.width - 12, y + 17, counted(len(self.states(key)) - 1, "write"), 120,
                          fill=FAINT, anchor="end")
        places = list(range(len(self.states(key)))) + [None] * self.has_placeless(key)
        y += 26
        for front in range(0, len(places), self.columns):
            y = self.draw_places(y, key, marks, places[front:front + self.columns], front + self.columns < len(places))
        self.picture.rectangle(MARGIN, top, self.width, y - top, GROUND, corner=4, at=first)
        return y + 8

    def draw_places(self, y, key, marks, places, goes_on):
        """Some places of a key beside each other, and below them a line for each thread with replies there."""
        for column, place in enumerate(places):
            self.draw_state(self.column(column), y, key, place)
            if column + 1 < len(places) and places[column + 1] is not None or column + 1 == len(places) and goes_on:
                x, middle = self.column(column) + COLUMN, y + STATE // 2
                self.picture.triangle(x + 3, middle, x + 10, middle, 4)
        y += STATE + 4
        for thread in range(len(self.run.threads)):
            found = [[mark for mark in marks if mark.call.thread == thread and mark.place == place] for place in places]
            if any(found):
                height = LINE * min(MOST_MARKS, max(map(len, found)))
                self.picture.line(MARGIN + 8, y - 1, MARGIN + self.width - 12, y - 1, RULE)
                self.thread_label(MARGIN + 8, y + 1, height - 1, thread)
                for column, there in enumerate(found):
                    self.draw_marks(self.column(column), y, there)
                y += height + 3
        return y + 6

    def draw_state(self, x, y, key, place):
        if place is None:
            self.picture.text(x + 4, y + 15, "without a place", COLUMN - 8, fill=FAINT)
            return
        state = self.states(key)[place]
        writer = None if place == 0 else self.run.writes[key][place - 1][1]
        words = state_words(state)
        made = "at first" if writer is None else f"by {' '.join([writer.label, *writer.words])}"
        with self.picture.group(f"@{place} {words}, {made}"):
            gone = state is ABSENT
            self.picture.rectangle(x, y, COLUMN, STATE, GROUND if gone else PAPER, INK, 1, "2 3" if gone else None)
            if writer is not None:
                self.picture.stripe(x, y, STATE, writer.thread)
            self.picture.text(x + 12, y + 14, f"@{place}", COLUMN - 20, bold=True)
            self.picture.text(x + 12, y + 29, words, COLUMN - 14, fill=FAINT if gone else INK)

    def draw_marks(self, x, y, marks):
        most = MOST_MARKS if len(marks) <= MOST_MARKS else MOST_MARKS - 1
        for number, mark in enumerate(marks[:most]):
            self.draw_mark(x, y + number * LINE, mark)
        if len(marks) > most:
            words = f"and {len(marks) - most} more"
            with self.picture.group("\n".join(title_of(mark.call, mark.reply) for mark in marks[most:])):
                self.picture.text(x + 18, y + most * LINE + 12, words, COLUMN - 18, fill=FAINT)

    def draw_mark(self, x, y, mark):
        reply = mark.reply
        words = f"{mark.call.label} {mark.call.word}"
        if mark.place is None:
            words += f" {reply_words(reply)}"
        with self.picture.group(title_of(mark.call, reply)):
            draw_sign(self.picture, x + 8, y + 8, reply.word)
            self.picture.text(x + 18, y + 12, words, COLUMN - 18, bold=reply.word in WRITES)

    def draw_scans(self, y):
        scans = scans_of(self.run)
        if not scans:
            return y
        y = heading(self.picture, y, "Scans", "Each a bar over the keys of its range, with the place of each pair.",
                    self.width)
        beside = (self.width - SCAN_LABEL) // SCAN_STEP
        for front in range(0, len(scans), beside):
            y = ScanBand(self, y).draw(scans[front:front + beside])
        return y


def draw_sign(picture, x, y, word):
    """The sign of a reply: a dot for a write, a cross for a refusal, a ring for the others."""
    if word == "full":
        picture.cross(x, y, 4)
    else:
        picture.circle(x, y, 4, WRITE_EDGE if word in WRITES else PAPER, WRITE_EDGE, 1.5)


class ScanBand:
    """Scans beside each other, over the rows of all keys."""

    def __init__(self, sheet, y):
        self.picture = sheet.picture
        self.width = sheet.width
        self.keys = list(sheet.marks)
        self.top = y + 36
        self.bottom = self.top + ROW * len(self.keys)

    def draw(self, scans):
        for row, key in enumerate(self.keys):
            middle = self.middle(row)
            self.picture.text(MARGIN + 8, middle + 4, key_words(key), SCAN_LABEL - 28)
            self.picture.line(MARGIN + SCAN_LABEL - 16, middle, MARGIN + self.width - 12, middle, RULE)
        self.picture.text(MARGIN + 8, self.bottom + 30, "pairs", SCAN_LABEL - 28, fill=FAINT)
        for number, (call, reply) in enumerate(scans):
            with self.picture.group(title_of(call, reply)):
                self.draw_scan(MARGIN + SCAN_LABEL + number * SCAN_STEP + SCAN_STEP // 2 - 12, call, reply)
        self.picture.reach(0, self.bottom + 34)
        return self.bottom + 44

    def middle(self, row):
        return self.top + row * ROW + ROW // 2

    def low_edge(self, low):
        """Where a bar with this lower bound begins: at its key, or between two keys."""
        row = sum(1 for key in self.keys if low is not None and key < low)
        if low is None:
            return self.top - 4
        return self.middle(row) - 10 if low in self.keys else self.top + row * ROW - 2

    def high_edge(self, high):
        row = sum(1 for key in self.keys if high is not None and key <= high)
        if high is None:
            return self.bottom + 4
        return self.middle(row - 1) + 10 if high in self.keys else self.top + row * ROW + 2

    def draw_scan(self, x, call, reply):
        self.picture.text(x, self.top - 22, call.label, SCAN_STEP, size=10, bold=True, anchor="middle")
        self.picture.text(x, self.bottom + 30, str(len(reply.pairs)), SCAN_STEP, anchor="middle")
        low, high = self.low_edge(call.low), self.high_edge(call.high)
        if call.low is not None and call.high is not None and call.low > call.high:
            self.picture.text(x, low + 4, "empty", SCAN_STEP, size=10, fill=FAINT, anchor="middle")
            return
        self.picture.rectangle(x - 10, low, 20, high - low, WRITE_FILL)
        self.picture.stripe(x - 17, low, high - low, call.thread)
        for edge, bound in ((low, call.low), (high, call.high)):
            if bound is not None:
                self.picture.line(x - 17, edge, x + 13, edge, INK, 2)
        if call.word == "scan":
            self.picture.triangle(x, high + 3, x, high + 11, 6)
        else:
            self.picture.triangle(x, low - 3, x, low - 11, 6)
        self.draw_pairs(x, call, reply)

    def draw_pairs(self, x, call, reply):
        places = {key: place for key, _, place in reply.pairs}
        for row, key in enumerate(self.keys):
            if key in places:
                self.picture.circle(x, self.middle(row), 9, PAPER, WRITE_EDGE, 1.5)
                self.picture.text(x, self.middle(row) + 3, str(places[key]), 20, size=9, anchor="middle")
            elif in_range(call, key):
                self.picture.circle(x, self.middle(row), 2, PAPER, FAINT)


class Summary:
    """The summary of a run of many calls, part below part."""

    def __init__(self, run):
        self.run = run
        self.picture = Picture()
        self.width = LABEL + 5 * STEP

    def draw(self):
        y = self.draw_writes(MARGIN + 34)
        y = self.draw_refusals(y + 20)
        return self.draw_places(y + 20)

    def bar(self, y, words, number, most):
        """A line with a bar: what is counted, and how often it came, beside the greatest such number."""
        room = self.width - 2 * SCAN_LABEL
        self.picture.text(MARGIN, y + 12, words, SCAN_LABEL - 12)
        self.picture.rectangle(MARGIN + SCAN_LABEL, y + 2, room, 12, GROUND)
        if number:
            self.picture.rectangle(MARGIN + SCAN_LABEL, y + 2, max(1, room * number // most), 12, WRITE_EDGE)
        self.picture.text(MARGIN + SCAN_LABEL + room + 10, y + 12, str(number), SCAN_LABEL - 10)
        return y + LINE + 2

    def draw_writes(self, y):
        writes = [(len(made), key) for key, made in self.run.writes.items()]
        writes.sort(key=lambda entry: (-entry[0], entry[1]))
        some = len(writes) > MOST_BARS
        told = f"Of the {MOST_BARS} keys with the most." if some else "Of each key that was written."
        y = heading(self.picture, y, "Writes of a key", told, self.width)
        for number, key in writes[:MOST_BARS]:
            y = self.bar(y, key_words(key), number, writes[0][0])
        rest = [number for number, _ in writes[MOST_BARS:]]
        if rest:
            words = f"and {counted(len(rest), 'more key')} with {counted(sum(rest), 'write')}, each at most {rest[0]}"
            self.picture.text(MARGIN, y + 12, words, self.width, fill=FAINT)
            y += LINE + 2
        return y

    def draw_refusals(self, y):
        y = heading(self.picture, y, "Refusals", "How many calls were refused, by what the table lacked.", self.width)
        lacks = collections.Counter(reply.lack for answers in self.run.replies for reply in answers)
        for lack in LACKS:
            y = self.bar(y, f"full {lack}", lacks[lack], max(lacks[lack] for lack in LACKS))
        return y

    def draw_places(self, y):
        told = "How many of a thread's replies, but for pairs, stand in each tenth of their keys' histories."
        y = heading(self.picture, y, "Places by thread", told, self.width)
        step = (self.width - LABEL - 3 * 80) // PARTS
        beside = MARGIN + LABEL + step * PARTS
        names = ("writes", "other", "refused")
        self.picture.text(MARGIN + LABEL, y + 10, "first", step * 2, fill=FAINT)
        self.picture.text(beside - 6, y + 10, "last", step * 2, fill=FAINT, anchor="end")
        for number, name in enumerate(names):
            self.picture.text(beside + 80 * number + 74, y + 10, name, 74, fill=FAINT, anchor="end")
        rows = [self.parts_of(thread) for thread in range(len(self.run.threads))]
        most = max(max(parts) for parts in rows)
        for thread, parts in enumerate(rows):
            self.draw_parts(y + 16 + thread * ROW, thread, parts, most, step)
        return y + 16 + len(rows) * ROW

    def parts_of(self, thread):
        """How many replies of a thread stand in each tenth of the histories of their keys."""
        parts = [0] * PARTS
        for key, place in self.placed(thread):
            last = len(self.run.histories.get(key, [ABSENT])) - 1
            parts[min(place * PARTS // max(last, 1), PARTS - 1)] += 1
        return parts

    def placed(self, thread):
        """The keys and places of a thread's replies."""
        held = {}
        for call, reply in zip(self.run.threads[thread], self.run.replies[thread]):
            if call.word == "hold":
                held[call.name] = call.key
            if reply.place is not None:
                yield held[call.name] if call.word == "look" else call.key, reply.place

    def draw_parts(self, y, thread, parts, most, step):
        self.picture.stripe(MARGIN, y, ROW - 4, thread)
        self.picture.text(MARGIN + 10, y + 14, f"t{thread + 1}", LABEL - 12, bold=True)
        for number, count in enumerate(parts):
            fill, ink = SHADES[count * (len(SHADES) - 1) // most if most else 0]
            x = MARGIN + LABEL + number * step
            self.picture.rectangle(x, y, step - 2, ROW - 4, fill)
            self.picture.text(x + step // 2 - 1, y + 14, str(count), step - 4, fill=ink, anchor="middle")
        words = [reply.word for reply in self.run.replies[thread]]
        writes, refused = sum(word in WRITES for word in words), words.count("full")
        for number, count in enumerate((writes, len(words) - writes - refused, refused)):
            x = MARGIN + LABEL + step * PARTS + 80 * number + 74
            self.picture.text(x, y + 14, str(count), 74, anchor="end")


def draw_table(picture, x, y, run):
    """What is used of the table at the end, with its limits, and how many calls were refused for want of it."""
    picture.text(x, y + 14, "Table at the end", SIDE, size=14, bold=True)
    picture.text(x, y + 30, "What is used, of what there is.", SIDE, fill=FAINT)
    y += 46
    lacks = collections.Counter(reply.lack for answers in run.replies for reply in answers)
    for name, used, limit in run.table:
        lack = {"headers": "header", "chunks": "room"}.get(name, name)
        words = f"{name[1:]}-byte blocks" if name.startswith("b") else name
        picture.text(x, y + 10, words, 110)
        picture.text(x + SIDE, y + 10, f"{used} of {limit}", SIDE - 110, anchor="end")
        picture.rectangle(x, y + 15, SIDE, 8, PAPER, FAINT)
        if used:
            picture.rectangle(x, y + 15, max(2, SIDE * used // limit), 8, WRITE_EDGE)
        if lacks[lack]:
            picture.text(x, y + 36, f"{counted(lacks[lack], 'call')} refused: {lack}", SIDE, fill=WARNING)
            y += 14
        y += 34
    return y


def legend_line(picture, x, y, words):
    picture.text(x + 34, y + 12, words, SIDE - 34)
    return y + 22


def draw_legend(picture, x, y, run):
    """What the marks of a picture of all calls mean."""
    picture.text(x, y + 14, "What the marks mean", SIDE, size=14, bold=True)
    y += 26
    picture.stripe(x + 10, y + 1, 14, 0)
    y = legend_line(picture, x, y, "the thread, in its colour")
    if len(run.threads) > len(COLOURS):
        picture.stripe(x + 10, y + 1, 14, len(COLOURS))
        y = legend_line(picture, x, y, f"broken: from t{len(COLOURS) + 1} on")
    for word, words in (("new", "a write: makes its place"), ("get", "a reply that wrote nothing"),
                        ("full", "refused: the table was full")):
        draw_sign(picture, x + 13, y + 8, word)
        y = legend_line(picture, x, y, words)
    picture.rectangle(x, y + 1, 26, 14, WRITE_FILL, WRITE_EDGE, 1.5, corner=3)
    y = legend_line(picture, x, y, "a call that wrote")
    picture.rectangle(x, y + 1, 26, 14, PAPER, FAINT, corner=3)
    y = legend_line(picture, x, y, "a call that wrote nothing")
    picture.rectangle(x, y + 1, 26, 14, GROUND, INK, 1, "2 3")
    y = legend_line(picture, x, y, "a state: the key is absent")
    return draw_scan_legend(picture, x, y) if scans_of(run) else y


def draw_scan_legend(picture, x, y):
    picture.circle(x + 13, y + 8, 8, PAPER, WRITE_EDGE, 1.5)
    picture.text(x + 13, y + 11, "2", 20, size=9, anchor="middle")
    y = legend_line(picture, x, y, "a pair at place 2")
    picture.circle(x + 13, y + 8, 2, PAPER, FAINT)
    y = legend_line(picture, x, y, "a key of the range, no pair")
    picture.line(x, y + 8, x + 26, y + 8, INK, 2)
    y = legend_line(picture, x, y, "a bound")
    picture.triangle(x + 8, y + 4, x + 8, y + 12, 6)
    picture.triangle(x + 20, y + 12, x + 20, y + 4, 6)
    return legend_line(picture, x, y, "rising, and falling")


def draw(run):
    """The picture of a run, as an SVG."""
    calls = sum(len(calls) for calls in run.threads)
    whole = calls <= MOST_CALLS
    drawn = Sheet(run) if whole else Summary(run)
    title = f"A run: {counted(len(run.threads), 'thread')}, {counted(calls, 'call')}"
    drawn.picture.text(MARGIN, MARGIN + 18, title, drawn.width, size=18, bold=True)
    drawn.draw()
    x = MARGIN + drawn.width + 24
    y = draw_table(drawn.picture, x, MARGIN + 34, run)
    if whole:
        drawn.picture.reach(x, draw_legend(drawn.picture, x, y + 10, run))
    drawn.picture.reach(x + SIDE, y)
    kind = "All calls, the histories of their keys" if whole else "A summary of the calls"
    return drawn.picture.svg(title, f"{kind}, and what is used of the table at the end.", MARGIN)


def refuse(why):
    print(f"draw_run.py: {why}", file=sys.stderr)
    sys.exit(2)


def read(path):
    """What a file has, where it can be read and is in the letters of scripts and texts."""
    try:
        with open(path, encoding="ascii", newline="") as file:
            return file.read()
    except OSError as fault:
        refuse(f"{path}: {fault.strerror}")
    except UnicodeDecodeError:
        refuse(f"{path}: it has bytes that no script and no text has")


def main():
    if len(sys.argv) != 3:
        refuse(__doc__.split("\n\n")[1])
    script, text = map(read, sys.argv[1:])
    try:
        require_script(script)
    except Wrong as wrong:
        refuse(f"{sys.argv[1]}: {wrong}")
    try:
        run = judge(script, text)
    except (Wrong, ValueError) as wrong:
        refuse(f"{sys.argv[2]}: it is no text of a run of {sys.argv[1]}: {wrong}")
    sys.stdout.buffer.write(draw(run).encode())


if __name__ == "__main__":
    main()
