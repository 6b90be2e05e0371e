#!/usr/bin/env python3
"""Judges the text of a run by its script, and tells how often each reply came.

usage: check_run.py SCRIPT TEXT

SCRIPT and TEXT are files: a script without a fault, and what `oakmap run` printed for it. Nothing of the program is
used here: docs/FORMATS.md has the forms, and what a call answers.

A text is right where all of this holds:
- Each call has one line with a reply that it may have, and behind the replies stand the map and the table.
- The places of the replies that are writes are, for each key over all threads, 1 to their number, each once. They are
  the key's history: each is what the cell answers on the state behind the one before it.
- Each other reply is the cell's at its place. Along a thread the places of a key never fall, and a write's place is
  above all earlier ones.
- A look shows what its name stands for: a value of its life, at a place of that life; or `gone`, and then the life's
  removal stands in the history, and no later place of the thread is before it; or `unheld`.
- A scan's pairs are keys of its range in the scan's order, each a read at its place, and each other key of the range
  was absent at a place that fits the thread.
- A refused call needs what it lacked, on some state of its key that is not before its earlier places in the thread.
- The map has the last states, in the order of the keys. The used blocks are those that the map's keys and values
  take, the used headers its keys, the used chunks at least one, and none is above the script's limit.

- Of a script of one thread each refused call lacked what it tells, and no other call lacked anything: docs/PROMISES.md
  has what is full to a pass that is alone, in which order. Of chunks it is only judged that one was full of keys.

That a refused call of several threads did lack it can't be seen in a text. (A header is retired only after some four milliards of lives,
so the used headers are the keys here.) Printed is one line: the number of threads and calls, and of each kind of reply.
It ends with 0 where the text is right, with 1 and the first thing that is wrong where it isn't, and with 2 for wrong
words.
"""
import collections
import sys

sys.dont_write_bytecode = True
from run_text import (ABSENT, CLASSES, WRITES, Lines, Wrong, answer, bytes_in, class_of, gather_writes, histories_of,
                      number_in, read_reply, read_script, require, some_bytes_in)


class Thread:
    """What a thread was told so far: a place of each key that no later one may be before, and what its names hold."""

    def __init__(self, histories):
        self.histories = histories
        self.floors = {}
        self.held = {}

    def states(self, key):
        return self.histories.get(key, [ABSENT])

    def floor(self, key):
        return self.floors.get(key, 0)

    def go_to(self, label, key, place, writes):
        """A reply of the key is at this place."""
        require(place < len(self.states(key)), f"{label}: the key has no place {place}")
        least = self.floor(key) + (1 if writes else 0)
        require(place >= least, f"{label}: place {place} is before {least}")
        self.floors[key] = place

    def judge(self, call, reply):
        if call.word in ("scan", "back"):
            self.judge_scan(call, reply)
        elif call.word == "look":
            self.judge_look(call, reply)
        elif reply.word == "full":
            self.judge_full(call, reply)
        else:
            self.judge_point(call, reply)

    def judge_point(self, call, reply):
        self.go_to(call.label, call.key, reply.place, reply.word in WRITES)
        if reply.word not in WRITES:
            state = self.states(call.key)[reply.place]
            word, _ = answer(call, state)
            require(word == reply.word, f"{call.label}: {reply.word} where the cell says {word}")
            require(word != "=" or reply.value == state, f"{call.label}: another value")
        if call.word == "hold":
            self.held[call.name] = (call.key, reply.place) if reply.word == "held" else None

    def judge_look(self, call, reply):
        held = self.held.get(call.name)
        require((held is None) == (reply.word == "unheld"), f"{call.label}: {reply.word} is not due")
        if held is None:
            return
        key, begun = held
        states = self.states(key)
        removal = next((place for place in range(begun, len(states)) if states[place] is ABSENT), None)
        if reply.word == "gone":
            require(removal is not None, f"{call.label}: gone, and its life was never removed")
            self.floors[key] = max(self.floor(key), removal)
            return
        self.go_to(call.label, key, reply.place, False)
        require(reply.place >= begun and (removal is None or reply.place < removal),
                f"{call.label}: place {reply.place} is none of its life")
        require(states[reply.place] == reply.value, f"{call.label}: another value")

    def judge_scan(self, call, reply):
        keys = [key for key, _, _ in reply.pairs]
        due = sorted(set(keys), reverse=call.word == "back")
        require(keys == due, f"{call.label}: the keys are not in order")
        for key, value, place in reply.pairs:
            require(in_range(call, key), f"{call.label}: {key.hex()} is not of the range")
            self.go_to(call.label, key, place, False)
            require(self.states(key)[place] == value, f"{call.label}: {key.hex()} has another value")
        given = set(keys)
        for key, states in self.histories.items():
            if key not in given and in_range(call, key):
                self.floors[key] = self.absence(call, key, states)

    def absence(self, call, key, states):
        """The least place not before the floor at which the key is absent."""
        for place in range(self.floor(key), len(states)):
            if states[place] is ABSENT:
                return place
        raise Wrong(f"{call.label}: {key.hex()} is left out, and was present")

    def judge_full(self, call, reply):
        states = self.states(call.key)[self.floor(call.key):]
        require(any(needs(call, state, reply.lack) for state in states), f"{call.label}: it needs no {reply.lack}")


def in_range(call, key):
    return (call.low is None or call.low <= key) and (call.high is None or key <= call.high)


def needs(call, state, lack):
    """Whether the call, on this state, needs what is called so."""
    word, after = answer(call, state)
    if word not in WRITES or after is ABSENT:
        return False
    if lack in ("header", "room"):
        return state is ABSENT
    size = int(lack[1:])
    if state is ABSENT and class_of(len(call.key)) == size:
        return True
    return class_of(len(after)) == size and (state is ABSENT or class_of(len(state)) != size)


class Alone:
    """What the map of a thread that is alone holds, and takes of the table."""

    def __init__(self, shape):
        self.chunks, self.entries, self.headers, *blocks = shape
        self.left = dict(zip(CLASSES, blocks))
        self.map = {}

    def lack_of(self, call):
        """What the call lacks of blocks and headers, or none."""
        before = self.map.get(call.key, ABSENT)
        word, after = answer(call, before)
        if word not in WRITES or after is ABSENT:
            return None
        of_key, of_value = class_of(len(call.key)), class_of(len(after))
        if (before is ABSENT or class_of(len(before)) != of_value) and self.left[of_value] == 0:
            return f"b{of_value}"
        if before is not ABSENT:
            return None
        if len(self.map) == self.headers:
            return "header"
        return f"b{of_key}" if self.left[of_key] == (1 if of_key == of_value else 0) else None

    def judge(self, call, reply):
        lack = self.lack_of(call)
        if reply.word == "full":
            due = lack or ("room" if len(self.map) >= self.entries else "nothing")
            require(reply.lack == due, f"{call.label}: it lacks {reply.lack} where {due} is due")
        elif reply.word in WRITES:
            few = reply.word != "new" or self.chunks > 1 or len(self.map) < self.entries
            require(lack is None and few, f"{call.label}: it lacks {lack or 'room'}, and is not refused")
            self.write(call.key, answer(call, self.map.get(call.key, ABSENT))[1])

    def write(self, key, value):
        if key in self.map:
            self.count(key, self.map.pop(key), 1)
        if value is not ABSENT:
            self.count(key, value, -1)
            self.map[key] = value

    def count(self, key, value, more):
        for part in (key, value):
            self.left[class_of(len(part))] += more


def check_map(lines, histories):
    """The printed map has the last states, in the order of the keys: the map."""
    last = {key: states[-1] for key, states in histories.items() if states[-1] is not ABSENT}
    word, count = lines.take(2)
    require(word == "map" and number_in(count) == len(last), "the map has another number of keys")
    for key in sorted(last):
        told, value = lines.take(2)
        require((some_bytes_in(told), bytes_in(value)) == (key, last[key]), f"the map tells other than {key.hex()}")
    return last


def check_table(lines, last, shape):
    """What is used of the table is what the map takes: the name, the number used and the limit of each part."""
    require(lines.take(1) == ["arena"], "arena is due")
    chunks, _, headers, *blocks = shape
    lengths = [len(part) for pair in last.items() for part in pair]
    taken = collections.Counter(class_of(length) for length in lengths)
    due = [(f"b{size}", taken[size], limit) for size, limit in zip(CLASSES, blocks)]
    due.append(("headers", len(last), headers))
    for name, used, limit in due:
        told = lines.take(3)
        require(told == [name, str(used), str(limit)], f"{' '.join(told)} where {name} {used} {limit} is due")
        require(used <= limit, f"more {name} than there are")
    name, used, limit = lines.take(3)
    require(name == "chunks" and limit == str(chunks), "the chunks of the script are due")
    require(1 <= number_in(used) <= chunks, f"{used} chunks")
    require(lines.next == len(lines.lines), "the text goes on")
    return due + [(name, int(used), chunks)]


def count_replies(replies):
    """How often each kind of reply came."""
    counts = collections.Counter()
    for answers in replies:
        for reply in answers:
            counts[f"full {reply.lack}" if reply.word == "full" else reply.word] += 1
    return counts


def told_counts(threads, replies):
    counts = count_replies(replies)
    calls = sum(len(calls) for calls in threads)
    told = ", ".join(f"{counts[word]} {word}" for word in sorted(counts))
    return f"threads {len(threads)}, calls {calls}: {told}"


class Run:
    """A run whose text is right: what its script and its text tell."""

    def __init__(self, threads, replies, writes, histories, table):
        self.threads = threads
        self.replies = replies
        self.writes = writes
        self.histories = histories
        self.table = table


def judge(script, text):
    """The run of a script, where the text is right."""
    shape, threads = read_script(script)
    lines = Lines(text)
    replies = [[read_reply(lines, call) for call in calls] for calls in threads]
    writes = gather_writes(threads, replies)
    histories = histories_of(writes)
    for calls, answers in zip(threads, replies):
        thread = Thread(histories)
        for call, reply in zip(calls, answers):
            thread.judge(call, reply)
    if len(threads) == 1:
        alone = Alone(shape)
        for call, reply in zip(threads[0], replies[0]):
            alone.judge(call, reply)
    last = check_map(lines, histories)
    table = check_table(lines, last, shape)
    return Run(threads, replies, writes, histories, table)


def main():
    if len(sys.argv) != 3:
        print(__doc__.split("\n\n")[1], file=sys.stderr)
        sys.exit(2)
    with open(sys.argv[1], encoding="ascii", newline="") as script, open(sys.argv[2], encoding="ascii", newline="") as text:
        try:
            run = judge(script.read(), text.read())
            print(told_counts(run.threads, run.replies))
        except (Wrong, ValueError) as wrong:
            print(f"check_run.py: {wrong}", file=sys.stderr)
            sys.exit(1)


if __name__ == "__main__":
    main()
