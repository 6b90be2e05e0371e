#!/usr/bin/env python3
"""Writes a script of many calls to standard output.

usage: make_script.py KIND CALLS KEYS [SHAPE [THREADS]]

KIND is what the calls are:
  puts    puts and gets in turn
  mixed   all ten calls, with 32 scans
  own     as mixed without scans, and each thread has KEYS keys of its own
  counts  each call adds 1 to the number that its key holds, or puts the number 1
  tight   all ten calls, with keys and values of every class

CALLS is the number of calls over all threads, from 0 to 262144, and KEYS the number of different keys, from
1 to 4294967296; the fewer there are, the more often two threads are at one key. SHAPE is `default`, as without
it, `greatest`, for the greatest table, or one of `few-b16`, `few-b64`, `few-b256`, `few-b1024`, `few-headers`
and `few-chunks`, for a small table that runs out of that first. THREADS is the number of threads, from 1 to 16,
or 1 without it; the calls are shared out evenly. The same words give the same script each time.
"""
import random
import sys

MOST_CALLS = 262_144
MOST_KEYS = 2 ** 32
MOST_SCANS = 32
MOST_THREADS = 16
SHAPE_LINES = {
    "default": [],
    "greatest": ["shape 1024 256 65536 65536 65536 16384 4096"],
    "few-b16": ["shape 64 8 256 24 256 256 256"],
    "few-b64": ["shape 64 8 256 256 12 256 256"],
    "few-b256": ["shape 64 8 256 256 256 3 256"],
    "few-b1024": ["shape 64 8 256 256 256 256 3"],
    "few-headers": ["shape 64 8 6 256 256 256 256"],
    "few-chunks": ["shape 3 4 256 256 256 256 256"],
}
# The lengths of the keys and values of a `tight` script, in bytes: each fourth key has the second class, and a value
# each of the four with the same chance.
KEY_LENGTHS = [4, 4, 4, 20]
VALUE_LENGTHS = [(0, 16), (17, 64), (65, 256), (257, 1024)]


def eight_bytes(random_state):
    return f"{random_state.randrange(256 ** 8):016x}"


def put_and_get(random_state, key, number):
    if number % 2 == 0:
        return f"put {key} {eight_bytes(random_state)}"
    return f"get {key}"


def scan(random_state, key):
    return random_state.choice(["scan - -", "back - -", f"scan {key} -", f"back - {key}"])


def any_call(random_state, key, value):
    name = f"n{random_state.randrange(100)}"
    return random_state.choice([
        f"put {key} {value}", f"get {key}", f"putnew {key} {value}", f"compute {key} add 7",
        f"upsert {key} {value} xor 0f", f"remove {key}", f"hold {name} {key}", f"look {name}",
        f"compute {key} rev", f"upsert {key} {value} add 1",
    ])


def value_of_any_class(random_state):
    least, greatest = random_state.choice(VALUE_LENGTHS)
    length = random_state.randint(least, greatest)
    return random_state.randbytes(length).hex() or "-"


def key_of(kind, thread, number):
    if kind == "own":
        return f"{thread:02x}{number:08x}"
    if kind == "tight":
        return f"{number:08x}" + "00" * (KEY_LENGTHS[number % len(KEY_LENGTHS)] - 4)
    return f"{number:08x}"


def call_of(kind, random_state, key, number, scans):
    if kind == "puts":
        return put_and_get(random_state, key, number)
    if kind == "counts":
        return f"upsert {key} {1:016x} add 1"
    if kind != "own" and number in scans:
        return scan(random_state, key)
    value = value_of_any_class(random_state) if kind == "tight" else eight_bytes(random_state)
    return any_call(random_state, key, value)


def thread_bounds(calls, threads):
    """The first call of each thread, and the number of all."""
    return [calls * i // threads for i in range(threads + 1)]


def write_script(kind, calls, keys, shape, threads):
    random_state = random.Random(1)
    scans = set(random_state.sample(range(calls), min(MOST_SCANS, calls)))
    lines = ["oak 1"] + SHAPE_LINES[shape]
    bounds = thread_bounds(calls, threads)
    for thread in range(threads):
        lines.append("thread")
        for number in range(bounds[thread], bounds[thread + 1]):
            key = key_of(kind, thread, random_state.randrange(keys))
            lines.append(call_of(kind, random_state, key, number, scans))
    lines.append("end")
    sys.stdout.write("\n".join(lines) + "\n")


def refuse(why):
    usage = __doc__.split("\n\n", 1)[1].strip()
    print(f"make_script.py: {why}\n{usage}", file=sys.stderr)
    sys.exit(2)


def number_in(word, name, least, most):
    if not (word.isascii() and word.isdigit()) or not least <= int(word) <= most:
        refuse(f"{name} is a number from {least} to {most}, and not {word!r}")
    return int(word)


def main():
    words = sys.argv[1:]
    if len(words) not in (3, 4, 5):
        refuse("three to five words are wanted")
    if words[0] not in ("puts", "mixed", "own", "counts", "tight"):
        refuse(f"no such kind: {words[0]!r}")
    calls = number_in(words[1], "CALLS", 0, MOST_CALLS)
    keys = number_in(words[2], "KEYS", 1, MOST_KEYS)
    shape = words[3] if len(words) > 3 else "default"
    if shape not in SHAPE_LINES:
        refuse(f"no such shape: {shape!r}")
    threads = number_in(words[4], "THREADS", 1, MOST_THREADS) if len(words) > 4 else 1
    write_script(words[0], calls, keys, shape, threads)


if __name__ == "__main__":
    main()
