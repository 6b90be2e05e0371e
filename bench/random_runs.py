"""Draws a run from a seed: a script, its change if it has one, and how its input, output and memory fail.

bench/torture.py runs it; bench/torture.sh says what the kinds are.
"""
import errno
import random

from run_text import DEFAULT_SHAPE
from first_fault import MOST_KEY_DIGITS, SIZES
from make_script import MOST_CALLS, MOST_SCANS, MOST_THREADS, value_of_any_class

MOST_INPUT = 16_777_216
MOST_KEY = MOST_KEY_DIGITS // 2
# How often a kind is drawn.
KINDS = {
    "whole": 12, "pipe": 4, "cut": 10, "changed": 14, "limits": 4, "read": 8, "write": 10, "memory": 12,
    "closed": 6, "several": 18, "folder": 1,
}
# The kinds of which a run of the kind `several` has two to four at once.
AT_ONCE = ["limits", "changed", "cut", "read", "write", "memory", "pipe", "closed"]
# Among this many runs there is about one of each kind of these, which take long.
LONG_KINDS = {"long": 400, "calls": 2_000}
NUMBERS = [0, 1, 255, 2 ** 32, 2 ** 63, 2 ** 64 - 1]
FORMS = ["put K V", "get K", "putnew K V", "compute K R", "upsert K V R", "remove K", "hold A K", "look A"]
SCAN_FORMS = ["scan B B", "back B B"]
NAME_BYTES = "abcdefghijklmnopqrstuvwxyz0123456789"
READ_ERRORS = [errno.EIO, errno.EINTR, errno.EAGAIN, errno.EBADF, errno.EISDIR]
WRITE_ERRORS = [errno.EIO, errno.ENOSPC, errno.EINTR, errno.EAGAIN, errno.EPIPE, 0]
KEY_LENGTHS = [1, 1, 2, 4, 8, 15, 16, 17, 33, 63, 64]
VALUE_LENGTHS = [0, 1, 7, 8, 9, 15, 16, 17, 63, 64, 65, 255, 256, 257, 1023, 1024]
# Of each size of a shape what is small, but not always too small.
SMALL = [(1, 6), (4, 9), (1, 14), (0, 24), (0, 12), (0, 6), (0, 4)]
AMPLE = [64, 16, 256, 512, 256, 256, 256]
# The sizes that are small together.
PARTS = [[0, 1], [2], [3], [4], [5], [6]]


def shape_line(sizes):
    return "shape " + " ".join(map(str, sizes))


class Script:
    """What a script is made of. Each thread has the shared keys and, in some scripts, keys of its own."""

    def __init__(self, draw, most_calls):
        self.draw = draw
        self.threads = draw.choice([1, 1, 2, 2, 3, 4, 8, MOST_THREADS, draw.randint(1, MOST_THREADS)])
        self.keys = self.some_keys(draw.choice([1, 2, 4, 8, 16, 40]))
        own = draw.choice([0, 0, 0, 3])
        self.own = [self.some_keys(own) for _ in range(self.threads)]
        self.names = ["".join(draw.choices(NAME_BYTES, k=draw.choice([1, 3, 16]))) for _ in range(draw.randint(1, 4))]
        self.lengths = draw.choice([[8], [0, 8, 16], [8, 16, 17, 64], VALUE_LENGTHS])
        self.weights = [1] + [draw.choice([0, 1, 2, 5]) for _ in FORMS[1:]]
        self.calls = int(most_calls ** max(draw.random(), draw.random())) - 1
        self.scans = set(draw.sample(range(self.calls), min(draw.choice([0, 4, MOST_SCANS]), self.calls)))

    def some_keys(self, count):
        """Different keys, some of them a front of others."""
        keys = []
        while len(keys) < count:
            key = self.draw.randbytes(self.draw.choice(KEY_LENGTHS))
            if keys and self.draw.random() < 0.3:
                key = (self.draw.choice(keys) + key)[:MOST_KEY]
            if key not in keys:
                keys.append(key)
        return keys

    def key(self, thread):
        return self.draw.choice(self.keys + self.own[thread]).hex()

    def value(self):
        if self.draw.random() < 0.02:
            return value_of_any_class(self.draw)
        return self.draw.randbytes(self.draw.choice(self.lengths)).hex() or "-"

    def recipe(self):
        number = self.draw.choice(NUMBERS + [self.draw.randrange(2 ** 64)])
        return self.draw.choice([f"add {number}", "add 1", f"xor {self.draw.randrange(256):02x}", "rev"])

    def bound(self, thread):
        return self.draw.choice(["-", self.key(thread), self.some_keys(1)[0].hex()])

    def call(self, thread, is_scan):
        form = self.draw.choice(SCAN_FORMS) if is_scan else self.draw.choices(FORMS, self.weights)[0]
        parts = {
            "K": lambda: self.key(thread), "V": self.value, "R": self.recipe, "A": lambda: self.draw.choice(self.names),
            "B": lambda: self.bound(thread),
        }
        return " ".join(parts[word]() if word in parts else word for word in form.split(" "))

    def shape(self):
        """The line of sizes: all of them small, or those of one or two parts, or the default ones; or no such line."""
        draw = self.draw
        if draw.random() < 0.1:
            return draw.choice([[], [shape_line(DEFAULT_SHAPE)]])
        small = sum(draw.sample(PARTS, draw.choice([1, 2, len(PARTS)])), [])
        sizes = [draw.randint(*SMALL[number]) if number in small else AMPLE[number] for number in range(len(SIZES))]
        return [shape_line(sizes)]

    def text(self):
        bounds = sorted(self.draw.randint(0, self.calls) for _ in range(self.threads - 1))
        lines = ["oak 1"] + self.shape()
        for thread, (first, behind) in enumerate(zip([0] + bounds, bounds + [self.calls])):
            lines.append("thread")
            lines += [self.call(thread, number in self.scans) for number in range(first, behind)]
        lines.append("end")
        return ("\n".join(lines) + self.draw.choice(["\n", "\n", "\n", ""])).encode()


# ---- what is changed in a script

def cut_off(draw, text):
    return text[:draw.randrange(len(text))]


def change_byte(draw, text):
    """One byte is changed, taken out or put in."""
    place = draw.randrange(len(text))
    byte = bytes([draw.choice([draw.randrange(256), ord(" "), ord("\n"), ord("-"), *b"0123456789abcdef"])])
    return draw.choice([
        text[:place] + byte + text[place + 1:], text[:place] + text[place + 1:], text[:place] + byte + text[place:],
    ])


def change_line(draw, text):
    """One line is taken out, doubled, put elsewhere, or gets a word more, less or another."""
    lines = text.split(b"\n")
    place, other = draw.randrange(len(lines)), draw.randrange(len(lines))
    line = lines.pop(place)
    words = line.split(b" ")
    word = draw.randrange(len(words))
    change = draw.randrange(6)
    if change == 1:
        lines[place:place] = [line, line]
    elif change == 2:
        lines.insert(other, line)
    elif change == 3:
        lines.insert(place, b" ".join(words[:word] + words[word + 1:]))
    elif change == 4:
        lines.insert(place, b" ".join(words[:word] + [draw.choice(words)] + words[word:]))
    elif change == 5:
        others = draw.choice(lines).split(b" ")
        lines.insert(place, b" ".join(words[:word] + [draw.choice(others)] + words[word + 1:]))
    return b"\n".join(lines)


def pass_limit(draw, text):
    """One limit is just met, or just passed: of a size, a key, a value, a name, a number, threads or scans."""
    more = draw.randrange(2)
    lines = text.rstrip(b"\n").split(b"\n")
    place = draw.randint(lines.index(b"thread") + 1, len(lines) - 1)
    line = draw.choice([
        b"get " + b"61" * (64 + more), b"back " + b"62" * (64 + more) + b" -", b"put 61 " + b"00" * (1024 + more),
        b"look " + b"n" * (16 + more), b"upsert 61 - add %d" % (2 ** 64 - 1 + more), b"compute 61 xor f" + b"f" * (1 + more),
        b"threads", b"scans", b"shape",
    ])
    if line == b"threads":
        lines[place:place] = [b"thread"] * (MOST_THREADS + more - lines.count(b"thread"))
    elif line == b"scans":
        there = sum(line.startswith((b"scan ", b"back ")) for line in lines)
        lines[place:place] = [b"scan - -"] * (MOST_SCANS + more - there)
    elif line == b"shape":
        sizes, size = [least for least, _ in SIZES], draw.randrange(len(SIZES))
        sizes[size] = SIZES[size][1] + more
        lines[1:1 + lines[1].startswith(b"shape")] = [shape_line(sizes).encode()]
    else:
        lines.insert(place, line)
    return b"\n".join(lines) + b"\n"


CHANGES = {"limits": [pass_limit], "changed": [change_byte, change_byte, change_line], "cut": [cut_off]}


# ---- what fails

class Run:
    """A run as it is drawn: its kind, its input, and what is set for the libraries that cut and fail; where the input comes
    from, in how many pieces where that is a pipe, and where the output goes to, how many bytes of it are taken before it is
    closed, and whether a broken pipe may raise a signal."""

    def __init__(self, seed):
        self.seed = seed
        self.draw = draw = random.Random(seed)
        self.environment = {}
        self.kind = self.some_kind()
        self.parts = [self.kind]
        if self.kind == "several":
            self.parts = draw.sample(AT_ONCE, draw.randint(2, 4))
        self.input = Script(draw, draw.choice([20, 200, 2_000, 8_000])).text()
        for part in CHANGES:
            if part in self.parts:
                self.input = draw.choice(CHANGES[part])(draw, self.input)
        self.lengthen()
        self.cut_into_pieces()
        self.fail()
        self.source, self.sink = self.ends()
        self.fed = draw.randint(1, 7)
        self.taken = int(len(self.input) ** draw.random())
        self.default_signals = draw.random() < 0.5

    def fail(self):
        if "read" in self.parts:
            self.fail_call("READ", len(self.input), READ_ERRORS)
        if "write" in self.parts:
            self.fail_call("WRITE", len(self.input) + 100, WRITE_ERRORS)
        if "memory" in self.parts:
            self.fail_allocations()

    def ends(self):
        """Where the input comes from, and where the output goes to."""
        source = sink = "pipe" if "pipe" in self.parts else "file"
        if "folder" in self.parts:
            source = self.draw.choice(["folder", "shut"])
        if "closed" in self.parts:
            sink = self.draw.choice(["closed", "left", "full", "shut"])
        return source, sink

    def some_kind(self):
        for kind, among in LONG_KINDS.items():
            if self.draw.randrange(among) == 0:
                return kind
        return self.draw.choices(list(KINDS), KINDS.values())[0]

    def lengthen(self):
        """The greatest input, or one byte more; and the most calls, or one more."""
        more = self.draw.randrange(2)
        if self.kind == "long":
            self.input += self.draw.choice([b" ", b"x"]) * (MOST_INPUT + more - len(self.input))
        if self.kind == "calls":
            self.input = b"oak 1\nthread\n" + b"get 61\n" * (MOST_CALLS + more) + b"end\n"

    def cut_into_pieces(self):
        """In half of the runs the input comes, and the output goes, in pieces that are drawn: few bytes each or many."""
        for way, length in (("READ", len(self.input)), ("WRITE", 10 * len(self.input))):
            if self.draw.random() < 0.5:
                least = max(1, length // 20_000)
                pieces = [int(least * 400 ** self.draw.random()) for _ in range(self.draw.randint(1, 12))]
                self.environment[f"{way}_PIECES"] = " ".join(map(str, pieces))

    def fail_call(self, way, length, errors):
        """A read or a write fails, in most runs one that the program comes to."""
        pieces = [int(piece) for piece in self.environment.get(f"{way}_PIECES", str(length)).split(" ")]
        calls = 1 + length * len(pieces) // sum(pieces)
        self.environment[f"FAIL_{way}"] = str(self.draw.choice([1, self.draw.randint(1, calls)]))
        self.environment[f"{way}_ERROR"] = str(self.draw.choice(errors))

    def fail_allocations(self):
        """An allocation fails, and in half of these runs all behind it."""
        calls = self.input.count(b"\n")
        number = self.draw.randint(1, self.draw.choice([60, 60 + 4 * calls]))
        self.environment["FAIL_ALLOCATION"] = str(number)
        if self.draw.random() < 0.5:
            self.environment["FAIL_LATER"] = "1"
