"""The script of a run and the text that was printed for it, as Python objects, and the histories of their keys.

docs/FORMATS.md has the forms of both, and what a call answers. What does not have its form raises `Wrong`, or the
ValueError of a number that is none. check_run.py judges with these, and draw_run.py draws with them.
"""
import collections
import re

CLASSES = [16, 64, 256, 1024]
DEFAULT_SHAPE = [256, 64, 8192, 16384, 4096, 1024, 512]
ABSENT = None


class Wrong(Exception):
    pass


def require(holds, why):
    if not holds:
        raise Wrong(why)


def some_bytes_in(word):
    made = bytes.fromhex(word)
    require(made and made.hex() == word, f"{word!r} is not in digits as they are printed")
    return made


def bytes_in(word):
    return b"" if word == "-" else some_bytes_in(word)


def class_of(length):
    return next(size for size in CLASSES if length <= size)


class Call:
    """A call line: its word, its thread and number, and what it is about."""

    def __init__(self, thread, number, words):
        self.label = f"t{thread + 1}.{number}"
        self.thread = thread
        self.number = number
        self.words = words
        self.word = words[0]
        self.key = self.value = self.recipe = self.name = None
        self.low = self.high = None
        if self.word in ("scan", "back"):
            self.low, self.high = (None if word == "-" else some_bytes_in(word) for word in words[1:])
        elif self.word == "look":
            self.name = words[1]
        elif self.word == "hold":
            self.name, self.key = words[1], some_bytes_in(words[2])
        else:
            self.key = some_bytes_in(words[1])
        if self.word in ("put", "putnew", "upsert"):
            self.value = bytes_in(words[2])
        if self.word == "compute":
            self.recipe = words[2:]
        if self.word == "upsert":
            self.recipe = words[3:]


class Reply:
    """A reply: its word, its place where it has one, the bytes of a value, what was lacking, or a scan's pairs."""

    def __init__(self, word, place=None, value=None, lack=None, pairs=None):
        self.word = word
        self.place = place
        self.value = value
        self.lack = lack
        self.pairs = pairs


KEY = "(?:[0-9a-f]{2}){1,64}"
VALUE = "(?:-|(?:[0-9a-f]{2}){1,1024})"
NAME = "[a-z0-9]{1,16}"
RECIPE = "(?:add (?:0|[1-9][0-9]{0,19})|xor [0-9a-f]{2}|rev)"
CALL_LINE = re.compile("|".join([
    f"put(?:new)? {KEY} {VALUE}", f"(?:get|remove) {KEY}", f"compute {KEY} {RECIPE}", f"upsert {KEY} {VALUE} {RECIPE}",
    f"hold {NAME} {KEY}", f"look {NAME}", f"(?:scan|back) (?:-|{KEY}) (?:-|{KEY})"]))
SHAPE_LINE = re.compile("shape(?: (?:0|[1-9][0-9]{0,4})){7}")
SHAPE_LIMITS = [(1, 1_024), (4, 256), (1, 65_536), (0, 65_536), (0, 65_536), (0, 16_384), (0, 4_096)]
MOST_THREADS, MOST_CALLS, MOST_SCANS = 16, 262_144, 32


def require_script(text):
    """A script without a fault."""
    lines = (text[:-1] if text.endswith("\n") else text).split("\n")
    require(lines[0] == "oak 1", "the script's first line is not 'oak 1'")
    require(lines[-1] == "end", "the script's last line is not 'end'")
    counts = collections.Counter()
    for number, line in enumerate(lines[1:-1], 2):
        require(may_stand(line, number, counts["thread"]), f"line {number} of the script has a fault")
        counts[line.split(" ")[0]] += 1
    threads = counts["thread"]
    require(1 <= threads <= MOST_THREADS, f"the script has {threads} threads")
    require(len(lines) - 2 - threads - counts["shape"] <= MOST_CALLS, f"the script has more than {MOST_CALLS} calls")
    require(counts["scan"] + counts["back"] <= MOST_SCANS, f"the script has more than {MOST_SCANS} scans")


def may_stand(line, number, threads):
    """Whether a line between the first and the last may stand there, behind so many threads."""
    if line == "thread":
        return True
    if number == 2 and SHAPE_LINE.fullmatch(line):
        sizes = [int(word) for word in line.split(" ")[1:]]
        return all(least <= size <= most for size, (least, most) in zip(sizes, SHAPE_LIMITS))
    words = line.split(" ")
    return threads > 0 and CALL_LINE.fullmatch(line) and (words[-2] != "add" or int(words[-1]) < 2 ** 64)


def read_script(text):
    """The shape of a script without a fault, and the calls of each thread."""
    lines = text.splitlines()
    shape = DEFAULT_SHAPE
    threads = []
    for line in lines[1:-1]:
        words = line.split(" ")
        if words[0] == "shape":
            shape = [int(word) for word in words[1:]]
        elif words[0] == "thread":
            threads.append([])
        else:
            threads[-1].append(Call(len(threads) - 1, len(threads[-1]) + 1, words))
    return shape, threads


class Lines:
    """The lines of a text, taken one by one."""

    def __init__(self, text):
        require(text.endswith("\n"), "the text does not end with a line feed")
        self.lines = text[:-1].split("\n")
        self.next = 0

    def take(self, words):
        require(self.next < len(self.lines), "the text is too short")
        line = self.lines[self.next].split(" ")
        require(len(line) == words, f"line {self.next + 1} has not {words} words")
        self.next += 1
        return line

    def words_in_next(self):
        require(self.next < len(self.lines), "the text is too short")
        return self.lines[self.next].count(" ") + 1


def number_in(word):
    require(word.isascii() and word.isdigit() and str(int(word)) == word, f"{word!r} is no number")
    return int(word)


def place_in(word):
    require(word.startswith("@"), f"{word!r} is no place")
    return number_in(word[1:])


REPLIES = {
    "put": ("new", "over", "full"), "get": ("=", "none"), "putnew": ("new", "kept", "full"),
    "compute": ("done", "none"), "upsert": ("new", "done", "full"), "remove": ("removed", "none"),
    "hold": ("held", "none"), "look": ("=", "gone", "unheld"), "scan": ("pairs",), "back": ("pairs",),
}
LACKS = ("b16", "b64", "b256", "b1024", "header", "room")


def read_reply(lines, call):
    words = lines.take(lines.words_in_next())
    require(words[0] == call.label, f"{words[0]!r} stands where {call.label} is due")
    require(len(words) > 1 and words[1] in REPLIES[call.word], f"{call.label}: no reply of {call.word}")
    word, rest = words[1], words[2:]
    require(len(rest) == {"=": 2, "gone": 0, "unheld": 0}.get(word, 1), f"{call.label}: {word} has other words")
    if word == "=":
        return Reply(word, place=place_in(rest[1]), value=bytes_in(rest[0]))
    if word == "full":
        require(rest[0] in LACKS, f"{call.label}: nothing is called {rest[0]!r}")
        return Reply(word, lack=rest[0])
    if word == "pairs":
        return Reply(word, pairs=[read_pair(lines) for _ in range(number_in(rest[0]))])
    return Reply(word, place=place_in(rest[0]) if rest else None)


def read_pair(lines):
    plus, key, value, place = lines.take(4)
    require(plus == "+", "a pair does not begin with +")
    return some_bytes_in(key), bytes_in(value), place_in(place)


def made_by(recipe, value):
    """What a recipe makes of a value."""
    if recipe[0] == "rev":
        return value[::-1]
    if recipe[0] == "xor":
        return bytes(byte ^ int(recipe[1], 16) for byte in value)
    if len(value) < 8:
        return value
    number = (int.from_bytes(value[:8], "big") + int(recipe[1])) % 2 ** 64
    return number.to_bytes(8, "big") + value[8:]


def answer(call, state):
    """What the cell answers to a call on one key, and the state behind it."""
    if call.word in ("get", "hold"):
        return ("none" if state is ABSENT else "=" if call.word == "get" else "held"), state
    if call.word == "remove":
        return ("none" if state is ABSENT else "removed"), ABSENT
    if state is ABSENT:
        return ("none", ABSENT) if call.word == "compute" else ("new", call.value)
    if call.word == "put":
        return "over", call.value
    if call.word == "putnew":
        return "kept", state
    return "done", made_by(call.recipe, state)


WRITES = ("new", "over", "done", "removed")


def gather_writes(threads, replies):
    """Of each key the calls that wrote it, with their replies, in the order of their places."""
    writes = collections.defaultdict(list)
    for calls, answers in zip(threads, replies):
        for call, reply in zip(calls, answers):
            if reply.word in WRITES:
                writes[call.key].append((reply.place, call, reply))
    for key, made in writes.items():
        made.sort(key=lambda write: write[0])
        places = [place for place, _, _ in made]
        require(places == list(range(1, len(places) + 1)), f"the writes of {key.hex()} have not the places 1 to n")
    return writes


def histories_of(writes):
    """Of each key that was written its states, from the first, absent, to the last."""
    histories = {}
    for key, made in writes.items():
        states = [ABSENT]
        for _, call, reply in made:
            word, after = answer(call, states[-1])
            require(word == reply.word, f"{call.label}: {reply.word} where {word} is due")
            states.append(after)
        histories[key] = states
    return histories
