#!/usr/bin/env python3
"""Tells the first fault of a script, as docs/FORMATS.md has it.

usage: first_fault.py SCRIPT

SCRIPT is a file. Nothing of the program is used here. Printed is `line N: WHAT`, and it ends with 1; where the script
has no fault nothing is printed, and it ends with 0. Wrong words end with 2.
"""
import sys

from make_script import MOST_CALLS, MOST_SCANS, MOST_THREADS

MOST_KEY_DIGITS = 128
MOST_VALUE_DIGITS = 2_048
MOST_NAME = 16
MOST_ADDED = 2 ** 64 - 1
# Of each number of a `shape` line the least and the greatest.
SIZES = [(1, 1_024), (4, 256), (1, 65_536), (0, 65_536), (0, 65_536), (0, 16_384), (0, 4_096)]
FORMS = {
    b"put": ["key", "value"], b"get": ["key"], b"putnew": ["key", "value"], b"compute": ["key", "recipe"],
    b"upsert": ["key", "value", "recipe"], b"remove": ["key"], b"hold": ["name", "key"], b"look": ["name"],
    b"scan": ["bound", "bound"], b"back": ["bound", "bound"],
}
HEX_DIGITS = set(b"0123456789abcdef")
NAME_BYTES = set(b"abcdefghijklmnopqrstuvwxyz0123456789")
DIGITS = set(b"0123456789")


def lines_of(text):
    lines = text.split(b"\n")
    return lines if lines[-1] else lines[:-1]


def is_number(word, least, most):
    written = set(word) <= DIGITS and (word == b"0" or not word.startswith(b"0"))
    return written and len(word) <= 20 and least <= int(word) <= most


def is_hex(word):
    return len(word) % 2 == 0 and set(word) <= HEX_DIGITS


def is_recipe(words):
    if words[0] == b"rev":
        return len(words) == 1
    if len(words) != 2:
        return False
    if words[0] == b"add":
        return is_number(words[1], 0, MOST_ADDED)
    return words[0] == b"xor" and len(words[1]) == 2 and is_hex(words[1])


def fills(form, words):
    """Whether a call's form has this number of words: a recipe is one word or two, and is the last."""
    return len(words) == len(form) or (form[-1] == "recipe" and len(words) == len(form) + 1)


def fault_of_word(slot, word):
    if slot == "name":
        return None if len(word) <= MOST_NAME and set(word) <= NAME_BYTES else "name"
    if word == b"-" and slot in ("value", "bound"):
        return None
    if not is_hex(word):
        return "hex"
    if slot == "value":
        return "value" if len(word) > MOST_VALUE_DIGITS else None
    return "key" if len(word) > MOST_KEY_DIGITS else None


def fault_of_call(form, words):
    for number, slot in enumerate(form):
        if slot == "recipe":
            return None if is_recipe(words[number:]) else "recipe"
        fault = fault_of_word(slot, words[number])
        if fault:
            return fault
    return None


class Reader:
    """What stood in the lines so far."""

    def __init__(self):
        self.lines = self.threads = self.calls = self.scans = 0
        self.ended = False

    def fault_of_line(self, line):
        """The first fault of the next line, or none."""
        self.lines += 1
        words = line.split(b" ")
        if self.lines == 1:
            return None if words == [b"oak", b"1"] else "head"
        if self.ended:
            return "after end"
        if b"" in words:
            return "word"
        if words[0] == b"shape" and self.lines == 2 and len(words) == 8:
            fit = all(is_number(word, *size) for word, size in zip(words[1:], SIZES))
            return None if fit else "shape"
        if words == [b"thread"]:
            self.threads += 1
            return "threads" if self.threads > MOST_THREADS else None
        if words == [b"end"] and self.threads:
            self.ended = True
            return None
        if words[0] in FORMS and self.threads and fills(FORMS[words[0]], words[1:]):
            return fault_of_call(FORMS[words[0]], words[1:]) or self.fault_of_number(words[0])
        return "word"

    def fault_of_number(self, word):
        self.calls += 1
        self.scans += word in (b"scan", b"back")
        if self.calls > MOST_CALLS:
            return "calls"
        return "scans" if self.scans > MOST_SCANS else None


def first_fault(text):
    """The line and the name of the first fault of these bytes, or none where they are a script."""
    lines = lines_of(text)
    if not lines:
        return 1, "head"
    reader = Reader()
    for line in lines:
        fault = reader.fault_of_line(line)
        if fault:
            return reader.lines, fault
    return None if reader.ended else (reader.lines + 1, "no end")


def main():
    if len(sys.argv) != 2:
        print(__doc__.split("\n\n")[1], file=sys.stderr)
        sys.exit(2)
    with open(sys.argv[1], "rb") as script:
        fault = first_fault(script.read())
    if fault:
        print(f"line {fault[0]}: {fault[1]}")
        sys.exit(1)


if __name__ == "__main__":
    main()
