#!/usr/bin/env python3
"""Runs the program under disturbances that seeds draw, and judges each run. bench/torture.sh has its words.

usage: torture.py PROGRAM ROOM for SECONDS FIRST_SEED
       torture.py PROGRAM ROOM seed SEED

ROOM is a folder for the files of runs, with fail_io.so and fail_allocation.so from the C files beside this one.
"""
import collections
import fcntl
import os
import pathlib
import shutil
import struct
import subprocess
import sys
import tempfile
import threading
import time

import check_run
from random_runs import MOST_INPUT, Run
from first_fault import first_fault

MOST_SECONDS = 60
SMALL_PIPE = 4096
SET_PIPE_SIZE = 1031
STATUSES = [0, 3, 4, 5, 6]


class Differs(Exception):
    pass


def require(holds, why):
    if not holds:
        raise Differs(why)


# ---- one run

class Ran:
    """What came of a run: its status, what was written and what the program offered, and which calls failed."""

    def __init__(self, folder, status, seconds):
        self.status = status
        self.seconds = seconds
        self.output = (folder / "output").read_bytes()
        self.offered = (folder / "offered").read_bytes()
        self.said = (folder / "said").read_bytes()
        _, self.failed_reads, _, self.failed_writes, written = struct.unpack("5Q", (folder / "io").read_bytes())
        self.written = self.offered[:written]
        self.allocations, = struct.unpack("Q", (folder / "allocations").read_bytes())


def environment_of(run, folder):
    """The environment of a run."""
    preloaded = [folder.parent / "fail_io.so"]
    made = {"COUNT_IO": folder / "io", "KEEP_OFFERED": folder / "offered"}
    if "FAIL_ALLOCATION" in run.environment:
        preloaded.append(folder.parent / "fail_allocation.so")
        made["COUNT_ALLOCATIONS"] = folder / "allocations"
    made["LD_PRELOAD"] = ":".join(map(str, preloaded))
    return {**{name: str(value) for name, value in made.items()}, **run.environment}


def feed(run, end):
    """Gives the input to a pipe, in pieces with rests between."""
    piece = max(1, len(run.input) // run.fed)
    try:
        with open(end, "wb", buffering=0) as pipe:
            for place in range(0, len(run.input), piece):
                rest = run.input[place:place + piece]
                while rest:
                    rest = rest[pipe.write(rest):]
                time.sleep(0.001)
    except BrokenPipeError:
        pass


def take(run, end, file):
    """Takes the output from a pipe, up to so many bytes where it is to be left."""
    left = run.taken if run.sink == "left" else sys.maxsize
    with open(end, "rb", buffering=0) as pipe, open(file, "wb") as kept:
        while left > 0:
            piece = pipe.read(min(left, 777))
            if not piece:
                break
            kept.write(piece)
            left -= len(piece)


def open_source(run, folder):
    """The file that the program reads, and the thread that feeds it or none."""
    if run.source == "pipe":
        taken, given = os.pipe()
        return taken, threading.Thread(target=feed, args=(run, given))
    return os.open("/" if run.source == "folder" else folder / "input", os.O_RDONLY), None


def open_sink(run, folder):
    """The file that the program writes, and the thread that takes from it or none."""
    if run.sink in ("pipe", "left", "closed"):
        taken, given = os.pipe()
        if run.sink == "closed":
            os.close(taken)
            return given, None
        if run.sink == "left":
            fcntl.fcntl(given, SET_PIPE_SIZE, SMALL_PIPE)
        return given, threading.Thread(target=take, args=(run, taken, folder / "output"))
    return os.open("/dev/full" if run.sink == "full" else folder / "output", os.O_WRONLY), None


def shut_of(run):
    """What closes, in the program's process, the standard streams that it is to have not."""
    shut = [number for number, way in enumerate([run.source, run.sink]) if way == "shut"]
    return (lambda: [os.close(number) for number in shut]) if shut else None


def do(run, program, folder):
    """Runs the program once, with its files in the folder, which lies beside the libraries."""
    folder.mkdir(exist_ok=True)
    (folder / "input").write_bytes(run.input)
    for name, size in (("output", 0), ("offered", 0), ("said", 0), ("io", 40), ("allocations", 8)):
        (folder / name).write_bytes(bytes(size))
    (source, feeder), (sink, taker) = open_source(run, folder), open_sink(run, folder)
    begun = time.monotonic()
    with open(folder / "said", "wb") as said:
        process = subprocess.Popen(
            [program, "run"], stdin=source, stdout=sink, stderr=said, env=environment_of(run, folder),
            restore_signals=run.default_signals, preexec_fn=shut_of(run))
    os.close(source)
    os.close(sink)
    helpers = [helper for helper in (feeder, taker) if helper]
    for helper in helpers:
        helper.start()
    try:
        status = process.wait(MOST_SECONDS)
    except subprocess.TimeoutExpired:
        process.kill()
        process.wait()
        status = None
    for helper in helpers:
        helper.join()
    return Ran(folder, status, time.monotonic() - begun)


# ---- its judgement

def line_of(run, ran):
    """The status and the line that are due where no text of a run is, or none."""
    if ran.failed_reads:
        return 4, b"oakmap: read fault\n"
    if len(run.input) > MOST_INPUT:
        return 3, b"oakmap: input is longer than %d bytes\n" % MOST_INPUT
    fault = first_fault(run.input)
    return (3, f"oakmap: line {fault[0]}: {fault[1]}\n".encode()) if fault else None


def counts_of(run, text):
    """How often each reply came in the text of a run; ends with what is wrong where the judge does not pass it."""
    try:
        replies = check_run.judge(run.input.decode("ascii"), text.decode("ascii")).replies
    except Exception as wrong:
        raise Differs(f"the judge of texts: {type(wrong).__name__} {wrong}") from wrong
    return check_run.count_replies(replies)


def judge(run, ran):
    """How often each reply came, where the run did as it should; ends with what differed where it did not."""
    require(ran.status is not None, f"not done within {MOST_SECONDS} seconds")
    require(not ran.said, f"standard error has {ran.said[:80]!r}")
    refused = 0 < int(run.environment.get("FAIL_ALLOCATION", 0)) <= ran.allocations
    if ran.status == 6:
        require(refused, "status 6, and no allocation failed")
        require(not ran.offered, "status 6, and something was written")
        return collections.Counter()
    came = ran.output == ran.written if run.sink in ("file", "pipe") else ran.written.startswith(ran.output)
    require(came, "the output is no front of what was to be written")
    due = line_of(run, ran)
    if due:
        require(ran.status == due[0], f"status {ran.status} where {due[0]} is due")
        require(ran.offered == due[1], f"{ran.offered[:80]!r} where {due[1]!r} is due")
        return collections.Counter()
    status = 5 if ran.failed_writes else 0
    require(ran.status == status, f"status {ran.status} where {status} is due")
    return counts_of(run, ran.offered)


# ---- many runs

class Table:
    """How often each kind of run ended with each status, how often each reply came, and which seeds differed."""

    def __init__(self):
        self.ends = collections.defaultdict(collections.Counter)
        self.replies = collections.Counter()
        self.differed = []
        self.longest = 0

    def runs(self):
        return sum(sum(ends.values()) for ends in self.ends.values())

    def add(self, run, ran, replies):
        self.ends[run.kind][ran.status] += 1
        self.replies += replies
        self.longest = max(self.longest, ran.seconds)

    def line(self):
        kinds = []
        for kind in sorted(self.ends):
            ends = " ".join(f"{status}:{count}" for status, count in sorted(self.ends[kind].items(), key=str))
            kinds.append(f"{kind} {ends}")
        return f"{self.runs()} runs, {len(self.differed)} differed; " + ", ".join(kinds)

    def print(self):
        print(f"{'kind':10}{'runs':>8}" + "".join(f"{f'status {status}':>10}" for status in STATUSES) + f"{'other':>8}")
        for kind, ends in sorted(self.ends.items()):
            other = sum(count for status, count in ends.items() if status not in STATUSES)
            print(f"{kind:10}{sum(ends.values()):8}" + "".join(f"{ends[status]:10}" for status in STATUSES) + f"{other:8}")
        print("replies: " + ", ".join(f"{count} {word}" for word, count in sorted(self.replies.items())))
        print(f"{self.runs()} runs, the longest of {self.longest:.1f} seconds; {len(self.differed)} differed")


def told(run, ran):
    words = " ".join(f"{name}={value!r}" for name, value in sorted(run.environment.items()))
    return f"{run.kind}, from {run.source} to {run.sink}, {words or 'nothing set'}, status {ran.status}"


def keep(seed, folder):
    """Copies the files of a run to where they stay."""
    kept = tempfile.mkdtemp(prefix=f"torture-{seed}-")
    shutil.copytree(folder, kept, dirs_exist_ok=True)
    return kept


def do_and_judge(seed, program, folder):
    """A run, what came of it, its replies, and what differed or none."""
    run = Run(seed)
    ran = do(run, program, folder)
    try:
        return run, ran, judge(run, ran), None
    except Differs as differs:
        return run, ran, collections.Counter(), differs


def run_for(seconds, seed, program, folder):
    """Runs one seed behind the other; whether none differed."""
    table, begun, minute = Table(), time.monotonic(), 0
    print(f"seeds from {seed} on", flush=True)
    while time.monotonic() - begun < seconds:
        run, ran, replies, differs = do_and_judge(seed, program, folder)
        table.add(run, ran, replies)
        if differs:
            table.differed.append(seed)
            print(f"seed {seed} differs: {differs}; {told(run, ran)}; kept in {keep(seed, folder)}", flush=True)
        if time.monotonic() - begun >= 60 * (minute + 1):
            minute = int((time.monotonic() - begun) // 60)
            print(f"minute {minute}, up to seed {seed}: {table.line()}", flush=True)
        seed += 1
    table.print()
    return not table.differed


def run_seed(seed, program, folder):
    """Runs one seed, and keeps its files; whether it did not differ."""
    run, ran, replies, differs = do_and_judge(seed, program, folder)
    print(f"seed {seed}: {told(run, ran)}")
    print("replies: " + (", ".join(f"{count} {word}" for word, count in sorted(replies.items())) or "none"))
    print(f"differs: {differs}" if differs else "as it should be")
    print(f"kept in {keep(seed, folder)}")
    return not differs


def main():
    program, room, form, *numbers = sys.argv[1:]
    run = run_for if form == "for" else run_seed
    well = run(*map(int, numbers), program, pathlib.Path(room) / "run")
    sys.exit(0 if well else 1)


if __name__ == "__main__":
    main()
