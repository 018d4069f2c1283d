#!/usr/bin/env python3
"""Holds a session program to what it must do on any input. By hand: the gate has the stored sessions.

    stress_session.py long RECORDS [PROGRAM ..]              so many records in one run; says the time and the memory's peak
    stress_session.py [--seed N] bytes INPUTS [PROGRAM ..]   random inputs: it ends with status 0, in time, and prints lines of the grammar alone

PROGRAM is a command of one or more words; without it, tools/run session_main.
"""
import argparse
import pathlib
import random
import re
import subprocess
import sys
import threading
import time

import session_text

NUMBER = rb"(?:0|[1-9][0-9]*)"
SIGNED = rb"(?:0|-?[1-9][0-9]*)"
ONE_LINE = re.compile(
    rb"ok|refused (?:10|[1-9])|key " + NUMBER + rb" slot " + NUMBER + rb" evicted (?:-|" + NUMBER + rb")|next (?:-|" + NUMBER + rb")"
)
COUNTED = re.compile(rb"(selected|samples) (" + NUMBER + rb")")
PAIR = re.compile(NUMBER + rb" " + NUMBER)
INFO = re.compile(NUMBER + rb" [12] [12] [12] [124] " + NUMBER + rb" " + NUMBER + rb" " + NUMBER + rb" " + SIGNED + rb" " + SIGNED)


def grammar_fault(printed):
    """The first line that the printout must not have, or None."""
    lines = printed.split(b"\n")
    if lines.pop() != b"":
        return "no newline at the end"
    left, form = 0, None
    for line in lines:
        counted = COUNTED.fullmatch(line)
        if left:
            if not form.fullmatch(line):
                return line
            left -= 1
        elif counted:
            left, form = int(counted.group(2)), PAIR if counted.group(1) == b"selected" else INFO
        elif not ONE_LINE.fullmatch(line):
            return line
    return "lines missing behind a count" if left else None


def record(draw):
    """A record that is mostly well formed, so that the cache fills; its fields come from few values, so that they meet."""
    name, key = draw.choice([7, 9, 2**64 - 1]), draw.choice([0, 1, 2, 3, 100, 2**64 - 1])
    masks = bytes([draw.choice([3, 3, 1, 4]), draw.choice([3, 3, 2, 9]), draw.choice([7, 7, 4, 8])])
    number = lambda n, size: n.to_bytes(size, "big")
    body = draw.choice(
        [
            lambda: bytes([0, draw.randrange(6)]) + number(draw.choice([0, 1, 2, 300, 2**32 - 1]), 4) + number(draw.choice([0, 1, 4, 33]), 2),
            lambda: b"\1" + number(name, 8) + bytes(16) + number(draw.choice([1, 2, 3, 0]), 8) + number(key, 8) + bytes([draw.choice([1, 1, 2, 3])]) + bytes(4),
            lambda: b"\2" + number(name, 8),
            lambda: b"\3" + masks,
            lambda: b"\4" + number(name, 8) + masks,
            lambda: bytes([draw.choice([5, 6])]) + number(1, 2) + number(key, 8) + number(name, 8),
            lambda: b"\7" + number(name, 8),
            lambda: draw.randbytes(draw.randrange(12)),
        ]
    )()
    return session_text.framed(body)


def any_input(draw):
    """Bytes of any kind, records of any kind, or records with some bytes changed or cut."""
    if draw.random() < 0.2:
        return draw.randbytes(draw.randrange(200))
    parts = [b"\1", b"\0\x08\0\1\0\0\0\2\0\4"] + [record(draw) for _ in range(draw.randrange(20))]
    bytes_ = bytearray(b"".join(parts))
    for _ in range(draw.choice([0, 0, 1, 3])):
        bytes_[draw.randrange(len(bytes_))] = draw.randrange(256)
    return bytes(bytes_[: draw.choice([len(bytes_), draw.randrange(len(bytes_) + 1)])])


def run(program, given):
    """What the program prints, and its status. One that does not end is ended by a signal that the runner passes on, as SIGKILL is not."""
    with subprocess.Popen(program, stdin=subprocess.PIPE, stdout=subprocess.PIPE) as process:
        try:
            printed, _ = process.communicate(given, timeout=20)
        except subprocess.TimeoutExpired:
            process.terminate()
            raise
    return printed, process.returncode


def stress_bytes(inputs, program, seed):
    draw = random.Random(seed)
    lines = 0
    for at in range(inputs):
        given = any_input(draw)
        printed, status = run(program, given)
        fault = f"status {status}" if status else grammar_fault(printed)
        if fault is not None:
            print(f"input {at} ({given.hex()}): {fault!r}")
            return 1
        lines += printed.count(b"\n")
    print(f"{inputs} inputs, seed {seed}, {lines} lines, all of the grammar; status 0 each time")
    return 0


def long_text(records):
    """A set-up, then adds to 32 instances of 8, and every fifth record a choice, a read of one sample or a next key."""
    yield "set-up 1 8 32"
    for n in range(1, records):
        if n % 5:
            yield f"add {n % 32} {n} {n} value {n}"
        else:
            yield (f"within {n % 32} 3 3 7", f"read {n - 1}/{(n - 1) % 32}", f"next {n % 32}")[n // 5 % 3]


def tree(pid):
    """A process and those that it started."""
    yield pid
    try:
        children = pathlib.Path(f"/proc/{pid}/task/{pid}/children").read_text(encoding="ascii").split()
    except OSError:
        return
    for child in children:
        yield from tree(int(child))


def watch(process, peaks):
    """The greatest memory of what the process starts, in KiB by name, the runner's shells left out: of the whole time, though it is the last look
    that counts, since the kernel keeps the mark. Where the program is emulated it is the emulator's."""
    while process.poll() is None:
        seen = {}
        for pid in tree(process.pid):
            try:
                status = pathlib.Path(f"/proc/{pid}/status").read_text(encoding="ascii")
            except OSError:
                continue
            told = dict(line.split(":", 1) for line in status.splitlines())
            name = told["Name"].strip()
            if name not in ("run", "sh") and "VmHWM" in told:
                seen[name] = int(told["VmHWM"].split()[0])
        if seen:
            peaks.clear()
            peaks.update(seen)
        time.sleep(0.005)


def stress_long(records, program):
    given = session_text.to_bytes("\n".join(long_text(records)))
    start = time.monotonic()
    peaks = {}
    with subprocess.Popen(program, stdin=subprocess.PIPE, stdout=subprocess.PIPE) as process:
        watcher = threading.Thread(target=watch, args=(process, peaks))
        watcher.start()
        printed, _ = process.communicate(given)
        watcher.join()
    took = time.monotonic() - start
    fault = f"status {process.returncode}" if process.returncode else grammar_fault(printed)
    refused = printed.count(b"refused")
    peak = ", ".join(f"peak {most} KiB of {name}" for name, most in peaks.items())
    print(f"{records} records, {len(given)} bytes, {printed.count(10)} lines, {refused} refused, {took:.1f} s, {peak or 'no peak'}; fault {fault}")
    return 1 if fault or refused else 0


def main():
    parser = argparse.ArgumentParser(description=__doc__, formatter_class=argparse.RawDescriptionHelpFormatter)
    parser.add_argument("--seed", type=int, default=1)
    parser.add_argument("kind", choices=["long", "bytes"])
    parser.add_argument("count", type=int)
    parser.add_argument("program", nargs=argparse.REMAINDER)
    given = parser.parse_args()
    program = given.program or [str(pathlib.Path(__file__).with_name("run")), "session_main"]
    if given.kind == "long":
        return stress_long(given.count, program)
    return stress_bytes(given.count, program, given.seed)


if __name__ == "__main__":
    sys.exit(main())
