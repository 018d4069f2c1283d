#!/usr/bin/env python3
"""Writes the session that rt runs topic_main on: FOLDER/stdin, the bytes, and FOLDER/stdout, the lines.

    make_topic_session.py crates/topic_main

The format is that of oracle/src/topic/format.rs. The lines are worked out by hand from document 01 and stand beside each call;
oracle/target/release/topic_reference prints the same. Refusal 9 never occurs in the program.
"""
import pathlib
import sys

from session_text import framed

TOP = 2 ** 64 - 1
LAST = 2 ** 63 - 1
A = bytes(range(16))
B = bytes.fromhex("f0e1d2c3b4a5968778695a4b3c2d1e0f")
DEFAULT, KEEP_LAST, KEEP_ALL = 0, 1, 2


def limits(operation, keep=DEFAULT, depth=0, given=0, most=0):
    return bytes([operation, keep]) + depth.to_bytes(4, "big", signed=True) + bytes([given]) + most.to_bytes(4, "big", signed=True)


def new(*fields):
    return limits(0, *fields)


def update(*fields):
    return limits(1, *fields)


def add(writer, sequence, time, handle=0, length=0):
    return b"\2" + writer + b"".join(n.to_bytes(w, "big") for n, w in ((sequence, 8), (handle, 4), (length, 4), (time, 8)))


def remove(time):
    return b"\3" + time.to_bytes(8, "big")


def within(start, end):
    return b"\4" + start.to_bytes(8, "big") + end.to_bytes(8, "big")


def entry(key, writer, sequence, handle=0, length=0):
    return f"{key} {writer.hex()} {sequence} {handle} {length}"


ALL = within(0, TOP)

CALLS = [
    # no cache yet: 1 first, then 10, then 2
    (b"", "refused 1"), (b"\5", "refused 1"), (b"\3", "refused 1"), (ALL + b"\0", "refused 1"),
    (add(A, 0, 5), "refused 1"), (add(A, 1, 5), "refused 10"), (update(KEEP_LAST, 300), "refused 10"), (remove(0), "refused 10"), (ALL, "refused 10"),
    (new(3), "refused 1"), (new(DEFAULT, 0, 2), "refused 1"), (new(KEEP_LAST, 0), "refused 2"), (new(KEEP_LAST, 257), "refused 2"),
    (new(KEEP_LAST, -1), "refused 2"), (new(KEEP_ALL, 0, 1, 0), "refused 2"), (new(DEFAULT, 0, 1, 257), "refused 2"), (ALL, "refused 10"),
    # the defaults, depth 1 and 64: keys, held already, ranges
    (new(), "ok"), (ALL, "entries 0"), (add(A, 1, 0, 7, 1024), "key 1"), (add(B, 1, 1, 8), "key 2"), (add(A, 1, 9), "held already"),
    (add(A, 2, 100, TOP >> 32, TOP >> 32), "key 100"), (add(A, LAST, 50), "key 101"), (add(A, LAST + 1, 50), "refused 1"), (add(A, 0, 50), "refused 1"),
    (ALL, "entries 4", entry(1, A, 1, 7, 1024), entry(2, B, 1, 8), entry(100, A, 2, TOP >> 32, TOP >> 32), entry(101, A, LAST)),
    (within(1, 100), "entries 2", entry(2, B, 1, 8), entry(100, A, 2, TOP >> 32, TOP >> 32)), (within(100, 100), "entries 0"), (within(101, 1), "entries 0"),
    # a refused new or update changes nothing; an update raises the depth to 3, and the removal leaves so many
    (new(KEEP_LAST, 300), "refused 2"), (update(KEEP_LAST, 3, 1, 257), "refused 2"), (update(KEEP_LAST, 3), "ok"), (update(KEEP_LAST, 2), "ok"),
    (remove(2), "ok"), (within(0, 2), "entries 1", entry(2, B, 1, 8)), (remove(TOP), "ok"), (within(0, 100), "entries 2", entry(2, B, 1, 8), entry(100, A, 2, TOP >> 32, TOP >> 32)),
    # the last key: refusal 6 leaves the collection undone, and held already comes before it
    (new(KEEP_LAST, 1, 1, 2), "ok"), (add(A, 1, 1), "key 1"), (add(A, 2, 2), "key 2"), (add(A, 3, TOP), "key 18446744073709551615"), (add(A, 64, 5), "refused 6"),
    (ALL, "entries 3", entry(1, A, 1), entry(2, A, 2), entry(TOP, A, 3)), (add(A, 2, 5, 0, 65537), "held already"), (ALL, "entries 2", entry(2, A, 2), entry(TOP, A, 3)),
    # KeepAll with max_samples 1: each of these adds collects first
    (new(KEEP_ALL, 0, 1, 1), "ok"), (add(A, 8, 5, 1, 1025), "key 5"), (add(A, 16, 6, 2, 65536), "key 6"), (ALL, "entries 2", entry(5, A, 8, 1, 1025), entry(6, A, 16, 2, 65536)),
    (add(A, 7, 7, 3, 65537), "key 7"), (remove(TOP), "ok"), (ALL, "entries 1", entry(7, A, 7, 3, 65537)),
]


def main():
    folder = pathlib.Path(sys.argv[1])
    records = b"".join(framed(record) for record, *_ in CALLS)
    # the last record is cut off
    (folder / "stdin").write_bytes(b"\1" + records + b"\0\5\3")
    lines = [line for _, *answer in CALLS for line in answer] + ["refused 1"]
    (folder / "stdout").write_text("".join(line + "\n" for line in lines))


if __name__ == "__main__":
    main()
