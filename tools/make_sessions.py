#!/usr/bin/env python3
"""Writes the test sessions: NAME.session, the bytes, and NAME.out, the printout by the reference (oracle/src/bin/reference.rs).

    make_sessions.py FOLDER

It needs cargo, which builds the reference. Not among the sessions, since none of a reasonable length reaches it: refusal 7, which
wants 2,147,483,647 rebirths. Refusal 9 never occurs in the program. S1 stands there in text form too; that its printout is document
01's own is tested in oracle/tests/s1.rs.
"""
import pathlib
import random
import shutil
import subprocess
import sys

from session_text import from_bytes, to_bytes

ORACLE = pathlib.Path(__file__).resolve().parent.parent / "oracle"
TOP = 2 ** 64 - 1

S1 = """set-up 1 2 4
add 7 1 100 value 11
add 9 1 100 value 12
add 7 2 90 dispose 13
add 7 3 200 value 14
choose 3 3 7
read 101/9 102/7 200/7
read 102/7
choose 3 1 7
take 200/7
add 7 4 150 value 15
next 7
next 9
no-writers 8
"""

# one record of each operation, as it stands in a session that was set up
RECORDS = {
    "set-up": "set-up 1 2 4",
    "add": "add 7 1 100 value 11 000102030405060708090a0b0c0d0e0f",
    "no-writers": "no-writers 7",
    "choose": "choose 3 3 7",
    "within": "within 7 3 3 7",
    "read": "read 100/7",
    "take": "take 100/7",
    "next": "next 7",
}

LOOK = ["choose 3 3 7", "choose 1 3 7", "choose 2 3 7", "choose 3 1 7", "choose 3 2 7", "choose 3 3 1", "choose 3 3 2", "choose 3 3 4"]

sessions = {}


# ---- the reference

def build_reference():
    """The program of the reference, built from its source as it is now, in oracle's own target folder."""
    if shutil.which("cargo") is None:
        sys.exit("make_sessions: no cargo here: it builds the reference (oracle/), which makes the printouts")
    build = ["cargo", "build", "--release", "--offline", "--quiet", "--target-dir", "target", "--bin", "reference"]
    if subprocess.run(build, cwd=ORACLE, check=False).returncode != 0:
        sys.exit("make_sessions: the reference was not built")


def printout(session):
    """What the reference prints for the bytes of a session."""
    program = ORACLE / "target" / "release" / "reference"
    # an empty environment: ORACLE_WRONG would make it err
    return subprocess.run([program], input=session, stdout=subprocess.PIPE, env={}, check=True).stdout.decode("ascii")


# ---- sessions

def put(name, lines):
    """A session, from lines of text or from bytes."""
    assert name not in sessions, name
    session = lines if isinstance(lines, bytes) else to_bytes("\n".join(lines) + "\n")
    assert to_bytes(from_bytes(session)) == session, name
    sessions[name] = session


def record(line):
    """A record's bytes with its two length bytes."""
    return to_bytes(line + "\n")[1:]


# ---- the format

def malformed_input():
    put("input-empty", b"")
    put("input-version-alone", b"\x01")
    for version in (0, 2, 3, 49, 255):
        put(f"input-version-{version}", [f"version {version}", "set-up 1 2 4"])
    put("input-version-wrong-alone", b"\x02")
    put("input-one-length-byte", ["set-up 1 2 4", "bytes 00"])
    put("input-length-beyond-the-end", ["set-up 1 2 4", "next 0", "bytes ffff07"])
    put("input-set-up-and-no-more", ["set-up 1 2 4"])


def malformed_records():
    put("length-0", ["raw", "set-up 1 2 4", "raw", "next 0", "raw"])
    for operation in (8, 9, 16, 127, 128, 255):
        put(f"operation-{operation}", ["set-up 1 2 4", f"raw {operation:02x}", f"raw {operation:02x}0000000000000000", "add 7 1 100 value 11", f"raw {operation:02x}{'11' * 45}", "choose 3 3 7"])
    for name, line in RECORDS.items():
        body = record(line)[2:]
        shorter, longer = body[:-1].hex(), body.hex() + "00"
        start = [] if name == "set-up" else ["set-up 1 2 4", "add 7 1 100 value 10"]
        put(f"short-{name}", start + [f"raw {shorter}", "choose 3 3 7"])
        put(f"long-{name}", start + [f"raw {longer}", "choose 3 3 7"])
        put(f"operation-byte-alone-{name}", start + [f"raw {body[:1].hex()}", "choose 3 3 7"])
        put(f"short-before-set-up-{name}", [f"raw {shorter}", f"raw {longer}", line, "set-up 1 2 4", "choose 3 3 7"])


def list_counts():
    key = "0000000000000064" + "0000000000000007"
    for operation, name in (("05", "read"), ("06", "take")):
        start = ["set-up 1 2 4", "add 7 1 100 value 11"]
        put(f"{name}-count-one-more", start + [f"raw {operation}0002{key}", "choose 3 3 7"])
        put(f"{name}-count-one-less", start + [f"raw {operation}0000{key}", "choose 3 3 7"])
        put(f"{name}-count-without-pairs", start + [f"raw {operation}0001", f"raw {operation}00", f"raw {operation}", "choose 3 3 7"])
        put(f"{name}-half-a-pair", start + [f"raw {operation}0001{key[:16]}", "choose 3 3 7"])
        put(f"{name}-count-little-endian", start + [f"raw {operation}0100{key}", "choose 3 3 7"])
        put(f"{name}-count-65535", start + [f"raw {operation}ffff{key}", "choose 3 3 7"])
        put(f"{name}-empty-list", start + [name, "choose 3 3 7"])
        put(f"{name}-empty-list-in-an-empty-cache", ["set-up 1 2 4", name])


def cut_off():
    """Each operation cut off behind every byte of its record, the two length bytes included."""
    for name, line in RECORDS.items():
        start = [] if name == "set-up" else ["set-up 1 2 4", "add 7 1 100 value 10"]
        whole = record(line)
        for size in range(1, len(whole)):
            put(f"cut-{name}-{size:02d}", start + [f"bytes {whole[:size].hex()}"])


# ---- refusals

def field_faults():
    for kind in (0, 3, 4, 255):
        put(f"kind-{kind}", [f"add 7 1 100 {kind} 11", "set-up 1 2 4", f"add 7 1 100 {kind} 11", "choose 3 3 7", "add 7 1 100 value 12"])
    for sequence in (0, 2 ** 63, 2 ** 63 + 1, TOP):
        put(f"sequence-{sequence}", [f"add 7 {sequence} 100 value 11", "set-up 1 2 4", f"add 7 {sequence} 100 value 11", "choose 3 3 7", "add 7 1 100 value 12"])
    put("sequence-bounds", ["set-up 1 4 4", "add 7 1 100 value 11", f"add 7 {2 ** 63 - 1} 100 value 12", "choose 3 3 7"])
    put("fault-before-unknown-instance", ["set-up 1 2 4", "within 9 4 3 7", "within 9 3 4 7", "within 9 3 3 8", "within 9 3 3 7"])
    put("fault-before-full", ["set-up 4 0 1", "add 1 1 5 value 1", "add 2 1 5 3 1", "add 2 0 5 value 1", "add 2 1 5 value 1"])


def all_masks():
    start = ["set-up 1 4 4", "add 7 1 10 value 1", "add 8 2 20 dispose 2", "add 9 3 30 value 3", "no-writers 9", "add 10 4 40 value 4",
             "read 10/7", "add 7 5 50 value 5"]
    for place in range(3):
        lines = list(start)
        for mask in range(256):
            masks = [3, 3, 7]
            masks[place] = mask
            lines.append("choose " + " ".join(map(str, masks)))
            lines.append("within 7 " + " ".join(map(str, masks)))
        put(f"masks-all-of-place-{place + 1}", lines)
    put("masks-all-that-are-fine", start + [f"choose {s} {v} {i}" for s in range(4) for v in range(4) for i in range(8)])
    put("masks-before-set-up", [f"choose {m} {m} {m}" for m in range(256)])


def set_up_bounds():
    good = [(1, 1, 1), (1, 256, 1), (1, 8, 32), (2, 8, 32), (2, 1, 32), (2, 128, 2), (3, 0, 1), (3, 0, 32), (4, 0, 1), (4, 0, 32), (1, 85, 3)]
    bad = [(0, 1, 1), (5, 1, 1), (255, 1, 1), (1, 0, 1), (1, -1, 1), (2, 0, 1), (2, -1, 4), (1, 257, 1), (1, 9, 32), (2, 129, 2), (1, 86, 3),
           (3, 1, 1), (3, -1, 1), (4, 1, 1), (4, -1, 1), (1, 1, 0), (1, 1, 33), (1, 1, 65535), (3, 0, 0), (3, 0, 33), (4, 0, 0), (4, 0, 33),
           (1, 2147483647, 1), (1, 2147483647, 32), (1, -2147483648, 1), (2, 134217728, 32), (2, 134217729, 32), (1, 1, 256), (1, 16777216, 256)]
    for mode, keep, instances in good:
        put(f"set-up-{mode}-{keep}-{instances}", [f"set-up {mode} {keep} {instances}", "add 1 1 1 value 1", "choose 3 3 7"])
    for mode, keep, instances in bad:
        put(f"set-up-refused-{mode}-{keep}-{instances}", [f"set-up {mode} {keep} {instances}", "add 1 1 1 value 1", "set-up 4 0 1", "add 1 1 1 value 1"])
    put("set-up-all-refused", [f"set-up {m} {k} {i}" for m, k, i in bad] + ["choose 3 3 7"])
    put("set-up-after-set-up", ["set-up 1 2 4", "add 7 1 100 value 11", "set-up 1 2 4", "set-up 9 0 0", "set-up 3 0 32", "choose 3 3 7"])
    put("set-up-modes-0-to-255", [f"set-up {m} 0 0" for m in range(256)] + ["set-up 4 0 1"])


def before_set_up():
    for name, line in RECORDS.items():
        if name != "set-up":
            put(f"before-set-up-{name}", [line, "set-up 1 2 4", line])
    put("before-set-up-list-of-4095", ["read " + " ".join(f"{k}/7" for k in range(4095))])
    put("before-set-up-refused-set-up", ["set-up 1 0 4", "choose 3 3 7", "set-up 1 1 4", "choose 3 3 7"])


def instances_full():
    for mode, keep in ((1, 8), (2, 8), (3, 0), (4, 0)):
        lines = [f"set-up {mode} {keep} 32"] + [f"add {n} 1 {n} value {n}" for n in range(32)]
        lines += ["add 32 1 99 value 99", "add 32 1 99 dispose 99", "no-writers 32", "add 31 2 99 value 98", "choose 3 3 7", "next 30", "next 31"]
        put(f"instances-full-mode-{mode}", lines)
    put("instances-1", ["set-up 1 3 1", "add 5 1 1 value 1", "add 6 1 2 value 2", "add 5 2 2 value 3", "choose 3 3 7"])
    put("instances-full-after-takes", ["set-up 4 0 2", "add 1 1 1 value 1", "add 2 1 2 value 2", "take 1/1 2/2", "add 3 1 3 value 3", "next 0", "next 1", "next 2"])


def no_later_key():
    put("key-top-first", ["set-up 1 2 4", f"add 7 1 {TOP} value 1", f"add 7 2 {TOP} value 2", "add 7 3 5 value 3", "add 8 1 5 value 4", "choose 3 3 7", f"take {TOP}/7", "add 7 4 5 value 5"])
    put("key-top-by-repair", ["set-up 1 2 4", f"add 7 1 {TOP - 1} value 1", "add 7 2 0 value 2", "add 7 3 0 value 3", "choose 3 3 7"])
    put("key-6-before-4", ["set-up 1 1 1", f"add 7 1 {TOP} value 1", "add 8 1 1 value 2", "add 8 1 1 3 2"])
    put("key-6-before-5", ["set-up 3 0 4"] + [f"add 7 {n + 1} {n} value {n}" for n in range(255)] + [f"add 7 256 {TOP} value 256", "add 7 257 1 value 257", "add 8 1 1 value 258"])
    put("key-0-first", ["set-up 1 4 4", "add 7 1 0 value 1", "add 7 2 0 value 2", "add 8 1 0 value 3", "choose 3 3 7"])
    put("key-top-instance", ["set-up 1 2 4", f"add {TOP} 1 10 value 1", "next 0", f"next {TOP - 1}", f"next {TOP}", f"read 10/{TOP}", f"no-writers {TOP}", f"within {TOP} 3 3 7"])
    put("key-top-handle", ["set-up 1 1 4", f"add 7 {2 ** 63 - 1} 10 value {2 ** 32 - 1}", "add 7 1 20 value 0", "add 7 2 30 value 1", "choose 3 3 7"])


def mode_3_full():
    lines = ["set-up 3 0 2"] + [f"add 7 {n + 1} {10 * n} value {n}" for n in range(256)]
    put("mode-3-full", lines + ["add 7 257 9999 value 300", "add 8 1 9999 value 301", "choose 3 3 7"])
    put("mode-3-full-4-before-5", ["set-up 3 0 1"] + lines[1:] + ["add 8 1 1 value 9", "add 7 257 1 value 9", "take 0/7", "add 8 1 1 value 9", "add 7 258 1 value 9"])
    put("mode-3-full-refused-instance-is-not-held", lines + ["add 8 1 1 value 9", "add 9 1 1 value 9", "next 7", "take 0/7", "add 9 1 1 value 9", "add 8 1 1 value 9", "next 7"])
    put("mode-3-full-and-taken", lines + ["take 100/7 2550/7", "add 8 1 1 value 301", "add 8 2 1 value 302", "add 8 3 1 value 303", "choose 3 3 7"])
    put("mode-3-full-taken-whole", lines + ["take " + " ".join(f"{10 * n}/7" for n in range(255, -1, -1)), "choose 3 3 7", "add 7 300 5 value 5"])
    put("mode-3-dispose-when-full", lines + ["add 7 257 9999 dispose 1", "no-writers 7", "add 7 257 9999 value 1", "choose 3 3 4"])


# ---- lists

def long_lists():
    fill = ["set-up 1 8 32"] + [f"add {n % 32} {n + 1} {n} value {n}" for n in range(256)]
    alive = [f"{n}/{n % 32}" for n in range(256)]
    put("list-of-256", fill + ["read " + " ".join(alive), "take " + " ".join(reversed(alive)), "choose 3 3 7"])
    put("list-of-257-one-twice", fill + ["read " + " ".join(alive + alive[:1]), "take " + " ".join(alive[-1:] + alive), "choose 2 3 7"])
    put("list-of-4095-dead", fill + ["read " + " ".join(f"{1000 + n}/1" for n in range(4095)), "choose 1 3 7"])
    put("list-of-4095-the-same", fill + ["take " + " ".join(["0/0"] * 4095), "choose 1 3 7"])
    put("list-of-4095-one-dead-at-the-end", fill + ["take " + " ".join(alive + [f"{300 + n}/0" for n in range(3839)]), "choose 3 3 7"])
    put("list-of-4095-top", fill + ["read " + " ".join([f"{TOP}/{TOP}"] * 4095)])
    put("list-of-4096-cut-off", to_bytes("set-up 1 1 1\n") + (3 + 16 * 4095).to_bytes(2, "big") + b"\x05\x0f\xff" + bytes(16 * 4095 - 1))


def list_refusals():
    start = ["set-up 1 2 4", "add 7 1 100 value 11", "add 9 1 200 value 12", "add 7 2 300 value 13"]
    for name in ("read", "take"):
        put(f"{name}-dead-key", start + [f"{name} 150/7", f"{name} 100/7 150/7", f"{name} 150/7 100/7", "choose 3 3 7"])
        put(f"{name}-under-another-instance", start + [f"{name} 200/7", f"{name} 100/9", f"{name} 100/8", "choose 3 3 7"])
        put(f"{name}-twice", start + [f"{name} 100/7 100/7", f"{name} 100/7 200/9 100/7", f"{name} 200/9 300/7 300/7", "choose 3 3 7"])
        put(f"{name}-evicted", start + ["add 7 3 400 value 14", f"{name} 100/7", f"{name} 300/7 400/7", "choose 3 3 7"])
        put(f"{name}-swapped-pair", start + [f"{name} 7/100", "choose 3 3 7"])
    put("take-taken", start + ["take 100/7", "take 100/7", "read 100/7", "read 300/7 200/9", "choose 3 3 7"])
    put("take-then-read-all", start + ["take 300/7 100/7", "read 200/9", "choose 3 3 7", "choose 3 2 7"])


# ---- keeping

def keeping():
    for mode, keep, depth in ((1, 1, 1), (1, 3, 3), (2, 3, 3), (4, 0, 1), (3, 0, 5)):
        lines = [f"set-up {mode} {keep} 2"]
        for n in range(1, 8):
            lines.append(f"add 7 {n} {100 - n} value {n}")
        put(f"keep-raw-times-fall-mode-{mode}-{keep}", lines + ["choose 3 3 7", "read 99/7", "read 105/7"])
        lines = [f"set-up {mode} {keep} 2"] + [f"add 7 {n} {10 * n} value {n}" for n in range(1, depth + 1)]
        lines += [f"take {10 * n}/7" for n in range(1, depth + 1)] + ["choose 3 3 7"]
        for n in range(1, depth + 3):
            lines += [f"add 7 {n} 5 value {20 + n}", "choose 3 3 7"]
        put(f"keep-taken-use-places-mode-{mode}-{keep}", lines)
    put("keep-depth-1-of-the-document", ["set-up 1 1 2", "add 1 1 10 value 1", "take 10/1", "add 1 2 5 value 2", "choose 3 3 7", "read 11/1"])
    put("keep-two-instances-of-the-document", ["set-up 1 1 2", "add 1 1 10 value 1", "take 10/1", "add 2 1 10 value 2", "choose 3 3 7", "add 1 2 20 value 3", "choose 3 3 7"])
    put("keep-depth-2-of-the-open-points", ["set-up 1 2 1", "add 1 1 10 value 1", "add 1 2 20 value 2", "take 20/1", "add 1 3 15 value 3", "add 1 4 16 value 4", "choose 3 3 7"])
    put("keep-handle-0-evicted", ["set-up 1 1 1", "add 1 1 1 value 0", "add 1 2 2 dispose 0", "add 1 3 3 value 0", "choose 3 3 7"])
    for keep in (8, 64, 256):
        i = 256 // keep
        lines = [f"set-up 1 {keep} {i}"] + [f"add {n % i} {n + 1} {n} value {n}" for n in range(256)]
        lines += [f"add {n % i} {300 + n} {n} value {300 + n}" for n in range(0, 40, 3)] + ["choose 3 3 7"]
        put(f"keep-full-table-{keep}", lines)
        lines = lines[:257] + ["take " + " ".join(f"{n}/{n % i}" for n in range(0, 256, 2))] + [f"add {n % i} {300 + n} 0 value {300 + n}" for n in range(140)] + ["choose 3 3 7"]
        put(f"keep-full-table-deep-take-{keep}", lines)


def slots():
    start = ["set-up 1 4 4"] + [f"add {n % 4} {n + 1} {10 * n} value {n}" for n in range(12)]
    put("slot-lowest-free", start + ["take 50/1 20/2 100/2", "add 3 20 500 value 20", "add 3 21 600 value 21", "add 2 22 700 value 22", "choose 3 3 7"])
    put("slot-0-again", start + ["take 0/0", "add 1 20 500 value 20", "choose 3 3 7"])
    lines = ["set-up 3 0 1"] + [f"add 1 {n + 1} {n} value {n}" for n in range(200)] + ["take " + " ".join(f"{n}/1" for n in (63, 64, 127, 128, 191, 192))]
    put("slot-word-borders", lines + [f"add 1 {300 + n} {300 + n} value {n}" for n in range(8)])


# ---- lives, views and ranks

def lives():
    put("life-nine-pairs", ["set-up 1 8 8", "add 1 1 1 value 1", "add 1 2 2 value 2", "add 1 3 3 dispose 3", "add 1 4 4 dispose 4", "no-writers 1", "choose 3 3 2", "add 1 5 5 value 5",
                            "no-writers 1", "no-writers 1", "choose 3 3 4", "add 1 6 6 dispose 6", "choose 3 3 2", "add 1 7 7 value 7", "no-writers 1", "add 1 8 8 value 8",
                            "read 1/1 2/1 3/1 4/1 5/1 6/1 7/1 8/1"])
    put("life-no-writers-then-dispose", ["set-up 1 4 1", "add 1 1 1 value 1", "no-writers 1", "add 1 2 2 dispose 2", "add 1 3 3 value 3", "read 1/1 2/1 3/1"])
    put("life-first-is-a-dispose", ["set-up 1 4 1", "add 1 1 1 dispose 1", "choose 3 3 2", "no-writers 1", "add 1 2 2 value 2", "read 1/1 2/1"])
    put("life-no-writers-unknown", ["set-up 1 4 1", "no-writers 1", "add 1 1 1 value 1", "no-writers 2", "no-writers 1", "choose 3 3 4"])
    lines = ["set-up 1 4 1"]
    for n in range(300):
        lines.append(f"add 1 {2 * n + 1} {n} value {n}")
        lines.append("no-writers 1" if n % 3 == 0 else f"add 1 {2 * n + 2} {n} dispose {n}")
    put("life-many-rebirths", lines + ["choose 3 3 7", "choose 3 1 7"])
    put("life-many-rebirths-of-one-place", ["set-up 4 0 1", "add 1 1 1 value 1"] + ["no-writers 1", "add 1 2 2 value 2"] * 400 + ["choose 3 3 7", "read 401/1"])


def views():
    put("view-new-until-accessed", ["set-up 1 8 2", "add 1 1 1 value 1", "add 1 2 2 value 2", "choose 3 1 7", "read 1/1", "choose 3 1 7", "choose 3 2 7", "add 1 3 3 value 3", "choose 3 1 7",
                                    "add 1 4 4 dispose 4", "add 1 5 5 value 5", "choose 3 1 7", "choose 3 2 7", "read 5/1", "choose 3 1 7"])
    put("view-accessed-falls", ["set-up 1 8 2", "add 1 1 1 value 1", "add 1 2 2 dispose 2", "add 1 3 3 value 3", "read 3/1", "choose 3 1 7", "read 1/1", "choose 3 1 7", "choose 3 2 7", "read 3/1 1/1", "choose 3 1 7"])
    put("view-infos-before-marks", ["set-up 1 8 2", "add 1 1 1 value 1", "add 1 2 2 value 2", "read 1/1 2/1", "read 1/1 2/1", "take 1/1 2/1"])
    put("view-of-two-instances", ["set-up 1 8 2", "add 1 1 1 value 1", "add 2 1 2 value 2", "read 1/1", "choose 3 1 7", "choose 3 2 7", "choose 1 3 7", "within 1 3 1 7", "within 2 3 1 7"])
    put("view-after-take", ["set-up 1 8 2", "add 1 1 1 value 1", "take 1/1", "add 1 2 2 value 2", "choose 3 1 7", "choose 3 2 7", "add 1 3 3 dispose 3", "add 1 4 4 value 4", "choose 3 1 7"])


def ranks():
    rebirths = ["add 1 {0} {0} value {0}", "add 1 {1} {1} dispose {1}"]
    three = ["set-up 1 16 4"]
    for n in range(4):
        three += [line.format(2 * n + 1, 2 * n + 2) for line in rebirths]
    put("rank-negative", three + ["add 2 1 50 value 50", "read 7/1", "read 7/1 50/2", "read 50/2 7/1", "read 1/1 3/1 5/1 7/1 50/2", "take 50/2", "read 7/1"])
    put("rank-negative-and-taken", three + ["add 2 1 50 value 50", "take 50/2 7/1", "read 5/1", "take 8/1", "read 6/1 1/1"])
    put("rank-by-the-latest-live-sample", ["set-up 1 4 4", "add 1 1 10 value 1", "add 2 1 20 value 2", "add 2 2 30 dispose 3", "add 2 3 40 value 4", "take 40/2", "read 10/1", "take 30/2", "read 10/1 20/2"])
    put("rank-latest-in-another-instance", ["set-up 1 4 4", "add 1 1 10 dispose 1", "add 1 2 20 value 2", "add 2 1 30 value 3", "read 20/1 10/1", "read 10/1 20/1 30/2", "read 30/2 20/1"])
    put("rank-of-a-long-list", ["set-up 1 64 4"] + [f"add {n % 4} {n + 1} {n} {'dispose' if n % 5 == 0 else 'value'} {n}" for n in range(200)]
        + ["read " + " ".join(f"{n}/{n % 4}" for n in range(199, -1, -1)), "take " + " ".join(f"{n}/{n % 4}" for n in range(0, 200, 7)), "read 3/3"])


def orders():
    put("order-by-sequence", ["set-up 1 8 4", "add 1 9 1 value 1", "add 2 5 2 value 2", "add 3 7 3 value 3", "add 1 1 4 value 4", "choose 3 3 7", "within 1 3 3 7"])
    put("order-ties-by-key", ["set-up 1 8 4", "add 3 5 10 value 1", "add 2 5 20 value 2", "add 1 5 30 value 3", "add 4 5 25 value 4", "choose 3 3 7"])
    put("order-falling", ["set-up 1 8 4"] + [f"add {n % 4} {100 - n} {n} value {n}" for n in range(24)] + LOOK)
    put("order-of-great-sequences", ["set-up 1 8 4"] + [f"add {n % 4} {2 ** 63 - 1 - 7 * n % 5} {n} value {n}" for n in range(20)] + ["choose 3 3 7"])


def next_keys():
    put("next-of-an-empty-cache", ["set-up 1 8 4", "next 0", f"next {TOP}"])
    put("next-order", ["set-up 1 8 8"] + [f"add {n} 1 {n} value 1" for n in (50, 3, 40, 7, 0, TOP)] + [f"next {n}" for n in (0, 1, 3, 4, 7, 8, 40, 49, 50, 51, TOP - 1, TOP)])
    put("next-after-takes", ["set-up 1 1 8"] + [f"add {n} 1 {n} value 1" for n in (5, 9, 2)] + ["take 5/5 9/9", "next 0", "next 2", "next 5", "next 9"])


def writers():
    put("writers-unread", ["set-up 1 4 1"] + [f"add 1 {n + 1} {n + 1} value {n} {bytes((n * 16 + b) % 256 for b in range(16)).hex()}" for n in range(4)] + ["choose 3 3 7", "read 1/1 2/1 3/1 4/1"])
    put("writers-same-sequence", ["set-up 1 4 1", "add 1 1 1 value 1 " + "ff" * 16, "add 1 1 2 value 2 " + "00" * 16, "add 1 1 3 value 3 " + "ff" * 16, "choose 3 3 7"])


# ---- by chance

def chance(seed):
    """A random session over few instances and times, so that takes, evictions, repairs and refusals meet."""
    dice = random.Random(seed)
    mode = dice.choice((1, 1, 2, 3, 4))
    allowed = dice.randint(1, 5)
    keep = dice.randint(1, 4) if mode < 3 else 0
    lines = [f"set-up {mode} {keep} {allowed}"]
    names, pairs, time = range(allowed + 1), [], 0

    def some():
        known = list(pairs)
        dice.shuffle(known)
        return known[:dice.choice((0, 1, 1, 2, 3, 5))]

    for turn in range(dice.randint(20, 70)):
        what = dice.random()
        if what < 0.45:
            time += dice.choice((-3, 0, 1, 2, 5))
            name = dice.choice(names)
            lines.append(f"add {name} {dice.randint(1, 9)} {max(time, 0)} {dice.choice(('value', 'value', 'dispose'))} {turn}")
            answer = printout(to_bytes("\n".join(lines) + "\n")).splitlines()[-1].split()
            if answer[0] == "key":
                pairs.append(f"{answer[1]}/{name}")
        elif what < 0.55:
            lines.append(f"no-writers {dice.choice(names)}")
        elif what < 0.65:
            lines.append(f"choose {dice.randint(0, 3)} {dice.randint(0, 3)} {dice.randint(0, 7)}")
        elif what < 0.7:
            lines.append(f"within {dice.choice(names)} {dice.randint(0, 3)} {dice.randint(0, 3)} {dice.randint(0, 7)}")
        elif what < 0.9:
            chosen = some()
            word = dice.choice(("read", "read", "take"))
            lines.append(" ".join([word] + chosen))
            if word == "take" and printout(to_bytes("\n".join(lines) + "\n")).splitlines()[-1].split()[0] != "refused" and dice.random() < 0.8:
                pairs[:] = [p for p in pairs if p not in chosen]
        else:
            lines.append(f"next {dice.choice(names)}")
    return lines + ["choose 3 3 7"]


def main(folder):
    build_reference()
    put("S1", S1.splitlines())
    for make in (malformed_input, malformed_records, list_counts, cut_off, field_faults, all_masks, set_up_bounds, before_set_up, instances_full, no_later_key,
                 mode_3_full, long_lists, list_refusals, keeping, slots, lives, views, ranks, orders, next_keys, writers):
        make()
    for seed in range(80):
        put(f"chance-{seed:02d}", chance(seed))
    folder = pathlib.Path(folder)
    folder.mkdir(parents=True, exist_ok=True)
    for name, session in sessions.items():
        (folder / f"{name}.session").write_bytes(session)
        (folder / f"{name}.out").write_text(printout(session), encoding="ascii")
    (folder / "S1.txt").write_text(S1, encoding="ascii")
    (folder / "README.md").write_text("Machine-made by tools/make_sessions.py: sessions (.session) and their printouts (.out). To read one: tools/session_text.py from-bytes < NAME.session\n", encoding="ascii")
    print(f"{len(sessions)} sessions")


if __name__ == "__main__":
    if len(sys.argv) != 2:
        sys.exit(__doc__)
    main(sys.argv[1])
