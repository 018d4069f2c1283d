#!/usr/bin/env python3
"""Sessions as text for people, and back.

    session_text.py to-bytes   < TEXT  > SESSION
    session_text.py from-bytes < SESSION > TEXT

One record a line; a # starts a comment. Numbers are decimal.

    set-up MODE KEEP INSTANCES
    add INSTANCE SEQUENCE TIME KIND HANDLE [WRITER]     KIND: value, dispose or a number; WRITER: 32 hex digits
    no-writers INSTANCE
    choose SAMPLE VIEW INSTANCE-MASK
    within INSTANCE SAMPLE VIEW INSTANCE-MASK
    read KEY/INSTANCE ..
    take KEY/INSTANCE ..
    next INSTANCE
    raw HEX             a record of these bytes, with its length in front
    bytes HEX           these bytes as they are, with no length: a record that is cut off
    version N           in the first line alone: another version byte than 1
    no-version          in the first line alone: no version byte
"""
import re
import sys

WRITER = bytes(16)
KINDS = {"value": 1, "dispose": 2}
KIND_NAMES = {1: "value", 2: "dispose"}


class BadText(Exception):
    """Bad text, with the number of its line."""


def number(word, size, signed=False):
    """WORD as a big-endian field of SIZE bytes."""
    if not re.fullmatch(r"-?[0-9]+", word):
        raise BadText(f"{word!r} is not a number")
    try:
        return int(word).to_bytes(size, "big", signed=signed)
    except OverflowError:
        kind = "a signed" if signed else "an unsigned"
        raise BadText(f"{word} does not fit {kind} field of {size} bytes") from None


def hexadecimal(word):
    try:
        return bytes.fromhex(word)
    except ValueError:
        raise BadText(f"{word!r} is not a run of hex digits") from None


def words_are(words, least, most, form):
    if not least <= len(words) <= most:
        raise BadText(f"write: {form}")


def pair(word):
    key, slash, instance = word.partition("/")
    if not slash:
        raise BadText(f"{word!r} is not KEY/INSTANCE")
    return number(key, 8) + number(instance, 8)


def set_up(words):
    words_are(words, 3, 3, "set-up MODE KEEP INSTANCES")
    return b"\x00" + number(words[0], 1) + number(words[1], 4, True) + number(words[2], 2)


def add(words):
    words_are(words, 5, 6, "add INSTANCE SEQUENCE TIME KIND HANDLE [WRITER]")
    instance, sequence, time, kind, handle = words[:5]
    writer = hexadecimal(words[5]) if len(words) == 6 else WRITER
    if len(writer) != 16:
        raise BadText("a writer has 32 hex digits")
    kind = str(KINDS.get(kind, kind))
    return b"\x01" + number(instance, 8) + writer + number(sequence, 8) + number(time, 8) + number(kind, 1) + number(handle, 4)


def no_writers(words):
    words_are(words, 1, 1, "no-writers INSTANCE")
    return b"\x02" + number(words[0], 8)


def choose(words):
    words_are(words, 3, 3, "choose SAMPLE VIEW INSTANCE-MASK")
    return b"\x03" + b"".join(number(w, 1) for w in words)


def within(words):
    words_are(words, 4, 4, "within INSTANCE SAMPLE VIEW INSTANCE-MASK")
    return b"\x04" + number(words[0], 8) + b"".join(number(w, 1) for w in words[1:])


def pairs(operation, words):
    if len(words) > 4095:
        raise BadText("a list record holds at most 4095 pairs")
    return operation + number(str(len(words)), 2) + b"".join(pair(w) for w in words)


def next_key(words):
    words_are(words, 1, 1, "next INSTANCE")
    return b"\x07" + number(words[0], 8)


def raw(words):
    words_are(words, 0, 1, "raw HEX")
    return hexadecimal(words[0]) if words else b""


RECORDS = {
    "set-up": set_up,
    "add": add,
    "no-writers": no_writers,
    "choose": choose,
    "within": within,
    "read": lambda words: pairs(b"\x05", words),
    "take": lambda words: pairs(b"\x06", words),
    "next": next_key,
    "raw": raw,
}


def framed(record):
    """A record with its two length bytes."""
    if len(record) > 65535:
        raise BadText("a record holds at most 65535 bytes")
    return len(record).to_bytes(2, "big") + record


def line_bytes(word, words):
    if word == "bytes":
        words_are(words, 1, 1, "bytes HEX")
        return hexadecimal(words[0])
    if word not in RECORDS:
        raise BadText(f"{word!r} is no record: " + ", ".join(RECORDS) + ", bytes")
    return framed(RECORDS[word](words))


def to_bytes(text):
    """The bytes of a session in text form."""
    out, first, version = [], True, b"\x01"
    for at, line in enumerate(text.splitlines(), 1):
        words = line.split("#", 1)[0].split()
        if not words:
            continue
        try:
            if words[0] in ("version", "no-version"):
                if not first:
                    raise BadText(f"{words[0]} stands in the first line alone")
                words_are(words, 1 + (words[0] == "version"), 1 + (words[0] == "version"), "version N, or no-version")
                version = number(words[1], 1) if words[0] == "version" else b""
            else:
                out.append(line_bytes(words[0], words[1:]))
        except BadText as bad:
            raise BadText(f"line {at}: {bad}") from None
        first = False
    return version + b"".join(out)


# ---- and back

def field(record, at, size, signed=False):
    return str(int.from_bytes(record[at:at + size], "big", signed=signed))


def add_text(record):
    kind = KIND_NAMES.get(record[41], str(record[41]))
    line = f"add {field(record, 1, 8)} {field(record, 25, 8)} {field(record, 33, 8)} {kind} {field(record, 42, 4)}"
    writer = record[9:25]
    return line if writer == WRITER else f"{line} {writer.hex()}"


def list_text(record):
    name = "read" if record[0] == 5 else "take"
    places = range(3, len(record), 16)
    return " ".join([name] + [field(record, p, 8) + "/" + field(record, p + 8, 8) for p in places])


def masks(record, at):
    return " ".join(str(b) for b in record[at:at + 3])


def record_text(record):
    """The line of a record; of a malformed one, its bytes."""
    shape = (record[0], len(record)) if record else None
    if shape == (0, 8):
        return f"set-up {record[1]} {field(record, 2, 4, True)} {field(record, 6, 2)}"
    if shape == (1, 46):
        return add_text(record)
    if shape == (2, 9):
        return f"no-writers {field(record, 1, 8)}"
    if shape == (3, 4):
        return f"choose {masks(record, 1)}"
    if shape == (4, 12):
        return f"within {field(record, 1, 8)} {masks(record, 9)}"
    if record and record[0] in (5, 6) and len(record) >= 3 and len(record) == 3 + 16 * int(field(record, 1, 2)):
        return list_text(record)
    if shape == (7, 9):
        return f"next {field(record, 1, 8)}"
    return f"raw {record.hex()}".rstrip()


def from_bytes(session):
    """The text form of any bytes."""
    if not session:
        return "no-version\n"
    lines = [] if session[0] == 1 else [f"version {session[0]}"]
    at = 1
    while at < len(session):
        size = int.from_bytes(session[at:at + 2], "big")
        if at + 2 > len(session) or at + 2 + size > len(session):
            lines.append(f"bytes {session[at:].hex()}")
            break
        lines.append(record_text(session[at + 2:at + 2 + size]))
        at += 2 + size
    return "".join(line + "\n" for line in lines)


def main(arguments):
    if arguments == ["to-bytes"]:
        try:
            sys.stdout.buffer.write(to_bytes(sys.stdin.read()))
        except BadText as bad:
            sys.exit(f"session_text: {bad}")
    elif arguments == ["from-bytes"]:
        sys.stdout.write(from_bytes(sys.stdin.buffer.read()))
    else:
        sys.exit(__doc__)


if __name__ == "__main__":
    main(sys.argv[1:])
