#!/usr/bin/env python3
"""Writes crates/run_values/stdin and stdout: the accident's events as records, one more record that is no event, and what the
run has to write of them. Written from the scope document, notes on the event script and docs/FORMAT.md alone; the program's
output is compared with it."""
import struct
import sys
from pathlib import Path

KINDS = {name: kind for kind, name in enumerate(
    "open copy drop put ended reserve submit call generic stdfs fmap close detach wake read write move obtain supply fdwrite fdread"
    .split(), 1)}


def record(kind, words=(), first=(), second=(), flags=0, number=0, uid=0, gid=0, tail=b""):
    head = struct.pack("<BBBBIII", KINDS[kind], len(first), len(second), flags, number, uid, gid)
    return head + struct.pack("<%dQ" % (len(words) + len(first) + len(second)), *words, *first, *second) + tail


def outcome(answer, effects=(), read=b""):
    words = [*answer, len(effects), *effects, len(read)]
    return struct.pack("<%dQ" % len(words), *words) + read


def state(queue, status, holds=(), outside=(), handles=()):
    def table(pairs):
        at = dict(pairs)
        return [at.get(i, 0) for i in range(64)]
    words = [queue, *table(holds), *table(outside), *table(handles)]
    for word in status:
        words += [word, bin(word).count("1")]
    return struct.pack("<%dQ" % len(words), *words)


OK, NO, WAIT, BLOCKED, SUCCESS = 0, 1, 2, 3, 4
ROOT = (5, 7, 1)


def main():
    entry = struct.pack("<BB2xI6QQ", 6, 0, 0, 1, 2, 3, 4, 5, 0, 100)
    events = [
        (record("call", [6, 1, 2, 3, 4, 5, 0, 100], number=100), outcome((OK, 0), ROOT)),
        (record("read", [64]), outcome((OK, 64), read=entry)),
        (record("wake", [0, 1, 0, 0], number=100), outcome((NO, 4))),
        (record("call", [6, 9, 0, 0, 0, 0, 0, 200], number=200), outcome((OK, 1), ROOT)),
        (record("write", [54], number=16, tail=bytes(16)), outcome((OK, 16), (1, 100, 0))),
        (record("wake", [0, 0, 0, 0], number=200), outcome((NO, 201))),
        (record("wake", [1, 0, 0, 0], number=200), outcome((BLOCKED, 0), ROOT)),
        (record("read", [1 << 63], number=0x40000), outcome((OK, 128), read=struct.pack("<BB2xI6QQ", 6, 0, 1, 9, 0, 0, 0, 0, 0, 200) + struct.pack("<BB2xI6QQ", 25, 1, 1, 0, 0, 0, 0, 0, 0, 0))),
        (record("open", [3]), outcome((OK, 0))),
        (record("generic", [7, 10, 20], first=[5, 6], second=[8, 9, 10], number=300), outcome((OK, 2), ROOT)),
        (record("write", [54], number=18, tail=struct.pack("<BBBBIQ", 5, 4, 0, 0, 2, 42) + b"ab"), outcome((OK, 16), (1, 300, 2))),
        (record("wake", [2, 0, 0, 0], number=300), outcome((SUCCESS, 42, 4, 1))),
        (record("fdwrite", [9, 0x1000, 30], first=[44, 45], second=[3], number=400, uid=1, gid=2), outcome((OK, 2), ROOT)),
        (record("fdread", [9, 23, 0x4000, 30], first=[44], number=400, uid=1, gid=2), outcome((NO, 22))),
        (record("fdread", [9, 16, 0x4000, 30], first=[44, 45, 46], number=400, uid=1, gid=2), outcome((OK, 3), ROOT)),
        (record("read", [192]), outcome((OK, 192), read=struct.pack("<BB2xI6QQ", 28, 2, 2, 5, 10, 20, 8, 9, 6, 7) + struct.pack("<BB2xI6QQ", 12, 0, 2, 9, 1, 44, 1, 0, 1 + (2 << 32), 30) + struct.pack("<BB2xI6QQ", 31, 0, 3, 9, 2, 2, 44, 45, 1 + (2 << 32), 30))),
        (record("ended", number=400), outcome((OK, 0))),
    ]
    end = state(0, [0, 2, 1, 0, 12], holds=[(3, 1)])
    good = b"".join(data for data, _ in events)
    # a close with a caller, which it has no field for
    bad = record("close", [1], number=1)
    out = b"".join(told for _, told in events) + end
    text = "15 bytes written: 0, kind 0\nnumber 205, place %d, written 0\nnumber 0, place %d, written %d\n" % (
        len(good), len(good), len(out))
    folder = Path(sys.argv[1]) if len(sys.argv) > 1 else Path(__file__).resolve().parents[2] / "crates" / "run_values"
    (folder / "stdin").write_bytes(good + bad)
    (folder / "stdout").write_bytes(text.encode() + out)


main()
