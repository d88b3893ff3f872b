#!/usr/bin/env python3
"""Writes data/ and stdout of crates/listing_inputs: inputs for the listing and what document 01 says it prints.

Written from document 01 alone; it shares nothing with the Rattle code. Run it in the repository's top folder.
"""
import random
import struct

EVENT_MASK = 1 | 2 | 4 | 8 | 16  # syscall/src/flag.rs, lines 46 to 53
OBTAIN_MASK = 1 | 2 | 4 | 8  # syscall/src/flag.rs, lines 83 to 97


def entry(flags, extra, tag, result):
    return bytes([flags, *extra]) + struct.pack("<IQ", tag, result)


def shown(kind, tag, extra, result):
    if kind in (0, 5):
        errno = (1 << 32) - (result & 0xFFFFFFFF)
        return ("err", errno) if 1 <= errno <= 132 else ("ok", result)
    if kind > 5 or (kind == 2 and tag & ~EVENT_MASK) or (kind == 3 and extra & ~OBTAIN_MASK):
        return ("bad", 22)
    return ("num", result)


def listing(data):
    data = data[:65536]
    lines = ["entry kind tag word value extra"]
    for at in range(0, len(data) - 15, 16):
        flags, x0, x1, x2, tag, result = struct.unpack("<BBBBIQ", data[at : at + 16])
        kind, extra = flags & 7, x0 | x1 << 8 | x2 << 16
        word, value = shown(kind, tag, extra, result)
        lines.append(f"{at // 16} {kind} {tag} {word} {value} {extra}")
    lines.append(f"left {len(data) % 16}")
    return "\n".join(lines) + "\n"


RESULTS = [
    0, 1, 7, 132, 133, 0x7FFFFFFF, 0x80000000, 0x80000001, 0xFFFFFF7A, 0xFFFFFF7B, 0xFFFFFF7C, 0xFFFFFF7D,
    0xFFFFFFFE, 0xFFFFFFFF, 0x100000000, 0x180000000, 0x1FFFFFF83, 0xFFFFFFFF00000000, 0xFFFFFFFF80000000,
    0xFFFFFFFFFFFFFF7B, 0xFFFFFFFFFFFFFF7C, 0xFFFFFFFFFFFFFFFF,
]
TAGS = [0, 1, 15, 16, 31, 32, 63, 64, 0x7FFFFFFF, 0x80000000, 0xFFFFFFFF]
EXTRAS = [(0, 0, 0), (1, 0, 0), (15, 0, 0), (16, 0, 0), (1, 2, 0), (0, 1, 0), (0, 0, 1), (255, 255, 255)]


def pick(r):
    return entry(
        r.randrange(256),
        r.choice(EXTRAS + [tuple(r.randrange(256) for _ in range(3))]),
        r.choice(TAGS + [r.randrange(1 << 32)]),
        r.choice(RESULTS + [r.randrange(1 << 64), (1 << 64) - r.randrange(1, 140)]),
    )


def main():
    r = random.Random(20261115)
    inputs = {
        "empty": b"",
        "short": bytes(range(240, 255)),
        # each kind with each tag, extra and result of the tables above
        "kinds": b"".join(
            entry(kind, x, t, v)
            for kind in range(6)
            for x, t, v in [(EXTRAS[i % 8], TAGS[i % 11], RESULTS[i % 22]) for i in range(88)]
        ),
        # every flags byte: all eight patterns of the low bits below every pattern of the upper five
        "flags": b"".join(entry(b, EXTRAS[b % 3], TAGS[b % 5], RESULTS[b % 22]) for b in range(256)),
        "full": b"".join(pick(r) for _ in range(4096)),
    }
    inputs["over"] = inputs["full"] + b"".join(pick(r) for _ in range(100)) + b"spare"
    for name, data in inputs.items():
        with open(f"crates/listing_inputs/data/{name}", "wb") as f:
            f.write(data)
    with open("crates/listing_inputs/stdout", "w") as f:
        f.write("".join(listing(data) for data in inputs.values()))


main()
