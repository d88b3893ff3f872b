#!/usr/bin/env python3
"""Changes one byte of each data file of crates/recorded, at many places one after the other, and looks whether the program then
prints something else than its file stdout. Also cuts, lengthens and removes the files. Needs the program (`rt run` in crates/recorded)."""
import random
import shutil
import struct
import subprocess
import sys
import tempfile
from pathlib import Path

TOP = Path(__file__).resolve().parents[2]
CRATE = TOP / "crates" / "recorded"
PROGRAM = CRATE / "out" / "recorded"
DRAWN = 100


def printed(folder):
    return subprocess.run([PROGRAM], cwd=folder, capture_output=True, timeout=60).stdout


def parts(data):
    """Places in the file by what stands there: the count, and of every run the scheme, the two lengths, events, what was recorded."""
    found = {name: [] for name in ["count", "scheme", "lengths", "events", "recorded"]}
    found["count"] += range(8)
    at = 8
    while at < len(data):
        n, m = struct.unpack_from("<QQ", data, at + 8)
        found["scheme"] += range(at, at + 8)
        found["lengths"] += range(at + 8, at + 24)
        at += 24
        found["events"] += range(at, at + n)
        found["recorded"] += range(at + n, at + n + m)
        at += n + m
    assert at == len(data)
    return found


def main():
    draw = random.Random(1)
    wanted = (CRATE / "stdout").read_bytes()
    missed = 0
    with tempfile.TemporaryDirectory() as folder:
        folder = Path(folder)
        for path in (CRATE / "data").iterdir():
            shutil.copy(path, folder)
        assert printed(folder) == wanted, "the files as they are do not print stdout"
        for path in sorted(folder.iterdir()):
            data = path.read_bytes()

            def noticed(changed, what):
                nonlocal missed
                if changed is None:
                    path.unlink()
                else:
                    path.write_bytes(changed)
                out = printed(folder)
                path.write_bytes(data)
                if out == wanted:
                    missed += 1
                    print(f"NOT NOTICED: {path.name}: {what}")
                return out != wanted and f"{path.name}: runs".encode() not in out

            for part, places in parts(data).items():
                tried = sorted(draw.sample(places, min(DRAWN, len(places))))
                told = 0
                for place in tried:
                    changed = bytearray(data)
                    changed[place] ^= 1 << draw.randrange(8) if draw.random() < 0.5 else draw.randrange(1, 256)
                    told += noticed(bytes(changed), f"byte {place}, of {part}")
                print(f"{path.name}: {len(tried)} changed bytes of {part}: {told} stop the comparison, {len(tried) - told} change the check number alone")
            ends = {"its last byte is gone": data[:-1], "a byte more": data + b"\0", "cut in the middle": data[: len(data) // 2], "empty": b"", "missing": None}
            for what, changed in ends.items():
                noticed(changed, what)
            print(f"{path.name}: {', '.join(ends)}: tried")
    print("all noticed" if missed == 0 else f"{missed} NOT NOTICED")
    sys.exit(missed != 0)


main()
