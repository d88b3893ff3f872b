"""Wrong programs beside the Rust: each must-fail edit of a crate's code that the layer's runs go through is compiled without its
proof and run on the recorded answers (crates/recorded). Says for each whether they notice it. No part of the gate, where the
prover refuses each of them.

    python3 tests/slips.py [CRATE ...]
"""
import glob
import os
import re
import shutil
import subprocess
import sys
import tempfile

TOP = os.path.dirname(os.path.dirname(os.path.abspath(__file__)))
# Crates that `recorded` does not run: an edit of theirs would change nothing there.
NOT_RUN = {"encode", "listing_line", "marked", "response", "reading_step", "state_step"}


def edits(crates):
    for path in sorted(glob.glob(os.path.join(TOP, "crates/*/must-fail/*.edit"))):
        crate = path.split(os.sep)[-3]
        text = open(path, encoding="utf-8").read()
        if "file: src/lib.rt" not in text or (crates and crate not in crates) or crate in NOT_RUN:
            continue
        pairs = re.findall(r"(?m)^old: (.*)\nnew: (.*)$", text)
        yield crate, os.path.basename(path)[:-5], pairs


def main():
    noticed = missed = broken = 0
    with tempfile.TemporaryDirectory() as copy:
        shutil.copytree(os.path.join(TOP, "crates"), os.path.join(copy, "crates"), ignore=shutil.ignore_patterns("out"))
        shutil.copy(os.path.join(TOP, "crates.txt"), copy)
        recorded = os.path.join(copy, "crates/recorded")
        data = [word for name in sorted(os.listdir(os.path.join(recorded, "data"))) for word in ("--data", f"{name}=data/{name}")]
        wanted = open(os.path.join(recorded, "stdout"), encoding="utf-8").read()
        for crate, name, pairs in edits(set(sys.argv[1:])):
            path = os.path.join(copy, "crates", crate, "src/lib.rt")
            good = text = open(path, encoding="utf-8").read()
            for old, new in pairs:
                text = text.replace(old, new, 1)
            with open(path, "w", encoding="utf-8") as f:
                f.write(text)
            ran = subprocess.run(["rt", "try", *data], cwd=recorded, stdin=subprocess.DEVNULL, capture_output=True, text=True, errors="replace")
            said = ran.stderr.strip().split("\n")
            with open(path, "w", encoding="utf-8") as f:
                f.write(good)
            # its last line says whether it ran
            if not said[-1].startswith("run=") or said[-1].startswith("run=none"):
                broken += 1
                word = "not compiled: " + said[0][:100]
            elif ran.returncode != 0 or ran.stdout != wanted:
                noticed += 1
                word = "noticed"
            else:
                missed += 1
                word = "not noticed"
            print(f"{crate}/{name}: {word}", flush=True)
    print(f"{noticed} noticed, {missed} not noticed, {broken} not compiled")


main()
