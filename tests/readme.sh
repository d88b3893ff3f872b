#!/usr/bin/env bash
# Runs the commands that README.md shows and compares their output with what stands there: each block, fenced or indented, whose
# first line is `$ ./tilgurap ...`; a further such line in a block is a further command. A line `...` stands for any lines. What
# needs REDOX_SRC is skipped where it is not set. It needs the library, so it is no part of the gate.
#
#     bash tests/readme.sh [FILE]
set -euo pipefail
cd "$(dirname "$0")/.."
exec python3 - "${1:-README.md}" << 'END'
import os
import re
import subprocess
import sys

PROMPT = "$ ./tilgurap"
NEEDS_ORIGINALS = ("oracle", "compare", "bench", "instructions")


def blocks(text):
    """The code blocks: fenced ones, and lines indented by four spaces with the empty lines among them."""
    fence, block = None, []
    for line in text.split("\n") + [""]:
        opening = re.match(r"(```+|~~~+)", line)
        if fence is not None:
            if line.strip() == fence:
                yield block
                fence, block = None, []
            else:
                block.append(line)
        elif opening:
            yield block
            fence, block = opening[1], []
        elif line.startswith("    "):
            block.append(line[4:])
        elif block and not line.strip():
            block.append("")
        else:
            yield block
            block = []
    yield block


def commands(block):
    """Each command of a block with the lines that it prints."""
    if not block or not block[0].startswith(PROMPT):
        return
    command, printed = block[0], []
    for line in block[1:] + [PROMPT]:
        if line.startswith(PROMPT):
            yield command[2:], "\n".join(printed).strip("\n")
            command, printed = line, []
        else:
            printed.append(line)


def is_shown(shown, printed):
    """Does it print what is shown, where `...` on a line stands for any lines?"""
    lines = ["(?:.*\n)*" if line == "..." else re.escape(line) + "\n" for line in shown.split("\n")]
    return re.fullmatch("".join(lines), printed + "\n") is not None


def main():
    with open(sys.argv[1], encoding="utf-8") as file:
        text = file.read()
    ran = skipped = wrong = 0
    for block in blocks(text):
        for command, shown in commands(block):
            words = command.split()
            if len(words) > 1 and words[1] in NEEDS_ORIGINALS and not os.environ.get("REDOX_SRC"):
                print(f"skipped, since REDOX_SRC is not set: {command}")
                skipped += 1
                continue
            done = subprocess.run(["sh", "-c", command], stdout=subprocess.PIPE, text=True, stdin=subprocess.DEVNULL)
            printed = re.sub(r"[ \t]+$", "", done.stdout, flags=re.M).strip("\n")
            ran += 1
            if not is_shown(re.sub(r"[ \t]+$", "", shown, flags=re.M), printed):
                wrong += 1
                print(f"{command}\nprints (status {done.returncode}):\n{printed}\nshown in {sys.argv[1]}:\n{shown}\n")
    print(f"{sys.argv[1]}: {ran} commands run, {wrong} print something else, {skipped} skipped")
    sys.exit(1 if wrong else 0)


main()
END
