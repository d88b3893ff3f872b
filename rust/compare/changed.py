#!/usr/bin/env python3
"""Slips in the layer's own machine code, one at a time: does the comparison find them?

changed.py COUNT [SEED] changes one instruction of the layer in a copy of the built compare program
(x86-64): a conditional jump is inverted, or a small number that is compared or stored becomes one
more. Then it runs `compare 200 500`. A change is found where that says "they differ", crashes or does
not end. Needs `./tilgurap compare` to have been built, nm and objdump.
"""
import collections
import os
import random
import re
import subprocess
import sys
import tempfile

HERE = os.path.dirname(os.path.abspath(__file__))
PROGRAM = os.path.join(HERE, "target/release/compare")
FOLDER = os.environ.get("TILGURAP_LIB") or os.path.join(HERE, "../../target/staticlib")
LIBRARY = os.path.join(FOLDER, "libtilgurap.a")
RUNS = ["200", "500"]
SECONDS = 120


def output(*command):
    done = subprocess.run(command, capture_output=True, text=True, check=True)
    return done.stdout


def text_section():
    """Where the code lies in memory and in the file."""
    found = re.search(r"\.text\s+\w+\s+(\w+)\s+\w+\s+(\w+)", output("objdump", "-h", PROGRAM))
    return int(found[1], 16), int(found[2], 16)


def changed(code, name, rest):
    """The instruction's other bytes, if it is one to change."""
    if name.startswith("j") and name != "jmp":
        if len(code) == 2 and 0x70 <= code[0] <= 0x7F:
            return bytes([code[0] ^ 1, code[1]])
        if len(code) == 6 and code[0] == 0x0F:
            return bytes([0x0F, code[1] ^ 1]) + code[2:]
    number = re.match(r"\$0x([0-9a-f]{1,4}),", rest)
    if number and name.startswith(("cmp", "mov")) and "%rsp" not in rest:
        number = int(number[1], 16)
        # a copy's length is no number of the layer's
        if rest.endswith("%edx") and number > 100:
            return None
        for width in (8, 4, 1):
            if len(code) > width and int.from_bytes(code[-width:], "little") == number:
                return code[:-width] + (number + 1).to_bytes(width + 1, "little")[:width]
    return None


def candidates():
    symbols = output("nm", "--defined-only", LIBRARY)
    layer = set(re.findall(r"^\w+ [Tt] (\S+)$", symbols, re.M))
    memory, file = text_section()
    function, found = None, []
    for line in output("objdump", "-d", "--section=.text", PROGRAM).splitlines():
        start = re.match(r"\w+ <(.+)>:", line)
        if start:
            function = start[1] if start[1] in layer else None
        code = re.match(r"\s+(\w+):\t((?:\w\w )+)\s*(\S+)\s*(.*)", line)
        if function and code:
            old = bytes.fromhex(code[2])
            new = changed(old, code[3], code[4])
            if new:
                place = int(code[1], 16) - memory + file
                found.append((function, place, old, new, f"{code[3]} {code[4]}"))
    return found


def run(program):
    """What the comparison says; it need not make its script short."""
    command = ["timeout", str(SECONDS), program, *RUNS]
    pipe = subprocess.PIPE
    with subprocess.Popen(command, stdout=pipe, stderr=subprocess.STDOUT, text=True) as running:
        for line in running.stdout:
            if "they differ" in line:
                running.terminate()
                return "found"
    return {0: "not found", 124: "did not end"}.get(running.returncode, "crashed")


def main():
    count = int(sys.argv[1])
    random.seed(int(sys.argv[2]) if len(sys.argv) > 2 else 1)
    with open(PROGRAM, "rb") as file:
        program = file.read()
    places = candidates()
    print(len(places), "instructions to change")
    totals = collections.Counter()
    with tempfile.TemporaryDirectory() as folder:
        path = os.path.join(folder, "compare")
        for function, place, old, new, text in random.sample(places, count):
            assert program[place : place + len(old)] == old
            with open(path, "wb") as file:
                file.write(program[:place] + new + program[place + len(old) :])
            os.chmod(path, 0o755)
            result = run(path)
            totals[result] += 1
            print(f"{result}: {function}: {text}", flush=True)
    print(", ".join(f"{number} {result}" for result, number in sorted(totals.items())))


if __name__ == "__main__":
    main()
