#!/usr/bin/env python3
"""What is read from the code of the static library: each exported function's stack need, and that no step copies or clears 1,024
bytes or more at once, by a call of memcpy, memmove or memset or by one instruction, with a constant size, as a copy of the state or of
a part of it is. The stack need is that of the frames on the deepest way of calls, with return addresses; for C's own functions 64
bytes are reckoned. And that it needs nothing from outside but the two functions that include/tilgurap.h names. Fails where a function
needs more than the host's documentation (rust/tilgurap/src/lib.rs) says, where the library needs another name, and where it cannot tell.

    tests/shipped.py [LIBRARY]
"""
import functools
import re
import shutil
import subprocess
import sys

# what the documentation says: the run; the plain state and the words of one; every other function
RUN, STATE, STEP = 48 * 1024, 16 * 1024, 1024
LIMITS = {"tilgurap_run": RUN, "tilgurap_fresh": STATE, "tilgurap_plain": STATE, "tilgurap_packed": STATE}
FOREIGN = 64
# what the header says that a host brings
OUTSIDE = {"memcpy", "memset"}
LARGE = 1024


# the registers' names, and those that a call leaves with other values
WHOLE = {f"{prefix}{letter}{end}": f"r{letter}x" for letter in "abcd" for prefix, end in [("r", "x"), ("e", "x"), ("", "x"), ("", "l"), ("", "h")]}
WHOLE |= {f"{prefix}{name}{end}": f"r{name}" for name in ["si", "di", "bp"] for prefix, end in [("r", ""), ("e", ""), ("", ""), ("", "l")]}
WHOLE |= {f"r{n}{end}": f"r{n}" for n in range(8, 16) for end in ["", "d", "w", "b"]}
LOST = ["rax", "rcx", "rdx", "rsi", "rdi", "r8", "r9", "r10", "r11"]
WIDTHS = {"b": 1, "w": 2, "l": 4, "q": 8}


def instructions(lines):
    """Of each instruction: its place, what it is, its operands and what it calls or jumps to by name."""
    found = []
    for line in lines:
        named = re.search(r"R_X86_64_(?:PLT32|PC32)\t(?:\.text\.)?(.*?)-0x4", line)
        words = re.match(r" *([0-9a-f]+):\t((?:(?:repz?|lock) )?\w+) *([^#<]*)", line)
        if words:
            found.append((int(words[1], 16), words[2], words[3].strip(), None))
        elif named and not named[1].startswith(".L"):
            found[-1] = (*found[-1][:3], named[1])
    return found


def depth_of(name, code):
    """The bytes that a function puts on the stack at most."""
    at = {place: n for n, (place, *_) in enumerate(code)}
    most, of_table, seen, ways = 0, 0, set(), [(0, 0, 0)]
    while len(seen) < len(code):
        # what no jump names is reached through a table of places
        n, depth, pages = ways.pop() if ways else (min(set(range(len(code))) - seen), of_table, 0)
        while n < len(code) and n not in seen:
            seen.add(n)
            place, verb, rest, named = code[n]
            n += 1
            number = re.fullmatch(r"\$0x([0-9a-f]+),%rsp", rest)
            # a large frame is taken page by page, in a loop up to %r11
            loop = re.fullmatch(r"\$0x([0-9a-f]+),%r11", rest) if verb == "sub" else re.fullmatch(r"-0x([0-9a-f]+)\(%rsp\),%r11", rest)
            # a function that calls nothing may store below the top
            beneath = re.search(r"-0x([0-9a-f]+)\(%rsp\)", rest)
            if loop and verb in ("sub", "lea"):
                pages = int(loop[1], 16)
            elif verb == "push":
                depth += 8
            elif verb == "pop":
                depth -= 8
            elif verb == "sub" and number:
                depth, pages = depth + (pages or int(number[1], 16)), 0
            elif verb == "add" and number:
                depth -= int(number[1], 16)
            elif rest.endswith(",%rsp") and verb not in ("cmp", "test"):
                sys.exit(f"shipped: {name} sets its stack in a way that is not known here: {verb} {rest}")
            elif beneath:
                most = max(most, depth + (int(beneath[1], 16) + 7) // 8 * 8)
            most = max(most, depth)
            if verb.startswith("j") and rest.startswith("*"):
                of_table = max(of_table, depth)
            elif verb.startswith("j") and not named:
                ways.append((at[int(rest, 16)], depth, pages))
            if verb.startswith("call") and not named:
                sys.exit(f"shipped: {name} calls what is not named: {verb} {rest}")
            if verb in ("ret", "jmp", "ud2"):
                break
    return most


def copies_of(code):
    """The constant sizes of a function's large copies."""
    known, found, last = {}, [], 0
    for _, verb, rest, named in code:
        size = None
        if named and re.match(r"mem(cpy|set|move)$", named):
            # where it is not known, the last constant that was put there on any way
            size = known.get("rdx") or last
        repeated = re.fullmatch(r"rep (?:movs|stos)([bwlq]?)", verb)
        if repeated and known.get("rcx"):
            size = known["rcx"] * WIDTHS[repeated[1] or ("q" if "%rax" in rest else "l" if "%eax" in rest else "b")]
        if size and size >= LARGE:
            found.append(size)
        for register in LOST if verb.startswith("call") else []:
            known.pop(register, None)
        # what is known to stand in the register that it sets
        target = re.search(r"%(\w+)$", rest)
        if target and target[1] in WHOLE and verb not in ("cmp", "test", "push"):
            number, other = re.match(r"\$0x([0-9a-f]+),", rest), re.fullmatch(r"%(\w+),%\w+", rest)
            known[WHOLE[target[1]]] = None
            if verb.startswith("mov"):
                known[WHOLE[target[1]]] = int(number[1], 16) if number else known.get(WHOLE.get(other[1])) if other else None
                last = int(number[1], 16) if number and WHOLE[target[1]] == "rdx" else last
    return found


def functions(library):
    """Of each function: the bytes that it puts on the stack at most, those that it calls, and its large copies."""
    listing = subprocess.run(["objdump", "-dr", "--no-show-raw-insn", library], capture_output=True, text=True, check=True).stdout
    found = {}
    for text in re.split(r"\n(?=[0-9a-f]+ <.*>:\n)", listing):
        head = re.match(r"[0-9a-f]+ <(.*)>:\n", text)
        if head:
            code = instructions(text.split("\n")[1:])
            calls = [named for _, verb, _, named in code if named and re.match(r"call|j", verb)]
            found[head[1]] = (depth_of(head[1], code), calls, copies_of(code))
    return found


def wanted(library):
    """The names that the library needs from outside."""
    listing = subprocess.run(["nm", "-g", library], capture_output=True, text=True, check=True).stdout
    names = [line.split()[-2:] for line in listing.split("\n") if len(line.split()) >= 2]
    own = {name for kind, name in names if kind not in "Uwv"}
    if not any(name.startswith("tilgurap_") for name in own):
        sys.exit(f"shipped: nm finds no exported function in {library}")
    return {name for kind, name in names if kind in "Uwv"} - own


def main():
    library = sys.argv[1] if len(sys.argv) > 1 else "target/staticlib/libtilgurap.a"
    if not shutil.which("objdump"):
        print("skipped: stack need and copies, since there is no objdump")
        return
    found = functions(library)

    @functools.lru_cache(None)
    def need(name):
        if name not in found:
            return FOREIGN
        own, calls, _ = found[name]
        return 8 + own + max((need(callee) for callee in calls), default=0)

    @functools.lru_cache(None)
    def copies(name):
        _, calls, own = found.get(name, (0, [], []))
        return own + [size for callee in calls for size in copies(callee)]

    exported = sorted((name for name in found if name.startswith("tilgurap_")), key=lambda name: (-need(name), name))
    if not exported:
        sys.exit(f"shipped: {library} has no exported function")
    wrong = False
    for name in exported:
        limit = LIMITS.get(name, STEP)
        large = [] if name in LIMITS else copies(name)
        said = f"{name}: {need(name)} bytes of stack"
        if need(name) > limit:
            said += f", more than {limit}"
        if large:
            said += f", and copies of {large} bytes"
        wrong |= need(name) > limit or bool(large)
        print(said)
    if not shutil.which("nm"):
        print("skipped: names from outside, since there is no nm")
    more = sorted(wanted(library) - OUTSIDE) if shutil.which("nm") else []
    if more:
        print(f"{library} needs from outside: {' '.join(more)}")
    sys.exit(wrong or bool(more))


main()
