#!/usr/bin/env python3
"""Respells this repository's own definitions and lemmas: words in snake case, without dashes. Types, facts and modules keep their capitals.

usage: python3 tools/respell.py [--list]     at the top; once, right after the port's own script (docs/PORT.md)

Names are those declared in specs/*.antt and proofs/*.antt of any crate, with their constructors and fields. Text of .antt files, clauses
and `ghost use` lines of .rt files follow; code, strings and exported names stay. A lemma that would have a definition's name gets `_lem`.
"""
import collections
import glob
import re
import sys

WORD = re.compile(r"[A-Za-zΑ-ωℕ_0-9₀-₉'′][A-Za-zΑ-ωℕ_0-9₀-₉'′-]*")
DECLARED = re.compile(r"^\s*(?:\| )?((?:(?:abbrev|pub|unfoldable|data|record|ruleset|mutual) )*)([^\s(){}\[\],;.λ→×:=\"|]+(?: [^\s(){}\[\],;.λ→×:=\"|]+)*) :(?:\s|$)")
SPECIAL = {"getD": "get_or"}


def snake(name):
    parts = []
    for part in name.split("-"):
        for old, new in SPECIAL.items():
            part = part.replace(old, "_" + new + "_").strip("_") if old in part else part
        part = re.sub(r"(?<=[a-z0-9])(?=[A-Z])", "_", part)
        part = re.sub(r"(?<=[a-z])(?=[0-9]+[A-Z_])", "_", part)
        parts.append(part.lower().replace("′", "'"))
    return re.sub(r"__+", "_", "_".join(parts))


def antt_files():
    return sorted(glob.glob("crates/*/specs/*.antt") + glob.glob("crates/*/proofs/*.antt"))


def declared():
    found = collections.defaultdict(set)
    for path in antt_files():
        for line in open(path, encoding="utf-8"):
            line = re.sub(r"\s--\s.*$", "", line)
            m = DECLARED.match(line)
            if m:
                for name in m.group(2).split():
                    found[name].add(path)
    return found


def wanted(found):
    turn = {}
    for name in sorted(found):
        if name[0].isupper() or not re.search(r"-|[a-z0-9][A-Z]|′", name) or not WORD.fullmatch(name):
            continue
        turn[name] = snake(name)
    return turn


def main():
    found = declared()
    turn = wanted(found)
    others = set(found) | {new for old, new in turn.items() if "-" not in old}
    for old, new in turn.items():
        if "-" in old and (new in others or any(o != old and "-" in o and n == new for o, n in turn.items())):
            turn[old] = new + "_lem"
    everything = antt_files() + sorted(glob.glob("crates/*/proofs/*/*.antt") + glob.glob("crates/*/src/*.rt"))
    paths = re.compile(r"Rattle(?:\.[\w+'-]+)+")
    for path in everything:
        text = open(path, encoding="utf-8").read()
        bare = set(WORD.findall(paths.sub("", text)))
        here = dict(turn)
        for old, new in turn.items():
            if old in bare and new in bare:
                # A lemma of this file has the word that a definition gets.
                if path in found.get(new, ()):
                    here[new] = new + "_lem"
                else:
                    print("look:", old, "->", new, path)
        if "--list" in sys.argv:
            continue

        def put(m):
            return here.get(m.group(0), m.group(0))

        if path.endswith(".rt"):
            lines = []
            for line in text.split("\n"):
                ghost = re.match(r"\s*(ghost |requires|ensures|//)", line) or re.search(r"[≡→λ]", line)
                lines.append(WORD.sub(put, line) if ghost else WORD.sub(lambda m: put(m) if re.search(r"[a-z][A-Z]", m.group(0)) else m.group(0), line))
            new = "\n".join(lines)
        else:
            new = WORD.sub(put, text)
        if new != text:
            open(path, "w", encoding="utf-8").write(new)
    print(len(turn), "names respelled")


main()
