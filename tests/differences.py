#!/usr/bin/env python3
"""What is stored of the differences, without running a side: python3 tests/differences.py [NAME ...]

The lines of tests/differences/NAME.layer and NAME.rust differ where NAME.script says `#! differs` and nowhere else. With no NAME,
also: every script has its row in docs/DIFFERENCES.md and every row its script, or says why it has none; what a row says that is
printed is stored; no file in tests/differences is left over.
"""
import pathlib
import re
import sys

TOP = pathlib.Path(__file__).resolve().parent.parent
FOLDER = TOP / "tests/differences"
DOCUMENT = TOP / "docs/DIFFERENCES.md"
STATE_WORDS = ("slots", "queue", "holds", "outside", "handles", "status")
PRINTED = {"printed here": "layer", "printed by the Rust": "rust"}
wrong = []


class Script:
    """A script's events, which of its lines have to differ, and what is stored."""

    def __init__(self, name):
        self.name, self.edit = name, None
        self.events, self.marked = [], set()
        for line in (FOLDER / f"{name}.script").read_text(encoding="utf-8").splitlines():
            if line == "#! differs":
                self.marked.add(len(self.events))
            elif line.startswith("# edit: "):
                self.edit = line.removeprefix("# edit: ")
            elif line and not line.startswith(("#", "scheme ")):
                self.events.append(line)
        self.events.append("the state")
        self.stored = {}
        for side in ("layer", "rust"):
            file = FOLDER / f"{name}.{side}"
            self.stored[side] = file.read_text(encoding="utf-8").splitlines() if file.exists() else []

    def line(self, side, place):
        lines = self.stored[side]
        return lines[place] if place < len(lines) else ""

    def check_lines(self):
        if not self.marked:
            wrong.append(f"{self.name}: no line is to differ")
        most = max(len(lines) for lines in self.stored.values())
        if most != len(self.events):
            wrong.append(f"{self.name}: {most} lines for {len(self.events) - 1} events and the state")
        for place, event in enumerate(self.events):
            differ = self.line("layer", place) != self.line("rust", place)
            if differ != (place in self.marked):
                wrong.append(f"{self.name}: {event}: the lines {'differ' if differ else 'are equal'}")

    def prints(self, side, text):
        """Is that one of the lines that differ, or a part of the state?"""
        text = text.removesuffix(" ..")
        if text.startswith(STATE_WORDS):
            return f" {text} " in f"{self.line(side, len(self.events) - 1)} "
        return text in (self.line(side, place) for place in self.marked)


def rows():
    """The rows of the document's tables, each by its columns' names."""
    columns = None
    for line in DOCUMENT.read_text(encoding="utf-8").splitlines():
        if not line.startswith("|"):
            columns = None
            continue
        cells = [cell.strip() for cell in line.strip("|").split("|")]
        if columns is None:
            columns = cells
        elif set(line) - set("|-"):
            if len(cells) == len(columns):
                yield dict(zip(columns, cells))
            else:
                wrong.append(f"the row `{cells[0]}` has {len(cells)} cells for {len(columns)} columns")


def check_row(row, scripts):
    """The name of the row's script, if it has one."""
    what = row["what"]
    if "script" not in row:
        if len(row.get("why no script", "").split()) < 3:
            wrong.append(f"the row `{what}` has no script and does not say why")
        return None
    name = row["script"].strip("`")
    if row["script"] != f"`{name}`" or name not in scripts:
        wrong.append(f"the row `{what}` names the script {row['script'] or 'nothing'}, which is not there")
        return None
    script = scripts[name]
    if (script.edit is not None) != ("edit" in row):
        wrong.append(f"the row `{what}`: {name}.script is for the other table, by its edit")
    for column, side in PRINTED.items():
        texts = re.findall(r"`([^`]+)`", row[column])
        if not texts:
            wrong.append(f"the row `{what}` does not say what is {column}")
        for text in texts:
            if not script.prints(side, text):
                wrong.append(f"the row `{what}`: `{text}` is not in {name}.{side}")
    return name


def check_document(scripts):
    named = [check_row(row, scripts) for row in rows()]
    for name in scripts:
        if named.count(name) != 1:
            wrong.append(f"{name}.script is in {named.count(name)} rows of docs/DIFFERENCES.md")
    needed = {f"{name}.{end}" for name in scripts for end in ("script", "layer", "rust")}
    needed |= {f"{script.edit}.edit" for script in scripts.values() if script.edit is not None}
    found = {file.name for file in FOLDER.iterdir()}
    wrong.extend(f"tests/differences/{name} is missing" for name in sorted(needed - found))
    wrong.extend(f"tests/differences/{name} belongs to no script" for name in sorted(found - needed))
    return len(named)


def main():
    names = sys.argv[1:] or sorted(file.stem for file in FOLDER.glob("*.script"))
    scripts = {name: Script(name) for name in names}
    for script in scripts.values():
        script.check_lines()
    count = check_document(scripts) if len(sys.argv) == 1 else 0
    for what in wrong:
        print(what)
    if not wrong and count:
        print(f"{count} differences in docs/DIFFERENCES.md, {len(scripts)} of them with a script")
    sys.exit(bool(wrong))


main()
