#!/usr/bin/env python3
"""Draws docs/layers.svg, from the sections of crates.txt, and docs/call.svg, one call's life.

    docs/pictures.py            draws both
    docs/pictures.py --check    fails where one is not what it would draw, or no code on a call's way names the next crate
"""
import pathlib
import re
import sys
import textwrap
from xml.sax.saxutils import escape

DOCS = pathlib.Path(__file__).resolve().parent
SANS, MONO = "DejaVu Sans, Helvetica, Arial, sans-serif", "DejaVu Sans Mono, Menlo, Consolas, monospace"
# One call's way through the layers: who, the export that it calls, and the crates on the way.
WAYS = [
    ("the scheduler calls", "tilgurap_call", ["answer_words", "call", "ask", "hold_words", "step", "slot_store", "take_holds", "slot"]),
    ("the driver reads", "tilgurap_read", ["read", "queue_words", "wait_queue_receive"]),
    ("the driver replies", "tilgurap_write", ["write", "carry_out", "slot_store", "wish", "plan", "parse_cqe"]),
    ("the caller is woken", "tilgurap_wake",
     ["answer_words", "call_inner", "slot_load", "slot_store", "hold_words", "wake_decision", "slot", "counts"]),
]


class Picture:
    def __init__(self, width, height):
        self.lines = [f'<svg xmlns="http://www.w3.org/2000/svg" viewBox="0 0 {width} {height}" width="{width}" height="{height}">',
                      f'<rect width="{width}" height="{height}" fill="#fff"/>']

    def text(self, x, y, words, size=12, bold=False, fill="#222", anchor="start", family=SANS):
        weight = ' font-weight="bold"' if bold else ""
        self.lines.append(f'<text x="{x}" y="{y}" font-family="{family}" font-size="{size}"{weight} fill="{fill}" '
                          f'text-anchor="{anchor}">{escape(words)}</text>')

    def block(self, x, y, words, wide, size=12, fill="#222", anchor="start"):
        """Words over several lines."""
        for n, line in enumerate(textwrap.wrap(words, wide)):
            self.text(x, y + n * (size + 4), line, size, fill=fill, anchor=anchor)

    def box(self, x, y, width, height, fill, edge="#9ab", round_by=6, dash=""):
        dashed = f' stroke-dasharray="{dash}"' if dash else ""
        self.lines.append(f'<rect x="{x}" y="{y}" width="{width}" height="{height}" rx="{round_by}" fill="{fill}" stroke="{edge}"{dashed}/>')

    def line(self, x1, y1, x2, y2, edge="#b5532a", width=2, dash=""):
        dashed = f' stroke-dasharray="{dash}"' if dash else ""
        self.lines.append(f'<line x1="{x1}" y1="{y1}" x2="{x2}" y2="{y2}" stroke="{edge}" stroke-width="{width}"{dashed}/>')

    def arrow(self, x1, x2, y, edge="#333", dash=""):
        tip = 7 if x2 > x1 else -7
        self.line(x1, y, x2 - tip, y, edge, 1.6, dash)
        self.lines.append(f'<path d="M{x2} {y} l{-tip} -4 v8 z" fill="{edge}"/>')

    def dot(self, x, y, fill="#b5532a"):
        self.lines.append(f'<circle cx="{x}" cy="{y}" r="5" fill="{fill}"/>')

    def done(self):
        return "\n".join(self.lines + ["</svg>", ""])


def sections():
    """The layers of crates.txt, highest first: what each is, and its crates."""
    found = []
    for part in (DOCS.parent / "crates.txt").read_text(encoding="utf-8").split("\n\n")[1:]:
        lines = part.strip().split("\n")
        what = " ".join(line[2:] for line in lines if line.startswith("# "))
        found.append((what, [line.split(":")[0].split()[0] for line in lines if not line.startswith("#")]))
    return found[::-1]


def named(crate):
    """The crates that a crate's code names."""
    code = (DOCS.parent / f"crates/{crate}/src/lib.rt").read_text(encoding="utf-8")
    return set(re.findall(r"\b(\w+)::", "\n".join(line for line in code.split("\n") if not line.startswith(("ghost", "//")))))


def lost():
    """The crates on a call's way that none before them on it names."""
    for who, _, way in WAYS:
        reached = {"tilgurap"} | named("tilgurap")
        for crate in way:
            if crate not in reached:
                yield f"docs/pictures.py: no code on the way of `{who}` names {crate}"
            reached |= named(crate)


def layers():
    left, wide, column, row, top = 20, 565, 165, 82, 92
    found = sections()
    at = {crate: n for n, (_, crates) in enumerate(found) for crate in crates}
    width, height = left + wide + column * len(WAYS) + 20, top + row * len(found) + 10
    picture = Picture(width, height)
    picture.text(left, 32, "The layers, and one call's way through them", 17, True)
    for n, (what, crates) in enumerate(found):
        y = top + row * n
        picture.box(left, y, width - left - 20, row - 10, "#fdf3d8" if crates == ["events"] else "#eef3f8")
        picture.text(left + 10, y + 18, textwrap.shorten(what, 78, placeholder=" ..."), 12.5, True)
        for k, part in enumerate(textwrap.wrap(" · ".join(crates), 74)):
            picture.text(left + 10, y + 34 + 13 * k, part, 11.5, fill="#345", family=MONO)
    for n, (who, export, way) in enumerate(WAYS):
        x = left + wide + column * n + 20
        stops = {}
        for crate in ["tilgurap", *way]:
            stops.setdefault(at[crate], []).append(export if crate == "tilgurap" else crate)
        picture.text(x - 8, 60, f"{n + 1}. {who}", 12.5, True)
        picture.line(x, top + row * min(stops) + 34, x, top + row * max(stops) + 34)
        for layer, crates in stops.items():
            y = top + row * layer + 34
            picture.dot(x, y)
            for k, crate in enumerate(crates):
                picture.text(x + 10, y - 8 + 14 * k, crate, 11, fill="#822", family=MONO)
    return picture.done()


FREE, WAITS, KEPT, REPLIED, OTHER = "#f4f4f4", "#f6c667", "#e9dcc0", "#8fc49a", "#a8c4e6"


def panel(picture, x, title, words, steps, bars):
    """Three lanes side by side, time downwards: steps (y, from lane, to lane, words), bars (lane offset, y, height, fill, words)."""
    caller, slots, driver = x + 40, x + 190, x + 330
    picture.text(x, 100, title, 15, True)
    picture.block(x, 120, words, 58, 11.5, "#555")
    for at, name in ((caller, "caller"), (slots + 34, "slots"), (driver, "driver")):
        picture.text(at, 186, name, 12.5, True, anchor="middle")
        if name != "slots":
            picture.line(at, 194, at, 640, "#bbb", 1.2, "4 4")
    for place in (0, 1):
        picture.box(slots - 22 + 70 * place, 196, 44, 444, FREE, "#ccc", 4)
        picture.text(slots + 70 * place, 655, f"slot {place}", 11, fill="#555", anchor="middle")
    for place, y, height, fill, said in bars:
        picture.box(slots - 22 + 70 * place, y, 44, height, fill, "#998", 4)
        for k, line in enumerate(said.split("/")):
            picture.text(slots + 70 * place, y + 16 + 13 * k, line, 10.5, anchor="middle")
    edge = {"caller": caller, "slot 0": slots, "slot 1": slots + 70, "driver": driver}
    for y, source, target, said in steps:
        begin = edge[source] + (0 if not source.startswith("slot") else 22 if target == "driver" else -22)
        end = edge[target] + (0 if not target.startswith("slot") else 22 if source == "driver" else -22)
        if source != target:
            picture.arrow(begin, end, y)
        else:
            picture.dot(edge[source], y, "#b5532a")
        if source == "driver" or target == "driver":
            picture.block(driver + 8, y + 4, said, 17, 11)
        else:
            # above its arrow, or beside its dot
            above = 0 if source == target else 8 + 15 * (len(textwrap.wrap(said, 17)) - 1)
            picture.block(caller + 10, y + 4 - above if source == target else y - above, said, 17, 11)


def call():
    picture = Picture(1370, 690)
    picture.text(24, 38, "One call's life", 20, True)
    picture.text(24, 62, "A call holds a slot from its request to its reply. Time runs downwards.", 13, fill="#444")
    panel(picture, 24, "A call", "The caller asks, the driver works and replies, the caller fetches the reply.", [
        (240, "caller", "slot 0", "asks: dose 20 litres"),
        (270, "slot 0", "driver", "reads the request"),
        (430, "driver", "slot 0", "replies: done"),
        (500, "slot 0", "caller", "is woken"),
        (560, "caller", "slot 0", "fetches the reply"),
    ], [(0, 232, 198, WAITS, "waits"), (0, 430, 130, REPLIED, "has its/reply")])
    panel(picture, 464, "A killed call", "Its caller is gone, its driver is not: the slot is kept until the driver has replied, "
          "so the late reply finds its own call and no other.", [
        (240, "caller", "slot 0", "asks: dose 20 litres"),
        (270, "slot 0", "driver", "reads the request"),
        (330, "caller", "caller", "is killed, and its call returns"),
        (400, "caller", "slot 1", "another asks: open the valve"),
        (470, "driver", "slot 0", "the late reply: it is for the dose"),
        (540, "driver", "slot 1", "opens the valve and replies"),
        (610, "caller", "slot 1", "fetches its own reply"),
    ], [(0, 232, 98, WAITS, "waits"), (0, 330, 140, KEPT, "kept"), (1, 392, 148, OTHER, "waits"), (1, 540, 70, REPLIED, "has its/reply")])
    panel(picture, 904, "The layer before (as the customer tells it)", "It gave the slot out as soon as the caller was killed. The late reply "
          "closed the call that held the slot by then.", [
        (240, "caller", "slot 0", "asks: dose 20 litres"),
        (270, "slot 0", "driver", "reads the request"),
        (330, "caller", "caller", "is killed, and the slot is free"),
        (400, "caller", "slot 0", "another asks: open the valve"),
        (470, "driver", "slot 0", "the late reply to the dose"),
        (540, "slot 0", "caller", "is told: the valve is open. It is not."),
    ], [(0, 232, 98, WAITS, "waits"), (0, 392, 78, OTHER, "waits"), (0, 470, 70, "#e08a8a", "wrong/reply")])
    return picture.done()


def main():
    pictures = {"layers.svg": layers(), "call.svg": call()}
    wrong = len([print(line) for line in lost()])
    for name, drawn in pictures.items():
        file = DOCS / name
        if sys.argv[1:] != ["--check"]:
            file.write_text(drawn, encoding="utf-8")
        elif not file.exists() or file.read_text(encoding="utf-8") != drawn:
            wrong += 1
            print(f"docs/{name} is not what docs/pictures.py draws")
    sys.exit(wrong != 0)


main()
