#!/usr/bin/env python3
"""Draws docs/pictures/layers.svg: the crates in their layers, each in a row above the crates of its layer that it depends on.

    docs/layers.py [--write]

The layers and what each crate does are read from docs/MAP.md (a heading `### Layer`, a sentence, and tables whose rows begin with
the crates), what a crate depends on from crates.txt. It is a fault if a crate is in no layer or in two, or depends on one of a layer
that isn't below its own. Prints the picture, or writes it with `--write`.
"""

import os
import re
import sys
from html import escape

TOP = os.path.dirname(os.path.dirname(os.path.abspath(__file__)))
sys.path.insert(0, TOP)

from build import dependencies  # noqa: E402 (build.py is in TOP)

WIDTH, MARGIN, GAP, ARROW = 760, 12, 12, 34
ROW, CHIP, HEAD, END = 30, 22, 46, 8
OF_LETTER, IN_SENTENCE, BESIDE_NAME, BETWEEN = 7, 6.2, 16, 8

STYLE = """text{font:12px sans-serif;fill:#24292f}
.name{font-weight:bold;font-size:14px}
.dim{fill:#57606a}
.mid{text-anchor:middle}
.ground{fill:#ffffff}
.layer{fill:#f6f8fa;stroke:#d0d7de}
.crate{fill:#ffffff;stroke:#8c959f}
.on{fill:none;stroke:#57606a;stroke-width:1.5;marker-end:url(#tip)}
#tip path{fill:#57606a}
@media (prefers-color-scheme:dark){
text{fill:#e6edf3}
.dim{fill:#9198a1}
.ground{fill:#0d1117}
.layer{fill:#161b22;stroke:#30363d}
.crate{fill:#0d1117;stroke:#8b949e}
.on{stroke:#9198a1}
#tip path{fill:#9198a1}
}"""


class Fault(Exception):
    pass


def read_layers(page):
    """The layers of docs/MAP.md, the lowest first: of each the name, the sentence below it, and its crates with what they do."""
    layers = []
    for part in re.split(r"^### ", page.partition("\n## Layers\n")[2].partition("\n## ")[0], flags=re.MULTILINE)[1:]:
        name, _, text = part.partition("\n")
        crates = {}
        for names, does in re.findall(r"^((?:`?am_\w+`?(?:, )?)+) \| (.*)$", text, re.MULTILINE):
            for crate in re.findall(r"am_\w+", names):
                if any(crate in it[2] for it in [*layers, (name, "", crates)]):
                    raise Fault(f"docs/MAP.md has {crate} in two places")
                crates[crate] = does
        layers.append((name, text.strip().split("\n")[0].split(". ")[0].rstrip("."), crates))
    return layers


def below(layers, crates):
    """The layers that each layer depends on, by its name."""
    layer_of = {crate: name for name, _, its in layers for crate in its}
    lost = [f"docs/MAP.md has no layer for {it}" for it in crates if it not in layer_of]
    lost += [f"crates.txt has no {it}, which docs/MAP.md names" for it in layer_of if it not in crates]
    if lost:
        raise Fault("; ".join(lost))
    found = {name: set() for name, _, _ in layers}
    order = [name for name, _, _ in layers]
    for crate, its in crates.items():
        for it in its:
            upper, lower = layer_of[crate], layer_of[it]
            if order.index(lower) > order.index(upper):
                raise Fault(f"{crate} of {upper} depends on {it} of {lower}, which is a higher layer")
            if lower != upper:
                found[upper].add(lower)
    return found


def heights(names, under):
    """How many things are below each other below a thing, by its name."""
    found = {}

    def height(name):
        if name not in found:
            found[name] = max((height(it) + 1 for it in under[name] if it in under), default=0)
        return found[name]

    for name in names:
        height(name)
    return found


def rows_of(heights_of):
    """The names in rows, the highest row first."""
    rows = [[] for _ in range(max(heights_of.values()) + 1)]
    for name, height in heights_of.items():
        rows[-1 - height].append(name)
    return rows


def width_of(name):
    return OF_LETTER * len(name) + BESIDE_NAME


def width_of_row(row):
    return sum(width_of(it[3:]) + BETWEEN for it in row) - BETWEEN


class Box:
    """A layer in the picture."""

    def __init__(self, layer, crates):
        self.name, self.sentence, self.does = layer
        self.crates = crates
        self.rows = rows_of(heights(self.does, {it: [low for low in crates[it] if low in self.does] for it in self.does}))
        self.height = HEAD + ROW * len(self.rows) + END
        self.least = max(round(IN_SENTENCE * len(self.sentence)), *map(width_of_row, self.rows)) + 2 * MARGIN
        self.left = self.top = self.width = 0

    def drawn(self):
        yield f'<rect class="layer" x="{self.left}" y="{self.top}" width="{self.width}" height="{self.height}" rx="8"/>'
        yield f'<text class="name" x="{self.left + MARGIN}" y="{self.top + 20}">{escape(self.name)}</text>'
        yield f'<text class="dim" x="{self.left + MARGIN}" y="{self.top + 37}">{escape(self.sentence)}</text>'
        for at, row in enumerate(self.rows):
            yield from self.drawn_row(row, self.top + HEAD + ROW * at)

    def drawn_row(self, row, top):
        x = self.left + (self.width - width_of_row(row)) // 2
        for crate in row:
            short, width = crate[3:], width_of(crate[3:])
            on = ", ".join(self.crates[crate]) or "no other crate"
            yield f'<g><title>{crate}: {escape(plain(self.does[crate]))}. It depends on {on}.</title>'
            yield f'<rect class="crate" x="{x}" y="{top + 4}" width="{width}" height="{CHIP}" rx="4"/>'
            yield f'<text class="mid" x="{x + width / 2:g}" y="{top + 19}">{short}</text></g>'
            x += width + BETWEEN


def plain(text):
    """A text of a page without its marks."""
    return re.sub(r"\]\([^)]*\)", "", text).replace("[", "").replace("`", "")


def place(boxes, under):
    """Gives each layer its place: those that depend on one another above each other, others side by side. Returns the height."""
    top = MARGIN
    for row in rows_of(heights([it.name for it in boxes], under)):
        row = [it for it in boxes if it.name in row]
        left, spare = MARGIN, WIDTH - 2 * MARGIN - GAP * (len(row) - 1) - sum(it.least for it in row)
        if spare < 0:
            raise Fault(f"{', '.join(it.name for it in row)}: the sentences or the rows are too long for a picture of {WIDTH}")
        for box in row:
            box.left, box.top, box.width = left, top, box.least + spare // len(row)
            box.height = max(it.height for it in row)
            left += box.width + GAP
        top += row[0].height + ARROW
    return top - ARROW + MARGIN


def arrow(upper, lower):
    """The line from a layer to one that it depends on: straight down if one is above the other."""
    left, right = max(upper.left, lower.left), min(upper.left + upper.width, lower.left + lower.width)
    if left < right:
        x = y = (left + right) // 2
    else:
        x = min(max(upper.left + 30, lower.left), upper.left + upper.width - 30)
        y = min(max(lower.left + 30, upper.left), lower.left + lower.width - 30)
    return f'<path class="on" d="M{x} {upper.top + upper.height}L{y} {lower.top - 4}"/>'


def direct(name, under):
    """The layers that a layer depends on, without those on which another one of these depends."""

    def all_under(it):
        return under[it].union(*map(all_under, under[it]))

    return [it for it in under[name] if not any(it in all_under(other) for other in under[name])]


def picture():
    with open(f"{TOP}/docs/MAP.md", encoding="utf-8") as file:
        layers = read_layers(file.read())
    crates = dependencies()
    under = below(layers, crates)
    boxes = [Box(it, crates) for it in layers]
    height = place(boxes, under)
    by_name = {it.name: it for it in boxes}
    names = ", ".join(name for name, _, _ in reversed(layers))
    lines = [
        f'<svg xmlns="http://www.w3.org/2000/svg" width="{WIDTH}" height="{height}" viewBox="0 0 {WIDTH} {height}" role="img">',
        f"<title>The {len(crates)} crates of Maityrunga in layers</title>",
        f"<desc>From top to bottom: {names}. A layer depends only on those below it, a crate of a layer only on rows below its own.</desc>",
        f"<style>\n{STYLE}\n</style>",
        '<defs><marker id="tip" viewBox="0 0 8 8" refX="7" refY="4" markerWidth="6" markerHeight="6" orient="auto">'
        '<path d="M0 0L8 4L0 8z"/></marker></defs>',
        f'<rect class="ground" width="{WIDTH}" height="{height}"/>',
    ]
    for box in boxes:
        lines += [arrow(box, by_name[it]) for it in sorted(direct(box.name, under))]
    for box in boxes:
        lines += box.drawn()
    return "\n".join([*lines, "</svg>", ""])


def main():
    try:
        drawn = picture()
    except Fault as fault:
        sys.exit(f"docs/layers.py: {fault}")
    if sys.argv[1:] == ["--write"]:
        with open(f"{TOP}/docs/pictures/layers.svg", "w", encoding="utf-8") as file:
            file.write(drawn)
    else:
        sys.stdout.write(drawn)


if __name__ == "__main__":
    main()
