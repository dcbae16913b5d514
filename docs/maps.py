#!/usr/bin/env python3
"""Makes the maps of the crates of crates.txt: docs/maps.py, in any folder.

    python3 docs/maps.py [--check]

In crates.txt a line `## NAME` begins a layer. The comment right above a crate says what the crate is, and begins with `laws:` or `model:`
where no program runs the crate. The maps are the tables of README.md and of docs/ARCHITECTURE.md, each between a line with the comment
`made by docs/maps.py` and one with the comment `end`, and docs/layers.svg.

With --check nothing is written. A line is printed for each map that differs from what would be made, and the status is then 1.
"""
import os
import re
import sys

TOP = os.path.dirname(os.path.dirname(os.path.realpath(__file__)))
BEGIN, END = "<!-- made by docs/maps.py -->\n", "<!-- end -->"
README, ARCHITECTURE, DRAWING = "README.md", "docs/ARCHITECTURE.md", "docs/layers.svg"
ARGUES = ("laws: ", "model: ")
# The drawing: its width, how many boxes stand side by side, and where; and how boxes of crates look that run, that argue, and that test
WIDTH, ACROSS, LEFT, STEP, ROW, GAP = 940, 6, 164, 126, 36, 18
RUNS, ARGUES_LOOK, TESTS = 'fill="#dbe8fb"', 'fill="#fff1cc" stroke-dasharray="4 3"', 'fill="#ffffff"'


class Fault(Exception):
    """Why no map can be made."""


class Crate:
    """A crate: its name, what it is, and what it stands on."""

    def __init__(self, name, what, below):
        self.name, self.what, self.below = name, what, below
        self.short = name.removeprefix("mq_")
        self.argues = what.startswith(ARGUES)


def read(path):
    with open(os.path.join(TOP, path), encoding="utf-8") as file:
        return file.read()


def layers():
    """The crates of each layer by its name, lowest first."""
    found, what = {}, ""
    for line in read("crates.txt").splitlines():
        name, is_crate, below = line.partition("#")[0].partition(":")
        if line.startswith("## "):
            found[line.removeprefix("## ")] = []
        elif is_crate and not (found and what):
            raise Fault(f"crates.txt: no layer or no comment above {name}")
        elif is_crate:
            [*found.values()][-1].append(Crate(name.split()[0], what, below.split()))
        what = line.removeprefix("# ") if line.startswith("# ") else ""
    return found


def faults_of_order(found):
    """The crates that stand on one of a layer above."""
    own = {crate.name: at for at, crates in enumerate(found.values()) for crate in crates}
    for crate in [it for crates in found.values() for it in crates]:
        for name in crate.below:
            if own.get(name, 0) > own[crate.name]:
                yield f"crates.txt: {crate.name} stands on {name}, which is in a layer above"


def listed(crates):
    """Short names of crates, of which three or more that begin with one word stand together: `word_{a, b, c}`."""
    names, words = [], {}
    for name in [it.short for it in crates]:
        words.setdefault(name.partition("_")[0], []).append(name)
    for word, same in words.items():
        ends = [it.removeprefix(f"{word}_") for it in same if it != word]
        alone = [word] if word in same else []
        names += [*alone, f"{word}_{{{', '.join(ends)}}}"] if len(ends) > 2 else same
    return ", ".join(names)


def short_table(found):
    """The table of README.md."""
    rows = ["| layer | runs | argues |", "|---|---|---|"]
    for layer, crates in found.items():
        argues = listed(it for it in crates if it.argues)
        rows.append(f"| **{layer}** | {listed(it for it in crates if not it.argues)} | {f'{argues} ' if argues else ''}|")
    return "\n".join(rows) + "\n"


def long_table(found):
    """The table of docs/ARCHITECTURE.md: from the program down, and the tests by their names alone."""
    tests, *others = reversed(found)
    rows = ["| crate | has |", "|---|---|"]
    for layer in others:
        rows += [f"| **{layer}** | |", *(f"| {it.short} | {it.what} |" for it in reversed(found[layer]))]
    return "\n".join([*rows, f"| **{tests}** | {listed(found[tests])} |", ""])


def text(x, y, size, anchor, words, more=""):
    return f'<text x="{x}" y="{y}" font-size="{size}" text-anchor="{anchor}"{more}>{words}</text>'


def box(x, y, width, height, look):
    return f'<rect x="{x}" y="{y}" width="{width}" height="{height}" rx="4" stroke="#5b6b86" {look}/>'


def drawn_layer(name, crates, y, look):
    """A layer at a height of the drawing: how high it is, and its lines."""
    high = ROW * -(-len(crates) // ACROSS) + 10
    lines = [f'<rect x="10" y="{y}" width="{WIDTH - 20}" height="{high}" rx="8" fill="#f5f6f8" stroke="#8a94a6"/>']
    lines.append(text(22, y + high // 2 + 5, 14, "start", name.replace(" and ", ", "), ' font-weight="bold"'))
    for at, crate in enumerate(reversed(crates)):
        left, top = LEFT + STEP * (at % ACROSS), y + 10 + ROW * (at // ACROSS)
        lines.append(box(left, top, STEP - 8, ROW - 10, ARGUES_LOOK if crate.argues else look))
        lines.append(text(left + STEP // 2 - 4, top + 18, 11 if len(crate.short) > 16 else 12, "middle", crate.short))
    return high, lines


def drawing(found):
    """docs/layers.svg, from the tests down to the lowest layer."""
    y, lines = 16, []
    for name in reversed(found):
        is_top = not lines
        if not is_top:
            lines.append(f'<path d="M 80 {y} v 12" stroke="#44506a" stroke-width="1.5" marker-end="url(#tip)"/>')
            y += GAP
        high, of_layer = drawn_layer(name, found[name], y, TESTS if is_top else RUNS)
        lines, y = [*lines, *of_layer], y + high
    models = ", ".join(it.short for crates in found.values() for it in crates if it.what.startswith(ARGUES[1]))
    lines += [box(22, y + 12, 26, 16, RUNS), text(56, y + 25, 12, "start", "runs in a program")]
    argues = f"argues: definitions and laws, and a state machine ({models}) that no program runs"
    lines += [box(212, y + 12, 26, 16, ARGUES_LOOK), text(246, y + 25, 12, "start", argues)]
    size, tip = f'width="{WIDTH}" height="{y + 40}"', 'viewBox="0 0 8 8" refX="7" refY="4" markerWidth="7" markerHeight="7" orient="auto"'
    head = [f'<svg xmlns="http://www.w3.org/2000/svg" {size} viewBox="0 0 {WIDTH} {y + 40}" font-family="sans-serif" fill="#1d2433">']
    head.append("<title>The layers of the crates; each stands on those below it</title>")
    head.append(f'<defs><marker id="tip" {tip}><path d="M 0 0 L 8 4 L 0 8 z" fill="#44506a"/></marker></defs>')
    head.append(f'<rect {size} fill="#ffffff"/>')
    return "\n".join([*head, *lines, "</svg>", ""])


def with_table(path, table):
    """A document with a table between its markers."""
    before, begins, rest = read(path).partition(BEGIN)
    _, ends, after = rest.partition(END)
    if not begins or not ends:
        raise Fault(f"{path}: no lines {BEGIN.strip()} and {END}")
    return before + BEGIN + table + END + after


def maps():
    """What each map is to be, by its path."""
    found = layers()
    return {README: with_table(README, short_table(found)), ARCHITECTURE: with_table(ARCHITECTURE, long_table(found)), DRAWING: drawing(found)}


def faults():
    """The maps that differ from what would be made, and what is wrong in crates.txt."""
    try:
        yield from faults_of_order(layers())
        for path, wanted in maps().items():
            if read(path) != wanted:
                yield f"{path}: its map isn't what docs/maps.py makes of crates.txt"
    except Fault as fault:
        yield str(fault)


def main(words):
    if words not in ([], ["--check"]):
        sys.exit(__doc__)
    if not words:
        try:
            wanted = maps()
        except Fault as fault:
            sys.exit(str(fault))
        for path, made in wanted.items():
            with open(os.path.join(TOP, path), "w", encoding="utf-8") as file:
                file.write(made)
    found = [*faults()]
    for fault in found:
        print(fault)
    return 1 if found else 0


if __name__ == "__main__":
    sys.exit(main(sys.argv[1:]))
