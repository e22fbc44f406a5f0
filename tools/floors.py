#!/usr/bin/env python3
"""Makes the picture of the floors, and the part of docs/ARCHITECTURE.md on them, of crates.txt and of what the crates' first lines say.

    tools/floors.py            writes docs/floors.svg and the part
    tools/floors.py --check    tells in a second whether each crate uses crates of its own floor and of lower ones alone, and whether the picture and
                               the part are those of the sources; the last line is 'N passed, M failed'
"""
import html, re, sys
from os.path import dirname, realpath

sys.dont_write_bytecode = True
sys.path.insert(0, dirname(realpath(__file__)))
from proved import purpose_of
from rooms import TOP, crates, is_of_tests, text_of

PICTURE, PAGE = "docs/floors.svg", "docs/ARCHITECTURE.md"
PART = re.compile(r"^## The floors\n.*?(?=^## |\Z)", re.M | re.S)
HEAD = """## The floors

`tools/floors.py` makes this part and its picture of `crates.txt` and of the first lines of the crates. `crates.txt` has a line for each crate with the libraries that it uses, below the heading of its floor. A crate uses crates of its own floor and of lower ones; `tools/floors.py --check` fails where one doesn't. A line of code that doesn't know its floor is in the wrong crate. A definition stands with the crate whose subject it is, in `specs/`; lemmas that only proofs need stand in `proofs/`.

![The floors, the lowest at the bottom, with the names of the crates on each](floors.svg)

The floors stand here from the lowest up.
"""
TABLE = "\n| Crate | What it is for |\n|---|---|\n"
STYLE = """<style>
text { fill: #1c2733; }
.floor { font: 13px sans-serif; }
.crate { font: 12px monospace; text-anchor: middle; }
.box { fill: #ffffff; stroke: #53718f; }
.tests { stroke-dasharray: 4 3; }
</style>
"""
WIDTH, LABELS, EDGE, GAP, BOX, SIGN = 1000, 268, 10, 6, 24, 7.3


class Floor:
    """A floor of crates.txt: its heading, what its crates know, and their names."""

    def __init__(self, title):
        self.title, self.told, self.names = title, "", []

    def text(self):
        rows = "".join(f"| [`{it}`](../crates/{it}) | {purpose_of(it).replace('|', chr(92) + '|')} |\n" for it in self.names)
        return f"\n### {self.title}\n\n{self.told}\n{TABLE}{rows}"


def floors():
    """Returns the floors of crates.txt from the lowest up. Lines that begin with `## ` are their headings, and a comment below one is what its crates know."""
    found = [Floor("")]
    for line in text_of(f"{TOP}/crates.txt").split("\n"):
        name, colon, _ = line.partition("#")[0].partition(":")
        if line.startswith("## "):
            found.append(Floor(line[3:].strip()))
        elif line.startswith("# "):
            found[-1].told = f"{found[-1].told} {line[2:].strip()}".strip()
        elif colon and found[-1].title:
            found[-1].names.append(name.split()[0])
    return found[1:]


def part(found):
    return HEAD + "".join(it.text() for it in found) + "\n"


def with_part(page, found):
    """Returns the page with the part of these floors in the place of the one that it has."""
    return PART.sub(lambda _: part(found), page, count=1)


def lines_of_boxes(names):
    """Returns the boxes of these crates as (name, left edge, width), line by line, as many on each as fit."""
    lines, left = [[]], LABELS
    for name in names:
        width = round(len(name) * SIGN) + 14
        if left + width > WIDTH - EDGE and lines[-1]:
            lines, left = [*lines, []], LABELS
        lines[-1].append((name, left, width))
        left += width + GAP
    return lines


def drawn(floor, top, lines, is_even):
    """Returns the drawing of a floor whose upper edge is at that height."""
    height = len(lines) * (BOX + GAP) + GAP
    made = f'<rect x="0" y="{top}" width="{WIDTH}" height="{height}" fill="{"#f3f6f9" if is_even else "#e4ebf2"}"/>\n'
    made += f'<text class="floor" x="{EDGE}" y="{top + height // 2 + 5}">{html.escape(floor.title, quote=False)}</text>\n'
    for number, line in enumerate(lines):
        y = top + GAP + number * (BOX + GAP)
        for name, left, width in line:
            kind = "box tests" if is_of_tests(name) else "box"
            made += f'<rect class="{kind}" x="{left}" y="{y}" width="{width}" height="{BOX}" rx="3"/>'
            made += f'<text class="crate" x="{left + width / 2:g}" y="{y + 16}">{name}</text>\n'
    return made, height


def picture(found):
    """Returns the picture of these floors, the lowest at the bottom."""
    body, top = "", 0
    for number, floor in reversed(list(enumerate(found))):
        made, height = drawn(floor, top, lines_of_boxes(floor.names), number % 2 == 0)
        body, top = body + made, top + height
    head = f'<svg xmlns="http://www.w3.org/2000/svg" width="{WIDTH}" height="{top}" viewBox="0 0 {WIDTH} {top}" role="img">\n'
    return f"{head}<title>The floors, the lowest at the bottom, with the names of the crates on each</title>\n{STYLE}{body}</svg>\n"


def faults(found):
    """Yields for each crate, and then for the part and the picture, what is wrong with it, or nothing."""
    used, levels = crates(), {name: level for level, floor in enumerate(found) for name in floor.names}
    for name in used:
        if name not in levels:
            yield f"{name} has no floor"
            continue
        above = [it for it in used[name] if levels.get(it, 0) > levels[name]]
        told = (f"{it} on the higher floor '{found[levels[it]].title}'" for it in above)
        yield f"{name} on the floor '{found[levels[name]].title}' uses {', '.join(told)}" if above else ""
    page = text_of(f"{TOP}/{PAGE}")
    yield "" if PART.search(page) and page == with_part(page, found) else f"{PAGE} hasn't the part on floors that the sources make; make it again: tools/floors.py"
    yield "" if text_of(f"{TOP}/{PICTURE}") == picture(found) else f"{PICTURE} isn't the picture of crates.txt; make it again: tools/floors.py"


def check():
    """Prints what is wrong, a line each, and a closing line. Returns whether nothing is."""
    tried = list(faults(floors()))
    bad = [it for it in tried if it]
    print("".join(f"{it}\n" for it in bad) + f"floors: {len(tried) - len(bad)} passed, {len(bad)} failed", flush=True)
    return not bad


def write():
    found, page = floors(), text_of(f"{TOP}/{PAGE}")
    if not PART.search(page):
        sys.exit(f"{PAGE} has no part that begins with '## The floors'")
    for path, text in (PAGE, with_part(page, found)), (PICTURE, picture(found)):
        with open(f"{TOP}/{path}", "w") as file:
            file.write(text)


def main():
    words = sys.argv[1:]
    if words == ["--check"]:
        sys.exit(not check())
    if words:
        sys.exit(__doc__)
    write()


if __name__ == "__main__":
    main()
