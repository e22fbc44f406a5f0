#!/usr/bin/env python3
"""Measures how long `graft_run join` takes for many parts.

    bench/join_parts.py [--begin B] [--parts N] [--lines K] [--programs FOLDER] [FILE]

The instance (the call week where no file is named) is searched for B seconds by `shift_plan plan`. For N of the open nodes of its report a part is made up:
the report with K further lines that price the node, with slot prices that the report has and none for cuts. They are joined, and seconds, memory and sizes
are printed. B is 30, N 64 and K 100 where they aren't given; the programs are those of `bin/` where no folder of shift_plan and graft_run is given."""
import pathlib
import tempfile

import instances
import measured


def part_of(lines, node, cuts, count):
    """The text of a report with so many further lines that price a node of so many cuts."""
    at = next(number for number, line in enumerate(lines) if line.startswith("proof "))
    end = at + 1 + int(lines[at].split()[1])
    priced = [line.split() for line in lines[at + 1:end] if line.startswith("priced ")]
    free = ",".join(["0"] * cuts) or "-"
    further = ["priced %d %s %s %s" % (node, *priced[number % len(priced)][2:4], free) for number in range(count)]
    return "\n".join([*lines[:at], "proof %d" % (end - at - 1 + count), *lines[at + 1:end], *further, *lines[end:]])


def parts_of(asked, report, folder):
    """The paths of parts of the first open nodes."""
    lines = report.read_text().split("\n")
    graft = measured.program(asked.programs, "graft_run")
    rows = [line.split() for line in measured.run([graft, "nodes", asked.file, report, asked.parts]).out.splitlines()]
    paths = []
    for row in rows:
        paths.append(folder / ("part_" + row[1]))
        paths[-1].write_text(part_of(lines, int(row[1]), int(row[5]), asked.lines))
    return paths


def main():
    parser = measured.words_of(__doc__)
    for name, number in (("begin", 30), ("parts", 64), ("lines", 100)):
        parser.add_argument("--" + name, type=int, default=number)
    parser.add_argument("file", type=pathlib.Path, nargs="?", default=instances.EXAMPLES / "call_week.json")
    asked = parser.parse_args()
    plan, graft = (measured.program(asked.programs, it) for it in ("shift_plan", "graft_run"))
    with tempfile.TemporaryDirectory() as name:
        folder = pathlib.Path(name)
        report, joined = folder / "plan" / "report", folder / "joined"
        measured.run([plan, "plan", asked.file, "--seconds", asked.begin, "--out", folder / "plan", "--journal", folder / "journal"])
        parts = parts_of(asked, report, folder)
        run = measured.run([graft, "join", asked.file, report, *parts], target=joined)
        sizes = [size / 1e6 for size in (sum(part.stat().st_size for part in parts), report.stat().st_size, joined.stat().st_size)]
    print("%d parts of %.1f MB together, of a report of %.1f MB, joined to %.1f MB: %s" % (len(parts), *sizes, run))


if __name__ == "__main__":
    main()
