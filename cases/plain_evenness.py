#!/usr/bin/env python3
"""Reads the plans of local searches of some examples, by docs/DEFINITIONS.md alone: no slot with a need may be left with nobody while several
duties that could work in it are on break together. Prints each such slot, and last `N passed, M failed`, counted in examples. Build
`shift_solve` first."""
import collections
import json
import pathlib
import subprocess
import sys
import tempfile

from plain_reading import Reading, read_report

TOP = pathlib.Path(__file__).resolve().parent.parent
EXAMPLES = ("ward_week", "usual_week")


def slots_left(reading, rows):
    """The slots with a need in which nobody works, with the duties on break there where they are several."""
    working, present = collections.Counter(), collections.Counter()
    for row in rows:
        for counts, breaks in ((working, row.breaks), (present, ())):
            for slot in reading.slots_worked(row.shift, row.day, breaks):
                counts[slot] += row.count
    return [(slot, present[slot]) for slot, need in enumerate(reading.need) if need > 0 and working[slot] == 0 and present[slot] > 1]


def differences(solve, names=EXAMPLES):
    """What is wrong with the plan of a local search of one step of each example."""
    for name in names:
        text = (TOP / "examples" / (name + ".json")).read_text()
        reading = Reading(json.loads(text))
        with tempfile.TemporaryDirectory() as folder:
            words = [solve, "solve", pathlib.Path(folder) / "journal", "--local", "--workers", "1", "--steps", "1"]
            done = subprocess.run(words, input=text, stdout=subprocess.PIPE, stderr=subprocess.PIPE, universal_newlines=True)
        if done.returncode not in (0, 10):
            yield "%s: solve ends with %d: %s" % (name, done.returncode, done.stderr)
            continue
        report = read_report(done.stdout)
        if report.cost != reading.cost(report.rows) or not reading.are_legal(report.rows):
            yield "%s: %s" % (name, reading.recount(report))
        for slot, away in slots_left(reading, report.rows):
            yield "%s: nobody works in slot %d, where %d duties are on break" % (name, slot, away)


def main():
    failed = 0
    for name in EXAMPLES:
        found = list(differences(TOP / "crates" / "shift_solve" / "out" / "shift_solve", (name,)))
        print("".join(text + "\n" for text in found), end="", flush=True)
        failed += found != []
    print("%d passed, %d failed" % (len(EXAMPLES) - failed, failed))
    return int(failed > 0)


if __name__ == "__main__":
    sys.exit(main())
