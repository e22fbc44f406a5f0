#!/usr/bin/env python3
"""Reads the reports of thorough searches by one worker, of some examples and of random small instances, by docs/DEFINITIONS.md alone: plans
are legal at their cost, the checker accepts the bound, on small instances the least cost lies between the two, in an example no slot with a
need is left with nobody while several duties are on break, the same words make the same journal, and a search that is stopped is gone on
with. Prints what is wrong, and last `N passed, M failed`, counted in instances. Build both programs first."""
import json
import math
import pathlib
import random
import subprocess
import sys
import tempfile

from plain_evenness import slots_left
from plain_reading import Reading, Trial, read_report

TOP = pathlib.Path(__file__).resolve().parent.parent
EXAMPLES = ("ward_week", "usual_week", "call_day", "control_week", "airport_day")
STEPS = 12
INSTANCES = 20


class Searches:
    """Thorough searches of one instance, each over a journal in a folder."""

    def __init__(self, text, folder, solve, check):
        self.text, self.folder, self.solve, self.check = text, pathlib.Path(folder), solve, check
        self.instance = self.folder / "instance"
        self.instance.write_text(text)

    def run(self, words, text=""):
        done = subprocess.run(words, input=text, stdout=subprocess.PIPE, stderr=subprocess.PIPE, universal_newlines=True)
        return done.returncode, done.stdout

    def search(self, name, steps):
        """The status and the report of a search over that journal."""
        return self.run([self.solve, "solve", self.folder / name, "--thorough", "--workers", "1", "--steps", str(steps)], self.text)

    def accepts(self, text):
        return self.run([self.check, "check", self.instance, "/dev/stdin"], text)[0] == 0

    def journal(self, name):
        return (self.folder / name).read_bytes()

    def faults(self):
        """What is wrong whatever the instance is, and the report of a whole search."""
        status, text = self.search("whole", STEPS)
        again = self.search("again", STEPS)
        half, halves = self.search("halves", STEPS // 2)[0], self.search("halves", STEPS - STEPS // 2)
        found = [
            ("solve ends with %d, then %d and %d" % (status, half, halves[0]), {status, half, halves[0]} <= {0, 10}),
            ("two searches have other reports or journals", (status, text) == again and self.journal("whole") == self.journal("again")),
            ("the checker refuses the report", self.accepts(text)),
            ("the checker refuses the report of a search that was stopped", self.accepts(halves[1])),
        ]
        return [fault for fault, holds in found if not holds], read_report(text) if text else None


def example_faults(name, solve, check):
    text = (TOP / "examples" / (name + ".json")).read_text()
    reading = Reading(json.loads(text))
    with tempfile.TemporaryDirectory() as folder:
        faults, report = Searches(text, folder, solve, check).faults()
    if report and (report.cost != reading.cost(report.rows) or not reading.are_legal(report.rows)):
        faults.append(reading.recount(report))
    faults += ["nobody works in slot %d, where %d duties are on break" % left for left in slots_left(reading, report.rows)] if report else []
    return ["%s: %s" % (name, fault) for fault in faults]


def random_faults(number, seed, solve, check):
    with tempfile.TemporaryDirectory() as folder:
        trial = Trial(random.Random("thorough %s %d" % (seed, number)), pathlib.Path(folder), solve, check)
        faults, report = Searches(trial.text, folder, solve, check).faults()
    if report:
        line = trial.reading.check(report)
        if line != "accepted cost %s bound %d" % (report.cost, report.bound):
            faults.append("the reading says %s" % line)
        if trial.least != math.inf and not report.bound <= trial.least <= report.cost:
            faults.append("the least cost is %s" % trial.least)
    return ["instance %d of seed %s: %s\n%s" % (number, seed, fault, trial.text) for fault in faults]


def trials(number, seed, solve, check):
    """What is wrong with the searches of each example and of so many random instances, one list for each."""
    for name in EXAMPLES:
        yield example_faults(name, solve, check)
    for instance in range(number):
        yield random_faults(instance, seed, solve, check)


def main(number=str(INSTANCES), seed="1"):
    solve, check = (TOP / "crates" / name / "out" / name for name in ("shift_solve", "shift_check"))
    passed = failed = 0
    for found in trials(int(number), seed, solve, check):
        print("".join(fault + "\n" for fault in found), end="", flush=True)
        failed += found != []
        passed += found == []
    print("%d passed, %d failed" % (passed, failed))
    return int(failed > 0)


if __name__ == "__main__":
    sys.exit(main(*sys.argv[1:]))
