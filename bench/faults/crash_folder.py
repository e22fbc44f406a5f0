#!/usr/bin/env python3
"""Kills `shift_plan show` (`kill -9`) while it puts a plan in the place of another one: at random moments of the run, and, every second time, of the writing,
which begins once the first file stands under its other name.

    bench/faults/crash_folder.py [--runs K] [--programs FOLDER]

It does so 200 times where no number is given, and looks at what the folder is then: the old plan, the new one, or one that says that it isn't whole; and writes
another plan there, after which the folder must be that one and nothing else. It prints how many folders were left how."""
import collections
import json
import os
import pathlib
import random
import signal
import subprocess
import sys
import tempfile
import time

sys.path.insert(0, str(pathlib.Path(__file__).resolve().parent.parent))
import measured

MARKER = "UNFINISHED"
REPORT = "shift-report 1\nstatus stopped\ncost %d\nbound 0\nrows 1\nrow 0 0 1 -\nproof 0\nend\n"


def instance(need):
    """A day whose plan of one duty costs as much as its need isn't covered."""
    hours = [0] * 8 + [need] * 4 + [0] * 12
    return {"slot_minutes": 60, "days": 1, "need": hours, "max_heads": 1, "weights": {"excess": 1, "shortage": 1, "shift": 1},
            "types": [{"name": "day", "start_min": 8, "start_max": 8, "len_min": 4, "len_max": 4, "breaks": None}]}


def held(folder):
    """What a folder holds: the bytes of each file by its path."""
    found = {}
    for place, _, names in os.walk(folder):
        for name in names:
            with open(os.path.join(place, name), "rb") as source:
                found[os.path.relpath(os.path.join(place, name), folder)] = source.read()
    return found


class Runs:
    """Runs that show one of two plans in a folder."""

    def __init__(self, folder, program):
        self.folder, self.program = folder, program
        self.plans = {}
        for name, need in (("old", 1), ("new", 2)):
            with open(os.path.join(folder, name + ".json"), "w") as out:
                json.dump(instance(need), out)
            with open(os.path.join(folder, name + ".report"), "w") as out:
                out.write(REPORT % (1 + 4 * (need - 1)))
            self.shown(name, name + ".plan")
            self.plans[name] = held(os.path.join(folder, name + ".plan"))

    def begun(self, name, out):
        words = [self.program, "show", name + ".json", name + ".report", "--out", out]
        return subprocess.Popen(words, cwd=self.folder, stdin=subprocess.DEVNULL, stdout=subprocess.DEVNULL, stderr=subprocess.PIPE)

    def shown(self, name, out):
        """What a run says that ends by itself."""
        run = self.begun(name, out)
        said = run.communicate()[1].decode()
        if run.returncode != 0:
            sys.exit("show ends with %d: %s" % (run.returncode, said))
        return said

    def state(self, out):
        """What a folder is, in words."""
        found = held(os.path.join(self.folder, out))
        own = {name: content for name, content in found.items() if not name.endswith(".new") and name != MARKER}
        if MARKER in found:
            whole = all(content in (own.get(name), found.get(name + ".new")) for name, content in self.plans["new"].items())
            return "marked, and whole" if whole else "MARKED, AND NOT WHOLE"
        begun = "" if len(own) == len(found) else ", and begun files"
        for name, plan in self.plans.items():
            if own == plan:
                return "the %s plan%s" % (name, begun)
        return "NEITHER PLAN"

    def killed(self, out, seconds, in_the_writing):
        """Shows the new plan where the old one stands, and kills that run."""
        run = self.begun("new", out)
        first = os.path.join(self.folder, out, "report.new")
        while in_the_writing and run.poll() is None and not os.path.exists(first):
            pass
        time.sleep(random.uniform(0, seconds / 3 if in_the_writing else 1.2 * seconds))
        run.send_signal(signal.SIGKILL)
        run.communicate()
        return run.returncode == -signal.SIGKILL


def main():
    parser = measured.words_of(__doc__)
    parser.add_argument("--runs", type=int, default=200)
    asked = parser.parse_args()
    program, runs = measured.program(asked.programs, "shift_plan"), asked.runs
    left, killed, faults = collections.Counter(), 0, 0
    with tempfile.TemporaryDirectory() as folder:
        shown = Runs(folder, program)
        began = time.perf_counter()
        shown.shown("old", "plan")
        seconds = time.perf_counter() - began
        for number in range(runs):
            killed += shown.killed("plan", seconds, number % 2 == 1)
            state = shown.state("plan")
            left[state] += 1
            shown.shown("old", "plan")
            faults += state.isupper() or held(os.path.join(folder, "plan")) != shown.plans["old"]
    print("%d runs of a run of %.3f s, %d of them killed before their end" % (runs, seconds, killed))
    for state, count in sorted(left.items()):
        print("%5d left %s" % (count, state))
    print("%d folders that were neither whole nor marked, or not whole after the next run" % faults)
    sys.exit(1 if faults else 0)


if __name__ == "__main__":
    main()
