#!/usr/bin/env python3
"""Measures searches for plans: of each instance of `examples/`, of the airport week and of the files given as words, plans and
bounds of several seeds after so many processor seconds of each worker.

    bench/thorough.py [--seconds N] [--workers W] [--seeds K] [--only NAME..] [--programs FOLDER] [--] [FILE..]

N is 24, W is 1 and K is 5 where they aren't given. The seeds are 1, W + 1, 2 W + 1 and so on, so that no two workers draw alike. Each search
has a new journal and is asked to end once the processor time of its process comes to N seconds for each worker, or ends by itself before. A
line for each instance has the least cost known (of `best_known.json`, by the name of the file), the mean and the worst cost over it, the worst
cost over the best, means of the steps, the bound, the gap (the part of the cost by which the bound lies below it) and the processor seconds,
and the costs by seed. Then come the means over the instances and the worst of them, and in how many steps the advised prices weren't lawful."""
import json
import math
import pathlib
import statistics
import subprocess
import sys
import tempfile

import instances
import measured

ELAPSED = 4  # a search may last so many times as long as its processor seconds, since other programs run too; for a longer one steps would get more work
SCALE = "10000"  # of the prices that are advised; a step whose prices aren't lawful has the price 0 at scale 1
COLUMNS = "%-16s %6s %6s %6s %6s %8s %8s %7s %8s  %s"


class Search:
    """One search of an instance with a seed over a new journal, of at most so many processor seconds."""

    def __init__(self, program, text, seed, workers, seconds):
        with tempfile.TemporaryDirectory() as folder:
            (pathlib.Path(folder) / "week.json").write_text(text)
            words = ["plan", "week.json", "--seconds", str(ELAPSED * math.ceil(seconds)), "--stop-on", "line", "--workers", str(workers), "--seed", str(seed)]
            run = subprocess.Popen([program, *words], cwd=folder, stdin=subprocess.PIPE, stdout=subprocess.DEVNULL, stderr=subprocess.PIPE)
            self.seconds = measured.awaited(run, workers * seconds)
            said = run.communicate()[1].decode()
            if run.returncode != 0:
                sys.exit("shift_plan ends with %d: %s" % (run.returncode, said))
            self.read((pathlib.Path(folder) / "week.plan" / "report").read_text().split("\n"))

    def read(self, lines):
        self.cost, self.bound = int(lines[2][5:]), int(lines[3][6:])
        scales = [line.split(" ")[2] for line in lines if line.startswith("priced ")]
        self.steps, self.unlawful = len(scales), sum(scale != SCALE for scale in scales)
        self.gap = 1 - self.bound / self.cost if self.cost else 0.0


def over(cost, least):
    """How many times as dear as the least cost known a cost is."""
    return cost / least if least else 1.0


def line_of(name, known, searches):
    """Prints the line of an instance, and gives the mean and the worst cost over the least one known, the worst over the best, and the mean gap."""
    costs = [it.cost for it in searches]
    least = min([known] * (known is not None) + costs)
    mean, worst, spread = over(statistics.mean(costs), least), over(max(costs), least), over(max(costs), min(costs))
    gap = statistics.mean(it.gap for it in searches)
    steps, bound, seconds = (statistics.mean(getattr(it, field) for it in searches) for field in ("steps", "bound", "seconds"))
    ratios = ["%.3f" % it for it in (mean, worst, spread)]
    print(COLUMNS % (name, known or "-", *ratios, round(steps), round(bound), "%.1f%%" % (100 * gap), "%.1f" % seconds, " ".join(map(str, costs))), flush=True)
    return mean, worst, spread, gap


def main():
    parser = measured.words_of(__doc__)
    parser.add_argument("--seconds", type=float, default=24)
    parser.add_argument("--workers", type=int, default=1)
    parser.add_argument("--seeds", type=int, default=5)
    parser.add_argument("--only", nargs="*", help="the names of the instances that are measured")
    parser.add_argument("files", nargs="*")
    asked = parser.parse_args()
    program = measured.program(asked.programs, "shift_plan")
    known = json.loads((measured.BENCH / "best_known.json").read_text())
    rows, unlawful = [], 0
    print(COLUMNS % ("instance", "known", "mean", "worst", "spread", "steps", "bound", "gap", "seconds", "costs"))
    for document in [*instances.examples(), "airport_week", *asked.files]:
        name = instances.name_of(document)
        if asked.only and name not in asked.only:
            continue
        text = instances.text_of(document)
        searches = [Search(program, text, 1 + number * asked.workers, asked.workers, asked.seconds) for number in range(asked.seeds)]
        rows.append(line_of(name, known.get(name), searches))
        unlawful += sum(it.unlawful for it in searches)
    means, worsts, spreads, gaps = zip(*rows)
    print("cost over the least known: mean %.3f, worst %.3f; worst over best at most %.3f; gap: mean %.1f%%, median %.1f%%" %
          (statistics.mean(means), max(worsts), max(spreads), 100 * statistics.mean(gaps), 100 * statistics.median(gaps)))
    print("%d steps had prices that weren't lawful" % unlawful)


if __name__ == "__main__":
    main()
