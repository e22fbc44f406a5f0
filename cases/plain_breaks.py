#!/usr/bin/env python3
"""Runs of `shift_plan breaks` on random instances, beside a second reading of what docs/FORMATS.md and docs/DEFINITIONS.md say of breaks that are planned
anew: the report that is written is accepted and has the proof and the bound of the one before, its rows have as many duties of each shift on each day and cost
no more, the last line of standard output says what changed, and the least cost of such rows is what it says. Words: the number of instances (100 where none is
given), a seed (1), and a folder that holds the programs (where none is given, they are taken as they are built). Prints each difference, and last
`N passed, M failed`, counted in instances."""
import collections
import pathlib
import random
import re
import sys
import tempfile

sys.dont_write_bytecode = True
sys.path.insert(0, str(pathlib.Path(__file__).resolve().parent))
from plain_grafts import heads, rotas
from plain_reading import Trial, read_report, report_text

PROGRAMS = ("shift_solve", "shift_check", "shift_plan")
SECONDS = 2

CHANGED = re.compile(r"Breaks: (\d+) of (\d+) duties got other breaks \((.*)\), by which the plan costs (\d+) in place of (\d+), (\d+) less; (.*)\.")
NONE_FOUND = re.compile(r"Breaks: no breaks were found by which the plan costs less than (\d+); (.*)\.")
BEST = "with as many duties of each shift on each day no legal plan costs less"
AT_LEAST = re.compile(BEST + r" than (\d+), so other breaks save (\d+) more at most")


def duties(rows):
    """How often each duty stands in rows."""
    found = collections.Counter()
    for row in rows:
        found[row.shift, row.day, row.breaks] += row.count
    return found


class Breaks(Trial):
    """The programs beside the reading of one random instance."""

    def __init__(self, draw, folder, programs):
        super().__init__(draw, folder, *programs[:2])
        self.plan, self.rotas = programs[2], rotas(self.reading)

    def begun(self):
        """A report: of a search of a few steps, with random rows in half of the cases."""
        steps = str(self.draw.choice((0, 1, 3)))
        _, text, _ = self.run([self.solve, "solve", self.folder / "journal", "--workers", "1", "--steps", steps], self.text)
        report = read_report(text)
        if self.draw.random() < 0.5:
            rows = self.rows()
            cost = self.reading.cost(rows)
            report = report._replace(rows=rows, cost=cost, status="optimal" if cost == report.bound else "stopped")
        (self.folder / "report").write_text(report_text(report))
        return report

    def least_cost(self, rows):
        """The least cost of the legal rotas with the heads of these rows, if they are few."""
        if self.rotas is None:
            return None
        return min(self.reading.cost(others) for others in self.rotas if heads(others) == heads(rows))

    def said_faults(self, line, before, after):
        """What is wrong with the line on the breaks, and what it says that such a plan costs at least."""
        changed, none_found = CHANGED.fullmatch(line), NONE_FOUND.fullmatch(line)
        if not (changed or none_found):
            return ["the line on the breaks is %r" % line], 0
        other = duties(after.rows) - duties(before.rows)
        by_day = collections.Counter()
        for (_, day, _), count in other.items():
            by_day[day] += count
        if changed:
            wanted = (sum(other.values()), sum(duties(after.rows).values()), ", ".join("day %d: %d" % (day + 1, by_day[day]) for day in sorted(by_day)))
            said = (int(changed[1]), int(changed[2]), changed[3])
            costs = tuple(int(changed[n]) for n in (4, 5, 6))
            faults = ["%s are said, and %s changed" % (said, wanted)] * (said != wanted)
            faults += ["the costs %s are said" % (costs,)] * (costs != (after.cost, before.cost, before.cost - after.cost) or before.cost <= after.cost)
            best = changed[7]
        else:
            faults = ["%s is said" % none_found[1]] * (int(none_found[1]) != after.cost or after != before)
            best = none_found[2]
        if best == BEST:
            return faults, after.cost
        at_least = AT_LEAST.fullmatch(best)
        if not at_least:
            return faults + ["%r is said of the best" % best], 0
        floor = int(at_least[1])
        return faults + ["the gap %s is said" % at_least[2]] * (floor + int(at_least[2]) != after.cost), floor

    def faults(self):
        """What is wrong with breaks that are planned anew."""
        report = self.begun()
        seconds = str(self.draw.choice((0, SECONDS, SECONDS, SECONDS)))
        words = [self.plan, "breaks", self.folder / "instance", self.folder / "report", "--seconds", seconds, "--seed", str(self.draw.randint(0, 9)), "--out", self.folder / "plan"]
        status, text, said = self.run(words, "")
        if status != 0:
            return ["breaks ends with %d: %s%s" % (status, text, said)]
        after = read_report((self.folder / "plan" / "report").read_text())
        faults, floor = self.said_faults(text.splitlines()[-1], report, after)
        least = self.least_cost(report.rows)
        answer = self.run([self.check, "check", self.folder / "instance", self.folder / "plan" / "report"], "")
        holds = [
            ("check answers %s" % (answer,), answer == (0, self.reading.check(after) + "\n", "") and answer[1].startswith("accepted")),
            ("the proof or the bound is another one", (after.lines, after.bound) == (report.lines, report.bound)),
            ("a shift has other heads", heads(after.rows) == heads(report.rows)),
            ("the plan costs %d and cost %d" % (after.cost, report.cost), after.cost <= report.cost),
            ("the status is %s" % after.status, after.status == ("optimal" if after.cost == after.bound else "stopped")),
            ("at least %d is said, and the least cost is %s" % (floor, least), report.bound <= floor and (least is None or floor <= least <= after.cost)),
        ]
        return faults + [fault for fault, is_so in holds if not is_so]


def differences(number, programs, seed=1, first=0):
    """The differences between the programs and the reading over that many random instances, from one on."""
    for instance in range(first, first + number):
        with tempfile.TemporaryDirectory() as folder:
            trial = Breaks(random.Random("breaks %s %d" % (seed, instance)), pathlib.Path(folder), programs)
            for fault in trial.faults():
                yield "instance %d of seed %s: %s\n%s" % (instance, seed, fault, trial.text)


def main(number="100", seed="1", programs=None):
    crates, failed = pathlib.Path(__file__).resolve().parent.parent / "crates", 0
    paths = [pathlib.Path(programs or crates / name / "out").resolve() / name for name in PROGRAMS]
    for instance in range(int(number)):
        found = list(differences(1, paths, seed, instance))
        print("".join(text + "\n" for text in found), end="", flush=True)
        failed += found != []
    print("%d passed, %d failed" % (int(number) - failed, failed))
    return int(failed > 0)


if __name__ == "__main__":
    sys.exit(main(*sys.argv[1:]))
