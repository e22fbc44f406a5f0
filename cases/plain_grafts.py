#!/usr/bin/env python3
"""Runs of `graft_run` on random instances, beside a second reading of what docs/DEFINITIONS.md says of runs below a node: which numbers their nodes get in
the report into which they are grafted, that each line is good from the node's cuts on, which node each step takes, what the plan and the bound are, that a run
that left no node open found the cheapest rota, and which nodes are listed as open. Words: the number of instances (100 where none is given), a seed (1), and a folder that holds the
programs (where none is given, they are taken as they are built). Prints each difference, and last `N passed, M failed`, counted in instances."""
import itertools
import math
import pathlib
import random
import sys
import tempfile

sys.dont_write_bytecode = True
sys.path.insert(0, str(pathlib.Path(__file__).resolve().parent))
from plain_reading import MOST_COST, MOST_ROTAS, Nodes, Priced, Row, Split, Trial, read_field, read_report, report_text

PROGRAMS = ("shift_solve", "shift_check", "graft_run")


def renumbered(lines, number):
    """The same lines, each of the node of another number."""
    return [line._replace(node=number(line.node)) for line in lines]


def splits_of(lines):
    return sum(isinstance(line, Split) for line in lines)


def apart(whole, node, grown):
    """The lines of a run that were grafted at a node behind these lines, with the node as their root; the parts of their own splits come next."""
    own = 2 * splits_of(whole)
    places = {node: 0}
    for place in range(1, 2 * splits_of(grown) + 1):
        places[own + place] = place
    return renumbered(grown, lambda number: places.get(number, -1))


def below(reading, cuts, lines):
    """The nodes of a run below some cuts, and what is wrong with its lines: each is good, and each step takes the first of the least nodes."""
    nodes, faults, closed = Nodes(reading), [], True
    nodes[0], nodes.found = (cuts, 0), 0
    for line in lines:
        if isinstance(line, Priced):
            first = min((floor, number) for number, (_, floor) in nodes.items())[1]
            faults += ["a step takes node %d, and not %d" % (line.node, first)] * (line.node != first)
            closed = False
        else:
            faults += ["two lines close a node in one step"] * closed
            closed = True
        if not nodes.take(line):
            faults.append("a line isn't good from the node's cuts on: %s" % (line,))
            return nodes, faults
    return nodes, faults


def held(rows, place):
    return sum(row.count for row in rows if (row.shift, row.day, row.breaks[: len(place[2])]) == place)


def meets(rows, cuts):
    return all(held(rows, cut.place) >= cut.number if cut.at_least else held(rows, cut.place) <= cut.number for cut in cuts)


def rotas(reading):
    """Each legal rota, as rows; none where they are many."""
    if math.prod(math.comb(len(reading.lists[shift]) + reading.heads, reading.heads) for shift, _ in reading.places) > MOST_ROTAS:
        return None
    several = [itertools.combinations_with_replacement([None] + reading.lists[shift], reading.heads) for shift, _ in reading.places]
    return [[Row(*place, 1, breaks) for place, duties in zip(reading.places, rota) for breaks in duties if breaks is not None] for rota in itertools.product(*several)]


def heads(rows):
    """How many duties each shift has on each day."""
    found = {}
    for row in rows:
        found[row.shift, row.day] = found.get((row.shift, row.day), 0) + row.count
    return found


class Grafts(Trial):
    """The programs beside the reading of one random instance."""

    def __init__(self, draw, folder, programs):
        super().__init__(draw, folder, *programs[:2])
        self.graft, self.rotas = programs[2], rotas(self.reading)

    def begun(self):
        """The report of a search of a few steps."""
        steps = str(self.draw.choice((0, 0, 1, 2, 3, 6)))
        _, text, _ = self.run([self.solve, "solve", self.folder / "journal", "--workers", "1", "--steps", steps], self.text)
        (self.folder / "report").write_text(text)
        return read_report(text)

    def least_cost(self, is_meant):
        """The least cost of the legal rotas that are meant, if they are few."""
        return None if self.rotas is None else min((self.reading.cost(rows) for rows in self.rotas if is_meant(rows)), default=MOST_COST)

    def below_faults(self, report):
        """What is wrong with the report after a run below some node, and that report."""
        reading, nodes = self.reading, Nodes(self.reading)
        for line in report.lines:
            nodes.take(line)
        node, steps = self.draw.choice(sorted(nodes)), self.draw.choice((0, 1, 2, 5, 40))
        cuts = nodes[node][0]
        status, text, said = self.run([self.graft, "below", self.folder / "instance", self.folder / "report", str(node), str(steps)], "")
        if (status, said) != (0, ""):
            return ["below %d %d ends with %d: %s%s" % (node, steps, status, text, said)], report
        after = read_report(text)
        grown = apart(report.lines, node, after.lines[len(report.lines) :])
        run, faults = below(reading, cuts, grown)
        taken = sum(isinstance(line, Priced) for line in grown)
        top = min(report.cost, after.cost)
        is_finished = all(top <= floor for _, floor in run.values())
        least = self.least_cost(lambda rows: meets(rows, cuts))
        answer = self.run([self.check, "check", self.folder / "instance", "/dev/stdin"], text)
        holds = [
            ("the report's own lines aren't kept", after.lines[: len(report.lines)] == report.lines),
            ("%d of %d steps were taken, and nodes are open" % (taken, steps), taken == steps or taken < steps and is_finished),
            ("the text isn't that of the report", text == report_text(after)),
            ("check answers %s, the reading says %s" % (answer, reading.check(after)), answer == (0, reading.check(after) + "\n", "")),
            ("the bound is %d and was %d" % (after.bound, report.bound), report.bound <= after.bound),
            ("a plan as dear is another one", after.cost < report.cost or after.rows == report.rows),
            ("a cheaper plan isn't below the node", after.cost == report.cost or after.cost < report.cost and meets(after.rows, cuts)),
            ("the status is %s" % after.status, after.status == ("optimal" if after.cost == after.bound else "stopped")),
            ("the least cost below the node is %s" % least, least is None or not is_finished or top == min(report.cost, least)),
        ]
        whole = Nodes(reading)
        holds.append(("the bound isn't what all lines show", all([whole.take(line) for line in after.lines]) and after.bound == whole.found))
        return faults + [fault for fault, is_so in holds if not is_so], after

    def breaks_faults(self, report):
        """What is wrong with the breaks that are planned anew."""
        steps = self.draw.choice((0, 1, 3, 40))
        status, text, said = self.run([self.graft, "breaks", self.folder / "instance", self.folder / "report", str(steps)], "")
        if (status, said) != (0, ""):
            return ["breaks %d ends with %d: %s%s" % (steps, status, text, said)]
        first, *lines, last = [line.split(" ") for line in text.splitlines()]
        rows = [Row(*map(read_field, Row._fields, words[1:])) for words in lines]
        word, cost, bound = first[1], int(first[3]), int(first[5])
        least = self.least_cost(lambda others: heads(others) == heads(report.rows))
        holds = [
            ("the lines are %s and %s" % (first, last), (first[0], first[2], first[4], last) == ("breaks", "cost", "bound", ["end"])),
            ("the rows aren't legal at their cost", self.reading.are_legal(rows) and self.reading.cost(rows) == cost),
            ("a shift has other heads", heads(rows) == heads(report.rows)),
            ("the bound is %d, and the least cost %s" % (bound, least), bound <= cost <= report.cost and (least is None or bound <= least)),
            ("%s at %d, and the least cost is %s" % (word, cost, least), word == ("optimal" if cost == bound else "stopped") and (least is None or word != "optimal" or cost == least)),
        ]
        return [fault for fault, is_so in holds if not is_so]

    def nodes_faults(self, report):
        """What is wrong with the open nodes that are listed."""
        most, nodes = self.draw.choice((0, 1, 2, 5, 1000)), Nodes(self.reading)
        for line in report.lines:
            nodes.take(line)
        opened = sorted((floor, number, len(cuts)) for number, (cuts, floor) in nodes.items() if floor < report.cost)
        wanted = "".join("node %d floor %d cuts %d\n" % (number, floor, cuts) for floor, number, cuts in opened[:most])
        answer = self.run([self.graft, "nodes", self.folder / "instance", self.folder / "report", str(most)], "")
        return ["nodes %d answers %s, the reading says %s" % (most, answer, wanted)] * (answer != (0, wanted, ""))

    def faults(self):
        """What is wrong with some runs one after another, each in the report of the last."""
        report, found = self.begun(), []
        for _ in range(self.draw.randint(1, 3)):
            faults, report = self.below_faults(report)
            found += faults
            (self.folder / "report").write_text(report_text(report))
        return found + self.nodes_faults(report) + self.breaks_faults(report)


def differences(number, programs, seed=1, first=0):
    """The differences between the programs and the reading over that many random instances, from one on."""
    for instance in range(first, first + number):
        with tempfile.TemporaryDirectory() as folder:
            trial = Grafts(random.Random("grafts %s %d" % (seed, instance)), pathlib.Path(folder), programs)
            for fault in trial.faults():
                yield "instance %d of seed %s: %s\n%s" % (instance, seed, fault, trial.text)


def main(number="100", seed="1", programs=None):
    crates, failed = pathlib.Path(__file__).resolve().parent.parent / "crates", 0
    paths = [pathlib.Path(programs or crates / name / "out").resolve() / name for name in PROGRAMS]
    for instance in range(int(number)):
        found = list(differences(1, paths, seed, instance))
        print("".join(text + "\n" for text in found), end="", flush=True)
        failed += found != []
    print("%d passed, %d failed" % (int(number) - failed, failed))
    return int(failed > 0)


if __name__ == "__main__":
    sys.exit(main(*sys.argv[1:]))
