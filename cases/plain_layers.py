#!/usr/bin/env python3
"""A plain reading of docs/DEFINITIONS.md over instances of five-minute slots whose break lists are too many to enumerate, beside what `shift_solve` and
`shift_check` answer: in turn one whose graph of break lists is larger than an instance keeps, and one of several days whose graph is kept, but so large
that the solver goes by layers. What the rests of break lists earn is found break by break from the end of the shift to its start, over each break that
may come next. Words: the number of random instances (1 where none is given) and a seed (1). Prints each difference with the instance and the report
that show it, and last `N passed, M failed`. Build both programs first."""
import functools
import itertools
import json
import operator
import pathlib
import random
import sys
import tempfile

import plain_reading
from plain_reading import MOST_COST, Priced, Report, Split

NEVER = -(10**30)        # what is earned where no list is legal


class Rests:
    """What the ways to go on from each spot of a shift earn at most: a spot is an offset, the break time used and whether there was a lunch."""
    def __init__(self, rule, prices):
        self.rule, self.sums = rule, [0, *itertools.accumulate(prices)]
        self.length, self.total = len(prices), rule["totals"][0][1]
        self.lunch = tuple(rule["lunches"][0][1:])
        self.rows = {}
        for used in range(self.total, -1, -1):
            for had in (True, False):
                self.rows[used, had] = [self.worth(offset, used, had) for offset in range(self.length + 1)]

    def resumes(self, offset):
        """The offset at which work begins again behind a break that ends there."""
        return offset + self.rule["resettle"] * (offset > 0)

    def starts(self, offset, size):
        """The starts that a break of a size may have behind an offset."""
        rule = self.rule
        longest = rule["work_max"] if size >= rule["long_rest"] else min(rule["work_max"], rule["long_work"])
        return range(max(rule["lead"], offset + rule["work_min"]), min(self.length - rule["tail"] - size, offset + longest) + 1)

    def pieces(self, starts, size):
        """Those starts in pieces, each with whether a break of the size is a lunch there."""
        wanted, first, last = self.lunch
        within = range(max(starts.start, first), min(starts.stop, last - size + 1)) if size == wanted else range(0)
        if not within:
            return [(starts, False)]
        return [(range(starts.start, within.start), False), (within, True), (range(within.stop, starts.stop), False)]

    def ways(self, offset, used):
        """The breaks that may come next, as a size and starts of which all or none are lunches."""
        sizes = range(self.rule["size_min"], min(self.rule["size_max"], self.total - used) + 1)
        return [(size, *piece) for size in sizes for piece in self.pieces(self.starts(offset, size), size) if piece[0]]

    def worth(self, offset, used, had):
        """What the ways to go on from a spot earn at most."""
        begin, rule = self.sums[min(self.length, self.resumes(offset))], self.rule
        if used == self.total:
            return self.sums[self.length] - begin if had and rule["work_min"] <= self.length - offset <= rule["work_max"] else NEVER
        most = NEVER
        for size, starts, is_lunch in self.ways(offset, used):
            behind = self.rows[used + size, had or is_lunch][starts.start + size : starts.stop + size]
            most = max(most, max(map(operator.add, self.sums[starts.start : starts.stop], behind)))
        return most - begin if most > NEVER // 2 else NEVER

    def behind(self, breaks):
        """The spot behind some breaks, and the prices that are earned up to it."""
        spot, earned = (0, 0, False), 0
        for start, size in breaks:
            offset, used, had = spot
            fits = any(size == other and start in starts for other, starts, _ in self.ways(offset, used))
            earned += self.sums[start] - self.sums[self.resumes(offset)] if fits else NEVER
            is_lunch = size == self.lunch[0] and self.lunch[1] <= start <= self.lunch[2] - size
            spot = start + size, min(self.total, used + size), had or is_lunch
        return spot, earned

    def best(self, bonuses, front=()):
        """The greatest worth of a legal list that begins with some breaks: what it earns, and the bonuses of its beginnings."""
        (offset, used, had), earned = self.behind(front)
        here = sum(bonus for prefix, bonus in bonuses if prefix == front)
        longer = {prefix[: len(front) + 1] for prefix, _ in bonuses if len(prefix) > len(front) and prefix[: len(front)] == front}
        rest = self.rows[used, had][offset]
        if earned < NEVER // 2 or rest < NEVER // 2:
            return NEVER
        if not longer:
            return earned + rest + here
        others, begin = NEVER, self.sums[min(self.length, self.resumes(offset))]
        for size, starts, is_lunch in self.ways(offset, used):
            row = self.rows[used + size, had or is_lunch]
            others = max([others] + [earned - begin + self.sums[start] + row[start + size] for start in starts if (*front, (start, size)) not in longer])
        return here + max([others] + [self.best(bonuses, prefix) for prefix in longer])


class LongReading(plain_reading.Reading):
    """What the definitions say of an instance with such shifts."""
    @functools.lru_cache(maxsize=None)
    def rests(self, shift, day, prices):
        rule, length, begin = self.shifts[shift]
        return Rests(rule, [prices[(day * self.day_slots + begin + offset) % len(self.need)] for offset in range(length)])

    def term(self, cuts, scale, prices, cut_prices, shift):
        signed = [(cut.place, price if cut.at_least else -price) for cut, price in zip(cuts, cut_prices) if cut.place[2]]
        bonuses = lambda day: [(place[2], price) for place, price in signed if place[:2] == (shift, day)]
        values = [self.rests(shift, day, prices).best(bonuses(day)) for day in range(self.days)]
        spans = [self.span(cuts, (shift, day, ())) for day in range(self.days)]
        if any(low > 0 for low, _ in spans):
            return scale * self.shift - sum(max(value * low, value * high) for value, (low, high) in zip(values, spans))
        return min(0, scale * self.shift - sum(max(0, value * high) for value, (_, high) in zip(values, spans)))


class LongTrial(plain_reading.Trial):
    """The programs beside the reading of one random instance with such shifts."""
    def __init__(self, number, draw, folder, solve, check):
        self.number, self.draw, self.folder, self.solve, self.check = number, draw, folder, solve, check
        document = self.document()
        self.reading, self.text = LongReading(document), json.dumps(document)
        (folder / "instance").write_text(self.text)

    def document(self):
        draw = self.draw
        rule, kind, days = self.long_shift() if self.number % 2 == 0 else self.short_shifts()
        kind.update(name="day", breaks={"lead": 6, "tail": 6, "size_min": 1, "resettle": draw.randint(0, 1), **rule})
        need = [draw.choice((0, 1, 1, 1, 2)) for _ in range(days * 288)]
        weights = {"excess": draw.randint(1, 3), "shortage": draw.randint(3, 9), "shift": draw.randint(0, 50)}
        return {"slot_minutes": 5, "days": days, "need": need, "max_heads": 1, "weights": weights, "types": [kind]}

    def long_shift(self):
        """A rule whose graph has some 18 million edges, the window of one shift, and one day."""
        draw = self.draw
        rule = {"work_min": 5, "work_max": 200, "long_work": 140, "long_rest": draw.randint(3, 6), "size_max": 24}
        rule.update(totals=[[276, 48]], lunches=[[276, draw.randint(6, 12), 60, 200]])
        return rule, {"start_min": 6, "start_max": 6, "len_min": 276, "len_max": 276}, 1

    def short_shifts(self):
        """A rule whose graph has some 100,000 edges, the window of two shifts, and some days."""
        draw = self.draw
        rule = {"work_min": 3, "work_max": 48, "long_work": 24, "long_rest": draw.randint(2, 4), "size_max": 12}
        rule.update(totals=[[96, 18]], lunches=[[96, draw.randint(3, 12), 30, 66]])
        return rule, {"start_min": 60, "start_max": 61, "len_min": 96, "len_max": 96}, draw.randint(2, 7)

    def lines(self):
        """Proof lines that split by a first break and by one behind it, and price the parts by random prices."""
        draw, nodes = self.draw, plain_reading.Nodes(self.reading)
        first, second = (draw.randint(20, 50), draw.randint(1, 9)), (draw.randint(70, 99), draw.randint(1, 9))
        for split in (Split(0, 0, 0, (), 0), Split(2, 0, 0, (first,), 0), Split(4, 0, 0, (first, second), 0)):
            nodes.take(split)
        scale, prices, _ = self.prices(())
        for node, (cuts, _) in sorted(nodes.items()):
            nodes.take(Priced(node, scale, prices, tuple(draw.choice((0, draw.randint(0, 40 * scale))) if cut.place[2] else 0 for cut in cuts)))
        return nodes.lines

    def faults(self, steps):
        """Where the programs and the reading differ, each with the text of the report that shows it."""
        status, text, said = self.run([self.solve, "solve", self.folder / "journal", "--workers", "1", "--steps", str(steps)], self.text)
        if status not in (0, 10):
            return [("solve ends with %d: %s" % (status, said), text)]
        report, made = plain_reading.read_report(text), self.lines()
        claimed = report._replace(status="bound", cost="-", rows=None, bound=MOST_COST + 1)
        found = []
        for word, one in (("check", report), ("recount", report), ("check", claimed), ("check", claimed._replace(lines=made))):
            line = getattr(self.reading, word)(one)
            answer = self.run([self.check, word, self.folder / "instance", "/dev/stdin"], plain_reading.report_text(one))
            if answer != (int(line.startswith("refused")), line + "\n", ""):
                found.append(("%s answers %s, the reading says %s" % (word, answer, line), plain_reading.report_text(one)))
        return found


def differences(number, solve, check, seed=1, steps=4):
    """The differences between the programs and the reading over that many random instances."""
    for instance in range(number):
        with tempfile.TemporaryDirectory() as folder:
            trial = LongTrial(instance, random.Random("%s %d" % (seed, instance)), pathlib.Path(folder), solve, check)
            for fault, report in trial.faults(steps):
                yield "instance %d of seed %s: %s\n%s\n%s" % (instance, seed, fault, trial.text, report)


def main(number="1", seed="1"):
    crates = pathlib.Path(__file__).resolve().parent.parent / "crates"
    solve, check = (crates / name / "out" / name for name in ("shift_solve", "shift_check"))
    found = list(differences(int(number), solve, check, seed))
    print("".join(text + "\n" for text in found), end="", flush=True)
    failed = len({text.split(":")[0] for text in found})
    print("%d passed, %d failed" % (int(number) - failed, failed))
    return int(failed > 0)


if __name__ == "__main__":
    sys.exit(main(*sys.argv[1:]))
