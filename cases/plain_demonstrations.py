#!/usr/bin/env python3
"""A second reading of the generated instances and the greedy plan of docs/DEFINITIONS.md, beside the lines of `shift_solve solve --demo`. Of each
number these are compared: the line without a step, whose cost is twice the sum of the needs; the line after one step, whose cost is
that of the greedy plan where it has a duty; and the line after a few steps, whose cost and bound are those of the report of a search by as
many steps for the document that the reading makes of the number. Words: how many numbers (100 where none is given) and a seed (1).
Prints each difference, and last `N passed, M failed`, counted in numbers. Build `shift_solve` first."""
import json
import pathlib
import random
import subprocess
import sys
import tempfile

from plain_reading import Reading, Row

MOST_NUMBER = 999_999
RULE = {"lead": 2, "tail": 2, "work_min": 2, "work_max": 5, "long_work": 288, "long_rest": 1, "size_min": 1, "size_max": 1, "totals": [[8, 1]]}


def draws(number):
    """The draws of a number, from the first on."""
    state = number
    while True:
        state = (state * 1664525 + 1013904223) % 2**32
        yield state // 65536


def document_of(number):
    """The document of the instance that is made from a number."""
    drawn = draws(number)
    need = [2 + next(drawn) % 3 if 6 <= slot % 24 <= 21 else 1 for slot in range(7 * 24)]
    kinds = [{"name": name, "start_min": start, "start_max": start + 1, "len_min": 8, "len_max": 8, "breaks": RULE} for name, start in (("M", 6), ("A", 13), ("N", 21))]
    weights = {"excess": 1, "shortage": 2, "shift": 20}
    return {"slot_minutes": 60, "days": 7, "need": need, "max_heads": 12, "weights": weights, "types": kinds}


class Demonstration:
    """What the definitions say of the lines of a number."""
    def __init__(self, number):
        self.number, self.reading = number, Reading(document_of(number))

    def cost(self, duties):
        """The cost of duties, each a shift on a day with its breaks."""
        return self.reading.cost([Row(*place, 1, breaks) for place, breaks in duties])

    def marginal_prices(self, duties):
        """The price of each slot: what a duty more there takes from the cost."""
        reading = self.reading
        worked = [slot for place, breaks in duties for slot in reading.slots_worked(*place, breaks)]
        return [reading.shortage if worked.count(slot) < need else -reading.excess for slot, need in enumerate(reading.need)]

    def best_duty(self, prices, place):
        """The value of a shift on a day under prices, with its duty: the one of greatest value, the least among equals."""
        worth = lambda breaks: sum(prices[slot] for slot in self.reading.slots_worked(*place, breaks))
        breaks = max(self.reading.lists[place[0]], key=worth)
        return worth(breaks), (place, breaks)

    def round(self, duties):
        """The duties that a round of the greedy plan adds; none where the plan is ready."""
        reading, prices, found = self.reading, self.marginal_prices(duties), (0, [])
        for shift in range(len(reading.shifts)):
            several = [self.best_duty(prices, (shift, day)) for day in range(reading.days)]
            counted = [(value, duty) for value, duty in several if value > 0 and sum(place == duty[0] for place, _ in duties) < reading.heads]
            is_used = any(place[0] == shift for place, _ in duties)
            gain = sum(value for value, _ in counted) - (0 if is_used else reading.shift)
            if gain > found[0]:
                found = gain, [duty for _, duty in counted]
        return found[1]

    def greedy_cost(self):
        """The cost of the greedy plan."""
        duties, more = [], True
        while more:
            more = self.round(duties)
            duties = duties + more
        return self.cost(duties)

    def lines(self):
        """The numbers of a line without a step and of one after a step: its cost, its bound and its steps."""
        reading = self.reading
        most = reading.shortage * sum(reading.need)
        prices = tuple(reading.shortage if need > 0 else 0 for need in reading.need)
        cost = min(most, self.greedy_cost())
        return (most, 0, 0), (cost, min(cost, reading.bound((), 1, prices, ())), 1)


def ran(words, text=""):
    """The status and the texts of a program that reads a text."""
    done = subprocess.run(words, input=text, stdout=subprocess.PIPE, stderr=subprocess.PIPE, universal_newlines=True)
    return done.returncode, done.stdout, done.stderr


def searched(solve, number, steps):
    """The numbers of the line for a search by so many steps for the document of a number; none where it ends otherwise."""
    with tempfile.TemporaryDirectory() as folder:
        words = [solve, "solve", pathlib.Path(folder) / "journal", "--workers", "1", "--steps", str(steps)]
        status, report, _ = ran(words, json.dumps(document_of(number)))
    said = dict(line.split(" ", 1) for line in report.split("\n")[1:4]) if status == 10 else {}
    return (int(said["cost"]), int(said["bound"]), steps) if said.get("status") == "stopped" else None


def differences(numbers, solve, seed=1):
    """The differences between the lines of these numbers and those of the reading."""
    for number in numbers:
        few = random.Random("%s %d" % (seed, number)).randint(2, 9)
        for wanted in (*Demonstration(number).lines(), searched(solve, number, few)):
            if wanted is None:
                yield "demo %d: the search for its document by %d steps didn't end with `stopped`" % (number, few)
                continue
            line = "demo %d status stopped cost %d bound %d steps %d\n" % (number, *wanted)
            answer = ran([solve, "solve", "--demo", str(number), "--steps", str(wanted[2])])
            if answer != (10, line, "shift_solve: stopped: step budget spent\n"):
                yield "demo %d by %d steps: %s; the reading says %r" % (number, wanted[2], answer, line)


def some_numbers(count, seed=1):
    """So many numbers, the least and the greatest among them."""
    return ([0, MOST_NUMBER] + random.Random(seed).sample(range(1, MOST_NUMBER), max(0, count - 2)))[:count]


def main(count="100", seed="1"):
    solve, failed = pathlib.Path(__file__).resolve().parent.parent / "crates" / "shift_solve" / "out" / "shift_solve", 0
    for number in some_numbers(int(count), int(seed)):
        found = list(differences([number], solve, seed))
        print("".join(text + "\n" for text in found), end="", flush=True)
        failed += found != []
    print("%d passed, %d failed" % (int(count) - failed, failed))
    return int(failed > 0)


if __name__ == "__main__":
    sys.exit(main(*sys.argv[1:]))
