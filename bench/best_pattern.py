#!/usr/bin/env python3
"""Measures what the best duty of a shift on a day takes at prices of slots, over all shifts and days of some instances: its value alone (`most_by_day`) and its
list with the value (`best_pattern` without bonuses), in nanoseconds for a shift and day, the best of some runs; and a loop of known work for comparing machines.

    bench/best_pattern.py [--runs K] [--program PATH] [DOCUMENT:ROUNDS..]

Each document is priced so many rounds, and K runs, 5 where no number is given, are made of each kind. The program is `price_rounds` of `bench/programs/`."""
import json
import tempfile

import building
import instances
import measured

VALUES, LISTS, LOOP = range(3)
ROUNDS = ["usual_week:20000", "call_week:1500", "break_week:600", "airport_week:300", "five_minutes_18:2", "five_minutes_48:1"]
STEPS = 10**9  # of the loop of known work


def seconds(asked, program, document, rounds, mode):
    return measured.quickest(asked.runs, lambda: measured.run([program, document, rounds, mode])).processors


def measure(asked, program, name, rounds, folder):
    path = instances.path_of(name, folder)
    document = json.loads(path.read_text())
    shifts = sum((it["start_max"] + 1 - it["start_min"]) * (it["len_max"] + 1 - it["len_min"]) for it in document["types"])
    calls = shifts * document["days"]
    empty = seconds(asked, program, path, 0, VALUES)
    value, listed = ((seconds(asked, program, path, rounds, mode) - empty) / (rounds * calls) * 1e9 for mode in (VALUES, LISTS))
    print("%-16s %6d shifts and days: value %9.0f ns, with list %9.0f ns, %8.3f ms to start" % (instances.name_of(name), calls, value, listed, empty * 1e3), flush=True)


def main():
    parser = building.words_of(__doc__)
    parser.add_argument("--runs", type=int, default=5)
    parser.add_argument("documents", nargs="*", default=ROUNDS)
    asked = parser.parse_args()
    with tempfile.TemporaryDirectory() as folder, building.built(asked, "price_rounds") as program:
        for name, _, rounds in (it.rpartition(":") for it in asked.documents):
            measure(asked, program, name, int(rounds), folder)
        loop = (seconds(asked, program, "-", steps, LOOP) for steps in (STEPS, 0))
        print("a step of the congruence of 32 bits: %.3f ns" % ((next(loop) - next(loop)) / STEPS * 1e9))


if __name__ == "__main__":
    main()
