#!/usr/bin/env python3
"""Measures moves on plans: moves that are applied to the greedy plan of an instance and undone, of each kind and of all kinds, drawn at random, in microseconds
each; a descent of at most 1,000 moves; and the plan of the adviser of such descents, in seconds, the best of some runs.

    bench/moves.py [--moves N] [--runs K] [--program PATH] [DOCUMENT..]

N is 100,000 and K is 5 where they aren't given, and the documents are the greater examples and the airport week. The program is `move_rounds` of
`bench/programs/`."""
import tempfile

import building
import instances
import measured

KINDS = ["drop", "rebreak", "add", "reshift", "any"]
WHOLE = {5: "descent", 6: "adviser"}
MOST = 1000  # moves of a descent
DOCUMENTS = ["usual_week", "ward_week", "control_week", "call_week", "airport_day", "airport_week"]


def best(asked, program, kind, path, count):
    """The run with the least elapsed seconds."""
    return min((measured.run([program, kind, path, count]) for _ in range(asked.runs)), key=lambda it: it.elapsed)


def measure(asked, program, name, folder):
    path, name = instances.path_of(name, folder), instances.name_of(name)
    for kind, word in enumerate(KINDS):
        empty, full = (best(asked, program, kind, path, count).elapsed for count in (0, asked.moves))
        print("%-14s %-8s %8.2f us each" % (name, word, (full - empty) / asked.moves * 1e6), flush=True)
    for kind, word in WHOLE.items():
        empty, full = (best(asked, program, kind, path, count) for count in (0, MOST))
        print("%-14s %s of at most 1,000 moves %.3f s, cost from %s to %s" % (name, word, full.elapsed - empty.elapsed, *full.out.split()), flush=True)


def main():
    parser = building.words_of(__doc__)
    parser.add_argument("--moves", type=int, default=100_000)
    parser.add_argument("--runs", type=int, default=5)
    parser.add_argument("documents", nargs="*", default=DOCUMENTS)
    asked = parser.parse_args()
    with tempfile.TemporaryDirectory() as folder, building.built(asked, "move_rounds") as program:
        for name in asked.documents:
            measure(asked, program, name, folder)


if __name__ == "__main__":
    main()
