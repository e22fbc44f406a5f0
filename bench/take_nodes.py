#!/usr/bin/env python3
"""Measures the takes from a book of many open nodes: writes a journal of splits behind the head that the book makes of an empty file, has a program open it, and
tells the time of each of its sixteen takes, one for each worker.

    bench/take_nodes.py [--splits N] [--program PATH]

N is 999,999 where it isn't given, which leaves a million open nodes; a journal without splits is opened first. Each journal is opened three times. The program is
`take_nodes` of `bench/programs/`."""
import pathlib
import tempfile

import building
import journals
import measured

RUNS = 3


def show(program, journal, nodes):
    for _ in range(RUNS):
        run = measured.run([program, journal])
        takes = sorted(int(it) / 1000 for it in run.out.split())
        print("%7d open nodes: opened in %.2f s; %d takes, the longest %.1f us, the median %.1f us"
              % (nodes, run.elapsed, len(takes), takes[-1], takes[len(takes) // 2]), flush=True)


def main():
    parser = building.words_of(__doc__)
    parser.add_argument("--splits", type=int, default=999_999)
    asked = parser.parse_args()
    with tempfile.TemporaryDirectory() as folder, building.built(asked, "take_nodes") as program:
        for splits in (0, asked.splits):
            journal = pathlib.Path(folder) / ("journal_%d" % splits)
            journal.touch()
            measured.run([program, journal])
            journal.write_bytes(journals.with_more(journal.read_bytes(), journals.splits(splits)))
            show(program, journal, splits + 1)


if __name__ == "__main__":
    main()
