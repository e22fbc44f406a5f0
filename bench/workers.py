#!/usr/bin/env python3
"""Measures a search of the usual week by several workers over a disk in memory: steps a second of one, two and four workers, whose advisers take about a
millisecond a step.

    bench/workers.py [--steps N] [--folder FOLDER] [--program PATH]

N is 2,000 where it isn't given, and the journal stands in `/dev/shm` where no other folder is named. The program is `run_workers` of `bench/programs/`."""
import pathlib
import tempfile

import building
import instances
import measured

RUNS = 3
ADVICE = 0.001  # seconds of a step's advice


def rate(asked, program, workers, times, folder):
    """Steps a second of so many workers who make each advice so many times, the best of some runs."""
    runs = [measured.run([program, instances.path_of("usual_week", folder), measured.fresh(folder / "journal"), asked.steps, workers, times]) for _ in range(RUNS)]
    return max(int(it.out) / it.elapsed for it in runs)


def main():
    parser = building.words_of(__doc__)
    parser.add_argument("--steps", type=int, default=2000)
    parser.add_argument("--folder", default="/dev/shm")
    asked = parser.parse_args()
    with tempfile.TemporaryDirectory(dir=asked.folder) as name, building.built(asked, "run_workers") as program:
        folder = pathlib.Path(name)
        once, again = (rate(asked, program, 1, times, folder) for times in (1, 11))
        each = (1 / again - 1 / once) / 10
        times = max(1, round(ADVICE / each))
        print("one advice takes %.3f ms; %d of them a step" % (each * 1000, times))
        one = rate(asked, program, 1, times, folder)
        for workers in (1, 2, 4):
            many = rate(asked, program, workers, times, folder)
            print("%d workers: %.0f steps a second, %.2f times those of one" % (workers, many, many / one), flush=True)
        print("greedy advice made once a step: %.0f steps a second by one worker, %.0f by four" % (once, rate(asked, program, 4, 1, folder)))


if __name__ == "__main__":
    main()
