#!/usr/bin/env python3
"""Reckons what rounds of searches on many machines gain, from short searches below single nodes that it measures on this one.

    bench/rounds.py [--begin B] [--seconds S | --steps S] [--tasks K] [--length T] [--rounds R] [--machines N..] [--programs FOLDER] [--] [FILE..]

Each instance (the call week and the control week where no file is named) is searched for B seconds by `shift_plan plan`. Below K of the open nodes that
hold its bound down `graft_run below --thorough` then searches for S seconds or steps, as many at once as there are processors. The floors that each search
leaves below its node, and the bytes that it adds to the report, are the measured gains. From them R rounds of T seconds or steps on N machines are played,
and the bound after each is printed, the mean of some plays, with what is assumed. B is 30, S 10 seconds, K 12, T 300, R 10 and N 1, 10 and 100 where they
aren't given.
The programs are those of `bin/` where no folder of shift_plan and graft_run is given."""
import concurrent.futures
import heapq
import os
import pathlib
import random
import statistics
import tempfile

import instances
import measured

REPORT_MOST = 268435456  # bytes that a report may have
PLAYS = 5
ASSUMED = """Assumed: a task of %d %s does what tasks of %d %s do one after another, each below the node of least floor that is left of it; what lies
below a node of any depth gains what one of the measured tasks gained, drawn by chance; a machine gives a task one processor of this one's speed; no task
is lost, no cheaper plan is found, and joining takes no time; what a report of %d bytes has no room for is dropped."""


class Report:
    """A report of an instance: its size, what it claims, and the floors of its open nodes by their numbers, the least first."""

    def __init__(self, programs, instance, path):
        self.path, self.size, head = path, path.stat().st_size, measured.head_of(path)
        self.cost, self.bound = int(head["cost"]), int(head["bound"])
        graft = measured.program(programs, "graft_run")
        rows = [line.split() for line in measured.run([graft, "nodes", instance, path, 10**9]).out.splitlines()]
        self.floors = {int(row[1]): int(row[3]) for row in rows}


class Gain:
    """What a task left below its node: how much the floors there lie above the node's, and the bytes that it added."""

    def __init__(self, whole, part, node):
        self.floors = [floor - whole.floors[node] for number, floor in part.floors.items() if number == node or number not in whole.floors]
        self.bytes = part.size - whole.size


def begun(asked, instance, folder):
    """The report of a search of some seconds."""
    words = ["--seconds", asked.begin, "--out", folder / "plan", "--journal", folder / "journal"]
    measured.run([measured.program(asked.programs, "shift_plan"), "plan", instance, *words])
    return Report(asked.programs, instance, folder / "plan" / "report")


def gain_of(asked, instance, whole, node):
    """The gain of a task that searches below a node; None where it had no time for a step."""
    path = whole.path.with_name("part_%d" % node)
    most = [asked.steps] if asked.steps else ["--seconds", asked.seconds]
    graft = measured.program(asked.programs, "graft_run")
    measured.run([graft, "below", instance, whole.path, node, *most, "--thorough"], target=path)
    gain = Gain(whole, Report(asked.programs, instance, path), node)
    return gain if gain.bytes else None


def gains_of(asked, instance, whole):
    """The gains of tasks below nodes that are taken evenly from those that a round of the most machines takes."""
    nodes = list(whole.floors)[: max(asked.machines)]
    chosen = nodes[:: -(-len(nodes) // asked.tasks)] if nodes else []
    with concurrent.futures.ThreadPoolExecutor(os.cpu_count()) as pool:
        gains = list(pool.map(lambda node: gain_of(asked, instance, whole, node), chosen))
    return [gain for gain in gains if gain]


def play_task(floor, cost, chunks, gains, draw):
    """The floors that a task leaves below a node of that floor, and the bytes that it adds."""
    floors, size = [floor], 0
    for _ in range(chunks):
        if not floors:
            break
        least, gain = heapq.heappop(floors), draw.choice(gains)
        size += gain.bytes
        for more in gain.floors:
            if least + more < cost:
                heapq.heappush(floors, least + more)
    return floors, size


def play_round(floors, size, machines, cost, chunks, gains, draw):
    """The floors after a round over those in the heap, and the size of the report then."""
    taken = [heapq.heappop(floors) for _ in range(min(machines, len(floors)))]
    for floor in taken:
        below, more = play_task(floor, cost, chunks, gains, draw)
        if size + more > REPORT_MOST:
            below, more = [floor], 0
        size += more
        for it in below:
            heapq.heappush(floors, it)
    return size


def play(asked, whole, gains, machines, seed):
    """The bound after each round, and the size of the report after the last."""
    draw, floors, size, bounds = random.Random(seed), list(whole.floors.values()), whole.size, []
    heapq.heapify(floors)
    for _ in range(asked.rounds):
        size = play_round(floors, size, machines, whole.cost, max(1, asked.length // (asked.steps or asked.seconds)), gains, draw)
        bounds.append(floors[0] if floors else whole.cost)
    return bounds, size


def span(asked):
    """How long a measured task is, and the unit."""
    return (asked.steps, "steps") if asked.steps else (asked.seconds, "s")


def measure(asked, instance):
    """Prints what was measured of an instance, and the bounds of plays."""
    with tempfile.TemporaryDirectory() as folder:
        whole = begun(asked, instance, pathlib.Path(folder))
        gains = gains_of(asked, instance, whole)
    print("%s: cost %d, bound %d, %d open nodes, report of %.1f MB" % (instance.stem, whole.cost, whole.bound, len(whole.floors), whole.size / 1e6))
    if not gains:
        print("  no task took a step")
        return
    least, left, size = ([mean(gain) for gain in gains] for mean in (lambda it: min(it.floors, default=whole.cost - whole.bound), lambda it: len(it.floors), lambda it: it.bytes))
    print("  %d tasks of %s: the least floor rises by %.1f (%d to %d), %.0f nodes are left, %.3f MB are added, means" %
          (len(gains), "%d %s" % span(asked), statistics.mean(least), min(least), max(least), statistics.mean(left), statistics.mean(size) / 1e6))
    for machines in asked.machines:
        plays = [play(asked, whole, gains, machines, seed) for seed in range(PLAYS)]
        bounds = [statistics.mean(it) for it in zip(*(bounds for bounds, _ in plays))]
        print("  %4d machines: bounds %s; report of %.0f MB" % (machines, " ".join("%.0f" % it for it in bounds), statistics.mean(size for _, size in plays) / 1e6), flush=True)


def main():
    parser = measured.words_of(__doc__)
    for name, number in (("begin", 30), ("seconds", 10), ("tasks", 12), ("length", 300), ("rounds", 10), ("steps", None)):
        parser.add_argument("--" + name, type=int, default=number)
    parser.add_argument("--machines", type=int, nargs="+", default=[1, 10, 100])
    parser.add_argument("files", type=pathlib.Path, nargs="*", default=[instances.EXAMPLES / name for name in ("call_week.json", "control_week.json")])
    asked = parser.parse_args()
    for instance in asked.files:
        measure(asked, instance)
    most, unit = span(asked)
    print(ASSUMED % (asked.length, unit, most, unit, REPORT_MOST))


if __name__ == "__main__":
    main()
