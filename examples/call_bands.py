#!/usr/bin/env python3
"""Prints `call_bands_week.json`: a call centre's week whose needs are the fewest employees with whom callers are answered within 20 seconds
on average, and whose `need_max` the fewest with whom they are answered within 10. Rules and weights are those of `call_week.json`.

The formula is Erlang's for a queue with N employees, calls at random and calls of random length (Erlang C): with a load of A, the calls of a
second times the seconds of a call, a caller waits with the probability

    C(N, A) = B / (1 - A / N * (1 - B)), where B = B(N, A) and B(0, A) = 1, B(n, A) = A * B(n - 1, A) / (n + A * B(n - 1, A)),

and waits C(N, A) * length / (N - A) seconds on average."""
import json
import math
import pathlib

OPENS, CLOSES = 7, 22  # o'clock
CALLS = (9, 22, 40, 52, 54, 46, 36, 35, 40, 43, 38, 31, 28, 26, 20, 10)  # of a weekday, in a quarter of an hour, at each full hour from 07:00 to 22:00
DAYS = (1.15, 1.0, 0.95, 0.95, 1.05, 0.55, 0.35)  # Monday has most calls, Sunday fewest
LENGTH = 180  # seconds of a call, with what is written down behind it


def waiting(employees, load):
    """How likely a caller waits."""
    lost = 1.0
    for n in range(1, employees + 1):
        lost = load * lost / (n + load * lost)
    return lost / (1 - load / employees * (1 - lost))


def fewest(load, seconds):
    """The fewest employees with whom callers wait no longer on average."""
    employees = math.floor(load) + 1
    while waiting(employees, load) * LENGTH / (employees - load) > seconds:
        employees += 1
    return employees


def loads():
    """The load of each slot of the week, and 0 where nobody calls."""
    for day in DAYS:
        for quarter in range(96):
            hour, part = divmod(quarter, 4)
            if OPENS <= hour < CLOSES:
                here, next_hour = CALLS[hour - OPENS : hour - OPENS + 2]
                yield day * (here + (next_hour - here) * part / 4) / 900 * LENGTH
            else:
                yield 0.0


def document():
    week = json.loads((pathlib.Path(__file__).resolve().parent / "call_week.json").read_text())
    bands = [(fewest(load, 20), fewest(load, 10)) if load else (0, 0) for load in loads()]
    fields = {"need": [least for least, _ in bands], "need_max": [most for _, most in bands], "max_heads": week["max_heads"]}
    return {"slot_minutes": 15, "days": len(DAYS), **fields, "weights": week["weights"], "types": week["types"]}


def shown(value):
    """A field's value; a list on a line for each of its entries, or for each six hours of numbers."""
    if not isinstance(value, list):
        return json.dumps(value)
    entries = list(map(json.dumps, value))
    wide = 24 if isinstance(value[0], int) else 1
    lines = [", ".join(entries[first : first + wide]) for first in range(0, len(entries), wide)]
    return "[\n    " + ",\n    ".join(lines) + "\n  ]"


if __name__ == "__main__":
    print("{\n  " + ",\n  ".join(json.dumps(name) + ": " + shown(value) for name, value in document().items()) + "\n}")
