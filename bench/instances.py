#!/usr/bin/env python3
"""Makes the documents of the measures that don't stand in `examples/`, the same at each call.

    bench/instances.py NAME [FILE]

The document of that name is written to the file, or printed. The names:

    quarter_week              a week of 15-minute slots with 16 types, 1,008 shifts, needs up to 60 and no breaks
    break_week                a week of 15-minute slots with 360 shifts of 28 to 36 slots, two to four of them breaks
    day, day_breaks           a day of five-minute slots with one shift of 96 slots: without breaks; with 12 slots of them in pieces of 1 to 6;
    and day_lunch             the same with a lunch of 6 and rest after long work
    five_minutes_18           a week of five-minute slots with 1,024 shifts of 96 slots, 18 of them breaks: the graph of a rule has some 120,000 edges
    and five_minutes_48       the same with 48 slots of breaks: some 390,000 edges
    greatest, greatest_N      the greatest instance that the limits allow: 2,016 slots of five minutes, 16 types with 64 (or N) lengths up to 288 slots each, no
                              two shifts with one graph, 48 slots of breaks in pieces of 1 to 48, and two lunches
    airport_week              the airport day of `examples/` seven times
"""
import json
import pathlib
import sys

EXAMPLES = pathlib.Path(__file__).resolve().parent.parent / "examples"
WEIGHTS = {"excess": 1, "shortage": 4, "shift": 40}
DAY = 288  # slots of five minutes
RULE = {"lead": 0, "tail": 0, "work_min": 1, "work_max": 96, "long_work": 96, "long_rest": 1, "size_min": 1, "size_max": 6, "totals": [], "lunches": [], "resettle": 0}


def numbers(seed):
    """Whole numbers below 2^16, one after another."""
    while True:
        seed = (seed * 1664525 + 1013904223) % 2**32
        yield seed >> 16


def needs(minutes):
    """A low night, a peak in the morning and one in the evening, in slots of so many minutes; weekends are quieter."""
    draw, need, per_day = numbers(20261127), [], 1440 // minutes
    for slot in range(7 * per_day):
        day, hour = slot // per_day, slot % per_day * minutes / 60
        base = 54 if 9 <= hour < 13 else 46 if 16 <= hour < 20 else 24 if 6 <= hour < 22 else 8
        need.append(min(60, (base * 2 // 3 if day >= 5 else base) + next(draw) % 7))
    return need


def week(minutes, types):
    return {"slot_minutes": minutes, "days": 7, "need": needs(minutes), "max_heads": 200, "weights": WEIGHTS, "types": types}


def shift_type(number, starts, lengths, breaks):
    return {"name": "t%d" % number, "start_min": starts[0], "start_max": starts[1], "len_min": lengths[0], "len_max": lengths[1], "breaks": breaks}


def quarter_week():
    return week(15, [shift_type(it, (6 * it, 6 * it + 8), (24 + it % 4, 30 + it % 4), None) for it in range(16)])


def break_week():
    rule = {**RULE, "lead": 6, "tail": 4, "work_min": 4, "work_max": 14, "long_work": 10, "long_rest": 2, "size_max": 2,
            "totals": [[20, 2], [28, 4]], "lunches": [[28, 2, 12, 22]]}
    starts = [(20, 32), (36, 44), (52, 60), (84, 92)]
    return week(15, [shift_type(number, pair, (28, 36), rule) for number, pair in enumerate(starts)])


def one_day(rule):
    """One employee is wanted from 8:00 to 16:00, and one shift has that length."""
    need = [1 if 96 <= slot < 192 else 0 for slot in range(DAY)]
    return {"slot_minutes": 5, "days": 1, "need": need, "max_heads": 1, "weights": {"excess": 1, "shortage": 2, "shift": 3},
            "types": [shift_type(0, (96, 96), (96, 96), rule)]}


def day_lunch():
    return one_day({**RULE, "lead": 6, "tail": 6, "work_min": 6, "work_max": 30, "long_work": 20, "long_rest": 2, "totals": [[96, 12]],
                    "lunches": [[72, 6, 36, 66]], "resettle": 1})


def five_minutes(total, least, most, longest, lunches):
    """Four types with 256 starts each. The longest stretch of work differs from type to type, so that no two types have one rule."""
    rule = {**RULE, "lead": 6, "tail": 6, "work_min": least, "long_work": 24, "long_rest": 2, "size_max": longest, "totals": [[96, total]], "lunches": lunches}
    return week(5, [shift_type(it, (0, 255), (96, 96), {**rule, "work_max": most - it}) for it in range(4)])


def greatest(lengths):
    """Each type has one start, and its rule lets no duty work longer than it does; so no two types have one rule."""
    rule = {**RULE, "long_work": DAY, "size_max": 48, "totals": [[0, 48]], "lunches": [[0, 6, 72, 144], [0, 6, 144, 216]]}
    return week(5, [shift_type(it, (18 * it, 18 * it), (DAY + 1 - lengths, DAY), {**rule, "work_max": DAY - it}) for it in range(16)])


def airport_week():
    day = json.loads((EXAMPLES / "airport_day.json").read_text())
    return {**day, "days": 7, "need": day["need"] * 7}


MADE = {
    "quarter_week": quarter_week, "break_week": break_week, "airport_week": airport_week,
    "day": lambda: one_day(None), "day_breaks": lambda: one_day({**RULE, "totals": [[96, 12]]}), "day_lunch": day_lunch,
    "five_minutes_18": lambda: five_minutes(18, 3, 48, 6, []), "five_minutes_48": lambda: five_minutes(48, 2, 96, 48, [[72, 6, 36, 66]]),
    "greatest": lambda: greatest(64),
}


def examples():
    """The names of the documents in `examples/`."""
    return sorted(path.stem for path in EXAMPLES.glob("*.json"))


def text_of(name):
    """The text of a document: of a made one by its name, of an example by its name, or of a file by its path."""
    word, _, count = name.rpartition("_")
    if word == "greatest" and count.isdigit():
        return json.dumps(greatest(int(count)))
    if name in MADE:
        return json.dumps(MADE[name]())
    example = EXAMPLES / (name + ".json")
    return (example if example.is_file() else pathlib.Path(name)).read_text()


def path_of(name, folder):
    """The path of a document, which is written into the folder where it is a made one."""
    example = EXAMPLES / (name + ".json")
    if example.is_file() or pathlib.Path(name).is_file():
        return example if example.is_file() else pathlib.Path(name).resolve()
    path = pathlib.Path(folder) / (name + ".json")
    path.write_text(text_of(name))
    return path


def name_of(document):
    """How a document is called in a table."""
    return pathlib.Path(document).stem


def main(name, file=None):
    text = text_of(name) + "\n"
    sys.stdout.write(text) if file is None else pathlib.Path(file).write_text(text)


if __name__ == "__main__":
    main(*sys.argv[1:])
