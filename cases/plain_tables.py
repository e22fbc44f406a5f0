#!/usr/bin/env python3
"""Reads the tables that `shift_plan export` writes, by docs/FORMATS.md alone: of each example and of random instances they hold the numbers of the
document, and `shift_plan import` writes the canonical text of the same instance from them, and from tables that say the same otherwise: with
semicolons, a byte order mark, decimal hours, columns in another order, and a row for each step in which the band stays the same. Words: the number of
random instances (1000 where none is given) and a seed (1). Prints what is wrong, and last `N passed, M failed`. Build `shift_plan` first."""
import csv
import io
import json
import pathlib
import random
import subprocess
import sys
import tempfile

TOP = pathlib.Path(__file__).resolve().parent.parent
PROGRAM = TOP / "crates" / "shift_plan" / "out" / "shift_plan"
INSTANCES = 1000
PLAIN = {"lead": 0, "tail": 0, "work_min": 1, "work_max": 288, "long_work": 288, "long_rest": 1, "size_min": 1, "size_max": 48, "totals": [],
         "lunches": [], "resettle": 0}
PARTS = ("lead", "tail", "work_min", "work_max", "long_work", "long_rest", "size_min", "size_max", "totals", "lunches", "resettle")
# a part that is left out where it has this number, as the format says
UNSAID = {"lead": 0, "tail": 0, "work_min": 1, "work_max": 288, "long_work": 288, "size_min": 1, "size_max": 48, "resettle": 0}
SIGNS = "=+-@'"
LETTERS = "abcXYZ019,;\"<>&.=+-@'"


def whole(document):
    """The document with every field, as its canonical text has it: `need_max` is left out where it is `need` once more."""
    types = [{**kind, "breaks": {**PLAIN, **(kind.get("breaks") or {})} if kind.get("breaks") else PLAIN} for kind in document["types"]]
    most = {"need_max": document["need_max"]} if document.get("need_max", document["need"]) != document["need"] else {}
    return {**{field: value for field, value in document.items() if field != "need_max"}, **most, "types": types}


def canonical(document):
    return json.dumps(whole(document), sort_keys=True, separators=(",", ":")).encode()


def guarded(name):
    return "'" + name if name[0] in SIGNS else name


class Tables:
    """The tables of a document, worked out by the format."""

    def __init__(self, document):
        self.document, self.minutes = whole(document), document["slot_minutes"]
        self.day_slots = 1440 // self.minutes

    def span(self, slots):
        return "%d:%02d" % divmod(slots * self.minutes, 60)

    def settings(self):
        weights = self.document["weights"]
        numbers = [self.minutes, self.document["days"], weights["excess"], weights["shortage"], weights["shift"], self.document["max_heads"]]
        return [["slot_minutes", "days", "excess", "shortage", "shift", "max_heads"], list(map(str, numbers))]

    def need(self):
        bands = zip(self.document["need"], self.document.get("need_max", self.document["need"]))
        rows = [[str(slot // self.day_slots + 1), self.span(slot % self.day_slots), str(need), "" if most == need else str(most)] for slot, (need, most) in enumerate(bands)]
        return [["day", "time", "need", "need_max"], *rows]

    def types(self):
        head = ["name", "first_start", "last_start", "shortest", "longest", "rule"]
        return [head, *([guarded(kind["name"]), *(self.span(kind[part]) for part in ("start_min", "start_max", "len_min", "len_max")),
                         guarded(kind["name"]) if kind["breaks"] != PLAIN else ""] for kind in self.document["types"])]

    def part(self, rule, part):
        value = rule[part]
        if part == "totals":
            return " ".join("%s=%s" % (self.span(length), self.span(total)) for length, total in value)
        if part == "lunches":
            return " ".join("%s=%s@%s-%s" % tuple(map(self.span, entry)) for entry in value)
        if part == "long_rest":
            return "" if (rule["long_work"], value) == (288, 1) else self.span(value)
        return "" if value == UNSAID[part] else self.span(value)

    def rules(self):
        ruled = [kind for kind in self.document["types"] if kind["breaks"] != PLAIN]
        return [["rule", *PARTS], *([guarded(kind["name"]), *(self.part(kind["breaks"], part) for part in PARTS)] for kind in ruled)]

    def all(self):
        return {"settings.csv": self.settings(), "need.csv": self.need(), "types.csv": self.types(), "rules.csv": self.rules()}


def decimal(draws, cell):
    """A time or a span otherwise: with hours in two digits, with seconds, or as hours with a decimal comma where that is exact."""
    hours, minutes = map(int, cell.split(":"))
    ways = ["%02d:%02d" % (hours, minutes), "%d:%02d:00" % (hours, minutes)]
    if minutes % 3 == 0:
        ways.append("%d,%02d" % (hours, minutes * 100 // 60))
    return draws.choice(ways)


def fewer(rows, day_slots):
    """The rows of needs without those of a step in which the band stays the same, where such a step divides the day."""
    head, rows = rows[0], rows[1:]
    kept = []
    for first in range(0, len(rows), day_slots):
        day = rows[first:first + day_slots]
        steps = [step for step in range(1, day_slots + 1)
                 if day_slots % step == 0 and all(len({tuple(row[2:]) for row in day[at:at + step]}) == 1 for at in range(0, day_slots, step))]
        kept += day[::max(steps)]
    return [head, *kept]


def stated(draws, rows):
    """The rows of needs without the column of the most wanted where no row has them, or with each of them."""
    if not any(row[3] for row in rows[1:]):
        return [row[:3] for row in rows]
    return [[*row[:3], row[3] or draws.choice(("", row[2]))] for row in rows]


def otherwise(draws, tables, day_slots):
    """The same tables as another spreadsheet writes them."""
    found = {}
    for name, rows in tables.items():
        rows = stated(draws, fewer(rows, day_slots)) if name == "need.csv" else rows
        spans = [place for place, column in enumerate(rows[0]) if column in ("time", "first_start", "last_start", "shortest", "longest", *UNSAID, "long_rest") and name != "settings.csv"]
        rows = [rows[0], *([decimal(draws, cell) if place in spans and cell else cell for place, cell in enumerate(row)] for row in rows[1:])]
        places = draws.sample(range(len(rows[0])), len(rows[0]))
        body = rows[1:] if name == "types.csv" else draws.sample(rows[1:], len(rows) - 1)
        rows = [[column.replace("_", " ").title() for column in rows[0]], *body]
        out = io.StringIO()
        csv.writer(out, delimiter=";", lineterminator="\r\n").writerows([[*(row[place] for place in places), ""] for row in rows])
        found[name] = ("\ufeff" + out.getvalue() + ";" * len(places) + "\r\n").encode()
    return found


class Draws(random.Random):
    """Random documents."""

    def name(self, names):
        while True:
            name = "".join(self.choice(LETTERS) for _ in range(self.randint(1, 6)))
            if name not in names:
                names.add(name)
                return name

    def rule(self):
        work, size = sorted(self.randint(1, 288) for _ in range(2)), sorted(self.randint(1, 48) for _ in range(2))
        lengths, most = sorted(self.sample(range(289), self.choice((0, 1, 2, 16)))), self.choice((2, 2, 2, 2, 2, 2, 2, 2, 2, 48))
        first = self.randint(0, 100)
        last = self.randint(first + 1, 140)
        lunches = [[self.randint(0, 288), self.randint(1, min(48, last - first)), first, last]][:self.randint(0, 1)]
        if lunches and self.random() < 0.5:
            lunches.append([self.randint(0, 288), self.randint(1, 48), last, self.randint(last + 48, 288)])
        long_work, long_rest = self.choice(((288, 1), (288, 5), (self.randint(0, 288), 1), (self.randint(0, 288), self.randint(0, 48))))
        return {"lead": self.choice((0, self.randint(0, 288))), "tail": self.choice((0, self.randint(0, 288))), "work_min": work[0], "work_max": work[1],
                "long_work": long_work, "long_rest": long_rest, "size_min": size[0], "size_max": size[1],
                "totals": [[length, self.randint(0, most)] for length in lengths], "lunches": lunches, "resettle": self.randint(0, 1)}

    def kind(self, day_slots, names):
        start, length = self.randint(0, 2 * day_slots - 1), self.randint(1, day_slots)
        return {"name": self.name(names), "start_min": start, "start_max": min(2 * day_slots - 1, start + self.randint(0, 7)), "len_min": length,
                "len_max": min(day_slots, length + self.randint(0, 7)), "breaks": self.choice((None, self.rule()))}

    def most(self, need):
        return self.choice((need, need, self.randint(need, 10000)))

    def document(self):
        minutes, days = self.choice((5, 10, 15, 20, 30, 60)), self.randint(1, 7)
        day_slots, names = 1440 // minutes, set()
        step = self.choice([step for step in range(1, day_slots + 1) if day_slots % step == 0])
        need = [count for _ in range(days * day_slots // step) for count in [self.choice((0, 1, self.randint(0, 10000)))] * step]
        most = [end for first in range(0, len(need), step) for end in [self.most(need[first])] * step]
        band = self.choice(({}, {}, {"need_max": need}, {"need_max": most}))
        return {"slot_minutes": minutes, "days": days, "need": need, **band, "max_heads": self.randint(1, 200),
                "weights": {part: self.choice((0, 1, self.randint(0, 1000000))) for part in ("excess", "shortage", "shift")},
                "types": [self.kind(day_slots, names) for _ in range(self.choice((1, 2, 3, 16)))]}


def run(folder, *words):
    done = subprocess.run([PROGRAM, *words], cwd=folder, stdin=subprocess.DEVNULL, stdout=subprocess.PIPE, stderr=subprocess.PIPE, universal_newlines=True)
    return done.returncode, done.stderr


def faults(document, draws):
    """What is wrong with the tables of a document."""
    tables = Tables(document)
    with tempfile.TemporaryDirectory() as name:
        folder = pathlib.Path(name)
        (folder / "week.json").write_text(json.dumps(document))
        told = run(folder, "export", "week.json", "tables")
        if told != (0, ""):
            return ["export ends with %d and says %s" % told]
        found = {path.name: list(csv.reader(io.StringIO(path.read_text()))) for path in (folder / "tables").iterdir()}
        again = run(folder, "import", "tables", "again.json")
        (folder / "others").mkdir()
        for table, content in otherwise(draws, tables.all(), tables.day_slots).items():
            (folder / "others" / table).write_bytes(content)
        other = run(folder, "import", "others", "other.json")
        texts = [(folder / path).read_bytes() if (folder / path).exists() else b"" for path in ("again.json", "other.json")]
    checks = [
        ("the tables hold something else", found == tables.all()),
        ("import ends with %d and says %s" % again, again == (0, "")),
        ("import of the tables makes another document", texts[0] == canonical(document)),
        ("import of the same in other words ends with %d and says %s" % other, other == (0, "")),
        ("import of the same in other words makes another document", texts[1] == canonical(document)),
    ]
    return [fault for fault, holds in checks if not holds]


def documents(count, seed):
    for path in sorted((TOP / "examples").glob("*.json")):
        yield path.stem, json.loads(path.read_text()), Draws("tables %s %s" % (seed, path.stem))
    for number in range(count):
        draws = Draws("tables %s %d" % (seed, number))
        yield "instance %d of seed %s" % (number, seed), draws.document(), draws


def main(count=INSTANCES, seed=1):
    passed = failed = 0
    for name, document, draws in documents(int(count), seed):
        found = faults(document, draws)
        for fault in found:
            print("%s: %s\n%s" % (name, fault, json.dumps(document)))
        passed, failed = passed + (not found), failed + bool(found)
    print("%d passed, %d failed" % (passed, failed))
    return failed


if __name__ == "__main__":
    sys.exit(1 if main(*sys.argv[1:3]) else 0)
