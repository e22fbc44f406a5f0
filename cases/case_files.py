"""Case files: what the runs of the programs are to be, as data. README.md in this folder says what a case has."""
import json
import json.decoder
import json.scanner
import os

HERE = os.path.dirname(os.path.abspath(__file__))
TEXTS = os.path.join(HERE, "texts")
PROGRAMS = ("shift_solve", "shift_check", "shift_plan", "shift_migrate", "graft_run")
# the scripts of the repository that cases try, each copied into the case's folder with what it needs
SCRIPTS = ("audit", "run", "tools/floors.py", "tools/proved.py", "cluster/rounds")

# the fields of a run, those of a case beside them, and those of a variant beside the ones of a run
RUN = {
    "program": str, "words": list, "stdin": object, "instance": dict, "files": dict, "edits": list, "output": str,
    "status": int, "stdout": object, "begins": object, "stderr": object, "sizes": dict, "left": dict, "same": list,
    "alike": list, "keep": str, "executable": list,
}
CASE = {**RUN, "name": str, "then": list, "variants": list, "vary": str}
VARIANT = {**RUN, "name": str, "replace": list, "then": list}
EDIT = {"file": str, "at": int, "byte": int, "length": int, "append": object}
# the forms of a text beside a string
FORMS = ({"text"}, {"text", "replace"}, {"hex"}, {"repeat", "times"}, {"repeat", "times", "step"}, {"path"})


class Fault(Exception):
    """What is wrong with a case file, with the file's name and the line."""


class Fields(dict):
    """An object of a case file, with the line on which it begins and that of each field."""

    def __init__(self, line):
        super().__init__()
        self.line = line
        self.lines = {}
        self.twice = None


class Reader(json.JSONDecoder):
    """Reads JSON and keeps the lines of its fields."""

    def __init__(self):
        super().__init__()
        self.parse_object = self.fields
        self.scan_once = json.scanner.py_make_scanner(self)

    @staticmethod
    def fields(start, strict, scan_once, *_):
        """The object whose first character after the bracket stands at that place, and the place behind it."""
        text, at = start
        found = Fields(line_of(text, at))
        at = blanks(text, at)
        if text[at:at + 1] == "}":
            return found, at + 1
        while True:
            at = expect(text, at, '"', "a field's name")
            line = line_of(text, at)
            name, at = json.decoder.scanstring(text, at, strict)
            at = expect(text, blanks(text, at), ":", "':'")
            try:
                value, at = scan_once(text, blanks(text, at))
            except StopIteration as stop:
                raise json.JSONDecodeError("a value is wanted", text, stop.value) from None
            if name in found:
                found.twice = name
            found[name] = value
            found.lines[name] = line
            at = blanks(text, at)
            if text[at:at + 1] == "}":
                return found, at + 1
            at = blanks(text, expect(text, at, ",", "',' or '}'"))


def line_of(text, at):
    return text.count("\n", 0, at) + 1


def blanks(text, at):
    while text[at:at + 1] in (" ", "\t", "\n", "\r") and at < len(text):
        at += 1
    return at


def expect(text, at, sign, name):
    if text[at:at + 1] != sign:
        raise json.JSONDecodeError(name + " is wanted", text, at)
    return at + 1


class CaseFile:
    """A case file while it is read: faults name it. `names` are those of the cases before."""

    def __init__(self, path, names):
        self.path = path
        self.name = os.path.relpath(path, os.path.dirname(HERE))
        self.names = names

    def fault(self, line, message):
        return Fault("%s:%d: %s" % (self.name, line, message))

    def cases(self):
        """The cases of the file, each checked for its fields."""
        with open(self.path, encoding="utf-8") as source:
            text = source.read()
        try:
            cases = Reader().decode(text)
        except json.JSONDecodeError as fault:
            raise self.fault(fault.lineno, fault.msg) from None
        if not isinstance(cases, list):
            raise self.fault(1, "a list of cases is wanted")
        for case in cases:
            self.check_case(case)
        return cases

    def check_case(self, case):
        self.check_fields(case, CASE, "a case")
        for field in ("name", "program", "words"):
            if field not in case:
                raise self.fault(case.line, "a case has no field %r" % field)
        if "/" in case["name"] or case["name"].isdigit() or case["name"] in self.names:
            raise self.fault(case.lines["name"], "no name of its own: %r" % case["name"])
        self.names.add(case["name"])
        self.check_run(case)
        for variant in case.get("variants", ()):
            self.check_fields(variant, VARIANT, "a variant")
            self.check_run(variant)
        varied = case.get("vary")
        if ("variants" in case) != ("vary" in case) or (varied and varied not in case.get("files", {}) and not (varied == "stdin" and "stdin" in case)):
            raise self.fault(case.line, "'vary' names a file or 'stdin' that the case has, for its 'variants'")

    def check_run(self, run):
        """The fields of a run and of those after it, whose own fields were or are checked."""
        for edit in run.get("edits", ()):
            self.check_fields(edit, EDIT, "an edit")
        for later in run.get("then", ()):
            self.check_fields(later, RUN, "a run")
            self.check_run(later)
        if run.get("program", "shift_solve") not in PROGRAMS + SCRIPTS:
            raise self.fault(run.lines["program"], "no program %r" % run["program"])
        if "stdin" in run and "instance" in run:
            raise self.fault(run.lines["stdin"], "'stdin' beside 'instance'")
        for field in ("stdin", "stdout", "begins", "stderr"):
            if field in run:
                self.check_text(run[field], run.lines[field])
        for word in run.get("words", ()):
            self.check_text(word, run.lines["words"])
        for field in ("files", "left"):
            for name, text in run.get(field, {}).items():
                self.check_text(text, run[field].lines[name])

    def check_fields(self, found, known, what):
        """That an object has known fields alone, each once, of their kinds."""
        if not isinstance(found, Fields):
            raise self.fault(1, "%s is wanted, and %r stands there" % (what, found))
        if found.twice is not None:
            raise self.fault(found.lines[found.twice], "the field %r stands twice" % found.twice)
        for field, value in found.items():
            if field not in known:
                raise self.fault(found.lines[field], "%s has no field %r" % (what, field))
            if not isinstance(value, known[field]) or isinstance(value, bool):
                raise self.fault(found.lines[field], "%r isn't of the kind %s" % (field, known[field].__name__))

    def check_text(self, text, line):
        """That a text is a string, a list of texts or of one of the forms."""
        if isinstance(text, str):
            return
        if isinstance(text, list):
            for part in text:
                self.check_text(part, line)
            return
        if not isinstance(text, Fields) or set(text) not in FORMS:
            raise self.fault(line, "no form of a text: %r" % (text,))
        for part in (part for pair in text.get("replace", ()) for part in pair):
            self.check_text(part, text.line)
        if "repeat" in text:
            self.check_text(text["repeat"], text.line)
        if "text" in text and not os.path.isfile(os.path.join(TEXTS, text["text"])):
            raise self.fault(text.lines["text"], "no file texts/%s" % text["text"])


def bytes_of(text):
    """The bytes that a text of a case file stands for."""
    if isinstance(text, str):
        return text.encode()
    if isinstance(text, list):
        return b"".join(bytes_of(part) for part in text)
    if "hex" in text:
        return bytes.fromhex(text["hex"])
    if "base" in text:
        return replaced(bytes_of(text["base"]), text["replace"])
    if "repeat" in text:
        return repeated(bytes_of(text["repeat"]), text["times"], text.get("step"))
    with open(os.path.join(TEXTS, text["text"]), "rb") as source:
        return replaced(source.read(), text.get("replace", ()))


def repeated(text, times, step):
    """A text so often; with a step its `{}` stands for 0 at first and for so much more each time."""
    if step is None:
        return text * times
    return b"".join(text.replace(b"{}", b"%d" % (number * step)) for number in range(times))


def replaced(text, pairs):
    """A text with others in the places of some of its parts, each of which stands there once."""
    for old, new in pairs:
        old, new = bytes_of(old), bytes_of(new)
        if text.count(old) != 1:
            raise Fault("the text to be replaced stands there %d times: %r" % (text.count(old), old))
        text = text.replace(old, new)
    return text
