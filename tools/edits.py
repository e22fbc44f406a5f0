"""Edits of crates' code: what they change, in which functions, and the record of the edits that were refused."""
import glob, hashlib, os, re

from rooms import TOP, files_of, text_of

FOLDER = f"{TOP}/edits"
RECORD = f"{FOLDER}/audited.txt"
# what names the audit of a crate that the record lacks
COMMAND = "./audit"


class Fault(Exception):
    """Why an edit can't be applied."""


class Edit:
    """An edit of a crate: a file's pairs of an old text, which stands there once, and a new one."""

    def __init__(self, crate, path):
        self.crate, self.path = crate, path
        self.name = os.path.basename(path)[: -len(".edit")]
        self.label = f"{crate}/{self.name}"

    def changes(self):
        """Yields each pair as (file, old, new)."""
        file = old = None
        for line in text_of(self.path).split("\n"):
            if line.startswith("file: "):
                file = line[len("file: ") :].strip()
            elif line.startswith("old: "):
                old = line[len("old: ") :]
            elif line.startswith("new:"):
                if not file or not old:
                    raise Fault("a 'new:' line stands before any 'file:' or 'old:' line")
                yield file, old, re.sub(r"\A ", "", line[len("new:") :])
                old = None

    def applied(self, folder):
        """Returns the texts of the files that it changes in that folder of the crate, and the places of what it changes in their old texts."""
        texts, places = {}, []
        for file, old, new in self.changes():
            if os.path.normpath(file) != file or not file.startswith(("src/", "specs/")):
                raise Fault(f"'{file}' is no file of src/ or specs/")
            if file not in texts:
                if not os.path.isfile(f"{folder}/{file}"):
                    raise Fault(f"there is no file {file}")
                texts[file] = text_of(f"{folder}/{file}")
            count = texts[file].count(old)
            if count != 1:
                raise Fault(f"an 'old:' text stands in {file} {count} times, and not once")
            places.append((file, texts[file].index(old)))
            texts[file] = texts[file].replace(old, new)
        if not places:
            raise Fault("it has no pair of an 'old:' and a 'new:' line")
        if all(text == text_of(f"{folder}/{file}") for file, text in texts.items()):
            raise Fault("it changes nothing")
        return texts, places


def crates_with_edits():
    return sorted(os.path.basename(it) for it in glob.glob(f"{FOLDER}/*") if os.path.isdir(it) and os.listdir(it))


def edits_of(crate):
    return [Edit(crate, it) for it in sorted(glob.glob(f"{FOLDER}/{crate}/*.edit"))]


def sum_of_audit(crate):
    """Returns the checksum of what an audit of the crate speaks of: its edits, and the lines of its code and definitions that are neither blank nor comments.
    Each file stands in it by its path on a line of its own and then by its lines, each with a line feed."""
    total = hashlib.sha256()
    for path in [*(it.path for it in edits_of(crate)), *files_of(crate, ("src", "specs"))]:
        lines = text_of(path).split("\n")
        if not path.endswith(".edit"):
            mark = "--" if path.endswith(".antt") else "//"
            lines = [line for line in lines if not line.lstrip().startswith(mark)]
        kept = [os.path.relpath(path, TOP), *(line for line in lines if line.strip())]
        total.update("".join(f"{line}\n" for line in kept).encode())
    return total.hexdigest()


def record():
    """Returns for each crate of the record how many edits were refused, and the checksum of the text that they were tried on."""
    rows = [line.split() for line in text_of(RECORD).split("\n") if line and not line.startswith("#")]
    return {row[0]: (row[1], row[2]) for row in rows if len(row) == 3}


HEAD = """# For each crate how many of its edits were refused, all of them, and a checksum of the text that they were tried on: its edits, and the lines
# of its src/ and specs/ that are neither blank nor comments. Written by ./audit.
"""


def write_record(rows):
    """Puts a record of these rows in the place of the old one, whole."""
    made = f"{RECORD}.new"
    with open(made, "w") as file:
        file.write(HEAD + "".join(f"{name} {rows[name][0]} {rows[name][1]}\n" for name in sorted(rows)))
    os.replace(made, RECORD)


# Comments, texts and signs, in which a bracket is no bracket.
APART = re.compile(r"//[^\n]*|\"(?:\\.|[^\"\\])*\"|'(?:\\(?:x..|u\{[^}]*\}|.)|[^'\\\n])'", re.S)
CLAUSE = re.compile(r"\b(?:requires|ensures|ghost)\b\*?")


def blanked(text):
    """Returns the text with blanks for its comments, texts and signs."""
    return APART.sub(lambda it: re.sub(r"[^\n]", " ", it[0]), text)


def end_of_group(text, at):
    """Returns the place behind the bracket that closes the one at that place."""
    opened = {"(": ")", "[": "]", "{": "}"}
    wanted = []
    for place in range(at, len(text)):
        sign = text[place]
        if sign in opened:
            wanted.append(opened[sign])
        elif wanted and sign == wanted[-1]:
            wanted.pop()
            if not wanted:
                return place + 1
    return len(text)


def end_of_function(text, at):
    """Returns the place behind the body of the function whose name ends at that place, or behind its last clause where it has none."""
    while at < len(text):
        if text[at] in "([":
            at = end_of_group(text, at)
        elif text[at] == "{":
            return end_of_group(text, at)
        elif text[at] == ";":
            return at + 1
        elif CLAUSE.match(text, at) and not (text[at - 1].isalnum() or text[at - 1] == "_"):
            at = end_of_group(text, text.index("{", at))
        else:
            at += 1
    return at


def without_groups(text):
    """Returns the text without what stands between angles."""
    text = text.replace("->", "  ")
    while re.search(r"<[^<>]*>", text):
        text = re.sub(r"<[^<>]*>", "", text)
    return text


class Function:
    """A function of a file: where it stands, and how a check names it."""

    def __init__(self, file, name, owner, start, end):
        self.modules = [it for it in re.sub(r"\.rt\Z", "", file[len("src/") :]).split("/") if it not in ("lib", "main", "mod")]
        self.name, self.owner, self.start, self.end = name, owner, start, end

    def path(self):
        """Returns its name as `rt check --only` takes it: of a method the end, since its type may stand in another module."""
        return f"{self.owner}::{self.name}" if self.owner else "::".join([*self.modules, self.name])

    def is_named(self, name):
        """Whether a name that a check prints is that of this function, or of a closure in it."""
        parts = name.split("::")[1:]
        if "fn" in parts:
            at = parts.index("fn")
            return self.name in parts[at + 1 : -1] and parts[:at][: len(self.modules)] == self.modules
        if self.owner:
            return len(parts) > 1 and parts[-1] == self.name and parts[-2].startswith(self.owner)
        return parts == [*self.modules, self.name]


OWNER = re.compile(r"^[ \t]*(?:pub(?:\([^)]*\))? )?(?:unsafe )?(impl|trait)\b([^{;]*)\{", re.M)
FUNCTION = re.compile(r"\bfn\s+(\w+)")


def owner_of(kind, head):
    """Returns how a check names the type of an impl or a trait by its head."""
    own = []
    if kind == "impl":
        head = re.sub(r"\A\s*<", "<", head)
        if head.startswith("<"):
            end = end_of_angles(head)
            own = re.findall(r"[<,]\s*(\w+)", head[:end])
            head = head[end:]
    head = re.split(r"\bwhere\b", head)[0]
    parts = [re.sub(r"[^\w].*", "", it.split("::")[-1].strip(), flags=re.S) for it in without_groups(head).split(" for ")]
    if kind == "trait":
        return re.match(r"\s*(\w+)", head)[1]
    of_trait, of_type = re.match(r"\s*[\w:]+\s*<(.*)>\s+for\b", head, re.S), re.search(r"\sfor\s+[\w:]+\s*<(.*)>\s*\Z", head, re.S)
    return "".join([parts[-1], arguments_of(of_type, own), *parts[:-1], arguments_of(of_trait, own)])


def arguments_of(found, own):
    """Returns how a check names the types that an impl gives its trait, or the type that it is for, where they were found in its head. The names of its own
    parameters are left out: `OutcomeUnit` for `<Outcome, ()>`, and `Desk` for `<Desk<B, L>>`."""
    names = [it for it in re.findall(r"\w+|\(\)", re.sub(r"'\w+", "", found[1])) if it not in own] if found else []
    return "".join("Unit" if it == "()" else it[0].upper() + it[1:] for it in names)


def end_of_angles(text):
    depth = 0
    for place, sign in enumerate(text):
        depth += {"<": 1, ">": -1}.get(sign, 0) if text[place - 1 : place + 1] != "->" else 0
        if depth == 0:
            return place + 1
    return len(text)


def functions_of(file, text):
    """Returns the functions of a file."""
    text = blanked(text)
    owners = [(it.start(), end_of_group(text, it.end() - 1), owner_of(it[1], it[2])) for it in OWNER.finditer(text)]
    found = []
    for it in FUNCTION.finditer(text):
        owner = next((name for start, end, name in reversed(owners) if start < it.start() < end), None)
        found.append(Function(file, it[1], owner, it.start(), end_of_function(text, it.end())))
    return found


def function_at(functions, place):
    """Returns the innermost of these functions of a file in which that place stands, if there is one."""
    inside = [it for it in functions if it.start <= place < it.end]
    return max(inside, key=lambda it: it.start, default=None)


class Calls:
    """Which functions of a crate may call which, by the names in their texts: a name stands for each function that it may be."""

    NAMED = re.compile(r"(?:\b(\w+)(?:::<[^()]*>)?::)?\b(\w+)\b")

    def __init__(self, folder):
        self.functions, self.texts = {}, {}
        for path in sorted(glob.glob(f"{folder}/src/**/*.rt", recursive=True)):
            file = os.path.relpath(path, folder)
            self.texts[file] = text_of(path)
            self.functions[file] = functions_of(file, self.texts[file])
        self.by_name = {}
        for file, found in self.functions.items():
            for it in found:
                self.by_name.setdefault(it.name, []).append((file, it))

    def path(self, function):
        """Returns what `rt check --only` takes for a function: its name, or its module where several have that name."""
        alike = [it for found in self.functions.values() for it in found if it.path() == function.path()]
        return function.path() if len(alike) == 1 or not function.modules else "::".join(function.modules)

    def at(self, file, place):
        return function_at(self.functions.get(file, []), place)

    def called(self, file, function):
        """Yields the functions that one may call itself, each with its file."""
        text = blanked(self.texts[file])[function.start : function.end]
        for owner, name in self.NAMED.findall(text):
            for other, it in self.by_name.get(name, ()):
                if it is function or owner == "Self" and it.owner != function.owner:
                    continue
                if owner and owner != "Self" and not (it.owner or "").startswith(owner) and owner not in (it.modules[-1:] or ["crate"]):
                    continue
                yield other, it
