#!/usr/bin/env python3
"""Makes docs/PROVED.md of the sources: for each crate its public functions, with what they are for and the names of their clauses.

    tools/proved.py            writes the page
    tools/proved.py --check    tells in a second whether the page is that of the sources; the last line is 'N passed, M failed'
"""
import os, re, sys

sys.dont_write_bytecode = True
sys.path.insert(0, os.path.dirname(os.path.realpath(__file__)))
from edits import CLAUSE, OWNER, blanked, end_of_angles, end_of_group, without_groups
from rooms import TOP, crates, files_of, is_of_tests, text_of

PAGE = f"{TOP}/docs/PROVED.md"
HEAD = """# What is proved

`tools/proved.py` makes this page of the sources, and `tools/proved.py --check` tells whether it is theirs. Each public function of a library has a line: its name, which leads to its file; the first sentence of its docstring; the names of its clauses; and the names of the conditions that a caller must meet (*Asks*). `ensures` stands for the clauses without a name, `requires` for the conditions without one. A trait's clauses hold of each implementation, and an implementation has a line where it has clauses of its own. Where there is no clause, nothing is claimed of what the function gives but what its type carries.

The clauses are proved, and each stands above its function. The words in which it is written are defined in `specs/` of the crate; [DEFINITIONS.md](DEFINITIONS.md) explains the main ones. [CONTRACTS.md](CONTRACTS.md) says how the layers fit together, and [ASSURANCE.md](ASSURANCE.md) what is only tested, or trusted.
"""
TABLE = "\n| Function | What it is for | Clauses | Asks |\n|---|---|---|---|\n"
USED = re.compile(r"^pub use ([\w:]+)(?:::\{([^}]*)\})?;", re.M)
MODULE = re.compile(r"^pub mod (\w+);", re.M)
ITEM = re.compile(r"^pub (?:struct|enum|trait|fn) (\w+)", re.M)
# what is neither a method nor public starts its line with `fn`
FUNCTION = re.compile(r"^( +|pub | +pub )fn (\w+)", re.M)
CLAUSE_NAME = re.compile(r"\s*(\w*)\s*\{")


def first_sentence(text):
    """Returns a docstring up to the end of its first sentence, without links."""
    told = re.match(r".*?[.?!](?=\s+[A-Z`]|\Z)", text, re.S)
    return re.sub(r"\[(`[^`]*`)\]", r"\1", told[0] if told else text)


def purpose_of(name):
    """Returns what the first lines of a crate's lib.rt, or main.rt, say that it is for: their first sentence."""
    source = f"{TOP}/crates/{name}/src"
    told = re.match(r"(?://! .*\n)*", text_of(f"{source}/lib.rt") or text_of(f"{source}/main.rt"))[0]
    return first_sentence(" ".join(it[3:].strip() for it in told.split("\n")).strip())


def docstring_above(text, at):
    """Returns the docstring of what stands in the line of that place, its lines joined."""
    lines, found = text[:at].split("\n")[:-1], []
    while lines and re.match(r"\s*(///|#\[)", lines[-1]):
        found.insert(0, lines.pop().strip())
    return " ".join(it[3:].strip() for it in found if it.startswith("///"))


def clauses_of(text, at):
    """Returns the clauses of the function whose name ends at that place of a blanked text, each as (kind, name)."""
    found = []
    while at < len(text) and text[at] not in "{;":
        word = CLAUSE.match(text, at)
        if word and not (text[at - 1].isalnum() or text[at - 1] == "_"):
            found.append((word[0].rstrip("*"), CLAUSE_NAME.match(text, word.end())[1]))
            at = end_of_group(text, text.index("{", at))
        else:
            at = end_of_group(text, at) if text[at] in "([" else at + 1
    return found


class Line:
    """A function of the page: its names for others and within its trait, its file, its docstring, and the names of its clauses."""

    def __init__(self, name, in_trait, file, told, clauses):
        self.name, self.in_trait, self.file, self.told = name, in_trait, file, told
        self.promises = dict.fromkeys(it or kind for kind, it in clauses if kind == "ensures")
        self.asks = dict.fromkeys(it or kind for kind, it in clauses if kind == "requires")

    def text(self, crate, of_traits):
        """Returns the line, with the docstring of its trait's function where it has none of its own."""
        promises, asks = (", ".join(f"`{it}`" for it in names) for names in (self.promises, self.asks))
        told = first_sentence(self.told or of_traits.get(self.in_trait, "")).replace("|", "\\|")
        return f"| [`{self.name}`](../crates/{crate}/{self.file}) | {told} | {promises or 'none'} | {asks} |\n"


class Owner:
    """An impl or a trait of a file: where it stands, its type, its trait, and whether it is a public trait."""

    def __init__(self, text, it):
        # a file is laid out by `rt fmt`, so an impl ends at a bracket in the first column
        self.start, self.end = it.start(), text.find("\n}", it.end())
        self.is_public_trait = it[0].startswith("pub trait")
        head = re.split(r"\bwhere\b", it[2])[0].strip()
        head = head[end_of_angles(head) :] if head.startswith("<") else head
        names = [re.split(r"[^\w]", one.split("::")[-1].strip())[0] for one in without_groups(head).split(" for ")]
        self.type, self.trait = names[-1], names[0] if len(names) == 2 or it[1] == "trait" else None
        self.is_of_trait = len(names) == 2


class Crate:
    """A crate: what its first lines say that it is for, and which of its items are public."""

    def __init__(self, name):
        self.name = name
        folder = f"{TOP}/crates/{name}"
        self.texts = {os.path.relpath(it, folder): text_of(it) for it in files_of(name, ("src",)) if it.endswith(".rt")}
        self.told = purpose_of(name)
        root = self.texts.get("src/lib.rt", "")
        self.modules = set(MODULE.findall(root))
        self.public = set(ITEM.findall(root))
        for path, names in USED.findall(root):
            self.public |= {it.strip() for it in names.split(",")} if names else {path.split("::")[-1]}
        self.lines = [line for file, text in self.texts.items() for line in self.lines_in(file, text)]

    def lines_in(self, file, text):
        """Yields the lines of the public functions of a file, in the order in which they stand there."""
        if not FUNCTION.search(text):
            return
        bare = blanked(text)
        owners = [Owner(bare, it) for it in OWNER.finditer(bare)]
        for it in FUNCTION.finditer(bare):
            owner = next((one for one in owners if one.start < it.start() < one.end), None)
            name = self.name_of(file, it, owner)
            clauses = clauses_of(bare, it.end()) if name else []
            if name and not (owner and owner.is_of_trait and not any(kind == "ensures" for kind, _ in clauses)):
                yield Line(name, (owner and owner.trait, it[2]), file, docstring_above(text, it.start()), clauses)

    def name_of(self, file, it, owner):
        """Returns the name by which others call a function, and none for one that they can't call."""
        module = os.path.basename(file)[: -len(".rt")]
        is_public = it[1].strip() == "pub"
        if owner is None:
            outer = f"{module}::" if module in self.modules else ""
            return f"{outer}{it[2]}" if is_public and (outer or it[2] in self.public) else None
        is_called = is_public or owner.is_of_trait or owner.is_public_trait
        return f"{owner.type}::{it[2]}" if is_called and owner.type in self.public else None

    def text(self, of_traits):
        lines = "".join(it.text(self.name, of_traits) for it in self.lines)
        return f"\n## {self.name}\n\n{self.told}\n" + (TABLE + lines if lines else "")


def page():
    """Returns the page of the sources: all crates but those of tests, in the order of crates.txt."""
    found = [Crate(it) for it in crates() if not is_of_tests(it)]
    of_traits = {line.in_trait: line.told for crate in found for line in crate.lines if line.told}
    links = ", ".join(f"[{it.name}](#{it.name})" for it in found)
    return f"{HEAD}\nThe crates: {links}.\n" + "".join(it.text(of_traits) for it in found)


def check():
    """Prints from which line on the page isn't that of the sources, and a closing line. Returns whether it is."""
    stands, made = text_of(PAGE).split("\n"), page().split("\n")
    if stands != made:
        same = next((at for at, (one, other) in enumerate(zip(stands, made)) if one != other), min(len(stands), len(made)))
        print(f"docs/PROVED.md isn't the page of the sources from line {same + 1} on; make it again: tools/proved.py")
    print(f"proved: {int(stands == made)} passed, {int(stands != made)} failed", flush=True)
    return stands == made


def main():
    words = sys.argv[1:]
    if words == ["--check"]:
        sys.exit(not check())
    if words:
        sys.exit(__doc__)
    with open(PAGE, "w") as file:
        file.write(page())


if __name__ == "__main__":
    main()
