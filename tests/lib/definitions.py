"""The definitions of crates/*/specs as a reader meets them: what each names, and how long it is.

It goes by names, not by the prover: a definition names what its text has of the names that its file
declares or takes by `use`, through Vocabulary files too. What the code declares is counted, and not
followed.
"""
import glob
import re
from dataclasses import dataclass, field

from lib.names import TOP, definitions, read

USE = re.compile(r"^(?:pub )?use ([^{\n]*(?:\{[^}]*\})?[^\n]*)$", re.MULTILINE)
# A name, perhaps after the name of the module that it is of; or an operator.
WORD = re.compile(r"(?:([^\W\d][\w']*)\.)?([^\W\d][\w']*)|([^\w\s()\[\]{}.,;]+)")

# What the code declares: its crate, its module and its name; that of a variant is its type's.
DECLARED = re.compile(
    r"Rattle\.(\w+)\.specs\.declared\.([a-z_.]+)\.(?:TheConstants\.)?([A-Z]\w*)"
)
# What a block of `do` stands for, without naming it.
STEPS = ("◌>>=◌", "◌>>◌")


@dataclass
class Definition:
    """A definition: its file, its name, the comment above it, and its lines."""

    file: str
    name: str
    comment: str = ""
    lines: list = field(default_factory=list)

    @property
    def crate(self):
        return self.file.split("/")[1]

    def words(self):
        """The words of its lines, in order: what is before a name, and the name or operator."""
        words = (word for line in self.lines for word in WORD.findall(line))
        found = dict.fromkeys((of, name or f"◌{sign}◌") for of, name, sign in words)
        return [*found, *(("", it) for it in STEPS if ("", "do") in found)]

    def constructors(self):
        """The names of a data type's constructors."""
        if not self.lines[0].lstrip().removeprefix("pub ").startswith("data "):
            return set()
        found = (re.match(r"\s+(\w+) :", line) for line in self.lines[1:])
        return {it[1] for it in found if it}


def module_of(path):
    """By which name definitions take this file's: crates/x/specs/Y.antt is Rattle.x.specs.Y."""
    parts = path.removesuffix(".antt").split("/")
    return ".".join(["Rattle", parts[1], "specs", *parts[3:]])


def split(path):
    """The definitions of a file, in order, and where the names are from that it takes by `use`."""
    text = read(f"{TOP}/{path}")
    found, mutual, comment = [], False, ""
    for line in outside_modules(USE.sub("", text)):
        if line.lstrip().startswith("--"):
            comment += line.strip(" -") + " "
            continue
        name = name_of(line, mutual)
        mutual = line in ("mutual", "abbrev mutual") or mutual and line[:1] in ("", " ")
        if name:
            found.append(Definition(path, name, comment.strip()))
        if found and line.strip() and line not in ("mutual", "abbrev mutual"):
            found[-1].lines.append(line)
        comment = ""
    return found, find_taken(text)


def outside_modules(text):
    """The lines of a file, where what is in a `module _` is as if it were outside."""
    inside = False
    for line in text.splitlines():
        begins = line.startswith("module _")
        inside = begins or inside and line[:1] in ("", " ")
        yield "" if begins else line.removeprefix("  ") if inside else line


def first_comment(path):
    """What a file of definitions says of itself, up to the end of its first sentence."""
    lines = []
    for line in read(f"{TOP}/{path}").splitlines():
        if not line.startswith("--"):
            break
        lines.append(line.strip(" -"))
    return re.split(r"(?<=\.) ", " ".join(lines))[0]


def name_of(line, mutual):
    """The name of the definition that begins on this line, if one does."""
    if mutual and line.startswith("  pub "):
        head = line.removeprefix("  pub ")
    elif re.match(r"(unfoldable |abbrev )*pub (?!use |mod )|(record|data) ", line):
        head = re.sub(r"^(unfoldable |abbrev )*(pub )?", "", line)
    else:
        return None
    return re.match(r"(?:(?:record|data) )?([^\s:({]+)", head)[1]


def find_taken(text):
    """The names that a file takes, each with the module and the name that it has there."""
    found = {}
    for use in USE.findall(text):
        before, _, group = " ".join(use.split()).partition("{")
        for part in group.rstrip("}").split(",") if group else [""]:
            path, _, other = f"{before}{part.strip()}".partition(" as ")
            module, _, name = path.strip().rpartition(".")
            found[other.strip() or name] = (module, name)
    return found


class Definitions:
    """All definitions, and what each names."""

    def __init__(self):
        self.of, self.takes = {}, {}
        for path in definitions():
            module = module_of(path)
            found, self.takes[module] = split(path)
            for it in found:
                self.of[module, it.name] = it
                for name in it.constructors():
                    self.of.setdefault((module, name), it)

    def find(self, module, name):
        """The definition that a module means by a name, its own or one that it takes, if any."""
        return self.of.get(self.place_of(module, name))

    def place_of(self, module, name):
        """Where a name of a module is declared: there, or where it is taken from."""
        for _ in range(8):
            if (module, name) in self.of or name not in self.takes.get(module, {}):
                break
            module, name = self.takes[module][name]
        return module, name

    def declared_by_code(self, found):
        """What some definitions name of what the code declares: its crate, module and name."""
        places = (
            self.place_of(module_of(it.file), name)
            for it in found
            for pair in it.words()
            for name in pair
        )
        heads = (DECLARED.match(f"{module}.{name}") for module, name in places)
        return {head.groups() for head in heads if head}

    def named_by(self, it):
        """The definitions that one names, but for itself."""
        module, found = module_of(it.file), []
        for of, name in it.words():
            other = ".".join(self.takes[module].get(of, ("", "")))
            found += [self.find(other, name)] if other in self.takes else []
            found += [self.find(module, of), self.find(module, name)]
        return [named for named in found if named and named is not it]

    def reach(self, roots, without=()):
        """What a reader of definitions comes to, each before what it names; not those left out."""
        found, ahead = {}, list(reversed(roots))
        while ahead:
            it = ahead.pop()
            if id(it) not in found and it.name not in without:
                found[id(it)] = it
                ahead += reversed(self.named_by(it))
        return list(found.values())


def code_lines(places):
    """How many lines the code has of what it declares in some places."""
    return sum(map(lines_in_code, places))


def lines_in_code(place):
    """The lines of a type or a constant of the code, but for comments and attributes."""
    crate, module, name = place
    file = module.split(".")[-1]
    for path in glob.glob(f"{TOP}/crates/{crate}/src/**/{file}.rt", recursive=True):
        head = rf"^(?:pub(?:\(\w+\))? )?(?:enum|struct|const|type) {name}\b"
        found = re.search(rf"(?ms){head}(?:[^;{{]*;$|.*?^\}}$)", read(path))
        if found:
            lines = (line.strip() for line in found[0].splitlines())
            return sum(bool(line) and not line.startswith(("//", "#[", "ghost")) for line in lines)
    return 0


def count(found):
    """How many lines some definitions have, and how many definitions there are."""
    return sum(len(it.lines) for it in found), len(found)
