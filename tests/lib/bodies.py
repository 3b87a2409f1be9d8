"""What a text tells of an edit: which functions it changes.

By the layout of rt fmt a body is `{}`, or lies between a line that ends in '{' and a line '}',
both as deep as the first line of the function's head.
"""
import os
import re
from dataclasses import dataclass

FUNCTION = re.compile(
    r"^(?P<head>(?P<deep> *)(?:pub(?:\(\w+\))? )?(?:const |unsafe )*fn (?P<name>\w+)"
    r"(?:.*|.*\n(?:(?:(?P=deep)(?: |\)|where).*)?\n)*(?P=deep)(?:\).*)?))"
    r"\{(?:\}|\n(?P<body>(?:.*\n)*?)(?P=deep)\})$",
    re.MULTILINE,
)
OWNER = re.compile(
    r"^(?:pub(?:\(\w+\))? )?(?:unsafe )?(?:impl|trait)\b(?:<.*?>(?= ))?"
    r"(?: (?:\w+::)*(?P<trait>\w+)(?P<by><.*>)? for)? (?:\w+::)*(?P<type>\w+)",
    re.MULTILINE,
)
ABOVE = re.compile(r"(?:^ *(?:#|//).*\n)*\Z", re.MULTILINE)
CYCLE = re.compile(r"#\[cycle\((\w+)\)\]\n(?: *(?:#|//).*\n)*\Z")
CLOSURE = re.compile(r"::fn::(.+)::[^:]+(?:::call\w*)?$")


@dataclass(frozen=True)
class Function:
    """A function: the module that it is written in, its type and trait if it is a method, the
    trait's arguments, and the cycle of calls that it is in, if any: that of its own name if it
    calls itself alone."""

    module: str
    of_type: str
    trait: str
    arguments: str
    name: str
    cycle: str

    def is_at(self, path):
        """Returns whether the prover's path, below the crate, is of the function or of a closure of
        it. A method is in its type's module, and the arguments of a trait follow its name. How
        they are written there is known where they are one name."""
        owner, _, name = CLOSURE.sub(r"::\1", f"::{path}").rpartition("::")
        if name != self.name or not self.of_type:
            return name == self.name and owner.strip(":") == self.module
        last, whole = owner.rpartition("::")[2], self.of_type + self.trait
        if self.arguments and not self.arguments.isidentifier():
            return last.startswith(whole)
        return last == whole + self.arguments

    def is_like(self, other):
        """Returns whether what is said of one may be said of the other: they are the same, or
        methods of one name, which have one proof where their types contain each other."""
        are_methods = self.of_type and other.of_type and self.name == other.name
        return self == other or bool(are_methods and self.of_type != other.of_type)

    def is_called_in(self, text):
        """Returns whether a text seems to call this function: a method is named after a dot or its
        type, and any other function after neither."""
        found = re.findall(rf"(?:(\w+)::|(\.))?\b{self.name}\(", text)
        if self.of_type:
            return any(dot or owner in (self.of_type, "Self") for owner, dot in found)
        return any(not dot and not owner[:1].isupper() for owner, dot in found)


@dataclass
class Change:
    """What an edit changes: the functions, each with its new text; files of proofs, with their
    texts; whether nothing more than bodies of functions; and whether nothing that the prover reads
    for other functions: bodies, or contracts that nothing else in the crate names, as those of
    laws."""

    functions: dict
    proofs: dict
    is_of_bodies: bool
    is_apart: bool

    def length(self):
        return sum(map(len, self.functions.values()))

    def calls(self, function):
        """Returns whether one of these functions seems to call another one."""
        texts = [text for it, text in self.functions.items() if it != function]
        return any(map(function.is_called_in, texts))


def module_of(path):
    """Returns the path of a source file's module below the crate."""
    parts = path.removeprefix("src/").removesuffix(".rt").split("/")
    return "::".join(parts[:-1] if parts[-1] in ("lib", "main", "mod") else parts)


def functions_in(text, path):
    """Gives each function of a file, with its place in the text."""
    module = module_of(path)
    for it in FUNCTION.finditer(text):
        owners = [*OWNER.finditer(text, 0, it.start())] if it["deep"] else []
        owner = owners[-1].groupdict("") if owners else {"type": "", "trait": "", "by": ""}
        cycle = CYCLE.search(text, 0, it.start())
        itself = r"\b(?:self\.|Self::)" if owner["type"] else r"(?<![\w:.])"
        calls_itself = re.search(rf"{itself}{it['name']}\(", it["body"] or "")
        whose = owner["type"], owner["trait"], owner["by"].strip("<>")
        name = cycle[1] if cycle else it["name"] if calls_itself else ""
        yield Function(module, *whose, it["name"], name), it


def split(text, path):
    """Returns the head and the body of each function of a file, and the text around them."""
    found = {}
    for function, it in functions_in(text, path):
        head, body = found.get(function, ("", ""))
        found[function] = (head + it["head"], body + (it["body"] or ""))
    return found, FUNCTION.sub(r"\g<name>", text)


def texts_of(text, path):
    """Returns the whole text of each function of a file, with its attributes and comments."""
    found = {}
    for function, it in functions_in(text, path):
        above = ABOVE.search(text, 0, it.start())[0]
        found[function] = "".join([found.get(function, ""), above, it[0]])
    return found


def with_stubs(text, path, stub, functions):
    """Returns a file's text with this stub as the body of each of these functions, which is then in
    no cycle of calls."""
    made, end = [], 0
    for function, it in functions_in(text, path):
        if function in functions:
            before = text[end : it.start()]
            cycle = CYCLE.search(before) if function.cycle else None
            if cycle:
                before = before[: cycle.start()] + cycle[0].partition("\n")[2]
            deep = it["deep"]
            made += [before, it["head"], f"{{\n{deep}    {stub}\n{deep}}}"]
            end = it.end()
    return "".join([*made, text[end:]])


def changed(old, new, path):
    """Returns the new texts of the functions that differ in two texts of a file, and whether all
    around them, and their heads, are the same; or None if one has a function that the other
    lacks."""
    (functions, around), (new_functions, new_around) = split(old, path), split(new, path)
    if functions.keys() != new_functions.keys():
        return None
    found = [it for it in functions if functions[it] != new_functions[it]]
    has_heads = all(functions[it][0] == new_functions[it][0] for it in found)
    texts = texts_of(new, path)
    return {it: texts[it] for it in found}, around == new_around, has_heads


def changed_in(folder, texts):
    """Returns what these new texts of a folder's files change, or None if no function is
    changed, one is added or taken away, or a file is of neither sources nor proofs."""
    proofs = {path: text for path, text in texts.items() if path.startswith("proofs/")}
    functions, is_same_around, has_heads = {}, True, True
    for path in texts.keys() - proofs.keys():
        if not path.startswith("src/"):
            return None
        with open(f"{folder}/{path}", encoding="utf-8") as file:
            change = changed(file.read(), texts[path], path)
        if not change:
            return None
        functions.update(change[0])
        is_same_around &= change[1]
        has_heads &= change[2]
    is_of_bodies = is_same_around and has_heads
    are_named = not has_heads and any(is_named_elsewhere(folder, it) for it in functions)
    is_apart = is_same_around and not are_named
    return Change(functions, proofs, is_of_bodies, is_apart) if functions else None


def is_named_elsewhere(folder, function):
    """Returns whether sources in a folder name this function, apart from where it is written, or
    proofs in it rest on its theorem."""
    named = {"src": rf"(?<!\bfn )\b{function.name}\b", "proofs": rf"\.{function.name}\.Met\b"}
    for part, name in named.items():
        for at, _, files in os.walk(f"{folder}/{part}"):
            for file in files:
                with open(f"{at}/{file}", encoding="utf-8") as it:
                    if re.search(name, it.read()):
                        return True
    return False
