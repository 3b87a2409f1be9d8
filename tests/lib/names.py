"""What sources and definitions declare, as far as pages and examples in comments speak of it."""
import glob
import os
import re
from collections import defaultdict

from lib.harness import TOP

# What examples call of the toolchain's library.
STD_CALLS = {
    "Some", "Ok", "Err", "vec", "write", "println", "alloc", "as_slice", "as_str", "get",
    "is_empty", "len",
}  # fmt: skip
# Types of that library for which the sources have a trait.
STD_TYPES = {"Vec"}
HEAD = re.compile(r"\bfn (\w+)")
OWNER = re.compile(
    r"^(?:pub(?:\([^)]*\))? )?(?:impl|trait)\b(?:<[^>]*>)?(?:.* for)? (\w+)", re.MULTILINE
)
TYPE = re.compile(r"^pub(?:\([^)]*\))? (?:enum|struct) (\w+)[^{(;]*([{(])", re.MULTILINE)
SELF = re.compile(r"\s*(&('\w+ )?(mut )?|mut )?self\b")
# What pages name of that library, of Rattle and of the system; and texts that they quote.
OTHER_NAMES = {
    "Display", "File", "Mutex", "O_RDONLY", "RandomState", "a10", "a2", "axioms", "dif", "ensures",
    "enum", "errno", "fetch_min", "getentropy", "requires", "strace", "timeout", "vars",
}  # fmt: skip
TEXT = re.compile(r'"(?:\\.|[^"\\])*"')
CALL = re.compile(r"(?:(\w+)(::|\.)|(\.))?(\w+)!?\(")
KINDS = "fn|struct|enum|trait|type|const|mod|record|data"
DECLARED = re.compile(
    rf"\b(?:{KINDS}|static|ghost|abbrev pub|ensures|requires) (\w+)"
    rf"|\bpub(?:\([^)]*\))? (?!(?:{KINDS}) )(\w+)"
    r"|^ +(\w+)(?= :|,$|\(.*\),$| \{$)",
    re.MULTILINE,
)
CODE = re.compile(r"`([^`\n]+)`")
EXAMPLE = re.compile(r"^ *(?:///|//!) ```text\n(.*?)^ *(?:///|//!) ```$", re.MULTILINE | re.DOTALL)


def read(path):
    with open(path, encoding="utf-8") as file:
        return file.read()


def files(pattern):
    """The paths of the crates' files of a pattern, from the top of the repository."""
    found = glob.glob(f"{TOP}/crates/*/{pattern}", recursive=True)
    return sorted(path[len(TOP) + 1 :] for path in found)


def sources():
    return files("src/**/*.rt")


def definitions():
    return files("specs/**/*.antt")


def parts(text, start, pairs="([{ )]}"):
    """What is in the bracket that opens at this place, split at its own commas; None if it isn't
    closed."""
    opening, closing = pairs.split()
    depth, found, begin = 0, [], start + 1
    for at in range(start, len(text)):
        letter = text[at]
        depth += (letter in opening) - (letter in closing and text[at - 1] != "-")
        if not depth:
            return [part for part in [*found, text[begin:at]] if part.strip()]
        if letter == "," and depth == 1:
            found.append(text[begin:at])
            begin = at + 1
    return None


def parameters(text, at):
    """The parameters of the function whose name ends at this place."""
    depth = 0
    for place in range(at, len(text)):
        letter = text[place]
        depth += (letter == "<") - (letter == ">" and text[place - 1] != "-")
        if letter == "(" and not depth:
            return parts(text, place, "([{< )]}>") or []
    return []


class Calls:
    """How many arguments calls take, by the type or module before their name and by it alone."""

    def __init__(self):
        self.of = defaultdict(set)
        for path in sources():
            self.note(path, re.sub(r"(?m)^\s*//.*$", "", read(f"{TOP}/{path}")))

    def note(self, path, text):
        module = path.split("/")[-1].removesuffix(".rt")
        for head in HEAD.finditer(text):
            given = parameters(text, head.end())
            count = len(given) - bool(given and SELF.match(given[0]))
            owners = OWNER.findall(text, 0, head.start())
            for owner in {None, module, *owners[-1:]}:
                self.of[owner, head[1]].add(count)
        for made in TYPE.finditer(text):
            inside = parts(text, made.end() - 1) or []
            if made[2] == "(":
                self.of[None, made[1]].add(len(inside))
            for part in inside:
                variant = re.match(r"\s*(?:#\[[^\]]*\]\s*)*(\w+)\s*\(", part)
                if variant:
                    count = len(parts(part, variant.end() - 1) or [])
                    self.of[made[1], variant[1]].add(count)

    def fault(self, owner, name, count):
        """What is wrong with a call of `count` arguments, or nothing: there is such a function."""
        if owner and (owner, name) in self.of:
            known = self.of[owner, name]
        elif owner and owner not in STD_TYPES and any(of == owner for of, _ in self.of):
            return f"{owner} has no {name}"
        else:
            known = self.of.get((None, name), set())
        if not known:
            return "" if name in STD_CALLS else f"there is no {name}"
        if count is None or count in known or not owner and name in STD_CALLS:
            return ""
        return f"{name} takes {' or '.join(map(str, sorted(known)))} arguments, not {count}"


def checked_calls():
    """The calls in examples: the source and the line of each, and what is wrong with it."""
    calls = Calls()
    for path in sources():
        for line, owner, name, count in example_calls(read(f"{TOP}/{path}")):
            yield path, line, calls.fault(owner, name, count)


def example_calls(text):
    """The calls in a source's examples: the line, the type before the name, the name, and how many
    arguments there are; None if they aren't all shown."""
    for example in EXAMPLE.finditer(text):
        lines = [re.sub(r"^ *(///|//!) ?", "", line) for line in example[1].splitlines()]
        code = "\n".join(re.sub(r"(^|\s)//.*", "", TEXT.sub('""', line)) for line in lines)
        for call in CALL.finditer(code):
            given = parts(code, call.end() - 1)
            shown = given is not None and not any(".." in part for part in given)
            line = text.count("\n", 0, example.start()) + 2 + code.count("\n", 0, call.start())
            owner = call[1] if call[2] == "::" else None
            yield line, owner, call[4], len(given) if shown else None


def find_declared():
    """The names that sources and definitions declare, and those of their files and crates."""
    found = set()
    for path in sources() + definitions():
        found |= {name for pair in DECLARED.findall(read(f"{TOP}/{path}")) for name in pair}
        found |= {path.split("/")[1], path.split("/")[-1].split(".")[0]}
    return found


def is_module(crate, name):
    return os.path.exists(f"{TOP}/crates/{crate}/src/{name}.rt")


def laws():
    """The names of the laws: the public functions of laws.rt, and of d_types' meaning.rt."""
    paths = files("src/laws.rt") + ["crates/d_types/src/meaning.rt"]
    texts = (read(f"{TOP}/{path}") for path in paths)
    return {name for text in texts for name in re.findall(r"(?m)^pub fn (\w+)", text)}


def names_of_cases():
    paths = glob.glob(f"{TOP}/tests/cases/*.txt")
    names = {name for path in paths for name in re.findall(r"(?m)^== (\w+) ==$", read(path))}
    return names | {path.split("/")[-1].removesuffix(".txt") for path in paths}


def names_in_python():
    """The constants of the tests and the tools."""
    paths = [
        path
        for part in ("tests", "tools")
        for path in glob.glob(f"{TOP}/{part}/**/*.py", recursive=True)
    ]
    return {name for path in paths for name in re.findall(r"(?m)^([A-Z_]+) =", read(path))}


def words_of_d():
    """The words in the examples of the language's page."""
    examples = CODE.findall(read(f"{TOP}/docs/LANGUAGE.md"))
    return {word for code in examples for word in re.findall(r"\w+", code)}


def find_known():
    """The names that pages may use: of the tree, of what it is built on, of its tests, and of D."""
    crates = set(re.findall(r"\w+", read(f"{TOP}/crates.txt")))
    tests = names_of_cases() | names_in_python()
    return find_declared() | crates | tests | words_of_d() | OTHER_NAMES


def squeeze(text):
    """A text without what its layout and its comments add to it."""
    text = re.sub(r"(?m)^\s*(?://|--).*$", "", text)
    return re.sub(r"\s+", "", text).replace(",)", ")").replace("{}", "")


def all_code():
    """The sources and the definitions, squeezed into one text."""
    return "\n".join(squeeze(read(f"{TOP}/{path}")) for path in sources() + definitions())


def find_misquoted(block, code):
    """The first line of a block that quotes a source or a definition otherwise than it is there."""
    first = block.strip().split("\n")[0]
    is_quote = re.match(r"pub fn |requires |ensures |Is\w+ .*=$", first)
    return first if is_quote and squeeze(block) not in code else ""


def is_misplaced(path):
    """Whether a path begins with a crate, and what follows is no module of it and nothing that the
    module, or else the crate, declares."""
    crate, *within = path.split("::")
    places = [file for file in sources() if file.split("/")[1] == crate]
    if places and within and f"crates/{crate}/src/{within[0]}.rt" in places:
        places = [f"crates/{crate}/src/{within.pop(0)}.rt"]
    text = "\n".join(read(f"{TOP}/{file}") for file in places)
    heads = (rf"(?m)\b(?:{KINDS}) {name}\b|^ +{name}\b" for name in within)
    return bool(places) and not all(re.search(head, text) for head in heads)


def unknown_names(path, names):
    """What a page quotes that looks like a name of the tree and isn't among these names, or isn't
    where it leads."""
    text = re.sub(r"(?ms)^```.*?^```", "", read(f"{TOP}/{path}"))
    text = re.sub(r"(?m)^    .*\n", "", text)
    quoted = {code for code in CODE.findall(text) if re.fullmatch(r"[A-Za-z_]\w+(::\w+)*", code)}
    paths = [code for code in quoted if code.split("::")[0] not in OTHER_NAMES]
    return sorted(
        code for code in paths if not names.issuperset(code.split("::")) or is_misplaced(code)
    )
