"""Which public functions of the crates nothing calls that a program's `main` reaches.

It goes by the text. A call of a method may be one of each method with this name, as many arguments
and a type that the calling file can have a value of: the file names it, or it is in the head of a
function that the file names, or one of these types holds it. A method is reached only if its type
is named by what is reached. So each function that it finds is unused, and one may be unused that
it doesn't find.
"""
import re
from collections import defaultdict
from dataclasses import dataclass
from functools import cached_property

from lib.names import SELF, TOP, parameters, parts, read, sources

# Texts, comments and letters, in which a word is no call; and contracts, which call nothing.
NOISE = re.compile(r'//[^\n]*|"(?:[^"\\]|\\.)*"|\'(?:[^\'\\]|\\.)\'', re.DOTALL)
GHOST = re.compile(r"^ *ghost use [^;]*;|\b(?:requires|ensures)\b[^{]*\{[^\n]*", re.MULTILINE)
HEAD = re.compile(r"^( *)(pub(?:\([^)]*\))? )?(?:const )?fn (\w+)", re.MULTILINE)
OWNER = re.compile(r"^(?:impl\b|(?:pub(?:\([^)]*\))? )?trait )[^{;]*\{", re.MULTILINE)
CALL = re.compile(r"(\.)?(?:\b(\w+)::)?\b(\w+)(?:::<[^>]*>)?\(")
ALIAS = re.compile(
    r"^(?:pub(?:\([^)]*\))? )?type (\w+)(?:<[^=]*>)? = (?:\w+::)*(\w+)", re.MULTILINE
)
TYPE = re.compile(r"^(?:pub(?:\([^)]*\))? )?(?:enum|struct) (\w+)([^{(;]*)", re.MULTILINE)
# Where a body begins after a head without contracts.
BODY = re.compile(r"\{$", re.MULTILINE)
# A type that an impl gives, as what its iterator gives or what it is lent as.
GIVEN = re.compile(r"^    type \w+ = ([^;]*);", re.MULTILINE)
# A function that is passed on, without its arguments.
PASSED = re.compile(r"[(,]\s*(?:(\w+)::)?(\w+)\s*(?=[,)])")
TEST = re.compile(r"#\[(?:cfg\(test\)|test)\]\s*(?:pub )?(?:mod (\w+);)?")
USE = re.compile(r"^(?:pub(?:\([^)]*\))? )?use (\w+)(?:::(\w+))?", re.MULTILINE)
MACRO = re.compile(r"^macro_rules! (\w+) (\{.*?^\})", re.MULTILINE | re.DOTALL)
# What is given to a parameter that is a function, and a parameter that is none.
GIVES_FUNCTION = re.compile(r"\s*(?:(?:move )?\||[A-Z]\w*(?:::\w+)?\s*$)")
TAKES_NUMBER = re.compile(r".*: (?:usize|[iu]\d+)$", re.DOTALL)
# What CONTRIBUTING.md asks of a function.
MAX_LINES, MAX_PARAMETERS = 40, 5


@dataclass
class Function:
    """A function: its file, its type or trait, its name, its parameters, and what it says."""

    path: str
    owner: str
    name: str
    parameters: list
    takes_self: bool
    is_public: bool
    of_trait: bool
    is_law: bool
    head: str
    body: str
    words: set

    @property
    def crate(self):
        return crate_of(self.path)

    def fits(self, given):
        """Whether a call of a method gives what it takes; None is a function that is passed on."""
        return given is None or (
            len(given) == len(self.parameters)
            and not any(
                GIVES_FUNCTION.match(one) and TAKES_NUMBER.match(parameter)
                for one, parameter in zip(given, self.parameters)
            )
        )

    def label(self):
        return f"{self.owner}::{self.name}" if self.owner else self.name

    def is_large(self):
        """Whether it has more lines, or takes more, than a function should."""
        lines = [line for line in self.body.split("\n") if line.strip(" {}")]
        return len(lines) > MAX_LINES or len(self.parameters) + self.takes_self > MAX_PARAMETERS


def crate_of(path):
    return path.split("/")[1]


def words_in(text):
    return set(re.findall(r"\w+", text))


def owner_of(head):
    """The type or trait of an `impl` or a `trait`, and whether its functions are a trait's."""
    while re.search(r"<[^<>]*>", head):
        head = re.sub(r"<[^<>]*>", "", head)
    words = re.match(r"impl\s*(?:(.*?)\s+for\s+)?(?:&\s*)?(?:\w+::)*(\w+)", head)
    if words:
        return words[2], words[1] is not None
    return re.search(r"trait (\w+)", head)[1], True


def functions_in(path):
    """The functions of a source that isn't a test."""
    text = NOISE.sub("", read(f"{TOP}/{path}"))
    owners = [(it.start(), owner_of(it[0])) for it in OWNER.finditer(text)]
    for head in HEAD.finditer(text):
        if TEST.search(text[max(0, head.start() - 10) : head.start()]):
            continue
        shut = rf"^{head[1]}(?:\}}|\{{\}})$"
        if head[1]:
            shut += rf"|^{head[1]}(?:\S|    ensures ).*;$"
        end = re.compile(shut, re.MULTILINE).search(text, head.end())
        whole = text[head.end() : end.end() if end else len(text)]
        begin = max(whole.find(f"\n{head[1]}{{"), 0)
        body = whole[begin:]
        before = [owner for at, owner in owners if head[1] and at < head.start()]
        owner, of_trait = before[-1] if before else ("", False)
        is_law = path.endswith("/laws.rt") or not body.strip("{} \n")
        all_given = parameters(text, head.end())
        given = [it for it in all_given if not SELF.match(it)]
        called = "".join(inside for name, inside in MACRO.findall(text) if f"{name}!(" in body)
        words = words_in(GHOST.sub("", whole))
        is_public = head[2] == "pub "
        yield Function(
            path,
            owner,
            head[3],
            given,
            len(given) < len(all_given),
            is_public,
            of_trait,
            is_law,
            GHOST.sub("", whole[:begin] or BODY.split(whole, 1)[0]),
            body + called,
            words,
        )


class Reaching:
    """The functions of the crates, but for those of tests, and which of them programs reach."""

    def __init__(self):
        tests = {
            f"{path.rsplit('/', 1)[0]}/{name}.rt"
            for path in sources()
            for name in TEST.findall(read(f"{TOP}/{path}"))
        }
        paths = [it for it in sources() if it not in tests and "_tests/" not in it]
        self.tests = "\n".join(read(f"{TOP}/{it}") for it in sources() if it not in paths)
        self.texts = {path: NOISE.sub("", read(f"{TOP}/{path}")) for path in paths}
        self.all = [it for path in paths for it in functions_in(path)]
        self.named, self.fields, self.seen, self.held = defaultdict(list), {}, {}, {}
        self.types = defaultdict(set)
        for text in self.texts.values():
            for alias, meant in ALIAS.findall(text):
                self.types[alias].add(meant)
        for it in self.all:
            self.named[it.name].append(it)
        for text in self.texts.values():
            for impl in OWNER.finditer(text):
                inside = text[impl.end() : text.find("\n}", impl.end())]
                self.types[owner_of(impl[0])[0]] |= words_in(" ".join(GIVEN.findall(inside)))
            for found in TYPE.finditer(text):
                inside = parts(text, found.end(), "([{ )]}") if found.end() < len(text) else []
                self.fields[found[1]] = words_in(" ".join(inside or []))

    @cached_property
    def taken(self):
        """The crates from which each crate takes something."""
        found = defaultdict(set)
        for path, text in self.texts.items():
            found[crate_of(path)] |= {crate for crate, _ in USE.findall(text)}
        return found

    def crates_of(self, path):
        """The crates whose types a file's values can have: of what it takes, and what that does."""
        if path not in self.seen:
            files, crates, ahead = set(), {crate_of(path)}, [path]
            while ahead:
                file = ahead.pop()
                if file in files or file not in self.texts:
                    continue
                files.add(file)
                folder = f"crates/{crate_of(path)}/src"
                for crate, module in USE.findall(self.texts[file]):
                    if crate in ("crate", "super"):
                        within = [f"{folder}/{module}", f"{file.rsplit('/', 1)[0]}/{module}"]
                        ahead += [it for it in self.texts if it.startswith((*within,))]
                    else:
                        crates |= self.below(crate)
            self.seen[path] = crates
        return self.seen[path]

    def below(self, crate):
        found, ahead = set(), [crate]
        while ahead:
            one = ahead.pop()
            if one not in found:
                found.add(one)
                ahead += self.taken.get(one, ())
        return found

    def types_of(self, path):
        """The types that a file's values can have."""
        if path not in self.held:
            words = words_in(GHOST.sub("", self.texts[path]))
            for it in [it for word in words for it in self.named.get(word, [])]:
                is_named = it.takes_self or not it.owner or it.owner in words
                if is_named and it.crate in self.crates_of(path):
                    words |= words_in(it.head)
            self.held[path] = {*self.living(words, set())}
        return self.held[path]

    def calls_of(self, by):
        """What a function calls, and what it passes on."""
        calls = [(*it.groups(), it.end() - 1) for it in CALL.finditer(by.body)]
        calls += [("", of, name, None) for of, name in PASSED.findall(by.body)]
        for dot, of, name, at in calls:
            of = by.owner if of == "Self" else of
            types = {of, *self.types.get(of, ())}
            near = [it for it in self.named.get(name, []) if it.crate in self.crates_of(by.path)]
            given = at and parts(by.body, at, "([{ )]}")
            for it in near:
                is_its = it.of_trait or it.owner in self.types_of(by.path)
                is_method = dot and it.owner and is_its and it.fits(given)
                is_path = of and (not it.owner or it.owner in types or len(of) == 1)
                if is_method or is_path or (not dot and not of and self.is_plain(by, it)):
                    yield it

    def is_plain(self, by, it):
        """Whether a function can be called by its name alone: one of this file, or taken by it."""
        if it.owner:
            return False
        if it.path == by.path:
            return True
        takes = re.findall(rf"^use (\w+)::[^;]*\b{it.name}\b", self.texts[by.path], re.MULTILINE)
        own = it.crate == by.crate
        return any(crate in ("crate", "super") if own else crate == it.crate for crate in takes)

    @cached_property
    def reached(self):
        """What is reached: `main`, what that calls, and the traits' functions of the types that
        are named there."""
        waiting = defaultdict(list)
        found, live = {}, set()
        ahead = [it for it in self.all if it.name == "main"]
        for it in self.all:
            if it.of_trait:
                waiting[it.owner].append(it)
        while ahead:
            it = ahead.pop()
            if id(it) in found:
                continue
            if it.owner and it.owner not in live and it.owner in self.fields:
                waiting[it.owner].append(it)
                continue
            found[id(it)] = it
            ahead += self.calls_of(it)
            for name in self.living(it.words | {it.owner}, live):
                ahead += waiting.pop(name, [])
        return found

    def living(self, words, live):
        """The types among some words, with those of their fields, that weren't known to live."""
        new, ahead = [], list(words)
        while ahead:
            word = ahead.pop()
            if word not in live:
                live.add(word)
                new.append(word)
                ahead += [*self.fields.get(word, ()), *self.types.get(word, ())]
        return new

    def find_unused(self):
        """The public functions that nothing reaches, by crate; laws compute nothing."""
        found = defaultdict(set)
        for it in self.all:
            if it.is_public and id(it) not in self.reached and not it.is_law:
                found[it.crate].add(it.label())
        return {crate: sorted(names) for crate, names in sorted(found.items())}

    def find_uncalled(self):
        """Those of them that no test calls either."""
        names = [name for found in self.find_unused().values() for name in found]
        ends = (name.rsplit(":", 1)[-1] for name in names)
        calls = (re.search(rf"\b{end}(?:::<[^>]*>)?\(", self.tests) for end in ends)
        return [name for name, call in zip(names, calls) if not call]

    def table(self):
        """The rows of docs/PROVED.md that say so."""
        rows = ["| Crate | Functions |", "|---|---|"]
        for crate, names in self.find_unused().items():
            rows.append(f"| `{crate}` | {', '.join(f'`{name}`' for name in names)} |")
        return "\n".join(rows)
