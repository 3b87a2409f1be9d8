"""Facts of pages that a script can look for in the tree: figures, limits, crates, the grammar,
times, and which functions no program reaches. `found` gives what it looks at, and what is wrong."""
import glob
import re

from lib import names
from lib.names import TOP
from lib.reaching import Reaching

# A page with a figure, and the program that has it too; patterns say where in each.
FIGURES = (
    ("docs/PROVED.md", r"`rt version` is `(\S+)", "tests/lib/toolchain.py", r'SEEN = \["([^"]*)"'),
    ("tests/README.md", r"(\S+) random scripts and", "tests/differential", r'drawn", (\w+)\)'),
    ("tests/README.md", r"(\S+) cases with random", "tests/fuzz", r'played", (\w+)\)'),
    ("tests/README.md", r"(\d+) minutes on 4 cores", "tests/gate", r"BUDGET = .* 4: (\d+)"),
    ("tests/README.md", r"on 4 cores and (\d+) on 2", "tests/gate", r"BUDGET = \{2: (\d+)"),
)
# A page with a limit, and the module and the constant that have it in code.
LIMITS = (
    ("docs/DIF.md", r"`ldgs` is over (\d+)", "dif_validate/src/instruction", "MAX_BUILT_IN"),
    ("docs/GRAMMAR.md", r"bytes, at most (\S+) of them", "d_lexer/src/fault", "MAX_BYTES"),
    ("docs/GRAMMAR.md", r"at most (\d+) open", "d_parser/src/limits", "MAX_OPEN"),
    ("docs/GRAMMAR.md", r"at most\s(\S+) tokens in a row", "d_parser/src/limits", "MAX_IN_A_ROW"),
    ("docs/GRAMMAR.md", r"at most (\d+) `\{`", "d_parser/src/limits", "MAX_CLAUSES"),
    ("docs/LANGUAGE.md", r"a width from 1 to (\d+)", "d_types/src/limits", "MAX_WIDTH"),
    ("docs/LANGUAGE.md", r"there is none\) to (\d+)", "aggregations/src/linear_range", "MAX_STEP"),
    ("docs/LANGUAGE.md", r"to (\d+) steps", "aggregations/src/linear_range", "MAX_LEVELS"),
    ("docs/RELIABILITY.md", r"bounded: (\S+) bytes", "d_lexer/src/fault", "MAX_BYTES"),
    ("docs/RELIABILITY.md", r"levels,\s(\S+) rows", "firings/src/limits", "MAX_ROWS"),
    ("docs/TRACE.md", r"UTF-8 of at most (\d+) bytes", "firings/src/limits", "MAX_TEXT"),
    ("README.md", r"workers, 1 to (\d+)", "shard_queue/src/limits", "MAX_WORKERS"),
    ("README.md", r"groups, 1 to (\d+)", "shard_queue/src/limits", "MAX_GROUPS"),
)
NUMBERS = "one two three four five six seven eight nine ten eleven twelve".split()


def read(path):
    return names.read(f"{TOP}/{path}")


def section(path, heading):
    """What a page has below a heading of the second level."""
    _, _, text = read(path).partition(f"\n## {heading}\n")
    return text.partition("\n## ")[0]


def find_wrong():
    for look in (functions, figures, crates, libraries, grammar, times, shares):
        yield from look()


def with_unused(reaching):
    """The page of what is proved, with its table of what no program reaches."""
    table = re.compile(r"(?<=\n\n)\| Crate \| Functions \|\n(?:\|.*(?:\n|$))*")
    return table.sub(f"{reaching.table()}\n", read("docs/PROVED.md"))


def functions():
    """Pages name the functions that no program reaches, and those that are larger than others."""
    reaching = Reaching()
    is_so = read("docs/PROVED.md") == with_unused(reaching)
    yield "docs/PROVED.md: not used", "" if is_so else "run tests/documents --write"
    yield "docs/PROVED.md: tests alone", ", ".join(reaching.find_uncalled())
    said = names.CODE.findall(read("docs/CODE_DECISIONS.md"))
    large = [it.label() for it in reaching.all if it.is_large() and it.label() not in said]
    yield "docs/CODE_DECISIONS.md: large functions", ", ".join(large)


def figures():
    """Some figures of pages are those of the programs that they speak of, and limits the code's."""
    limits = [
        (page, said, f"crates/{module}.rt", rf"const {constant}: \w+ = (\w+);")
        for page, said, module, constant in LIMITS
    ]
    for page, said, program, meant in (*FIGURES, *limits):
        both = [re.search(said, read(page)), re.search(meant, read(program))]
        has, wants = (re.sub("[,_]", "", it[1]) if it else "nothing" for it in both)
        yield f"{page}: figure", has != wants and f"it says {has}, {program} has {wants}"


def crates():
    """Each crate is on the page of the architecture, and each with lemmas on that of the proofs."""
    every = re.findall(r"(?m)^(\w+)", read("crates.txt"))
    lemmas = glob.glob(f"{TOP}/crates/*/proofs/*.antt")
    proving = {path.split("/")[-3] for path in lemmas if "_tests/" not in path}
    for page, wanted in (("docs/ARCHITECTURE.md", every), ("docs/PROOFS.md", proving)):
        rows = re.findall(r"(?m)^\|.*", read(page))
        said = {name for row in rows for name in names.CODE.findall(row)}
        absent = ", ".join(sorted({*wanted} - said))
        yield f"{page}: crates", absent and f"no table has {absent}"


def libraries():
    """The toolchain's crates that dreplay builds on are where they are spoken of."""
    own = dict(re.findall(r"(?m)^(\w+)[^:\n]*: *(.*)$", read("crates.txt")))
    trusted = dict(
        re.findall(r"(?m)^\| `(\w+)` \|.*\| (.*) \|$", section("docs/PROVED.md", "Trusted"))
    )
    for crate, used in own.items():
        said = {name for name, where in trusted.items() if f"`{crate}`" in where} | {"thiserror"}
        absent = sorted({*used.split()} - {*own} - said)
        yield f"docs/PROVED.md: trusted in {crate}", ", ".join(absent)
    absent = [name for name in trusted if f"`{name}`" not in read("NOTICES.md")]
    yield "NOTICES.md: libraries", ", ".join(absent)
    said = re.search(r"\[(\w+) crates of it\]", read("README.md"))
    is_so = said and NUMBERS.index(said[1]) + 1 == len(trusted)
    yield "README.md: trusted crates", "" if is_so else f"docs/PROVED.md has {len(trusted)}"


def production(text):
    """A production without the brackets round what may be absent."""
    return " ".join(re.sub(r'(?<!")[][](?!")', " ", text).split())


def grammar():
    """The productions in the definitions of the grammar are those of the page."""
    block = re.search(r"(?ms)^```\n(.*?)^```", read("docs/GRAMMAR.md"))[1]
    page = [production(it) for it in re.split(r"\n(?=[a-z])", block)]
    for path in ("Grammar", "Script"):
        text = read(f"crates/d_parser/specs/{path}.antt")
        for name, said in re.findall(r"(?m)^ *-- ([a-z-]+) = (.*)$", text):
            there = [it for it in page if it.startswith(f"{name} = ") and production(said) in it]
            yield f"docs/GRAMMAR.md: {name}", "" if there else f"{path} has {name} = {said}"


def times():
    """The times of the README and of docs/PERFORMANCE.md are the newest of bench/RESULTS.md."""
    text = section("bench/RESULTS.md", "Five questions").partition("\nOne worker with")[0]
    rows = [re.findall(r"[\d.]+", row) for row in re.findall(r"(?m)^\| `\w+` (\|.*\|)$", text)]
    measured = [sorted(f"{float(it):.2f}" for it in (row[0], row[1], row[3])) for row in rows]
    for page in ("README.md", "docs/PERFORMANCE.md"):
        said = re.findall(r"(?m)^\| (.*?) ((?:\| \d\.\d\d ){3})", read(page))
        wrong = [it for it, cells in said if sorted(re.findall(r"[\d.]+", cells)) not in measured]
        why = wrong and f"bench/RESULTS.md has other times: {', '.join(wrong)}"
        yield f"{page}: times", why if said else "it has no times"


def shares():
    """The shares of instructions of docs/PERFORMANCE.md are those of bench/RESULTS.md."""
    counts = re.search(r"(?m)^\| `-e dif` ((?:\| [\d,]+ )+)\|$", read("bench/RESULTS.md"))[1]
    reading, *questions = (int(it) for it in counts.replace(",", "").split("|")[1:])
    meant = [f"{round(100 * reading / it)}" for it in questions[:3]]
    _, _, text = read("docs/PERFORMANCE.md").partition("instructions that a row takes")
    said = re.findall(r"(\d+) % at", text)
    yield "docs/PERFORMANCE.md: shares", said != meant and f"they are {meant}, not {said}"
