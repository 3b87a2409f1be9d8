"""A file of cases: a block of text for each case. tests/README.md shows one, and lists its
parts."""
import re

BLOCK = re.compile(rb"^== (\w+) ==\n", re.MULTILINE)
PART = re.compile(rb"^-- ([a-z.]+)(?:, status (\d+))?(, no line feed)? --\n", re.MULTILINE)
MARK = re.compile(rb"^(==|--) .* \1\n", re.MULTILINE)
# A byte of a part by its two digits, and the first byte of a line that looks like a mark.
ESCAPE = re.compile(rb"\\x([0-9a-f]{2})")
MARK_BEGINS = re.compile(rb"^([=-])(?=\1 .* \1\1$)", re.MULTILINE)
# The parts of a case in the order in which a block has them, each with those that it may replace.
PARTS = {
    "words": (),
    "script.d": (),
    "bundle": ("script", "rows", "trace"),
    "script": ("bundle",),
    "trace": ("bundle", "rows"),
    "rows": ("bundle", "trace"),
    "run": (),
    "plans": (),
    "stdout": (),
    "stderr": (),
}
# The parts that a script of sh may print: 'rows.sh' takes the place of 'rows'.
PRINTED = ("bundle", "script", "trace", "rows", "stdout")
NAMES = {*PARTS, "status"} | {f"{name}.sh" for name in PRINTED}


class BadCase(Exception):
    """A case that can't be run as it is written."""


def stem(name):
    """The part that a part of this name is, or that it prints."""
    return name.removesuffix(".sh")


def parts_of(text):
    """The parts of a block by their names. What comes before the first is a remark."""
    _, *fields = PART.split(text)
    parts = {}
    for name, status, cut, part in zip(*[iter(fields)] * 4):
        name = name.decode()
        if name not in NAMES or name in parts:
            raise BadCase(f"a part that no case has, or that this one has twice: {name}")
        parts[name] = read_part(name, part[:-1] if cut else part)
        if status:
            parts["status"] = status
    return parts


def read_part(name, text):
    """The bytes that a part shows. In a script of sh no byte is escaped."""
    if name == "run" or name.endswith(".sh"):
        return text
    return ESCAPE.sub(lambda escape: bytes([int(escape[1], 16)]), text)


def with_shared(parts, shared):
    """The parts of a block, and those of its file in whose place it has none."""
    own = {stem(name) for name in parts}
    given = own.union(*(PARTS[name] for name in own if name in PARTS))
    return {name: part for name, part in shared.items() if stem(name) not in given} | parts


def read(text):
    """Reads a file of cases: the parts of each block by its name."""
    strange = [
        mark[0]
        for mark in MARK.finditer(text)
        if not BLOCK.match(mark[0]) and not PART.match(mark[0])
    ]
    head, *fields = BLOCK.split(text)
    names, blocks = fields[::2], fields[1::2]
    if strange or len({*names}) != len(names):
        raise BadCase(f"lines that look like a mark and are none: {strange}, or a name twice")
    if not all(
        block.endswith(b"\n\n") or block == b"\n" for block in [head, *blocks][:-1] if block
    ):
        raise BadCase("a block without an empty line before its name")
    blocks[:-1] = [block[:-1] for block in blocks[:-1]]
    shared = parts_of(head[:-1])
    return {
        name.decode(): with_shared(parts_of(block), shared) for name, block in zip(names, blocks)
    }


def escape_part(part):
    """A part as a block shows it: lines of UTF-8 without control bytes, none of them a mark."""
    part = ESCAPE.sub(rb"\\x5cx\1", part)
    part = MARK_BEGINS.sub(lambda begins: b"\\x%02x" % begins[1][0], part)
    text = part.decode("utf-8", "surrogateescape")
    shown = (it if it.isprintable() or it in "\t\n" else escapes(it) for it in text)
    return "".join(shown).encode()


def escapes(letter):
    return "".join(f"\\x{byte:02x}" for byte in letter.encode("utf-8", "surrogateescape"))


def mark(name, part, status=b""):
    """The line that begins a part, and the part."""
    line = f"-- {name}" + (f", status {status.decode().strip()}" if status else "")
    cut = part != b"" and not part.endswith(b"\n")
    return line.encode() + b", no line feed" * cut + b" --\n" + escape_part(part) + b"\n" * cut


def write(name, parts):
    """The block of a case."""
    parts, status = dict(parts), parts.get("status", b"")
    has_status = "stderr" if "stderr" in parts else "stdout"
    if status:
        parts.setdefault(has_status, b"")
    shown = sorted(
        (part for part in parts if part != "status"), key=lambda part: [*PARTS].index(stem(part))
    )
    return b"== %s ==\n" % name.encode() + b"".join(
        mark(part, parts[part], status if part == has_status else b"") for part in shown
    )
