"""Where an edit's text stands: once in its file, as rt wants it, or once in a function of it.

An edit of a text that stands in its file more often has a line `# in:` with its function's name,
as `Type::name`, and then `# old:` and `# new:`. rt passes over these. The lines `old:` and `new:`
after them are for rt, and `tests/edits --write` makes them: they write the changed text behind the
nearest line before it that stands once in the file, and put what was there into a comment, which
ends at the nearest such line behind it. A control, which rt doesn't read, has no such lines: after
`# new:` come the pairs of its proofs' files.
"""
import re

from lib import bodies

IN_FUNCTION = re.compile(
    r"\Afile: (?P<path>.*)\n# in: (?P<name>.*)\n# old: (?P<old>.*)\n# new: ?(?P<new>.*)\n"
)
# What has another meaning where more is written behind it on its line.
TIED = re.compile(r'/\*|\*/|//|\\$|r#*"')


def read(path):
    with open(path, encoding="utf-8", errors="replace") as file:
        return file.read()


def changed_text(edit, text):
    """Returns a file's text after an edit in one of its functions, or None if what it changes is
    not there once."""
    found = [
        it
        for function, it in bodies.functions_in(text, edit["path"])
        if edit["name"] in (function.name, f"{function.of_type}::{function.name}")
    ]
    if len(found) != 1 or found[0][0].count(edit["old"]) != 1:
        return None
    at = found[0].start() + found[0][0].index(edit["old"])
    return text[:at] + edit["new"] + text[at + len(edit["old"]) :]


def plain_pairs(edit):
    """Returns what of an edit is of whole files: all of it, or the pairs of other files."""
    if not IN_FUNCTION.match(edit):
        return edit
    _, *others = edit.split("\nfile: ")
    return "\n".join(f"file: {it}" for it in others)


def edited(rt, edits, folder):
    """Returns the texts of a folder's files with these edits applied, by their paths, or why they
    can't be."""
    edits = [read(it) for it in edits]
    plain = [*filter(None, map(plain_pairs, edits))]
    texts, why = rt.edited("\n".join(plain), folder) if plain else ({}, None)
    for edit in filter(None, map(IN_FUNCTION.match, edits)):
        if not why:
            path = edit["path"]
            texts[path] = changed_text(edit, texts.get(path) or read(f"{folder}/{path}"))
            why = None if texts[path] else f"its text isn't once in {edit['name']} of {path}"
    return (None, why) if why else (texts, None)


def with_lines_for_rt(edit, folder):
    """Returns an edit's text with the lines for rt as they have to be, or None if there can't be
    any."""
    found = IN_FUNCTION.match(edit)
    if not found:
        return edit
    text = read(f"{folder}/{found['path']}")
    changed = changed_text(found, text)
    if changed is None or changed == text:
        return None
    lines, new_lines = ([it.strip() for it in one.split("\n")] for one in (text, changed))

    def nearest(places):
        return next(it for it in places if is_anchor(text, lines[it]))

    at = next(it for it, line in enumerate(lines) if line != new_lines[it])
    first, last = nearest(range(at - 1, -1, -1)), nearest(range(at + 1, len(lines)))
    between = " ".join(it for it in new_lines[first + 1 : last] if not it.startswith("//"))
    if TIED.search(between):
        return None
    pairs = [(lines[first], f"{lines[first]} {between} /*"), (lines[last], f"*/ {lines[last]}")]
    return found[0] + "".join(f"old: {old}\nnew: {new}\n" for old, new in pairs)


def is_anchor(text, line):
    """Returns whether a line stands once in a text, and more can be written on it."""
    return bool(line) and text.count(line) == 1 and not TIED.search(line)


def is_stale(edit, folder):
    """Returns whether rt reads another edit than its function and statement say."""
    text = read(edit)
    return text != with_lines_for_rt(text, folder)


def write(edit, folder):
    """Writes the lines for rt, if there can be any."""
    text = with_lines_for_rt(read(edit), folder)
    if text:
        with open(edit, "w", encoding="utf-8") as file:
            file.write(text)
