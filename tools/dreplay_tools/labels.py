"""How names and numbers are shown to a person: escaped, with units, and as wide as a terminal shows
them.
"""
import functools

SCALES = {
    "ns": (1000, ["ns", "µs", "ms", "s"]),
    "us": (1000, ["µs", "ms", "s"]),
    "ms": (1000, ["ms", "s"]),
    "s": (1000, ["s"]),
    "bytes": (1024, ["B", "KiB", "MiB", "GiB", "TiB"]),
}
SHARE = "%"


def escape(letter):
    """A letter that no terminal takes for a command, as D would write it: a control byte as
    `\\x1b`, a byte that isn't UTF-8 too.
    """
    code = ord(letter)
    if 0xDC80 <= code <= 0xDCFF:
        return f"\\x{code - 0xDC00:02x}"
    return (
        f"\\x{code:02x}"
        if code < 0x100
        else f"\\u{code:04x}" if code < 0x10000 else f"\\U{code:08x}"
    )


def printable(text):
    """A text in whose place a terminal, a picture or a page shows the text, and nothing else."""
    if text.isprintable():
        return text
    return "".join(letter if letter.isprintable() else escape(letter) for letter in text)


def name(key):
    """A part of a key as a label."""
    return printable(str(key)) if key != "" else '""'


@functools.lru_cache(maxsize=None)
def letter_width():
    """What tells a letter's columns: wcwidth where it is installed, else Python's table."""
    try:
        from wcwidth import wcwidth
    except ImportError:
        return width_by_python
    return wcwidth


def width_by_python(letter):
    import unicodedata

    if unicodedata.category(letter) in ("Mn", "Me", "Cf"):
        return 0
    return 2 if unicodedata.east_asian_width(letter) in "WF" else 1


def width(text):
    """How many columns of a terminal a printable text takes."""
    if text.isascii():
        return len(text)
    return sum(max(letter_width()(letter), 0) for letter in text)


def pad(text, columns, right=False):
    spaces = " " * (columns - width(text))
    return spaces + text if right else text + spaces


def align(texts, right=False):
    """Texts of a column, each as wide as the widest."""
    if not "".join(texts).isascii():
        columns = max(map(width, texts))
        return [pad(text, columns, right) for text in texts]
    columns = max(map(len, texts))
    return [text.rjust(columns) if right else text.ljust(columns) for text in texts]


def cut(text, most):
    """A text of at most `most` columns."""
    if width(text) <= most:
        return text
    kept, used = [], 1
    for letter in text:
        used += width(letter)
        if used > most:
            break
        kept.append(letter)
    return "".join(kept) + "…"


# -- numbers


def show_number(value, unit, total=0):
    """A number for a person: with a unit that fits, as a share of a total, or with separators."""
    if unit == SHARE:
        return f"{100 * value / total:.1f} %" if total else "0.0 %"
    return scale(value, *SCALES[unit]) if unit else f"{value:,}"


def scale(value, base, units):
    size, place = abs(value), 0
    while size >= base and place < len(units) - 1:
        size, place = size / base, place + 1
    shown = f"{size:,.0f}" if place == 0 or size >= 100 else f"{size:.3g}"
    return f"{'-' if value < 0 else ''}{shown} {units[place]}"


def interval(bucket, unit):
    """A bucket in words."""
    if bucket.low is None:
        return f"< {show_number(bucket.high, unit)}"
    if bucket.high is None:
        return f"≥ {show_number(bucket.low, unit)}"
    if bucket.high == bucket.low + 1:
        return show_number(bucket.low, unit)
    if bucket.low < 0 and bucket.high <= 0:
        return f"{show_number(bucket.low, unit)} .. {show_number(bucket.high - 1, unit)}"
    return f"{show_number(bucket.low, unit)} .. {show_number(bucket.high, unit)}"
