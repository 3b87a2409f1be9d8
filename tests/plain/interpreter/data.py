"""All that a run makes, as JSON Lines: its texts, its entries with what is held of their arguments,
and its end (docs/DATA.md)."""
import re

from .output import sort_entries, total

FIRST_LINE = b'{"format":"dreplay-data","version":1}\n'
ESCAPED = re.compile(rb'[\0-\x1f"\\\x7f]')
SHORT = {b'"': b'\\"', b"\\": b"\\\\", b"\n": b"\\n", b"\t": b"\\t"}


def text(value):
    """A string, in which UTF-8 stays as it is; of other bytes their hexadecimal digits."""
    try:
        value.decode("utf-8")
    except UnicodeDecodeError:
        return b'{"hex":"%s"}' % value.hex().encode()
    return b'"%s"' % ESCAPED.sub(escape, value)


def escape(found):
    return SHORT.get(found[0]) or b"\\u00%02x" % found[0][0]


def array(values):
    return b"[%s]" % b",".join(values)


def key(parts):
    return array(text(part) if isinstance(part, bytes) else b"%d" % part for part in parts)


def histogram(aggregation, shown):
    """The buckets that have arguments, each by its label; lquantize has its levels, too."""
    buckets = [
        b"[%d,%d]" % (shown.buckets.label(bucket), count)
        for bucket, count in sorted(shown.counts.items())
    ]
    stands = b""
    if aggregation.linear:
        stands = b'"lower":%d,"upper":%d,"step":%d,' % aggregation.linear
        stands += b'"levels":%d,' % aggregation.linear.levels
    return b'{%s"counts":%s}' % (stands, array(buckets))


def value(aggregation, shown, arguments):
    """What is held of an entry's arguments."""
    if aggregation.function in ("quantize", "lquantize"):
        return histogram(aggregation, shown)
    if aggregation.function == "avg":
        return b'{"sum":%d,"count":%d}' % (total(arguments), len(arguments))
    return b"%d" % shown.rank


def entries(place, name, aggregation, arguments):
    """The lines of an aggregation. That of `@` is called `_`."""
    written = b"@" if name == b"_" else b"@" + name
    head = b'{"kind":"entry","aggregation":%d,"name":"%s","function":"%s",' % (
        place,
        written,
        aggregation.function.encode(),
    )
    return b"".join(
        b'%s"key":%s,"value":%s}\n'
        % (head, key(parts), value(aggregation, shown, arguments[parts]))
        for shown, parts in sort_entries(aggregation, arguments)
    )


def end(shown):
    exits = b'{"firing":%d,"status":%d}' % shown.exited if shown.exited else b"null"
    return b'{"kind":"end","exit":%s,"firings":%d}\n' % (exits, shown.firings)


def render(script, shown):
    """All lines of a run."""
    texts = [
        b'{"kind":"text","firing":%d,"text":%s}\n' % (number, text(value))
        for number, value in shown.texts
    ]
    listed = [
        entries(index, name, aggregation, shown.arguments[name])
        for index, (name, aggregation) in enumerate(script.aggregations.items())
        if name in shown.arguments
    ]
    return b"".join([FIRST_LINE, *texts, *listed, end(shown)])
