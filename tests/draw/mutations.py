"""Changes bytes at random: bits, bytes, numbers, slices, ends, and pieces of other texts."""
import re

BYTES = b"\0\t\n\r \"#%&'()*+,-./0:;<=>?@[\\]^_`aeghi{|}~\x7f\x80\xc3\xff"
NUMBERS = [b"0", b"1", b"-1", b"8", b"9", b"07", b"0x", b"64", b"255", b"256", b"65535", b"65536"]
NUMBERS += [b"%d" % (2**power + more) for power in (31, 32, 62, 63, 64) for more in (-1, 0, 1)]
# A repetition makes no text longer than this.
MAX_BYTES = 100_000


def slice_of(rng, text):
    """Two places of a text, in order; most often close to one another."""
    first = rng.randrange(len(text) + 1)
    length = rng.choice((1, 2, 8, 40, len(text)))
    return first, min(len(text), first + rng.randrange(length + 1))


def flip_a_bit(rng, text, other):
    if not text:
        return text
    place = rng.randrange(len(text))
    return text[:place] + bytes([text[place] ^ 1 << rng.randrange(8)]) + text[place + 1 :]


def put_a_byte(rng, text, other):
    place, over = rng.randrange(len(text) + 1), rng.randrange(2)
    return text[:place] + bytes([rng.choice(BYTES)]) + text[place + over :]


def put_a_number(rng, text, other):
    found = [*re.finditer(rb"\d+", text)]
    if not found:
        return text
    number = rng.choice(found)
    return text[: number.start()] + rng.choice(NUMBERS) + text[number.end() :]


def drop_a_slice(rng, text, other):
    first, last = slice_of(rng, text)
    return text[:first] + text[last:]


def repeat_a_slice(rng, text, other):
    first, last = slice_of(rng, text)
    times = min(rng.choice((2, 3, 9, 65, 1100)), MAX_BYTES // (last - first + 1) + 1)
    return text[:first] + text[first:last] * times + text[last:]


def truncate(rng, text, other):
    return text[: rng.randrange(len(text) + 1)]


def splice(rng, text, other):
    first, last = slice_of(rng, other)
    place, over = rng.randrange(len(text) + 1), rng.choice((0, last - first))
    return text[:place] + other[first:last] + text[place + over :]


def other_end(rng, text, other):
    return text[: rng.randrange(len(text) + 1)] + other[rng.randrange(len(other) + 1) :]


def other_text(rng, text, other):
    return other


def swap_lines(rng, text, other):
    lines = text.splitlines(keepends=True)
    if lines:
        first, second = rng.randrange(len(lines)), rng.randrange(len(lines))
        lines[first], lines[second] = lines[second], lines[first]
    return b"".join(lines)


MUTATIONS = [flip_a_bit, put_a_byte, put_a_number, drop_a_slice, repeat_a_slice, truncate]
MUTATIONS += [splice, other_end, other_text, swap_lines]


def mutate(rng, text, other):
    """Changes a text once, at random; a text of the same kind is there to take pieces from."""
    return rng.choice(MUTATIONS)(rng, text, other)
