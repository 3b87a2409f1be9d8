"""Random scripts and traces: most are well typed and have good rows, some have a fault. A seed
fixes them all."""
import random

from . import scripts, traces


def bundle(seed, place):
    """The bundle at a place in the list that a seed fixes."""
    chance = random.Random(f"{seed} {place}")
    dividing_line = chance.choices([b"---\n", b"---\r\n", b"--\n"], [97, 2, 1])[0]
    return scripts.draw(chance) + dividing_line + traces.draw(chance)
