"""Codes of twelve places in every shape of pile, with losses under which the policies answer differently, as far as the shape lets them."""

import functools
import random

import generate
from elimination import POLICIES, Search

PLACES, DRAWS = 12, 500


def listed(rng, rows):
    ones = sorted({(r, c) for r in range(rows) for c in rng.sample(range(PLACES), rng.randrange(2, 6))})
    return f"listed {rows} {PLACES} {generate.records(ones)}"


def squares(rng, a):
    return f"circulant {a} 4 3 {' '.join(str(rng.randrange(-1, 3)) for _ in range(4 * a))}"


SHAPES = {
    "listed": lambda rng: listed(rng, 7),
    "circulant": lambda rng: squares(rng, 3),
    "interleaved": lambda rng: f"interleaved 3 4 3 {squares(rng, 3)}",
    "stacked": lambda rng: f"stacked {squares(rng, 1)} + {listed(rng, 4)}",
    "stacked-interleaved": lambda rng: f"stacked interleaved 1 4 3 {squares(rng, 1)} + {listed(rng, 4)}",
    "interleaved-stacked": lambda rng: f"interleaved 3 4 3 stacked {squares(rng, 2)} + {listed(rng, 3)}",
}


def others(places):
    return [place for place in range(PLACES) if place not in places]


def told(code, received):
    """What a solve tells under each policy: how many pivots, and additions."""
    searches = [Search(code, received, policy) for policy in POLICIES.values()]
    return [(len(search.pivots), search.additions) for search in searches]


def drawn(shape, seed):
    """The words of a code of this shape, the code, and as many places lost as it can settle."""
    rng = random.Random(f"{shape} {seed}")
    words = SHAPES[shape](rng)
    code = generate.code_of(words)
    return words, code, sorted(generate.reduced(code, rng.sample(range(PLACES), PLACES)))


@functools.cache
def telling(shape):
    """Of many draws the first under which most policies answer differently; seldom the two over which component stands, so these count first."""
    def apart(draw):
        _, code, lost = draw
        answers = told(code, dict.fromkeys(others(lost), 0))
        return answers[-2] != answers[-1], len(set(answers))
    return max((drawn(shape, seed) for seed in range(DRAWS)), key=apart)
