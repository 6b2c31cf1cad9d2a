"""CODE words of the script language, read as a function that makes the code: the parts of a layer before it, the first before the second."""

import codes
from words import NotUnderstood, entry, number, short


def record(word):
    """R:C, two numbers of 16 bits."""
    parts = word.split(b":")
    if len(parts) != 2:
        raise NotUnderstood
    return tuple(short(part) for part in parts)


def sizes(words, count):
    if len(words) < count:
        raise NotUnderstood
    return [number(word) for word in words[:count]]


def base(words):
    """A code at the bottom of a pile."""
    if words[:1] == [b"listed"]:
        m, n = sizes(words[1:], 2)
        records = [record(word) for word in words[3:]]
        return lambda: codes.listed(m, n, records)
    if words[:1] == [b"circulant"]:
        a, b, z = sizes(words[1:], 3)
        entries = [entry(word) for word in words[4:]]
        return lambda: codes.circulant(a, b, z, entries)
    raise NotUnderstood


def over(words, below):
    """An interleaved layer whose code below is read by `below`."""
    a, b, z = sizes(words[1:], 3)
    under = below(words[4:])
    return lambda: codes.interleaved(a, b, z, under())


def stack(words, first):
    """A stack whose first code is read by `first`, and its second as a base."""
    if words.count(b"+") != 1:
        raise NotUnderstood
    at = words.index(b"+")
    upper, lower = first(words[1:at]), base(words[at + 1:])
    return lambda: codes.stacked(upper(), lower())


def pile(words):
    """A pile of one of the shapes that stand."""
    if words[:1] == [b"interleaved"]:
        return over(words, lambda below: stack(below, base) if below[:1] == [b"stacked"] else base(below))
    if words[:1] == [b"stacked"]:
        return stack(words, lambda first: over(first, base) if first[:1] == [b"interleaved"] else base(first))
    return base(words)
