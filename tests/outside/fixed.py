"""Small scripts for the other symbol kinds, for piles and for policies, by name; one kind of symbols to a script."""

import random

import generate
from edges import HAMMING, SQUARES
from symbols import KINDS
from telling import PLACES, SHAPES, others, telling

NAMES = {"bit": 1, "word": 0xC0FFEE01, "cell": int.from_bytes(b"Lab 2 08:00".ljust(64, b"\0"), "big"), "dated": int.from_bytes(b"Lab 2".ljust(64, b"\0"), "big") << 32 | 0x0800}
SENT = [1, 1, 1, 0, 0, 0, 0]
ROTATED = ["bit", "word", "dated", "cell"]


def written(kind, value):
    return KINDS[kind.encode()].write(value)


def receives(kind, block, stamp, word, places):
    return [f"receive {block} {stamp} {place} {written(kind, word[place])}" for place in places]


def but(missing, n=7):
    return [place for place in range(n) if place not in missing]


def shows(n):
    return [f"show {place}" for place in range(n + 1)]


def scaled(kind, bits):
    """A word of bits in another kind: a symbol that is not zero in place of each 1."""
    return [NAMES[kind] * bit for bit in bits]


# the kinds


def worked(kind):
    """The worked examples."""
    lines = [f"symbols {kind}", f"code {HAMMING}", "open 5 9 7"]
    examples = [([], "first", SENT), ([0, 2], "first", SENT), ([2, 4, 6], "first", SENT), ([2, 4, 6], "heaviest", SENT),
                ([2, 4, 6], "component first", SENT), ([2, 4, 6], "component heaviest", SENT), ([0, 1, 2], "first", SENT),
                ([0, 1, 2], "first", [1, 1, 1, 1, 0, 0, 0]), (range(7), "first", SENT), ([], "first", [1, 1, 1, 0, 0, 0, 1])]
    for k, (missing, policy, sent) in enumerate(examples, start=10):
        lines += [f"renew {k}", f"policy {policy}", *receives(kind, 5, k, scaled(kind, sent), but(missing)), "solve", *shows(7), "close"]
    return lines


def symbols(kind):
    """Words that are symbols of this kind, and words that are none."""
    lines = [f"symbols {kind}", "open 0 1 64"]
    tried = ["0", "1", "2", "00", "01", "-", "-0", "x", "0000000", "00000000", "ffffffff", "FFFFFFFF", "0000000g", "000000000",
             "0" * 127, "0" * 128, "f" * 128, "F" * 128, "0" * 129, "0" * 130, "0" * 128 + ":", ":00000000", ":", "0" * 128 + ":0000000",
             "0" * 128 + ":00000000", "ab" * 64 + ":01234567", "0" * 128 + ":000000000", "0" * 128 + ":00000000:", "0" * 128 + "::00000000",
             "0" * 128 + ":0000000G", "0" * 136, "0" * 127 + ":00000000", "0" * 128 + ";00000000"]
    for place, word in enumerate(tried):
        lines.append(f"receive 0 1 {place} {word}")
    code = "code listed 64 64 " + " ".join(f"{r}:{r}" for r in range(64))
    return lines + ["figure", "grid", "code listed 1 64", "solve", code, "solve", "grid", *shows(4)]


def bytes_not_cells(kind):
    return [
        f"symbols {kind}", "packet 9 -", "run 9 -", "packet 9", "run 9 0", "open 5 9 7", "packet 9 -", "run 9 -",
        f"packet 9 00500000{'00' * 64}", f"run 9 00500000{'00' * 64}", "run 9 x", "figure", "grid", "open 5 0 7", "packet 0 -", "run 0 -",
        f"read 00500000{'00' * 64}", f"write 5 7 {'0a' * 64}",
    ]


def refused_block(kind):
    zero = written(kind, 0)
    return [
        f"symbols {kind}", "code listed 2 3 0:0 0:1 1:1 1:2", "open 4096 0 0", f"receive 0 0 0 {zero}", f"receive 1 0 0 {zero}", f"receive 0 1 0 {zero}",
        "solve", "show 0", "close", "figure", "grid", "renew 0", "renew 1", "renew 1", f"receive 0 1 0 {zero}", "use 2", "open 0 1 3",
        *receives(kind, 0, 1, [0, 0, 0], range(3)), "solve", "use 1", "show 0 2", "close 2", "grid", "open 0 0 1", "show 0 2", "open 0 1 513", "open 0 1 512",
        "solve", "figure",
    ]


def other_permits(kind):
    word = scaled(kind, SENT)
    return [
        f"symbols {kind}", f"code {HAMMING}", "open 5 9 7", *receives(kind, 5, 9, word, but([2, 4, 6])), "use 2", "open 5 9 7",
        *receives(kind, 5, 9, scaled(kind, [0, 0, 0, 0, 0, 0, 0]), but([0])), "solve", "grid", "show 0 1", "close 1", "use 1", "show 2", "show 2 2", "close 2",
        "solve", "show 2", "show 2 2", "show 7 2", "close 2", "grid", "use 2", "show 2 1", "show 0", "close 1", "close", "show 0 1", "close 1", "renew 10",
        *receives(kind, 5, 10, word, range(7)), "solve", "show 0 1", "close 1", "show 0", "use 1", "show 0 2", "close 2",
    ]


def grids(kind):
    bits = KINDS[kind.encode()].bits
    rng = random.Random(kind)
    rows = generate.reduced(generate.code_of(HAMMING), [2, 4, 6, 0, 1, 3, 5])
    word = generate.codeword(rng, rows, 7, bits)
    lines = [f"symbols {kind}", "grid", "open 5 9 7", "grid", f"code {HAMMING}"]
    for place in but([2, 4, 6]):
        lines += [*receives(kind, 5, 9, word, [place]), "grid"]
    lines += ["solve", "grid", "use 2", "grid", "open 5 9 7", "grid", "use 1", "close", "grid", "solve", "grid", *shows(7), "close"]
    return lines + ["open 0 0 0", "grid", "open 1 1 1", f"receive 1 1 0 {written(kind, NAMES[kind])}", "code listed 1 1", "solve", "grid"]


# where symbols stand


def symbol_lines():
    hear = ["code listed 1 2 0:0 0:1", "open 1 1 2", "receive 1 1 0 1", "solve", "grid"]
    return {
        "late": ["use 1", "symbols bit", *hear],
        "twice": ["symbols bit", "symbols word", "symbols bit", *hear],
        "after-broken-lines": ["# bits", "", "bits", "symbols", "symbols bits", "symbols bit word", "  symbols\tbit \r", *hear],
        "left-out": [*hear, "receive 1 1 0 " + "00" * 64, "solve", "grid"],
        "after-a-refusal": ["open 1 1 0", "symbols bit", *hear],
    }


# piles under each policy


def piles(shape, policy, kind):
    words, code, lost = telling(shape)
    rng = random.Random(f"{shape} {policy}")
    rows = generate.reduced(code, lost + others(lost))
    lines = [f"symbols {kind}", f"code {words}", *(f"row {r}" for r in range(len(code.rows))), f"policy {policy}", f"open 5 9 {PLACES}"]
    missing_places = [lost, lost[:-1], lost[1:], sorted([*lost, others(lost)[0]]), range(PLACES), rng.sample(range(PLACES), 6), lost[:2]]
    for stamp, missing in enumerate(missing_places, start=10):
        word = generate.codeword(rng, rows, PLACES, KINDS[kind.encode()].bits)
        if stamp == 16:
            word[max(code.rows[0])] ^= 1
        lines += [f"renew {stamp}", *receives(kind, 5, stamp, word, others(missing)), "solve", *(f"show {place}" for place in list(missing)[:4]), "close"]
    return lines


# memory, size, and the ends of scripts


def memory():
    lines = ["symbols bit", f"code {HAMMING}", "open 5 9 7", "memory 0 0", "solve"]
    for words, sides in ((23, 3), (24, 2), (24, 3), (25, 4), (2048, 256), (1000000, 1000000), (1000001, 4294967295), (4294967295, 2), (0, 4294967295)):
        lines += [f"memory {words} {sides}", "solve", "code listed 1 6", "solve", f"code {HAMMING}"]
    lines += ["memory 24 3", *receives("bit", 5, 9, SENT, but([2, 4, 6])), "solve", "memory 0 0", "solve", "close", "solve", "memory 24 3", "solve"]
    return lines


def largest(policy):
    """512 places, 256 rows, everything settled that the rows can settle."""
    rng = random.Random(512)
    words = "circulant 4 8 64 " + " ".join(str(rng.randrange(-1, 64)) for _ in range(32))
    code = generate.code_of(words)
    rows = generate.reduced(code, rng.sample(range(512), 512))
    word = generate.codeword(rng, rows, 512, 1)
    lost = sorted(rows)
    lines = ["symbols bit", f"code {words}", f"policy {policy}", "open 4095 4294967295 512", *receives("bit", 4095, 4294967295, word, but(lost, 512))]
    return lines + ["memory 2047 256", "solve", "memory 2048 255", "solve", "memory 2048 256", "solve", "figure", "show 511", "show 512", "grid"]


def granted(number):
    return ["code listed 1 2 0:0 0:1", f"use {number}", "open 1 1 2", "receive 1 1 0 1", "solve"]


def ends():
    return {
        "both-permits": ["symbols bit", *granted(2), *granted(1), "use 2"],
        "first-permit": ["symbols bit", *granted(1), "use 2"],
        "second-permit": ["symbols bit", *granted(2), "use 1"],
        "no-permit": ["symbols bit", *granted(1), "close", "grid"],
    }


def lined(lines, end=b"\n"):
    return b"".join(line.encode() + end for line in lines)


def scripts():
    """All of them: name and bytes."""
    out = {}
    for kind in KINDS:
        kind = kind.decode()
        for name, made in (("worked", worked), ("symbols", symbols), ("grid", grids), ("permits", other_permits), ("refused", refused_block)):
            out[f"{kind}-{name}"] = lined(made(kind))
        if kind != "cell":
            out[f"{kind}-bytes"] = lined(bytes_not_cells(kind))
    for name, lines in symbol_lines().items():
        out[f"symbols-{name}"] = lined(lines)
    for s, shape in enumerate(SHAPES):
        for p, policy in enumerate(generate.POLICIES):
            out[f"{shape}-{policy.replace(' ', '-')}"] = lined(piles(shape, policy, ROTATED[(s + p) % 4]))
    out["memory-lengths"] = lined(memory())
    for policy in ("first", "component heaviest"):
        out[f"largest-{policy.replace(' ', '-')}"] = lined(largest(policy))
    for name, lines in ends().items():
        out[f"end-{name}"] = lined(lines)
    out["end-no-newline"] = lined(["symbols bit", *granted(1)])[:-1]
    out["end-crlf"] = lined(["symbols bit", *granted(1), "grid"], b"\r\n")
    out["empty"] = b""
    out["nothing-said"] = b"# only this\n\n \t\r\n#"
    out["squares"] = lined(["symbols bit", f"code {SQUARES}", "open 0 1 6", "receive 0 1 0 1", "solve", f"code interleaved 1 2 3 {SQUARES}", "solve", "row 0",
                            "receive 0 1 1 1", "receive 0 1 3 0", "solve", "grid"])
    return out
