"""Random scripts over the whole language: blocks that hear most of a codeword, tiny blocks on which anything is called, codes of every shape, and every
way to get a call wrong."""

import random

from codes import Refused
from piles import pile
from symbols import KINDS
from words import NotUnderstood

POLICIES = ["first", "heaviest", "component first", "component heaviest"]
BLOCKS, STAMPS = [0, 1, 5, 5, 4095], [1, 2, 9, 9, 4294967295]
BOTH = "listed 1 2 0:0 0:1"
TINY_CODES = [
    BOTH, "listed 1 2", "listed 2 2 0:0 1:1", "listed 2 2 0:0 0:1 1:1", "listed 2 2 1:0 0:0", "listed 1 1 0:0", "circulant 1 2 1 0 0", "circulant 1 1 2 1",
    "interleaved 1 1 2 circulant 1 1 2 1", "stacked listed 1 2 0:0 + listed 1 2 0:1", "interleaved 2 2 1 stacked listed 1 2 0:0 + circulant 1 2 1 0 0",
]


# numbers and bytes


def number(rng):
    """A number that is small, near an edge, or anything up to past 32 bits."""
    near = rng.choice([0, 68, 512, 4096, 1048576, 1 << 32])
    return rng.choice([rng.randrange(10), max(0, near + rng.randrange(-2, 3)), rng.randrange(1 << 33)])


def mostly(rng, value, seldom=25):
    """That value, or seldom another number."""
    return value if rng.randrange(seldom) else number(rng)


def hex_bytes(rng, count):
    return rng.randbytes(count).hex() or "-"


# codes


def shape(rng):
    """Sizes of squares, mostly small."""
    most = rng.choice([2, 3, 4, 4, 8])
    a, b, z = (rng.randrange(1, most + 1) for _ in range(3))
    return a, b + rng.randrange(2) * a, z


def large_shape(rng):
    z = rng.choice([8, 16, 31, 32, 64])
    a = rng.choice([256 // z, rng.randrange(1, 256 // z + 1)])
    return a, rng.choice([512 // z, rng.randrange(a, 512 // z + 1)]), z


def records(pairs):
    return " ".join(f"{r}:{c}" for r, c in pairs)


def listed_words(rng, m, n):
    ones = {(rng.randrange(m), rng.randrange(n)) for _ in range(rng.randrange(3 * m + 1))}
    if rng.randrange(2):
        ones |= {(c % m, c) for c in range(n)}
    if rng.randrange(3) == 0:
        ones |= {(r + d, r) for r in range(min(m - 1, n)) for d in (0, 1)}
    if m * n <= 200 and rng.randrange(3) == 0:
        ones |= {(r, c) for r in range(m) for c in range(n) if rng.random() < 0.4}
    ones = sorted(ones)
    if ones and rng.randrange(12) == 0:
        ones.insert(rng.randrange(len(ones)), rng.choice([rng.choice(ones), (m, 0), (0, n)]))
    return f"listed {mostly(rng, m, 40)} {mostly(rng, n, 40)} {records(ones)}".rstrip()


def circulant_words(rng, a, b, z):
    count = a * b if rng.randrange(30) else rng.randrange(2 * a * b)
    empty = rng.choice([0, 0.2, 0.7])
    entries = [-1 if rng.random() < empty else rng.randrange(z) for _ in range(count)]
    if entries and rng.randrange(12) == 0:
        entries[rng.randrange(len(entries))] = rng.choice([z, -2, 32767, 32768, -32768, -32769])
    return f"circulant {mostly(rng, a, 40)} {mostly(rng, b, 40)} {mostly(rng, z, 40)} {' '.join(map(str, entries))}".rstrip()


def base_words(rng, a, b, z):
    """A code of a x z rows and b x z columns, as a rule."""
    if rng.randrange(2):
        return circulant_words(rng, a, b, z)
    return listed_words(rng, a * z, b * z)


def pile_words(rng, sizes):
    """A pile of any shape that stands."""
    a, b, z = sizes
    layer = f"interleaved {mostly(rng, a, 40)} {mostly(rng, b, 40)} {mostly(rng, z, 40)}"
    kind = rng.randrange(5)
    if kind == 0:
        return base_words(rng, a, b, z)
    if kind == 1:
        return f"{layer} {base_words(rng, a, b, z)}"
    if a == 1:
        front = base_words(rng, 1, b, z) if kind == 2 else f"{layer} {base_words(rng, 1, b, z)}"
        return f"stacked {front} + {listed_words(rng, rng.randrange(1, 4), b * z)}"
    upper = rng.randrange(1, a)
    if kind == 2:
        return f"stacked {base_words(rng, upper, b, z)} + {base_words(rng, a - upper, b, z)}"
    if kind == 3:
        front = f"interleaved {upper} {b} {z} {base_words(rng, upper, b, z)}"
        return f"stacked {front} + {base_words(rng, a - upper, b, z)}"
    return f"{layer} stacked {base_words(rng, upper, b, z)} + {base_words(rng, a - upper, b, z)}"


def code_of(words):
    """The code of these words, or none."""
    try:
        return pile(words.encode().split())()
    except (NotUnderstood, Refused):
        return None


# codewords and losses


def reduced(code, order):
    """The parity checks as `{column: columns}`: the symbol at a column is the sum of those at the columns beside it.

    Columns that come early in `order` are told by others where that can be."""
    rank = {c: i for i, c in enumerate(order)}
    rows = {}
    for row in code.rows:
        left = set(row)
        for c, others in rows.items():
            if c in left:
                left ^= others | {c}
        if left:
            lead = min(left, key=rank.get)
            left.remove(lead)
            for c in rows:
                if lead in rows[c]:
                    rows[c] = rows[c] ^ left ^ {lead}
            rows[lead] = left
    return rows


def symbol(rng, bits):
    """A symbol, often zero or with few bits."""
    return rng.choice([0, 1, rng.getrandbits(bits), rng.getrandbits(bits), rng.getrandbits(bits)])


def codeword(rng, rows, n, bits):
    """A codeword: free places at will, the others by the reduced parity checks."""
    word = {c: symbol(rng, bits) for c in range(n) if c not in rows}
    for c, others in rows.items():
        told = 0
        for other in others:
            told ^= word[other]
        word[c] = told
    return [word[c] for c in range(n)]


def losses(rng, rows, n):
    """Places that are lost: such that the rest settles them, any, all or none."""
    pick = rng.randrange(10)
    if pick < 6:
        settled = list(rows)
        return set(rng.sample(settled, rng.choice([len(settled), len(settled), rng.randrange(len(settled) + 1)])))
    if pick < 8:
        return set(rng.sample(range(n), rng.randrange(n + 1)))
    return set(range(n)) if pick == 8 else set()


# scripts


class Scribe:
    """Writes a script call by call, and keeps in mind what the calls that are right ask for."""

    def __init__(self, rng):
        self.rng, self.lines = rng, []
        self.kind_word = rng.choice(["bit", "bit", "word", "cell", "cell", "cell", "dated"])
        self.kind = KINDS[self.kind_word.encode()]
        self.large = rng.randrange(40) == 0
        # how seldom a packet goes wrong, so that large blocks can be whole
        self.seldom = 5000 if self.large else 60
        self.noise = rng.choice([0, 0, 0.03, 0.03, 0.2])
        self.code = None
        self.used = 1
        # by block: its number, its stamp, n, the codeword sent, the places that did not come yet
        self.blocks = {1: (0, 0, 0, [], []), 2: (0, 0, 0, [], [])}

    def line(self, text):
        self.lines.append(text.encode())

    def chance(self, likely):
        return self.rng.random() < likely

    def symbol_word(self, value):
        """A symbol of the script's kind; seldom one of any kind, or one that is a digit too short or too long."""
        if self.rng.randrange(self.seldom):
            return self.kind.write(value)
        other = self.rng.choice([*KINDS.values(), self.kind, self.kind])
        word = other.write(self.rng.getrandbits(other.bits))
        return self.rng.choice([word, word[:-1] or "-", word[1:] or "-", word + "0", ":" + word, word.upper()])

    def start(self):
        if self.chance(0.05):
            self.line(self.rng.choice(["symbols", "symbols bits", "symbols cell word", "# first line", "", "what?"]))
        if self.chance(0.02):
            self.line(self.rng.choice(["use 1", "figure 2 7", "solve", "policy first"]))
        if self.kind_word != "cell" or self.chance(0.3):
            if self.chance(0.99):
                self.line(f"symbols {self.kind_word}")

    def use(self, block):
        self.used = block
        self.line(f"use {block}")

    def make_code(self):
        rng = self.rng
        words = pile_words(rng, large_shape(rng) if self.large else shape(rng))
        self.line(f"code {words}")
        self.code = code_of(words) or self.code
        if self.chance(0.1):
            self.line(f"row {mostly(rng, rng.randrange(8))}")

    def open(self):
        rng = self.rng
        n = self.code.columns if self.code and self.chance(0.95) else rng.randrange(1, 9)
        block, stamp = rng.choice(BLOCKS), rng.choice(STAMPS)
        if self.chance(0.06) and not self.large:
            block, stamp, n = rng.choice([block, block, 4096, number(rng)]), rng.choice([0, stamp, stamp, number(rng)]), rng.choice([0, n, 512, 513, number(rng)])
        if self.chance(0.8):
            self.line("close")
        self.line(f"open {block} {stamp} {n}")
        self.send(block, stamp, n)

    def send(self, block, stamp, n):
        """Chooses what is sent in this block, and what of it is lost."""
        rng = self.rng
        if self.code and self.code.columns == n:
            order = rng.sample(range(n), n)
            rows = reduced(self.code, order)
            word, lost = codeword(rng, rows, n, self.kind.bits), losses(rng, rows, n)
        else:
            word, lost = [symbol(rng, self.kind.bits) for _ in range(min(n, 9))], set()
        if word and self.chance(0.12):
            word[rng.randrange(len(word))] ^= 1 << rng.randrange(self.kind.bits)
        self.blocks[self.used] = (block, stamp, n, word, sorted(lost))
        came = [c for c in range(len(word)) if c not in lost]
        if self.chance(0.4):
            rng.shuffle(came)
        if came and self.chance(0.08):
            came.insert(rng.randrange(len(came) + 1), rng.choice(came))
        self.hear(came)

    def packet_hex(self, place):
        block, _, n, word, _ = self.blocks[self.used]
        told = place if self.rng.randrange(self.seldom) else min(n, 512) + self.rng.randrange(2)
        return f"{(block % 4096) << 20 | told:08x}" + self.kind.write(word[place])

    def hear(self, places):
        """Packets that come, one by one or in runs."""
        rng = self.rng
        block, stamp, _, word, _ = self.blocks[self.used]
        at = 0
        while at < len(places):
            count = 1
            if self.kind_word == "cell" and self.chance(0.7 if self.large else 0.3):
                count = rng.choice([1, 1, rng.randrange(1, 70 if self.large else 9)])
                tail = "" if rng.randrange(300 if self.large else 5) else rng.choice(["00", "005000", "00" * 67])
                packets = "".join(map(self.packet_hex, places[at:at + count])) + tail
                if count == 1:
                    self.line(f"packet {mostly(rng, stamp, self.seldom)} {packets}")
                else:
                    self.line(f"run {mostly(rng, stamp, self.seldom)} {packets}")
            else:
                place = places[at]
                heard = " ".join(str(mostly(rng, value, self.seldom)) for value in (block, stamp, place))
                self.line(f"receive {heard} {self.symbol_word(word[place])}")
            at += count

    def solve(self):
        rng = self.rng
        if self.chance(0.12) and self.code:
            m = len(self.code.rows)
            words = rng.choice([8 * m, 8 * m, 8 * m - 1, 8 * m + 1, 0, 2048, 1000000, 4294967295])
            symbols = rng.choice([m, m, m - 1, m + 1, 0, 256, 1000001])
            self.line(f"memory {words} {symbols}")
        self.line("solve")

    def look(self):
        """Shows, figures and grids."""
        rng = self.rng
        n, lost = self.blocks[self.used][2], self.blocks[self.used][4]
        if self.chance(0.3):
            self.line("figure")
        for _ in range(rng.randrange(4)):
            place = rng.choice(lost) if lost and self.chance(0.7) else rng.randrange(min(n, 512) + 1)
            self.line(f"show {mostly(rng, place, 30)}" + rng.choice(["", "", "", " 1", " 2"]))
        if self.chance(0.1 if self.large else 0.4):
            self.line("grid")

    def settle_more(self):
        """What was lost comes after all, and another solve."""
        lost = self.blocks[self.used][4]
        if lost and self.chance(0.3):
            self.line("close")
            self.hear(self.rng.sample(lost, self.rng.randrange(1, min(len(lost), 20) + 1)))
            self.solve()
            self.look()

    def end_block(self):
        rng = self.rng
        if self.chance(0.6):
            self.line(rng.choice(["close", "close", "close", "close 1", "close 2"]))
            if self.chance(0.3):
                self.look()
        if self.chance(0.25):
            block, stamp, n, _, _ = self.blocks[self.used]
            later = rng.choice([stamp + 1, stamp + 1, stamp, 0, number(rng)])
            self.line(f"renew {later}")
            if later > stamp:
                self.send(block, later, n)
                self.solve()
                self.look()

    def meddle(self):
        """A call out of turn."""
        rng = self.rng
        block, stamp, n, _, _ = self.blocks[self.used]
        self.line(rng.choice([
            "solve", "grid" if n < 20 else "figure", "figure", "close", "close 1", "close 2", f"use {rng.choice('112233')}",
            f"renew {rng.choice([0, stamp, stamp + 1, number(rng)])}",
            f"show {mostly(rng, rng.randrange(n + 1), 5)} {rng.choice('12')}",
            f"open {block} {stamp} {n}",
            f"receive {mostly(rng, block, 3)} {mostly(rng, stamp, 3)} {mostly(rng, rng.randrange(n + 1), 3)} {self.symbol_word(rng.getrandbits(self.kind.bits))}",
            f"packet {stamp} {hex_bytes(rng, rng.choice([0, 67, 68, 68, 69]))}",
            f"run {stamp} {hex_bytes(rng, rng.choice([0, 1, 68, 136, 137, 203]))}",
            f"packet {stamp} {mostly(rng, block % 4096, 3) % 4096 << 20 | rng.randrange(n + 1):08x}{hex_bytes(rng, 64)}",
            f"memory {number(rng)} {number(rng)}",
            f"policy {rng.choice(POLICIES)}",
            f"symbols {rng.choice(list(KINDS)).decode()}",
            plain_call(rng),
        ]))
        if self.lines[-1].startswith(b"use ") and self.lines[-1][4:] in (b"1", b"2"):
            self.used = int(self.lines[-1][4:])

    def episode(self):
        rng = self.rng
        if self.chance(0.5):
            self.use(rng.choice([1, 2]))
        if self.code is None or self.chance(0.5):
            self.make_code()
        if self.chance(0.4):
            self.line(f"policy {rng.choice(POLICIES)}")
        steps = [self.open, self.solve, self.look, self.settle_more, self.end_block]
        if self.large:
            steps = [self.open, self.solve, self.look]
        for step in steps:
            while self.chance(0.12):
                self.meddle()
            step()

    def twins(self):
        """Two blocks with one number and one stamp, or nearly, each solved, and each other's permits."""
        rng = self.rng
        self.make_code()
        n = self.code.columns if self.code else 3
        block, stamp = rng.choice(BLOCKS), rng.choice(STAMPS)
        for k in (1, 2):
            self.use(k)
            other = rng.choice([(block, stamp)] * 4 + [(block, stamp - 1), (rng.choice(BLOCKS), stamp)])
            self.line(f"open {other[0]} {other[1]} {n}")
            self.send(*other, n)
            if self.chance(0.9):
                self.line("solve")
        for _ in range(rng.randrange(4, 14)):
            self.line(rng.choice(["use 1", "use 2", "close 1", "close 2", "close", "grid", "solve",
                                  f"show {rng.randrange(n + 1)} 1", f"show {rng.randrange(n + 1)} 2"]))


    def tiny(self):
        """Calls at will on two blocks of two places, with numbers and symbols that mostly agree."""
        rng, usual = self.rng, self.rng.getrandbits(self.kind.bits)
        for start in ("use 2", "open 0 1 2", "use 1", "open 0 1 2", f"code {BOTH}"):
            self.line(start)
        for _ in range(rng.randrange(20, 150)):
            self.line(rng.choice(tiny_calls(rng, self.kind.write(rng.choice([usual] * 9 + [0, 1])))))


def tiny_calls(rng, symbol):
    """Calls to choose from; those stand often that a granted solve asks for."""
    block, stamp, place, hand = rng.choice("00000001"), rng.choice("1111111203"), rng.choice("0001112"), rng.choice(["", "", " 1", " 2"])
    packets = "".join(f"00{block}{rng.choice('00112'):0>5}{symbol}" for _ in range(rng.randrange(4)))
    often = ["use 1", "use 2", "solve", "solve", "solve", f"show {place}{hand}", f"show {place}{hand}", f"close{hand}"]
    return often * 2 + [f"receive {block} {stamp} {place} {symbol}"] * 6 + [
        f"packet {stamp} 00{block}0000{place}{symbol}",
        f"run {stamp} {packets or '-'}",
        f"open {block} {stamp} {rng.choice('222221')}",
        rng.choice(["figure", "grid", f"open 4096 {stamp} 2", f"open 0 {stamp} 0", f"open 0 {stamp} 513"]),
        f"renew {rng.choice('01234')}",
        f"code {BOTH}",
        f"code {rng.choice(TINY_CODES)}",
        f"policy {rng.choice(POLICIES)}",
        f"memory {rng.choice(['7', '8', '16', '99', '99'])} {rng.choice('012999')}",
        "memory 16 2",
        "figure",
        "grid",
    ]


def plain_call(rng):
    """A call that needs no block."""
    kind = rng.randrange(9)
    if kind == 0:
        return f"read {hex_bytes(rng, 68)}"
    if kind == 1:
        return f"read {hex_bytes(rng, rng.choice([0, 1, 66, 67, 69, 70, 136]))}"
    if kind == 2:
        return f"write {rng.randrange(4096)} {rng.randrange(1 << 20)} {hex_bytes(rng, 64)}"
    if kind == 3:
        return f"write {number(rng)} {number(rng)} {hex_bytes(rng, 64)} {number(rng)}"
    if kind == 4:
        return f"write {number(rng)} {number(rng)} {hex_bytes(rng, 64)}"
    if kind == 5:
        return f"figure {number(rng)} {number(rng)}"
    if kind == 6:
        return "policy " + " ".join(rng.choices(["first", "heaviest", "component"], k=rng.randrange(1, 4)))
    if kind == 7:
        return f"code {pile_words(rng, shape(rng))}"
    return f"row {mostly(rng, rng.randrange(8))}"


# lines that are spoilt


def spoilt(rng, line):
    """A line with one byte changed, dropped or put in."""
    at = rng.randrange(len(line)) if line else 0
    byte = bytes([rng.choice(b" \t\r#-+:0af9g\\zAF\x00\x01\x80\xff")])
    return rng.choice([line[:at] + byte + line[at + 1:], line[:at] + line[at + 1:], line[:at] + byte + line[at:]])


def words_moved(rng, line):
    """A line with a word dropped, doubled, or swapped for a strange one."""
    words = line.split()
    if not words:
        return b"?"
    at = rng.randrange(len(words))
    strange = rng.choice([b"-", b"-1", b"00000000000001", b"4294967296", b"1x", b"solve", b"cell", b"01", b"\xff\xfe"])
    return b" ".join(rng.choice([words[:at] + words[at + 1:], words[:at] + [words[at]] + words[at:], words[:at] + [strange] + words[at + 1:]]))


def long_line(rng):
    """A line of thousands of bytes."""
    return rng.choice([
        b"figure " + b"0" * 5000 + b"2 7",
        b"read " + rng.randbytes(rng.randrange(2000, 20000)).hex().encode(),
        b"use" + b" " * 20000 + rng.choice([b"1", b"2", b"3"]),
        b"run 9 " + rng.randbytes(rng.randrange(2000, 20000)).hex().encode(),
        b"x" * rng.choice([60, 61, 20000]),
    ])


def noisy(rng, line, noise):
    """Lines in place of this one: mostly itself."""
    if rng.random() >= noise:
        return [line]
    pick = rng.randrange(12)
    if pick < 3:
        return [spoilt(rng, line)]
    if pick < 5:
        return [words_moved(rng, line)]
    if pick == 5:
        return [b"# " + line]
    if pick == 6:
        return [rng.choice([b"", b" ", b"\t \r", b"#", b"\x00"]), line]
    if pick == 7:
        return [line.replace(b" ", b" \t ") + b"\r"]
    if pick == 8:
        return [b" " + line, line]
    if pick == 9:
        return [rng.randbytes(rng.randrange(1, 90)).replace(b"\n", b"\r"), line]
    if pick == 10 and rng.randrange(4) == 0:
        return [long_line(rng), line]
    return [line.upper(), line]


def script(seed):
    """A random script."""
    rng = random.Random(seed)
    if rng.randrange(200) == 0:
        return rng.choice([b"", b"\n", b"\r\n", b"#", b"\n\n\n", b" "])
    scribe = Scribe(rng)
    scribe.start()
    pick = rng.randrange(16)
    if pick == 0:
        for _ in range(rng.randrange(1, 30)):
            scribe.line(plain_call(rng))
    elif pick == 1:
        for _ in range(rng.randrange(1, 20)):
            scribe.meddle()
    elif pick in (2, 3) and not scribe.large:
        scribe.twins()
    elif pick == 4:
        scribe.tiny()
    else:
        episodes = rng.randrange(10, 30) if rng.randrange(50) == 0 else rng.randrange(1, 4)
        for _ in range(1 if scribe.large else episodes):
            scribe.episode()
    lines = [new for line in scribe.lines for new in noisy(rng, line, scribe.noise / 10 if line.startswith(b"symbols") else scribe.noise)]
    end = rng.choice([b"\n"] * 19 + [b"\r\n"])
    return end.join(lines) + rng.choice([end] * 6 + [b""])
