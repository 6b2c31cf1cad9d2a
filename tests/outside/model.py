"""What the panel's program answers to a script, worked out from docs/RULES.md and docs/SCRIPT.md alone.

It shares no code with the program. `answer` takes the bytes of a script and gives the bytes that are to be printed.
Run as a program, it answers the script on standard input.
"""

import sys

from block import Block
from codes import Refused
from elimination import POLICIES
from piles import pile
from symbols import KINDS, Cell
from words import NotUnderstood, data, front, lines, number, words

PACKET = 68
MOST_HANDED_IN = 1_000_000
REST = range(1, sys.maxsize)


class Instead(Exception):
    """An answer that is neither granted nor refused."""


def hex_of(some):
    return some.hex() if some else "-"


def refused(refusal, at=""):
    return " ".join(["refused" + at, *map(str, (refusal.number, *refusal.values))])


def read(hex_word):
    packet = data(hex_word)
    if len(packet) != PACKET:
        raise Refused(1, len(packet))
    header = int.from_bytes(packet[:4], "big")
    return f"granted {header >> 20} {header & 0xFFFFF}"


def write(block_word, number_word, cell_word, length_word=b"68"):
    block, place = number(block_word), number(number_word)
    cell, length = Cell.read(cell_word), number(length_word)
    if length != PACKET:
        raise Refused(1, length)
    if block > 4095:
        raise Refused(2, block)
    if place >= 1 << 20:
        raise Refused(9, place)
    return "granted " + hex_of((block << 20 | place).to_bytes(4, "big") + cell.to_bytes(64, "big"))


def one_or_two(word):
    if word not in (b"1", b"2"):
        raise NotUnderstood
    return int(word)


def percent(received, n):
    return received * 100 // n if n else 0


class Panel:
    """What the program keeps from call to call."""

    def __init__(self):
        self.kind, self.called = Cell, False
        self.code, self.policy = None, (b"first",)
        self.memory_said = None
        self.used = 1
        # by 1 and 2: the block, and the permit in its hand
        self.blocks, self.permits = {1: None, 2: None}, {1: None, 2: None}
        # the calls, by their word: how many more words each takes, and its answer
        self.calls = {
            b"read": (range(1, 2), read),
            b"write": (range(3, 5), write),
            b"figure": ((0, 2), self.figure),
            b"code": (REST, self.make),
            b"row": (range(1, 2), self.row),
            b"policy": (range(1, 3), self.choose),
            b"symbols": (range(1, 2), self.symbols),
            b"use": (range(1, 2), self.use),
            b"open": (range(3, 4), self.open),
            b"receive": (range(4, 5), self.receive),
            b"packet": (range(2, 3), self.packet),
            b"run": (range(2, 3), self.run),
            b"memory": (range(2, 3), self.memory),
            b"solve": (range(0, 1), self.solve),
            b"show": (range(1, 3), self.show),
            b"close": (range(0, 2), self.close),
            b"renew": (range(1, 2), self.renew),
            b"grid": (range(0, 1), self.grid),
        }

    # codes and policies

    def make(self, *code_words):
        self.code = pile(list(code_words))()
        return f"granted {len(self.code.rows)} {self.code.columns} {self.code.ones}"

    def code_in_hand(self):
        if self.code is None:
            raise Instead("no code in hand")
        return self.code

    def row(self, row_word):
        r = number(row_word)
        rows = self.code_in_hand().rows
        return " ".join(map(str, rows[r] if r < len(rows) else []))

    def choose(self, *policy_words):
        if policy_words not in POLICIES:
            raise NotUnderstood
        self.policy = policy_words
        return "granted"

    # blocks

    def symbols(self, kind_word):
        if kind_word not in KINDS:
            raise NotUnderstood
        if self.called:
            return "not at the start"
        self.kind = KINDS[kind_word]
        return "granted"

    def use(self, word):
        self.used = one_or_two(word)
        return "granted"

    def block(self):
        if self.blocks[self.used] is None:
            raise Instead("no block open")
        return self.blocks[self.used]

    def permit(self, named):
        if self.permits[named] is None:
            raise Instead("no permit in hand")
        return self.permits[named]

    def open(self, *three):
        block, stamp, n = map(number, three)
        if self.permits[self.used]:
            return "permit in hand"
        opened = self.blocks[self.used] = Block(self.kind, block, stamp, n)
        return refused(opened.refusal) if opened.refusal else "granted"

    def receive(self, block_word, stamp_word, number_word, symbol_word):
        packet = number(block_word), number(stamp_word), number(number_word), self.kind.read(symbol_word)
        self.block().receive(*packet)
        return "granted"

    def block_of_cells(self):
        block = self.block()
        if self.kind is not Cell:
            raise Instead("not cells")
        return block

    def packet(self, stamp_word, hex_word):
        stamp, some = number(stamp_word), data(hex_word)
        self.block_of_cells().packet(stamp, some)
        return "granted"

    def run(self, stamp_word, hex_word):
        stamp, some = number(stamp_word), data(hex_word)
        try:
            return f"granted {self.block_of_cells().run(stamp, some)}"
        except Refused as refusal:
            return refused(refusal, f" at {refusal.at} {refusal.layer}")

    def memory(self, words_word, symbols_word):
        self.memory_said = [min(number(word), MOST_HANDED_IN) for word in (words_word, symbols_word)]
        return "granted"

    def solve(self):
        block, code = self.block(), self.code_in_hand()
        handed_in = self.memory_said or (8 * len(code.rows), len(code.rows))
        try:
            self.permits[self.used], pivots, additions = block.solve(code, POLICIES[self.policy], *handed_in)
        except Refused as refusal:
            if refusal.number not in (13, 14):
                raise
            names = ("pivots", "additions", "shortfall")
            return f"refused {refusal.number} " + " ".join(f"{name} {value}" for name, value in zip(names, refusal.values))
        return f"granted pivots {pivots} additions {additions}"

    def show(self, number_word, named_word=None):
        place, named = number(number_word), one_or_two(named_word) if named_word else self.used
        block, permit = self.block(), self.permit(named)
        return f"granted {self.kind.write(block.show(permit, place))}"

    def close(self, named_word=None):
        named = one_or_two(named_word) if named_word else self.used
        block, permit = self.block(), self.permit(named)
        if named != self.used and block.owns(permit):
            return "permit of another block"
        block.close(permit)
        self.permits[named] = None
        return "granted"

    def renew(self, stamp_word):
        stamp = number(stamp_word)
        self.block().renew(stamp)
        return "granted"

    def figure(self, *two):
        if two:
            return str(percent(*map(number, two)))
        return str(self.block().figure())

    def grid(self):
        block, permit = self.block(), self.permits[self.used]
        full = block.figure() // 10
        told = [f"{block.figure()}% [{'#' * full}{'.' * (10 - full)}]"]
        for place in range(block.n):
            heard = place in block.received
            if permit:
                told.append(f"  {place} {'heard' if heard else 'recovered'} {self.kind.text(block.show(permit, place))}")
            else:
                told.append(f"  {place} {'received' if heard else 'missing'}")
        return "\n".join(told)

    # the script

    def call(self, call_words):
        """The answer to a call."""
        counts, answering = self.calls.get(call_words[0], ((), None))
        if len(call_words) - 1 not in counts:
            raise NotUnderstood
        try:
            told = answering(*call_words[1:])
        except Refused as refusal:
            told = refused(refusal)
        except Instead as instead:
            told = str(instead)
        self.called = True
        name = call_words[0].decode()
        return f"{name} {told}" if told else name

    def end(self):
        """Closes what is still in hand."""
        for k in (1, 2):
            if self.permits[k]:
                self.blocks[k].close(self.permits[k])
                yield "close granted"


def answer(script):
    told, panel = [], Panel()
    for k, line in enumerate(lines(script), start=1):
        line_words = words(line)
        if not line_words:
            continue
        try:
            told.append(panel.call(line_words))
        except NotUnderstood:
            told.append(f"line {k}: not understood: {front(line)}")
    told.extend(panel.end())
    return "".join(text + "\n" for text in told).encode()


if __name__ == "__main__":
    sys.stdout.buffer.write(answer(sys.stdin.buffer.read()))
