"""The symbol kinds of docs/RULES.md, section 4, and how the script language writes each.

A symbol is the number whose bits are the symbol's: the sum of two is their exclusive or in every kind, and zero is 0.
"""

from words import HEX, NotUnderstood, printable

CELL_BYTES = 64


def _hex(word, digits):
    if len(word) != digits or not HEX.fullmatch(word):
        raise NotUnderstood
    return int(word, 16)


def cell_text(x):
    """A cell for people: its bytes as text, without the zeros at its end."""
    return printable(x.to_bytes(CELL_BYTES, "big").rstrip(b"\0"))


class Bit:
    bits = 1

    @staticmethod
    def read(word):
        if word not in (b"0", b"1"):
            raise NotUnderstood
        return int(word)

    write = text = staticmethod(str)


class Word:
    bits = 32

    @staticmethod
    def read(word):
        return _hex(word, 8)

    @staticmethod
    def write(x):
        return f"{x:08x}"

    text = write


class Cell:
    bits = 512
    text = staticmethod(cell_text)

    @staticmethod
    def read(word):
        return _hex(word, 128)

    @staticmethod
    def write(x):
        return f"{x:0128x}"


class Dated:
    """A cell above a word of 32 bits."""

    bits = 544

    @staticmethod
    def read(word):
        parts = word.split(b":")
        if len(parts) != 2:
            raise NotUnderstood
        return Cell.read(parts[0]) << 32 | Word.read(parts[1])

    @staticmethod
    def write(x):
        return f"{Cell.write(x >> 32)}:{Word.write(x & 0xFFFFFFFF)}"

    @staticmethod
    def text(x):
        return f"{cell_text(x >> 32)} {Word.write(x & 0xFFFFFFFF)}"


KINDS = {b"bit": Bit, b"word": Word, b"cell": Cell, b"dated": Dated}
