"""Lines, words and numbers of the script language, by docs/SCRIPT.md."""

import re

WORD = re.compile(rb"[^ \t\r]+")
NUMERAL = re.compile(rb"[0-9]+")
SIGNED = re.compile(rb"-?[0-9]+")
HEX = re.compile(rb"(?:[0-9a-f]{2})+")
SHOWN = 60


class NotUnderstood(Exception):
    """The line is no call."""


def lines(script):
    """The lines of a script. A last line may lack its newline."""
    parts = script.split(b"\n")
    return parts if parts[-1] else parts[:-1]


def words(line):
    """The words of a line; none where it is passed over."""
    return [] if line.startswith(b"#") else WORD.findall(line)


def whole(word, pattern, lowest, highest):
    """A decimal number in a range; leading zeros may stand."""
    if not pattern.fullmatch(word):
        raise NotUnderstood
    digits = word.lstrip(b"-").lstrip(b"0") or b"0"
    if len(digits) > 10:
        raise NotUnderstood
    value = -int(digits) if word.startswith(b"-") else int(digits)
    if not lowest <= value <= highest:
        raise NotUnderstood
    return value


def number(word):
    return whole(word, NUMERAL, 0, (1 << 32) - 1)


def short(word):
    return whole(word, NUMERAL, 0, 65535)


def entry(word):
    return whole(word, SIGNED, -32768, 32767)


def data(word):
    """Bytes as hex, `-` for none."""
    if word == b"-":
        return b""
    if not HEX.fullmatch(word):
        raise NotUnderstood
    return bytes.fromhex(word.decode())


def printable(some):
    """Bytes as printable text."""
    return "".join(chr(b) if 32 <= b <= 126 and b != 92 else f"\\x{b:02x}" for b in some)


def front(line):
    """The front of a line as printable text."""
    return printable(line[:SHOWN]) + ("..." if len(line) > SHOWN else "")
