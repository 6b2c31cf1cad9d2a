"""Lines by hand: each edge of the calls, for one script of cells, which the gate runs."""

import random

import generate
from telling import PLACES, SHAPES, others, telling

ZERO_CELL = "00" * 64
FULL_CELL = "ff" * 64


def packet_edges():
    """Each edge of lines, words and packets."""
    return [
        b"# lengths of a packet",
        b"read " + b"00" * 67,
        b"read " + b"00" * 68,
        b"read " + b"00" * 69,
        b"read -",
        b"# header 00 50 00 07 is block 5, packet 7; then all bits set",
        b"read 00500007" + b"00" * 64,
        b"read ffffffff" + b"ff" * 64,
        f"write 5 7 {ZERO_CELL}".encode(),
        f"write 4095 1048575 {FULL_CELL}".encode(),
        b"# the greatest numbers, and the order of refusals",
        f"write 4096 0 {ZERO_CELL}".encode(),
        f"write 0 1048576 {ZERO_CELL}".encode(),
        f"write 4096 1048576 {ZERO_CELL}".encode(),
        f"write 4096 1048576 {ZERO_CELL} 67".encode(),
        f"write 4095 1048576 {ZERO_CELL} 68".encode(),
        f"write 1 2 {ZERO_CELL} 69".encode(),
        f"write 1 2 {ZERO_CELL} 0".encode(),
        f"write 1 2 {ZERO_CELL} 1024".encode(),
        f"write 1 2 {ZERO_CELL} 1025".encode(),
        f"write 1 2 {ZERO_CELL} 4294967295".encode(),
        f"write 1 2 {ZERO_CELL} 4294967296".encode(),
        f"write 4294967295 4294967295 {ZERO_CELL}".encode(),
        b"# figures",
        b"figure 2 7",
        b"figure 7 7",
        b"figure 0 0",
        b"figure 9 0",
        b"figure 4294967295 1",
        b"figure 1 4294967295",
        b"figure 0002 00000000007",
        b"figure 4294967296 1",
        b"figure -1 7",
        b"figure +1 7",
        b"figure 2",
        b"figure 2 7 8",
        b"# words",
        b"",
        b"   ",
        b"\t\r",
        b"  figure\t 2   7  ",
        b"figure 2 7\r",
        b" # not a comment, since it does not begin the line",
        b"#figure 2 7",
        b"Figure 2 7",
        b"figures 2 7",
        b"fig",
        b"read",
        b"read 0",
        b"read 0g",
        b"read 0A",
        b"read --",
        b"read - -",
        b"write 1 2 -",
        b"write 1 2 " + b"00" * 63,
        b"write 1 2 " + b"00" * 65,
        f"write 1 2 {ZERO_CELL} 68 68".encode(),
        b"# long lines, and what is shown of a line that is not understood",
        b"x" * 60,
        b"x" * 61,
        b"figure " + b"0" * 5000 + b"2 7",
        b"figure " + b"9" * 5000 + b" 7",
        b"read " + b"5a" * 17500,
        b"read " + b"5a" * 17500 + b"z",
        b"write 1 2 " + ZERO_CELL.encode() + b" " * 35000 + b"69",
        b"back\\slash, \xe5 and \xff, \x7f, \x00",
    ]


def records(pairs):
    return " ".join(f"{r}:{c}" for r, c in pairs)


def full(rows, columns):
    """The records of a code that is all ones."""
    return records((r, c) for r in range(rows) for c in range(columns))


HAMMING = "listed 3 7 0:0 0:2 0:4 0:6 1:1 1:2 1:5 1:6 2:3 2:4 2:5 2:6"
SQUARES = "circulant 1 2 3 1 0"


def rows(count):
    return [f"row {r}" for r in range(count + 1)]


def code_edges():
    """Each edge of making a code and asking for its rows."""
    return [line.encode() for line in [
        "# no code yet",
        "row 0",
        "row",
        "row 0 0",
        "row x",
        "code",
        "code listed",
        "code listed 3",
        "row 0",
        "# listed",
        f"code {HAMMING}",
        *rows(3),
        "row 4294967295",
        "row 4294967296",
        "row -1",
        "code listed 2 3",
        *rows(2),
        "code listed 1 1 0:0",
        "row 0",
        "code listed 3 4 1:3",
        *rows(3),
        "# the sizes, and records that break their rule: the code in hand stays",
        "code listed 0 1",
        "code listed 1 0",
        "code listed 256 512 255:511",
        "row 255",
        "code listed 257 512 255:511",
        "code listed 256 513 255:511",
        "code listed 0 1 9:9",
        "code listed 4294967295 4294967295",
        "code listed 4294967296 1",
        "code listed 3 4 0:0 2:4",
        "code listed 3 4 0:0 3:0",
        "code listed 3 4 0:3 0:2",
        "code listed 3 4 1:0 0:3",
        "code listed 3 4 0:0 1:1 1:1",
        "code listed 3 4 9:9 1:1 1:1",
        "code listed 3 4 65535:65535",
        "code listed 3 4 65536:0",
        "code listed 3 4 0:65536",
        "code listed 3 4 0:4294967296",
        "code listed 3 4 0",
        "code listed 3 4 0:",
        "code listed 3 4 :0",
        "code listed 3 4 0:1:2",
        "code listed 3 4 0:-1",
        "code listed 3 4 00000000000000000000:0001",
        "row 0",
        "row 255",
        "# the number of ones",
        f"code listed 8 512 {full(8, 512)}",
        "row 7",
        f"code listed 9 512 {full(8, 512)} 8:0",
        f"code listed 9 512 {full(8, 512)} 8:0 8:0",
        "# circulant: entry z - 1 passes, z does not",
        f"code {SQUARES}",
        *rows(3),
        "code circulant 1 2 3 2 -1",
        *rows(3),
        "code circulant 1 2 3 3 0",
        "code circulant 1 2 3 0 3",
        "code circulant 1 2 3 0 -2",
        "code circulant 1 2 3 0 -0",
        "row 2",
        "code circulant 1 2 3 32767 0",
        "code circulant 1 2 3 32768 0",
        "code circulant 1 2 3 -32768 0",
        "code circulant 1 2 3 -32769 0",
        "code circulant 1 2 3 - 0",
        "code circulant 1 2 3 --1 0",
        "code circulant 1 2 3 +1 0",
        "code circulant 1 2 3 1- 0",
        "code circulant 1 2 3 000000000001 -0001",
        "row 1",
        "code circulant 1 2 3 1",
        "code circulant 1 2 3 1 0 0",
        "code circulant 1 2 3",
        "code circulant 1 2",
        "code circulant 0 0 1",
        "code circulant 0 1 1",
        "code circulant 1 0 1",
        "code circulant 1 1 0 0",
        "code circulant 1 1 0 -1",
        "code circulant 2 3 1 0 -1 0 -1 0 0",
        *rows(2),
        "code circulant 1 1 256 255",
        "row 1",
        "code circulant 1 1 257 255",
        "code circulant 1 2 256 255 0",
        "row 255",
        "code circulant 1 3 256 255 0 0",
        "code circulant 65535 65535 65535 0",
        "code circulant 4294967295 4294967295 4294967295 0",
        f"code circulant 16 16 16 {' '.join(['0'] * 256)}",
        f"code circulant 16 16 16 {' '.join(['0'] * 255)} 16",
        "row 255",
        f"code circulant 16 17 16 {' '.join(['15'] * 272)}",
        f"code circulant 16 17 16 {' '.join(['15'] * 256 + ['-1'] * 16)}",
        "row 255",
        "# interleaved over a base",
        f"code interleaved 1 2 3 {SQUARES}",
        *rows(3),
        f"code interleaved 3 7 1 {HAMMING}",
        *rows(3),
        f"code interleaved 2 7 1 {HAMMING}",
        f"code interleaved 3 6 1 {HAMMING}",
        f"code interleaved 0 0 0 {HAMMING}",
        "code interleaved 65535 65535 65535 listed 1 1",
        "code interleaved 2 2 2 listed 4 4 0:0 0:1 1:3 2:2 3:1",
        *rows(4),
        "code interleaved 2 2 2 listed 4 4 0:0 0:1 1:4 2:2 3:1",
        "code interleaved 9 9 9 listed 4 4 0:0 0:0",
        "code interleaved 2 2 2",
        "code interleaved 2 2 x listed 4 4",
        f"code interleaved 1 2 3 interleaved 1 2 3 {SQUARES}",
        "row 0",
        "# stacked of two bases",
        f"code stacked {SQUARES} + listed 1 6 0:5",
        *rows(4),
        f"code stacked {SQUARES} + listed 1 7 0:5",
        "code stacked listed 1 6 0:6 + listed 1 6 0:7 0:5",
        "code stacked listed 1 6 0:5 + listed 1 6 0:1 0:5 0:5",
        "code stacked listed 0 6 + listed 1 6 0:6",
        "code stacked listed 1 6 + listed 0 6",
        "code stacked listed 128 6 + listed 128 6 127:5",
        "row 255",
        "code stacked listed 128 6 + listed 129 6",
        f"code stacked listed 4 512 {full(4, 512)} + listed 4 512 {full(4, 512)}",
        f"code stacked listed 4 512 {full(4, 512)} + listed 5 512 {full(4, 512)} 4:0",
        f"code stacked {SQUARES} +",
        f"code stacked + {SQUARES}",
        f"code stacked {SQUARES} {SQUARES}",
        f"code stacked {SQUARES}+ {SQUARES}",
        f"code stacked {SQUARES} +{SQUARES}",
        f"code stacked {SQUARES} + + {SQUARES}",
        f"code stacked {SQUARES} + {SQUARES} +",
        f"code stacked {SQUARES} + {SQUARES} + {SQUARES}",
        f"code stacked {SQUARES} \t+\t {SQUARES}",
        *rows(6),
        f"code stacked stacked {SQUARES} + {SQUARES} + {SQUARES}",
        f"code {SQUARES} + {SQUARES}",
        f"code stacked {SQUARES} + interleaved 1 2 3 {SQUARES}",
        "# stacked of an interleaved and a base",
        f"code stacked interleaved 1 2 3 {SQUARES} + {SQUARES}",
        *rows(6),
        f"code stacked interleaved 1 2 3 circulant 1 2 3 1 3 + listed 1 6 0:6",
        f"code stacked interleaved 2 2 3 {SQUARES} + listed 1 6 0:6",
        f"code stacked interleaved 1 2 3 {SQUARES} + listed 1 6 0:6",
        f"code stacked interleaved 1 2 3 {SQUARES} + listed 1 7 0:6",
        f"code stacked interleaved 1 2 3 {SQUARES}",
        f"code stacked interleaved 1 2 3 + {SQUARES}",
        "# interleaved over stacked",
        f"code interleaved 2 2 3 stacked {SQUARES} + {SQUARES}",
        *rows(6),
        f"code interleaved 1 2 3 stacked {SQUARES} + {SQUARES}",
        f"code interleaved 1 2 3 stacked {SQUARES} + listed 1 7",
        f"code interleaved 1 2 3 stacked {SQUARES} + listed 1 7 0:7",
        f"code interleaved 1 2 3 stacked circulant 1 2 3 0 9 + listed 1 7 0:7",
        f"code interleaved 2 2 3 stacked interleaved 1 2 3 {SQUARES} + {SQUARES}",
        "row 5",
        "# words",
        "Code listed 1 1",
        "codes listed 1 1",
        "code Listed 1 1",
        "  code\t listed  1 1\r",
        "code listed 1 1 #",
        f"code listed 1 512 {' ' * 30000}0:511",
        "row 0",
        f"code listed 1 512 {'0' * 30000}:511",
        f"code listed 1 512 0:{'9' * 30000}",
        f"code circulant 1 1 1 -{'0' * 30000}1",
        "rows 0",
        "# policies",
        "policy first",
        "policy heaviest",
        "policy component first",
        " policy\tcomponent  heaviest \r",
        "policy",
        "policy component",
        "policy component component",
        "policy component component first",
        "policy first first",
        "policy first heaviest",
        "policy component first first",
        "policy heavy",
        "policy First",
        "policies first",
    ]]


def cell(text):
    """A cell of text, filled up with zero bytes, as hex."""
    return text.encode("latin-1").ljust(64, b"\0").hex()


def packet(block, place, symbol):
    return f"{block << 20 | place:08x}{symbol}"


UNIT = "01" + "00" * 63
# what is sent in the worked examples, and a grid that keeps the same parity checks in text
SENT = [UNIT, UNIT, UNIT, ZERO_CELL, ZERO_CELL, ZERO_CELL, ZERO_CELL]


def added(*symbols):
    total = 0
    for symbol in symbols:
        total ^= int(symbol, 16)
    return f"{total:0128x}"


def text_grid():
    """A codeword of the code with seven columns: four cells of text, and three repair cells."""
    two, four, five, six = (cell(text) for text in ("Lab 2  ", "back\\slash", "\x01\xff\x7f~ !\0x", "y" * 64))
    return [added(two, four, six), added(two, five, six), two, added(four, five, six), four, five, six]


def receives(block, stamp, symbols, places):
    return [f"receive {block} {stamp} {place} {symbols[place]}" for place in places]


def calls_on_a_block():
    """Each call that asks for a block, once."""
    return [
        f"receive 0 0 0 {ZERO_CELL}",
        f"packet 0 {packet(0, 0, ZERO_CELL)}",
        "packet 0 -",
        f"run 0 {packet(0, 0, ZERO_CELL)}",
        "run 0 -",
        "solve",
        "show 0",
        "show 0 1",
        "show 0 2",
        "close",
        "close 1",
        "close 2",
        "renew 0",
        "figure",
        "grid",
    ]


def nothing_open():
    return [
        "# no block open",
        "use 1",
        *calls_on_a_block(),
        "use 2",
        *calls_on_a_block(),
        "figure 2 7",
        "# not at the start",
        "symbols cell",
        "symbols bit",
        "symbols bits",
        "symbols",
        "symbols cell cell",
        "# words of calls on a block",
        "use",
        "use 0",
        "use 3",
        "use 1 2",
        "use 12",
        "use one",
        "open 1 2",
        "open 1 2 3 4",
        "open 1 2 4294967296",
        "open -1 2 3",
        "open x 2 3",
        f"receive 0 0 {ZERO_CELL}",
        f"receive 0 0 0 {ZERO_CELL} 0",
        f"receive 0 0 4294967296 {ZERO_CELL}",
        "receive 0 0 0 0",
        "receive 0 0 0 00000000",
        "receive 0 0 0 -",
        f"receive 0 0 0 {ZERO_CELL[2:]}",
        f"receive 0 0 0 {ZERO_CELL}00",
        f"receive 0 0 0 {ZERO_CELL[:-1]}A",
        f"receive 0 0 0 {ZERO_CELL}:00000000",
        "packet 0",
        "packet 0 0",
        "packet 0 - -",
        "packet x -",
        "run 0",
        "run 0 abc",
        "run 0 AB",
        "run - 0",
        "solve 1",
        "show",
        "show x",
        "show 0 0",
        "show 0 3",
        "show 0 1 2",
        "show 4294967296",
        "close 0",
        "close 3",
        "close 1 2",
        "renew",
        "renew 1 2",
        "renew 4294967296",
        "figure 1",
        "figure 1 2 3",
        "grid 1",
        "memory",
        "memory 1",
        "memory 1 2 3",
        "memory 1 4294967296",
        "opens 1 2 3",
        "Open 1 2 3",
    ]


def refused_opens():
    """Opens that are refused, and every call on a refused block; no code is in hand yet."""
    lines = ["# opens that are refused: 2, then 3, then 4", "use 1"]
    for numbers in ("4096 0 0", "4294967295 1 7", "4095 0 0", "4095 0 513", "4095 1 0", "4095 1 513", "0 1 4294967295", "0 4294967295 0"):
        lines += [f"open {numbers}", *calls_on_a_block()]
    return lines


def refused_blocks():
    """A refused block with a code in hand, and what replaces it."""
    return [
        "# the refused block, with a code in hand",
        "use 1",
        "code listed 1 1",
        "open 0 1 0",
        "memory 0 0",
        "solve",
        "memory 8 1",
        "solve",
        "code listed 256 512",
        "solve",
        f"receive 1 1 0 {ZERO_CELL}",
        f"receive 0 1 0 {ZERO_CELL}",
        f"receive 0 0 4294967295 {ZERO_CELL}",
        f"packet 1 {packet(1, 0, ZERO_CELL)}",
        f"packet 0 {packet(0, 0, ZERO_CELL)}00",
        f"run 0 {packet(0, 7, ZERO_CELL)}{packet(0, 8, ZERO_CELL)}",
        "renew 5",
        "renew 5",
        "renew 4",
        "renew 0",
        f"receive 0 0 0 {ZERO_CELL}",
        f"receive 0 5 0 {ZERO_CELL}",
        "renew 4294967295",
        "renew 4294967295",
        f"receive 0 4294967295 1 {ZERO_CELL}",
        "solve",
        "figure",
        "grid",
        "# another open replaces it, and a refused open replaces a good one",
        "open 5 9 7",
        "figure",
        f"receive 5 9 6 {UNIT}",
        "figure",
        "open 5 0 7",
        "figure",
        f"receive 5 9 6 {UNIT}",
        "grid",
    ]


def receiving():
    """The causes that refuse a packet, each before the next."""
    return [
        "# receive: 7, 8, 9, 10",
        "use 1",
        "open 5 9 7",
        "grid",
        f"receive 4 8 7 {UNIT}",
        f"receive 5 8 7 {UNIT}",
        f"receive 5 0 7 {UNIT}",
        f"receive 5 10 0 {UNIT}",
        f"receive 5 9 7 {UNIT}",
        f"receive 5 9 4294967295 {UNIT}",
        f"receive 4294967295 9 0 {UNIT}",
        f"receive 5 9 6 {UNIT}",
        f"receive 5 9 6 {UNIT}",
        f"receive 5 9 6 {ZERO_CELL}",
        "grid",
        f"receive 5 9 0 {ZERO_CELL}",
        "figure",
        "grid",
        "# as bytes: 1 before them",
        f"packet 9 {packet(5, 1, UNIT)[:-2]}",
        f"packet 9 {packet(5, 1, UNIT)}00",
        "packet 9 -",
        "packet 0 00",
        f"packet 9 {packet(4, 1, UNIT)}",
        f"packet 8 {packet(5, 1, UNIT)}",
        f"packet 9 {packet(5, 7, UNIT)}",
        f"packet 9 {packet(5, 1048575, UNIT)}",
        f"packet 9 {packet(5, 1, UNIT)}",
        f"packet 9 {packet(5, 1, UNIT)}",
        "figure",
        "# runs: none, one, a refusal in the middle, a short tail",
        "run 9 -",
        "run 0 -",
        f"run 9 {packet(5, 2, UNIT)}",
        f"run 9 {packet(5, 3, UNIT)}{packet(5, 3, UNIT)}{packet(5, 4, UNIT)}",
        "figure",
        f"run 9 {packet(5, 4, UNIT)}{packet(4, 5, UNIT)}",
        f"run 8 {packet(5, 5, UNIT)}",
        f"run 9 {packet(5, 5, UNIT)}00",
        "run 9 00500006",
        f"run 9 {packet(5, 7, UNIT)}00",
        "figure",
        "grid",
        "renew 10",
        "figure",
        f"run 10 {''.join(packet(5, place, UNIT) for place in range(7))}",
        "grid",
        f"run 10 {packet(5, 0, UNIT)}",
        f"run 10 {'00' * 69}",
        "# places at the edge of a block of 512, and of 1",
        "open 4095 4294967295 512",
        f"receive 4095 4294967295 511 {UNIT}",
        f"receive 4095 4294967295 512 {UNIT}",
        "figure",
        f"run 4294967295 {''.join(packet(4095, place, UNIT) for place in range(5))}",
        "figure",
        "renew 4294967295",
        "renew 0",
        "open 0 1 1",
        "grid",
        f"receive 0 1 1 {UNIT}",
        f"receive 0 1 0 {UNIT}",
        "grid",
    ]


def worked_examples():
    """The table of worked examples in cells, each on a block renewed."""
    missing_places = [
        ([], "first", SENT), ([0, 2], "first", SENT), ([2, 4, 6], "first", SENT), ([2, 4, 6], "heaviest", SENT),
        ([2, 4, 6], "component first", SENT), ([2, 4, 6], "component heaviest", SENT), ([0, 1, 2], "first", SENT),
        ([0, 1, 2], "first", [UNIT, UNIT, UNIT, UNIT, ZERO_CELL, ZERO_CELL, ZERO_CELL]),
        (list(range(7)), "first", SENT), ([], "first", SENT[:6] + [UNIT]),
    ]
    lines = ["# the worked examples", "use 1", f"code {HAMMING}", "open 5 9 7"]
    for k, (missing, policy, sent) in enumerate(missing_places):
        stamp = 10 + k
        lines += [f"renew {stamp}", f"policy {policy}"]
        lines += receives(5, stamp, sent, [place for place in range(7) if place not in missing])
        lines += ["solve", "grid", *(f"show {place}" for place in range(8)), "close", "grid"]
    return lines


def solving():
    """What refuses a solve, in order, and the working memory."""
    return [
        "# solve: 6, 5, 12, then the search",
        "policy first",
        "use 2",
        "open 5 9 7",
        *receives(5, 9, SENT, [0, 1, 2, 3, 5]),
        "code listed 1 6",
        "memory 0 0",
        "solve",
        f"code {HAMMING}",
        "solve",
        "memory 23 3",
        "solve",
        "memory 24 2",
        "solve",
        "memory 4294967295 2",
        "solve",
        "memory 23 4294967295",
        "solve",
        "figure",
        "memory 24 3",
        "solve",
        "memory 0 0",
        "solve",
        "code listed 1 6",
        "solve",
        "close",
        f"code {HAMMING}",
        "memory 4294967295 4294967295",
        "solve",
        "close",
        "memory 1000000 1000001",
        "solve",
        "close",
        "memory 25 4",
        "solve",
        "close",
        "# the largest code: 2,048 words and 256 symbols",
        "open 5 9 512",
        "code circulant 1 2 256 0 1",
        "memory 2047 256",
        "solve",
        "memory 2048 255",
        "solve",
        "memory 2048 256",
        "solve",
        f"run 9 {''.join(packet(5, place, cell(f'place {place}')) for place in range(0, 256))}",
        "solve",
        "show 511",
        "show 512",
        "figure",
        "close",
        "memory 2048 256",
    ]


def piles():
    """A block under each shape of pile and each policy: with what the code settles lost, and with one place more."""
    lines = ["# piles and policies", "use 1"]
    rng = random.Random("piles")
    for shape in SHAPES:
        words, code, lost = telling(shape)
        rows = generate.reduced(code, lost + others(lost))
        lines += [f"code {words}", f"open 5 1 {PLACES}"]
        for stamp, policy in enumerate(generate.POLICIES, start=2):
            sent = [f"{symbol:0128x}" for symbol in generate.codeword(rng, rows, PLACES, 512)]
            kept, late = others(lost)[1:], others(lost)[0]
            lines += [
                f"renew {stamp}", f"policy {policy}", f"run {stamp} {''.join(packet(5, place, sent[place]) for place in kept)}", "solve",
                f"packet {stamp} {packet(5, late, sent[late])}", "solve", *(f"show {place}" for place in lost[:2]), "close",
            ]
    return [*lines, "policy first"]


def permits():
    """Permits: what they hold back, and each other's."""
    grid = text_grid()
    return [
        "# with a permit out",
        "use 1",
        f"code {HAMMING}",
        "open 5 9 7",
        *receives(5, 9, grid, [0, 1, 3, 5]),
        "show 0",
        "close",
        "solve",
        "solve",
        "grid",
        "figure",
        f"receive 5 9 2 {UNIT}",
        f"receive 4 8 7 {UNIT}",
        f"packet 9 {packet(5, 2, UNIT)}",
        f"packet 9 {packet(5, 2, UNIT)}00",
        f"run 9 {packet(5, 2, UNIT)}",
        "run 9 00",
        "run 9 -",
        "renew 10",
        "renew 0",
        "open 5 9 7",
        "open 4096 0 0",
        *(f"show {place}" for place in range(8)),
        "show 4294967295",
        "show 2 1",
        "show 2 2",
        "close 2",
        "# a permit of another block",
        "use 2",
        "open 5 8 7",
        *receives(5, 8, grid, range(7)),
        "show 2 1",
        "close 1",
        "show 2",
        "close",
        "solve",
        "show 2 1",
        "show 7 1",
        "close 1",
        "show 2 2",
        "use 1",
        "show 2 2",
        "show 2",
        "close 2",
        "use 2",
        "close 2",
        "close 2",
        "open 4 9 7",
        *receives(4, 9, grid, range(7)),
        "solve",
        "show 2 1",
        "close 1",
        "close",
        "# a permit with equal numbers shows, and is not handed to close",
        "open 5 9 7",
        *receives(5, 9, SENT, range(7)),
        "show 0 1",
        "close 1",
        "solve",
        "show 0 1",
        "show 7 1",
        "show 0 2",
        "show 0",
        "close 1",
        "grid",
        "use 1",
        "show 2 2",
        "close 2",
        "close 1",
        "grid",
        "show 2 2",
        "close 2",
        "show 2",
        "close",
        "# under the permit of another block, on a refused block",
        "open 5 0 7",
        "show 0 2",
        "close 2",
        "show 0",
        "renew 9",
        "show 0 2",
        "close 2",
        "use 2",
        "close",
        "close",
        "grid",
    ]


def renewing():
    return [
        "# renew: 6, 3, 11",
        "use 1",
        "open 5 9 7",
        "renew 0",
        "renew 8",
        "renew 9",
        "renew 10",
        f"receive 5 9 0 {UNIT}",
        f"receive 5 10 0 {UNIT}",
        "figure",
        "renew 11",
        "figure",
        "grid",
        "renew 4294967295",
        "renew 4294967295",
        *receives(5, 4294967295, SENT, range(7)),
        "solve",
        "renew 0",
        "renew 1",
        "show 0",
        "# both permits are in hand at the end",
        "use 2",
        "renew 4294967295",
        *receives(5, 4294967295, text_grid(), [0, 1, 3, 5]),
        "solve",
        "grid",
    ]


def start():
    """Lines that are no calls, and then the first call."""
    return ["# nothing is a call before the kind of symbols", "", "symbols", "symbols bits", "  symbols\tcell \r", "symbols cell"]


def cells():
    """All of them as one script's lines: what wants no code in hand comes before the codes, and what wants no memory said before the memory."""
    before = [line.encode() for part in (nothing_open, refused_opens) for line in part()]
    after = [line.encode() for part in (worked_examples, refused_blocks, receiving, solving, piles, permits, renewing) for line in part()]
    return [line.encode() for line in start()] + packet_edges() + before + code_edges() + after
