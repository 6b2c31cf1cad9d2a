"""Hostile input: large, broken and endless scripts, each within a time limit.

    python3 tests/outside/hostile.py PROGRAM

PROGRAM is any command that reads a script and prints its answers. Each script's answers must be the model's, to the byte, and come in
time. Prints a line for each script; the status is 1 where one is answered otherwise, late, or not at all.
"""

import random
import shlex
import subprocess
import sys
import time

import model
from edges import HAMMING, UNIT, ZERO_CELL, full, packet

SECONDS = 30
MEGABYTE = 1 << 20


def lined(lines):
    return b"".join(line.encode() + b"\n" for line in lines)


def solved(n):
    """A block of bits with one place lost, which a row of two settles."""
    return ["symbols bit", f"code listed 1 {n} 0:0 0:{n - 1}", f"open 1 1 {n}", *(f"receive 1 1 {place} 1" for place in range(1, n)), "solve"]


def ends():
    return {
        "nothing": b"",
        "no last newline": b"figure 2 7",
        "a newline alone": b"\n",
        "a carriage return alone": b"\r",
        "a comment without newline": b"# only this",
        "a broken line without newline": b"x",
        "a last line of a space": b"figure 2 7\n ",
    }


def long_lines():
    return {
        "5 MB of x": b"x" * (5 * MEGABYTE),
        "5 MB of x between calls": b"figure 1 2\n" + b"x" * (5 * MEGABYTE) + b"\nfigure 1 3\n",
        "5 MB of comment": b"#" + b"y" * (5 * MEGABYTE) + b"\nfigure 1 3\n",
        "5 MB of spaces in a call": b"figure" + b" " * (5 * MEGABYTE) + b"2 7\n",
        "5 MB of words": b"figure 2 7" + b" 1" * (5 * MEGABYTE // 2) + b"\n",
        "5 MB of zeros in a number": b"figure " + b"0" * (5 * MEGABYTE) + b"2 7\n",
        "5 MB of hex": b"read " + b"5a" * (5 * MEGABYTE // 2) + b"\n",
        "5 MB of hex and a bad digit": b"read " + b"5a" * (5 * MEGABYTE // 2) + b"g\n",
        "a million entries": b"code circulant 1 1 1" + b" 0" * MEGABYTE + b"\n",
        "a million records": b"code listed 256 512" + b" 0:0" * MEGABYTE + b"\nrow 0\n",
        "a million pluses": b"code stacked" + b" +" * MEGABYTE + b"\n",
        "65,536 layers": b"code" + b" interleaved 1 1 1" * 65_536 + b" listed 1 1\n",
    }


def many_lines():
    opens = [f"open {k % 4096} {k + 1} 512" for k in range(10_000)]
    return {
        "100,000 blank lines": b"\n" * 100_000 + b"figure 2 7\n" + b"\r\n" * 1000 + b"x\n",
        "100,000 broken lines": b"x\n" * 100_000,
        "100,000 comments": b"#\n" * 100_000 + b"x",
        "50,000 grids, no block": b"grid\n" * 50_000,
        "50,000 grids of a refused block": b"open 0 0 0\n" + b"grid\n" * 50_000,
        "50,000 grids of seven places": lined(solved(7)) + b"grid\n" * 50_000,
        "2,000 grids of 512 places": lined(solved(512)) + b"grid\n" * 2000,
        "10,000 opens": lined(opens),
        "10,000 opens of dated symbols, used": lined(["symbols dated", *(line for one in opens for line in (one, "grid" if one.endswith("99 512") else "figure"))]),
        "10,000 opens in turns": lined(line for k, one in enumerate(opens) for line in (f"use {k % 2 + 1}", one)),
        "10,000 opens over a permit": lined([*solved(7), *opens]),
        "10,000 solves and closes": lined(solved(512)) + b"show 0\nclose\nsolve\n" * 10_000,
        "10,000 renews": lined(["open 1 1 512", *(line for k in range(2, 10_002) for line in (f"renew {k}", f"receive 1 {k} 0 {UNIT}"))]),
        "20,000 codes": lined([f"code {HAMMING}", "row 1"] * 20_000),
        "20,000 refused codes": lined(["code listed 2 2 0:0 0:0", "row 0", "code circulant 1 1 1"] * 20_000),
    }


def bytes_of_all_kinds():
    rng = random.Random("bytes")
    all_bytes = bytes(range(256))
    return {
        "NUL bytes": b"\0" * 1000 + b"\nfigure\0 2 7\nfigure 2 7\0\n\0figure 2 7\nfigure 2\0 7\n" + b"\0\n" * 1000,
        "NUL bytes without newline": b"\0" * 100_000,
        "bytes 128 to 255": b"\n".join(bytes([byte]) * 70 for byte in range(128, 256)),
        "all bytes": all_bytes * 100,
        "each byte in a call": b"\n".join(b"figure 2" + bytes([byte]) + b"7" for byte in range(256)),
        "each byte first": b"\n".join(bytes([byte]) + b"figure 2 7" for byte in range(256)),
        "each byte in hex": b"\n".join(b"read 0" + bytes([byte]) for byte in range(256)),
        "a megabyte of random bytes": rng.randbytes(MEGABYTE),
        "random text": bytes(rng.choice(b" \t\r\n#-+:0123456789abcdef") for _ in range(MEGABYTE)),
        "carriage returns": lined(solved(7)).replace(b"\n", b"\r\n") + b"grid\r\nclose\r\n",
        "carriage returns alone": lined(solved(7)).replace(b"\n", b"\r"),
        "tabs": lined(solved(7)).replace(b" ", b"\t\t \t"),
        "a text of 256 bytes in cells": b"open 1 1 4\ncode listed 4 4 0:0 1:1 2:2 3:3\n"
        + lined(["memory 32 4", *(f"receive 1 1 {k} {all_bytes[64 * k:64 * k + 64].hex()}" for k in range(4)), "solve", "grid", "code listed 1 4", "solve", "grid"]),
    }


def large_numbers():
    near = [0, 1, 65535, 65536, 2147483647, 2147483648, 4294967295, 4294967296, 18446744073709551615, 18446744073709551616, 10**40]
    calls = ["figure {} 7", "figure 7 {}", "figure {} {}", "row {}", "open {} 1 7", "open 1 {} 7", "open 1 1 {}", "use {}", "show {}", "show 1 {}", "close {}",
             "renew {}", "memory {} 1", "memory 1 {}", "memory {} {}", "write {} 1 " + ZERO_CELL, "write 1 {} " + ZERO_CELL, "write 1 1 " + ZERO_CELL + " {}",
             "receive {} 1 1 " + ZERO_CELL, "receive 1 {} 1 " + ZERO_CELL, "receive 1 1 {} " + ZERO_CELL, "packet {} -", "run {} -",
             "code listed {} 7", "code listed 7 {}", "code listed {} {}", "code listed 7 7 {}:1", "code listed 7 7 1:{}", "code circulant {} 1 1 0", "code circulant 1 {} 1 0",
             "code circulant 1 1 {} 0", "code circulant {} {} {} 0", "code circulant 1 1 7 {}", "code circulant 1 1 7 -{}", "code interleaved {} {} {} listed 7 7",
             "code interleaved 1 1 {} listed 7 7"]
    told = [call.replace("{}", str(n)) for call in calls for n in near]
    with_block = [line for one in told for line in ("use 1", "open 1 1 7", one, "figure")]
    return {"numbers": lined(told), "numbers on a block": lined(with_block), "digits": b"\n".join(b"figure 1 " + b"9" * k for k in range(1, 2000))}


def large_calls():
    rows = " ".join(f"{r}:{r}" for r in range(256))
    packets = "".join(packet(1, place, f"{place:0128x}") for place in range(512))
    megabyte = random.Random("run").randbytes(MEGABYTE).hex()
    million = ["memory 1000000 1000000", "solve", "close", "memory 4294967295 4294967295", "solve", "close", "memory 1000000 3", "solve", "close", "memory 24 2", "solve"]
    run_of_many = "".join(packet(1, place % 512, ZERO_CELL) for place in range(MEGABYTE // 68))
    return {
        "memory of a million": lined([f"code {HAMMING}", "open 1 1 7", *(f"receive 1 1 {place} {ZERO_CELL}" for place in range(7)), *million * 20]),
        "memory of a million, dated": lined(["symbols dated", f"code {HAMMING}", "open 1 1 7", *(f"receive 1 1 {place} {ZERO_CELL}:00000000" for place in range(7)), *million]),
        "4,096 ones": lined([f"code listed 8 512 {full(8, 512)}", "row 7", "open 1 1 512", f"run 1 {packets}", "solve", "renew 2", "solve"]),
        "4,096 ones and one": lined([f"code listed 9 512 {full(8, 512)} 8:0", "row 0", f"code listed 8 512 {full(8, 512)}"]),
        "131,072 ones": lined([f"code listed 256 512 {full(256, 512)}", "row 0"]),
        "256 rows": lined([f"code listed 256 512 {rows}", "open 1 1 512", f"run 1 {packets[:136 * 300]}", "solve", "grid", "renew 2", "solve"]),
        "a run of a megabyte": lined(["open 1 1 512", f"run 1 {megabyte}", "figure"]),
        "a run of 15,420 packets": lined(["open 1 1 512", f"run 1 {run_of_many}", "figure", "grid"]),
        "a packet of a megabyte": lined(["open 1 1 512", f"packet 1 {megabyte}", f"read {megabyte}"]),
        "100 runs of a block": lined(["open 1 1 512", *(line for k in range(2, 102) for line in (f"renew {k}", f"run {k} {packets}"))]),
    }


def fault(command, script):
    """What is wrong with the answers, or none."""
    try:
        done = subprocess.run(command, input=script, stdout=subprocess.PIPE, stderr=subprocess.PIPE, timeout=SECONDS)
    except subprocess.TimeoutExpired:
        return f"no answer in {SECONDS} seconds"
    if done.returncode:
        return f"status {done.returncode}: {done.stderr[:200]!r}"
    expected = model.answer(script)
    if done.stdout == expected:
        return None
    lines, right = done.stdout.split(b"\n"), expected.split(b"\n")
    k = next((k for k, pair in enumerate(zip(lines, right)) if pair[0] != pair[1]), min(len(lines), len(right)))
    return f"{len(lines)} lines for {len(right)}; line {k + 1}: {lines[k:k + 1]}, the model: {right[k:k + 1]}"[:600]


def main():
    if len(sys.argv) != 2:
        sys.exit(__doc__)
    command, wrong, tried = shlex.split(sys.argv[1]), 0, 0
    for group in (ends, long_lines, many_lines, bytes_of_all_kinds, large_numbers, large_calls):
        for name, script in group().items():
            began = time.monotonic()
            told = fault(command, script)
            tried, wrong = tried + 1, wrong + bool(told)
            print(f"{name} ({len(script)} bytes): {told or 'alike'} ({time.monotonic() - began:.1f} s with the model)", flush=True)
    print(f"{tried} hostile scripts, {wrong} answered otherwise")
    sys.exit(1 if wrong else 0)


if __name__ == "__main__":
    main()
