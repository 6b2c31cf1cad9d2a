"""Runs a program on the stored scripts and on random ones, and compares it with the model, line by line.

    python3 tests/outside/compare.py PROGRAM [--count N] [--seed S] [--jobs J] [--out FILE]

PROGRAM is any command that reads a script and prints its answers. Script i of seed S is the same
on every machine. The first difference goes to FILE, with the script shortened as far as it still differs; the script alone goes to
FILE.script. The status is 1 where there is one.
"""

import argparse
import itertools
import multiprocessing
import pathlib
import shlex
import subprocess
import sys
import time

import generate
import model
import stored

CHUNK = 50
PATIENCE = 60
TRIES = 400


def printed(command, script):
    """What the program prints; a line of its own where it fails."""
    try:
        done = subprocess.run(command, input=script, stdout=subprocess.PIPE, stderr=subprocess.PIPE, timeout=PATIENCE)
    except subprocess.TimeoutExpired:
        return b"(no answer in %d seconds)\n" % PATIENCE
    if done.returncode:
        return done.stdout + b"(status %d) %s\n" % (done.returncode, done.stderr[:500])
    return done.stdout


def differs(command, script):
    return printed(command, script) != model.answer(script)


def numbered(seed, i):
    return generate.script(f"{seed}:{i}")


def first_in(task):
    """The first script of a chunk that differs, or none."""
    command, seed, chunk, size = task
    for i in range(chunk * CHUNK, min(chunk * CHUNK + CHUNK, size)):
        if differs(command, numbered(seed, i)):
            return i
    return None


def shortened(command, script):
    """The script with lines left out, in ever smaller pieces, as long as it still differs."""
    lines, tries = script.split(b"\n"), 0
    piece = len(lines) // 2
    while piece and tries < TRIES:
        at = 0
        while at < len(lines) and tries < TRIES:
            less = lines[:at] + lines[at + piece:]
            tries += 1
            if differs(command, b"\n".join(less)):
                lines = less
            else:
                at += piece
        piece //= 2
    return b"\n".join(lines)


def report(command, label, script, out):
    """Writes the first line that differs, and the script."""
    told, expected = printed(command, script).split(b"\n"), model.answer(script).split(b"\n")
    pairs = itertools.zip_longest(told, expected, fillvalue=b"(nothing)")
    k, (one, other) = next((k, pair) for k, pair in enumerate(pairs, start=1) if pair[0] != pair[1])
    text = b"%s, answer line %d\nthe program: %s\nthe model:   %s\nthe script:\n%s" % (label.encode(), k, one, other, script)
    pathlib.Path(out).write_bytes(text)
    pathlib.Path(out + ".script").write_bytes(script)
    sys.exit(f"{label}: the program and the model differ in answer line {k}; see {out} and {out}.script")


def found(command, label, script, out):
    report(command, label, shortened(command, script), out)


def as_made(one):
    """Whether a script is stored as it is made, with the model's answers."""
    files = [(one.path, one.script), (one.out, model.answer(one.script))]
    return all(path.exists() and path.read_bytes() == made for path, made in files)


def on_stored(command, out):
    """Compares the stored scripts; their number."""
    scripts = stored.everything()
    for one in scripts:
        if not as_made(one):
            sys.exit(f"{one.name} or its answers are not as make.py writes them")
        if differs(command, one.script):
            found(command, one.name, one.script, out)
    return len(scripts)


def main():
    options = argparse.ArgumentParser(description=__doc__.split("\n")[0])
    options.add_argument("program")
    options.add_argument("--count", type=int, default=1000)
    options.add_argument("--seed", default="1")
    options.add_argument("--jobs", type=int, default=2)
    options.add_argument("--out", default="difference")
    given = options.parse_args()
    command, began = shlex.split(given.program), time.monotonic()
    on_file = on_stored(command, given.out)
    tasks = [(command, given.seed, chunk, given.count) for chunk in range(-(-given.count // CHUNK))]
    with multiprocessing.Pool(given.jobs) as pool:
        for chunk, i in enumerate(pool.imap(first_in, tasks)):
            if i is not None:
                pool.terminate()
                found(command, f"script {i} of seed {given.seed}", numbered(given.seed, i), given.out)
            if chunk % 200 == 199:
                print(f"{(chunk + 1) * CHUNK} scripts alike, {time.monotonic() - began:.0f} s", file=sys.stderr, flush=True)
    print(f"{given.count} random scripts of seed {given.seed} and {on_file} stored ones: no difference ({time.monotonic() - began:.0f} s)")


if __name__ == "__main__":
    main()
