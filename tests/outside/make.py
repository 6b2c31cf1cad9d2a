"""Writes the stored scripts and their answers again. The answers are the model's, never a program's.

    python3 tests/outside/make.py             all of them
    python3 tests/outside/make.py --panel     crates/panel/stdin and stdout: cells, every edge
    python3 tests/outside/make.py --data      tests/outside/data: the other kinds, piles and policies
    python3 tests/outside/make.py --days      days: the example days
"""

import argparse

import model
import stored


def write(scripts):
    for one in scripts:
        one.path.parent.mkdir(parents=True, exist_ok=True)
        one.path.write_bytes(one.script)
        one.out.write_bytes(model.answer(one.script))


def drop_others(scripts):
    """Takes away the scripts and answers that are made no more."""
    kept = {path for one in scripts for path in (one.path, one.out)}
    for path in {one.path.parent for one in scripts}:
        for old in [*path.glob("*.script"), *path.glob("*.out")]:
            if old not in kept:
                old.unlink()


def main():
    options = argparse.ArgumentParser(description=__doc__.split("\n")[0])
    parts = {"panel": stored.panel, "data": stored.data, "days": stored.days}
    for name in parts:
        options.add_argument(f"--{name}", action="store_true")
    asked = [name for name, given in vars(options.parse_args()).items() if given]
    for name in asked or parts:
        scripts = parts[name]()
        write(scripts)
        drop_others(scripts)
        print(f"{name}: {len(scripts)} scripts")


if __name__ == "__main__":
    main()
