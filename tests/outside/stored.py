"""The stored scripts: where each stands in the repository, and what it holds."""

import pathlib

import edges
import fixed
import lessons

ROOT = pathlib.Path(__file__).resolve().parents[2]
PANEL, DATA, DAYS = ROOT / "crates" / "panel", ROOT / "tests" / "outside" / "data", ROOT / "days"


class Stored:
    """A script, its file and the file of its answers."""

    def __init__(self, path, out, script):
        self.path, self.out, self.script = path, out, script
        self.name = str(path.relative_to(ROOT))


def panel():
    """Cells, every edge: what the gate runs. Its last line has no newline."""
    return [Stored(PANEL / "stdin", PANEL / "stdout", b"\n".join(edges.cells()))]


def _named(folder, scripts):
    return [Stored(folder / f"{name}.script", folder / f"{name}.out", script) for name, script in scripts.items()]


def data():
    """The other kinds, piles under each policy, and the ends of scripts."""
    return _named(DATA, fixed.scripts())


def days():
    """The example days."""
    return _named(DAYS, lessons.scripts())


def everything():
    return panel() + data() + days()
