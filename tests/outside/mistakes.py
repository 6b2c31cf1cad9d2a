"""Planted mistakes: whether the stored and the random scripts tell a mistaken program from the model.

    python3 tests/outside/mistakes.py [--count N] [--only TEXT]     each mistake: how many stored scripts find it, and the first random one
    python3 tests/outside/mistakes.py --plant LABEL < SCRIPT        answers a script with that mistake, as a program for compare.py to run

A mistake is an edit of the model's own text; the model's check of its solver against the codewords is taken out beside it. A policy that
counts used rows too is not among them: a row is used for its only active column, so a used row holds none, and no script can tell.
"""

import argparse
import importlib
import pathlib
import sys
import tempfile

import generate
import model
import stored

HERE = pathlib.Path(__file__).resolve().parent
PARTS = ["words", "symbols", "codes", "piles", "elimination", "fillings", "block", "model"]

NONE = "none"
MISTAKES = {
    NONE: ("model", "PACKET = 68", "PACKET = 68"),
    "line shown to 59 bytes": ("words", "SHOWN = 60", "SHOWN = 59"),
    "backslash as it is": ("words", " and b != 92", ""),
    "comments with a space before them": ("words", 'line.startswith(b"#")', 'line.lstrip().startswith(b"#")'),
    "carriage return is no space": ("words", r'rb"[^ \t\r]+"', r'rb"[^ \t]+"'),
    "leading zeros count": ("words", '.lstrip(b"0") or b"0"', ""),
    "capital hex digits": ("words", "(?:[0-9a-f]{2})+", "(?:[0-9a-fA-F]{2})+"),
    "tab is no space": ("words", r'rb"[^ \t\r]+"', r'rb"[^ \r]+"'),
    "33 bits pass": ("words", "(1 << 32) - 1)", "(1 << 33) - 1)"),
    "cell text without spaces at its end": ("symbols", 'rstrip(b"\\0")', 'rstrip(b"\\0 ")'),
    "date before the text": ("symbols", '{cell_text(x >> 32)} {Word.write(x & 0xFFFFFFFF)}"', '{Word.write(x & 0xFFFFFFFF)} {cell_text(x >> 32)}"'),
    "date of seven digits passes": ("symbols", "Word.read(parts[1])", "int(parts[1] or b'0', 16)"),
    "later record of equal place passes": ("codes", "(row, column) <= before", "(row, column) < before"),
    "entry z passes": ("codes", "<= z - 1:", "<= z:"),
    "circulant the other way": ("codes", "(y + s) % z", "(y - s) % z"),
    "interleaved rows not moved": ("codes", "rows[x + y * a] =", "rows[x * z + y] ="),
    "interleaved columns sorted": ("codes", "rows[x + y * a] = [c // z + (c % z) * b for c in below.rows[x * z + y]]", "rows[x + y * a] = sorted(c // z + (c % z) * b for c in below.rows[x * z + y])"),
    "stack upside down": ("codes", "first.rows + second.rows)\n", "second.rows + first.rows)\n"),
    "256 rows refused": ("codes", "<= MOST_ROWS and", "< MOST_ROWS and"),
    "heaviest takes the highest on a tie": ("elimination", "(-weights[c], c)", "(-weights[c], -c)"),
    "component takes the highest set on a tie": ("elimination", "(-g.bit_count(), g & -g)", "(-g.bit_count(), -(g & -g))"),
    "component takes the smallest set": ("elimination", "(-g.bit_count(), g & -g)", "(g.bit_count(), g & -g)"),
    "component asks first": ("elimination", "return below(search)", "return first(search)"),
    "peels the highest row": ("elimination", "for r in self.unused:\n                left", "for r in self.unused[::-1]:\n                left"),
    "settles with the highest row": ("elimination", "for r in self.unused:\n                if self.sets", "for r in self.unused[::-1]:\n                if self.sets"),
    "settles the last pivot first": ("elimination", "for c in self.pivots:", "for c in self.pivots[::-1]:"),
    "used rows are not added to": ("elimination", "if q != r and self.sets[q] >> c & 1:", "if q in self.unused and self.sets[q] >> c & 1:"),
    "a free pivot is zero": ("elimination", '            return ("several", len(self.free))', "            self.used_for.update({c: 0 for c in self.free}); self.sides.append(0)"),
    "rank alone": ("elimination", "any(self.sides[r] for r in self.unused)", "False"),
    "several goes before none": ("elimination", "any(self.sides[r] for r in self.unused)", "not self.free and any(self.sides[r] for r in self.unused)"),
    "a stalled peeling is several": ("elimination", "        if self.free:", "        if self.pivots:"),
    "number 4096 opens": ("block", "if number > 4095:", "if number > 4096:"),
    "n of 513 opens": ("block", "1 <= n <= 512", "1 <= n <= 513"),
    "stamp 0 after n": ("block", "elif stamp == 0:\n            self.refusal", "elif stamp == 0 and 1 <= n <= 512:\n            self.refusal"),
    "a refused block keeps its number": ("block", "number = stamp = n = 0", "stamp = n = 0"),
    "stamp before number": ("block", "if number != self.number:", "if number != self.number and stamp == self.stamp:"),
    "a place filled twice": ("block", "if place in self.received:", "if place in self.received and self.received[place] != symbol:"),
    "permit before length": ("block", "if len(data) != PACKET:", "if len(data) != PACKET and not self.out:"),
    "short tail passes": ("block", "for at in range(0, len(data), PACKET):", "for at in range(0, len(data) // PACKET * PACKET, PACKET):"),
    "packet counted in place of byte": ("block", "refusal.at = at", "refusal.at = at // PACKET"),
    "memory before n": ("block", "if code.columns != self.n:", "if code.columns != self.n and words >= 8 * m and symbols >= m:"),
    "memory of words alone": ("block", "if words < 8 * m or symbols < m:", "if words < 8 * m:"),
    "memory one word short": ("block", "if words < 8 * m or", "if words < 8 * m - 1 or"),
    "permit known by its stamp": ("block", "(permit.number, permit.stamp) == (self.number, self.stamp)", "permit.stamp == self.stamp"),
    "permit known by its number": ("block", "(permit.number, permit.stamp) == (self.number, self.stamp)", "permit.number == self.number"),
    "permit good when none is out": ("block", "return self.out and (", "return ("),
    "number before permit": ("block", "        if not self.owns(permit):\n            raise Refused(15, self.stamp)\n        if place", "        if place < self.n and not self.owns(permit):\n            raise Refused(15, self.stamp)\n        if place"),
    "show of what was heard alone": ("block", "else self.found[place]", "else 0"),
    "renew by the same stamp": ("block", "if stamp <= self.stamp:", "if stamp < self.stamp:"),
    "renew 0 gives 11": ("block", "if stamp == 0:\n            raise", "if stamp == 0 and self.stamp == 0:\n            raise"),
    "renew with a permit out gives 3": ("block", "    def renew(self, stamp):\n        if self.out:", "    def renew(self, stamp):\n        if self.out and stamp:"),
    "renew keeps the packets": ("block", "self.stamp, self.received = stamp, {}", "self.stamp = stamp"),
    "figure counts what was found": ("block", "return len(self.received) * 100", "return (len(self.received) + len(self.found)) * 100"),
    "figure rounds up": ("block", "len(self.received) * 100 // self.n if", "-(-len(self.received) * 100 // self.n) if"),
    "blank lines are not counted": ("model", "enumerate(lines(script), start=1)", "enumerate(filter(words, lines(script)), start=1)"),
    "a refused code drops the one in hand": ("model", "self.code = pile(list(code_words))()", "make, self.code = pile(list(code_words)), None; self.code = make()"),
    "the grid under any permit": ("model", "block, permit = self.block(), self.permits[self.used]", "block, permit = self.block(), self.permits[self.used] or self.permits[3 - self.used]"),
    "any call before symbols": ("model", "if self.called:", "if self.called and self.blocks[1]:"),
    "broken lines count as calls": ("model", "        except NotUnderstood:", "        except NotUnderstood:\n            panel.called = True"),
    "symbols again": ("model", '            return "not at the start"', "            pass"),
    "a new block for each use": ("model", "self.used = one_or_two(word)", "self.used = one_or_two(word); self.blocks[self.used] = self.blocks[self.used] if self.permits[self.used] else None"),
    "open over a permit": ("model", "if self.permits[self.used]:\n            return", "if self.permits[self.used] and n == 0:\n            return"),
    "a refused open keeps the block": ("model", "opened = self.blocks[self.used] = Block(self.kind, block, stamp, n)", "opened = Block(self.kind, block, stamp, n); self.blocks[self.used] = self.blocks[self.used] if opened.refusal and self.blocks[self.used] else opened"),
    "not cells before no block": ("model", "        block = self.block()\n        if self.kind is not Cell:", "        block = self.blocks[self.used]\n        if self.kind is Cell:\n            self.block()\n        else:"),
    "no code before no block": ("model", "block, code = self.block(), self.code_in_hand()", "code, block = self.code_in_hand(), self.block()"),
    "memory said once holds for one solve": ("model", "        try:\n            self.permits[self.used], pivots", "        self.memory_said = None\n        try:\n            self.permits[self.used], pivots"),
    "permit to the other hand": ("model", "self.permits[self.used], pivots", "self.permits[3 - self.used], pivots"),
    "show under the own permit alone": ("model", "else self.used\n        block, permit = self.block(), self.permit(named)\n        return", "else self.used\n        block, permit = self.block(), self.permit(self.used)\n        return"),
    "close takes the other block's": ("model", "if named != self.used and block.owns(permit):", "if False:"),
    "close asks for numbers alone": ("model", "if named != self.used and block.owns(permit):", "if named != self.used and (permit.number, permit.stamp) == (block.number, block.stamp):"),
    "close of another's is refused by 15": ("model", 'return "permit of another block"', "raise Refused(15, block.stamp)"),
    "a refused close loses the permit": ("model", "        block.close(permit)\n", "        self.permits[named] = None\n        block.close(permit)\n"),
    "text without the permit": ("model", "            if permit:", "            if permit or (heard and self.permits[3 - self.used]):"),
    "bar rounds up": ("model", "full = block.figure() // 10", "full = -(-block.figure() // 10)"),
    "one close at the end": ("model", "for k in (1, 2):\n            if", "for k in (1,):\n            if"),
    "no close at the end": ("model", "    told.extend(panel.end())\n", ""),
    "last line without newline is dropped": ("words", "return parts if parts[-1] else parts[:-1]", "return parts[:-1]"),
}


def planted(label):
    """The model's `answer` with a mistake in it."""
    part, old, new = MISTAKES[label]
    with tempfile.TemporaryDirectory() as folder:
        for name in PARTS:
            text = (HERE / f"{name}.py").read_text()
            if name == part:
                if text.count(old) != 1:
                    raise AssertionError(f"{label}: the text to be edited stands {text.count(old)} times in {name}.py")
                text = text.replace(old, new)
            (pathlib.Path(folder) / f"{name}.py").write_text(text.replace("raise AssertionError(", "str("))
        kept = {name: sys.modules.pop(name) for name in PARTS if name in sys.modules}
        sys.path.insert(0, folder)
        try:
            importlib.invalidate_caches()
            return importlib.import_module("model").answer
        finally:
            sys.path.remove(folder)
            for name in PARTS:
                sys.modules.pop(name, None)
            sys.modules.update(kept)


def told(answer, script):
    try:
        return answer(script)
    except Exception as error:
        return repr(error).encode()


def finders(wrong, scripts):
    """The names of the scripts that a mistaken model answers otherwise."""
    return [name for name, script, right in scripts if told(wrong, script) != right]


def table(only, count):
    """Prints a line for each mistake, and one for all; the labels that nothing finds."""
    kept = [(one.name, one.script, model.answer(one.script)) for one in stored.everything()]
    drawn = [generate.script(f"1:{i}") for i in range(count)]
    drawn = [(i, script, model.answer(script)) for i, script in enumerate(drawn)]
    tally, lost = dict.fromkeys(("panel", "stored", "random"), 0), []
    labels = [label for label in MISTAKES if label != NONE and only in label]
    if finders(planted(NONE), kept + drawn):
        return "the model without a mistake is found"
    for label in labels:
        wrong = planted(label)
        by, first = finders(wrong, kept), next((i for i, script, right in drawn if told(wrong, script) != right), None)
        panel = kept[0][0] in by
        tally["panel"] += panel
        tally["stored"] += bool(by)
        tally["random"] += first is not None
        if not by and first is None:
            lost.append(label)
        print(f"{label}: {len(by)} stored scripts{' with the panel' if panel else ''}, random script {first}", flush=True)
    print(f"{len(labels)} mistakes: {tally['panel']} found by the panel's script, {tally['stored']} by a stored one, {tally['random']} by {count} random ones")
    return f"not found: {', '.join(lost)}" if lost else 0


def main():
    options = argparse.ArgumentParser(description=__doc__.split("\n")[0])
    options.add_argument("--count", type=int, default=1000)
    options.add_argument("--only", default="")
    options.add_argument("--plant", choices=MISTAKES)
    given = options.parse_args()
    if given.plant:
        sys.stdout.buffer.write(planted(given.plant)(sys.stdin.buffer.read()))
        return
    sys.exit(table(given.only, given.count))


if __name__ == "__main__":
    main()
