#!/usr/bin/env python3
"""Spells the repository's own definitions and lemmas as today's Rattle does, once, after port.py of the kit has turned the rest.

usage: python3 tools/snake_names.py [--look]      at the top of the repository; --look only says what it would do

A name that specs/ or proofs/ declares (a definition, a lemma, a field, a constructor, a local one) gets underscores for dashes, and that of a
type, which begins with a capital, is written in camel case. Names that Rattle makes (goals, their labels) and names of libraries stay, as do
all names of the code, and words of comments that are names by chance (PROSE). Names in backticks in README.md and docs/ follow.
A line `meets:` lists a new name that stands already in a file that gets it.
"""

import glob
import re
import sys

TOKEN = re.compile(r"[^\s(){}.;,@\"«»\[\]\\`]+")
DECLARED = re.compile(r"(?m)^\s*(?:(?:pub|abbrev|unfoldable|private|let|record|data)\s+)*([^\s(){}.;,:]+)\s+(?:(?:\{[^{}\n]*\}|\([^()\n]*\))\s*)*:(?=\s)(?! goal\.)")
BINDER = re.compile(r"[({]((?:[^\s(){}.;,:]+ )+):")
LET = re.compile(r"\blet ([^\s(){}.;,:]+) *(?::|=)")
IMPORT = re.compile(r"(?m)^(?:ghost )?use (\S+?)\.\{([^}]*)\}")
STRING = re.compile(r'b?"(?:[^"\\\n]|\\.)*"')


def texts():
    for kind in ("specs/**/*.antt", "proofs/**/*.antt", "src/**/*.rt"):
        yield from sorted(glob.glob(f"crates/*/{kind}", recursive=True))


def read(path):
    with open(path, encoding="utf-8") as it:
        return it.read()


def is_turned(name):
    return re.fullmatch(r"[A-Z][A-Za-z]+(?:_[a-z]+)+|[^\W\d_][\w']*(?:-[\w'ℕℤ]+)+|\w*(?:getD|sumBy)\w*", name) is not None


def declared(all_texts):
    names = set()
    for path, text in all_texts.items():
        if path.endswith(".antt"):
            for found in DECLARED.findall(text) + LET.findall(text):
                names.add(found)
            for group in BINDER.findall(text):
                names.update(group.split())
    return {n for n in names if is_turned(n)} | BOUND


def of_libraries(text):
    names = set()
    for path, group in IMPORT.findall(text):
        if not path.startswith("Rattle.") or path.startswith("Rattle.std") or ".Goals" in path or ".Given" in path:
            names.update(n.strip().split(" as ")[0] for n in group.split(","))
    return names


# Plain underscores would give these a name that a library's definition beside them has.
APART = {"bit-and": "bit_of_and", "bit-or": "bit_of_or", "bit-xor": "bit_of_xor", "put-mid": "put_mid_is", "Named-in-turn": "ColumnsNamedInTurn", "Named_in_turn": "ColumnsNamedInTurn"}
# Names that are bound where no pattern above sees them.
BOUND = {"some-m", "few-m", "some-n", "few-n", "with-word", "numbers-alike", "Lawful-row", "places-in", "no-free"}
# Words of comments.
PROSE = {"quasi-cyclic": "code"}
# What comes right behind these, in an Answers or Invariants file, is a name that Rattle makes.
HEAD = re.compile(r"(?<![^\s(){},;@\"«»])(?:c|w|l|g|goal)\.$")


def spelled(name):
    if name not in APART and "A" <= name[0] <= "Z":
        return "".join(part[0].upper() + part[1:] for part in re.split("[-_]", name))
    return APART.get(name, name.replace("getD", "get_or").replace("sumBy", "sum_by").replace("-", "_"))


def turn(text, names, stay, is_answers=False):
    def word(m):
        t = m[0]
        if t in PROSE and re.match(rf"[ -]*{PROSE[t]}|[ -]*one\b", text[m.end() :]):
            return t
        if t not in names or t in stay or is_answers and HEAD.search(text, max(0, m.start() - 8), m.start()):
            return t
        return spelled(t)

    return TOKEN.sub(word, text)


def turn_code(text, names, stay):
    out, at = [], 0
    for s in STRING.finditer(text):
        out += [turn(text[at : s.start()], names, stay), s[0]]
        at = s.end()
    return "".join(out + [turn(text[at:], names, stay)])


def main(look):
    all_texts = {p: read(p) for p in texts()}
    names = declared(all_texts)
    for path, text in all_texts.items():
        stay = of_libraries(text)
        new = turn_code(text, names, stay) if path.endswith(".rt") else turn(text, names, stay, path.endswith(("/Answers.antt", "/Invariants.antt")))
        if new != text:
            before, after = set(TOKEN.findall(text)), set(TOKEN.findall(new))
            for t in sorted({spelled(t) for t in before if t in names and t not in stay} & before):
                print(f"meets: {path}: {t}")
            for t in sorted(stay & names):
                print(f"stays: {path}: {t}, which is a library's here")
            if not look:
                with open(path, "w", encoding="utf-8") as it:
                    it.write(new)
    for path in ["README.md"] + sorted(glob.glob("docs/*.md")):
        text = read(path)
        new = re.sub(r"`[^`\n]+`", lambda m: turn(m[0].strip("`"), names, set()).join("``"), text)
        if new != text and not look:
            with open(path, "w", encoding="utf-8") as it:
                it.write(new)
    print(f"{len(names)} names")


main("--look" in sys.argv[1:])
