"""The elimination method of docs/RULES.md, section 8, step by step; a set of columns is a number, column c its bit c."""


def members(columns):
    """The columns of a set, rising."""
    while columns:
        low = columns & -columns
        yield low.bit_length() - 1
        columns ^= low


def first(search):
    return next(members(search.active))


def heaviest(search):
    weights = dict.fromkeys(members(search.active), 0)
    for r in search.unused:
        for c in members(search.rows[r] & search.active):
            weights[c] += 1
    return min(weights, key=lambda c: (-weights[c], c))


def component_over(below):
    def named(search):
        pairs = [search.rows[r] & search.active for r in search.unused]
        pairs = [pair for pair in pairs if pair.bit_count() == 2]
        if not pairs:
            return below(search)
        groups = []
        for pair in pairs:
            joined = pair
            for group in [g for g in groups if g & pair]:
                groups.remove(group)
                joined |= group
            groups.append(joined)
        return next(members(min(groups, key=lambda g: (-g.bit_count(), g & -g))))
    return named


POLICIES = {
    (b"first",): first,
    (b"heaviest",): heaviest,
    (b"component", b"first"): component_over(first),
    (b"component", b"heaviest"): component_over(heaviest),
}


class Search:
    """One search over a code; `received` maps a place to its symbol."""

    def __init__(self, code, received, policy):
        self.rows = [sum(1 << c for c in row) for row in code.rows]
        self.active = sum(1 << c for c in range(code.columns) if c not in received)
        self.sets = [row & self.active for row in self.rows]
        self.sides = []
        for row in code.rows:
            side = 0
            for c in row:
                side ^= received.get(c, 0)
            self.sides.append(side)
        self.unused = list(range(len(code.rows)))
        self.used_for, self.additions = {}, 0
        self.pivots, self.free = [], []
        self._eliminate(policy)
        self._settle()

    def _use(self, r, c):
        self.unused.remove(r)
        self.used_for[c] = r
        for q in range(len(self.sets)):
            if q != r and self.sets[q] >> c & 1:
                self.sets[q] ^= self.sets[r]
                self.sides[q] ^= self.sides[r]
                self.additions += 1

    def _eliminate(self, policy):
        while self.active:
            for r in self.unused:
                left = self.sets[r] & self.active
                if left and not left & (left - 1):
                    self.active ^= left
                    self._use(r, left.bit_length() - 1)
                    break
            else:
                c = policy(self)
                self.pivots.append(c)
                self.active ^= 1 << c

    def _settle(self):
        for c in self.pivots:
            for r in self.unused:
                if self.sets[r] >> c & 1:
                    self._use(r, c)
                    break
            else:
                self.free.append(c)

    def answer(self):
        """('none',), ('several', shortfall) or ('one', {missing place: symbol})."""
        if any(self.sides[r] for r in self.unused):
            return ("none",)
        if self.free:
            return ("several", len(self.free))
        return ("one", {c: self.sides[r] for c, r in self.used_for.items()})
