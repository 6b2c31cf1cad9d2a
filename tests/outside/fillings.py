"""The codewords that agree with the received places, without the method: by plain elimination, and for few bits by trying every filling."""

from itertools import product


def agreeing(code, received):
    """('none',), ('several', shortfall) or ('one', {missing place: symbol}): each row's equation, brought to echelon form from the highest column down."""
    missing = [c for c in range(code.columns) if c not in received]
    bit = {c: 1 << i for i, c in enumerate(missing)}
    leading, none = {}, False
    for row in code.rows:
        left, right = 0, 0
        for c in row:
            if c in received:
                right ^= received[c]
            else:
                left |= bit[c]
        while left:
            top = left.bit_length() - 1
            if top not in leading:
                leading[top] = (left, right)
                break
            left, right = left ^ leading[top][0], right ^ leading[top][1]
        else:
            none = none or right != 0
    if none:
        return ("none",)
    if len(leading) < len(missing):
        return ("several", len(missing) - len(leading))
    found = []
    for top in range(len(missing)):
        left, right = leading[top]
        for i in range(top):
            if left >> i & 1:
                right ^= found[i]
        found.append(right)
    return ("one", dict(zip(missing, found)))


def tried(code, received):
    """The same for bits, from all fillings that agree."""
    missing = [c for c in range(code.columns) if c not in received]
    good = []
    for bits in product((0, 1), repeat=len(missing)):
        word = {**received, **dict(zip(missing, bits))}
        if all(sum(word[c] for c in row) % 2 == 0 for row in code.rows):
            good.append(dict(zip(missing, bits)))
    if not good:
        return ("none",)
    if len(good) > 1:
        return ("several", len(good).bit_length() - 1)
    return ("one", good[0])


def stalls(code, received):
    """Whether a stopping set lies among the missing places: whether taking away, for as long as it can be done, a place that a row holds alone leaves any."""
    left = {c for c in range(code.columns) if c not in received}
    rows = [set(row) & left for row in code.rows]
    while True:
        alone = {c for row in rows if len(row) == 1 for c in row}
        if not alone:
            return bool(left)
        left -= alone
        rows = [row - alone for row in rows]
