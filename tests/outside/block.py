"""A block and its permit, by docs/RULES.md, sections 11 to 14. A call raises Refused or answers."""

from codes import Refused
from elimination import Search
from fillings import agreeing, stalls, tried

PACKET = 68
FEW = 6


def searched(kind, code, received, policy):
    """The method's answer with its pivots and additions, checked against the codewords that agree."""
    search = Search(code, received, policy)
    answer = search.answer()
    expected = [agreeing(code, received)]
    if kind.bits == 1 and code.columns - len(received) <= FEW:
        expected.append(tried(code, received))
    if any(answer != other for other in expected):
        raise AssertionError(f"the method answers {answer}, the codewords {expected}")
    if bool(search.pivots) != stalls(code, received):
        raise AssertionError(f"{len(search.pivots)} pivots, against the stopping sets")
    return answer, len(search.pivots), search.additions


class Permit:
    """A block number and a stamp: what it is known by."""

    def __init__(self, number, stamp):
        self.number, self.stamp = number, stamp


class Block:
    """A block fresh from its open, which may have been refused: `refusal` is then what it tells."""

    def __init__(self, kind, number, stamp, n):
        self.kind, self.refusal = kind, None
        if number > 4095:
            self.refusal = Refused(2, number)
        elif stamp == 0:
            self.refusal = Refused(3)
        elif not 1 <= n <= 512:
            self.refusal = Refused(4, n)
        if self.refusal:
            number = stamp = n = 0
        self.number, self.stamp, self.n = number, stamp, n
        self.received, self.found, self.out = {}, {}, False

    def receive(self, number, stamp, place, symbol):
        if self.out:
            raise Refused(6, self.stamp)
        if number != self.number:
            raise Refused(7, number)
        if stamp != self.stamp:
            raise Refused(8, self.stamp)
        if place >= self.n:
            raise Refused(9, place)
        if place in self.received:
            raise Refused(10, place)
        self.received[place] = symbol

    def packet(self, stamp, data):
        """A refusal has `layer`, 'header' or 'block'."""
        if len(data) != PACKET:
            refusal = Refused(1, len(data))
            refusal.layer = "header"
            raise refusal
        header = int.from_bytes(data[:4], "big")
        try:
            self.receive(header >> 20, stamp, header & 0xFFFFF, int.from_bytes(data[4:], "big"))
        except Refused as refusal:
            refusal.layer = "block"
            raise

    def run(self, stamp, data):
        """How many packets were taken; a refusal also has `at`, its byte place."""
        for at in range(0, len(data), PACKET):
            try:
                self.packet(stamp, data[at:at + PACKET])
            except Refused as refusal:
                refusal.at = at
                raise
        return len(data) // PACKET

    def solve(self, code, policy, words, symbols):
        """(permit, pivots, additions)."""
        m = len(code.rows)
        if self.out:
            raise Refused(6, self.stamp)
        if code.columns != self.n:
            raise Refused(5, code.columns)
        if words < 8 * m or symbols < m:
            raise Refused(12, m)
        answer, pivots, additions = searched(self.kind, code, self.received, policy)
        if answer[0] == "none":
            raise Refused(13, pivots, additions)
        if answer[0] == "several":
            raise Refused(14, pivots, additions, answer[1])
        self.found, self.out = answer[1], True
        return Permit(self.number, self.stamp), pivots, additions

    def owns(self, permit):
        return self.out and (permit.number, permit.stamp) == (self.number, self.stamp)

    def show(self, permit, place):
        if not self.owns(permit):
            raise Refused(15, self.stamp)
        if place >= self.n:
            raise Refused(9, place)
        return self.received[place] if place in self.received else self.found[place]

    def close(self, permit):
        if not self.owns(permit):
            raise Refused(15, self.stamp)
        self.found, self.out = {}, False

    def renew(self, stamp):
        if self.out:
            raise Refused(6, self.stamp)
        if stamp == 0:
            raise Refused(3)
        if stamp <= self.stamp:
            raise Refused(11, self.stamp)
        self.stamp, self.received = stamp, {}

    def figure(self):
        return len(self.received) * 100 // self.n if self.n else 0
