#!/usr/bin/env python3
"""The texts of the benchmark, a thousand blocks each, always the same.

Run: python3 bench/load.py KIND > FILE
  whole   turns by whole degrees, offsets, moves
  odd     turns by odd angles of four decimals, additive turns, scales, offsets, moves
  mixed   blocks of every kind, right and wrong, for the comparison of results
  one BLOCKS  the blocks of the second word, parted by |, the last of them a thousand times
"""
import sys

BLOCKS = 1000


class Numbers:
    """A linear congruential generator."""

    def __init__(self, seed):
        self.state = seed

    def below(self, n):
        self.state = (self.state * 6364136223846793005 + 1442695040888963407) % 2**64
        return (self.state >> 33) % n

    def decimal(self, most, decimals):
        """A number up to `most` either way, with up to so many decimals."""
        k = self.below(decimals + 1)
        n = self.below(2 * most * 10**k + 1) - most * 10**k
        sign = "-" if n < 0 else ""
        digits = str(abs(n)).rjust(k + 1, "0")
        return sign + (digits[:-k] + "." + digits[-k:] if k else digits)

    def pick(self, things):
        return things[self.below(len(things))]


def axes(r, most, decimals, at_least=1):
    names = [a for a in "XYZ" if r.below(2)]
    while len(names) < at_least:
        names = [a for a in "XYZ" if r.below(2)]
    return " ".join(a + r.decimal(most, decimals) for a in names)


def move(r):
    return f"G90 X{r.decimal(150, 3)} Y{r.decimal(150, 3)} Z{r.decimal(50, 3)}"


def whole(r):
    k = r.below(4)
    if k == 0:
        return f"ROT RPL={r.below(360)}"
    if k == 1:
        return "ATRANS " + axes(r, 20, 3)
    return move(r)


def odd(r):
    k = r.below(8)
    if k == 0:
        return f"ROT RPL={r.below(360)}.{r.below(10000):04}"
    if k == 1:
        return f"AROT RPL={r.below(360)}.{r.below(10000):04}"
    if k == 2:
        return "ATRANS " + axes(r, 20, 3)
    if k == 3:
        return "ASCALE " + " ".join(f"{a}{r.pick(['0', '1'])}.{1 + r.below(99998):05}" for a in "XY")
    return move(r)


def wrong_way(r, block):
    """The same block with a byte changed, doubled or dropped."""
    i = r.below(len(block) + 1)
    k = r.below(3)
    b = r.pick("XYZGMNRPL0123456789.-+= ;#qxTRANS\t")
    if k == 0:
        return block[:i] + b + block[i:]
    if k == 1:
        return block[:i] + b + block[i + 1 :]
    return block[:i] + block[i + 1 :]


def mixed(r):
    block = r.pick(
        [
            whole(r),
            odd(r),
            move(r),
            f"N{r.below(200)} {r.pick(['G0', 'G1', 'G01'])} {axes(r, 150, 5)} F{r.below(500)}",
            f"G91 {axes(r, 30, 4)}",
            f"G{r.pick([17, 18, 19])} {axes(r, 100, 4, 0)}",
            f"{r.pick(['ROT', 'AROT'])} RPL={r.decimal(359, 4)}",
            f"{r.pick(['ROT', 'AROT'])} RPL={90 * (r.below(7) - 3)}",
            f"{r.pick(['TRANS', 'ATRANS', 'MIRROR', 'AMIRROR', 'SCALE', 'ASCALE', 'ROT'])} {axes(r, 20, 5, 0)}",
            f"{r.pick(['SCALE', 'ASCALE', 'scale'])} X0.{1 + r.below(99999):05} Y1.5",
            f"G{r.pick([53, 54, 55, 500, 70, 71])} {axes(r, 15, 4, 0)}",
            f"G53 {axes(r, 100, 4)} M{3 + r.below(60) % 58}",
            f"G{25 + r.below(2)} {axes(r, 600, 4, 0)}",
            f"T1 D1 S{r.below(5000)} M{3 + r.below(9)} M{3 + r.below(9)} ; {r.below(99)}",
            "G90 G17 G71",
            "",
        ]
    )
    return wrong_way(r, block) if r.below(6) == 0 else block


def main():
    kind = sys.argv[1]
    if kind == "one":
        first, last = sys.argv[2].split("|")[:-1], sys.argv[2].split("|")[-1]
        blocks = first + [last] * BLOCKS
    else:
        r = Numbers(int(sys.argv[2]) if len(sys.argv) > 2 else 1)
        blocks = [{"whole": whole, "odd": odd, "mixed": mixed}[kind](r) for _ in range(BLOCKS)]
    sys.stdout.write("".join(b + "\n" for b in blocks))


if __name__ == "__main__":
    main()
