#!/usr/bin/env python3
"""Shows that the turn numbers are the whole numbers nearest to 10^9 times their references, at all 450,001 ticks of the octant.

It repeats the whole-number recurrence of crates/turns/src/octant.rt and compares it with the reference series at 10^40ths:
those sums are off by less than 100 of 10^40, so where 10^9 times a sum is more than a millionth away from a half, it decides.
Nearer to a half exact fractions decide. The proof asks for no more than 'within 1'.
Run: python3 tools/turn_numbers_check.py   (about ten seconds)
"""
from fractions import Fraction
from math import factorial

PI = 314159265358979323846
SCALE = 10**18
FINE = 10**40


def program(a):
    x = a * PI // 180_000_000
    t = [SCALE]
    for k in range(1, 17):
        t.append(t[-1] * x // (k * SCALE))
    cosine = SCALE - (t[2] - t[4]) - (t[6] - t[8]) - (t[10] - t[12]) - (t[14] - t[16])
    sine = (t[1] - t[3]) + (t[5] - t[7]) + (t[9] - t[11]) + (t[13] - t[15])
    return (cosine + 500_000_000) // 1_000_000_000, (sine + 500_000_000) // 1_000_000_000


def fine(a):
    x = a * PI * FINE // (1_800_000 * 10**20)
    t = [FINE]
    for k in range(1, 17):
        t.append(t[-1] * x // (k * FINE))
    return sum((-1) ** (k // 2) * t[k] for k in range(0, 17, 2)), sum((-1) ** (k // 2) * t[k] for k in range(1, 16, 2))


def exact(a):
    x = Fraction(a * PI, 1_800_000 * 10**20)
    return (
        sum((-1) ** (k // 2) * x**k / factorial(k) for k in range(0, 17, 2)),
        sum((-1) ** (k // 2) * x**k / factorial(k) for k in range(1, 16, 2)),
    )


def main():
    unit = FINE // 10**9
    wrong, ties, least = 0, 0, unit
    for a in range(450_001):
        for told, ref, which in zip(program(a), fine(a), (0, 1)):
            off = abs(told * unit - ref)
            margin = unit // 2 - off
            least = min(least, abs(margin))
            if abs(margin) * 10**6 < unit:
                ties += 1
                q = exact(a)[which] * 10**9
                wrong += not abs(told - q) * 2 < 1
            else:
                wrong += margin < 0
    print(f"ticks 450001, numbers 900002, not nearest {wrong}, decided by fractions {ties}, least distance of a reference to a half {least / unit:.3e}")


main()
