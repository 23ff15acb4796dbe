#!/usr/bin/env python3
"""Cases for crates/frames_tests, worked out from the rules with fractions and none of the product's own numbers.

Run: python3 tools/frames_cases.py > crates/frames_tests/src/cases.rt, then rt fmt in crates/frames_tests.
The turn numbers here are the whole numbers nearest to 10^9 times the reference sine and cosine.
"""
import random
from fractions import Fraction as F
from math import factorial

PI = 314159265358979323846
FAR = 2_000_000_000
PLANES = {"Xy": (0, 1), "Zx": (2, 0), "Yz": (1, 2)}


def reference(ticks):
    """Cosine and sine of any number of ticks."""
    a = ticks % 900_000
    if a <= 450_000:
        c, s = octant(a)
    else:
        s, c = octant(900_000 - a)
    for _ in range(ticks // 900_000):
        c, s = -s, c
    return c, s


def octant(a):
    x = F(a * PI, 1_800_000 * 10**20)
    s = sum((-1) ** (k // 2) * x**k / factorial(k) for k in range(1, 16, 2))
    c = sum((-1) ** (k // 2) * x**k / factorial(k) for k in range(0, 17, 2))
    return c, s


def nearest(q):
    """Ties away from zero."""
    n = abs(q)
    r = (2 * n.numerator + n.denominator) // (2 * n.denominator)
    return r if q >= 0 else -r


def ceil(q):
    return -((-q.numerator) // q.denominator)


def numbers(ticks):
    c, s = reference(ticks)
    return nearest(c * 10**9), nearest(s * 10**9)


def append(chain, step):
    if chain and step[0] == "Turn" and chain[-1][0] == "Turn" and chain[-1][1] == step[1]:
        return chain[:-1] + [("Turn", step[1], (chain[-1][2] + step[2]) % 3_600_000)]
    return chain + [step]


def one(step, moved, p, r):
    p2, r2 = list(p), list(r)
    kind = step[0]
    for a in range(3):
        if not moved[a]:
            continue
        if kind == "Offset" and step[1][a] is not None:
            p2[a] = p[a] + step[1][a]
        if kind == "Mirror" and step[1][a]:
            p2[a] = -p[a]
        if kind == "Scale" and step[1][a] is not None:
            f = step[1][a]
            p2[a] = nearest(F(f * p[a], 100_000))
            r2[a] = ceil(F(r[a] * max(f, 100_000), 100_000)) + (1 if (f * p[a]) % 100_000 else 0)
        if kind == "Turn":
            i, j = PLANES[step[1]]
            if a not in (i, j):
                continue
            if step[2] % 900_000 == 0:
                q = step[2] // 900_000
                x, y, u, v = p[i], p[j], r[i], r[j]
                for _ in range(q):
                    x, y, u, v = -y, x, v, u
                p2[a], r2[a] = (x, u) if a == i else (y, v)
            else:
                c, s = numbers(step[2])
                w = F(c * p[i] - s * p[j], 10**9) if a == i else F(s * p[i] + c * p[j], 10**9)
                p2[a] = nearest(w)
                r2[a] = ceil(F(3 * max(r[i], r[j]), 2)) + ceil(F(abs(p[i]) + abs(p[j]), 10**9)) + 1
    return p2, r2


def push(chain, moved, values, offset, tolerance):
    p, r = list(values), [0, 0, 0]
    steps = [(k + 1, s) for k, s in enumerate(chain)][::-1] + [(9, ("Offset", offset))]
    for number, step in steps:
        p, r = one(step, moved, p, r)
        for a in range(3):
            if moved[a] and abs(p[a]) > FAR:
                return [13, a + 1, number, 0, 0, 0, 0]
        for a in range(3):
            if moved[a] and r[a] > tolerance:
                return [14, a + 1, number, 0, 0, 0, 0]
    return [0] + p + r


def exact(chain, values, offset):
    """The exact image, to see that each case keeps its spread."""
    e = [F(v) for v in values]
    for step in chain[::-1]:
        o = list(e)
        for a in range(3):
            if step[0] == "Offset" and step[1][a] is not None:
                o[a] = e[a] + step[1][a]
            if step[0] == "Mirror" and step[1][a]:
                o[a] = -e[a]
            if step[0] == "Scale" and step[1][a] is not None:
                o[a] = e[a] * F(step[1][a], 100_000)
        if step[0] == "Turn":
            i, j = PLANES[step[1]]
            c, s = reference(step[2])
            o[i], o[j] = c * e[i] - s * e[j], s * e[i] + c * e[j]
        e = o
    return [e[a] + offset[a] for a in range(3)]


def listed(values):
    return "[%s]" % ", ".join(map(str, values))


def flags(values):
    return listed("true" if v else "false" for v in values)


def rust(step):
    kind = step[0]
    if kind == "Turn":
        return f"Raw::Turn(Plane::{step[1]}, {step[2]})"
    if kind == "Mirror":
        return f"Raw::Mirror({flags(step[1])})"
    return "Raw::%s(%s)" % (kind, ", ".join("None" if v is None else f"Some({v})" for v in step[1]))


def answer(told):
    if told[0] == 0:
        return f"Ok(Image {{ at: {listed(told[1:4])}, spread: {listed(told[4:])} }})"
    return "Err(Refused { number: %d, axis: %d, step: %d })" % tuple(told[:3])


ROWS = []


def case(steps, values, moved=(True, True, True), offset=(0, 0, 0), tolerance=100_000):
    chain = []
    for s in steps:
        chain = append(chain, s)
    assert len(chain) <= 8
    told = push(chain, moved, values, offset, tolerance)
    if told[0] == 0 and all(moved):
        e = exact(chain, values, offset)
        assert all(abs(told[1 + a] - e[a]) <= told[4 + a] for a in range(3)), (steps, values)
    ROWS.append(
        f"    Case {{ steps: &{listed(map(rust, steps))}, moved: {flags(moved)}, values: {listed(values)}, "
        f"offset: {listed(offset)}, tolerance: {tolerance}, told: {answer(told)} }},"
    )


END = 999_999_999
# odd turns: every plane and quadrant, the octant's ends, both ends of the range
for plane, ticks, values in [
    ("Xy", 1, (END, -END, 5)), ("Xy", 449_999, (END, END, 0)), ("Xy", 450_000, (10_000_000, -3, 7)), ("Xy", 450_001, (-END, END, 0)),
    ("Xy", 899_999, (-END, -END, 1)), ("Xy", 900_001, (123_456_789, 987_654_321, 0)), ("Xy", 1_234_567, (END, -1, 0)),
    ("Xy", 1_799_999, (0, 0, 0)), ("Xy", 2_000_000, (-77, 77, 0)), ("Xy", 2_699_999, (1, END, 0)), ("Xy", 2_700_001, (END, END, END)),
    ("Xy", 3_599_999, (-END, END, 0)), ("Zx", 300_000, (10_000_000, 0, 0)), ("Zx", 771_234, (END, 4, -END)), ("Zx", 1_350_000, (-END, 9, END)),
    ("Zx", 2_222_222, (1, 2, 3)), ("Zx", 3_000_001, (-987_654_321, 0, 123_456_789)), ("Zx", 3_599_998, (END, 0, END)),
    ("Yz", 100_000, (8, 10_000_000, 20_000_000)), ("Yz", 666_666, (0, -END, END)), ("Yz", 1_000_000, (0, END, -END)),
    ("Yz", 2_345_678, (0, 555_555_555, -444_444_444)), ("Yz", 2_999_999, (3, -2, 1)), ("Yz", 3_141_592, (0, END, END)),
]:
    case([("Turn", plane, ticks)], values)

N = None
# quarter turns, with spreads that change places
case([("Turn", "Xy", 900_000), ("Scale", (33_333, N, N))], (7, 11, 13))
case([("Turn", "Zx", 900_000), ("Scale", (33_333, N, 100_000))], (7, 11, 13))
case([("Turn", "Yz", 2_700_000), ("Scale", (N, 99_999, N))], (7, 11, 13))
case([("Turn", "Xy", 1_800_000)], (7, -11, 13), offset=(1, 2, 3))
case([("Turn", "Xy", 0)], (7, -11, 13))
# scales: ties, both ends of the factor, an enlarged spread
case([("Scale", (50_000, 50_000, 50_000))], (5, -5, 4))
case([("Scale", (1, 10_000_000, 100_000))], (END, 19_999_999, -END))
case([("Scale", (250_000, 250_000, 1)), ("Turn", "Xy", 300_000)], (10_000_000, 0, 50_000))
case([("Scale", (66_667, N, 33_333)), ("Scale", (33_333, 150_000, N))], (50, 51, -52))
# mirrors and the order of steps
case([("Scale", (200_000, 200_000, N)), ("Offset", (1_000_000, 500_000, N))], (0, 0, 0))
case([("Offset", (1_000_000, 500_000, N)), ("Scale", (200_000, 200_000, N))], (0, 0, 0))
case([("Mirror", (True, False, True)), ("Offset", (5, 5, N)), ("Mirror", (True, True, False))], (1, 2, 3))
# AROT adds onto an innermost turn of its plane, and onto no other step
case([("Offset", (5_000_000, N, N))] + [("Turn", "Xy", 600_000)] * 6, (1_000_000, 0, 0))
case([("Turn", "Xy", 300_000), ("Turn", "Zx", 300_000)], (10_000_000, 0, 0), offset=(10_000_000, 5_000_000, 0))
case([("Turn", "Xy", 300_000), ("Mirror", (True, False, False)), ("Turn", "Xy", 300_000)], (10_000_000, 0, 0))
# unmoved axes stay as given
case([("Scale", (33_333, 50_000, 50_000))], (5, 5, 5), moved=(True, False, False))
case([("Mirror", (True, True, True))], (5, 6, END), moved=(False, True, False), offset=(9, 9, 9))
# 13 and 14: at its step and axis, 13 first, an inner 14 before an outer 13
case([("Turn", "Xy", 300_000)], (10_000_000, 0, 0), tolerance=1)
case([("Offset", (END, END, END)), ("Scale", (N, 200_000, N))], (END, END, END))
case([("Offset", (END, END, END)), ("Scale", (N, 210_000, N))], (END, END, END))
case([("Offset", (N, END, END)), ("Scale", (N, 200_000, N))], (0, END, END), tolerance=0)
case([("Scale", (10_000_000, N, N)), ("Turn", "Yz", 1)], (END, 0, 0), tolerance=0)
case([("Scale", (10_000_000, N, N)), ("Turn", "Yz", 1)], (END, 0, 0), tolerance=1)
case([("Scale", (N, 200_000, 200_000))], (END, END, END), offset=(END, 2, -END))
case([("Offset", (N, N, -END)), ("Offset", (N, N, -END))], (0, 0, -2), offset=(0, 0, -END))
case([], (END, -END, 0), offset=(END, -END, 0))
# chains of many steps
rnd = random.Random(802)
for _ in range(16):
    steps, chain = [], []
    for _ in range(rnd.randint(2, 8)):
        kind = rnd.choice(["Offset", "Scale", "Mirror", "Turn", "Turn"])
        if kind == "Turn":
            step = (kind, rnd.choice(list(PLANES)), rnd.choice([rnd.randrange(3_600_000), 900_000 * rnd.randrange(4)]))
        elif kind == "Mirror":
            step = (kind, tuple(rnd.random() < 0.5 for _ in range(3)))
        elif kind == "Scale":
            step = (kind, tuple(rnd.choice([N, rnd.randint(1, 200_000)]) for _ in range(3)))
        else:
            step = (kind, tuple(rnd.choice([N, rnd.randint(-END, END)]) for _ in range(3)))
        steps.append(step)
    case(steps, [rnd.randint(-END, END) for _ in range(3)], offset=[rnd.randint(-10**7, 10**7) for _ in range(3)], tolerance=rnd.choice([20, 100_000]))

print("// Cases with the answers worked out by tools/frames_cases.py, with fractions.")
print("use crate::{Case, Raw, Refused};")
print("use frames::image::Image;")
print("use units::axis::Plane;\n")
print("pub static CASES: &[Case] = &[")
print("\n".join(ROWS))
print("];")

TICKS = [0, 1, 2, 99_999, 150_000, 300_000, 449_999, 450_000, 450_001, 600_000, 899_999]
TICKS = sorted(t + 900_000 * q for t in TICKS for q in range(4))
print("\n// Ticks, cosine and sine: the whole numbers nearest to 10^9 times their references.")
print("pub static NUMBERS: &[(u32, i64, i64)] = &[")
for t in TICKS:
    print("    (%d, %d, %d)," % ((t,) + numbers(t)))
print("];")
