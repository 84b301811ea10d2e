"""Writes a book of one theorem of a shape that grows, to standard output.

Words: the shape, its size, and for `refused` the number of the step in REFUSED. bench/README.md tells of each.
"""

import sys


def points(count):
    return [f"p{i}" for i in range(count)]


def segments(count):
    """So many different segments, and the points that they need."""
    ends = 2
    while ends * (ends - 1) // 2 < count:
        ends += 1
    names = points(ends)
    between = [f"seg {a} {b}" for i, b in enumerate(names) for a in names[:i]]
    return names, between[:count]


def theorem(declared, given, show, steps):
    lines = ["theorem T", *declared, *(f"given {fact}" for fact in given), f"show {show}", "proof", *steps, "qed", "end"]
    return "".join(line + "\n" for line in lines)


def chain(size):
    """Half the size in given equalities of neighbours, and as many steps: each that the first one is equal to the next one on."""
    names, x = segments(size // 2 + 1)
    given = [f"{a} = {b}" for a, b in zip(x, x[1:])]
    return theorem(["points " + " ".join(names)], given, f"{x[0]} = {x[-1]}", [f"hence {x[0]} = {a}" for a in x[1:]])


def claims(size):
    """The size in given equalities of neighbours, and as many claims, whose second case is a contradiction."""
    names, x = segments(size + 1)
    given = [f"{a} = {b}" for a, b in zip(x, x[1:])]
    steps = []
    for a in x[1:]:
        literal = f"{x[0]} = {a}"
        steps += [f"claim {literal}", f"cases {literal}", "qed", "else", "contradiction"]
    return theorem(["points " + " ".join(names)], given, f"{x[0]} = {x[-1]}", steps)


def differing(size):
    """Half the size in neighbours that differ; of half of these the first is at most the second, and the step says it is less."""
    names, x = segments(size // 2 + 1)
    below = size // 4
    given = [f"{a} != {b}" for a, b in zip(x, x[1:])] + [f"{a} <= {b}" for a, b in zip(x[:below], x[1:])]
    return theorem(["points " + " ".join(names)], given, f"{x[0]} < {x[below]}", [f"hence {x[0]} < {a}" for a in x[1 : below + 1]])


def cancelling(size, given=()):
    """The size in points, and a step whose terms cancel, which is refused."""
    return theorem(["points " + " ".join(points(size))], given, "p0 = p0", ["hence seg p0 p1 != seg p0 p1"])


def cancelling_strict(size):
    """The same beside a fact that one area is less than another one."""
    return cancelling(size, ["area p0 p1 p2 < area p3 p4 p5"])


P = points(40)
L = [f"L{i}" for i in range(24)]
A = [f"A{i}" for i in range(16)]


def all_on():
    """All points on all lines, most on all circles, the others their centers."""
    on = [f"on {a} {line}" for a in P for line in L] + [f"on {a} {circle}" for a in P[16:] for circle in A]
    return on + [f"center {a} {circle}" for a, circle in zip(P, A)]


def half_on():
    """Half of the points on all lines, in one order, and the others off them, neighbours on one side of some."""
    on, off = P[:20], P[20:]
    given = [f"on {a} {line}" for a in on for line in L] + [f"not on {a} {line}" for a in off for line in L]
    given += [f"same-side {a} {b} {line}" for a, b in zip(off, off[1:] + off[:1]) for line in L[:12]]
    return given + [f"between {a} {b} {c}" for a, b, c in zip(on, on[1:], on[2:])]


def one_side():
    """A quarter of the points on all lines, and pairs of others on one side of some."""
    on = [f"on {a} {line}" for a in P[:10] for line in L]
    return on + [f"same-side {a} {b} {line}" for a in P[10:22] for b in P[22:34] for line in L[:8]]


# Facts, and a step that no transfer rule gives from them, though many instances lack one literal alone. The first is seen soon.
REFUSED = (
    (all_on, "ang p1 p0 p2 = ang p3 p0 p5"),
    (all_on, "same-side p30 p32 L0"),
    (all_on, "L0 = L1"),
    (all_on, "meets L0 L1"),
    (all_on, "p38 = p39"),
    (half_on, "meets L0 L1"),
    (one_side, "not on p30 L0"),
)


def refused(size, kind):
    """The size in facts of diagrams on 40 points, 24 lines and 16 circles, filled up with points that differ, and a refused step."""
    facts, step = REFUSED[kind]
    pairs = [(a, b) for i, a in enumerate(P) for b in P[i + 1 :]]
    apart = [f"{a} != {b}" for a, b in pairs] + [f"{b} != {a}" for a, b in pairs]
    declared = ["points " + " ".join(P), "lines " + " ".join(L), "circles " + " ".join(A)]
    return theorem(declared, (facts() + apart)[:size], "p0 = p0", ["hence " + step])


SHAPES = {
    "chain": chain,
    "claims": claims,
    "differing": differing,
    "cancelling": cancelling,
    "cancelling-strict": cancelling_strict,
    "refused": refused,
}


if __name__ == "__main__":
    sys.stdout.write(SHAPES[sys.argv[1]](*map(int, sys.argv[2:])))
