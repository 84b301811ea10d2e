"""Times an application with blanks in scopes of more and more points, and counts the licences that are asked.

Words: the program. Each book has a theorem of a chain of points, in which each given literal ties a point to those before it, and a
theorem that applies it once, with blanks for the last points of the chain. The facts tie each point to the next one, so there is one good
choice, or none. The least processor time of some runs counts, less that of the same book with the choice written. The licences are the
literals that are no facts and are looked at for it, counted by valgrind where it is there; those of the rest of the book are taken away.
"""

import os
import sys
import tempfile

from licences import calls, names, timed

POINTS = (5, 10, 20)
BLANKS = (1, 2, 3, 4, 5, 6)
LICENCES = ("e_licence::licensing::verdict_of",)


def by_facts(x):
    """Each point of the chain is tied to the one before it, by a fact of a diagram."""
    return [f"same-side {a} {b} L" for a, b in zip(x, x[1:])]


def by_arithmetic(x):
    """Each segment of the chain is shorter than the next one."""
    return [f"seg {a} {b} < seg {b} {c}" for a, b, c in zip(x, x[1:], x[2:])]


def ring(p):
    """The points in a ring: there is a next one to each."""
    return by_facts(p + p[:1])


# the ties of the chain, the facts, and what else is given at the end, which nothing gives
TIES = {
    "facts, one choice": (by_facts, ring, None),
    "facts, no choice": (by_facts, ring, lambda x: f"on {x[-1]} L"),
    "arithmetic, one choice": (by_arithmetic, by_arithmetic, None),
    "arithmetic, no choice": (by_arithmetic, by_arithmetic, lambda x: f"on {x[-1]} L"),
}


def book(tie, points, blanks, written):
    """A book that applies the chain with blanks, or with what stands for them written."""
    given, facts, last = TIES[tie]
    x = names("x", blanks + 2)
    p = names("p", points)
    wanted = given(x) + ([last(x)] if last else [])
    # the chain ends with the last points, or where it is longer than they are, goes round the ring
    first = max(points - len(x), 0)
    args = [p[(first + i) % points] for i in range(len(x))]
    choice = args[2:] if written else ["_"] * blanks
    text = ["theorem chain", "points " + " ".join(x), "lines L"] + ["given " + lit for lit in wanted]
    text += ["show x0 = x0", "proof", "by eqr-p x0 : x0 = x0", "qed", "end"]
    text += ["theorem T", "points " + " ".join(p), "lines L"] + ["given " + lit for lit in facts(p)]
    text += ["show p0 = p0", "proof", "by eqr-p p0 : p0 = p0", "apply chain " + " ".join(args[:2] + choice) + " L", "qed", "end", ""]
    return "\n".join(text)


def measured(program, path, text):
    with open(path, "w") as out:
        out.write(text)
    took, answer = timed(program, path)
    return took, answer, calls(program, path, LICENCES)


def main(program):
    print("%-24s %6s %7s %9s %9s  %s" % ("tied by", "points", "blanks", "seconds", "licences", "answer"))
    with tempfile.TemporaryDirectory() as folder:
        path = os.path.join(folder, "book")
        for tie in TIES:
            for points in POINTS:
                for blanks in BLANKS:
                    took, answer, asked = measured(program, path, book(tie, points, blanks, False))
                    base, _, known = measured(program, path, book(tie, points, blanks, True))
                    alone = max(took - base, 0)
                    licences = None if asked is None else asked - known
                    print("%-24s %6d %7d %9.4f %9s  %s" % (tie, points, blanks, alone, licences, answer))


if __name__ == "__main__":
    main(sys.argv[1])
