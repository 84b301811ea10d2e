"""Times an application with six blanks that all stand in one given literal, in scopes of more and more points.

Words: the program. The given literal of the theorem that is applied compares sums of segments, and no choice of points makes it follow,
so each choice is judged: the number of points, six times multiplied by itself. What one choice takes is the processor time, less that of
the same book without the line, by their number; the last line is what a scope of 40 points would take at the dearest choice.
"""

import os
import sys
import tempfile

from licences import names, timed

POINTS = (3, 4, 5, 6, 7)
MOST = 40


def book(points, applied):
    """A theorem on six points with one given literal, and one that applies it with blanks; each point of that differs from the next."""
    p = names("p", points)
    text = ["theorem six", "points u v w x y z", "given seg u v + seg w x < seg y z", "show u = u", "proof", "by eqr-p u : u = u", "qed", "end"]
    text += ["theorem T", "points " + " ".join(p)]
    text += [f"given seg {a} {b} = seg {b} {c}" for a, b, c in zip(p, p[1:], p[2:])]
    text += ["show p0 = p0", "proof", "by eqr-p p0 : p0 = p0"]
    text += ["apply six _ _ _ _ _ _"] if applied else []
    return "\n".join(text + ["qed", "end", ""])


def measured(program, path, text):
    with open(path, "w") as out:
        out.write(text)
    return timed(program, path)


def main(program):
    dearest = 0
    print("%6s %9s %9s %12s  %s" % ("points", "choices", "seconds", "us a choice", "answer"))
    with tempfile.TemporaryDirectory() as folder:
        path = os.path.join(folder, "book")
        for points in POINTS:
            took, answer = measured(program, path, book(points, True))
            alone = max(took - measured(program, path, book(points, False))[0], 0)
            each = 1e6 * alone / points**6
            dearest = max(dearest, each)
            print("%6d %9d %9.3f %12.1f  %s" % (points, points**6, alone, each, answer))
    print("%d points: %d choices, %.0f hours at the dearest" % (MOST, MOST**6, dearest * MOST**6 / 3.6e9))


if __name__ == "__main__":
    main(sys.argv[1])
