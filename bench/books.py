"""Writes a book of accepted theorems, of exactly the size that is asked for, to standard output.

Each theorem has 40 points in one order, 256 triples of them given as being between, and 1,023 lines that cite rules,
no two alike: each triple read from the other end, and that its points differ. Comment lines fill the book up.
"""

import itertools
import sys

GIVEN, STEPS, POINTS, LONGEST = 256, 1023, 40, 1600


def theorem(number, triples):
    names = [f"point_{i:02}" for i in range(POINTS)]
    lines = [f"theorem order-{number:03}", "points " + " ".join(names)]
    cited = []
    for x, y, z in triples:
        a, b, c = names[x], names[y], names[z]
        lines.append(f"given between {a} {b} {c}")
        cited.append((f"by b1a {a} {b} {c}", f"between {c} {b} {a}"))
        cited.append((f"by b1b {a} {b} {c}", f"{a} != {b}"))
        cited.append((f"by b1c {a} {b} {c}", f"{a} != {c}"))
        cited.append((f"by b1d {a} {b} {c}", f"not between {b} {a} {c}"))
    cited = cited[:STEPS]
    lines.append("show " + cited[-1][1])
    lines.append("proof")
    lines += [f"{rule} : {literal}" for rule, literal in cited]
    return "\n".join([*lines, "qed", "end", ""])


def comments(size):
    """Comment lines of so many bytes in all."""
    lines = []
    while size > 0:
        length = min(size, 80)
        if size - length == 1:
            length -= 1
        lines.append("#" * (length - 1) + "\n")
        size -= length
    return "".join(lines)


def book(size):
    every = itertools.cycle(itertools.combinations(range(POINTS), 3))
    parts, left = [], size
    while True:
        part = theorem(len(parts) + 1, list(itertools.islice(every, GIVEN)))
        if len(part) > left:
            return "".join(parts) + comments(left)
        parts.append(part)
        left -= len(part)


if __name__ == "__main__":
    sys.stdout.write(book(int(sys.argv[1])))
