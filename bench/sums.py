"""Writes a book of so many theorems about lengths along a line, each with a certificate of arithmetic below most of its lines.

Each theorem has 21 points in one order, and shows that the lengths between neighbours make the whole length.
"""

import sys

LAST = 20


def theorem(number):
    point = [f"p{i}" for i in range(LAST + 1)]
    lines = [f"theorem sums-{number:03}", "points " + " ".join(point)]
    lines += [f"given between {point[i]} {point[i + 1]} {point[i + 2]}" for i in range(LAST - 1)]
    parts = [f"seg {point[i]} {point[i + 1]}" for i in range(LAST)]
    lines += ["show " + " + ".join(parts) + f" = seg p0 p{LAST}", f"show seg p0 p1 < seg p0 p{LAST}", "proof"]
    lines += ["by b1b p1 p2 p3 : p1 != p2", "by b1a p0 p1 p2 : between p2 p1 p0"]
    for i in range(2, LAST):
        lines.append(f"by b1a p{i - 1} p{i} p{i + 1} : between p{i + 1} p{i} p{i - 1}")
        lines.append(f"by b5 p{i + 1} p{i} p{i - 1} p0 : between p{i + 1} p{i} p0")
        lines.append(f"by b1a p{i + 1} p{i} p0 : between p0 p{i} p{i + 1}")
    for i in range(1, LAST):
        lines.append(f"hence seg p0 p{i} + seg p{i} p{i + 1} = seg p0 p{i + 1}")
    for i in range(2, LAST):
        lines.append("hence " + " + ".join(parts[:i]) + f" = seg p0 p{i}")
    return "\n".join([*lines, "qed", "end", ""])


if __name__ == "__main__":
    sys.stdout.write("".join(theorem(i + 1) for i in range(int(sys.argv[1]))))
