"""Small books that lack lines, for the tests of filling."""

from __future__ import annotations

from euclid.filling.engine import fill_theorem
from euclid.filling.walk import FilledTheorem
from euclid.reading import read_book

I_1 = """# the first
theorem I.1
points a b
given a != b
made points c
show seg a b = seg b c
show seg b c = seg c a
proof
let A circle a b
let B circle b a
# where they cross
let c meet A B
qed c
end
"""
BETWEEN = """theorem T
points a b c d
given between a b c ; between b c d
show between a c d
proof
{}qed
end
"""
BLANK = """theorem U
points a
lines L
given on a L
show on a L
proof
qed
end
theorem V
points b a
lines L
given on a L ; not on b L
show on a L
proof
apply U _ L
qed
end
"""
PARTS = """theorem W
points a b c d
lines L
given between a b c ; seg a b = seg b d ; on a L ; not on b L
show seg a c = seg b d + seg b c
show not on c L{}
proof
qed
end
"""


def filled(text: str, most_applied: int = 0) -> list[FilledTheorem]:
    """Each theorem of a text, filled."""
    book, found = read_book(text), []
    for theorem in book.theorems():
        found.append(fill_theorem(theorem, book.known_before(theorem), seconds=None, most_applied=most_applied))
    return found
