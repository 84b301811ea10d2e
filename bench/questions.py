"""Turns a derivation text into a script of SMT-LIB (QF_LRA) with the same questions about magnitudes, for z3.

Words: the derivation text. The script is written to standard output, and its answers, in order, are those of the lines `; sat` and
`; unsat` in it. The questions are those that the text shows: each literal of magnitudes that a certificate of arithmetic gives, which is
asked as its contrary beside the facts (`unsat`); each that a transfer rule gives, which was asked directly before (`sat`); and each
contradiction of arithmetic (`unsat`). Terms are declared and facts asserted when a question needs them, once in their block: a block of
the proof is a push and a pop, and so is each question. All is homogeneous, so whole numbers satisfy it exactly where fractions do.
The text is read by tools/verify.py, of which the facts before each line are known.
"""

import os
import sys

sys.path.insert(0, os.path.join(os.path.dirname(os.path.abspath(__file__)), "../tools"))

from verify import RIGHT, Tables, Verifier, add  # noqa: E402

SIGNS = {(True, "="): "(= {} 0)", (False, "="): "(distinct {} 0)", (True, "<"): "(< {} 0)", (False, "<"): "(>= {} 0)"}


def is_nothing(term):
    """A segment from a point to itself, or an area with a repeated point."""
    return term[0] in ("seg", "area") and len(set(term)) < len(term)


class Script(Verifier):
    """Reads the text, and prints the questions on the way. What is asserted in each open block is kept, to assert it once."""

    def __init__(self, text, tables):
        super().__init__(text, tables)
        self.open = []

    def push(self):
        self.open.append(set())
        print("(push 1)")

    def pop(self):
        self.open.pop()
        print("(pop 1)")

    def once(self, line):
        if not any(line in said for said in self.open):
            self.open[-1].add(line)
            print(line)

    def name(self, term):
        """The constant for a term, declared with its bounds."""
        name = "|" + " ".join(term) + "|"
        self.once(f"(declare-const {name} Real)")
        self.once(f"(assert ({'>' if term == RIGHT else '>='} {name} 0))")
        if term[0] == "ang":
            self.once(f"(assert (<= {name} (* 2 {self.name(RIGHT)})))")
        return name

    def said(self, key):
        """The assertion of a literal of magnitudes: of its left side less its right side."""
        positive, word, _, form = key
        parts = [f"(* {c if c > 0 else f'(- {-c})'} {self.name(term)})" for term, c in form if not is_nothing(term)]
        return f"(assert {SIGNS[positive, word].format('(+ 0 0 ' + ' '.join(parts) + ')')})"

    def bring(self, context):
        """Asserts the facts before a line, as far as they are of magnitudes, and which segments are more than nothing."""
        terms = set()
        for key in sorted(key for key in context.facts if not key[2]):
            self.once(self.said(key))
            terms.update(term for term, _ in key[3])
        self.bring_apart(context, terms)

    def bring_apart(self, context, terms):
        for term in sorted(terms):
            ends = term[1:]
            apart = [(False, "=", pair, ()) for pair in (ends, ends[::-1])]
            if term[0] == "seg" and not is_nothing(term) and any(key in context.facts for key in apart):
                self.once(f"(assert (> {self.name(term)} 0))")

    def ask(self, wanted, context, answer):
        self.bring(context)
        self.push()
        if wanted is not None:
            key = wanted.negation().key()
            self.bring_apart(context, {term for term, _ in key[3]})
            print(self.said(key))
        print(f"(check-sat) ; {answer}")
        self.pop()

    def theorem(self, words):
        self.push()
        super().theorem(words)
        self.pop()

    def block(self, context, goal, depth):
        self.push()
        after = super().block(context, goal, depth)
        self.pop()
        return after

    def claim(self, words, context, depth):
        self.bring(context)
        return super().claim(words, context, depth)

    def superpose(self, words, context, depth):
        self.bring(context)
        return super().superpose(words, context, depth)

    def cases(self, words, context, goal, depth):
        self.bring(context)
        return super().cases(words, context, goal, depth)

    def certificate(self, wanted, context, is_part=False):
        if wanted.is_metric() and self.peek()[1:2] == ["transfer"]:
            self.ask(wanted, context, "sat")
        return super().certificate(wanted, context, is_part)

    def metric(self, wanted, context):
        self.ask(wanted, context, "unsat")
        return super().metric(wanted, context)


def main(path):
    with open(path, "rb") as text:
        script = Script(text.read(), Tables())
    print("(set-logic QF_LRA)")
    answer, status = script.answer()
    if status != 0:
        sys.exit(answer)


if __name__ == "__main__":
    main(sys.argv[1])
