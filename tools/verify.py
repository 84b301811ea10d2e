#!/usr/bin/env python3
"""Verifies a derivation text, of version 1 or 2, independently of the program `elements`.

    python3 tools/verify.py < TEXT        or        python3 tools/verify.py FILE

It writes one line and ends with the exit status of `elements verify`:

    verified N         0    every certificate of the N theorems certifies
    bad TITLE STEP     1    the first step whose certificates do not certify
    garbled LINE       2    the first line of the text that has no form at its place

It is written from docs/derivation.md and docs/book.md, and takes the tables out of docs/rules.md.
It shares no code with the program, searches for nothing, and needs Python 3.10 or later.
"""

import re
import sys
from collections import namedtuple
from pathlib import Path

RULES = Path(__file__).resolve().parent.parent / "docs" / "rules.md"
POINT, LINE, CIRCLE = "plc"
SORTS = {"points": POINT, "lines": LINE, "circles": CIRCLE}
MOST_OBJECTS = {POINT: 40, LINE: 24, CIRCLE: 16}
MOST_THEOREMS, MOST_STEPS, MOST_DEPTH = 500, 1024, 32
MOST_FACTS, MOST_TERMS, MOST_MONOMIALS, MOST_COEFFICIENT = 2048, 1024, 32, 1_000_000
MOST_ROWS, MOST_MULTIPLIER, MOST_LINE_BYTES, MOST_PLACE = 4096, 2**80, 262_144, 2**32 - 1
RESERVED = """theorem points lines circles given made show proof end by hence let apply as claim
    superpose onto qed contradiction cases else not on inside center between meets seg ang area
    right point line circle side opposite of beyond from outside meet centers avoid define
    figure""".split()
NAME = re.compile(r"[A-Za-z][A-Za-z0-9_']{0,15}")
TITLE = re.compile(r"[A-Za-z][A-Za-z0-9._-]{0,23}")
NUMERAL = re.compile(r"[1-9][0-9]*")
RIGHT = ("right",)  # the term
WRONG_USE = None, {}  # of a row: it says nothing, of no form

class Malformed(Exception):
    """The line that was read last has no form at its place."""

def need(condition):
    if not condition:
        raise Malformed

class Literal(namedtuple("Literal", "positive word objects left right", defaults=[(), ()])):
    """One of diagrams, or of equal objects, has a tuple of objects. One of magnitudes has none, and
    two sums: tuples of monomials, which are pairs of a coefficient and a term, a tuple of words.
    `X <= Y` is held as the negation of `Y < X`."""
    def negation(self):
        return self._replace(positive=not self.positive)

    def is_metric(self):
        return not self.objects

    def terms(self):
        return [term for _, term in self.left + self.right]

    def difference(self, sign=1):
        """The left side less the right one, times the sign: a coefficient for each term."""
        form = {}
        for factor, side in ((sign, self.left), (-sign, self.right)):
            for coefficient, term in side:
                add(form, term, factor * coefficient)
        return form

    def key(self):
        """Two literals are the same where their keys are equal."""
        form = sorted(self.difference().items())
        if self.word == "=" and form and form[0][1] < 0:  # an equation has no direction
            form = sorted(self.difference(-1).items())
        return (self.positive, self.word, self.objects, tuple(form))

def renamed(part, names):
    """A literal, or a part of one, with other objects: no word of the language is a name."""
    if isinstance(part, tuple):
        parts = [renamed(item, names) for item in part]
        return Literal(*parts) if isinstance(part, Literal) else tuple(parts)
    return names.get(part, part) if isinstance(part, str) else part

def all_renamed(literals, names):
    return [renamed(literal, names) for literal in literals]

def add(form, term, coefficient):
    """Adds to a form, in which each term stands once, its points in one of their orders."""
    word, *points = term
    term = min(term, (word, *points[::-1])) if word == "ang" else (word, *sorted(points))
    form[term] = form.get(term, 0) + coefficient
    if form[term] == 0:
        del form[term]

def said(literal):
    """What a metric literal says of a form: it is 0, differs from 0, is at least 0, or more."""
    if literal is None or not literal.is_metric():
        return WRONG_USE
    if literal.word == "=":
        return "is" if literal.positive else "differs", literal.difference()
    if literal.positive:
        return "more", literal.difference(-1)
    return "at least", literal.difference()

# A scope is a dictionary from names to sorts.
OBJECTS = {"on": ("pl", "pc"), "inside": ("pc",), "center": ("pc",), "between": ("ppp",)}
OBJECTS |= {"same-side": ("ppl",), "meets": ("ll", "lc", "cc")}
TERMS = {"seg": (2, "segment"), "ang": (3, "angle"), "area": (3, "area"), "right": (0, "angle")}

def sorts_of(names, scope):
    need(all(name in scope for name in names))
    return "".join(scope[name] for name in names)

def split_at(words, mark):
    ends = [i for i, word in enumerate(words) if word == mark]
    return [words[i + 1 : j] for i, j in zip([-1, *ends], [*ends, len(words)])]

def literal_in(words, scope):
    """The literal that these words spell, in the one way that derivation texts have."""
    positive = words[:1] != ["not"]
    word, *rest = words[not positive :] or [""]
    if word in OBJECTS:
        need(sorts_of(rest, scope) in OBJECTS[word])
        return Literal(positive, word, tuple(rest))
    need(positive)  # an equality is negated by !=, and `X < Y` by `Y <= X`
    signs = [word for word in words if word in ("=", "!=", "<", "<=")]
    need(len(signs) == 1)
    left, right = split_at(words, signs[0])
    if word in scope:
        need(signs[0] in ("=", "!=") and len(left) == len(right) == 1)
        need(sorts_of(left + right, scope) in ("pp", "ll", "cc"))
        return Literal(signs[0] == "=", "=", (*left, *right))
    left, right = sum_in(left, scope), sum_in(right, scope)
    need(0 < len(left + right) <= MOST_MONOMIALS)
    need(len({TERMS[term[0]][1] for _, term in left + right}) == 1)  # terms of one kind
    if signs[0] == "<=":
        return Literal(False, "<", (), right, left)
    return Literal(signs[0] != "!=", signs[0].strip("!"), (), left, right)

def sum_in(words, scope):
    monomials = []
    for part in [] if words == ["0"] else split_at(words, "+"):
        coefficient = 1
        if part and NUMERAL.fullmatch(part[0]):
            coefficient = number_in(part.pop(0), MOST_COEFFICIENT)
            need(coefficient != 1)
        monomials.append((coefficient, term_in(part, scope)))
    return tuple(monomials)

def term_in(words, scope):
    need(words and words[0] in TERMS and sorts_of(words[1:], scope) == POINT * TERMS[words[0]][0])
    return tuple(words)

def number_in(word, most):
    need(NUMERAL.fullmatch(word) and len(word) <= len(str(most)) and int(word) <= most)
    return int(word)

# A rule's clause has the negations of its premises, then its conclusions. A shape is that of a
# construction or of the superposition: letters for new objects, and the other words of its line. A
# statement has its objects as pairs of name and sort. What a block shows is a goal; `after()` is
# the context behind the block's last close.
Rule = namedtuple("Rule", "variables sorts clause")
Shape = namedtuple("Shape", "new words needs gives")
Statement = namedtuple("Statement", "declared given made shown")
Goal = namedtuple("Goal", "made shown after")

def sort_of_letter(letter):
    return POINT if letter.islower() else CIRCLE if letter in "ABC" else LINE

def quoted(cell):
    return [text.split() for text in re.findall(r"`([^`]*)`", cell)]

class Tables:
    def __init__(self):
        self.diagram, self.transfer, self.shapes = {}, {}, []
        for section in RULES.read_text(encoding="ascii").split("\n## "):
            for line in section.split("\n"):
                cells = line.strip("| ").split(" | ")
                if not line.startswith("| ") or "`" not in line:
                    continue
                if section.startswith("Clauses of diagrams"):
                    self.add_rule(self.diagram, cells)
                elif section.startswith("Transfer rules"):
                    self.add_rule(self.transfer, cells)
                elif section.startswith("Constructions"):
                    self.shapes.append(self.shape(*cells[2:5]))
                elif section.startswith("Superposition"):
                    self.superpose = self.shape(cells[0], cells[1], cells[2].split(";")[1])
        assert (len(self.diagram), len(self.transfer), len(self.shapes)) == (76, 29, 20)

    def literals(self, cell):
        scope = {letter: sort_of_letter(letter) for letter in "abcdefghpqKLMNABC"}
        return [literal_in(words, scope) for words in quoted(cell)]

    def add_rule(self, table, cells):
        (name,), variables = quoted(cells[0] + cells[1])
        sorts = "".join(map(sort_of_letter, variables))
        clause = [premise.negation() for premise in self.literals(cells[2])]
        table[name] = Rule(variables, sorts, clause + self.literals(cells[3]))

    def shape(self, line, needs, gives):
        word, *words = quoted(line)[0]
        at = next(i for i, word in enumerate(words) if len(word) > 1)
        new, words = words[:at], words[at:]
        if word == "superpose":
            new, words = ["p", "q"], new + words[: words.index("as")]
        return Shape(new, words, self.literals(needs), self.literals(gives))

def fits(pattern, words, scope):
    """The object for each letter of the pattern, or None where the words are not of its kind."""
    kinds = [scope.get(word) if len(wanted) == 1 else word for wanted, word in zip(pattern, words)]
    wanted = [sort_of_letter(word) if len(word) == 1 else word for word in pattern]
    return dict(zip(pattern, words)) if kinds == wanted and len(pattern) == len(words) else None

class Context(namedtuple("Context", "scope facts terms fact_count term_count")):
    """The objects and the facts before a line, the terms of the facts, and what limits count. The
    facts are in order, each by its key."""
    def has(self, literal):
        return literal.key() in self.facts

    def with_all(self, objects, literals):
        """The context behind a line that brings these objects and these facts."""
        scope = dict(self.scope)
        for name, sort in objects:
            need(NAME.fullmatch(name) and name not in RESERVED and name not in scope)
            scope[name] = sort
        held = list(scope.values())
        need(all(held.count(sort) <= most for sort, most in MOST_OBJECTS.items()))
        facts, terms, term_count = dict(self.facts), set(self.terms), self.term_count
        for literal in literals:
            term_count += len(literal.terms())
            if literal.key() not in facts:  # else the fact stays as it was written first
                facts[literal.key()] = literal
                terms.update(literal.terms())
        fact_count = self.fact_count + len(literals)
        need(fact_count <= MOST_FACTS and term_count <= MOST_TERMS)
        return Context(scope, facts, terms, fact_count, term_count)

class Verifier:
    """A step gives the context behind it, a close that behind the block which it closes. The lines
    of certificates are read in any case, and what comes back is whether they certify."""
    def __init__(self, text, tables):
        self.tables = tables
        self.lines = text.split(b"\n")
        if self.lines.pop() != b"":
            self.lines.append(b"\n")  # a line that does not end with a line feed has no form
        self.number = 0  # of the line that was read last
        self.theorems = {}

    def peek(self):
        """The words of the next line, or one empty word where it has no form anywhere."""
        line = b"".join(self.lines[self.number : self.number + 1])
        words = line.decode("latin-1").split(" ")
        good = len(line) <= MOST_LINE_BYTES and not re.search(rb"[^ -~]", line)
        return words if good and "" not in words else [""]

    def take(self):
        words = self.peek()
        self.number += 1
        need(words != [""])
        return words

    def take_mark(self):
        bar, *words = self.take()
        need(bar == "|" and words)
        return words

    def judge(self, certified):
        if not certified and self.bad_step is None:
            self.bad_step = self.step

    def answer(self):
        """The answer to the text, and the exit status."""
        try:
            word, *version = self.take()
            need(word == "derivation" and version in (["1"], ["2"]))
            self.by_places = version == ["2"]
            while (words := self.take())[0] != "accepted":
                self.theorem(words)
                if self.bad_step is not None:
                    return f"bad {words[1]} {self.bad_step}", 1
            need(words[1:] == [str(len(self.theorems))])
            need(self.number == len(self.lines) or not self.take())  # nothing comes behind it
        except Malformed:
            return f"garbled {self.number}", 2
        return f"verified {len(self.theorems)}", 0

    def theorem(self, words):
        need(len(words) == 2 and words[0] == "theorem" and TITLE.fullmatch(words[1]))
        title = words[1]
        need(title not in self.theorems and len(self.theorems) < MOST_THEOREMS)
        self.step, self.bad_step = 0, None
        declared, context, words = self.objects([], Context({}, {}, set(), 0, 0))
        given, shown = [], []
        while words[0] == "given":
            given.append(literal_in(words[1:], context.scope))
            context = context.with_all([], given[-1:])
            words = self.take()
        made, inside, words = self.objects(["made"], context, words)
        while words[0] == "show":
            shown.append(literal_in(words[1:], inside.scope))
            words = self.take()
        need(shown and words == ["proof"])
        self.block(context, Goal(made, shown, lambda: None), 1)
        need(self.take() == ["end"])
        self.theorems[title] = Statement(declared, given, made, shown)

    def objects(self, front, context, words=None):
        """The objects that lines declare that begin with `front`, and the line behind them."""
        objects, before, words = [], None, words or self.take()
        while words[: len(front)] == front and (words[len(front) :] or [""])[0] in SORTS:
            sort, *names = words[len(front) :]
            need(names and sort != before)
            new, before = [(name, SORTS[sort]) for name in names], sort
            context = context.with_all(new, [])
            objects, words = objects + new, self.take()
        return objects, context, words

    def block(self, context, goal, depth):
        need(depth <= MOST_DEPTH)
        while True:
            word, *words = self.take()
            self.step += 1
            need(self.step <= MOST_STEPS)
            if word in ("by", "hence", "let", "apply"):
                context = getattr(self, word)(words, context)
            elif word in ("claim", "superpose"):
                context = getattr(self, word)(words, context, depth + 1)
            else:
                need(word in ("qed", "contradiction", "cases"))
                return getattr(self, word)(words, context, goal, depth + 1)

    def by(self, words, context):
        parts = split_at(words, ":")
        need(len(parts) == 2)
        literal = literal_in(parts[1], context.scope)
        need(not literal.is_metric())
        places = self.instance(self.tables.diagram, parts[0], context)
        after = context.with_all([], [literal])
        others = [place.negation() for place in places if place != literal]
        self.judge(literal in places and all(map(context.has, others)))
        return after

    def instance(self, table, words, context):
        """The literals of the clause of a rule, each at its place, at the names behind the rule."""
        need(words and words[0] in table)
        rule, names = table[words[0]], words[1:]
        need(sorts_of(names, context.scope) == rule.sorts)
        return all_renamed(rule.clause, dict(zip(rule.variables, names)))

    def hence(self, words, context):
        literal = literal_in(words, context.scope)
        after = context.with_all([], [literal])
        self.certificates([literal], context)
        return after

    def let(self, words, context):
        words, *avoided = split_at(words, "avoid")
        for number, shape in enumerate(self.tables.shapes, 1):
            names = fits(shape.words, words[len(shape.new) :], context.scope)
            if names is not None:
                break
        need(names is not None)
        names |= zip(shape.new, words)
        needs, gives = all_renamed(shape.needs, names), all_renamed(shape.gives, names)
        if avoided:
            need(number <= 9 and len(avoided) == 1 and avoided[0])
            for x, sort in zip(avoided[0], sorts_of(avoided[0], context.scope)):
                drawn_on = {2: "L", 3: "L", 4: "L", 7: "A"}.get(number, "p")
                if sort != POINT and sort == sort_of_letter(drawn_on):
                    needs.append(Literal(False, "=", (names[drawn_on], x)))
                gives.append(Literal(False, "=" if sort == POINT else "on", (words[0], x)))
        after = context.with_all(zip(words, map(sort_of_letter, shape.new)), gives)
        self.certificates(needs, context)
        return after

    def apply(self, words, context):
        need(words and words[0] in self.theorems)
        used = self.theorems[words[0]]
        arguments, *made = split_at(words[1:], "as")
        need(sorts_of(arguments, context.scope) == "".join(sort for _, sort in used.declared))
        need([len(new) for new in made] == ([len(used.made)] if used.made else []))
        names = {old: new for (old, _), new in zip(used.declared + used.made, sum(made, arguments))}
        objects = [(names[old], sort) for old, sort in used.made]
        after = context.with_all(objects, all_renamed(used.shown, names))
        self.certificates(all_renamed(used.given, names), context)
        return after

    def claim(self, words, context, depth):
        shown = [literal_in(part, context.scope) for part in split_at(words, ";")]
        return self.block(context, Goal([], shown, lambda: context.with_all([], shown)), depth)

    def superpose(self, words, context, depth):
        at = words.index("as") if "as" in words else 0
        names = fits(self.tables.superpose.words, words[:at], context.scope)
        need(names is not None and words[at + 3 : at + 4] == ["show"] and depth <= MOST_DEPTH)
        shape, copies = self.tables.superpose, words[at + 1 : at + 3]
        shown = [literal_in(part, context.scope) for part in split_at(words[at + 4 :], ";")]
        names |= zip(shape.new, copies)
        inside = context.with_all(zip(copies, 2 * POINT), all_renamed(shape.gives, names))
        self.certificates(all_renamed(shape.needs, names), context)
        return self.block(inside, Goal([], shown, lambda: context.with_all([], shown)), depth)

    def qed(self, words, context, goal, depth):
        need(sorts_of(words, context.scope) == "".join(sort for _, sort in goal.made))
        names = {name: word for (name, _), word in zip(goal.made, words)}
        after = goal.after()
        self.certificates(all_renamed(goal.shown, names), context)
        return after

    def contradiction(self, words, context, goal, depth):
        need(not words)
        after = goal.after()
        kind, *rest = self.take_mark()
        need(kind == "clash" or [kind, *rest] == ["metric"])
        literal = literal_in(rest, context.scope) if kind == "clash" else None
        need(literal is None or not literal.is_metric())
        clashes = literal and context.has(literal) and context.has(literal.negation())
        self.judge(clashes if literal else self.metric(None, context))
        return after

    def cases(self, words, context, goal, depth):
        literal = literal_in(words, context.scope)
        need(depth <= MOST_DEPTH)
        self.block(context.with_all([], [literal]), goal._replace(after=lambda: None), depth)
        need(self.take() == ["else"])
        return self.block(context.with_all([], [literal.negation()]), goal, depth)

    def certificates(self, wanted, context):
        for literal in wanted:
            self.judge(self.certificate(literal, context))

    def certificate(self, wanted, context, is_part=False):
        kind, *words = self.take_mark()
        if kind == "transfer" and not is_part:
            places = self.instance(self.tables.transfer, words, context)
            others = [place for place in places if place.key() != wanted.key()]
            parts = [self.certificate(place.negation(), context, True) for place in others]
            return all(parts) and len(others) < len(places)
        if kind == "fact" and self.by_places:
            fact = self.fact(words, context)
            return fact is not None and fact.key() == wanted.key()
        need(kind in ("fact", "metric") and not words)
        return self.metric(wanted, context) if kind == "metric" else context.has(wanted)

    def fact(self, words, context):
        """The fact at a place, counted from 0, or in version 1 the literal, if it is the same as a
        fact; else None."""
        if self.by_places:
            need(len(words) == 1)
            place = 0 if words == ["0"] else number_in(words[0], MOST_PLACE)
            return dict(enumerate(context.facts.values())).get(place)
        literal = literal_in(words, context.scope)
        return literal if context.has(literal) else None

    def metric(self, wanted, context):
        """One sum, or two below `differs`. Below `contradiction` nothing is wanted."""
        refuted = wanted.negation() if wanted and wanted.is_metric() else None
        may_follow = wanted is None or wanted.is_metric()
        kind, *words = self.take_mark()
        if kind == "sum" and not words:
            return self.sum(refuted, context, {}) and may_follow
        need(kind == "differs" and words and (words == ["goal"] or words[0] == "fact"))
        literal = refuted if words == ["goal"] else self.fact(words[1:], context)
        says, form = said(literal)
        negative = {term: -coefficient for term, coefficient in form.items()}
        usable = may_follow and says == "differs"
        for side in ({"above": ("more", form)}, {"below": ("more", negative)}):
            need(self.take() == ["|", "sum"])
            usable &= self.sum(refuted, context, side)
        return usable

    def sum(self, refuted, context, side):
        """Whether each row is used where it may be, and the sum of the rows is absurd."""
        total, usable, some_more, rows = {}, True, False, 0
        while rows == 0 or re.match(r"\| -?[0-9]", " ".join(self.peek())):
            number, *words = self.take_mark()
            rows += 1
            need(rows <= MOST_ROWS)
            multiplier = number_in(number.removeprefix("-"), MOST_MULTIPLIER)
            multiplier *= -1 if number[0] == "-" else 1
            says, form = self.row(words, refuted, context, side)
            usable &= says == "is" or says in ("more", "at least") and multiplier > 0
            some_more |= says == "more"
            for term, coefficient in form.items():
                if term[0] not in ("seg", "area") or len(set(term)) == len(term):  # else it is 0
                    add(total, term, coefficient * multiplier)
        return usable and some_more and not total

    def row(self, words, refuted, context, side):
        """What a row says, and of which form."""
        word, *rest = words or [""]
        if word in ("goal", "right", "above", "below") and not rest:
            alone = {"goal": said(refuted), "right": ("more", {RIGHT: 1})} | side
            return alone.get(word, WRONG_USE)
        if word == "fact":
            return said(self.fact(rest, context))
        need(word in ("pos", "top", "least"))
        term, form = term_in(rest, context.scope), {}
        add(form, term, -1 if word == "top" else 1)
        if term not in [*context.terms, *(refuted.terms() if refuted else []), RIGHT]:
            return WRONG_USE
        if word == "least":
            return "at least", form
        if word == "top" and term[0] == "ang":
            return "at least", form | {RIGHT: 2}
        apart = [Literal(False, "=", ends) for ends in (term[1:], term[:0:-1])]
        can_pos = word == "pos" and term[0] == "seg" and any(map(context.has, apart))
        return ("more", form) if can_pos else WRONG_USE

if __name__ == "__main__":
    try:
        source = open(sys.argv[1], "rb") if sys.argv[1:] else sys.stdin.buffer
        answer, status = Verifier(source.read(), Tables()).answer()
    except OSError:
        answer, status = "read fault", 4
    print(answer)
    sys.exit(status)
