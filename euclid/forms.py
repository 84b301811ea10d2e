"""The forms of lines with many words: `by`, `let`, `apply`, `superpose`, and lists of literals."""

from __future__ import annotations

from .literals import Diagram, Literal, Sort, Sorts, parse_literal, renamed
from .rules import LETTERS, Construction, tables
from .statements import Known, Objects
from .syntax import Fault, FaultKind, count_of, is_name, malformed, split_at


def literals_in(words: list[str], start: int, sorts: Sorts, known: Known) -> list[Literal]:
    """The literals of a line from a word on, items of definitions written out."""
    found: list[Literal] = []
    for at, part in split_at(words[start:], ";"):
        try:
            found += item_in(part, sorts, known) if part[:1] == ["as"] else [parse_literal(part, sorts)]
        except Fault as fault:
            raise fault.moved(start + at) from None
    return found


def item_in(words: list[str], sorts: Sorts, known: Known) -> list[Literal]:
    """What an item `as TITLE NAMES` means."""
    if len(words) < 2:
        raise malformed("after `as` come the title of a definition and names", len(words))
    if words[1] not in known.definitions:
        raise Fault(FaultKind.UNKNOWN_NAME, f"no earlier definition has the title `{words[1]}`", 1)
    meant = known.definitions[words[1]]
    names = words[2:]
    if len(names) != len(meant.declared):
        letters = " ".join(name for name, _ in meant.declared)
        raise malformed(f"`{words[1]}` takes {count_of(len(meant.declared), 'name')} ({letters}), not {len(names)}", 1)
    for at, (name, (_, sort)) in enumerate(zip(names, meant.declared), 2):
        check_object(name, sort, sorts, at)
    given = {old: new for (old, _), new in zip(meant.declared, names)}
    return [renamed(literal, given) for literal in meant.shown]


def check_object(name: str, sort: Sort, sorts: Sorts, at: int) -> None:
    """That a name is of an object in scope of this sort."""
    if not is_name(name):
        raise malformed(f"`{name}` is no name", at)
    if name not in sorts:
        raise Fault(FaultKind.UNKNOWN_NAME, f"no object named `{name}` is in scope", at)
    if sorts[name] != sort:
        raise Fault(FaultKind.WRONG_SORT, f"`{name}` is a {sorts[name].value}, and a {sort.value} belongs here", at)


def new_objects(words: list[str], start: int, wanted: list[Sort], sorts: Sorts) -> Objects:
    """New objects with the names from a word on."""
    names = words[start : start + len(wanted)]
    for at, name in enumerate(names, start):
        if not is_name(name):
            raise malformed(f"`{name}` is no name", at)
        if name in sorts or name in words[start:at]:
            raise Fault(FaultKind.NAME_TAKEN, f"the name `{name}` is taken", at)
    return list(zip(names, wanted))


def parse_by(words: list[str], sorts: Sorts) -> tuple[str, list[str], Literal]:
    """`by RULE NAMES : LITERAL`: the rule, its names, the literal."""
    if words.count(":") != 1:
        raise malformed("`by RULE NAMES : LITERAL` has one colon, with blanks around it", len(words))
    at = words.index(":")
    name, names = (words[1] if at > 1 else ""), words[2:at]
    rule = tables().diagram.get(name)
    if rule is None:
        transfer = name in tables().transfer
        said = "is a transfer rule, which `hence` finds by itself" if transfer else "is no rule"
        raise Fault(FaultKind.UNKNOWN_NAME, f"`{name}` {said}", min(1, len(words) - 1))
    if len(names) != len(rule.variables):
        raise malformed(f"`{name}` takes {count_of(len(rule.variables), 'name')} ({' '.join(rule.variables)}), "
                        f"not {len(names)}", 1)
    for place, (each, sort) in enumerate(zip(names, rule.sorts), 2):
        check_object(each, sort, sorts, place)
    try:
        literal = parse_literal(words[at + 1 :], sorts)
    except Fault as fault:
        raise fault.moved(at + 1) from None
    if not isinstance(literal, Diagram):
        raise malformed("`by` gives a literal of the diagram; `hence` gives one of magnitudes", at + 1)
    return name, names, literal


LetParts = tuple[Construction, dict[str, str], Objects, Objects]


def parse_let(words: list[str], sorts: Sorts) -> LetParts:
    """The construction of a `let` line, its letters' objects, its new objects, the avoided ones."""
    body, avoided = words, []
    if "avoid" in words:
        place = words.index("avoid")
        body, avoided = words[:place], words[place + 1 :]
        if not avoided:
            raise malformed("after `avoid` comes at least one name", place + 1)
    fitting = [each for each in tables().constructions if fits_words(each, body)]
    if "avoid" in words:
        fitting = [each for each in fitting if each.takes_avoid]
    if not fitting:
        raise malformed(f"no construction has this form: there are {', '.join(near_forms(body))} and others", 1)
    return fit(fitting, words, body, avoided, sorts)


def near_forms(words: list[str]) -> list[str]:
    """The forms of `let` that have most of the words of a line, of these the ones of about its length; else plain ones."""
    def shared(construction: Construction) -> int:
        return sum(len(word) > 1 and word in words for word in construction.pattern)

    all_of_them = tables().constructions
    most = max(map(shared, all_of_them))
    if most == 0:
        return ["`let p on L`", "`let L line a b`", "`let A circle a b`", "`let p meet L M`"]
    found = [each for each in all_of_them if shared(each) == most]
    found.sort(key=lambda each: abs(len(each.new) + len(each.pattern) + 1 - len(words)))
    return [f"`{each.line}`" for each in found[:3]]


def fits_words(construction: Construction, words: list[str]) -> bool:
    """Whether a line has the words of a construction, whatever its names are of."""
    pattern = ("let", *construction.new, *construction.pattern)
    return len(pattern) == len(words) and all(
        word == wanted or (len(wanted) == 1 and is_name(word)) for word, wanted in zip(words, pattern))


def fit(fitting: list[Construction], words: list[str], body: list[str], avoided: list[str], sorts: Sorts) -> LetParts:
    """The construction, of those with the same words, whose arguments have the right sorts."""
    count = len(fitting[0].new)
    new_names = new_objects(body, 1, list(fitting[0].new_sorts), sorts)
    for at in range(count + 1, len(body)):
        wanted = [each.pattern[at - count - 1] for each in fitting]
        if len(wanted[0]) > 1:
            continue
        name = body[at]
        if name not in sorts:
            raise Fault(FaultKind.UNKNOWN_NAME, f"no object named `{name}` is in scope", at)
        left = [each for each, letter in zip(fitting, wanted) if LETTERS[letter] == sorts[name]]
        if not left:
            allowed = " or ".join(dict.fromkeys(f"a {LETTERS[letter].value}" for letter in wanted))
            raise Fault(FaultKind.WRONG_SORT, f"`{name}` is a {sorts[name].value}, and {allowed} belongs here", at)
        fitting = left
    found = fitting[0]
    names = [name for name, _ in new_names]
    letters = dict(zip(found.pattern, body[count + 1 :])) | dict(zip(found.new, names))
    letters = {letter: name for letter, name in letters.items() if len(letter) == 1}
    for at, name in enumerate(avoided, len(body) + 1):
        if name not in sorts:
            kind = FaultKind.UNKNOWN_NAME if is_name(name) else FaultKind.MALFORMED
            raise Fault(kind, f"no object named `{name}` is in scope", at)
    return found, letters, list(zip(names, found.new_sorts)), [(name, sorts[name]) for name in avoided]


def parse_apply(words: list[str], sorts: Sorts, known: Known) -> tuple[str, list[str], Objects]:
    """`apply TITLE ARGUMENTS as NAMES`: the title, the arguments, the new objects."""
    if len(words) < 2:
        raise malformed("after `apply` comes the title of an earlier theorem", 1)
    title = words[1]
    at = words.index("as") if "as" in words else len(words)
    arguments, names = words[2:at], words[at + 1 :]
    if title not in known.theorems:
        raise Fault(FaultKind.UNKNOWN_NAME, f"no earlier theorem has the title `{title}`", 1)
    used = known.theorems[title]
    if len(arguments) != len(used.declared):
        letters = " ".join(name for name, _ in used.declared)
        raise malformed(f"`{title}` takes {count_of(len(used.declared), 'argument')} ({letters}), not {len(arguments)}", 1)
    if len(names) != len(used.made) or (at < len(words)) != bool(used.made):
        wanted = f"makes {len(used.made)} objects, named after `as`" if used.made else "makes nothing, so there is no `as`"
        raise malformed(f"`{title}` {wanted}", min(at, len(words) - 1))
    for place, (name, (_, sort)) in enumerate(zip(arguments, used.declared), 2):
        if name != "_":
            check_object(name, sort, sorts, place)
    return title, arguments, new_objects(words, at + 1, [sort for _, sort in used.made], sorts)


def parse_superpose(words: list[str], sorts: Sorts, known: Known) -> tuple[dict[str, str], Objects, list[Literal]]:
    """`superpose ..`: the objects of its letters, the copies, the literals that its block shows."""
    shape = tables().superposition
    assert shape is not None
    pattern = ["superpose", *shape.pattern, "as", *shape.new, "show"]
    if len(words) <= len(pattern) or any(
            len(wanted) > 1 and word != wanted for word, wanted in zip(words, pattern)):
        raise malformed("the line is `superpose a b c K onto d g h L as p q show LITERALS`", 0)
    letters: dict[str, str] = {}
    for at, wanted in enumerate(shape.pattern, 1):
        if len(wanted) == 1:
            check_object(words[at], LETTERS[wanted], sorts, at)
            letters[wanted] = words[at]
    place = pattern.index("as") + 1
    shown = literals_in(words, len(pattern), sorts, known)
    new = new_objects(words, place, list(shape.new_sorts), sorts)
    letters |= {letter: name for letter, (name, _) in zip(shape.new, new)}
    return letters, new, shown
