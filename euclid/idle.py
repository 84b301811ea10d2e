"""Steps that nothing needs: those that `elements trim` leaves out, and those without which a proof is accepted."""

from __future__ import annotations

from collections.abc import Iterable, Iterator

from .answers import check
from .checking import uses_of
from .derivation import Derivation, Part, read_derivation
from .program import Missing, run
from .reading import STEPS
from .script import CLOSES, Block, Book, Step, Theorem
from .syntax import SourceLine


def text_of(parts: Iterable[Part]) -> str:
    """Blocks as a whole derivation text of version 1."""
    found, count = ["derivation 1"], 0
    for part in parts:
        count += 1
        number = 0
        for line in part.lines:
            found.append(line.text)
            if line.words[0] in STEPS:
                number += 1
                found += [each.text for each in part.below.get(number, [])]
    return "\n".join([*found, f"accepted {count}", ""])


def trimmed(parts: list[Part]) -> dict[str, set[int]]:
    """Of each theorem the numbers of the steps that `elements trim` leaves out."""
    text = text_of(parts)
    said = run(["trim"], text)
    if said.lines()[-1:] != [f"accepted {len(parts)}"]:
        raise Missing(f"`elements trim` answered {said.output.rstrip().rsplit(chr(10), 1)[-1]!r}")
    before, after = read_derivation(text), read_derivation(said.output)
    proofs = proofs_of(after)
    return {title: set(left_out(proof, proofs[title])) for title, proof in proofs_of(before).items()}


def proofs_of(derivation: Derivation) -> dict[str, Block]:
    """The proof of each theorem of a derivation text."""
    return {theorem.title: theorem.proof for theorem in derivation.book().theorems()}


def left_out(whole: Block, less: Block) -> list[int]:
    """The numbers of the steps of a block that another does not have, which has the others in order."""
    found = aligned(whole, less)
    if found is None:
        raise Missing("`elements trim` answered steps that are not those of the proof")
    return found


def aligned(whole: Block, less: Block) -> list[int] | None:
    """The same, or none where the other has a step more."""
    gone: list[int] = []
    waiting = list(less.steps)
    for step in whole.steps:
        inside = inside_of(step, waiting[0]) if waiting else None
        if inside is None:
            gone += numbers_in(step)
        else:
            gone += inside
            waiting.pop(0)
    return None if waiting else gone


def inside_of(step: Step, other: Step) -> list[int] | None:
    """What is left out inside a step, where the other is the same step; none where it is another."""
    if step.line.words != other.line.words:
        return None
    gone: list[int] = []
    for one, two in zip(step.blocks(), other.blocks()):
        found = aligned(one, two)
        if found is None:
            return None
        gone += found
    return gone


def numbers_in(step: Step) -> list[int]:
    """The numbers of a step and of all that are inside it."""
    return [step.number, *(each.number for block in step.blocks() for each in block.all_steps())]


# ---- what is left out in a book


def outermost(block: Block, gone: set[int]) -> Iterator[Step]:
    """The steps that are left out and are not inside another one that is."""
    for step in block.steps:
        if step.number in gone:
            yield step
        else:
            for inner in step.blocks():
                yield from outermost(inner, gone)


def lines_without(theorem: Theorem, gone: set[int]) -> list[SourceLine]:
    """The lines of a theorem without those of the steps that are left out."""
    numbers = gone_lines(theorem, gone)
    return [line for line in theorem.lines if line.number not in numbers]


def gone_lines(theorem: Theorem, gone: set[int]) -> set[int]:
    """The numbers of the lines that go with the steps that are left out."""
    found: set[int] = set()
    for step in outermost(theorem.proof, gone):
        last = max(each.line.number for each in all_in(step))
        found |= {line.number for line in theorem.lines if step.line.number <= line.number <= last}
    return found


def all_in(step: Step) -> Iterator[Step]:
    """A step and all that are inside it."""
    yield step
    for block in step.blocks():
        yield from block.all_steps()


class Minimizer:
    """Leaves out one step after the other, from the last on, as long as the theorem is accepted."""

    def __init__(self, book: Book) -> None:
        self.items = book.items
        self.uses = uses_of(self.items)

    def before(self, theorem: Theorem) -> list[str]:
        """The lines of all that the theorem uses, and what these use."""
        place = next(at for at, item in enumerate(self.items) if item is theorem)
        wanted = {place}
        for at in range(place, -1, -1):
            if at in wanted:
                wanted |= set(self.uses[at])
        return [line.text for at in sorted(wanted - {place}) for line in self.items[at].lines if not line.is_skipped()]

    def minimized(self, theorem: Theorem, gone: set[int]) -> set[int]:
        """The steps without which it is accepted, these among them."""
        before = self.before(theorem)
        for step in reversed(theorem.steps()):
            if step.number in gone or isinstance(step, CLOSES):
                continue
            less = gone | set(numbers_in(step))
            lines = [line.text for line in lines_without(theorem, less)]
            if check("\n".join([*before, *lines, ""])).is_accepted():
                gone = less
        return gone
