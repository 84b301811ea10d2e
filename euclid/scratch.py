"""Tries lines before a step: scratch books for `elements check`, many lines to one book.

Each trial is a block of its own, so that what one brings is gone before the next.
"""

from __future__ import annotations

from dataclasses import dataclass, field

from .answers import Answer, check
from .derivation import read_derivation
from .rereading import titles_in
from .script import Apply, Block, Book, Cases, Claim, Item, Step, Superpose, Theorem
from .syntax import source_line

Trial = list[str]  # lines of a book
TITLE = "scratch._._"
NOTHING = "right = right"  # it is always allowed
MOST_STEPS = 300  # of trials in one scratch theorem
MOST_RUNS = 40


class Untried(Exception):
    """Nothing can be tried at this step: the message says why."""


@dataclass
class Scratch:
    """The place before a step of a theorem, at which lines can be tried."""

    book: Book
    theorem: Theorem
    number: int
    seconds: float = 20.0
    most_runs: int = MOST_RUNS
    left_out: set[str] = field(default_factory=set)  # earlier theorems that are refused, and what rests on them
    runs: int = 0

    def ready(self, trials: list[Trial]) -> list[bool]:
        """Of each trial whether `elements` accepts it before the step.

        Trials that are expected to be accepted cost one run; each that is not costs one more.
        """
        refused: set[int] = set()
        waiting = [number for number, trial in enumerate(trials) if trial]
        accepted: set[int] = set()
        while waiting:
            batch: list[int] = []
            steps = 0
            for number in waiting:
                steps += len(trials[number]) + 2
                if batch and steps > MOST_STEPS:
                    break
                batch.append(number)
            self.batch(trials, batch, refused)
            accepted |= set(batch) - refused
            waiting = waiting[len(batch) :]
        return [number in accepted for number in range(len(trials))]

    def filled(self) -> dict[int, list[str]]:
        """What fills the blanks of the `apply` steps before the step, by their numbers."""
        steps = [step for step in self.theorem.steps() if isinstance(step, Apply) and step.number < self.number]
        if not any("_" in step.arguments for step in steps):
            return {}
        while True:
            writer = Writer(self.theorem, self.number, [])
            before = self.before([])
            answer = check("\n".join([*before, *writer.lines, ""]), self.seconds)
            part = read_derivation(answer.derivation).parts.get(TITLE)
            if part is not None:
                return {writer.numbers[at - 1]: arguments for at, arguments in part.filled().items()}
            if not self.learn(answer, before):
                raise Untried(writer.cause(answer))

    def batch(self, trials: list[Trial], batch: list[int], refused: set[int]) -> None:
        """Runs some trials until all that are left are accepted."""
        while True:
            left = [number for number in batch if number not in refused and self.can_stand(trials[number])]
            refused |= set(batch) - set(left)
            if not left:
                return
            if self.runs >= self.most_runs:
                refused |= set(left)
                return
            writer = Writer(self.theorem, self.number, [trials[number] for number in left])
            before = self.before([trials[number] for number in left])
            self.runs += 1
            answer = check("\n".join([*before, *writer.lines, ""]), self.seconds)
            if answer.is_accepted():
                return
            if not self.learn(answer, before):
                refused.add(left[writer.trial_of(answer, len(before))])

    def can_stand(self, trial: Trial) -> bool:
        """Whether no line of a trial applies what was left out."""
        return not any(line.split()[:1] == ["apply"] and line.split()[1] in self.left_out for line in trial)

    def before(self, trials: list[Trial]) -> list[str]:
        """The lines of what the theorem and the trials rest on, without what was left out."""
        own = [source_line(0, line) for trial in trials for line in trial]
        wanted = set(titles_in([*self.theorem.lines, *own]))
        kept: list[Item] = []
        for item in reversed(self.earlier()):
            if item.title in wanted and item.title not in self.left_out and item.fault is None:
                kept.append(item)
                wanted.update(titles_in(item.lines))
        return [line.text for item in reversed(kept) for line in item.lines if not line.is_skipped()]

    def earlier(self) -> list[Item]:
        """The items before the theorem."""
        items = self.book.items
        return items[: next((at for at, each in enumerate(items) if each is self.theorem), len(items))]

    def learn(self, answer: Answer, before: list[str]) -> bool:
        """Leaves out an earlier theorem that is refused, with those that rest on it; whether there was one."""
        title = answer.title
        if answer.kind == "fault" and answer.line <= len(before):
            heads = [line.split()[1] for line in before[: answer.line] if line.split()[0] in ("theorem", "define")]
            title = heads[-1] if heads else ""
        elif answer.kind == "fault" or title == TITLE:
            return False
        self.left_out |= {title}
        for item in self.earlier():
            if applied_by(item) & self.left_out:
                self.left_out.add(item.title)
        return True


def applied_by(item: Item) -> set[str]:
    """The theorems that the steps of an item apply, as far as it was read."""
    if not isinstance(item, Theorem):
        return set()
    return {step.title for step in item.steps() if isinstance(step, Apply)}


class Writer:
    """The lines of a scratch theorem, with the number and the line of each step."""

    def __init__(self, theorem: Theorem, number: int, trials: list[Trial]) -> None:
        self.number, self.trials = number, trials
        self.lines: list[str] = [f"theorem {TITLE}"]
        self.step_lines: list[int] = []  # places in `lines`, for each step
        self.numbers: list[int] = []  # of the steps in the theorem; 0 where a step is not of it
        self.starts: list[int] = []  # where each trial begins in `lines`
        self.statement(theorem)
        if not self.block(theorem.proof):
            raise Untried(f"{theorem.title} has no step {number}")
        self.lines.append("end")

    def statement(self, theorem: Theorem) -> None:
        """What is declared and given, as it stands."""
        for line in theorem.lines:
            if line.number > theorem.head.number and not line.is_skipped():
                if line.words[0] not in ("points", "lines", "circles", "given"):
                    break
                self.lines.append(line.text)
        self.lines += [f"show {NOTHING}", "proof"]

    def put(self, line: str, number: int = 0) -> None:
        """A step."""
        self.step_lines.append(len(self.lines))
        self.numbers.append(number)
        self.lines.append(line)

    def block(self, block: Block) -> bool:
        """The steps of a block up to the place of the trials; whether it is in this block."""
        for step in block.steps:
            if step.number == self.number:
                self.try_all()
                self.put("qed")
                return True
            if any(self.holds(inner) for inner in step.blocks()):
                self.around(step)
                return True
            self.whole(step)
        return False

    def whole(self, step: Step) -> None:
        """A step with all that is inside it."""
        self.put(step.line.text, step.number)
        for at, block in enumerate(step.blocks()):
            if at:
                self.lines.append("else")
            for each in block.steps:
                self.whole(each)

    def around(self, step: Step) -> None:
        """A step with the place of the trials inside it: it shows nothing."""
        if isinstance(step, Claim):
            self.put(f"claim {NOTHING}")
        elif isinstance(step, Superpose):
            words = list(step.line.words)
            self.put(" ".join(words[: words.index("show") + 1]) + f" {NOTHING}")
        else:
            self.put(step.line.text)
        if not isinstance(step, Cases):
            self.block(step.blocks()[0])
            self.put("qed")
        elif self.holds(step.first):
            self.block(step.first)
            self.lines.append("else")
            self.put("qed")
        else:
            self.put("qed")
            self.lines.append("else")
            self.block(step.other)

    def holds(self, block: Block) -> bool:
        """Whether the place of the trials is in a block."""
        return any(each.number == self.number for each in block.all_steps())

    def try_all(self) -> None:
        """The trials, each in a block of its own."""
        for trial in self.trials:
            self.starts.append(len(self.lines))
            self.put(f"claim {NOTHING}")
            for line in trial:
                if line.split() == ["else"]:
                    self.lines.append(line)
                else:
                    self.put(line)
            self.put("qed")

    def trial_of(self, answer: Answer, before: int) -> int:
        """The number of the trial that an answer is about."""
        if answer.kind == "fault":
            at = answer.line - before - 1
        else:
            at = self.step_lines[answer.step - 1]
        inside = [number for number, start in enumerate(self.starts) if start <= at]
        last = self.starts[-1] + len(self.trials[-1]) + 1 if self.starts else 0
        if not inside or at > last:
            raise Untried(self.cause(answer))
        return inside[-1]

    def cause(self, answer: Answer) -> str:
        """Why nothing can be tried here, of an answer about what comes before the trials."""
        if answer.kind == "fault":
            return f"the scratch book has the fault `{answer.fault}`"
        return f"step {self.numbers[answer.step - 1]} before it is refused"
