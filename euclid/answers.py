"""The answers of `elements check`, as values."""

from __future__ import annotations

from dataclasses import dataclass, field

from .program import MEGABYTES, SECONDS, Missing, run


@dataclass
class Answer:
    """What `elements check` said of a text, and the derivation that it wrote."""

    kind: str  # accepted, unlicensed, too-wide, fault
    count: int = 0  # of theorems accepted
    title: str = ""
    step: int = 0
    wanted: str = ""  # a literal, `match` or `contradiction`
    values: list[tuple[str, int]] = field(default_factory=list)
    line: int = 0
    fault: str = ""
    derivation: str = ""  # the text as it was written, with its last lines

    def is_accepted(self) -> bool:
        """Whether the whole text is accepted."""
        return self.kind == "accepted"

    def blocks(self) -> str:
        """The blocks of the accepted theorems, as a whole derivation text."""
        lines = self.derivation.split("\n")
        ends = [at for at, line in enumerate(lines) if line == "end"]
        front = lines[: ends[-1] + 1] if ends else lines[:1]
        return "\n".join([*front, f"accepted {len(ends)}", ""])


def check(text: str, seconds: float = SECONDS, megabytes: int = MEGABYTES) -> Answer:
    """The answer of `elements check` to a text."""
    output = run(["check"], text, seconds, megabytes).output
    return answer_of(output)


def answer_of(output: str) -> Answer:
    """The answer that the last lines of an output are."""
    lines = output.split("\n")
    if lines and lines[-1] == "":
        lines.pop()
    at = len(lines) - 1
    while at > 0 and lines[at].startswith("| "):
        at -= 1
    # certificates begin with a bar too, but they come before a line `end`
    words = lines[at].split() if lines else []
    tail = lines[at + 1 :]
    if words[:1] == ["accepted"] and len(words) == 2:
        return Answer("accepted", count=int(words[1]), derivation=output)
    if words[:1] in (["unlicensed"], ["too-wide"]) and len(words) >= 3:
        answer = Answer(words[0], title=words[1], step=int(words[2]), derivation=output)
        for line in tail:
            _, word, *rest = line.split()
            if word == "wanted":
                answer.wanted = " ".join(rest)
            elif word == "value":
                answer.values.append((" ".join(rest[:-1]), int(rest[-1])))
        return answer
    if words[:1] == ["fault"] and len(words) >= 3:
        return Answer("fault", line=int(words[1]), fault=" ".join(words[2:]), derivation=output)
    last = lines[-1] if lines else ""
    raise Missing(f"`elements check` answered what is not understood: {last[:80]!r}")
