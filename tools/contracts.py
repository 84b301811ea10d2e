#!/usr/bin/env python3
"""Makes docs/proved.md and docs/refusals.md from the comments and the contracts of the crates.

    python3 tools/contracts.py             compares, and says which page differs
    python3 tools/contracts.py --write     writes both pages

docs/proved.md has each function that a crate hands on, with its comment and the names of its clauses. docs/refusals.md
has those that can answer no: what they answer, the clauses that say when, and the clauses that say what is left of what
they were lent to change. tools/lint.py compares both pages with what is made here.
"""

import re
import sys
import textwrap
from dataclasses import dataclass, field
from pathlib import Path

TOP = Path(__file__).resolve().parent.parent
COLUMNS = 100
GROUPS = {
    "Bytes and words": "e_io e_text",
    "The language of E": "e_literal e_clause e_figure e_plane e_construct e_facts e_theorem e_deriv",
    "Deciding and proving": "e_fraction e_simplex e_metric e_transfer e_licence e_suggest e_prove",
    "Reading and writing": "e_line e_names e_book e_spell e_drawing e_cert e_read",
    "Checking": "e_verify e_trim e_judgement e_places e_roundtrip",
    "The program": "e_generate e_commands e_run elements",
}
# Crates that are rows, tests and measures: programs without contracts.
UNPROVED = "Tests and measures"

PROVED = """# What is proved, crate by crate

Made by `tools/contracts.py` from the comments and contracts in the crates. For each function that a
crate hands on to others it has the comment and, in parentheses, the names of the clauses of the
contract; a function with one clause without a name meets that one. A function without a body is a
*law*: its contract is the statement.

Every function, public or not, meets its contract. Where it is called with its conditions met it
does not abort or overflow, and it terminates if the operating system's calls do. An allocation may
be refused, and the stack may run out. The claim on the program is the contract of `run`, which
[claims.md](claims.md) takes apart; [refusals.md](refusals.md) has when each call refuses, and what
is left after it.
"""

REFUSALS = """# What is left after a refusal

Made by `tools/contracts.py`. For reviewers: each function that a crate hands on and that can answer
no, by an `Err`, by `None`, or by a variant of its answer; the clauses that say when; and, where
something is lent to be changed, the clauses that say what is left of it. Behind the name of a
clause are the definitions that it uses. *Equation* is a clause `result ≡ ..`: the answer is exactly
that value. A call that answers a Boolean is not here: its clause is one equation.
[proved.md](proved.md) has in words what each call does, and
[answers.md](answers.md#what-was-written) what the program wrote before each answer.

## What holds of all

- What is lent by `&` cannot change while it is lent, so no clause has to say that it is as before.
- What is handed over by value is used up, also where the call is refused.
- **Out of memory** is the error `AllocError`, or the variant `NoMemory` of a call's own errors. It
  may come from each call that allocates, and no clause restricts it. Where a clause says *exactly*,
  out of memory is the exception.
- After a fault the lines that `next_item`, `Reading::read` or `read` was lent are not used again.
- Where a definition of a clause is `Gives`, `Moves`, `Reads` or `Writes`, the fault is exactly the
  one that the grammar gives.

## What no clause says

- **What the buffer holds after a failed read.** That of `MemSource` is as before; a reader of std
  promises nothing of it, so neither can `Source::read`. `run` looks at no byte of it.
- **What is left when memory runs out** in what the calls of `e_line`, `put_names`, `put_lits` of
  `e_names` and `Pending::after_cert_line` were to write to, and in the theorems that `keep` of
  `e_judgement` was lent. Their callers are refused themselves then, and drop what they had lent.
- **Where `Words` is after a fault of a line**: the line is refused, and read no further.
- **When** `MetricFacts::certificate_by_kind` answers none; what it answers certifies: `cert`.
"""


@dataclass
class Clause:
    """One `ensures` of a contract."""

    name: str
    text: str


@dataclass
class Call:
    """A function with its comment, its signature and its clauses."""

    name: str
    owner: str
    module: str
    comment: str
    head: str
    clauses: list[Clause] = field(default_factory=list)
    of_trait: bool = False
    is_law: bool = False

    @property
    def title(self):
        return f"{self.owner}::{self.name}" if self.owner else self.name

    @property
    def answer(self):
        return self.head.partition("->")[2].strip()

    @property
    def lent(self):
        """The parameters that are lent to be changed."""
        names = re.findall(r"(\w+): &(?:'\w+ )?mut\b", self.head)
        return names + ["self"] * bool(re.search(r"&(?:'\w+ )?mut self", self.head))


def closing(text, start):
    """The place of the brace that closes the one at `start`."""
    depth = 0
    for place in range(start, len(text)):
        depth += (text[place] == "{") - (text[place] == "}")
        if depth == 0:
            return place
    return len(text)


def clauses_of(text):
    """The clauses `ensures` that follow a signature."""
    text = re.sub(r"\n\s*//[^\n]*", "", text)
    found, place = [], 0
    while match := re.compile(r"\s*(requires|ensures)\s*(\w*)\s*\{").match(text, place):
        end = closing(text, match.end() - 1)
        if match.group(1) == "ensures":
            found.append(Clause(match.group(2), " ".join(text[match.end() : end].split())))
        place = end + 1
    return found


def calls_of(path):
    """The functions of a module: those that stand alone, and those of its types and traits."""
    text = path.read_text(encoding="utf-8")
    owner, of_trait, comment, found, place = "", False, [], [], 0
    for line in text.split("\n"):
        here, place = place, place + len(line) + 1
        if match := re.match(r"(?:pub )?(impl|trait)\b(?:<[^{]*?>)? ?(.*)", line):
            words = re.sub(r"<[^<>]*>", "", re.sub(r"<[^<>]*>", "", match.group(2)))
            owner = re.sub(r".*\bfor ", "", words).strip(" {").split(":")[0].split("{")[0].split(" ")[0]
            of_trait = match.group(1) == "trait" or " for " in words
        elif line.startswith("}"):
            owner, of_trait = "", False
        if match := re.match(r"(    )?(?:pub )?fn (\w+)", line):
            if bool(match.group(1)) == bool(owner) and ("pub fn" in line or of_trait):
                end = re.compile(r"\n\s*(?=requires|ensures|\{)|\{|;").search(text, here).start()
                call = Call(match.group(2), owner, path.stem, " ".join(comment), " ".join(text[here:end].split()))
                call.clauses, call.of_trait = clauses_of(text[end:]), of_trait
                call.is_law = "->" not in call.head and "mut" not in call.head and bool(call.clauses)
                found.append(call)
        if match := re.match(r"\s*///( ?)(.*)", line):
            comment.append(match.group(2) or "\n")
        elif not line.strip().startswith("#["):
            comment = []
    return found


def handed_on(top, crate):
    """The names that a crate hands on, with the module or crate that each is from."""
    root = top / "crates" / crate / "src/lib.rt"
    text = root.read_text(encoding="utf-8") if root.exists() else ""
    names = []
    for source, inside in re.findall(r"^pub use ([\w:]+)::(\{[^}]*\}|\w+);", text, re.M):
        names += [(name, source) for name in re.findall(r"\w+", inside)]
    return names


def head_of(top, crate):
    """The comment at the head of a crate."""
    root = next(path for name in ("lib.rt", "main.rt") if (path := top / "crates" / crate / "src" / name).exists())
    lines = []
    for line in root.read_text(encoding="utf-8").split("\n"):
        if not line.startswith("//"):
            break
        lines.append(re.sub(r"//!? ?", "", line))
    return "\n".join(lines).strip()


def public_calls(top, crate):
    """What a crate hands on: its functions in the order in which it lists them, and the names of other crates."""
    calls = [call for path in sorted((top / "crates" / crate / "src").glob("*.rt")) for call in calls_of(path)]
    found, others = [], []
    for name, source in handed_on(top, crate):
        if source.split("::")[0] in {path.name for path in (top / "crates").iterdir()}:
            others.append((name, source.split("::")[0]))
        elif name[0].islower():
            found += [call for call in calls if call.title == name and call.module == source]
        else:
            found += [call for call in calls if call.owner == name and (call.clauses or call.comment)]
    return found, others


def plain(comment):
    """A comment without the links of the toolchain's own pages."""
    text = re.sub(r"\[(`[^`]*`)\](?!\()", r"\1", comment)
    return " ".join(text.split())


def wrapped(text, indent="  "):
    return textwrap.fill(
        text, COLUMNS, subsequent_indent=indent, break_long_words=False, break_on_hyphens=False
    )


def proved_crate(top, crate):
    calls, others = public_calls(top, crate)
    blocks = [f"### `{crate}`", *(wrapped(plain(part), "") for part in head_of(top, crate).split("\n\n"))]
    items = []
    for call in calls:
        names = ", ".join(f"`{clause.name}`" for clause in call.clauses if clause.name)
        said = plain(call.comment) or "as its trait says."
        items.append(wrapped(f"- {'Law ' if call.is_law else ''}`{call.title}`{f' ({names})' if names else ''}: {said}"))
    for name, other in others:
        items.append(f"- `{name}`: handed on from `{other}`.")
    return "\n\n".join([*blocks, "\n".join(items)] if items else blocks)


def enums_of(top):
    """The variants of each public choice of answers."""
    found = {}
    for path in sorted(top.glob("crates/*/src/*.rt")):
        text = path.read_text(encoding="utf-8")
        for match in re.finditer(r"^pub enum (\w+)[^{]*\{\n(.*?)^\}", text, re.M | re.S):
            found[match.group(1)] = re.findall(r"^    ([A-Z]\w*)", match.group(2), re.M)
    return found


def refusals_of(answer, enums):
    """What a call may answer instead of what it is asked for, by the type of its answer."""
    said = []
    for name in dict.fromkeys(re.findall(r"\w+", answer)):
        if name == "Option":
            said.append("none")
        elif name in ("Failed", "Wide"):
            said.append(f"`{name}`")
        elif name in ("LineError", "BookFault"):
            said.append("a fault of a line")
        elif name == "Status":
            said.append("an [answer](answers.md#the-last-lines) other than success")
        elif name in ANSWERS:
            said += [f"`{variant}`" for variant in enums[name] if variant not in NOT_REFUSED]
    return ", ".join(dict.fromkeys(said))


# Variants that are no refusal.
NOT_REFUSED = set("Yes Found Added SolvedRows Theorem Verified NoMemory".split())
# Choices of answers, by their variants.
ANSWERS = set(
    """Added Filled FirstChoices Found InstanceFault Judgement LawFault Licensed LineFault Metric NextItem
    Prepared Refuted Reject Stop TextFault UseFault Verdict""".split()
)


def uses(clause):
    """A clause as a cell names it: what is as before, what is an equation, or the definitions that it uses."""
    before = re.fullmatch(r"(OnErr result )?\(?(\w+)\.new((?:\.\w+)*) ≡ \2\.old\3\)?", clause.text)
    if before:
        return f"`{clause.name}`: as before" if clause.name else "as before"
    defined = dict.fromkeys(re.findall(r"(?<![\w.])(?:\w+\.)*([A-Z][a-z]+(?:[A-Z][a-z]*)*)\b", clause.text))
    names = [name for name in defined if name not in USUAL]
    if re.match(r"\(?result(\.new)?\)? ≡", clause.text):
        return f"`{clause.name}`: equation" if clause.name else "equation"
    inside = ", ".join(f"`{name}`" for name in names)
    return f"`{clause.name}`{f' ({inside})' if inside else ''}" if clause.name else inside or "one clause"


USUAL = set("IfOk OnOk OnErr IfErr IfSome IfNone IsTrue Ok Err Some None Model Value List Option Result Unit".split())


def refusal_row(call, enums):
    """The cells of a call that can answer no, after its name, or none."""
    refused = refusals_of(call.answer, enums)
    of_refusal = [clause for clause in call.clauses if not re.match(r"(IfOk|OnOk|IfSome) result", clause.text)]
    if refusals_of(call.answer.removeprefix("Result<").rpartition(", ")[0] or call.answer, enums):
        of_refusal = call.clauses  # what is answered besides an `Err` may be a refusal too
    when = [clause for clause in of_refusal if re.search(r"\bresult\b", clause.text)] if refused else []
    changed = [clause for clause in of_refusal if any(re.search(rf"\b{name}\.new\b", clause.text) for name in call.lent)]
    left = "; ".join(f"`{clause.name}`" if clause in when and clause.name else uses(clause) for clause in changed)
    when = "; ".join(map(uses, when))
    if not refused and not (call.lent and "AllocError" in call.answer):
        return None
    if call.lent and not left:
        left = "no clause says"
    return f"| {refused or 'memory alone'} | {when} | {left} |"


def refusals_crate(top, crate, enums):
    calls, _ = public_calls(top, crate)
    cells = {}
    for call in calls:
        if row := refusal_row(call, enums):
            cells.setdefault(row, {})[f"`{call.title}`"] = None
    rows = [f"| {', '.join(names)} {row}" for row, names in cells.items()]
    memory = [f"`{call.title}`" for call in calls if "AllocError" in call.answer and refusal_row(call, enums) is None]
    blocks = []
    if rows:
        blocks.append("\n".join(["| Call | Answers | When | What is left |", "|---|---|---|---|", *rows]))
    if memory:
        blocks.append(wrapped(f"Refused only when memory runs out: {', '.join(dict.fromkeys(memory))}.", ""))
    return "\n\n".join([f"## `{crate}`", *blocks]) if blocks else ""


def pages(top):
    """Both pages, by their paths."""
    listed = re.findall(r"^(\w+):", (top / "crates.txt").read_text(encoding="utf-8"), re.M)
    groups = {title: names.split() for title, names in GROUPS.items()}
    grouped = {name for names in groups.values() for name in names}
    groups[UNPROVED] = [name for name in listed if name not in grouped]
    enums = enums_of(top)
    proved, refusals = [PROVED.strip()], [REFUSALS.strip()]
    for title, names in groups.items():
        proved.append(f"## {title}")
        proved += [proved_crate(top, name) for name in names if name in listed]
        refusals += [made for name in names if name in listed and (made := refusals_crate(top, name, enums))]
    return {"docs/proved.md": "\n\n".join(proved) + "\n", "docs/refusals.md": "\n\n".join(refusals) + "\n"}


def main():
    differs = 0
    for path, made in pages(TOP).items():
        page = TOP / path
        if not page.exists() or page.read_text(encoding="utf-8") != made:
            differs += 1
            if "--write" in sys.argv[1:]:
                page.write_text(made, encoding="utf-8")
            print(f"{path}: {'written' if '--write' in sys.argv[1:] else 'not what the contracts make'}")
    return 1 if differs and "--write" not in sys.argv[1:] else 0


if __name__ == "__main__":
    sys.exit(main())
