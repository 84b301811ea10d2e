#!/usr/bin/env python3
"""The definitions that the claim on the program rests on.

    python3 tools/claim.py [TOP]           how many there are, clause by clause
    python3 tools/claim.py --text [TOP]    writes docs/claim-proofs.md and docs/claim-run.md

The claim is the contract of `run` in crates/e_run. Who believes it believes what its clauses cite: definitions of the
crates' specs/, those that these cite, and so on, down to the types of the program and to std. They come in reading
order: each file behind those that its definitions cite. A definition has its comment, its type and its clauses.

The sentence is the one that people rely on: the bytes written under Accepted, and a text that is verified, spell proofs
in E (clause proofs).

The pages are made by hand, and tools/lint.py compares them. Names are read off the text: a variable with the name of a
definition counts as a citation, so there may be a little too much, and there is never too little.
"""

import re
import sys
from pathlib import Path

RUN = "crates/e_run/src/runner.rt"
SENTENCE = ("proofs",)

USE = re.compile(r"^(?:unfoldable )?(?:pub )?(?:ghost )?use ([\w.'+]+?)(?:\.\{(.*)\}| as (\w+))?;?\s*$")
HEAD = re.compile(r"^(?:abbrev |unfoldable )?(?:pub )?(record |data )?([^\s:(]+)(?= |$)")
KEYWORDS = ("abbrev ", "unfoldable ", "pub ", "record ", "data ")
CONSTRUCTOR = re.compile(r"^\s+([^\s:]+) :")
NAME = re.compile(r"(?<![\w.)])[A-Za-z_][\w'-]*(?:\.[\w'-]+)*")


def names_of_use(line):
    """What a `use` line brings in: names, each with its module and its name there, and aliases of modules."""
    found = USE.match(line)
    if not found:
        return {}, {}
    module, names, alias = found.groups()
    if names is None:
        return {}, {alias or module.split(".")[-1]: module}
    pairs = [item.strip().split(" as ") for item in names.split(",") if item.strip()]
    return {pair[-1].strip(): (module, pair[0].strip()) for pair in pairs}, {}


class Module:
    """A file of definitions: what it uses, and the lines of each definition with its comment."""

    def __init__(self, path, top):
        self.path = path.relative_to(top / "crates")
        self.name = "Rattle." + str(self.path.with_suffix("")).replace("/", ".")
        self.uses, self.aliases, self.definitions, self.constructors = {}, {}, {}, {}
        self.lines = path.read_text(encoding="utf-8").rstrip("\n").split("\n")
        now, data, comment = None, False, []
        for line in self.lines:
            if USE.match(line) or line.startswith(("pub mod ", "infix", "mod ")):
                uses, aliases = names_of_use(line)
                self.uses.update(uses)
                self.aliases.update(aliases)
                now, comment = None, []
            elif line.startswith("--"):
                comment = [] if line.startswith("-- ----") else comment + [line]
                now = None if line.startswith("-- ----") else now
            elif not line.strip():
                now, comment = None, []
            elif line.startswith(KEYWORDS) and line[0] != " ":
                found = HEAD.match(line)
                now, data = found.group(2), found.group(1) == "data "
                self.definitions[now] = comment + [line]
                comment = []
            elif now:
                self.definitions[now] += comment + [line]
                comment = []
                found = data and CONSTRUCTOR.match(line)
                if found:
                    self.constructors[found.group(1)] = now
            elif line.split(" ")[0] in self.definitions:
                now = line.split(" ")[0]
                self.definitions[now] += comment + [line]
                comment = []


def modules_of(top):
    listed = [line.split(":")[0] for line in (top / "crates.txt").read_text().split("\n") if ":" in line]
    paths = [path for crate in listed for path in sorted((top / "crates" / crate / "specs").rglob("*.antt"))]
    return {module.name: module for module in (Module(path, top) for path in paths)}


def target(modules, module, name):
    """The definition that a name of a module is, where it is one of a specs/: through re-exports, and by constructors."""
    seen = set()
    while module in modules and module not in seen:
        seen.add(module)
        here = modules[module]
        if name in here.definitions:
            return module, name
        if name in here.constructors:
            return module, here.constructors[name]
        module, name = here.uses.get(name, (None, None))
    return None


def cited(modules, uses, aliases, module, text):
    """The definitions that a text names, where these are used and it stands in this module."""
    found = set()
    for token in NAME.findall(text):
        parts = token.split(".")
        if token.startswith("Rattle."):
            found.add(target(modules, ".".join(parts[:-1]), parts[-1]))
        elif parts[0] in aliases and len(parts) > 1:
            found.add(target(modules, aliases[parts[0]], parts[1]))
        elif parts[0] in uses:
            found.add(target(modules, *uses[parts[0]]))
        else:
            found.add(target(modules, module, parts[0]))
    own = modules[module].definitions if module in modules else {}
    for name, place in list(uses.items()) + [(name, (module, name)) for name in own]:
        signs = [sign for sign in name.split("◌") if sign]
        if "◌" in name and signs and all(sign in text for sign in signs):
            found.add(target(modules, *place))
    return found - {None}


def code_of(lines):
    """The lines without comments."""
    return "\n".join(line.split(" -- ")[0] for line in lines if not line.startswith("--"))


def closure(modules, roots):
    seen, left = set(), sorted(roots)
    while left:
        module, name = left.pop()
        if (module, name) not in seen:
            seen.add((module, name))
            here = modules[module]
            left += cited(modules, here.uses, here.aliases, module, code_of(here.definitions[name]))
    return seen


def clauses_of_run(top):
    """The clauses of the contract of `run`, by their names, and what the file uses."""
    text = (top / RUN).read_text(encoding="utf-8")
    uses = {}
    for line in text.split("\n"):
        uses.update(names_of_use(line)[0])
    contract = text[text.index("pub fn run<") :]
    contract = contract[: contract.index("\n{\n")]
    clauses = re.findall(r"^    (?:ensures|requires) (\w+ )?\{(.*?)\}$(?=\n    \S|\Z)", contract, re.M | re.S)
    return [(name.strip(), clause) for name, clause in clauses], uses


def in_order(modules, claim):
    """The files of the claim, each behind those that its definitions cite; else as crates.txt has them."""
    below = {module: set() for module, _ in claim}
    for module, name in claim:
        here = modules[module]
        for other, _ in cited(modules, here.uses, here.aliases, module, code_of(here.definitions[name])):
            if other in below:
                below[module].add(other)
    done = []

    def add(module, around):
        for other in sorted(below[module] - {module} - around, key=list(modules).index):
            if other not in done:
                add(other, around | {module})
        if module not in done:
            done.append(module)

    for module in modules:
        if module in below:
            add(module, frozenset())
    return done


def crate_of(module):
    return module.split(".")[1]


def count(modules, claim):
    return sum(len(modules[module].definitions[name]) for module, name in claim)


def figures(what, modules, claim):
    files = {module for module, _ in claim}
    return f"{what}: {len(claim):,} definitions, {count(modules, claim):,} lines, {len(files)} files"


def counts(top):
    """How many definitions there are, clause by clause."""
    modules = modules_of(top)
    clauses, uses = clauses_of_run(top)
    roots = {name: cited(modules, uses, {}, "", clause) for name, clause in clauses}
    sentence = closure(modules, set().union(*(roots[name] for name in SENTENCE)))
    whole = closure(modules, set().union(*roots.values()))
    lines = [figures("The sentence", modules, sentence), figures("The contract", modules, whole)]
    return lines + [figures(f"  {name}", modules, closure(modules, roots[name])) for name in roots]


def main(words):
    tops = [word for word in words if word != "--text"]
    top = Path(tops[0] if tops else Path(__file__).resolve().parent.parent).resolve()
    if "--text" in words:
        import claim_pages

        for path, text in claim_pages.pages(top).items():
            (top / path).write_text(text, encoding="utf-8")
    print("\n".join(counts(top)))


if __name__ == "__main__":
    main(sys.argv[1:])
