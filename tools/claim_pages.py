"""The two pages of the definitions that the claim on the program rests on, for claim.py.

docs/claim-proofs.md has those of the sentence that the bytes spell proofs in E, in two parts: what is promised of each
theorem, and which text it is. docs/claim-run.md has those that the contract of `run` adds. They are as they are in the
crates' specs/, in reading order, without `use` lines and without the marks of the toolchain; before those of a group are
the types of the program that it speaks of, as they are in src/. A constructor that two types have is written with its
type.
"""

import functools
import re

import claim

COLUMNS = 100
# types that are read as what they have
PLAIN = {"Items", "Name", "Title", "Vec", "Option", "Box", "Result"}
DECLARED = re.compile(r"^Rattle\.(\w+)\.specs\.declared\.([\w.]+?)\.(\w+)(\.TheVariants)?$")
MARKS = re.compile(r"^((?:abbrev |unfoldable |pub )+)")

WORDS = """
A definition has a comment, its type, and its cases; of several cases the first that fits counts. `λ x. e` is the
function that gives e for x. `record { f = x }` is a record, `r.f` its field, and `record r { f = x }` is r with another
f. `p.0` and `p.1` are the parts of a pair; `let x = e in b` names e. A `do` block and `>>=` go on with what an answer
has, and stop at the first `Err`.

| Word | Says |
|---|---|
| `x ≡ y` | both are equal |
| `A × B`, `A ⊎ B` | A and B; A or B |
| `(x : A) × B`, `(x : A) → B` | there is an x with B; B for each x |
| `⊥`, `Unit {0}` | what never holds; what always holds, by `tt` |
| `IsTrue b`, `if b then x else y` | the Boolean is true; a choice by it |
| `not`, `&&`, `\\|\\|`, `==` | of Booleans; whether two numbers are equal |
| `+`, `-`, `*`, `^`, `min`, `max` | of natural numbers ℕ, where a - b is 0 if a is less |
| `ℤ`, `pos n`, `negsuc n` | whole numbers: n, and -1 - n |
| `+ℤ`, `-ℤ`, `*ℤ`, `int_lt`, `int_eq` | of whole numbers |
| `nat_lt`, `nat_le`, `◌<◌`, `◌≤◌` | less, at most |
| `[]`, `x ∷ xs`, `xs ++ ys` | no item; x before the items of xs; one list after the other |
| `length`, `map`, `filter`, `reverse` | how many items; a function at each; those that pass a test; from the last |
| `list_all`, `list_any`, `sum_by` | whether all pass, whether one does; the sum of what a function gives |
| `flat_map`, `filter_map` | the lists, or the values, that a function gives at the items |
| `take n`, `drop n`, `replicate n x` | the first n items; those after them; n times x |
| `slice_get`, `slice_index_or` | the item at a place from 0, or none, or a given one |
| `slice_split`, `position_or_len` | the parts between items that pass a test; the place of the first, or the length |
| `None`, `Some x`, `Ok x`, `Err e` | no value or a value; an answer or why there is none |
| `is_some`, `is_none`, `unwrap_or`, `option_map`, `option_map_or`, `option_and_then` | of an option |
| `option_to_list`, `IfSome`, `IfOk`, `OnOk` | as a list; of what is there, if it is |
| `codes`, `bytes_eq`, `decimal`, `signed_decimal` | bytes of a text; whether they are equal; digits |
"""

PROOFS_HEAD = """# That a text spells proofs

For whoever wants to know what the one sentence says that most people rely on: what was written of a book that is
accepted, and a text that is verified, spells proofs in System E. This page has all that the sentence rests on. Who
believes these definitions, the words of the library below and the toolchain knows what it says, and no other page has
to be read for it. It is made by `tools/claim.py`.
"""

PROOFS_CLAUSE = """## The clause

The contract of `run` has it as the clause `proofs`. `S.left` is what is left in the source, and `K.written` what was
written to the sink, where these expose their bytes.
"""

PROOFS_TYPES = """Types of the program are Rust. A definition sees an integer as a number, a vector, `Items` or a slice as the list of its
items, a box as what it has, and a name or a title as the list of its bytes.
"""

PROMISED = """# Part 1: what is promised

A theorem has a statement: for all declared objects with the given literals there are made objects such that the shown
literals hold. The promise is `AllProved`, the last definition of this part: each derivation proves the statement of its
theorem, where the statements of the theorems before it may be used.
"""

SPELLED = """# Part 2: which text it is

The text is the spelling of these theorems with their derivations, and of no others: lines can spell each where those
before it are known, and a law says that such theorems with one text are one list. So this part says how a derivation is
spelled, and which ones can be.
"""

RUN_HEAD = """# What a run promises

For whoever wants to know all that the contract of `run` says, of every command and every answer. This page has the
definitions that it rests on beside those of [claim-proofs.md](claim-proofs.md), which come first: how to read them is
said there. [claims.md](claims.md) has the same in sentences. It is made by `tools/claim.py`.
"""

# the chapters: of which crates, what they are called, and what stands before their definitions
CHAPTERS = {
    "e_io": ("Bytes of sources and sinks", "What it means that a count of faults rose, and that what was written grew by these bytes."),
    "e_text": ("Texts, lines and words", "A text is lines with their ends, a line is words; names, titles and numerals are words of certain bytes."),
    "e_literal": (
        "Objects and literals",
        "An object is a sort and a number, and a scope says how many there are. A literal says how objects lie, or compares two "
        "sums of magnitudes. Then: when two are the same, facts as lists, other objects put in, rows of arithmetic, and what a "
        "statement needs and gives at its arguments.",
    ),
    "e_clause": (
        "The rules, and what follows in one step",
        "System E is a table of rules, written in words of its own: the letters are the variables of a row. A literal is allowed "
        "where it is a fact, follows from the facts by arithmetic, or by one rule between diagrams and magnitudes; a citation "
        "gives one more literal of a rule whose others are refuted.",
    ),
    "e_figure": ("Figures", "Points, lines and circles with whole numbers, and which literals are true of them."),
    "e_construct": (
        "The constructions",
        "Twenty shapes, each a row: its arguments, what it needs, what it makes and what it gives. The words of these rows are "
        "others than those of the rules, and are defined here again, for constructions.",
    ),
    "e_theorem": ("Statements and their use", "What a use of an earlier theorem or of a defined notion means at its arguments."),
    "e_deriv": (
        "What a proof is",
        "A script is a tree of steps with blocks inside. `Proves` says that a script proves a goal from facts, step by step.",
    ),
    "e_licence": ("Good choices", "How the blanks of an application are filled: which choices come first."),
    "e_prove": ("The step that is asked for", "What holds before a step of a proof."),
    "e_suggest": ("Choices at a step", "Which arguments an earlier theorem may be applied at."),
    "e_line": ("Lines by their words", "What a line is by its words alone, and the words that spell it."),
    "e_names": ("Names and objects", "Names are looked up from left to right; an object is spelled by its name."),
    "e_book": ("Theorems in their lines", "Which lines a theorem has, and what a theorem is that lines can spell: in scope, within the limits."),
    "e_trim": ("What nothing needs", "Which steps a trimmed derivation keeps, and which theorems a derivation applies."),
    "e_spell": ("The spelling of a derivation", "Each line of a theorem, and below it its certificates."),
    "e_drawing": ("Figure texts", "What a figure text says, and what is written of it."),
    "e_cert": ("Certificates in their lines", "What a line of a certificate is, and which certificates lines say."),
    "e_read": ("Derivation texts", "The lines of a book, each as it is spelled, and below each the certificates that it owes."),
    "e_generate": ("Generated books", "The book that `make` writes."),
    "e_judgement": ("How a text is judged", "Its head line, and its theorems one after another."),
    "e_places": ("Facts by their places", "The same derivation where certificates cite facts by their places."),
    "e_roundtrip": ("Texts of derivations", "What can be spelled in a text of a version, and the text itself."),
    "e_commands": ("Answers of the commands", "What each answer means, what is written with it, and when it is due."),
    "e_run": ("The run", "Which command words ask for, and what holds of it."),
}


# and before those of the second part
SPELLING = {
    "e_literal": ("Literals in lines", "What a literal of a line may have: at most 32 monomials of one kind, with bounded coefficients."),
    "e_clause": ("Certificates of a version", "What a certificate of a literal has, and which literals and places of facts it may name in each version."),
    "e_construct": ("Lines of constructions", "The line of each shape, piece by piece."),
    "e_theorem": ("Arguments in lines", "The arguments of an application, of which some may be blanks."),
    "e_deriv": ("Lines of a proof", "The steps of a script with what holds before each, its names, its certificates, and its size."),
    "e_names": ("Names in lines", "The names of objects, and the raw lines of steps with these names."),
    "e_book": ("Which theorems have lines", "The lines of a statement, and what a theorem is that lines can spell: in scope, with names that differ, and within the limits."),
    "e_judgement": ("The head line", "Which line says the version."),
    "e_roundtrip": ("The text, and the sentence", "What can be spelled in a text of a version, the text itself, and the sentence."),
    "e_run": ("When the program says so", "With which answer of which command the sentence holds of which bytes."),
}


def wrapped(text):
    """Paragraphs of prose, at most so many columns wide; tables as they are."""
    done = []
    for paragraph in text.strip("\n").split("\n\n"):
        if paragraph.startswith(("|", "#")):
            done.append(paragraph)
            continue
        lines = [""]
        for word in re.findall(r"(?:`[^`]*`|\S)+", paragraph):
            if lines[-1] and len(lines[-1]) + 1 + len(word) > COLUMNS:
                lines.append("")
            lines[-1] += (" " if lines[-1] else "") + word
        done.append("\n".join(lines))
    return "\n\n".join(done)


def declared(module):
    """The crate, the file and the name of a type of the program, where the module is that of one."""
    found = DECLARED.match(module or "")
    return (found[1], found[2], found[3]) if found else None


def source_of(top, place):
    """The lines of the file of a type, and the number of its first line."""
    crate, file, name = place
    lines = (top / "crates" / crate / "src" / (file.replace(".", "/") + ".rt")).read_text(encoding="utf-8").split("\n")
    return lines, next(n for n, line in enumerate(lines) if re.match(rf"pub(\(\w+\))? (enum|struct) {name}\b", line))


@functools.cache
def types_in(top, crate):
    """The public types of a crate's src/, by their names."""
    found = {}
    for path in sorted((top / "crates" / crate / "src").rglob("*.rt")):
        file = str(path.relative_to(top / "crates" / crate / "src").with_suffix("")).replace("/", ".")
        for name in re.findall(r"^pub (?:enum|struct) (\w+)", path.read_text(encoding="utf-8"), re.M):
            found[name] = (crate, file, name)
    return found


def types_inside(top, place):
    """The types of the fields of a type, where these can be seen."""
    lines, _ = source_of(top, place)
    if not any(re.match(r"pub enum|    pub ", line) for line in rust_type(top, place)):
        return
    text = "\n".join(lines)
    brought = {name: place[0] for name in types_in(top, place[0])}
    for crate, names in re.findall(r"^use (\w+)::(?:[\w:]*?)(\{[^}]*\}|\w+);", text, re.M):
        for name in re.findall(r"\w+", names):
            brought.setdefault(name, crate)
    code = [line for line in rust_type(top, place)[1:] if "//" not in line]
    fields = [re.sub(r"^\s*(pub(\(\w+\))? )?\w+( \{|: |\(|,|$)", "", line) for line in code]
    for name in re.findall(r"\b[A-Z]\w+", "\n".join(fields)):
        crate = brought.get(name, "")
        if name not in PLAIN and (top / "crates" / crate / "src").is_dir() and crate:
            yield types_in(top, crate).get(name)


def types_of(modules, top, part):
    """The types of the program that these definitions name, and those that these have in them."""
    found, left = set(), []
    for module, name in part:
        here = modules[module]
        for token in claim.NAME.findall(claim.code_of(here.definitions[name])):
            first = token.split(".")[0]
            left.append(declared(here.uses.get(first, (here.aliases.get(first), ""))[0]))
    while left:
        place = left.pop()
        if place and place not in found:
            found.add(place)
            left += types_inside(top, place)
    return found


def rust_type(top, place):
    """A type as it is in src/, with its comment and without its attributes."""
    lines, start = source_of(top, place)
    head = start
    while lines[head - 1].startswith(("///", "#[")):
        head -= 1
    end = start
    while not lines[end].startswith("}") and not lines[end].endswith((";", "}")):
        end += 1
    return [line for line in lines[head : end + 1] if not line.lstrip().startswith("#[")]


def variants(lines):
    """The constructors of a Rust type."""
    return [found[1] for line in lines[1:] if (found := re.match(r"    (\w+)[ ,({]", line)) and not line.startswith("    pub ")]


def doubled(modules, top, part, types):
    """The constructors that two types have."""
    of = {}
    for place in types:
        for name in variants(rust_type(top, place)):
            of.setdefault(name, set()).add(place[2])
    for module, _ in part:
        for name, data in modules[module].constructors.items():
            if (module, data) in part:
                of.setdefault(name, set()).add(data)
    return {name for name, owners in of.items() if len(owners) > 1}


def written(modules, module, lines, twice):
    """The lines of a definition, without marks, and with the type before a constructor that is not one thing alone."""
    here = modules[module]

    def told(found):
        token = found[0]
        first, _, rest = token.partition(".")
        place = here.aliases.get(first)
        if rest and declared(place) and place.endswith(".TheVariants"):
            return f"{declared(place)[2]}.{rest}"
        place, name = here.uses.get(first, (None, None))
        if not rest and (first in twice or name != first) and declared(place) and place.endswith(".TheVariants"):
            return f"{declared(place)[2]}.{name}"
        if not rest and first in twice and here.constructors.get(first):
            return f"{here.constructors[first]}.{first}"
        return token

    done, is_data = [], any(re.match(r"(abbrev |unfoldable |pub )*data ", line) for line in lines)
    for line in lines:
        if line.startswith("--"):
            done.append(line)
            continue
        line = re.sub(r"^(\s+)pub ", r"\1", MARKS.sub("", line))
        head = re.match(r"\s+\w+ :", line) if is_data else None
        start = head.end() if head else 0
        done.append(line[:start] + claim.NAME.sub(told, line[start:]))
    return done


def shown(modules, top, part, before, twice, own_titles):
    """The chapters of these definitions."""
    told, lines = set(before), []
    order = claim.in_order(modules, part)
    crates = [crate for crate in dict.fromkeys(claim.crate_of(module) for module in order)]
    crates.sort(key=lambda crate: list(CHAPTERS).index(crate))
    for crate in crates:
        title, prose = own_titles.get(crate, CHAPTERS[crate])
        lines += ["", f"## {title}", "", wrapped(prose)]
        files = [module for module in order if claim.crate_of(module) == crate]
        own = {pair for pair in part if pair[0] in files}
        new = [place for place in types_of(modules, top, own) if place not in told]
        told |= set(new)
        if new:
            lines += ["", "```rust"]
            for number, place in enumerate(sorted(new, key=lambda it: (it[:2], source_of(top, it)[1]))):
                lines += [""] * (number > 0) + rust_type(top, place)
            lines += ["```"]
        for module in files:
            here = modules[module]
            lines += ["", f"From `crates/{here.path}`:", "", "```antt"]
            names = [name for name in here.definitions if (module, name) in part]
            for number, name in enumerate(names):
                lines += [""] * (number > 0) + written(modules, module, here.definitions[name], twice)
            lines += ["```"]
    return lines, told


def pages(top):
    """The text of both pages, by their names."""
    modules = claim.modules_of(top)
    clauses, uses = claim.clauses_of_run(top)
    roots = {name: claim.cited(modules, uses, {}, "", clause) for name, clause in clauses}
    whole = claim.closure(modules, set().union(*roots.values()))
    sentence = claim.closure(modules, set().union(*(roots[name] for name in claim.SENTENCE)))
    promised = claim.closure(modules, {("Rattle.e_roundtrip.specs.Written", "AllProved")}) & sentence
    twice = doubled(modules, top, whole, types_of(modules, top, whole))
    clause = next(text for name, text in clauses if name == "proofs")

    lines = [wrapped(PROOFS_HEAD), "", wrapped(claim.figures("The sentence", modules, sentence) + ".")]
    lines += ["", wrapped(PROOFS_CLAUSE), "", "```", "ensures proofs {" + clause + "}", "```"]
    lines += ["", "## How to read it", "", wrapped(WORDS), "", wrapped(PROOFS_TYPES), "", wrapped(PROMISED)]
    part, told = shown(modules, top, promised, set(), twice, {})
    lines += part + ["", wrapped(SPELLED)]
    part, told = shown(modules, top, sentence - promised, told, twice, SPELLING)
    proofs = lines + part

    lines = [wrapped(RUN_HEAD), "", wrapped(claim.figures("The contract", modules, whole) + "; here those that are not of the sentence.")]
    lines += ["", "| Clause | Definitions | Lines | Files |", "|---|---|---|---|"]
    for name in roots:
        own = claim.closure(modules, roots[name])
        lines.append(f"| `{name}` | {len(own):,} | {claim.count(modules, own):,} | {len({module for module, _ in own}):,} |")
    lines += ["", "## The contract", "", "```", *(f"{name} {{{text}}}" for name, text in clauses), "```"]
    part, _ = shown(modules, top, whole - sentence, told, twice, {})
    return {"docs/claim-proofs.md": "\n".join(proofs) + "\n", "docs/claim-run.md": "\n".join(lines + part) + "\n"}
