#!/usr/bin/env python3
"""Facts that documents tell and the tree has: tools/lint.py asks that they agree.

- docs/rules.md has the rules and the constructions of the definitions, row by row, and of each rule the axiom for which its
  name stands: `check_rules`.
- A number of rules, in any document, is that of the table: `check_counts`. So is the number of stored rows, and of
  reserved words.
- The row of a crate in docs/architecture.md has the first sentence of its head comment, and the laws of the picture there
  are in the code: `check_crates`.
- The usage line, the exit statuses and the libraries that are trusted are those of the code: `check_program`.
- The limits and the reserved words of docs/book.md are those of the code: `check_language`.
- What the theorems of the library apply, and how many steps they have, is what their proofs say: `check_library`, and
  for what is listed of Book I alone `check_book_one`. What docs/books-1-to-4.md cites of proofs is there: `check_history`,
  and what docs/stating.md names: `check_stating`.
- README has at most 150 lines, shows the book and the answers that are there, and says how many lines the second verifier
  has: `check_readme`.
- The newest version of CHANGELOG.md is that of CITATION.cff, and of release/, or the program there is unreleased:
  `check_versions`.
- Pages of definitions and files of proofs, which docs/definitions.md and docs/proofs*.md name without their suffix, are
  there: `check_files`. The code in docs/crates.md is that of the crate `examples`: `check_examples`.

Each check yields findings: a page, the number of a line, and what is wrong there.
"""

import re
import subprocess

import join

PAGES = ["README.md", "CONTRIBUTING.md", "docs/*.md", "examples/*.md", "library/**/*.md"]
MOST_README_LINES = 150
TABLES = "Incidence Sides Circles Equality Lengths Angles".split()
# The groups of the article's axioms, by the letters that a rule's name begins with.
AXIOMS = {"g": "Generality", "b": "Between", "s": "Same side", "p": "Pasch", "t": "Triple incidence", "c": "Circle"}
AXIOMS |= {"x": "Intersection", "ds": "Diagram-segment", "da": "Diagram-angle", "dr": "Diagram-area", "m": "Metric"}
EQUAL = {"eq_p", "eq_l", "eq_c", "sums_equal"}
ATOMS = {"onc": "on", "same_side": "same-side", "meets_ll": "meets", "meets_lc": "meets", "meets_cc": "meets"}
STEP = re.compile(r"(by|hence|let|apply|claim|superpose|qed|contradiction|cases)\b")


def read(path):
    return path.read_text(encoding="utf-8")


def line_of(text, part):
    """The number of the first line that has the part, or 1."""
    return text[: max(text.find(part), 0)].count("\n") + 1


def cells_of(text):
    """The rows of all tables of a page with the numbers of their lines."""
    for number, line in enumerate(text.split("\n"), 1):
        if line.startswith("|"):
            yield number, [cell.strip().replace("\\|", "|") for cell in re.split(r"(?<!\\)\|", line)[1:-1]]


# ---- rules and constructions


def parsed(tokens):
    """The first expression of the tokens of antt: a word, or a list of expressions for what is applied."""
    token = tokens.pop(0)
    if token != "(":
        return token
    inside = []
    while tokens[0] != ")":
        inside.append(parsed(tokens))
    tokens.pop(0)
    return inside


def parsed_all(text):
    tokens = re.findall(r"\"[^\"]*\"|[()]|[^\s()]+", text)
    found = []
    while tokens:
        found.append(parsed(tokens))
    return found


def items_of(expression):
    """The items of a list that is written with `∷` and `[]`."""
    if not isinstance(expression, list):
        return []
    items, item = [], []
    for word in expression:
        if word == "∷":
            items.append(item[0] if len(item) == 1 else item)
            item = []
        else:
            item.append(word)
    return items


def sum_of(expression):
    monomials = []
    for item in items_of(expression):
        words = item if isinstance(item, list) else [item]
        monomials.append(" ".join("2" if word == "two" else word for word in words))
    return " + ".join(monomials) or "0"


def literal_of(expression):
    """A literal of the definitions, as documents spell it."""
    head, *rest = expression
    if head == "isnt":
        inner = rest[0]
        if inner[0] == "sum_less":
            return f"{sum_of(inner[2])} <= {sum_of(inner[1])}"
        spelled = literal_of(inner)
        return spelled.replace(" = ", " != ") if inner[0] in EQUAL else f"not {spelled}"
    if head == "neq":
        return f"{rest[0]} != {rest[1]}"
    if head == "sums_equal":
        return f"{sum_of(rest[0])} = {sum_of(rest[1])}"
    if head == "sum_less":
        return f"{sum_of(rest[0])} < {sum_of(rest[1])}"
    if head in EQUAL:
        return f"{rest[0]} = {rest[1]}"
    return " ".join([ATOMS.get(head, head), *rest])


def literals_of(expression):
    return [literal_of(item) for item in items_of(expression)]


def spans(cell):
    return re.findall(r"`([^`]+)`", cell)


def rules_of(top):
    """Each rule of the definitions, in order: its name, its numbers of variables, its premises and conclusions."""
    rules = []
    for table in TABLES:
        text = read(top / f"crates/e_clause/specs/Table/{table}.antt")
        for row in re.split(r"\b(?=row \(codes )", text)[1:]:
            _, name, *numbers, premises, conclusions = parsed_all(row)[:7]
            rules.append((name[1].strip('"'), [int(n) for n in numbers], literals_of(premises), literals_of(conclusions)))
    return rules


def shapes_of(top):
    """Each construction of the definitions: its name, its needs, and what it gives."""
    text = read(top / "crates/e_construct/specs/Shapes.antt")
    shapes = []
    for name, row in re.findall(r"^shape_row (\w+) =\s+shape (.*(?:\n    .*)*)", text, re.M):
        _, needs, _, gives, *_ = parsed_all(row)
        shapes.append((name, literals_of(needs), literals_of(gives)))
    return shapes


def axiom_of(rule):
    """The axiom of the article for which the name of a rule stands: `c2a` for Circle 2."""
    match = re.fullmatch(r"([a-z]+)([0-9]+)[a-z]?", rule)
    group = AXIOMS.get(match.group(1)) if match else None
    if group is None or re.match(r"x[67]", rule):
        return "none known"
    return f"{group} {match.group(2)}"


def check_rules(top):
    page = top / "docs/rules.md"
    text = read(page)
    rules = {name: rest for name, *rest in rules_of(top)}
    shapes = {name: rest for name, *rest in shapes_of(top)}
    names = []
    for number, cells in cells_of(text):
        name = cells[0].strip("`")
        if len(cells) == 6 and cells[0].startswith("`") and " " not in name:
            names.append(name)
            if cells[5] != axiom_of(name):
                yield page, number, f"the rule {name} is axiom '{axiom_of(name)}' by its name"
            variables = cells[1].strip("`").split()
            sorts = [sum(map(test, variables)) for test in (str.islower, "LMN".__contains__, "ABC".__contains__)]
            if rules.get(name) != [sorts, spans(cells[2]), spans(cells[3])]:
                yield page, number, f"the rule {name} is another one in the definitions"
        if len(cells) == 6 and cells[1] in shapes:
            names.append(cells[1])
            if shapes[cells[1]] != [spans(cells[3]), spans(cells[4])]:
                yield page, number, f"the construction {cells[1]} is another one in the definitions"
    if names != [*rules, *shapes]:
        yield page, 1, "the rules and constructions are not those of the definitions, in their order"


# ---- counts


def counts_of(top):
    names = [name for name, *_ in rules_of(top)]
    kinds = read(top / "crates/e_clause/specs/RuleKinds.antt")
    cited = int(re.search(r"^diagram_rule_count = (\d+)$", kinds, re.M).group(1))
    return cited, len(names) - cited, len(names), len(shapes_of(top))


def stored_rows(top, crate):
    with open(top / "crates" / crate / "stdin", encoding="utf-8", newline="\n") as rows:
        return sum(1 for row in rows if row.strip() and not row.startswith("*"))


def check_counts(top):
    cited, transfers, rules, shapes = counts_of(top)
    if shapes != 20:
        yield top / "docs/rules.md", 1, f"there are {shapes} constructions, and documents say twenty"
    words = len(reserved_words(top))
    wanted = [
        (r"(?<!to )\b(\d+) transfer rules", {transfers}, "transfer rules"),
        (r"(?<!transfer )\b(\d+) rules\b|\b(\d+) (?:are the rules )?that `by` (?:may )?cites?", {cited, rules}, "rules"),
        (r"These (\d+) (?:carry facts|are the rules)", {cited, transfers}, "rules"),
        (r"`language_rows` has ([\d,]+) rows", {stored_rows(top, "language_rows")}, "rows of language_rows"),
        (r"`run_rows` runs `run` on ([\d,]+) rows", {stored_rows(top, "run_rows")}, "rows of run_rows"),
        (r"\b(\d+) reserved words|Reserved words are (\d+)", {words}, "reserved words"),
    ]
    for page in sorted({page for pattern in PAGES for page in top.glob(pattern)}):
        text = read(page)
        flat = re.sub(r"\s", " ", text)
        for pattern, numbers, what in wanted:
            for match in re.finditer(pattern, flat):
                said = next(group for group in match.groups() if group)
                if int(said.replace(",", "")) not in numbers:
                    number = text[: match.start()].count("\n") + 1
                    yield page, number, f"{said} {what}, and the tree has {' or '.join(map(str, sorted(numbers)))}"


# ---- crates


def head_sentence(top, crate):
    """The first sentence of the comment at the head of a crate."""
    root = next(path for name in ("lib.rt", "main.rt") if (path := top / "crates" / crate / "src" / name).exists())
    lines = []
    for line in read(root).split("\n"):
        match = re.match(r"//!? (.*)", line)
        if not match:
            break
        lines.append(match.group(1))
    return re.split(r"\.(?: |$)", " ".join(lines))[0]


def check_crates(top):
    crates = re.findall(r"^(\w+):", read(top / "crates.txt"), re.M)
    page = top / "docs/architecture.md"
    rows = {cells[1].strip("`"): (number, cells[2]) for number, cells in cells_of(read(page)) if len(cells) == 4}
    for crate in crates:
        number, sentence = rows.get(crate, (1, ""))
        if sentence != head_sentence(top, crate):
            yield page, number, f"the sentence of {crate} is not that at the head of the crate"
    code = "".join(read(path) for path in sorted(top.glob("crates/*/src/*.rt")))
    pictures = re.findall(r"```\n(text of a book.*?)```", read(page), re.S)
    for name in re.findall(r"\w+_\w+", " ".join(pictures)):
        if name not in crates and not re.search(rf"\bfn {name}\b", code):
            yield page, line_of(read(page), name), f"no such law: {name}"
    if not pictures:
        yield page, 1, "the picture of the way of a book is gone"


# ---- the program


def check_program(top):
    usage = re.search(r'"(usage: .*?)\\n"', read(top / "crates/e_run/src/runner.rt")).group(1)
    page = top / "docs/answers.md"
    if usage not in read(page).replace("\\|", "|"):
        yield page, 1, f"the usage line is another one: {usage}"
    for command in re.findall(r"(\w+)(?: [A-Z]+)*(?: \||$)", usage.replace("usage: elements ", "")):
        for name in ("README.md", "docs/answers.md", "docs/claims.md"):
            if not re.search(rf"`{command}\b", read(top / name)):
                yield top / name, 1, f"the command {command} is not told"
    code = read(top / "crates/e_commands/src/status.rt")
    code = code[code.index("fn exit_code") :]
    exits = {}
    for arms, status in re.findall(r"((?:\s*\|?\s*Status::\w+(?: \{ \.\. \}|\(_\))?)+) => (\d+),", code):
        exits.update({name: status for name in re.findall(r"Status::(\w+)", arms)})
    page = top / "docs/answers.md"
    told = {}
    for number, cells in cells_of(read(page)):
        if len(cells) == 3 and cells[2].isdigit():
            told[cells[0].strip("`")] = cells[2]
            if exits.get(cells[0].strip("`")) != cells[2]:
                yield page, number, f"exit status of {cells[0]}"
    for name in sorted(set(exits) - set(told)):
        yield page, 1, f"the answer {name} is not told"
    listed = dict(re.findall(r"^(\w+):(.*)$", read(top / "crates.txt"), re.M))
    libraries = {name for names in listed.values() for name in names.split()} - set(listed)
    page = top / "docs/claims.md"
    trusted = re.search(r"of its crates ((?:`\w+`[,.\s]*)+)", read(page))
    if not trusted or set(spans(trusted.group(1))) != libraries:
        yield page, 1, f"the libraries of crates.txt: {' '.join(sorted(libraries))}"


# ---- the language


def reserved_words(top):
    code = read(top / "crates/e_text/src/words.rt")
    return re.findall(r'^ +b"([a-z-]+)",$', code, re.M)


def check_language(top):
    page = top / "docs/book.md"
    text = read(page)
    listed = re.search(r"Reserved words, which are no names: `([^`]*)`", text)
    if not listed or sorted(listed.group(1).split()) != sorted(reserved_words(top)):
        yield page, line_of(text, "Reserved words"), "the reserved words of the code are others"
    places = ("e_book/src/limits", "e_line/src/limits", "e_line/src/sum", "e_names/src/meanings")
    code = "".join(read(top / f"crates/{place}.rt") for place in places)
    limits = dict(re.findall(r"const MAX_(\w+): \w+ = ([\d_]+);", code))
    for number, cells in cells_of(text):
        name = cells[0].strip("`").upper()
        if len(cells) == 3 and name in limits and cells[1][:1].isdigit() and limits[name].replace("_", ",") != cells[1]:
            yield page, number, f"the limit of the code is {limits[name]}"


# ---- Book I


def theorems_of(book):
    """Each theorem of a book with the theorems that its steps apply, in order of first use, and its number of steps."""
    theorems = {}
    title, in_proof, applied, steps = None, False, [], 0
    for words in filter(None, map(str.split, book.split("\n"))):
        if words[0] == "theorem":
            title, in_proof, applied, steps = words[1], False, [], 0
        elif words[0] == "proof":
            in_proof = True
        elif words[0] == "end" and title is not None:
            theorems[title] = (applied, steps)
            title = None
        elif in_proof and STEP.match(words[0]):
            steps += 1
            if words[0] == "apply" and words[1] not in applied:
                applied.append(words[1])
    return theorems


def check_library(top):
    """The table of each book, and the numbers of theorems and steps that pages tell."""
    every = {}
    for page in sorted(top.glob("library/book-*/README.md")):
        theorems = theorems_of("".join(map(read, sorted(page.parent.glob("*.book")))))
        every |= theorems
        yield from check_table(page, theorems)
        if count_of(theorems) not in re.sub(r"\s+", " ", read(page)):
            yield page, 1, f"the book has {count_of(theorems)}"
    page = top / "library/README.md"
    if count_of(every) not in re.sub(r"\s+", " ", read(page)):
        yield page, 1, f"the books have {count_of(every)}"


def check_history(top):
    """What docs/books-1-to-4.md cites of a proof stands in it: the line, and the rules and theorems that give it."""
    page = top / "docs/books-1-to-4.md"
    carried = {row[0].strip("`") for _, row in cells_of(read(top / "docs/rules.md")) if row[0][:2] in ("`d", "`m")}
    for number, cells in cells_of(read(page)):
        files = re.findall(r"\]\(([^)]+\.book)\)", cells[0])
        for book in [read(page.parent / file) for file in files]:
            if spans(cells[-1]) and spans(cells[-1])[0] not in map(str.strip, book.split("\n")):
                yield page, number, f"no such line there: {spans(cells[-1])[0]}"
            for name in spans(cells[2]) if len(cells) == 4 else []:
                if name not in book.split() and name not in carried:
                    yield page, number, f"not there: {name}"


def check_stating(top):
    """What docs/stating.md names of the library is there."""
    page = top / "docs/stating.md"
    books = "".join(map(read, sorted(top.glob("library/*/*.book"))))
    known = set(re.findall(r"(?m)^(?:theorem|define) (\S+)", books))
    for number, cells in cells_of(read(page)):
        for name in spans(cells[2]) if len(cells) == 3 else []:
            if " " not in name and name not in known:
                yield page, number, f"not in the library: {name}"
        for name in re.findall(r"\bas ([a-z0-9-]+) [a-z]", " ".join(spans(cells[1]))) if len(cells) == 3 else []:
            if name not in known:
                yield page, number, f"no such definition: {name}"


def count_of(theorems):
    return f"{len(theorems)} theorems, {sum(steps for _, steps in theorems.values()):,} steps"


def check_table(page, theorems):
    told = set()
    for number, cells in cells_of(read(page)):
        title = cells[1].strip("`")
        if len(cells) == 5 and title in theorems:
            told.add(title)
            applied, steps = theorems[title]
            if sorted(spans(cells[3])) != sorted(applied) or cells[4] != str(steps):
                yield page, number, f"{title} applies {' '.join(applied) or 'none'} and has {steps} steps"
    for title in sorted(set(theorems) - told):
        yield page, 1, f"no row for {title}"


def check_book_one(top):
    theorems = theorems_of(join.joined(top / "library/book-1").decode())
    page = top / "library/book-1/uses.out"
    lines = [" ".join(["uses", title, *applied]) for title, (applied, _) in theorems.items()]
    if read(page) != "\n".join([*lines, f"listed {len(theorems)}", ""]):
        yield page, 1, "not the lines of the book"
    count, page = count_of(theorems), top / "README.md"
    if count.replace(", ", " and ") not in re.sub(r"\s+", " ", read(page)):
        yield page, 1, f"Book I has {count}"


# ---- README


def answer_to(top, book):
    """What the program of release/ writes of a book."""
    with open(top / book, "rb") as source:
        return subprocess.run([top / "release/elements", "check"], stdin=source, capture_output=True).stdout.decode()


def check_readme(top):
    page = top / "README.md"
    text = read(page)
    lines = text.count("\n")
    if lines > MOST_README_LINES:
        yield page, MOST_README_LINES + 1, f"{lines} lines: {MOST_README_LINES} are the most"
    wrong = "examples/refused/magnitudes-without-the-greater-length.book"
    sources = [read(top / "examples/I.1.book"), answer_to(top, "examples/I.1.book"), answer_to(top, wrong)]
    for block in re.findall(r"(?:^ {4}.*\n)+", text, re.M):
        shown = "".join(line[4:] for line in block.splitlines(True) if not line.startswith("    #"))
        if re.match(r"theorem|\||unlicensed", shown) and not any(shown in source for source in sources):
            yield page, line_of(text, block), "neither in examples/I.1.book nor in what the program answers"
    verifier = read(top / "tools/verify.py").count("\n")
    if f"{verifier} lines of [Python](tools/verify.py)" not in re.sub(r"\s+", " ", text):
        yield page, line_of(text, "lines of [Python]"), f"tools/verify.py has {verifier} lines"


# ---- versions


def check_versions(top):
    page = top / "CHANGELOG.md"
    version, date = re.search(r"^## ([0-9.]+), ([0-9-]+)$", read(page), re.M).groups()
    page = top / "CITATION.cff"
    for line in (f"version: {version}", f"date-released: {date}"):
        if line not in read(page).split("\n"):
            yield page, 1, f"the newest version of CHANGELOG.md has {line}"
    page = top / "release/SHA256SUMS"
    released = re.match(r"# elements (.*)", read(page)).group(1)
    if released not in (version, "unreleased"):
        yield page, 1, f"the newest version of CHANGELOG.md is {version}"
    if released == "unreleased" and "\n## Unreleased\n" not in read(top / "CHANGELOG.md"):
        yield top / "CHANGELOG.md", 1, "the program of release/ is unreleased: say what changed under Unreleased"


# ---- files that are named without their suffix


def check_files(top):
    specs, proofs = ({path.stem for path in top.glob(f"crates/*/{folder}/**/*.antt")} for folder in ("specs", "proofs"))
    page = top / "docs/definitions.md"
    for number, line in enumerate(read(page).split("\n"), 1):
        text = re.sub(r"`[^`]*`", "", line)
        cells = re.split(r"(?<!\\)\|", text)
        words = re.findall(r"\b[A-Z]\w+", cells[3]) if len(cells) == 6 else re.findall(r"\b[A-Z][a-z]+[A-Z]\w+", text)
        for word in words:
            if word not in specs and word != "File":
                yield page, number, f"no page of definitions: {word}"
    for page in (top / "docs/proofs.md", top / "docs/proofs-of-texts.md"):
        text = read(page)
        for match in re.finditer(r"\[([^\[\]]+)\](?!\()", text):
            for word in re.findall(r"\b[A-Z]\w+", re.sub(r"`[^`]*`", "", match.group(1))):
                if word not in specs | proofs:
                    yield page, text[: match.start()].count("\n") + 1, f"no file of proofs: {word}"


def check_examples(top):
    code = "".join(read(path) for path in sorted(top.glob("crates/examples/src/*.rt")))
    page = top / "docs/crates.md"
    for match in re.finditer(r"```rust\n(.*?)```", read(page), re.DOTALL):
        if match.group(1) not in code:
            yield page, line_of(read(page), match.group(1)), "not the code of the crate `examples`"


CHECKS = [check_rules, check_counts, check_crates, check_program, check_language, check_library, check_history, check_stating, check_book_one, check_readme, check_versions, check_files, check_examples]
