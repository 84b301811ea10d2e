#!/usr/bin/env python3
"""Checks the documents against the tree.

    python3 tools/lint.py [TOP]

What it looks for:

- A name in backticks, in README.md and its like, docs/, the pages of examples/ and
  library/ and the like, that is written as a path, a file, a crate, or an identifier of Rust or antt, and that
  the tree does not have. What counts as which is told at `kind_of`.
- A link to a file that is not there, or to a heading that is not.
- A crate that is in one of crates.txt, docs/architecture.md and crates/ and not in
  another, or that stands on other crates there.
- docs/claim-proofs.md and docs/claim-run.md, where they are not what tools/claim.py makes of the definitions.
- docs/proved.md and docs/refusals.md, where they are not what tools/contracts.py makes of the crates.
- A fact that a document tells otherwise than the tree has it: tools/facts.py says which.
- The stdin and stdout of run_rows and language_rows, where they are not what tools/rows.py makes of the blocks.
- What a command of the companion prints, where a page shows it otherwise: tools/manual.py says how.
- A line of prose with more than 100 columns. Rows of tables in docs/ are exempt, and so are lines
  of code, and links that cannot be broken.
- A cell of a table with more than one sentence.
- A link that begins on one line and ends on the next.

It prints each finding as FILE:LINE, ends with the line `lint: N findings`, and with the status 1
where N is not 0.
"""

import os
import re
import sys
from pathlib import Path

sys.dont_write_bytecode = True
import claim_pages  # noqa: E402
import contracts  # noqa: E402
import facts  # noqa: E402
import manual  # noqa: E402
import rows  # noqa: E402

TOP = Path(sys.argv[1] if sys.argv[1:] else Path(__file__).resolve().parent.parent).resolve()
COLUMNS = 100
PAGES = ["README.md", "CONTRIBUTING.md", "CHANGELOG.md", "docs/*.md", "examples/**/*.md", "library/**/*.md"]
PAGES += ["SECURITY.md", "editors/*.md", "bench/*.md", "release/*.md", ".github/**/*.md"]
WRAPPED = re.compile(r"[^/]*|(docs|editors|release)/[^/]*")  # pages whose lines are counted

# The suffixes of files that a document may name.
SUFFIXES = "rt antt md book txt edit sh py text out json ebnf vim text rows".split()
# Made by a build, a reader or a run, or standing for any name: not in the tree.
NOT_KEPT = re.compile(r"(^|/)(out|target)(/|$)|\.\.|[*<>{}]|NAME|\b[A-Z]+\.(text|book|out)$|e_x|^[/~]")
NOT_KEPT_FILES = {"I.1.text", "thing.rt", "Thing.antt", "Topic.antt", "X.book", "FILE", "mine.book", "whole.book"}
# Titles of theorems that look like files.
NOT_KEPT_FILES |= {"right.out", "III.20.out", "arc.out"}

# Words of Rust, of antt, of the shell, of the kit and of its libraries that documents cite.
ALLOWED = set(
    """Vec String Option Result Ok Err Some None Copy Drop Debug Display Clone Ord PartialOrd Hash Eq
    PartialEq From Model Box Iterator IntoIterator Source Sink Lts Proof Goals Given Self Prelude
    indexmap thiserror itoa memchr std core mathlib antt clang python3 vim bash cargo rustc rustup git
    requires ensures ghost prove abbrev pub unfoldable search omega simp grind rw auto using
    u8 u16 u32 u64 i128 u128 usize bool true false mem replace drop main
    rt rattle rt_ci must_fail crates_txt HANDLES
    apt_get vim_nox code_insiders EOF LF CR CRLF ASCII UTF WANTED TERM NUMBER TITLE LINE WORDS
    SUM LITERAL LITERALS NAMES RULE ROW WHAT ARGUMENTS X Y""".split()
)


def pages():
    for pattern in PAGES:
        yield from sorted(TOP.glob(pattern))


def tree():
    """All folders and files, without those that git or a build keeps. A folder that is gone when it is read is empty."""
    for folder, folders, files in os.walk(TOP):
        folders[:] = [name for name in folders if name not in (".git", "out")]
        for name in folders + files:
            yield Path(folder, name)


def tree_words():
    """All words of the code, definitions, proofs, edits, scripts and books, and all file names."""
    words, names = set(), set()
    for path in tree():
        names.update((path.name, path.stem))
        if path.suffix in (".rt", ".antt", ".edit", ".sh", ".book", ".py") or path.name == "crates.txt":
            try:
                text = path.read_text(encoding="utf-8", errors="replace")
            except FileNotFoundError:  # gone since its folder was read
                continue
            words.update(re.findall(r"[A-Za-z_][A-Za-z0-9_]*", text))
            words.update(re.findall(r"[A-Za-z_][A-Za-z0-9_-]*", text))
    return words, names


def code_spans(text):
    """The inline code of a page with its line, and the pages' other lines, without code blocks."""
    fenced = False
    for number, line in enumerate(text.split("\n"), 1):
        if line.lstrip().startswith("```"):
            fenced = not fenced
            continue
        if not fenced and not line.startswith("    "):
            for span in re.findall(r"(?<!`)`([^`]+)`(?!`)", line.replace("\\|", "|")):
                yield number, span


def kind_of(span):
    """What a name in backticks is: a path, a module, an identifier, or nothing that is looked up.

    - a path has a slash, or ends in a known suffix, and has no space;
    - an identifier of Rust or antt has an underscore, or is a word in CamelCase: `e_book`,
      `next_theorem`, `MemSource`; `Type::name`, `name()` and `Name { .. }` are looked up part by part;
    - all else (words of the language of books, commands, bytes, formulas) is not looked up.
    """
    if re.search(r"\s|[|=<>;:]{3}", span) and not re.fullmatch(r"[\w:]+ ?\{.*\}|[\w:]+\(.*\)", span):
        return None, []
    if "/" in span or span.rsplit(".", 1)[-1] in SUFFIXES and "." in span[1:]:
        return "path", [span]
    bare = re.sub(r"\(.*\)$| ?\{.*\}$", "", span)
    parts = re.split(r"::|\.", bare)
    if not all(re.fullmatch(r"[A-Za-z_][A-Za-z0-9_]*!?", part) for part in parts):
        return None, []
    looks = [re.search(r"_|[a-z][A-Z]|^[A-Z][a-z]{2}", part) for part in parts]
    if "::" in bare or bare != span or any(looks) and len(parts) == 1:
        return "identifier", [part.strip("!") for part in parts]
    return None, []


def has_path(page, span, names):
    span = span.rstrip("/,")
    if NOT_KEPT.search(span) or span in NOT_KEPT_FILES:
        return True
    if "/" not in span:
        return span in names
    for base in (TOP, page.parent, TOP / "crates", *TOP.glob("crates/*"), TOP / "examples"):
        if (base / span).exists():
            return True
    return False


def check_names(findings):
    words, names = tree_words()
    known = words | names | ALLOWED
    for page in pages():
        for number, span in code_spans(page.read_text(encoding="utf-8")):
            kind, parts = kind_of(span)
            if kind == "path" and not has_path(page, span, names):
                findings.append((page, number, f"no such file: {span}"))
            for part in parts if kind == "identifier" else []:
                if part[-1] != "_" and part not in known and part.replace("_", "-") not in known:
                    findings.append((page, number, f"no such name: {part}"))


def anchors(page):
    """The fragments of a page's headings, as the usual hosts make them."""
    headings = re.findall(r"^#+ +(.*)$", page.read_text(encoding="utf-8"), re.M)
    return {re.sub(r"[^\w\- ]", "", heading.lower()).replace(" ", "-") for heading in headings}


def check_links(findings):
    for page in pages():
        fenced = False
        for number, line in enumerate(page.read_text(encoding="utf-8").split("\n"), 1):
            fenced ^= line.lstrip().startswith("```")
            if fenced or line.startswith("    "):
                continue
            for link in re.findall(r"\]\(([^)\s]+)\)", re.sub(r"`[^`]*`", "", line)):
                if re.match(r"[a-z]+:", link):
                    continue
                path, _, fragment = link.partition("#")
                target = (page.parent / path) if path else page
                if not target.exists():
                    findings.append((page, number, f"no such file: {link}"))
                elif fragment and target.suffix == ".md" and fragment not in anchors(target):
                    findings.append((page, number, f"no such heading: {link}"))
        text = re.sub(r"`[^`]*`", lambda span: re.sub(r"\S", "x", span.group()), page.read_text(encoding="utf-8"))
        for match in re.finditer(r"\[[^\[\]\n]*\n[^\[\]\n]*\]\(", text):
            findings.append((page, text[: match.start()].count("\n") + 1, "a link over two lines"))


def crates_of_list():
    """Each crate of crates.txt with its line and the crates of this repository below it."""
    crates = {}
    for number, line in enumerate((TOP / "crates.txt").read_text().split("\n"), 1):
        if line.strip() and not line.startswith("#"):
            head, _, below = line.partition(":")
            crates[head.split()[0]] = (number, below.split())
    return {
        name: (number, [other for other in below if other in crates])
        for name, (number, below) in crates.items()
    }


def rows_of(page):
    """The rows of a page's tables, as lists of cells, with their line."""
    for number, line in enumerate(page.read_text(encoding="utf-8").split("\n"), 1):
        if line.startswith("|"):
            yield number, [cell.strip() for cell in line.strip().strip("|").split(" | ")]


def check_crates(findings):
    listed, crates_txt = crates_of_list(), TOP / "crates.txt"
    folders = {path.parent.name for path in TOP.glob("crates/*/src")}
    for name in sorted(set(listed) ^ folders):
        findings.append((crates_txt, listed.get(name, (1,))[0], f"in one of list and crates/: {name}"))
    for page in (TOP / "docs/architecture.md",):
        if not page.exists():
            continue
        told = {}
        for number, cells in rows_of(page):
            for cell in cells[:2]:
                for name in re.findall(r"`(\w+)`", cell):
                    if name in listed and re.fullmatch(r"(`\w+`(, | and )?)+", cell):
                        told.setdefault(name, (number, cells))
        for name in sorted(set(listed) - set(told)):
            findings.append((page, 1, f"no row of a table for the crate {name}"))
        for number, cells in rows_of(page):
            for cell in cells[:2]:
                for name in re.findall(r"`(e_\w+)`", cell):
                    if name not in listed and re.fullmatch(r"(`\w+`(, | and )?)+", cell):
                        findings.append((page, number, f"not in crates.txt: {name}"))
        for name, (number, cells) in told.items():
            below = re.findall(r"`(\w+)`", cells[-1])
            if len(cells) >= 4 and sorted(below) != sorted(listed[name][1]):
                findings.append((page, number, f"{name} stands on other crates in crates.txt"))


def check_columns(findings):
    for page in filter(lambda page: WRAPPED.fullmatch(str(page.relative_to(TOP))), pages()):
        fenced = False
        for number, line in enumerate(page.read_text(encoding="utf-8").split("\n"), 1):
            fenced ^= line.lstrip().startswith("```")
            table = line.startswith("|") and page.parent != TOP
            code = fenced or line.startswith("    ")
            if len(line) > COLUMNS and not table and not code and " " in line.strip()[:COLUMNS]:
                findings.append((page, number, f"{len(line)} columns"))


def check_cells(findings):
    for page in pages():
        for number, cells in rows_of(page):
            for cell in cells:
                if re.search(r"\w[.] +[A-Z]", re.sub(r"`[^`]*`", "x", cell)):
                    findings.append((page, number, "a cell with more than one sentence"))


def check_claim(findings):
    made_by = [(claim_pages.pages(TOP), "tools/claim.py"), (contracts.pages(TOP), "tools/contracts.py")]
    for path, made, tool in [(path, made, tool) for pages, tool in made_by for path, made in pages.items()]:
        page = TOP / path
        kept = page.read_text(encoding="utf-8") if page.exists() else ""
        if kept != made:
            lines = zip((kept + "\n").split("\n"), (made + "\n").split("\n"))
            number = next((number for number, (a, b) in enumerate(lines, 1) if a != b), 1)
            findings.append((page, number, f"not what {tool} makes"))


def main():
    findings = []
    for check in (check_names, check_links, check_crates, check_claim, check_cells, check_columns):
        check(findings)
    for check in facts.CHECKS:
        findings.extend(check(TOP))
    findings.extend(rows.check(TOP))
    findings.extend(manual.check(TOP))
    for page, number, what in sorted(findings, key=lambda finding: (str(finding[0]), finding[1])):
        print(f"{page.relative_to(TOP)}:{number}: {what}")
    print(f"lint: {len(findings)} findings")
    return 1 if findings else 0


if __name__ == "__main__":
    sys.exit(main())
