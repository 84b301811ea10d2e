#!/usr/bin/env python3
"""The rows of run_rows and language_rows: tests as named blocks, each a question with its answer.

    python3 tools/rows.py                  compares stdin and stdout of both crates with the blocks
    python3 tools/rows.py --write          makes them from the blocks
    python3 tools/rows.py --list [WORD]    prints the names of the rows, or of those with this word
    python3 tools/rows.py --store NAME     runs that row, and writes what comes into its block
    python3 tools/rows.py --store --all    the same for all rows; then `git diff` shows what changed

The blocks are in crates/NAME/rows/*.rows, in files by topic. They are the source: the stdin and the stdout of the crate, which the
gate runs, are made from them. Blocks are parted by an empty line; a line with # before a block is a comment. A block of run_rows:

    == a name, in words, that says what the row shows
    run: check
    source: call 70 fails, 1 byte a call
    sink: each call fails in turn, 16 bytes a call
    -- text --
    theorem T
    ..
    -- answer --
    derivation 1
    ..
    exit 0

`run:` has the words of the command. `source:` and `sink:` are left out where no call fails; calls are counted from 0, and `sink:
nowhere` keeps nothing. In a text `{N*TEXT}` is TEXT N times, with its number in the place of `$`; in it a slash ends a line, and a
line that ends in `/}` has no line feed beside those. `~` is a byte that no text may hold; \\t, \\r and \\xHH are characters that are
not seen; and \\ at the end of the last line leaves out its line feed. An answer ends with the exit status. Of one that is longer than
6,000 bytes the last line stands alone, after two dots.

A text with @ is run with several texts in its place: for each a section `-- with --`, with its answer after it. A line that is @
alone is replaced by lines; of those that end in success only the last line is kept, after two dots.

A block of language_rows has a call and its answer; both may be wrapped, and what goes on a call is indented:

    == a name
    call: text word "points"
    -- answer --
    true none true

--store runs release/elements, or the program that ELEMENTS names; and for language_rows, and where calls fail, the program of the
crate: the one that `rt ci` built in its out/, or else, for one row, `rt try`, which needs the kit and a minute or two.
"""

import argparse
import os
import re
import subprocess
import sys
import tempfile
import textwrap
from dataclasses import dataclass, field
from pathlib import Path

TOP = Path(__file__).resolve().parent.parent
CRATES = ("run_rows", "language_rows")
MARK = re.compile(r"-- (text|with|answer) --")
CALLS = re.compile(r"(?:(?:call (\d+)|(each) call) fails(?: in turn)?)?(?:(?:^|, )(\d+) bytes? a call)?")
COLUMNS = 100
PRINTED = 6_000  # bytes of an answer that run_rows prints in full


class BadRows(Exception):
    """A file of rows that cannot be read."""


@dataclass
class Section:
    """A text, or an answer: its lines, and the place of the first among the lines of the file."""

    kind: str
    start: int
    lines: list[str] = field(default_factory=list)


@dataclass
class Row:
    """A block: its file, its name, the lines before its first section by their words, and its sections."""

    path: Path
    name: str
    head: dict[str, str] = field(default_factory=dict)
    sections: list[Section] = field(default_factory=list)

    def of_kind(self, kind):
        return [section for section in self.sections if section.kind == kind]

    def parts(self, kind):
        return [section.lines for section in self.of_kind(kind)]

    def take(self, number, line):
        """Whether the line, which has this place in the file, is one of the block; if so, it is kept."""
        mark = MARK.fullmatch(line)
        last = self.sections[-1] if self.sections else None
        if mark:
            self.sections.append(Section(mark.group(1), number + 1))
        elif last and (last.kind != "answer" or line):
            last.lines.append(line)
        elif not last and line.startswith("  ") and self.head:
            self.head[list(self.head)[-1]] += " " + line.strip()
        elif not last and line:
            key, _, value = line.partition(":")
            self.head[key] = unescaped(value.removeprefix(" "))
        else:
            return False
        return True

    def is_whole(self):
        """Whether the block has the head and the sections that a block has."""
        kinds = " ".join(section.kind for section in self.sections)
        if "call" in self.head:
            return list(self.head) == ["call"] and kinds == "answer"
        known = self.head.keys() <= {"run", "source", "sink"} and "run" in self.head
        return known and re.fullmatch(r"text( with answer)+|text answer", kinds) is not None


def read_rows(path):
    """The rows of a file."""
    rows, row = [], None
    for number, line in enumerate(path.read_bytes().decode("utf-8").removesuffix("\n").split("\n")):
        if row and row.take(number, line):
            continue
        row = Row(path, line[3:]) if line.startswith("== ") else None
        if row:
            rows.append(row)
        elif line and not line.startswith("#"):
            raise BadRows(f"{path}:{number + 1}: no block begins so: {line}")
    return rows


def rows_of(top, crate):
    """All rows of a crate, in the order of its files."""
    paths = sorted((top / "crates" / crate / "rows").glob("*.rows"))
    rows = [row for path in paths for row in read_rows(path)]
    seen = set()
    for row in rows:
        if row.name in seen:
            raise BadRows(f"{row.path}: two rows have the name: {row.name}")
        if not row.is_whole():
            raise BadRows(f"{row.path}: a block of another form: {row.name}")
        seen.add(row.name)
    return rows


# ---- a row of run_rows as a line


def unescaped(line):
    """A line of a text without its escapes."""
    line = re.sub(r"^\\(?=-- )", "", line)
    return re.sub(r"\\(?:([tr])|x([0-9a-f]{2}))", lambda m: chr(int(m[2], 16)) if m[2] else "\t\r"["tr".index(m[1])], line)


def folded_text(lines):
    """The text of a block in one line, where a slash ends a line."""
    text = ""
    for number, line in enumerate(lines):
        last = number == len(lines) - 1
        if "/" in re.sub(r"\{[^}]*\}", "", line):
            raise BadRows(f"a slash in a text: {line}")
        if last and line.endswith("\\"):
            text += unescaped(line[:-1])
        else:
            text += unescaped(line) + ("" if line.endswith("/}") or line == "@" else "/")
    return text


def folded_calls(told):
    """The part of a row that says which calls fail."""
    match = CALLS.fullmatch(told)
    if told == "nowhere" or not told:
        return told
    if not match:
        raise BadRows(f"no calls: {told}")
    return (match[1] or match[2] or "") + (f" by {match[3]}" if match[3] else "")


def fillings_of(row):
    """What a row puts for its @, each in one line."""
    whole = "@" in row.parts("text")[0]
    texts = [folded_text(lines) for lines in row.parts("with")]
    return texts if whole else [text.removesuffix("/") for text in texts]


def run_line(row):
    """A row of run_rows as a line of stdin."""
    calls = [folded_calls(row.head.get(key, "")) for key in ("source", "sink")]
    return " => ".join([row.head["run"], *calls, folded_text(row.parts("text")[0]), *fillings_of(row)])


def run_answer(row):
    """The answer to a row of run_rows as a line of stdout."""
    if any("/" in line for lines in row.parts("answer") for line in lines):
        raise BadRows(f"a slash in an answer of: {row.name}")
    return " => ".join("/".join(lines) for lines in row.parts("answer"))


# ---- a row of language_rows as a line


def wrapped(text):
    """A call or an answer in lines: one for each line of a text in it, and for each row of a table."""
    if re.fullmatch(r"[=?-]+( [=?-]+)+", text):
        return text.split(" ")
    lines = re.findall(r".*?\\n|.+$", text)
    if len(lines) == 1:
        lines = textwrap.wrap(text, COLUMNS - 2, break_long_words=False, break_on_hyphens=False)
    return lines if joined(lines) == text else [text]


def joined(lines):
    """What was wrapped in one line."""
    return re.sub(r"(?<=\\n)\n", "", "\n".join(lines)).replace("\n", " ")


def language_answer(row):
    """The answer to a row of language_rows as a line of stdout."""
    answer = joined(row.parts("answer")[0])
    return row.head["call"] + " =>" + (" " + answer if answer else "")


# ---- the files of a crate


def line_of(crate, row):
    return run_line(row) if crate == "run_rows" else row.head["call"]


def answer_of(crate, row):
    return run_answer(row) if crate == "run_rows" else language_answer(row)


def pages(top):
    """Each file that is made from the blocks, and what it has: above each row its name, after a star."""
    made = {}
    for crate in CRATES:
        for name, line in (("stdin", line_of), ("stdout", answer_of)):
            lines = [part for row in rows_of(top, crate) for part in (f"* {row.name}", line(crate, row))]
            made[f"crates/{crate}/{name}"] = "".join(line + "\n" for line in lines)
    return made


def check(top):
    """Findings of the lint: blocks that cannot be read, and the first line of a file that is not what is made of them."""
    try:
        made_pages = pages(top)
    except BadRows as error:
        yield top / "tools/rows.py", 1, str(error)
        return
    for path, made in made_pages.items():
        kept = (top / path).read_bytes().decode("utf-8")
        if kept != made:
            lines = zip((kept + "\n").split("\n"), (made + "\n").split("\n"))
            number = next((number for number, (one, other) in enumerate(lines, 1) if one != other), 1)
            yield top / path, number, "not what tools/rows.py --write makes"


# ---- answers


def unfolded(text):
    """The bytes of a text of a row."""
    pieces = []
    for part in re.split(r"(\{[^}]*\})", text):
        repeated = re.fullmatch(r"\{(\d+)\*([^}]*)\}", part)
        times, piece = (int(repeated[1]), repeated[2]) if repeated else (1, part)
        pieces += [piece.replace("$", str(number)) for number in range(times)]
    return "".join(pieces).replace("/", "\n").encode("utf-8").replace(b"~", b"\x80")


def ran(words, text, in_turn):
    """The answer of the native program, as run_rows prints it."""
    program = os.environ.get("ELEMENTS", TOP / "release" / "elements")
    done = subprocess.run([program, *words.split()], input=unfolded(text), capture_output=True, check=False)
    limit = 0 if in_turn and done.returncode == 0 else PRINTED
    lines = done.stdout.decode("utf-8").removesuffix("\n").split("\n") if done.stdout else []
    if len(done.stdout) > limit:
        lines = [f".. {lines[-1]}"]
    return [*lines, f"exit {done.returncode}"]


def answers_of_program(crate, rows):
    """The answers to these rows by the crate's own program, as lines of its stdout; none where it is not built and has many."""
    built = TOP / "crates" / crate / "out" / crate
    if not built.exists() and len(rows) > 1:
        print(f"rows: {len(rows)} rows of {crate} are not run: its program is not built; rt ci {crate} builds it")
        return []
    command = [built] if built.exists() else ["rt", "try"]
    given = "".join(line_of(crate, row) + "\n" for row in rows).encode("utf-8")
    with tempfile.TemporaryFile() as source:
        source.write(given)
        source.seek(0)
        done = subprocess.run(command, cwd=TOP / "crates" / crate, stdin=source, capture_output=True, check=False)
    lines = done.stdout.decode("utf-8").split("\n")[:-1]
    if len(lines) != len(rows):
        sys.exit(f"rows: {' '.join(map(str, command))} gave no answers:\n{done.stderr.decode()[-2000:]}")
    return lines


def is_plain(crate, row):
    return crate == "run_rows" and not ("source" in row.head or "sink" in row.head) and "~" not in row.head["run"]


def native_answers(row):
    """The answers to a row in which no call fails."""
    text = folded_text(row.parts("text")[0])
    fillings = fillings_of(row)
    if not fillings:
        return [ran(row.head["run"], text, False)]
    return [ran(row.head["run"], text.replace("@", filling, 1), True) for filling in fillings]


def new_answers(crate, rows):
    """Each row with the lines of its answers."""
    rest = [row for row in rows if not is_plain(crate, row)]
    for row in rows:
        if is_plain(crate, row):
            yield row, native_answers(row)
    for row, line in zip(rest, answers_of_program(crate, rest) if rest else []):
        if crate == "run_rows":
            yield row, [answer.split("/") for answer in line.split(" => ")]
        else:
            yield row, [wrapped(line[len(row.head["call"]) + 3 :].lstrip(" "))]


def store(crate, rows):
    """Writes the answers that the program gives into the blocks of these rows."""
    changed = {}
    for row, answers in new_answers(crate, rows):
        places = row.of_kind("answer")
        if len(places) != len(answers):
            sys.exit(f"rows: {len(answers)} answers for {len(places)} sections: {row.name}")
        for place, answer in zip(places, answers):
            if place.lines != answer:
                changed.setdefault(row.path, []).append((place.start, place.start + len(place.lines), answer))
    for path, edits in changed.items():
        lines = path.read_bytes().decode("utf-8").split("\n")
        for start, end, answer in sorted(edits, reverse=True):
            lines[start:end] = answer
        path.write_bytes("\n".join(lines).encode("utf-8"))
        print(f"{path.relative_to(TOP)}: {len(edits)} answers stored")


def write():
    for path, made in pages(TOP).items():
        (TOP / path).write_bytes(made.encode("utf-8"))


def main():
    parser = argparse.ArgumentParser(description="The rows of run_rows and language_rows.")
    parser.add_argument("--write", action="store_true", help="make stdin and stdout of both crates")
    parser.add_argument("--list", nargs="?", const="", metavar="WORD", help="print the names of rows")
    parser.add_argument("--store", nargs="?", const="", metavar="NAME", help="run a row and store its answer")
    parser.add_argument("--all", action="store_true", help="with --store: all rows")
    asked = parser.parse_args()
    try:
        rows = {crate: rows_of(TOP, crate) for crate in CRATES}
        if asked.list is not None:
            for crate, row in [(crate, row) for crate in CRATES for row in rows[crate] if asked.list in row.name]:
                print(f"{row.path.relative_to(TOP / 'crates')}: {row.name}")
            return 0
        if asked.store is not None or asked.all:
            chosen = {crate: [row for row in rows[crate] if asked.all or row.name == asked.store] for crate in CRATES}
            if not any(chosen.values()):
                sys.exit(f"rows: no row has the name: {asked.store}")
            for crate in CRATES:
                store(crate, chosen[crate])
        if asked.write or asked.store is not None or asked.all:
            write()
        findings = list(check(TOP))
    except BadRows as error:
        sys.exit(f"rows: {error}")
    for page, number, what in findings:
        print(f"{page.relative_to(TOP)}:{number}: {what}")
    print(f"rows: {', '.join(f'{len(rows[crate])} of {crate}' for crate in CRATES)}")
    return 1 if findings else 0


if __name__ == "__main__":
    sys.exit(main())
