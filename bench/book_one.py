"""Writes Book I of library/ in another form, to standard output: `lean`, `blanks` or `most-blanks`.

`lean` leaves out the steps that idle.txt names: without them the program finds by itself what the later lines need. `blanks` leaves an
argument of `apply` that is a line or a circle blank, at most six on a line from the last on, but at the steps of KEPT, where the least
choice is another. `most-blanks` leaves each argument blank that found.txt names, points too: from the last on, at most six on a line,
those for which the program finds the same choice within a second. `idle PROGRAM` writes idle.txt anew, in some minutes: going back through
each theorem it tries to leave each `by` and `hence` out. `found PROGRAM` writes found.txt anew.
"""

import os
import subprocess
import sys

sys.dont_write_bytecode = True
sys.path.insert(0, os.path.join(os.path.dirname(os.path.abspath(__file__)), "../tools"))
import join  # noqa: E402

HERE = os.path.dirname(os.path.abspath(__file__))
BOOK = f"{HERE}/../library/book-1"
IDLE = f"{HERE}/idle.txt"
FOUND = f"{HERE}/found.txt"
STEPS = {"by", "hence", "let", "apply", "claim", "superpose", "qed", "contradiction", "cases"}
KEPT = {("I.30.pts", 16), ("I.47", 8), ("meets.parallel", 6)}
MOST_BLANKS = 6


def theorems():
    """Each theorem's title, and its lines with their words and their steps' numbers, which are 0 before the proof and for no step."""
    title, lines, step = "", [], None
    for line in join.joined(BOOK).decode("ascii").splitlines(keepends=True):
        words = line.split()
        if not words or words[0].startswith("#"):
            continue
        if words[0] == "theorem":
            title, lines, step = words[1], [], None
        is_step = step is not None and words[0] in STEPS
        if is_step:
            step += 1
        lines.append((line, words, step if is_step else 0))
        if words == ["proof"]:
            step = 0
        if words == ["end"]:
            yield title, lines


def lean():
    with open(IDLE, encoding="ascii") as idle:
        gone = {(title, int(step)) for title, *steps in map(str.split, idle) for step in steps}
    for title, lines in theorems():
        for line, _, step in lines:
            if (title, step) not in gone:
                yield line


def blanked(words, sorts):
    """The words of `apply`, where the theorem declares objects of these sorts."""
    places = [i for i, sort in enumerate(sorts, 2) if sort != "points"]
    return ["_" if i in places[-MOST_BLANKS:] else word for i, word in enumerate(words)]


def blanks():
    declared = {}
    for title, lines in theorems():
        declared[title] = []
        for line, words, step in lines:
            if words[0] in ("points", "lines", "circles"):
                declared[title] += words[:1] * (len(words) - 1)
            if step and words[0] == "apply" and (title, step) not in KEPT:
                line = " ".join(blanked(words, declared[words[1]])) + "\n"
            yield line


def most_blanks():
    with open(FOUND, encoding="ascii") as found:
        blank = {(title, int(step)): set(map(int, places)) for title, step, *places in map(str.split, found)}
    for title, lines in theorems():
        for line, words, step in lines:
            places = blank.get((title, step), set()) if words[0] == "apply" else set()
            yield " ".join("_" if i in places else word for i, word in enumerate(words)) + "\n" if places else line


def checked(program, parts, seconds=None):
    """The lines that the program answers of these theorems."""
    text = "".join(line for part in parts for line, _, _ in part).encode()
    out = subprocess.run([program, "check"], input=text, stdout=subprocess.PIPE, check=False, timeout=seconds).stdout
    return out.decode("ascii").splitlines()


def is_accepted(program, parts):
    return checked(program, parts)[-1].startswith("accepted")


def with_those_below():
    """Each theorem's title and lines, and the theorems that it stands on."""
    whole, below = {}, {}
    for title, lines in theorems():
        used = [words[1] for _, words, step in lines if step and words[0] == "apply"]
        wanted = set(used).union(*(below[name] for name in used))
        whole[title], below[title] = lines, wanted
        yield title, lines, [whole[name] for name in whole if name in wanted]


def idle(program):
    """Lines of a title and the steps that can be left out, all at once. Before a theorem stand those that it stands on, as they are."""
    for title, lines, before in with_those_below():
        kept, gone = lines, []
        for line in reversed(lines):
            if line[2] and line[1][0] in ("by", "hence"):
                tried = [other for other in kept if other is not line]
                if is_accepted(program, [*before, tried]):
                    kept = tried
                    gone.append(line[2])
        if gone:
            yield " ".join([title, *map(str, reversed(gone))]) + "\n"


def found(program):
    """Lines of a title, a step and the places of its words that can be blank together: the derivation of the theorem stays."""
    for title, lines, before in with_those_below():
        theorem = list(lines)
        wanted = checked(program, [*before, theorem])[:-1]
        for at, (line, words, step) in enumerate(lines):
            if not step or words[0] != "apply":
                continue
            end = words.index("as") if "as" in words else len(words)
            places = []
            for place in range(end - 1, 1, -1):
                if len(places) == MOST_BLANKS:
                    break
                tried = ["_" if i in (*places, place) else word for i, word in enumerate(words)]
                theorem[at] = (" ".join(tried) + "\n", tried, step)
                try:
                    if checked(program, [*before, theorem], 1.0)[:-1] == wanted:
                        places.append(place)
                except subprocess.TimeoutExpired:
                    pass
            theorem[at] = (line, words, step)
            if places:
                yield " ".join([title, str(step), *map(str, sorted(places))]) + "\n"


FORMS = {"lean": lean, "blanks": blanks, "most-blanks": most_blanks, "idle": idle, "found": found}


if __name__ == "__main__":
    for text in FORMS[sys.argv[1]](*sys.argv[2:]):
        sys.stdout.write(text)
