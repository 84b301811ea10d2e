#!/usr/bin/env python3
"""Damages derivation texts and compares what `elements verify` and tools/verify.py answer to them.

    python3 tools/agree.py [--exe PATH] [--seed S] [--count N] [--lines N] [--keep DIR] [FILES..]

Each of FILES is a derivation text, or a book, of which `check` makes one; by default they are the
accepted books of examples/. Of each text, and of N damaged ones, the two answers and the two exit
statuses have to be equal. A text to be damaged is one block of a file behind those that it applies,
so that also the blocks of a long book are quick; each is taken in both versions; short texts are taken more often than long ones,
and none with more lines than --lines. The same seed damages the same texts in the same way. With
--keep each text on which the two differ is written into a file of DIR.

The last line counts, as in `2000 compared, 0 differ`, and the exit status is 0 where none differ.
"""

import argparse
import random
import subprocess
import sys
from collections import Counter
from pathlib import Path

sys.dont_write_bytecode = True
import verify  # noqa: E402

TOP = Path(__file__).resolve().parent.parent
EXE = TOP / "release/elements"

WORDS = """not on inside center between same-side meets = != < <= + 0 1 2 ; : | seg ang area right
fact metric transfer clash sum differs goal pos top least above below made points lines circles given
show proof by hence let apply as claim superpose onto qed contradiction cases else end avoid point line
circle side opposite of beyond from outside meet centers _ # a b c L M A -1 00 1208925819614629174706176
1208925819614629174706177 1000000 1000001 4294967295 4294967296""".split()


def derivations_of(exe, path):
    """The derivation texts of a file, one of each version that it has, or none where it is a book
    that is not accepted."""
    data = path.read_bytes()
    if not data.startswith(b"derivation "):
        made = subprocess.run([exe, "check"], input=data, capture_output=True)
        if made.returncode != 0:
            return []
        data = made.stdout
    upgraded = subprocess.run([exe, "upgrade"], input=data, capture_output=True)
    texts = {data, upgraded.stdout} if upgraded.returncode == 0 else {data}
    return [text.decode("ascii") for text in sorted(texts)]


def texts_of_blocks(text):
    """For each block its text: the head, the blocks that it needs, the block, and the last line."""
    blocks, needed, texts = {}, {}, []
    block = []
    head, *lines = text.split("\n")[:-2]
    for line in lines:
        block.append(line)
        if line == "end":
            title = block[0].split()[1]
            used = {line.split()[1] for line in block if line.startswith("apply ")}
            needed[title] = used.union(*(needed[other] for other in used))
            blocks[title] = block
            before = [line for other in blocks if other in needed[title] for line in blocks[other]]
            last = f"accepted {len(needed[title]) + 1}"
            texts.append(([head, *before, *block, last], len(before) + 1))
            block = []
    return texts


# Ways to damage a text. Each takes the lines, the number of the first line of the last block, and
# the source of chance, and changes the lines in place.

KINDS = []


def damage(function):
    KINDS.append(function)
    return function


def some_line(lines, first, chance, wanted=lambda words: True):
    """The number of a line of the wanted kind, mostly in the last block."""
    low = first if chance.random() < 0.95 else 0
    fit = [i for i in range(low, len(lines)) if wanted(lines[i].split() or [""])]
    return chance.choice(fit) if fit else chance.randrange(len(lines))


def change_word(lines, i, chance, change, wanted=lambda word: True):
    words = lines[i].split(" ")
    fit = [k for k, word in enumerate(words) if wanted(word)]
    if fit:
        k = chance.choice(fit)
        words[k] = change(words[k])
        lines[i] = " ".join(word for word in words if word is not None)


def names_of(lines):
    words = {word for line in lines for word in line.split()}
    return sorted(word for word in words if word[0].isalpha() and len(word) < 3)


@damage
def other_word(lines, first, chance):
    pool = WORDS if chance.random() < 0.5 else lines[some_line(lines, first, chance)].split()
    change_word(lines, some_line(lines, first, chance), chance, lambda word: chance.choice(pool or WORDS))


@damage
def word_gone(lines, first, chance):
    change_word(lines, some_line(lines, first, chance), chance, lambda word: None)


@damage
def word_more(lines, first, chance):
    i = some_line(lines, first, chance)
    change_word(lines, i, chance, lambda word: f"{word} {chance.choice(WORDS + lines[i].split())}")


@damage
def other_name(lines, first, chance):
    names = names_of(lines[first:]) or ["a"]
    i = some_line(lines, first, chance)
    change_word(lines, i, chance, lambda word: chance.choice(names), lambda word: word in names)


@damage
def names_exchanged(lines, first, chance):
    i = some_line(lines, first, chance)
    words, names = lines[i].split(" "), names_of(lines[first:])
    fit = [k for k, word in enumerate(words) if word in names]
    if len(fit) > 1:
        j, k = chance.sample(fit, 2)
        words[j], words[k] = words[k], words[j]
        lines[i] = " ".join(words)


@damage
def renamed_everywhere(lines, first, chance):
    names = names_of(lines[first:]) or ["a"]
    old, new = chance.choice(names), chance.choice(names + ["z", "Z9"])
    for i in range(first, len(lines)):
        lines[i] = " ".join(new if word == old else word for word in lines[i].split(" "))


@damage
def line_gone(lines, first, chance):
    del lines[some_line(lines, first, chance)]


@damage
def line_twice(lines, first, chance):
    i = some_line(lines, first, chance)
    lines.insert(i, lines[i])


@damage
def lines_exchanged(lines, first, chance):
    i = some_line(lines, first, chance)
    k = min(i + 1, len(lines) - 1) if chance.random() < 0.5 else some_line(lines, first, chance)
    lines[i], lines[k] = lines[k], lines[i]


@damage
def line_moved(lines, first, chance):
    line = lines.pop(some_line(lines, first, chance))
    lines.insert(some_line(lines, first, chance), line)


def step_of(lines, i):
    """The end of the step that begins at line i: behind its certificates."""
    end = i + 1
    while end < len(lines) and lines[end].startswith("|"):
        end += 1
    return end


@damage
def step_moved(lines, first, chance):
    i = some_line(lines, first, chance, lambda words: words[0] in ("by", "hence", "let", "apply"))
    step = lines[i : step_of(lines, i)]
    if chance.random() < 0.6:
        del lines[i : step_of(lines, i)]
    k = some_line(lines, first, chance, lambda words: words[0] != "|")
    lines[k:k] = step


@damage
def other_certificate(lines, first, chance):
    kinds = ["fact", "metric", "sum", "differs goal", "transfer ds3b a b c A", "clash a = b"]
    i = some_line(lines, first, chance, lambda words: words[0] == "|")
    lines[i] = "| " + chance.choice(kinds)


@damage
def certificate_taken(lines, first, chance):
    i, k = (some_line(lines, first, chance, lambda words: words[0] not in "|") for _ in "ab")
    lines[i + 1 : step_of(lines, i)] = lines[k + 1 : step_of(lines, k)]


@damage
def certificate_to_fact(lines, first, chance):
    i = some_line(lines, first, chance, lambda words: words[0] == "hence")
    lines[i + 1 : step_of(lines, i)] = ["| fact"]


@damage
def other_rule(lines, first, chance):
    def wanted(words):
        return words[0] == "by" or words[:2] == ["|", "transfer"]

    pool = [*TABLES.diagram, *TABLES.transfer]
    i = some_line(lines, first, chance, wanted)
    words = lines[i].split()
    alike = [name for name in pool if any(name[:2] == word[:2] for word in words)]
    change_word(lines, i, chance, lambda word: chance.choice(alike or pool), lambda word: word in pool)


def is_row(words):
    return words[:1] == ["|"] and len(words) > 2 and words[1].lstrip("-").isdigit()


@damage
def other_multiplier(lines, first, chance):
    i = some_line(lines, first, chance, is_row)
    new = ["1", "-1", "2", "-2", "3", "0", "-0", "01", "1208925819614629174706176", "-7", "+1", "-"]

    def change(word):
        return word.lstrip("-") if chance.random() < 0.2 else chance.choice(new)

    if is_row(lines[i].split()):
        bar, word, *rest = lines[i].split(" ")
        lines[i] = " ".join([bar, change(word), *rest])


@damage
def sum_times(lines, first, chance):
    """A whole sum is multiplied, mostly by a positive number: it stays good."""
    i = some_line(lines, first, chance, lambda words: words == ["|", "sum"])
    by = chance.choice([2, 3, 10**6, -1, 2**40])
    for k in range(i + 1, len(lines)):
        if not is_row(lines[k].split()):
            break
        bar, word, *rest = lines[k].split(" ")
        lines[k] = " ".join([bar, str(int(word) * by), *rest])


@damage
def row_more(lines, first, chance):
    i = some_line(lines, first, chance, is_row)
    terms = [f"seg {a} {b}" for a in "abcd" for b in "abcd"] + ["right", "ang a b c", "area a b c"]
    literals = [line.split(" ", 1)[1] for line in lines if line[:6] in ("given ", "hence ")]
    rows = ["right", "goal", "above", "below"]
    rows += [f"{word} {chance.choice(terms)}" for word in ("pos", "top", "least")]
    rows += [f"fact {literal}" for literal in literals[-3:]]
    lines.insert(i + chance.randrange(2), f"| {chance.choice([1, -1, 2])} {chance.choice(rows)}")


@damage
def other_coefficient(lines, first, chance):
    i = some_line(lines, first, chance, lambda words: "seg" in words or "ang" in words)
    number = chance.choice(["2", "3", "1", "0", "1000000", "1000001", "02"])
    change_word(
        lines, i, chance, lambda word: f"{number} {word}", lambda word: word in ("seg", "ang", "area", "right")
    )


@damage
def term_more(lines, first, chance):
    i = some_line(lines, first, chance, lambda words: "seg" in words or "ang" in words)
    names = [name for name in names_of(lines[first:]) if name.islower()] or ["a"]
    times = chance.choice([1, 1, 1, 2, 15, 31, 32])
    term = " + ".join(f"seg {chance.choice(names)} {chance.choice(names)}" for _ in range(times))
    change_word(lines, i, chance, lambda word: f"+ {term} {word}", lambda word: word in ("=", "<", "<=", "!="))
    if chance.random() < 0.5:
        lines[i] += " + " + term


@damage
def term_turned(lines, first, chance):
    """The points of a term are written the other way round: as a literal it is the same."""
    i = some_line(lines, first, chance, lambda words: "seg" in words or "ang" in words)
    words = lines[i].split(" ")
    size = {"seg": 3, "ang": 4, "area": 4}
    fit = [k for k, word in enumerate(words) if word in size and k + size[word] <= len(words)]
    if fit:
        k = chance.choice(fit)
        words[k + 1 : k + size[words[k]]] = words[k + 1 : k + size[words[k]]][::-1]
        lines[i] = " ".join(words)


@damage
def sides_exchanged(lines, first, chance):
    i = some_line(lines, first, chance, lambda words: "=" in words or "!=" in words)
    words = lines[i].split(" ")
    starts = [k for k, word in enumerate(words) if word in ("fact", "hence", "given", "show", ":", "cases")]
    start = starts[-1] + 1 if starts else 0
    for sign in ("=", "!=", "<", "<="):
        if words[start:].count(sign) == 1:
            at = words.index(sign, start)
            lines[i] = " ".join([*words[:start], *words[at + 1 :], sign, *words[start:at]])


@damage
def negated(lines, first, chance):
    signs = {"=": "!=", "!=": "=", "<": "<=", "<=": "<"}
    i = some_line(lines, first, chance, lambda words: len(words) > 2)
    words = lines[i].split(" ")
    if "not" in words:
        words.remove("not")
    elif any(word in signs for word in words):
        words = [signs.get(word, word) for word in words]
    else:
        verbs = ("on", "inside", "between", "center", "meets", "same-side")
        words = [f"not {word}" if word in verbs else word for word in words]
    lines[i] = " ".join(words)


@damage
def number_changed(lines, first, chance):
    i = some_line(lines, first, chance, lambda words: any(word.lstrip("-").isdigit() for word in words))
    new = ["0", "1", "2", "3", "4", "5", "01", "94", "1000001"]
    change_word(lines, i, chance, lambda word: chance.choice(new), lambda word: word.lstrip("-").isdigit())


@damage
def byte_changed(lines, first, chance):
    i = some_line(lines, first, chance)
    at = chance.randrange(len(lines[i]) + 1)
    byte = chance.choice(" \t\r#|_;:=!<0a~\x7f\x00\xff\n")
    lines[i] = lines[i][:at] + byte + lines[i][at + chance.randrange(2) :]


@damage
def text_cut(lines, first, chance):
    del lines[some_line(lines, first, chance) :]


@damage
def last_end_gone(lines, first, chance):
    lines[-1] += chance.choice(["", "\0no end", "\r", " ", "\n", "\naccepted 1", "\ntheorem T"])


@damage
def fact_again(lines, first, chance):
    """A given literal comes once more, as a step that is a fact."""
    given = [line[6:] for line in lines[first:] if line.startswith("given ")]
    i = some_line(lines, first, chance, lambda words: words[0] in ("by", "hence", "let", "qed"))
    literal = chance.choice(given or ["a = a"])
    lines[i:i] = [f"hence {literal}", "| fact"]
    term_turned(lines, i, chance)


@damage
def claim_round(lines, first, chance):
    """A claim of a given literal, up to many times one inside the other."""
    given = [line[6:] for line in lines[first:] if line.startswith("given ")]
    i = some_line(lines, first, chance, lambda words: words[0] in ("by", "hence", "let", "qed"))
    literal, times = chance.choice(given or ["a = a"]), chance.choice([1, 1, 2, 3, 30, 31, 32])
    lines[i:i] = [f"claim {literal}"] * times + ["qed", "| fact"] * times


@damage
def cases_round(lines, first, chance):
    """The close of the block becomes one of two cases, up to many times."""
    i = some_line(lines, first, chance, lambda words: words[0] in ("qed", "contradiction"))
    close, times = lines[i : step_of(lines, i)], chance.choice([1, 1, 1, 2, 31, 32])
    given = [line[6:] for line in lines[first:] if line[:6] in ("given ", "hence ")]
    literal = chance.choice(given or ["a = a"])
    lines[i : step_of(lines, i)] = [f"cases {literal}"] * times + (close + ["else"]) * times + close


@damage
def many_more(lines, first, chance):
    """So many objects or steps that a limit may be passed."""
    i = some_line(lines, first, chance, lambda words: words[0] in ("by", "hence", "let", "qed"))
    times = chance.choice([10, 20, 30, 35, 38, 40])
    new = chance.choice(["let {} point", "let {} on {}"])
    lines[i:i] = [new.format(f"z{n}", "L") for n in range(times)]


@damage
def avoiding(lines, first, chance):
    i = some_line(lines, first, chance, lambda words: words[0] == "let")
    lines[i] += " avoid " + " ".join(chance.choices(names_of(lines[first:]) or ["a"], k=chance.randrange(4)))


TABLES = verify.Tables()


def damaged(text, first, chance):
    lines, kinds = list(text), []
    while lines == text or chance.random() < 0.3:
        kinds.append(chance.choice(KINDS))
        if lines:
            kinds[-1](lines, min(first, len(lines) - 1), chance)
    whole = "\n".join(lines) + "\n"
    if "\0no end" in whole:
        whole = whole.replace("\0no end", "").removesuffix("\n")
    return whole.encode("latin-1"), [kind.__name__ for kind in kinds]


def answers(exe, text):
    """The answer and the status of both programs."""
    run = subprocess.run([exe, "verify"], input=text, capture_output=True)
    answer, status = verify.Verifier(text, TABLES).answer()
    return (run.stdout.decode("ascii", "replace"), run.returncode), (f"{answer}\n", status)


def main():
    parser = argparse.ArgumentParser(description=__doc__.split("\n")[0])
    parser.add_argument("--exe", default=EXE, help="the program elements")
    parser.add_argument("--seed", type=int, default=1)
    parser.add_argument("--count", type=int, default=500, help="how many texts are damaged")
    parser.add_argument("--lines", type=int, default=1000, help="how long a text may be")
    parser.add_argument("--keep", type=Path, help="a folder for texts on which the two differ")
    parser.add_argument("files", nargs="*", type=Path, metavar="FILES")
    options = parser.parse_args()
    chance = random.Random(options.seed)

    trials, blocks = [], []
    for path in options.files or sorted(TOP.glob("examples/**/*.book")):
        for text in derivations_of(options.exe, path):
            texts = [(str(path), *text) for text in texts_of_blocks(text)]
            blocks += [block for block in texts if len(block[1]) <= options.lines]
            trials += [(str(path), text.encode("ascii"))] if text.count("\n") <= options.lines else []
    if not blocks:
        sys.exit("agree: no file gives a derivation text")
    weights = [1 / len(lines) for _, lines, _ in blocks]
    for _ in range(options.count):
        path, lines, first = chance.choices(blocks, weights)[0]
        text, kinds = damaged(lines, first, chance)
        trials.append((f"{path}: {lines[first]}: {', '.join(kinds)}", text))

    differ, seen = 0, Counter()
    for number, (name, text) in enumerate(trials):
        theirs, ours = answers(options.exe, text)
        seen[theirs[0].split(" ")[0]] += 1
        if theirs != ours:
            differ += 1
            print(f"text {number}, {name}\n  elements {theirs}\n  verify.py {ours}")
            if options.keep:
                options.keep.mkdir(parents=True, exist_ok=True)
                (options.keep / f"{options.seed}-{number}.text").write_bytes(text)
    print(", ".join(f"{count} {answer}" for answer, count in sorted(seen.items())))
    print(f"{len(trials)} compared, {differ} differ")
    return 1 if differ else 0


if __name__ == "__main__":
    sys.exit(main())
