"""Makes each read, each write and each allocation of a run fail in turn, and looks at what the program answers.

Words: the program. The books are one of one theorem, one of two, of which the second applies the first with a blank, and Euclid's first
and fourth propositions, and the first stated by a definition; each is checked, and what is written of it is verified, upgraded,
trimmed and listed, and so is the first proposition by other certificates; of the two theorems it is asked what may be applied. After a failed read the answer
must be a read fault, with exit status 4, or the usual one where the library asks again; `check` writes before it the blocks of the
theorems that were read by then. After a failed write it must be a front of the usual bytes, with 5; after a
refused allocation the usual answer, or what was written and `no memory`, with 6. It needs a C compiler.
"""

import os
import subprocess
import sys
import tempfile

HERE = os.path.dirname(os.path.abspath(__file__))
ONE = "theorem T\npoints a\ngiven a = a\nshow a = a\nproof\nqed\nend\n"
TWO = (
    "theorem T1\npoints a\nlines L\ngiven on a L\nshow on a L\nproof\nqed\nend\n"
    "theorem T2\npoints a\nlines L M\ngiven on a L ; on a M\nshow on a L\nproof\napply T1 a _\nqed\nend\n"
)
DEFINED = "define D\npoints a\nlines L\nshow on a L\nend\n" + TWO.replace("given on a L ; on a M", "given as D a L ; as D a M")
# The first proposition by certificates that `check` does not write.
TEXT = """\
derivation 1
theorem I.1
points a b
given a != b
made points c
show seg a b = seg b c
show seg b c = seg c a
proof
let A circle a b
| fact
by eqs-p b a : b != a
let B circle b a
| fact
by g3 a A : inside a A
by g3 b B : inside b B
by x5 b a A B : meets A B
let c meet A B
| fact
hence seg a b = seg a c
| transfer ds3b a b c A
| fact
| fact
| fact
hence seg b a = seg b c
| transfer ds3b b a c B
| fact
| fact
| fact
qed c
| fact
| metric
| differs goal
| sum
| 1 above
| -1 fact seg a b = seg a c
| 1 fact seg b a = seg b c
| sum
| 1 below
| 1 fact seg a b = seg a c
| -1 fact seg b a = seg b c
end
accepted 1
"""
KINDS = ("alloc", "read", "write")
HEADS = {"check": b"derivation 1\n", "upgrade": b"derivation 2\n", "trim": b"derivation 1\n", "uses": b""}
OF_TEXTS = ("verify", "upgrade", "trim", "uses")


def run(words, text, room, kind=None, call=None):
    """The exit status, the bytes written, and how many calls of each kind there were."""
    given = {"LD_PRELOAD": f"{room}/failing.so", "FAIL_COUNT": f"{room}/count"}
    if kind:
        given |= {"FAIL_KIND": kind, "FAIL_CALL": str(call)}
    ran = subprocess.run(words, input=text, stdout=subprocess.PIPE, env=given, check=False)
    with open(f"{room}/count", encoding="ascii") as counts:
        return ran.returncode, ran.stdout, dict(zip(KINDS, map(int, counts.read().split())))


def is_front_of_blocks(command, out, usual, last):
    """Whether these are the head line and whole blocks of the usual bytes, or whole lines of `uses`, and then this line."""
    front = out[: -len(last)]
    whole = b"\n" if command == "uses" else b"\nend\n"
    return out.endswith(last) and usual.startswith(front) and (front == HEADS[command] or front.endswith(whole))


def is_right(kind, command, ran, usual):
    status, out = ran
    if ran == usual:
        return kind != "write"
    if kind == "read":
        last = b"read fault\n"
        return status == 4 and (is_front_of_blocks(command, out, usual[1], last) if command in HEADS else out == last)
    if kind == "write":
        return status == 5 and usual[1].startswith(out) and out != usual[1]
    last = b"no memory\n"
    if command in HEADS:
        return status == 6 and (out == b"" or is_front_of_blocks(command, out, usual[1], last))
    return status == 6 and out in (b"", last)


def tried(program, words, name, text, room):
    """Runs a command on a text with each call failing in turn: what it writes where none fails, and how many answers are wrong."""
    command, *_ = words.split()
    status, usual, counts = run([program, *words.split()], text, room)
    told = {}
    wrong = 0
    for kind in KINDS:
        for call in range(counts[kind]):
            ran = run([program, *words.split()], text, room, kind, call)[:2]
            told[kind, ran[0]] = told.get((kind, ran[0]), 0) + 1
            if not is_right(kind, command, ran, (status, usual)):
                wrong += 1
                print(f"WRONG: {words} of {name}, {kind} {call}: exit {ran[0]}, {ran[1][-60:]!r}")
    print(f"{words} of {name}: {counts}; answers: " + ", ".join(f"{k} exit {s}: {n}" for (k, s), n in sorted(told.items())))
    return usual, wrong


def example(name):
    with open(f"{HERE}/../examples/{name}.book", "rb") as book:
        return book.read()


def main(program):
    with tempfile.TemporaryDirectory() as room:
        subprocess.run(["cc", "-O1", "-shared", "-fPIC", "-o", f"{room}/failing.so", f"{HERE}/failing.c", "-ldl"], check=True)
        books = [("one theorem", ONE.encode()), ("two theorems", TWO.encode()), ("two theorems by a definition", DEFINED.encode())]
        books += [("I.1", example("I.1")), ("I.4", example("I.4"))]
        wrong = 0
        for name, book in books:
            text, wrong_checks = tried(program, "check", name, book, room)
            wrong += wrong_checks + sum(tried(program, command, name, text, room)[1] for command in OF_TEXTS)
            if name.startswith("two"):
                wrong += tried(program, "suggest T2 1", name, book, room)[1]
        for command in OF_TEXTS:
            wrong += tried(program, command, "I.1 by other certificates", TEXT.encode(), room)[1]
    print("wrong answers:", wrong)
    sys.exit(1 if wrong else 0)


if __name__ == "__main__":
    main(os.path.abspath(sys.argv[1] if len(sys.argv) > 1 else f"{HERE}/../release/elements"))
