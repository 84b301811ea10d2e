#!/usr/bin/env python3
"""Tries the syntax files on books and derivation texts.

    python3 editors/check.py [--exe PATH] [FILES..]

Each word of the files gets the scope that the TextMate grammar gives to its first character, and
the group that Vim gives to it, where vim is there. A word without one is a finding; so is a word of
the language that is told as a name, but for a title or a rule. With --exe the derivation texts that
`check` writes of the books are tried too.
"""

import argparse
import json
import re
import shutil
import subprocess
import sys
import tempfile
from pathlib import Path

HERE = Path(__file__).resolve().parent
SYNTAXES = HERE / "vscode/syntaxes"
WORDS = set(
    """theorem points lines circles given made show proof end by hence let apply as claim superpose
    onto qed contradiction cases else not on inside center between same-side meets seg ang area right
    point line circle side opposite of beyond from outside meet centers avoid define = != < <= + ; : |""".split()
)
DUMP = r"""
let rows = []
for line in range(1, line('$'))
  let text = getline(line)
  let at = match(text, '\S')
  while at >= 0
    call add(rows, synIDattr(synID(line, at + 1, 1), 'name'))
    let at = match(text, '\S', match(text, '\s\|$', at))
  endwhile
endfor
call writefile(rows, $GROUPS)
quitall!
"""


class Grammar:
    def __init__(self, name):
        self.scope = f"source.elements.{name}"
        self.rules = []
        self.add(name, json.loads((SYNTAXES / f"elements-{name}.tmLanguage.json").read_text())["patterns"])

    def add(self, name, patterns):
        grammar = json.loads((SYNTAXES / f"elements-{name}.tmLanguage.json").read_text())
        for pattern in patterns:
            if "include" in pattern:
                scope, _, key = pattern["include"].partition("#")
                other = scope.split(".")[-1] or name
                if other != name:
                    self.include(other, key)
                else:
                    self.add(name, grammar["repository"][key]["patterns"])
            else:
                captures = {int(k): v["name"] for k, v in pattern.get("captures", {}).items()}
                self.rules.append((re.compile(pattern["match"]), pattern.get("name"), captures))

    def include(self, name, key):
        grammar = json.loads((SYNTAXES / f"elements-{name}.tmLanguage.json").read_text())
        self.add(name, grammar["repository"][key]["patterns"])

    def scopes(self, line):
        """The scope of each character: the rule that matches first, then the one that stands first."""
        scopes, at = [None] * len(line), 0
        while at < len(line):
            found = [(m.start(), i, m) for i, rule in enumerate(self.rules) if (m := rule[0].search(line, at))]
            if not found:
                break
            _, i, match = min(found, key=lambda item: item[:2])
            for group, scope in [(0, self.rules[i][1]), *self.rules[i][2].items()]:
                for place in range(*match.span(group)):
                    scopes[place] = scope or scopes[place]
            at = max(match.end(), at + 1)
        return scopes

    def words(self, text):
        for line in text.split("\n"):
            scopes = self.scopes(line)
            yield from (scopes[match.start()] for match in re.finditer(r"\S+", line))


def vim_groups(text, name):
    with tempfile.TemporaryDirectory() as folder:
        path = Path(folder) / ("t.book" if name == "book" else "t.text")
        path.write_text(text)
        (Path(folder) / "dump.vim").write_text(DUMP)
        groups = Path(folder) / "groups"
        subprocess.run(
            ["vim", "-N", "-n", "-es", "-u", "NONE", "-i", "NONE", "--cmd", f"set runtimepath^={HERE}/vim",
             "-c", "filetype plugin on", "-c", "syntax on", "-c", f"edit {path}", "-S", f"{folder}/dump.vim"],
            env={"GROUPS": str(groups), "PATH": "/usr/bin:/bin", "TERM": "dumb", "HOME": folder}, timeout=300,
        )  # fmt: skip
        return groups.read_text().split("\n")[:-1]


def words_of(text):
    """Each word with its line, and whether it is a word of the language at its place."""
    for number, line in enumerate(text.split("\n"), 1):
        words = line.split()
        for at, word in enumerate(words):
            named = at == 1 and words[0] in ("theorem", "apply", "by")
            comment = words[0].startswith("#")
            yield number, word, word in WORDS and not named and not comment


def main():
    parser = argparse.ArgumentParser(description=__doc__.split("\n")[0])
    parser.add_argument("--exe", help="the program elements")
    parser.add_argument("files", nargs="*", type=Path, metavar="FILES")
    options = parser.parse_args()
    texts = []
    for path in options.files or sorted((HERE.parent / "examples").glob("**/*.book")):
        data = path.read_bytes()
        if not data.isascii():  # a mistake that an example shows: the line is faulty, whatever its words are
            continue
        text = data.decode("ascii")
        texts.append((path, "derivation" if text.startswith("derivation ") else "book", text))
        if options.exe and texts[-1][1] == "book":
            made = subprocess.run([options.exe, "check"], input=text, capture_output=True, text=True)
            texts.append((f"derivation of {path}", "derivation", made.stdout))
    grammars = {name: Grammar(name) for name in ("book", "derivation")}
    has_vim = shutil.which("vim") is not None
    count = findings = 0
    for path, name, text in texts:
        words = list(words_of(text))
        columns = [("TextMate", list(grammars[name].words(text)))]
        if has_vim:
            columns.append(("vim", vim_groups(text, name)))
        for editor, scopes in columns:
            assert len(scopes) == len(words), (path, editor, len(scopes), len(words))
            for (number, word, of_language), scope in zip(words, scopes):
                count += 1
                is_name = scope in ("variable.other.elements", "elementsName")
                if not scope or of_language and is_name or re.search("invalid|Stop$|Reserved", scope) and name == "book":
                    findings += 1
                    print(f"{path}:{number}: {editor} tells {word} as {scope}")
    print(f"{len(texts)} texts, {'TextMate and vim' if has_vim else 'TextMate alone: no vim here'}")
    print(f"{count} words, {findings} without a scope")
    return 1 if findings else 0


if __name__ == "__main__":
    sys.exit(main())
