"""The language server, message by message, on Book I and on small books."""

from __future__ import annotations

import os
import shutil
import tempfile
import unittest
from pathlib import Path
from typing import Any

from .lsp_client import TOP, Client

BOOK = """# Points of a circle.
theorem radii
points a b c
circles A
given center a A ; on b A ; on c A
show seg a b = seg a c
proof
hence seg a b = seg a c
qed
end

theorem order
points a b c d
given between a b c ; between b c d
show between d c a
proof
by b5 d c b a : between d c a
qed
end

theorem twice
points a b c
circles A
given center a A ; on b A ; on c A
show seg a c = seg a b
proof
apply radii a _ c A
qed
end
"""
REFUSED, APPLIED = 16, 26  # the lines of the steps `by b5` and `apply`, from 0


class LspCase(unittest.TestCase):
    """A server for each test, with a folder of its own."""

    def setUp(self) -> None:
        self.folder = Path(tempfile.mkdtemp()).resolve()
        self.path = self.folder / "small.book"
        self.path.write_text(BOOK, encoding="utf-8")
        self.client = Client()
        self.capabilities = self.client.begin()

    def tearDown(self) -> None:
        self.client.close()
        shutil.rmtree(self.folder)

    def opened(self, text: str = BOOK) -> list[dict[str, Any]]:
        """Opens the small book; gives its diagnostics, with the ways."""
        self.client.open(self.path, text)
        found = self.client.diagnostics(self.path, 1)
        return self.client.diagnostics(self.path, 1) if found else found

    def ask(self, method: str, line: int, character: int, **more: Any) -> Any:
        """A request about a place of the small book."""
        return self.client.request("textDocument/" + method, self.client.at(self.path, line, character) | more)


class Diagnostics(LspCase):
    def test_a_refused_step_has_its_place_its_cause_and_what_is_there(self) -> None:
        found = self.opened()
        self.assertEqual([each["range"] for each in found],
                         [{"start": {"line": REFUSED, "character": 0}, "end": {"line": REFUSED, "character": 29}}])
        self.assertIn("`between d c b` (there is `between b c d`)", found[0]["message"])
        self.assertEqual(found[0]["severity"], 1)

    def test_a_mended_book_has_none(self) -> None:
        self.opened()
        lines = BOOK.split("\n")
        lines[REFUSED:REFUSED] = ["by b1a a b c : between c b a", "by b1a b c d : between d c b"]
        self.client.change(self.path, 2, "\n".join(lines))
        self.assertEqual(self.client.diagnostics(self.path, 2), [])

    def test_a_theorem_that_does_not_read_breaks_no_other(self) -> None:
        found = self.opened(BOOK.replace("hence seg a b", "hence seg a"))
        self.assertEqual(sorted(each["range"]["start"]["line"] for each in found), [7, REFUSED, 20])
        self.assertEqual({each["range"]["start"]["line"]: each["code"] for each in found},
                         {7: "faulty", REFUSED: "refused", 20: "rests"})

    def test_what_a_dead_program_says_is_logged(self) -> None:
        self.client.close()
        os.environ["ELEMENTS"] = "/bin/false"
        try:
            self.client = Client()
        finally:
            del os.environ["ELEMENTS"]
        self.client.begin()
        self.client.open(self.path, BOOK)
        logged = self.client.wait(lambda message: message.get("method") == "window/logMessage", 20)
        self.assertIn("elements", logged["params"]["message"])
        self.assertEqual(len(self.ask("documentSymbol", 0, 0)), 3)


class Actions(LspCase):
    def actions(self, line: int) -> list[dict[str, Any]]:
        """What may be done on a line."""
        where = {"start": {"line": line, "character": 0}, "end": {"line": line, "character": 0}}
        params = {"textDocument": {"uri": self.path.as_uri()}, "range": where, "context": {"diagnostics": []}}
        return list(self.client.request("textDocument/codeAction", params))

    def applied(self, action: dict[str, Any], text: str) -> str:
        """The text after the edits of an action, which are of whole lines or in one."""
        for edit in action["edit"]["changes"][self.path.as_uri()]:
            lines = text.split("\n")
            start, end = edit["range"]["start"], edit["range"]["end"]
            before = "\n".join(lines[: start["line"]] + [lines[start["line"]][: start["character"]]])
            after = "\n".join([lines[end["line"]][end["character"] :]] + lines[end["line"] + 1 :])
            text = before + edit["newText"] + after
        return text

    def test_the_lines_that_are_missing_are_filled_in(self) -> None:
        self.opened()
        found = next(each for each in self.actions(REFUSED) if each["title"].startswith("fill in"))
        self.client.change(self.path, 2, self.applied(found, BOOK))
        self.assertEqual(self.client.diagnostics(self.path, 2), [])

    def test_blanks_are_filled_as_chosen(self) -> None:
        self.opened()
        found = next(each for each in self.actions(APPLIED) if each["title"] == "fill the blanks as chosen")
        text = self.applied(found, BOOK)
        self.assertIn("\napply radii a b c A\n", text)

    def test_a_way_that_is_ready_mends_the_step(self) -> None:
        text = BOOK.replace("given between a b c ; between b c d", "given between a b c ; between d c b")
        text = text.replace("by b5 d c b a : between d c a", "by b5 d c b a : between d c a")
        self.opened(text)
        inserts = [each for each in self.actions(REFUSED) if each["title"].startswith("insert")]
        self.assertIn("insert `by b1a a b c : between c b a`", [each["title"] for each in inserts])
        way = next(each for each in inserts if each["title"] == "insert `by b1a a b c : between c b a`")
        self.client.change(self.path, 2, self.applied(way, text))
        self.assertEqual(self.client.diagnostics(self.path, 2), [])

    def test_there_is_none_where_nothing_is_wrong(self) -> None:
        self.opened()
        self.assertEqual(self.actions(7), [])


class Reading(LspCase):
    def test_hover(self) -> None:
        self.opened()
        self.assertIn("overlapping runs", self.ask("hover", REFUSED, 4)["contents"]["value"])
        self.assertIn("Points of a circle.", self.ask("hover", APPLIED, 7)["contents"]["value"])
        self.assertIn("center a A    given", self.ask("hover", 7, 0)["contents"]["value"])
        self.assertIn("a point, declared", self.ask("hover", 7, 10)["contents"]["value"])
        self.assertIsNone(self.ask("hover", 10, 0))
        self.client.notify("workspace/didChangeConfiguration", {"settings": {"euclid": {"pages": "https://example.org/site/"}}})
        self.assertIn("(https://example.org/site/rule/b5.html)", self.ask("hover", REFUSED, 4)["contents"]["value"])

    def test_definition(self) -> None:
        self.opened()
        title = self.ask("definition", APPLIED, 7)
        self.assertEqual([each["range"]["start"] for each in title], [{"line": 1, "character": 8}])
        point = self.ask("definition", REFUSED, 29 - 1)
        self.assertEqual([each["range"]["start"] for each in point], [{"line": 12, "character": 7}])

    def test_references(self) -> None:
        self.opened()
        places = self.ask("references", 1, 9, context={"includeDeclaration": True})
        self.assertEqual([each["range"]["start"]["line"] for each in places], [1, APPLIED])
        used = self.ask("references", 1, 9, context={"includeDeclaration": False})
        self.assertEqual([each["range"]["start"]["line"] for each in used], [APPLIED])
        self.assertEqual(len(self.ask("references", REFUSED, 3, context={})), 1)

    def test_symbols(self) -> None:
        self.opened()
        self.assertEqual([each["name"] for each in self.ask("documentSymbol", 0, 0)], ["radii", "order", "twice"])
        found = self.client.request("workspace/symbol", {"query": "circle"})
        self.assertEqual([each["name"] for each in found], ["radii"])

    def test_folding(self) -> None:
        self.opened()
        folds = {(each["startLine"], each["endLine"]) for each in self.ask("foldingRange", 0, 0)}
        self.assertLessEqual({(1, 9), (6, 9), (11, 18)}, folds)

    def test_tokens_cover_each_word(self) -> None:
        self.opened()
        data = self.ask("semanticTokens/full", 0, 0)["data"]
        words = sum(1 if line.startswith("#") else len(line.split()) for line in BOOK.split("\n"))
        self.assertEqual(len(data), 5 * words)

    def test_hints(self) -> None:
        self.opened()
        where = {"start": {"line": 0, "character": 0}, "end": {"line": 40, "character": 0}}
        labels = {(each["position"]["line"], each["label"]) for each in self.ask("inlayHint", 0, 0, range=where)}
        self.assertIn((7, "by ds3b"), labels)
        self.assertIn((APPLIED, "= b"), labels)
        self.client.notify("workspace/didChangeConfiguration", {"settings": {"euclid": {"hints": False}}})
        self.assertEqual(self.ask("inlayHint", 0, 0, range=where), [])


class Writing(LspCase):
    def labels(self, text: str, line: int, character: int) -> list[str]:
        """What is offered at a place of a text."""
        self.client.change(self.path, 2, text)
        return [each["label"] for each in self.ask("completion", line, character)["items"]]

    def test_completion(self) -> None:
        self.opened()
        lines = BOOK.split("\n")
        for text, wanted in (("", "hence"), ("by ", "b5"), ("apply ", "radii"), ("hence ", "between"), ("by b5 ", "d"),
                             ("let p ", "on L")):
            changed = "\n".join([*lines[:REFUSED], text, *lines[REFUSED:]])
            self.assertIn(wanted, self.labels(changed, REFUSED, len(text)), text)

    def test_only_objects_of_the_wanted_sort_are_offered(self) -> None:
        self.opened()
        lines = BOOK.split("\n")
        changed = "\n".join([*lines[:7], "hence center ", *lines[7:]])
        self.assertEqual(set(self.labels(changed, 7, len("hence center "))), {"a", "b", "c"})

    def test_signature(self) -> None:
        self.opened()
        found = self.ask("signatureHelp", REFUSED, 8)
        self.assertEqual(found["signatures"][0]["label"], "b5 a b c d")
        self.assertEqual(found["activeParameter"], 1)

    def test_rename(self) -> None:
        self.opened()
        changes = self.ask("rename", 1, 9, newName="equal-radii")["changes"][self.path.as_uri()]
        self.assertEqual([each["range"]["start"]["line"] for each in changes], [1, APPLIED])
        with self.assertRaises(AssertionError):
            self.ask("rename", 1, 9, newName="order")
        with self.assertRaises(AssertionError):
            self.ask("rename", 12, 7, newName="b")

    def test_formatting(self) -> None:
        self.opened()
        self.assertEqual(self.ask("formatting", 0, 0, options={}), [])
        self.client.change(self.path, 2, BOOK.replace("qed", "   qed"))
        self.assertEqual(self.ask("formatting", 0, 0, options={})[0]["newText"], BOOK)


class Sturdy(LspCase):
    def test_malformed_messages_and_wrong_order(self) -> None:
        client = self.client
        client.send_bytes(b"Content-Length: 3\r\n\r\n{{{")
        self.assertEqual(client.answer(None)["error"]["code"], -32700)
        client.send_bytes(b"Content-Length: 4\r\n\r\nnull")
        self.assertEqual(client.answer(None)["error"]["code"], -32700)
        self.assertEqual(client.answer(client.ask("textDocument/none", {}))["error"]["code"], -32601)
        self.assertEqual(client.answer(client.ask("textDocument/hover", {}))["error"]["code"], -32602)
        self.assertEqual(client.answer(client.ask("initialize", {}))["error"]["code"], -32600)
        client.change(self.path, 9, "a document that is not open")
        self.opened()

    def test_a_request_before_the_handshake(self) -> None:
        other = Client()
        self.assertEqual(other.answer(other.ask("textDocument/hover", {}))["error"]["code"], -32002)
        other.close()

    def test_a_cancelled_request_is_answered_so(self) -> None:
        number = self.client.next + 1
        self.client.notify("$/cancelRequest", {"id": number})
        self.assertEqual(self.client.answer(self.client.ask("workspace/symbol", {"query": ""}))["error"]["code"], -32800)

    def test_its_exit_status(self) -> None:
        self.assertEqual(self.client.end(), 0)
        other = Client()
        other.notify("exit", None)
        self.assertEqual(other.process.wait(10), 1)
        other.close()

    def test_text_outside_of_ascii(self) -> None:
        text = BOOK.replace("# Points of a circle.", "# Punkte, größer 𝔸.")
        found = self.opened(text)
        self.assertEqual(sorted(each["range"]["start"]["line"] for each in found), [0, REFUSED, 20])


class BookOne(unittest.TestCase):
    def test_a_library_is_checked_whole(self) -> None:
        client = Client()
        client.begin()
        path = TOP / "library" / "book-1" / "I.05.book"
        client.open(path)
        self.assertEqual(client.diagnostics(path, 1), [])
        text = path.read_text(encoding="ascii")
        step = next(line for line in text.split("\n") if line.startswith("by "))
        client.change(path, 2, text.replace(step + "\n", "", 1))
        client.diagnostics(path, 2)
        later = TOP / "library" / "book-1" / "I.06.book"
        self.assertIn("not checked", client.diagnostics(later)[0]["message"])
        client.close()


if __name__ == "__main__":
    unittest.main()
