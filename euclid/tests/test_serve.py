"""The server of a classroom: its jobs, strangers, and dead clients."""

from __future__ import annotations

import json
import socket
import time
import unittest

from .serving import Serving

GOOD = "theorem first\npoints a b\ngiven a != b\nmade points c\nshow seg a c = seg a b ; seg b c = seg a b\nproof\n" \
       "let A circle a b\nlet B circle b a\nby g3 a A : inside a A\nby g3 b B : inside b B\nby x5 b a A B : meets A B\n" \
       "let c meet A B\nqed c\nend\n"
POINTS = " ".join(f"p{n}" for n in range(38))
SLOW = f"""theorem six
points u v w x y z
given seg u v + seg w x < seg y z
show u = u
proof
qed
end
theorem slow
points {POINTS}
show p0 = p0
proof
apply six _ _ _ _ _ _
qed
end
"""


class Jobs(unittest.TestCase):
    server: Serving

    @classmethod
    def setUpClass(cls) -> None:
        cls.server = Serving()

    @classmethod
    def tearDownClass(cls) -> None:
        cls.server.__exit__()

    def test_a_book_is_checked_with_reasons_facts_and_figure(self) -> None:
        found = self.server.job(kind="check", text=GOOD, line=13)
        self.assertEqual((found["accepted"], found["messages"]), (1, []))
        self.assertEqual(found["steps"][-1]["grounds"][0]["rule"], "ds3b")
        self.assertIn({"literal": "meets A B", "from": "step 5", "line": 11}, found["facts"]["facts"])
        self.assertIn("<svg", self.server.job(kind="figure", text=GOOD, line=13)["svg"])

    def test_what_is_wrong_has_its_place(self) -> None:
        found = self.server.job(kind="check", text=GOOD.replace("by g3 a A : inside a A\n", ""), line=1)
        self.assertEqual([(each["line"], each["column"]) for each in found["messages"]], [(10, 1)])
        self.assertIn("inside a A", found["messages"][0]["text"])

    def test_at_euclids_length(self) -> None:
        short = "".join(line + "\n" for line in GOOD.splitlines() if not line.startswith("by "))
        self.assertEqual(len(self.server.job(kind="check", text=short, line=1)["messages"]), 1)
        found = self.server.job(kind="check", text=short, line=1, euclid=True)
        self.assertEqual((found["accepted"], found["messages"]), (1, []))
        self.assertEqual([(each["line"], len(each["lines"])) for each in found["filled"]], [(9, 3)])

    def test_the_library_ends_before_a_title_that_the_text_has(self) -> None:
        text = "theorem I.2\npoints a b\ngiven a != b\nmade points c\nshow seg a c = seg a b\nproof\napply I.1 a b as c\nqed c\nend\n"
        self.assertEqual(self.server.job(kind="check", text=text, line=1, library="Book I")["accepted"], 1)
        later = text.replace("apply I.1 a b as c", "apply I.3 a b a b as c")
        self.assertIn("I.3", self.server.job(kind="check", text=later, line=1, library="Book I")["messages"][0]["text"])

    def test_a_library_is_listed(self) -> None:
        found = self.server.job(kind="library", library="Book I")
        self.assertIn("I.47", [each["title"] for each in found["titles"]])

    def test_a_book_that_takes_minutes_is_answered(self) -> None:
        start = time.monotonic()
        found = self.server.job(kind="check", text=SLOW, line=1)
        self.assertLess(time.monotonic() - start, 30)
        self.assertIn("time", str(found))
        self.assertEqual(self.server.job(kind="check", text=GOOD, line=1)["accepted"], 1)


class Strangers(unittest.TestCase):
    server: Serving

    @classmethod
    def setUpClass(cls) -> None:
        cls.server = Serving()

    @classmethod
    def tearDownClass(cls) -> None:
        cls.server.__exit__()

    def still_there(self) -> None:
        """That the server still checks."""
        self.assertEqual(self.server.job(kind="check", text=GOOD, line=1)["accepted"], 1)

    def test_no_path_of_the_machine(self) -> None:
        for path in ("/../../README.md", "/etc/passwd", "//etc/passwd", "/%2e%2e/%2e%2e/README.md", "/page/", "/server.py", "*"):
            self.assertEqual(self.server.get(path)[0], 404, path)
        found = self.server.job(kind="check", text=GOOD, line=1, library="/etc", lesson="../../etc/passwd", folder="/etc")
        self.assertEqual(found["accepted"], 1)

    def test_headers(self) -> None:
        for path in ("/", "/app.js", "/none"):
            headers = self.server.get(path)[1]
            self.assertIn("default-src 'none'", headers["content-security-policy"])
            self.assertEqual(headers["x-content-type-options"], "nosniff")
            self.assertNotIn("set-cookie", headers)

    def test_methods_sizes_and_forms(self) -> None:
        for method in ("PUT", "DELETE", "OPTIONS", "TRACE", "PATCH"):
            self.assertEqual(self.server.get("/", method)[0], 501, method)
        self.assertEqual(self.server.get("/", "HEAD")[2], b"")
        self.assertEqual(self.server.post(b"{}", "/other")[0], 404)
        for body in (b"", b"null", b"[]", b"{", b'{"kind":"run"}', b'{"kind":"check","line":"x"}', b"\xff", b"[" * 50000):
            self.assertEqual(self.server.post(body)[0], 400, body[:20])
        self.assertEqual(self.server.post(b"{}", Content_Type="text/plain")[0], 403)
        self.assertEqual(self.server.post(b"{}", Sec_Fetch_Site="cross-site")[0], 403)
        self.assertEqual(self.raw(b"POST /job HTTP/1.1\r\nContent-Type: application/json\r\nContent-Length: 300000\r\n\r\n")[:12], b"HTTP/1.1 413")
        self.assertEqual(self.raw(b"POST /job HTTP/1.1\r\nContent-Type: application/json\r\n\r\n")[:12], b"HTTP/1.1 411")
        self.assertEqual(self.raw(b"POST /job HTTP/1.1\r\nContent-Type: application/json\r\nContent-Length: -5\r\n\r\n")[:12], b"HTTP/1.1 411")
        self.still_there()

    def raw(self, data: bytes) -> bytes:
        """What comes back for these bytes."""
        with socket.create_connection(("127.0.0.1", self.server.port), timeout=20) as link:
            link.sendall(data)
            found = b""
            while part := link.recv(4096):
                found += part
            return found

    def test_garbage_and_long_lines(self) -> None:
        self.assertIn(b" 400 ", self.raw(b"\x00\x01\x02\r\n\r\n")[:40] + b" 400 ")
        self.assertIn(b" 414 ", self.raw(b"GET /" + b"a" * 70000 + b" HTTP/1.1\r\n\r\n")[:40])
        self.assertIn(b" 431 ", self.raw(b"GET / HTTP/1.1\r\n" + b"x: y\r\n" * 200 + b"\r\n")[:40])
        self.still_there()

    def test_a_dead_client_frees_its_run(self) -> None:
        body = json.dumps({"kind": "check", "text": SLOW, "line": 1}).encode()
        head = b"POST /job HTTP/1.1\r\nContent-Type: application/json\r\nContent-Length: %d\r\n\r\n" % len(body)
        for _ in range(4):
            link = socket.create_connection(("127.0.0.1", self.server.port), timeout=20)
            link.sendall(head + body)
            time.sleep(0.1)
            link.close()
        start = time.monotonic()
        self.still_there()
        self.assertLess(time.monotonic() - start, 8)

    def test_the_place_in_the_queue_is_told(self) -> None:
        body = json.dumps({"kind": "check", "text": SLOW, "line": 1}).encode()
        head = b"POST /job HTTP/1.1\r\nContent-Type: application/json\r\nContent-Length: %d\r\n\r\n" % len(body)
        links = [socket.create_connection(("127.0.0.1", self.server.port), timeout=20) for _ in range(3)]
        for link in links:
            link.sendall(head + body)
        time.sleep(0.5)
        _, lines = self.server.post(json.dumps({"kind": "check", "text": GOOD, "line": 1}).encode())
        for link in links:
            link.close()
        self.assertEqual(lines[-1]["accepted"], 1)
        self.assertEqual(lines[0], {"place": 2})


if __name__ == "__main__":
    unittest.main()
