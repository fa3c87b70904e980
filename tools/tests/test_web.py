"""hac-web: what its server answers, and whom; and what it gives of texts and lists. The page itself is tested in a
browser, by web_page.py."""

from __future__ import annotations

import http.client
import json
import os
import signal
import subprocess
import unittest
from typing import Any, Dict, List, Optional, Tuple

from tests.support import HAC, TOOLS, ToolTest

from hac_web_views import asked_for, marked


class Words(unittest.TestCase):
    def test_words_of_a_query(self) -> None:
        query = rb"(Apple OR pear*) AND NOT {/a \} b/cake} AND AND* AND and"
        self.assertEqual(asked_for(query), ([b"apple", b"and"], (b"pear", b"and")))

    def test_marked_texts(self) -> None:
        self.assertEqual(
            marked(b"An APPLE, apples; pears. peary", b"apple OR pears* OR an"),
            [["An", 1], [" ", 0], ["APPLE", 1], [", apples; ", 0], ["pears", 1], [". peary", 0]],
        )
        self.assertEqual(marked("Äpfel <b>".encode(), "äpfel".encode()), [["Äpfel <b>", 0]])
        self.assertEqual(marked("äpfel".encode(), "äpfel".encode()), [["äpfel", 1]])
        self.assertEqual(marked(b"", b"a"), [])
        self.assertEqual(marked(b"\xff", b""), [["\ufffd", 0]])


class WebTest(ToolTest):
    spaces: List[str] = []

    def serve(self, *words: str) -> None:
        self.process = subprocess.Popen(
            [TOOLS / "hac-web", *words, self.store, *self.spaces],
            stdin=subprocess.DEVNULL,
            stdout=subprocess.PIPE,
            stderr=subprocess.PIPE,
            env={**os.environ, "HAC": str(HAC)},
        )
        self.addCleanup(self._end)
        assert self.process.stdout is not None
        self.address = self.process.stdout.readline().decode().strip()
        host, _, token = self.address[len("http://") :].partition("/")
        self.host, self.token = host, token.rstrip("/")

    def _end(self) -> None:
        self.process.kill()
        self.process.communicate()

    def request(
        self, method: str, path: str, body: Optional[bytes] = None, **headers: str
    ) -> Tuple[int, Dict[str, str], bytes]:
        connection = http.client.HTTPConnection(self.host, timeout=60)
        self.addCleanup(connection.close)
        connection.request(method, path, body, {name.replace("_", "-"): value for name, value in headers.items()})
        reply = connection.getresponse()
        return reply.status, dict(reply.headers), reply.read()

    def ask_page(self, do: str, **more: Any) -> Dict[str, Any]:
        body = json.dumps({"do": do, **more}).encode()
        status, _, answer = self.request("POST", f"/{self.token}/ask", body, Content_Type="application/json")
        self.assertEqual(status, 200)
        return json.loads(answer)

    def change(self, command: str, *paths: str, **more: str) -> Dict[str, Any]:
        return self.ask_page("change", command=command, paths=list(paths), **more)

    def rows(self, path: str) -> List[str]:
        answer = self.ask_page("rows", path=path, **{"from": 0, "count": 500})
        return [f"{row['letter']} {row['path']}" for row in answer["rows"]]


class Whom(WebTest):
    def test_who_is_answered(self) -> None:
        self.make_store("write /a x")
        self.serve()
        port = self.host.partition(":")[2]
        json_type = {"Content_Type": "application/json"}
        question = b'{"do": "rows", "path": "/"}'
        for method, path, body, headers, status in (
            ("GET", f"/{self.token}/", None, {}, 200),
            ("GET", f"/{self.token}/page.js", None, {"Origin": f"http://{self.host}"}, 200),
            ("GET", "/", None, {}, 404),
            ("GET", f"/{self.token}", None, {}, 404),
            ("GET", f"/{self.token}x/", None, {}, 404),
            ("GET", f"/{self.token}/../hac_client.py", None, {}, 404),
            ("GET", f"/{self.token}/", None, {"Host": f"evil.example:{port}"}, 403),
            ("GET", f"/{self.token}/", None, {"Origin": "http://evil.example"}, 403),
            ("POST", f"/{self.token}/ask", question, json_type, 200),
            ("POST", f"/{self.token}/ask", question, {}, 400),
            ("POST", f"/{self.token}/ask", question, {**json_type, "Origin": "null"}, 403),
            ("POST", f"/{self.token}/ask", b"[]", json_type, 400),
            ("POST", f"/{self.token}/ask", b"[" * 100_000, json_type, 400),
            ("POST", "/ask", question, json_type, 404),
        ):
            with self.subTest(method=method, path=path, headers=headers):
                self.assertEqual(self.request(method, path, body, **headers)[0], status)
        _, headers, page = self.request("GET", f"/{self.token}/")
        self.assertIn("default-src 'none'; script-src 'self'", headers["Content-Security-Policy"])
        self.assertEqual((headers["Cache-Control"], headers["Referrer-Policy"]), ("no-store", "no-referrer"))
        self.assertNotIn(b"<script>", page)

    def test_its_end(self) -> None:
        self.make_store("write /a x")
        self.serve()
        self.assertEqual(self.rows("/"), ["f /a"])
        self.process.send_signal(signal.SIGINT)
        self.assertEqual(self.process.communicate(timeout=30), (b"", b""))
        self.assertEqual(self.process.returncode, 0)

    def test_slips(self) -> None:
        for words, status, said in (
            ([self.store], 1, b"there is no such file"),
            (["--port", "70000", self.store], 2, b"a port is at most 65535"),
            ([self.store, "x"], 2, b"not NAME=FILE"),
        ):
            ran = self.run_tool("hac-web", *words, status=status)
            self.assertIn(said, ran.stderr)
        self.assertFalse(self.store.exists())


class What(WebTest):
    def test_lists(self) -> None:
        self.make_store(
            "mkdir /n", *(f"write /n/{count} apple" for count in range(30)), "smkdir /q apple", "write /q/own x", "index"
        )
        self.serve()
        directory = self.ask_page("directory", path="/")
        self.assertEqual(directory["rows"], [{"letter": "d", "name": "n"}, {"letter": "s", "name": "q", "links": 30}])
        answer = self.ask_page("rows", path="/q", **{"from": 29, "count": 5})
        self.assertEqual((answer["total"], answer["query"]), (31, "apple"))
        self.assertEqual([row["path"] for row in answer["rows"]], ["/n/28", "/n/29"])
        self.assertEqual(self.ask_page("rows", path="/none")["refused"], "no-path /none")
        found = self.ask_page("find", query="apple AND NOT x", **{"from": 0, "count": 3})
        self.assertEqual((found["total"], len(found["rows"])), (30, 3))

    def test_texts_in_parts(self) -> None:
        text = b"apple pie " * 10_000
        self.make_store()
        subprocess.run([HAC, self.store], input=b"put /a %d\n" % len(text) + text, check=True, stdout=subprocess.DEVNULL)
        self.serve()
        read, start, parts = "", 0, 0
        while True:
            answer = self.ask_page("text", path="/a", query="apple", **{"from": start})
            read += "".join(piece for piece, _ in answer["pieces"])
            self.assertEqual({piece for piece, is_marked in answer["pieces"] if is_marked}, {"apple"})
            start, parts = answer["next"], parts + 1
            if start == answer["total"]:
                break
        self.assertEqual((read.encode(), parts), (text, 2))

    def test_changes(self) -> None:
        self.make_store()
        self.serve()
        name = "/\udcff <script>"
        self.assertNotIn("refused", self.change("put", name, text="An apple\n"))
        self.assertNotIn("refused", self.change("smkdir", "/q", query="apple"))
        self.assertEqual(self.rows("/q"), [f"t {name}"])
        self.change("srm", name, "/q")
        self.assertEqual(self.rows("/q"), [f"x {name}"])
        self.change("sforget", name, "/q")
        self.assertEqual(self.rows("/q"), [f"t {name}"])
        self.assertEqual(self.ask_page("text", path=name, whole=True)["text"], "An apple\n")
        self.assertEqual(self.change("setq", "/q", query="apple OR OR")["place"], 12)
        self.assertEqual(self.change("setq", "/q", query="a\nb")["refused"], "bad-line")
        self.assertEqual(self.change("index", "/q")["refused"], "bad-line")
        self.assertEqual(self.change("put", "/b", text="x" * 1_048_577)["refused"], "limit text")
        preview = self.ask_page("preview", path="/q", query="pear OR an")
        self.assertEqual((preview["total"], preview["added"], preview["gone"]), (1, [], []))
        preview = self.ask_page("preview", path="/q", query="pear")
        self.assertEqual((preview["total"], preview["gone"]), (0, [name]))
        self.process.send_signal(signal.SIGTERM)
        self.process.wait()
        self.assertEqual(self.ask("sls /q"), [f"t {name}", "ok"])

    def test_for_reading(self) -> None:
        self.make_store("write /a x")
        before = self.store.read_bytes()
        self.serve("--read-only")
        self.assertEqual(self.change("rm", "/a")["refused"], "read-only")
        self.assertEqual(self.rows("/"), ["f /a"])
        self._end()
        self.assertEqual(self.store.read_bytes(), before)

    def test_two_pages(self) -> None:
        self.make_store("write /a x")
        self.serve()
        body = b'{"seen": 0}'
        connection = http.client.HTTPConnection(self.host, timeout=60)
        connection.request("POST", f"/{self.token}/wait", body, {"Content-Type": "application/json"})
        self.change("mkdir", "/d")
        self.assertEqual(json.loads(connection.getresponse().read())["changes"], 1)
        connection.close()

    def test_a_killed_hac(self) -> None:
        self.make_store("write /a x")
        self.serve()
        children = subprocess.run(
            ["pgrep", "-P", str(self.process.pid)], capture_output=True, encoding="ascii"
        ).stdout.split()
        self.assertEqual(len(children), 1)
        os.kill(int(children[0]), signal.SIGKILL)
        self.assertIn("hac was ended by the signal SIGKILL", self.ask_page("rows", path="/")["stopped"])

    def test_what_depends_on_what(self) -> None:
        self.make_store("smkdir /a x", "smkdir /a/b y AND {/a}", "mkdir /d", "sln /d /a")
        self.serve()
        edges = self.ask_page("graph")["edges"]
        self.assertEqual(
            sorted(edges),
            [["/a", "/", "parent"], ["/a", "/d", "link"], ["/a/b", "/a", "parent"], ["/a/b", "/a", "query"]],
        )
