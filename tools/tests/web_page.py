"""The page over a store, in a browser: each thing done as a person would, and seen in the page and in the store."""

from __future__ import annotations

import http.server
import os
import re
import signal
import subprocess
import sys
import threading
from typing import Any, Callable, ClassVar, List

from tests.browser import Browser
from tests.support import HAC, TOOLS, ToolTest
from tests.test_web import WebTest

NOTES = (
    "mkdir /notes",
    "mkdir /notes/garden",
    r"write /notes/garden/monday.txt Call about apple trees.\nPears, too.",
    "write /notes/shopping.txt Bread, apples and pears",
    "write /notes/cake.txt Apple cake: six apples, butter, flour",
    "write /notes/roof.txt Ring the roofer about the tiles",
    "smkdir /apples apple*",
    "smkdir /apples/baking cake OR flour",
    "smkdir /house roof* OR tiles",
    "index",
)


# So many links; fewer may be asked for where the program is a slow one.
MANY = int(os.environ.get("MANY", 10_000))


class PageTest(WebTest):
    page: ClassVar[Browser]

    @classmethod
    def setUpClass(cls) -> None:
        cls.page = Browser()
        cls.addClassCleanup(cls.page.close)

    def open(self, place: str, *words: str) -> None:
        self.serve(*words)
        self.page.errors()  # Those of an earlier server's end.
        self.page.go(self.address + place)
        self.page.until(lambda: len(self.page.texts("#tree a")) > 0, True)

    def seen_rows(self) -> List[str]:
        """The rows that are seen: what each is, and its name."""
        script = "return Array.from(document.querySelectorAll('.row'), row => row.querySelector('.kind').textContent + ' ' + row.querySelector('.name').textContent)"
        return self.page.run(script)

    def until_rows(self, *wanted: str) -> None:
        self.page.until(self.seen_rows, list(wanted))

    def until_text(self, selector: str, wanted: str) -> None:
        self.page.until(lambda: self.page.text(selector), wanted)

    def holds(self, answer: Callable[[], Any], wanted: Any) -> None:
        self.page.until(answer, wanted)

    def row(self, name: str) -> str:
        """The selector of a row."""
        number = self.page.run(
            "return Array.from(document.querySelectorAll('.row')).find(row => row.querySelector('.name').textContent === arguments[0]).id",
            name,
        )
        return f"#{number}"


class Looking(PageTest):
    def test_directories_links_and_texts(self) -> None:
        self.make_store(*NOTES, "srm /notes/shopping.txt /apples", "sln /notes/roof.txt /apples")
        self.open("#at=/apples")
        self.until_rows("semantic baking", "found monday.txt", "taken out shopping.txt", "found cake.txt", "added roof.txt")
        self.assertEqual(self.page.texts("#tree a .s"), ["apples", "house"])
        self.assertEqual(self.page.texts("#tree .number"), ["3", "1"])
        self.assertEqual(self.page.text("#directory-query"), "apple*")
        self.page.click(self.row("cake.txt"))
        self.until_text("#text", "Apple cake: six apples, butter, flour")
        self.assertEqual(self.page.texts("#text mark"), ["Apple", "apples"])
        self.assertEqual(self.page.run("return location.hash"), "#at=/apples&file=/notes/cake.txt")
        self.page.click(self.row("baking"))
        self.until_rows("found cake.txt")
        self.until_text("#text", "")
        self.page.back()
        self.until_text("#text", "Apple cake: six apples, butter, flour")
        self.page.back()
        self.until_text("#text", "")
        self.assertEqual(self.page.text("#where"), "/apples")
        self.page.run("history.forward()")
        self.until_text("#text-path", "/notes/cake.txt")
        self.assertEqual(self.page.errors(), [])

    def test_whatever_names_and_texts_hold_is_text(self) -> None:
        name = "<img src=x onerror=document.title='bad'>"
        self.make_store(
            f'write "/{name}" <script>document.title="bad"</script> apple', "smkdir /q apple", "index", r"write /bidi\u x"
        )
        self.open("#at=/q")
        self.until_rows(f"found {name}")
        self.page.click(".row")
        self.until_text("#text", '<script>document.title="bad"</script> apple')
        self.assertEqual(
            self.page.run("return [document.title, document.querySelectorAll('main img, main script').length]"),
            ["hac: /q", 0],
        )
        self.page.go(self.address + "#graph")
        self.page.until(lambda: self.page.run("return document.querySelectorAll('#text svg, #text li').length > 0"), True)

    def test_names_that_are_bytes(self) -> None:
        self.make_store()
        subprocess.run(
            [HAC, self.store], input=b"mkdir /d\xff\nwrite /d\xff/\xc3\xa4 apple\n", check=True, stdout=subprocess.DEVNULL
        )
        self.open("")
        self.until_rows(r"directory d\udcff")
        self.page.click(".row")
        self.until_rows("file ä")
        self.assertEqual(self.page.run("return location.hash"), "#at=/d%ff")
        self.page.click(".row")
        self.until_text("#text", "apple")

    def test_a_narrow_window_and_a_dark_one(self) -> None:
        self.make_store(*NOTES)
        self.page.size(400, 800)
        self.addCleanup(self.page.size, 1200, 800)
        self.open("#at=/apples&file=/notes/cake.txt")
        self.until_text("#text-path", "/notes/cake.txt")
        wide = self.page.run("return document.documentElement.scrollWidth <= window.innerWidth")
        self.assertTrue(wide)
        light = self.page.run("return getComputedStyle(document.body).backgroundColor")
        self.page.prefers("dark")
        self.addCleanup(self.page.prefers, "light")
        dark = self.page.run("return getComputedStyle(document.body).backgroundColor")
        self.assertNotEqual(light, dark)

    def test_many_links_and_a_long_text(self) -> None:
        catalogue = self.made / "many.cat"
        catalogue.write_text(
            "".join(f"{number:05}\tapple\n" for number in range(MANY)) + "long\t" + "apple pie " * 104_857 + "\n"
        )
        script = b"smount /many many\nsmkdir /q apple\n"
        subprocess.run([HAC, "--new", self.store, f"many={catalogue}"], input=script, check=True, stdout=subprocess.DEVNULL)
        self.spaces = [f"many={catalogue}"]
        self.open("#at=/q")
        self.until_text("#count", f"{MANY + 1:,} rows")
        self.assertLess(len(self.seen_rows()), 60)
        self.page.run("const rows = document.querySelector('#rows'); rows.scrollTop = rows.scrollHeight")
        self.page.until(lambda: self.seen_rows()[-1:], ["found long"])
        self.page.click(self.row("long"))
        self.page.until(lambda: 60_000 < len(self.page.text("#text")) < 200_000, True)
        # The rest comes as one reads on.
        script = "const box = document.querySelector('#right'); box.scrollTop = box.scrollHeight; return box.textContent.length > 400000"
        self.page.until(lambda: self.page.run(script), True)


class Searching(PageTest):
    def test_a_search_and_a_directory_of_it(self) -> None:
        self.make_store(*NOTES)
        self.open("")
        self.page.press("/")
        self.page.type("#query", "pear* AND NOT")
        self.page.press("Enter")
        self.page.until(
            lambda: self.page.text("#told").splitlines()[-1:],
            ["bad-query 14: the query isn't one; the number is the place of its first wrong byte"],
        )
        self.assertEqual(self.page.text("#told").splitlines()[1].index("^"), 13)
        self.page.type("#query", "pear*")
        self.page.press("Enter")
        self.until_rows("file monday.txt", "file shopping.txt")
        self.assertEqual(self.page.run("return location.hash"), "#find=pear*")
        self.page.click("#keep")
        self.page.type("#dialog-line", "/notes")
        self.page.press("Enter")
        self.page.until(lambda: self.page.text("#dialog-fault"), "exists /notes: something is already at this path")
        self.page.type("#dialog-line", "/pears")
        self.page.press("Enter")
        self.until_rows("found monday.txt", "found shopping.txt")
        self.assertEqual(self.page.run("return location.hash"), "#at=/pears")
        self.page.until(lambda: "pears" in self.page.texts("#tree a .s"), True)


class Changing(PageTest):
    def test_a_query_is_tried_before_it_is_kept(self) -> None:
        self.make_store(*NOTES)
        self.open("#at=/apples/baking")
        self.until_rows("found cake.txt")
        self.page.click("#edit-query")
        self.page.type("#dialog-line", "pears")
        self.page.until(
            lambda: self.page.texts("#dialog-preview div"),
            ["It would find 2: 2 new, 1 gone.", "+ /notes/garden/monday.txt", "+ /notes/shopping.txt", "− /notes/cake.txt"],
        )
        self.page.type("#dialog-line", "pears OR")
        self.page.until(lambda: self.page.text("#dialog-fault").splitlines()[:2], ["pears OR", "        ^"])
        self.until_rows("found cake.txt")
        self.page.type("#dialog-line", "pears")
        self.page.press("Enter")
        self.until_rows("found monday.txt", "found shopping.txt")
        self.page.click("#edit-query")
        self.page.press("Escape")
        self.assertEqual(self.page.text("#directory-query"), "pears")

    def test_taken_out_and_brought_back_by_the_keyboard(self) -> None:
        self.make_store(*NOTES)
        self.open("#at=/apples")
        self.until_rows("semantic baking", "found monday.txt", "found shopping.txt", "found cake.txt")
        self.page.run("document.querySelector('#rows').focus()")
        self.page.press("Down", "Down", "Delete")
        self.until_rows("semantic baking", "found monday.txt", "taken out shopping.txt", "found cake.txt")
        self.page.run("document.querySelector('#rows').focus()")
        self.page.press("b")
        self.until_rows("semantic baking", "found monday.txt", "found shopping.txt", "found cake.txt")
        self.page.press("Down", "Enter")
        self.until_text("#text-path", "/notes/cake.txt")

    def test_dragged_to_a_directory(self) -> None:
        self.make_store(*NOTES)
        self.open("#at=/notes")
        self.until_rows("file cake.txt", "directory garden", "file roof.txt", "file shopping.txt")
        self.page.drag(self.row("cake.txt"), "#tree a[data-path='/house']")
        self.page.until(lambda: self.page.texts("#tree .number"), ["3", "2"])
        self.page.click("#tree a[data-path='/house'] .s")
        self.until_rows("added cake.txt", "found roof.txt")
        self.page.click(f"{self.row('cake.txt')} button:last-of-type")  # Let the query decide.
        self.until_rows("found roof.txt")

    def test_texts_are_edited(self) -> None:
        self.make_store(*NOTES)
        self.open("#at=/notes&file=/notes/roof.txt")
        self.until_text("#text", "Ring the roofer about the tiles")
        self.page.press("e")
        self.page.until(
            lambda: self.page.run("return document.querySelector('#dialog-text').value"), "Ring the roofer about the tiles"
        )
        self.page.type("#dialog-text", "An apple\non the roof")
        self.page.click("#dialog-keep")
        self.until_text("#text", "An apple\non the roof")
        self.page.until(lambda: self.page.texts("#tree .number"), ["4", "1"])
        self.page.click("#new-file")
        self.page.type("#dialog-line", "new")
        self.page.press("Enter")
        self.until_text("#text-path", "/notes/new")
        self.page.click("#new-directory")
        self.page.type("#dialog-line", "inner")
        self.page.press("Enter")
        self.until_text("#where", "/notes/inner")
        self.page.click("#give-query")
        self.page.type("#dialog-line", "NOT a")
        self.page.press("Enter")
        self.until_text("#directory-query", "NOT a")
        self.process.send_signal(signal.SIGTERM)
        self.process.wait()
        self.assertEqual(
            self.ask("cat /notes/roof.txt", "query /notes/inner"), [r"= An apple\non the roof", "ok", "= NOT a", "ok"]
        )

    def test_for_reading(self) -> None:
        self.make_store(*NOTES)
        self.open("#at=/apples&file=/notes/cake.txt", "--read-only")
        self.until_text("#text-path", "/notes/cake.txt")
        self.page.until(
            lambda: self.page.run(
                "return Array.from(document.querySelectorAll('.row button, #edit-text, #edit-query, #new-file')).filter(one => one.offsetParent).length"
            ),
            0,
        )


class Pictures(ToolTest):
    def test_the_first_session(self) -> None:
        """What docs/first_page.md shows can be done, and its pictures are those that are made of it."""
        subprocess.run(
            [sys.executable, TOOLS.parent / "demo/pictures", self.made], env={**os.environ, "HAC": str(HAC)}, check=True
        )
        shown = re.findall(r"\(pictures/([^)]*)\)", (TOOLS.parent / "docs/first_page.md").read_text())
        self.assertEqual(sorted(shown), sorted(path.name for path in self.made.iterdir()))


class Silent(http.server.BaseHTTPRequestHandler):
    """Answers each request by an error, which is a page of its origin."""

    def log_message(self, format: str, *args: object) -> None:
        pass


class Others(PageTest):
    def test_two_pages(self) -> None:
        self.make_store(*NOTES)
        self.open("#at=/house")
        self.until_rows("found roof.txt")
        self.change("put", "/tiles", text="tiles")
        self.until_rows("found roof.txt", "found tiles")

    def test_a_killed_hac(self) -> None:
        self.make_store(*NOTES)
        self.open("#at=/house")
        self.until_rows("found roof.txt")
        children = subprocess.run(
            ["pgrep", "-P", str(self.process.pid)], capture_output=True, encoding="ascii"
        ).stdout.split()
        os.kill(int(children[0]), signal.SIGKILL)
        self.page.click("#tree a[data-path='/notes']")
        self.page.until(lambda: "hac was ended by the signal SIGKILL" in self.page.text("#told"), True)

    def test_a_page_of_another_origin(self) -> None:
        self.make_store(*NOTES)
        self.serve()
        foreign = http.server.ThreadingHTTPServer(("127.0.0.1", 0), Silent)
        threading.Thread(target=foreign.serve_forever, daemon=True).start()
        self.addCleanup(foreign.server_close)
        self.addCleanup(foreign.shutdown)
        self.page.go(f"http://127.0.0.1:{foreign.server_port}/")
        script = """
            const body = JSON.stringify({do: "change", command: "rm", paths: ["/notes/roof.txt"]});
            const tries = [{"Content-Type": "application/json"}, {"Content-Type": "text/plain"}].map(
                (headers) => fetch(arguments[0] + "ask", {method: "POST", headers, body}).then((r) => r.text(), () => "refused"));
            tries.push(fetch(arguments[0] + "ask", {method: "POST", mode: "no-cors", body}).then((r) => r.type, () => "refused"));
            return Promise.all(tries)"""
        self.assertEqual(self.page.run(script, self.address), ["refused", "refused", "refused"])
        self.assertIn("f /notes/roof.txt", self.rows("/notes"))
