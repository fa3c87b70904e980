"""hac-view: what semantic directories become, and that nothing is touched that it didn't make."""

from __future__ import annotations

import os
import random
import shutil
import subprocess
import time
from pathlib import Path
from typing import Dict, List

from tests.support import HAC, Run, ToolTest


class ViewTest(ToolTest):
    def setUp(self) -> None:
        super().setUp()
        self.folder = self.made / "view"

    def view(self, *options: str, status: int = 0) -> List[str]:
        ran = self.run_tool("hac-view", self.store, self.folder, *options, status=status)
        return (ran.stdout + ran.stderr).decode().splitlines()

    def seen(self) -> Dict[str, str]:
        """What is in the folder: `d`, a link's target behind `-> `, or a text."""
        found = {}
        for path in self.folder.rglob("*"):
            name = str(path.relative_to(self.folder))
            if path.is_symlink():
                found[name] = f"-> {os.readlink(path)}"
            elif path.is_dir():
                found[name] = "d"
            elif name != ".hac-view":
                found[name] = path.read_text()
        return found


class WhatIsWritten(ViewTest):
    def test_documents_are_left(self) -> None:
        catalogue = self.made / "mail.cat"
        catalogue.write_text("one\tapple\n")
        script = b"smount /mail mail\nsmkdir /fruit apple\nwrite /a apple\nindex\n"
        subprocess.run([HAC, "--new", self.store, f"mail={catalogue}"], input=script, check=True, stdout=subprocess.DEVNULL)
        reason = "it can't be read: no-space mail (this space has to be asked, and isn't attached)"
        self.assertEqual(self.view(status=1), [f"left: fruit/one: {reason}", "2 made, 0 removed, 0 unchanged, 1 left"])
        self.assertEqual(self.seen(), {"fruit": "d", "fruit/a": "apple"})

    def test_linked_directories(self) -> None:
        self.make_store(
            "mkdir /roof",
            "mkdir /roof/a}b",
            "write /roof/tiles red",
            "write /roof/a}b/beams oak",
            "smkdir /house none",
            "smkdir /all none",
            "sln /roof/a}b /house",
            "sln /roof/tiles /house",
            "sln /roof /all",
            "sln /house /all",
            "smkdir /all/red red",
            "index",
        )
        wanted = {
            "house": "d",
            "house/beams": "oak",
            "house/tiles": "red",
            "all": "d",
            "all/beams": "oak",
            "all/tiles": "red",
            "all/red": "d",
            "all/red/tiles": "red",
        }
        self.assertEqual(self.view(), ["8 made, 0 removed, 0 unchanged, 0 left"])
        self.assertEqual(self.seen(), wanted)
        self.ask("sforget /roof/a}b /house", "sforget /roof /all")
        self.assertEqual(self.view(), ["0 made, 2 removed, 6 unchanged, 0 left"])
        del wanted["house/beams"], wanted["all/beams"]
        self.assertEqual(self.seen(), wanted)

    def test_links_and_copies(self) -> None:
        notes = self.made / "notes"
        (notes / "sub").mkdir(parents=True)
        (notes / "sub/a").write_text("apple")
        (notes / "b c").write_text("apple pear")
        self.run_tool("hac-sync", notes, self.store, "/notes")
        self.ask(
            "smkdir /fruit apple",
            "smkdir /fruit/pears pear",
            "smkdir /notes/sub/s apple",
            "write /mine apple mine",
            "write /fruit/stored plum",
            "write /out apple",
            "index",
            "srm /out /fruit",
            "sln /fruit/stored /notes/sub/s",
        )
        wanted = {
            "fruit": "d",
            "fruit/a": f"-> {notes}/sub/a",
            "fruit/b c": f"-> {notes}/b c",
            "fruit/mine": "apple mine",
            "fruit/stored": "plum",
            "fruit/pears": "d",
            "fruit/pears/b c": f"-> {notes}/b c",
            "notes": "d",
            "notes/sub": "d",
            "notes/sub/s": "d",
            "notes/sub/s/a": f"-> {notes}/sub/a",
            "notes/sub/s/stored": "plum",
        }
        self.assertEqual(self.view(), ["12 made, 0 removed, 0 unchanged, 0 left"])
        self.assertEqual(self.seen(), wanted)
        self.assertEqual(self.view(), ["0 made, 0 removed, 12 unchanged, 0 left"])

        self.ask("setq /fruit pear", "write /fruit/stored changed", "index", "rmdir /notes/sub/s")
        # A copy whose text changed is removed and made.
        self.assertEqual(self.view(), ["1 made, 8 removed, 4 unchanged, 0 left"])
        self.assertEqual(
            self.seen(),
            {
                "fruit": "d",
                "fruit/b c": f"-> {notes}/b c",
                "fruit/stored": "changed",
                "fruit/pears": "d",
                "fruit/pears/b c": f"-> {notes}/b c",
            },
        )
        (notes / "b c").unlink()
        self.view()
        self.assertEqual(self.seen()["fruit/b c"], "apple pear")

    def test_names_that_are_the_same(self) -> None:
        self.make_store(
            "mkdir /a", "mkdir /b", "write /a/x apple 1", "write /b/x apple 2", "write /y apple 3",
            "smkdir /s apple", "smkdir /s/y none", '"write" "/a - x" apple 4', "index",
        )  # fmt: skip
        self.view()
        self.assertEqual(
            self.seen(),
            {
                "s": "d",
                "s/y": "d",
                "s/a - x": "apple 4",
                "s/a - x (2)": "apple 1",
                "s/b - x": "apple 2",
                "s/y (2)": "apple 3",
            },
        )

    def test_long_paths_become_names(self) -> None:
        long = "x" * 200
        self.make_store(
            f"mkdir /{long}", f"write /{long}/{long} apple", f"write /{long[1:]} apple",
            "mkdir /b", f"write /b/{long} apple 2", "smkdir /s apple", "index",
        )  # fmt: skip
        self.view()
        self.assertIn(f"s/b - {long}", self.seen())
        self.assertTrue(all(len(os.fsencode(Path(name).name)) <= 255 for name in self.seen()))
        self.assertEqual(len(self.seen()), 4)

    def test_an_empty_store(self) -> None:
        self.make_store("write /a x")
        self.assertEqual(self.view(), ["0 made, 0 removed, 0 unchanged, 0 left"])
        self.assertEqual(self.seen(), {})


class OtherHands(ViewTest):
    def test_what_stands_there_is_left(self) -> None:
        self.make_store("write /a apple", "smkdir /s apple", "smkdir /t apple", "smkdir /u apple", "index")
        (self.folder / "s").mkdir(parents=True)
        (self.folder / "s/a").write_text("mine")
        (self.folder / "t").write_text("a file")
        elsewhere = self.made / "elsewhere"
        elsewhere.mkdir()
        (self.folder / "u").symlink_to(elsewhere)
        lines = self.view(status=1)
        self.assertIn("left: s: something that hac-view didn't make stands there", lines)
        self.assertIn("left: t: something that hac-view didn't make stands there", lines)
        self.assertEqual(self.seen()["s/a"], "mine")
        self.assertEqual(self.seen()["t"], "a file")
        self.assertEqual(list(elsewhere.iterdir()), [])

    def test_what_was_changed_is_left(self) -> None:
        self.make_store("write /a apple", "write /b apple", "write /c apple", "smkdir /s apple", "index")
        self.view()
        (self.folder / "s/a").write_text("my edit")
        (self.folder / "s/b").unlink()
        (self.folder / "s/b").symlink_to("/nowhere")
        (self.folder / "s/mine").write_text("mine")
        self.ask("rmdir /s")
        told = [
            "left: s: it isn't removed: Directory not empty",
            "left: s/a: the copy was changed; --home brings the change to the store",
            "left: s/b: something that hac-view didn't make stands there",
        ]
        self.assertEqual(self.view(status=1)[:-1], told)
        self.assertEqual(self.view(status=1)[:-1], told)
        self.assertEqual(self.seen(), {"s": "d", "s/a": "my edit", "s/b": "-> /nowhere", "s/mine": "mine"})
        lines = self.view("--home", status=1)
        self.assertIn("left: s/a: its text isn't in this directory any more; bring it home by hand", lines)
        (self.folder / "s/a").unlink()
        (self.folder / "s/b").unlink()
        (self.folder / "s/mine").unlink()
        self.assertEqual(self.view(), ["0 made, 1 removed, 0 unchanged, 0 left"])

    def test_a_file_in_place_of_a_link_is_told_and_brought_home(self) -> None:
        """As `sed -i` and some editors leave it."""
        notes = self.made / "notes"
        notes.mkdir()
        for name in ("a", "b", "c"):
            (notes / name).write_text(f"apple {name}\n")
        (notes / "a").chmod(0o640)
        self.run_tool("hac-sync", notes, self.store, "/notes")
        self.ask("smkdir /s apple", "write /own apple here", "index")
        self.view()
        subprocess.run(["sed", "-i", "s/apple/red apple/", self.folder / "s/a"], check=True)
        (self.folder / "s/own").write_text("apple there")
        lines = self.view(status=1)
        self.assertEqual(
            lines[:2],
            [
                f"left: s/a: a file stands there in place of the link; --home brings it to {notes}/a",
                "left: s/own: the copy was changed; --home brings the change to the store",
            ],
        )
        self.assertEqual((notes / "a").read_text(), "apple a\n")
        lines = self.view("--home")
        self.assertIn(f"brought home: s/a: to {notes}/a", lines)
        self.assertIn("brought home: s/own: to /own", lines)
        self.assertEqual(((notes / "a").read_text(), (notes / "a").stat().st_mode & 0o777), ("red apple a\n", 0o640))
        self.assertEqual(os.readlink(self.folder / "s/a"), f"{notes}/a")
        self.assertEqual(self.ask("cat /own"), ["= apple there", "ok"])
        self.assertEqual(self.view(), ["0 made, 0 removed, 5 unchanged, 0 left"])
        self.run_tool("hac-sync", notes, self.store, "/notes")
        self.assertEqual(self.ask("find red"), ["f /notes/a", "ok"])

    def test_nothing_is_brought_over_a_later_change(self) -> None:
        notes = self.made / "notes"
        notes.mkdir()
        (notes / "a").write_text("apple")
        self.run_tool("hac-sync", notes, self.store, "/notes")
        self.ask("smkdir /s apple", "write /own apple here", "index")
        self.view()
        (self.folder / "s/a").unlink()
        (self.folder / "s/a").write_text("apple in the view")
        (self.folder / "s/own").write_text("apple in the view")
        (notes / "a").write_text("apple in the folder")
        os.utime(notes / "a", ns=(2**62, 2**62))
        self.ask("write /own apple in the store", "index")
        lines = self.view("--home", status=1)
        self.assertEqual(
            lines[:2],
            [
                f"left: s/a: {notes}/a was changed later than this; bring them together by hand",
                "left: s/own: /own was changed in the store too; bring them together by hand",
            ],
        )
        self.assertEqual((notes / "a").read_text(), "apple in the folder")
        self.assertEqual((self.folder / "s/a").read_text(), "apple in the view")
        self.assertEqual(self.ask("cat /own"), ["= apple in the store", "ok"])

    def test_what_was_removed_comes_again(self) -> None:
        self.make_store("write /a apple", "smkdir /s apple", "index")
        self.view()
        shutil.rmtree(self.folder / "s")
        self.view()
        self.assertEqual(self.seen(), {"s": "d", "s/a": "apple"})

    def test_a_folder_that_became_a_link(self) -> None:
        self.make_store("write /a apple", "smkdir /s apple", "index")
        self.view()
        elsewhere = self.made / "elsewhere"
        (self.folder / "s").rename(elsewhere)
        (self.folder / "s").symlink_to(elsewhere)
        self.ask("write /b apple", "rm /a", "index")
        self.view(status=1)
        self.assertEqual([path.name for path in elsewhere.iterdir()], ["a"])

    def test_another_store(self) -> None:
        self.make_store("smkdir /s apple")
        self.view()
        self.store = self.made / "other"
        self.make_store()
        self.assertIn("has the view of", self.view(status=1)[0])
        self.assertEqual(self.seen(), {"s": "d"})

    def test_a_damaged_record(self) -> None:
        self.make_store("smkdir /s apple")
        self.view()
        for content in ("", "{", "[]", '{"version":1,"store":1,"made":{}}'):
            (self.folder / ".hac-view").write_text(content)
            self.assertIn("nothing was touched", self.view(status=1)[0])
        self.assertEqual(self.seen(), {"s": "d"})

    def test_a_directory_with_the_name_of_the_record(self) -> None:
        self.make_store("smkdir /.hac-view apple")
        self.assertIn("own record has this name", self.view(status=1)[0])
        self.assertEqual(self.view(status=1)[-1], "0 made, 0 removed, 0 unchanged, 1 left")


class Stops(ViewTest):
    def test_killed_and_run_again(self) -> None:
        chance = random.Random(3)
        files = [f"write /f{n} apple pear {n}" for n in range(40)]
        self.make_store("smkdir /s apple", "smkdir /t pear", *files, "index")
        for moment in range(15):
            query = chance.choice(["apple", "pear", "none"])
            self.ask(f"setq /s {query}", f"write /f{moment} pear {moment + 100}", "index")
            run = Run("hac-view", self.store, self.folder)
            time.sleep(0.01 + 0.01 * moment)
            run.kill()
            run.ended()
            self.view()
            texts = {path[1:]: text for path, text in self.tree().items() if path.startswith("/f")}
            for directory in ("s", "t"):
                found = [line[3:] for line in self.ask(f"sls /{directory}")[:-1]]
                wanted = {f"{directory}/{name}": texts[name] for name in found}
                seen = {name: text for name, text in self.seen().items() if name.startswith(directory + "/")}
                self.assertEqual(seen, wanted, f"moment {moment}")

    def test_hac_ends(self) -> None:
        self.make_store("smkdir /s apple", *(f"write /f{n} apple {n}" for n in range(5)), "index")
        for replies in range(12):
            hac = self.ends_after(replies, 7, "hac: out of memory")
            ran = Run("hac-view", self.store, self.folder, hac=hac).ended()
            self.assertEqual(ran.returncode == 7, b"memory ran out" in ran.stderr)
        self.view()
        self.assertEqual(len(self.seen()), 6)
