"""hac-catalogue: what it writes is a catalogue, byte for byte, whatever the mailbox or the table has.

A reader of its own, which follows the rules of catalogues one by one and shares nothing with the tool, reads it back.
"""

from __future__ import annotations

import errno
import os
import random
import signal
import subprocess
import unittest
from pathlib import Path
from typing import Dict, List, Optional, Tuple, Union
from unittest.mock import patch

from tests.support import TOOLS, ToolTest, load

tool = load("hac-catalogue")

FROM = b"From someone at 04:01\n"


# The reader.


class BadLine(Exception):
    """A line that breaks a rule, by its number from 1."""


def read_catalogue(content: bytes) -> Dict[bytes, bytes]:
    """The documents of a catalogue, the texts by the names."""
    documents: Dict[bytes, bytes] = {}
    place = 0
    number = 0
    while place < len(content):
        number += 1
        ends = content.find(10, place)
        line = content[place : len(content) if ends < 0 else ends]
        place = len(content) if ends < 0 else ends + 1
        if place > 67_108_864:
            raise BadLine(number)
        if line.strip(b" ") == b"":
            continue
        tab = line.find(9)
        name, text = line[:tab], text_of(line[tab + 1 :])
        if tab < 0 or not is_name(name) or name in documents or text is None or len(text) > 1_048_576:
            raise BadLine(number)
        documents[name] = text
    return documents


def is_name(name: bytes) -> bool:
    if name in (b".", b"..") or not 1 <= len(name) <= 255:
        return False
    return all(byte >= 32 and byte != 127 and byte != ord("/") for byte in name)


def text_of(spelled: bytes) -> Optional[bytes]:
    """The text with such escapes, or none where one is bad."""
    pieces = spelled.split(b"\\")
    text = bytearray(pieces[0])
    place = 1
    while place < len(pieces):
        piece = pieces[place]
        if piece == b"":
            # The next backslash is the one that this one means, and what follows it is plain.
            if place + 1 == len(pieces):
                return None
            text += b"\\" + pieces[place + 1]
            place += 2
            continue
        if piece[:1] == b"n":
            text += b"\n" + piece[1:]
        elif piece[:1] == b"t":
            text += b"\t" + piece[1:]
        elif piece[:1] == b"x" and len(piece) >= 3 and all(digit in b"0123456789abcdefABCDEF" for digit in piece[1:3]):
            text.append(int(piece[1:3], 16))
            text += piece[3:]
        else:
            return None
        place += 1
    return bytes(text)


class TheReader(unittest.TestCase):
    def test_catalogues(self) -> None:
        self.assertEqual(read_catalogue(b""), {})
        self.assertEqual(read_catalogue(b"a\t\n\n  \nb c\tx\ty\r\n...\t\\\\n\\n\\x0a\\t\\\\"), {
            b"a": b"", b"b c": b"x\ty\r", b"...": b"\\n\n\n\t\\"
        })

    def test_bad_lines(self) -> None:
        for line in (
            b"a", b"\tx", b".\tx", b"..\tx", b"a/b\tx", b"a\rb\tx", b"a\x7f\tx", b"x" * 256 + b"\t", b"ok\tagain", b"\t",
            b"a\t\\", b"a\t\\q", b"a\t\\x0", b"a\t\\xg0", b"a\t\\\\\\", b"a\t" + b"x" * 1_048_577,
        ):
            with self.subTest(line=line[:20]), self.assertRaisesRegex(BadLine, "^2$"):
                read_catalogue(b"ok\t\n" + line + b"\n")

    def test_its_end(self) -> None:
        full = b"".join(b"%d\t" % number + b"a" * 1_048_576 + b"\n" for number in range(63))
        full += b" " * (67_108_864 - len(full))
        self.assertEqual(len(read_catalogue(full)), 63)
        with self.assertRaisesRegex(BadLine, "^64$"):
            read_catalogue(full + b" ")


# The tests.


class CatalogueTest(ToolTest):
    def setUp(self) -> None:
        super().setUp()
        self.catalogue = self.made / "catalogue"

    def written(self, *words: object, status: int = 0) -> Tuple[Dict[str, str], List[str]]:
        """The documents that a run writes, and what it tells. They are the same in a file and at standard output."""
        ran = self.run_tool("hac-catalogue", *words, self.catalogue, status=status)
        out = self.run_tool("hac-catalogue", *words, "-", status=status)
        self.assertEqual((ran.stdout, ran.stderr), (b"", out.stderr))
        self.assertEqual(self.catalogue.read_bytes(), out.stdout)
        documents = read_catalogue(out.stdout)
        return {name.decode(): text.decode() for name, text in documents.items()}, ran.stderr.decode().splitlines()

    def refused(self, *words: object, status: int = 1) -> str:
        """What is told by a run that writes nothing, neither over an old catalogue nor in a new file."""
        old = b"old\tcatalogue\n"
        self.catalogue.write_bytes(old)
        before = sorted(os.listdir(self.made))
        ran = self.run_tool("hac-catalogue", *words, self.catalogue, status=status)
        self.assertEqual((ran.stdout, self.catalogue.read_bytes()), (b"", old))
        self.assertEqual(self.run_tool("hac-catalogue", *words, "-", status=status).stdout, b"")
        self.run_tool("hac-catalogue", *words, self.made / "new", status=status)
        self.assertEqual(sorted(os.listdir(self.made)), before)
        said = ran.stderr.decode()
        self.assertNotIn("Traceback", said)
        return said


class Mailboxes(CatalogueTest):
    def box(self, *messages: bytes) -> Path:
        path = self.made / "box"
        path.write_bytes(b"".join(FROM + message + b"\n\n" for message in messages))
        return path

    def test_a_message(self) -> None:
        documents, told = self.written(self.box(
            b"From: Anna <anna@x>\nTo: ben@x\nDate: Tue, 5 Mar 2024 23:59:00 -0800\nSubject: Apple cake\n\na\\b\tc\n.\n"
        ))
        text = "From: Anna <anna@x>\nTo: ben@x\nDate: Tue, 5 Mar 2024 23:59:00 -0800\nSubject: Apple cake\n\na\\b\tc\n.\n"
        self.assertEqual(documents, {"2024-03-05 Apple cake": text})
        self.assertEqual(told, ["1 document, 0 left out"])
        self.assertEqual(self.catalogue.read_bytes().count(b"\n"), 1)
        self.assertTrue(self.catalogue.read_bytes().endswith(b"\\n\\na\\\\b\\tc\\n.\\n\n"))

    def test_the_text_is_that_of_hac_mail(self) -> None:
        message = b"Subject: x\nMessage-ID: <1@x>\nCc: c\n\nwords\n"
        documents, _ = self.written(self.box(message))
        self.assertEqual(documents["undated x"], load("hac-mail").read_message(message + b"\n\n").text.decode())

    def test_parts_and_codings(self) -> None:
        documents, _ = self.written(self.box(
            b"Subject: =?iso-8859-1?q?Gr=FC=DFe?=\nContent-Type: multipart/mixed; boundary=x\n\n--x\n"
            b"Content-Type: text/plain; charset=iso-8859-1\nContent-Transfer-Encoding: quoted-printable\n\n=E4pple=\n pie\n"
            b"--x\nContent-Type: text/plain; charset=utf-8\nContent-Transfer-Encoding: base64\n\nw7Zs\n"
            b"--x\nContent-Type: text/html\n\n<p>pear &amp; <b>plum</b></p><script>no()</script>\n"
            b"--x\nContent-Type: application/pdf\nContent-Disposition: attachment; filename=\"bill of may.pdf\"\n"
            b"Content-Transfer-Encoding: base64\n\nc2VjcmV0\n--x--\n",
            b"Subject: charsets\nContent-Type: text/plain; charset=klingon\n\n\xc3\xb6 \xff\n",
            b"Subject: unended\nContent-Type: multipart/mixed; boundary=x\n\n--x\n\ncherry\n",
        ))
        self.assertEqual(
            documents["undated Grüße"],
            "Subject: Grüße\n\näpple pie\n\nöl\n\n\npear & plum\n\n\n[attachment: bill of may.pdf, application/pdf]\n",
        )
        self.assertIn("Ã¶ ÿ", documents["undated charsets"])
        self.assertIn("cherry", documents["undated unended"])

    def test_odd_subjects(self) -> None:
        documents, told = self.written(self.box(
            b"Subject: a/b\n\n1",
            b"Subject: =?utf-8?q?a=2Fb=01=7F=09c=0A=0Dd?=\n\n2",
            b"Subject: =?utf-8?q?=C3=28=FF?=\n\n3",
            b"Subject: raw \xe4 latin\n\n4",
            "Subject: raw ä\n\n5".encode(),
            b"Subject: ../..\n\n6",
            b"Subject:   \n\n7",
            b"8",
            b"",
        ))
        self.assertEqual(sorted(documents), sorted([
            "undated a-b", "undated a-b c d", "undated Ã(ÿ", "undated raw ä latin", "undated raw ä", "undated ..-..",
            "undated no subject", "undated no subject (2)", "undated no subject (3)",
        ]))
        self.assertEqual(documents["undated no subject (3)"].strip("\n"), "")
        self.assertEqual(told, ["9 documents, 0 left out"])

    def test_an_empty_mailbox(self) -> None:
        self.assertEqual(self.written(self.box()), ({}, ["0 documents, 0 left out"]))
        self.assertEqual(self.catalogue.read_bytes(), b"")

    def test_the_same_subjects(self) -> None:
        subjects = [b"x (2)", b"x", b"x", b"x", b"x (2)"]
        documents, _ = self.written(self.box(*(b"Subject: %s\n\n%d" % (s, n) for n, s in enumerate(subjects))))
        numbered = {name: text.strip("\n")[-1] for name, text in documents.items()}
        self.assertEqual(numbered, {
            "undated x (2)": "0", "undated x": "1", "undated x (3)": "2", "undated x (4)": "3", "undated x (2) (2)": "4"
        })

    def test_long_subjects(self) -> None:
        """They are cut between signs, and still differ."""
        # "undated " has 8 bytes, so 247 are left.
        subjects = ["ä" * 300, "ä" * 300, "ä" * 123 + "b", "x" * 246, "x" * 247, "x" * 248, "x" * 246 + "yz", "x" * 600]
        documents, _ = self.written(self.box(*(b"Subject: " + subject.encode() + b"\n\n" for subject in subjects)))
        names = ["ä" * 123, "ä" * 119 + " (2)", "ä" * 123 + "b", "x" * 246, "x" * 247, "x" * 239 + " (2)", "x" * 246 + "y"]
        self.assertEqual(list(documents), [f"undated {name}" for name in [*names, "x" * 239 + " (3)"]])

    def test_long_texts_are_cut_and_told(self) -> None:
        html = b"Subject: page\nContent-Type: text/html\n\nwords<!--" + b"x" * 8_400_000 + b"-->end\n"
        documents, told = self.written(self.box(
            b"Subject: long\n\n" + "ä".encode() * 600_000, b"Subject: x\n\nshort", html,
            b"Subject: fits\n\n" + b"\\" * 1_048_560,
        ))
        self.assertEqual(len(documents["undated long"].encode()), 1_048_575)
        self.assertEqual(documents["undated long"], "Subject: long\n\n" + "ä" * 524_280)
        self.assertEqual(len(documents["undated fits"]), 1_048_576)
        self.assertEqual(told, [
            "cut: message 1 (undated long): its text has more than 1,048,576 bytes",
            "cut: message 3 (undated page): its text has more than 1,048,576 bytes",
            "4 documents, 0 left out",
        ])

    def test_too_long_messages_are_left_out(self) -> None:
        with patch("hac_mailbox.MAX_MESSAGE", 1000):
            documents, told = self.written(self.box(b"a: b\n\n" + b"x" * 2000, b"Subject: c\n\n"), status=1)
        self.assertEqual(list(documents), ["undated c"])
        self.assertEqual(told, ["left out: message 1: it has more than 67,108,864 bytes", "1 document, 1 left out"])

    def maildir(self) -> Path:
        folder = self.made / "Maildir"
        for part in ("cur", "new", "tmp"):
            (folder / part).mkdir(parents=True)
            (folder / part / "1:2,S").write_bytes(b"Subject: %s\n\napple" % part.encode())
        return folder

    def test_a_maildir(self) -> None:
        documents, told = self.written(self.maildir())
        self.assertEqual(documents, {
            "undated cur": "Subject: cur\n\napple\n", "undated new": "Subject: new\n\napple\n"
        })
        self.assertEqual(told, ["2 documents, 0 left out"])

    def test_a_message_that_cannot_be_read(self) -> None:
        folder = self.maildir()
        with patch.object(Path, "read_bytes", side_effect=OSError(errno.EIO, "Input/output error")):
            ran = self.run_tool("hac-catalogue", folder, self.catalogue, status=1)
        fault = "it can't be read: Input/output error"
        self.assertEqual(ran.stderr.decode().splitlines(), [
            f"left out: cur/1:2,S: {fault}", f"left out: new/1:2,S: {fault}", "0 documents, 2 left out"
        ])

    def test_what_is_no_mailbox(self) -> None:
        other = self.made / "other"
        other.write_bytes(b"Subject: no mbox\n\n")
        self.assertIn("no mbox", self.refused(other))
        self.assertIn("no such file", self.refused(self.made / "none"))
        self.assertIn("neither an mbox", self.refused(self.made))

    @unittest.skipUnless(os.path.exists("/proc/self/mem"), "no file here fails when it is read")
    def test_a_mailbox_that_cannot_be_read(self) -> None:
        self.assertIn("/proc/self/mem can't be read: ", self.refused("/proc/self/mem"))

    def test_any_bytes_become_a_catalogue(self) -> None:
        chance = random.Random(7)
        pieces = [b"Content-Type:", b" multipart/mixed;", b" text/html", b"boundary=x", b"\n", b"\n\n", b"\n--x\n", b"=?"]
        pieces += [b"utf-8?q?=2F=00?=", b"?b?", b"\xff", b"\0", b";", b"\\", b"\\x", b"\t", b"\r", b"Subject: ", b"From: "]
        box = self.made / "box"
        for _ in range(300):
            messages = [b"".join(chance.choices(pieces, k=chance.randrange(40))) for _ in range(chance.randrange(1, 6))]
            box.write_bytes(b"".join(FROM + message + b"\n\n" for message in messages))
            catalogue = tool.Catalogue(tool.Told())
            for document in tool.mailbox_documents(box, tool.Told()):
                catalogue.add(document)
            self.assertEqual(len(read_catalogue(b"".join(catalogue.lines))), len(messages), messages)


class Tables(CatalogueTest):
    def table(self, content: Union[str, bytes], name: str = "table.csv") -> Path:
        path = self.made / name
        path.write_bytes(content if isinstance(content, bytes) else content.encode())
        return path

    def test_rows(self) -> None:
        documents, told = self.written(self.table("Title,Author,Year\nApples,Anna,2020\nPears,,2021\n"))
        self.assertEqual(documents, {"Apples": "Author: Anna\nYear: 2020\n", "Pears": "Year: 2021\n"})
        self.assertEqual(told, ["2 documents, 0 left out"])

    def test_the_column_of_the_names(self) -> None:
        table = self.table("Title,Author,3,,Author,1\na,b,c,d,e,f\n")
        for name, wanted in {"Title": "a", "1": "f", "2": "b", "3": "c", "4": "d", "column 4": "d", "5": "e"}.items():
            with self.subTest(name=name):
                self.assertEqual(list(self.written("--name", name, table)[0]), [wanted])
        self.assertEqual(
            self.written("--name=2", table)[0], {"b": "Title: a\n3: c\ncolumn 4: d\nAuthor: e\n1: f\n"}
        )
        self.assertIn("2 columns are called Author; give the number of one of them", self.refused("--name", "Author", table))
        for name in ("7", "0", "-1", "01", "title", "²"):
            said = self.refused(f"--name={name}", table)
            self.assertIn(f"no column is called {name}; these are: Title, Author, 3, column 4, Author, 1\n", said)

    def test_quotes_and_line_breaks(self) -> None:
        documents, told = self.written(self.table(
            'Title,"The\n notes"\r\n"a, ""b""","one\ntwo\r\nthree\rfour"\r\n"  c\n d ",tab\there \\n\r\ne"f,"\\"\r\n'
        ))
        self.assertEqual(documents, {
            'a, "b"': "The notes: one\ntwo\nthree\nfour\n", "c d": "The notes: tab\there \\n\n", 'e"f': "The notes: \\\n"
        })
        self.assertEqual(told, ["3 documents, 0 left out"])

    def test_wrong_quotes(self) -> None:
        for content, line in (('a,b\n"c\nd",e\n"f,g\nh,i\n', 4), ('a,b\n"c"d,e\n', 2), ('"a,b\n', 1)):
            with self.subTest(content=content):
                self.assertIn(f"table.csv: line {line}: its quotes are wrong", self.refused(self.table(content)))

    def test_the_same_names_and_odd_ones(self) -> None:
        documents, told = self.written(self.table(
            b"n,t\nx,1\nx,2\nx (2),3\na/b,4\na\x01\x7f\x00b,5\n.,6\n..,7\n,8\n \x02 ,9\n/,10\nrow 9,11\n"
        ))
        self.assertEqual(documents, {
            "x": "t: 1\n", "x (2)": "t: 2\n", "x (2) (2)": "t: 3\n", "a-b": "t: 4\n", "ab": "t: 5\n", "row 7": "t: 6\n",
            "row 8": "t: 7\n", "row 9": "t: 8\n", "row 10": "t: 9\n", "-": "t: 10\n", "row 9 (2)": "t: 11\n",
        })
        self.assertEqual(told, ["4 rows without a name: 7, 8, 9, 10", "11 documents, 0 left out"])

    def test_short_long_and_blank_rows(self) -> None:
        documents, told = self.written(self.table("n,a,b,,\nx,1,2\n\n,,,\ny\n  \nz,1,2,3,,5\nw,1,2,,,,\n"))
        self.assertEqual(documents, {
            "x": "a: 1\nb: 2\n", "y": "", "z": "a: 1\nb: 2\ncolumn 4: 3\ncolumn 6: 5\n", "w": "a: 1\nb: 2\n"
        })
        self.assertEqual(told, [
            "1 row shorter than the first: 5", "1 row longer than the first: 7", "4 documents, 0 left out"
        ])
        _, told = self.written(self.table("n,a\n" + "x\n" * 1012))
        self.assertEqual(
            told[0], "1,012 rows shorter than the first: 2, 3, 4, 5, 6, 7, 8, 9, 10, 11 and 1,002 more"
        )

    def test_encodings(self) -> None:
        text = "Título,Ä\nñandú,ö €\n"
        wanted = {"ñandú": "Ä: ö €\n"}
        for content in (
            text.encode(), b"\xef\xbb\xbf" + text.encode(), text.encode("utf-16"), text.encode("cp1252"),
            b"\xfe\xff" + text.encode("utf-16-be"), "\ufeff".encode() + b'"' + text.replace(",", '",', 1).encode(),
        ):
            with self.subTest(content=content):
                self.assertEqual(self.written("--name", "Título", self.table(content))[0], wanted)
        self.assertEqual(list(self.written(self.table(b"n,t\nx,\xff\xc3\xa4\xed\xa0\x80\n"))[0]), ["x"])
        self.assertEqual(self.written(self.table("n,t\nx,a".encode("utf-16") + b"\0"))[0], {"x": "t: a\ufffd\n"})

    def test_delimiters(self) -> None:
        wanted = {"a,b": "t: 1\n"}
        for delimiter, sign in ((";", ";"), ("tab", "\t"), ("\\t", "\t"), ("|", "|"), ("§", "§")):
            with self.subTest(delimiter=delimiter):
                table = self.table(f"n{sign}t\na,b{sign}1\n")
                self.assertEqual(self.written(f"--delimiter={delimiter}", table)[0], wanted)
        self.assertEqual(self.written(self.table("n\tt\na,b\t1\n", "x.TSV"))[0], wanted)
        _, told = self.written(self.table("n;t\na;1\n"))
        self.assertEqual(told[0], "there is one column, n;t: see --delimiter if there should be more")
        for delimiter in ("", "ab", '"', "\n", " "):
            self.assertIn("--delimiter: it is one sign", self.refused("--delimiter", delimiter, table, status=2))

    def test_what_a_table_is(self) -> None:
        for ending in ("csv", "CSV"):
            self.assertEqual(list(self.written(self.table("From n,t\na,1\n", f"t.{ending}"))[0]), ["a"])
        plain = self.table("n,t\na,1\n", "plain")
        for words in (["--table"], ["--name=n"], ["--delimiter=,"]):
            self.assertEqual(list(self.written(*words, plain)[0]), ["a"])
        self.assertIn("no mbox", self.refused(plain))
        for content in ("", "\n", ",,\nx,y\n", "\n\nn,t\nx,y\n"):
            self.assertIn("its first row names no columns", self.refused(self.table(content)))
        self.assertEqual(self.written(self.table("n,t"))[0], {})
        self.assertIn("none.csv can't be read: No such file", self.refused(self.made / "none.csv"))
        self.assertIn("can't be read: Is a directory", self.refused("--table", self.made))

    def test_long_values(self) -> None:
        documents, told = self.written(self.table(
            f"n,t\na,{'ä' * 600_000}\nb,{'b' * 1_048_572}\n{'c' * 300},{'c' * 1_048_573}\n"
        ))
        self.assertEqual(documents["a"], "t: " + "ä" * 524_286)
        self.assertEqual(documents["b"], "t: " + "b" * 1_048_572 + "\n")
        self.assertEqual(documents["c" * 255], "t: " + "c" * 1_048_573)
        self.assertEqual(told[:2], [
            "cut: row 2 (a): its text has more than 1,048,576 bytes",
            f"cut: row 4 ({'c' * 255}): its text has more than 1,048,576 bytes",
        ])

    def test_any_bytes_become_a_catalogue_or_a_fault(self) -> None:
        chance = random.Random(11)
        pieces = [b",", b",", b"\n", b"\r\n", b"\r", b'"', b'""', b"a", b"b/c", b" ", b"\\", b"\0", b"\x1f", b"\xff", b"\xc3"]
        written = 0
        for _ in range(1000):
            table = self.table(b"n,t\n" + b"".join(chance.choices(pieces, k=chance.randrange(40))))
            catalogue = tool.Catalogue(tool.Told())
            try:
                for document in tool.table_documents(table, None, ",", tool.Told()):
                    catalogue.add(document)
            except tool.ToolError as error:
                self.assertIn("its quotes are wrong", str(error))
                continue
            written += 1
            self.assertEqual(len(read_catalogue(b"".join(catalogue.lines))), len(catalogue.lines))
        self.assertGreater(written, 300)


class Limits(CatalogueTest):
    def test_too_many_documents(self) -> None:
        table = self.made / "table.csv"
        for count in (65_536, 65_537):
            table.write_text("n,t\n" + "x,y\n" * count)
            if count == 65_536:
                documents, told = self.written(table)
                self.assertEqual(len(documents), count)
                self.assertEqual(told, ["65,536 documents, 0 left out"])
            else:
                self.assertIn("more than 65,536 documents; no catalogue was written", self.refused(table))

    def test_as_many_long_names_take_no_longer(self) -> None:
        """Names that differ behind where a number stands share their numbers."""
        table = self.made / "table.csv"
        table.write_text("n,t\n" + "".join(f"{'x' * 250}{n:05},y\n" * 2 for n in range(5_000)))
        self.assertEqual(len(self.written(table)[0]), 10_000)

    def test_too_many_bytes(self) -> None:
        table = self.made / "table.csv"
        with patch.object(tool, "MAX_CATALOGUE", 100):
            for length in (92, 93):
                table.write_text(f"n,t\nx,{'y' * length}\n")
                if length == 92:
                    self.assertEqual(len(self.written(table)[0]), 1)
                else:
                    self.assertIn("more than 67,108,864 bytes; it wasn't written", self.refused(table))

    def test_the_last_byte(self) -> None:
        """A catalogue of just as many bytes as there may be is one, and a byte more isn't."""
        catalogue = tool.Catalogue(tool.Told())
        left = 67_108_864
        while left:
            length = min(left, 1_048_576 + 10) - 10
            catalogue.add(tool.Document("", b"%08d" % left, b"y" * length, True))
            left -= length + 10
            if 0 < left < 10:
                self.fail("the last line has no room for its name")
        content = b"".join(catalogue.lines)
        self.assertEqual((len(content), len(read_catalogue(content))), (67_108_864, len(catalogue.lines)))
        with self.assertRaisesRegex(tool.ToolError, "67,108,864"):
            catalogue.add(tool.Document("", b"x", b"", True))


class Targets(CatalogueTest):
    def setUp(self) -> None:
        super().setUp()
        self.table = self.made / "table.csv"
        self.table.write_text("n,t\nx,y\n")

    def test_what_is_written_over(self) -> None:
        """A catalogue is, whoever wrote it, and keeps its permissions; another file isn't."""
        for content in (b"", b"\n  \n", b"a\tb", b"\nx y\t\\n\n"):
            self.catalogue.write_bytes(content)
            self.catalogue.chmod(0o600)
            self.run_tool("hac-catalogue", self.table, self.catalogue)
            self.assertEqual(self.catalogue.read_bytes(), b"x\tt: y\\n\n")
            self.assertEqual(self.catalogue.stat().st_mode & 0o777, 0o600)
        for content in (FROM, b"n,t\n", b"\1HACSTOR1\1" + b"\t" * 60, b"a/b\tc\n", b"\tc\n", b"x" * 300 + b"\t"):
            self.catalogue.write_bytes(content)
            ran = self.run_tool("hac-catalogue", self.table, self.catalogue, status=1)
            self.assertIn(b"is there and is no catalogue; nothing was written", ran.stderr)
            self.assertEqual(self.catalogue.read_bytes(), content)

    def test_the_source_itself(self) -> None:
        self.table.write_text("n\tt\nx\ty\n")
        (self.made / "link").symlink_to(self.table)
        for target in (self.table, self.made / "link"):
            ran = self.run_tool("hac-catalogue", "--delimiter=tab", self.table, target, status=1)
            self.assertIn(b"is what is to be read; nothing was written", ran.stderr)
        self.assertEqual(self.table.read_text(), "n\tt\nx\ty\n")

    def test_what_is_no_file(self) -> None:
        os.mkfifo(self.made / "pipe")
        for target in (self.made, self.made / "pipe", "/dev/null"):
            ran = self.run_tool("hac-catalogue", self.table, target, status=1)
            self.assertIn(b"is no regular file; nothing was written", ran.stderr)
        ran = self.run_tool("hac-catalogue", self.table, self.made / "none/x", status=1)
        self.assertIn(b"none/x can't be written: No such file or directory", ran.stderr)

    def test_a_symbolic_link(self) -> None:
        (self.made / "link").symlink_to(self.catalogue)
        for _ in range(2):
            self.run_tool("hac-catalogue", self.table, self.made / "link")
            self.assertTrue((self.made / "link").is_symlink())
            self.assertEqual(self.catalogue.read_bytes(), b"x\tt: y\\n\n")

    def test_a_disk_that_is_full(self) -> None:
        self.catalogue.write_bytes(b"old\t\n")
        with patch("os.fsync", side_effect=OSError(errno.ENOSPC, "No space left on device")):
            ran = self.run_tool("hac-catalogue", self.table, self.catalogue, status=1)
        self.assertIn(b"catalogue can't be written: No space left on device\n", ran.stderr)
        self.assertEqual(self.catalogue.read_bytes(), b"old\t\n")
        self.assertEqual(sorted(os.listdir(self.made)), ["catalogue", "table.csv"])

    def test_standard_output_that_fails(self) -> None:
        if not os.path.exists("/dev/full"):
            self.skipTest("no device here is full")
        with open("/dev/full", "wb") as full:
            ran = subprocess.run([TOOLS / "hac-catalogue", self.table, "-"], stdout=full, stderr=subprocess.PIPE)
        self.assertEqual((ran.returncode, ran.stderr), (1, b"hac-catalogue: No space left on device\n"))

    def test_a_reader_that_goes_away(self) -> None:
        self.table.write_text("n,t\n" + f"x,{'y' * 1_000_000}\n" * 3)
        with subprocess.Popen(
            [TOOLS / "hac-catalogue", self.table, "-"], stdout=subprocess.PIPE, stderr=subprocess.PIPE
        ) as run:
            assert run.stdout is not None and run.stderr is not None
            self.assertEqual(run.stdout.read(4), b"x\tt:")
            run.stdout.close()
            self.assertEqual(run.stderr.read(), b"")
        self.assertEqual(run.returncode, 128 + signal.SIGPIPE)

    def test_a_user_who_stops_it(self) -> None:
        self.catalogue.write_bytes(b"old\t\n")
        with patch("os.replace", side_effect=KeyboardInterrupt):
            self.run_tool("hac-catalogue", self.table, self.catalogue, status=128 + signal.SIGINT)
        self.assertEqual(self.catalogue.read_bytes(), b"old\t\n")
        self.assertEqual(sorted(os.listdir(self.made)), ["catalogue", "table.csv"])

        os.mkfifo(self.made / "pipe")
        words = [TOOLS / "hac-catalogue", "--table", self.made / "pipe", self.catalogue]
        with subprocess.Popen(words, stdout=subprocess.PIPE, stderr=subprocess.PIPE) as run:
            with open(self.made / "pipe", "wb"):  # It is open when the tool has opened it too.
                run.send_signal(signal.SIGINT)
                said = run.communicate()
        self.assertEqual((run.returncode, said), (128 + signal.SIGINT, (b"", b"\nhac-catalogue: stopped\n")))
        self.assertEqual(self.catalogue.read_bytes(), b"old\t\n")

    def test_it_needs_no_program(self) -> None:
        ran = self.run_tool("hac-catalogue", self.table, "-", hac=self.made / "none")
        self.assertEqual(ran.stdout, b"x\tt: y\\n\n")
