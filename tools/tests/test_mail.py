"""hac-mail: hostile messages are read as far as they can be, none is lost, and none comes twice."""

from __future__ import annotations

import random
import time
import unittest
from typing import Dict, List

from tests.support import Run, ToolTest, load

mail = load("hac-mail")

FROM = b"From someone Sat Nov 28 04:01:21 2026\n"


def message(*lines: bytes) -> bytes:
    return b"\n".join(lines) + b"\n"


def text_of(content: bytes) -> str:
    return mail.read_message(content).text.decode("utf-8")


class MailTest(ToolTest):
    def bring(self, *messages: bytes, status: int = 0) -> List[str]:
        """The lines that are written when a mailbox of these messages is brought below /mail."""
        box = self.made / "box"
        box.write_bytes(b"".join(FROM + content + b"\n" for content in messages))
        ran = self.run_tool("hac-mail", box, self.store, "/mail", status=status)
        return (ran.stdout + ran.stderr).decode().splitlines()

    def mails(self) -> Dict[str, str]:
        return {path[len("/mail/") :]: text for path, text in self.tree("/mail").items()}


class Headers(unittest.TestCase):
    def header(self, value: bytes) -> str:
        return text_of(b"Subject: " + value + b"\n\n").splitlines()[0][len("Subject: ") :]

    def test_decoded(self) -> None:
        for value, wanted in {
            b"plain": "plain",
            b"=?utf-8?q?M=C3=BCller_x?=": "Müller x",
            b"=?ISO-8859-1?Q?M=FCller?= and =?utf-8?b?w7ZsCg==?=": "Müller and öl",
            b"=?utf-8?b?w7Y=?= =?utf-8?b?w7Y=?=": "öö",
            b"=?utf-8?q?=C3?=\n =?utf-8?q?=B6?=": "ö",
            b"=?utf-8*de?q?a?=": "a",
            b"folded\n on two lines": "folded on two lines",
            "raw ä".encode(): "raw ä",
            b"latin \xe4": "latin ä",
            b"=?klingon?q?=C3=B6?=": "ö",
            b"=?utf-8?x?what?=": "=?utf-8?x?what?=",
            b"=?utf-8?b?!!!?=.": ".",
            b"=?punycode?q?a-b?=": "a-b",
            b"=?utf-8?q?two=0Alines=00?=": "two lines",
            "mixed 中 =?utf-8?q?=C3=B6?=".encode(): "mixed 中 ö",
        }.items():
            with self.subTest(value=value):
                self.assertEqual(self.header(value), wanted)

    def test_no_header_ends_early(self) -> None:
        """Whatever a header says, the text of the message has one line of it."""
        text = text_of(b"Subject: =?utf-8?q?a=0D=0ABcc:_x=0A=0Abody?=\nSubject: second\nto: t\n\nwords")
        self.assertEqual(text, "To: t\nSubject: a Bcc: x body\n\nwords\n")

    def test_names(self) -> None:
        def name(*lines: bytes) -> str:
            return mail.read_message(message(*lines, b"", b"")).name.decode("utf-8", "replace")

        self.assertEqual(name(b"Date: Tue, 5 Mar 2024 23:59:00 -0800", b"Subject: a/b\tc"), "2024-03-05 a-b c")
        self.assertEqual(name(b"Date: 5 Mar 2024 10:00"), "2024-03-05 no subject")
        long, late = b"Tue, 5 Mar 99999999999999999999 1:2:3", b"5 Mar 2024 25:99:99 +9999999"
        for date in (b"yesterday", b"99 Foo 2024", long, late, b""):
            self.assertIn(name(b"Date: " + date, b"Subject: x"), ("undated x", "2024-03-05 x"), date)
        self.assertEqual(name(b"Subject: =?utf-8?q?" + b"=C3=A4" * 300 + b"?="), "undated " + "ä" * 117)


class Bodies(unittest.TestCase):
    def body(self, *lines: bytes) -> str:
        return text_of(message(*lines)).partition("\n")[2].rstrip("\n")

    def test_codings(self) -> None:
        quoted = b"Content-Transfer-Encoding: quoted-printable"
        for head, content, wanted in (
            ((b"Content-Type: text/plain; charset=iso-8859-1", quoted), b"Gr=FC=DFe=\n!", "Grüße!"),
            ((b"Content-Transfer-Encoding: base64",), b"w7ZsIQ==", "öl!"),
            ((b"Content-Transfer-Encoding: x-unknown",), b"as it is", "as it is"),
            ((b"Content-Type: text/plain; charset=klingon",), "ö".encode(), "ö"),
            ((b"Content-Type: text/plain; charset=klingon",), b"\xf6", "ö"),
            ((b"Content-Type: text/plain; charset=hex",), b"zz", "zz"),
            ((b"Content-Type: text/plain; charset=\"a\0b\"",), b"zz", "zz"),
            ((b"Content-Type: text/plain; charset*=utf-8''iso-8859-1",), b"\xf6", "ö"),
            ((b"Content-Type: text/plain; charset=utf-16", b"Content-Transfer-Encoding: base64"), b"//5hAA==", "a"),
            ((b"Content-Type: nonsense",), b"words", "words"),
            ((), b"a\r\nb\0\x1b[31m", "a\nb[31m"),
        ):
            with self.subTest(head=head):
                self.assertEqual(self.body(b"X: y", *head, b"", content), wanted)

    def test_broken_base64_is_not_lost(self) -> None:
        self.assertIn("apple", self.body(b"Content-Transfer-Encoding: base64", b"", b"YXBwbGUgcGll", b"%%%"))

    def test_parts(self) -> None:
        as_html = (b"--in", b"Content-Type: text/html", b"", b"<p>pear</p>")
        inner = (*as_html, b"--in", b"Content-Type: text/plain", b"", b"plum", b"--in--")
        text = self.body(
            b"X: y",
            b'Content-Type: multipart/mixed; boundary="out"',
            b"",
            b"preamble",
            b"--out",
            b"Content-Type: multipart/alternative; boundary=in",
            b"",
            *inner,
            b"--out",
            b"Content-Type: image/png",
            b"Content-Disposition: attachment; filename=\"=?utf-8?q?b=C3=B6se?=.png\"",
            b"Content-Transfer-Encoding: base64",
            b"",
            b"AAAA",
            b"--out",
            b"Content-Type: message/rfc822",
            b"",
            b"Subject: inner",
            b"",
            b"cherry",
            b"--out--",
        )
        self.assertEqual(text, "plum\n\n[attachment: böse.png, image/png]\n\nSubject: inner\n\ncherry")

    def test_a_message_within_another(self) -> None:
        content = message(
            b"From: outer@x", b"Subject: fwd", b"Content-Type: message/rfc822", b"",
            b"From: inner@z", b"To: a@b", b"Date: 5 Mar 2024 10:00", b"Subject: pears", b"", b"words",
        )  # fmt: skip
        wanted = "From: inner@z\nTo: a@b\nDate: 5 Mar 2024 10:00\nSubject: pears\n\nwords\n"
        self.assertEqual(text_of(content), f"From: outer@x\nSubject: fwd\n\n{wanted}")

    def test_a_byte_order_mark(self) -> None:
        for charset, mark in (("utf-8", b"\xef\xbb\xbf"), ("utf-16", b"")):
            body = mark + "shopping list".encode(charset)
            content = b"Content-Type: text/plain; charset=%s\n\n" % charset.encode() + body
            self.assertEqual(text_of(content), "\nshopping list\n", charset)

    def test_parts_that_never_end(self) -> None:
        self.assertIn("apple", self.body(b"Content-Type: multipart/mixed; boundary=x", b"", b"--x", b"", b"apple"))
        self.assertIn("apple", self.body(b"Content-Type: multipart/mixed", b"", b"apple"))
        deep = b"".join(b"Content-Type: multipart/mixed; boundary=b%d\n\n--b%d\n" % (n, n) for n in range(3000))
        self.assertIn("apple", text_of(b"Subject: deep\n" + deep + b"\napple"))

    def test_only_html(self) -> None:
        text = self.body(b"Content-Type: text/html; charset=utf-8", b"", "<p>Grüße &amp; <b>apple</b> pie".encode())
        self.assertEqual(text, "Grüße & apple pie")

    def test_any_bytes_are_a_message(self) -> None:
        chance = random.Random(5)
        pieces = [b"Content-Type:", b" multipart/mixed;", b"boundary=", b"\n", b"\n\n", b"--x", b"=?", b"?b?", b"\xff"]
        pieces += [b"\0", b";", b'"', b"a", b"Date: ", b"<", b"From: "]
        for _ in range(2000):
            mail.read_message(b"".join(chance.choices(pieces, k=chance.randrange(40))))


class Html(unittest.TestCase):
    def test_words(self) -> None:
        for source, wanted in {
            "a<b>b</b>c": "abc",
            "<style>x{}</style>a<script>if (1<2) {}</script>b": "ab",
            "<STYLE>x</Style >a": "a",
            "<script>never": "",
            "a<!-- b -->c<!-- d": "ac",
            '<a title="1>2">b</a>': "b",
            "1 < 2 and 3 > 2": "1 < 2 and 3 > 2",
            "&lt;p&gt; &ouml; &#228; &nosuch;": "<p> ö ä &nosuch;",
            "<p>a</p><p>b<br/>c": "a\n\nb\nc",
            "<!DOCTYPE html><?x?>a": "a",
            "a<p": "a",
            "price x <y and lostword here</p><p>next": "price x <y and lostword here\n\nnext",
            "Bob <bob@example.com> wrote<br>x": "Bob <bob@example.com> wrote\nx",
            "<a href='x<y'>b</a> 1 <b 2": "b 1",
            "a <b and <i>c</i>": "a <b and c",
            "<o:p>word</o:p><my-tag a=1>x": "wordx",
            "<!DOCTYPE html [<!ENTITY x 'y'>]>z": "]>z",
            '<p class="x>a': "a",
        }.items():
            with self.subTest(source=source):
                self.assertEqual(mail.text_of_html(source).strip("\n"), wanted)

    def test_time_grows_with_the_length(self) -> None:
        began = time.process_time()
        for piece in ("<", "<!--", "<a '", '<a "', "<script>", "&", "<style></style>", "</", "<p\n", "<p '\" <b ", "<p \"<\" "):
            mail.text_of_html(piece * (300_000 // len(piece)))
        self.assertLess(time.process_time() - began, 20)


class Mailboxes(MailTest):
    def test_messages_come_once(self) -> None:
        first = message(b"From: a", b"Subject: apple", b"Date: 5 Mar 2024 10:00", b"Message-ID: <1@x>", b"", b"one")
        second = message(b"Subject: apple", b"Date: 5 Mar 2024 11:00", b"", b"two")
        self.assertEqual(self.bring(first), ["1 new, 0 known before, 0 refused"])
        self.assertEqual(self.bring(first, second), ["1 new, 1 known before, 0 refused"])
        told = "0 new, 2 known before, 1 copies of others, 0 refused"
        self.assertEqual(self.bring(first, second, first), [told])
        self.assertEqual(sorted(self.mails()), ["2024-03-05 apple", "2024-03-05 apple (2)"])
        self.assertEqual(self.ask("find one"), ["f /mail/2024-03-05 apple", "ok"])

    def test_moved_and_removed_ones_do_not_come_again(self) -> None:
        messages = [message(b"Subject: s%d" % n, b"Message-ID: <%d@x>" % n, b"", b"") for n in range(3)]
        self.bring(*messages)
        self.ask("mkdir /done", 'mv "/mail/2026-11-28 s0" /done/x', 'rm "/mail/2026-11-28 s1"')
        self.assertEqual(self.bring(*messages), ["0 new, 3 known before, 0 refused"])
        self.assertEqual(sorted(self.mails()), ["2026-11-28 s2"])

    def test_the_same_message_id(self) -> None:
        """A copy with another end, as lists send it, is the same message. Another subject shows another message."""
        one = (b"From: a", b"Subject: apple", b"Message-ID: <1@x>", b"")
        other = (b"From: a", b"Subject: pear", b"Message-ID: <1@x>", b"")
        lines = self.bring(message(*one, b"body"), message(*one, b"body", b"list"), message(*other, b"body"))
        reason = "it has the Message-ID, sender, date and subject of message 1, and another text; that one alone came"
        told = [f"left out: message 2: {reason}", "2 new, 0 known before, 1 copies of others, 0 refused"]
        self.assertEqual(lines, told)
        self.assertEqual(sorted(self.mails()), ["2026-11-28 apple", "2026-11-28 pear"])

    def test_same_names(self) -> None:
        messages = [message(b"Message-ID: <%d@x>" % n, b"", b"") for n in range(12)]
        self.bring(*messages)
        names = ["2026-11-28 no subject", *(f"2026-11-28 no subject ({n})" for n in range(2, 13))]
        self.assertEqual(sorted(self.mails()), sorted(names))

    def test_the_record_is_lost(self) -> None:
        messages = [message(b"Subject: s", b"Message-ID: <%d@x>" % n, b"", b"") for n in range(3)]
        self.bring(*messages)
        record = self.made / "store.mail"
        for content in (None, b"", b"{}\n[1]\n\xff\n[]\n", record.read_bytes()[:-30]):
            record.unlink() if content is None else record.write_bytes(content)
            self.assertEqual(self.bring(*messages), ["0 new, 3 known before, 0 refused"], content)

    def test_an_older_store_put_back(self) -> None:
        messages = [message(b"Subject: s%d" % n, b"Message-ID: <%d@x>" % n, b"", b"") for n in range(2)]
        self.bring(messages[0])
        older = self.store.read_bytes()
        self.bring(*messages)
        self.store.write_bytes(older)
        self.assertEqual(self.bring(*messages), ["1 new, 1 known before, 0 refused"])
        self.assertEqual(len(self.mails()), 2)

    def test_what_an_mbox_is(self) -> None:
        box = self.made / "box"
        box.write_bytes(
            b"\n" + FROM + b"Subject: a\n\n>From quoted\n>>From twice\nFrom 12:30 on, with no blank line before it\n\n"
            b"From here on\n\n"
            + FROM.replace(b"\n", b"\r\n") + b"Subject: b\r\n\r\nx\r\n\r\n" + FROM + FROM + b"Subject: c"
        )
        contents = [source.content for source in mail.messages_of(box)]
        self.assertEqual(len(contents), 3)
        self.assertIn(b"\nFrom quoted\n>From twice\nFrom 12:30 on, with no blank line before it\n\nFrom here on\n", contents[0])
        box.write_bytes(b"")
        self.assertEqual(list(mail.messages_of(box)), [])
        box.write_bytes(b"Subject: no mbox\n\n")
        self.assertIn(b"no mbox", self.run_tool("hac-mail", box, self.store, status=1).stderr)
        self.assertIn(b"no such file", self.run_tool("hac-mail", self.made / "none", self.store, status=1).stderr)
        self.assertIn(b"neither an mbox", self.run_tool("hac-mail", self.made, self.store, status=1).stderr)

    def test_a_maildir(self) -> None:
        folder = self.made / "Maildir"
        for part in ("cur", "new", "tmp"):
            (folder / part).mkdir(parents=True)
            (folder / part / "1:2,S").write_bytes(b"Subject: %s\n\napple" % part.encode())
        (folder / "new/sub").mkdir()
        ran = self.run_tool("hac-mail", folder, self.store)
        self.assertEqual(ran.stdout, b"2 new, 0 known before, 0 refused\n")
        self.assertEqual(sorted(self.tree()), ["/undated cur", "/undated new"])
        (folder / "cur/1:2,S").rename(folder / "cur/1:2,RS")
        self.assertEqual(self.run_tool("hac-mail", folder, self.store).stdout, b"0 new, 2 known before, 0 refused\n")

    def test_the_folders_of_a_maildir(self) -> None:
        """They stand in it, as `.Archive`, or below a folder that is none itself; mail in them has a path of its own."""
        folder = self.made / "mail"
        for place in ("", ".Archive", ".Archive.2024", "lists/rust", "cur/not-one"):
            for part in ("cur", "new"):
                (folder / place / part).mkdir(parents=True, exist_ok=True)
            name = place.replace("/", "-") or "top"
            (folder / place / "cur/1:2,S").write_bytes(b"Subject: %s\n\nx" % name.encode())
        ran = self.run_tool("hac-mail", folder, self.store)
        self.assertEqual(ran.stdout, b"4 new, 0 known before, 0 refused\n")
        wanted = ["/undated .Archive", "/undated .Archive.2024", "/undated lists-rust", "/undated top"]
        self.assertEqual(sorted(self.tree()), sorted(wanted))
        large = folder / ".Archive/cur/2"
        with open(large, "wb") as file:
            file.truncate(67_108_865)
        ran = self.run_tool("hac-mail", folder, self.store, status=1)
        self.assertIn(b"refused: .Archive/cur/2: it has more than 67,108,864 bytes\n", ran.stdout)
        large.unlink()
        (folder / "cur").rename(folder / "other")
        (folder / "lists").rename(self.made / "lists")
        ran = self.run_tool("hac-mail", self.made / "lists", self.made / "second")
        self.assertEqual(ran.stdout, b"1 new, 0 known before, 0 refused\n")

    def test_the_day_of_the_mbox_line(self) -> None:
        for line, day in {
            "Mon Jan  1 00:00:00 2024": "2024-01-01",
            "Mon Feb 29 23:59 2024": "2024-02-29",
            "Mon Mar 31 00:00:00 +0200 2024": "2024-03-31",
            "Mon Apr 30 00:00:00 MEST 2024": "2024-04-30",
            "Mon Nix  1 00:00:00 2024": "undated",
            "Mon Jan 32 00:00:00 2024": "undated",
        }.items():
            box = self.made / "box"
            box.write_bytes(f"From a@x {line}\nSubject: s\n\nx\n".encode())
            (source,) = mail.messages_of(box)
            self.assertEqual(mail.read_message(source.content, source.came).name.decode(), f"{day} s", line)
        dated = b"Date: 5 Mar 2023 10:00\nSubject: s\n\nx\n"
        self.assertEqual(mail.read_message(dated, "2024-01-01").name, b"2023-03-05 s")
        self.bring(message(b"Subject: s", b"", b"x"))
        self.assertEqual(sorted(self.mails()), ["2026-11-28 s"])

    def test_a_text_that_is_cut_is_told(self) -> None:
        lines = self.bring(message(b"Subject: c", b"", b"w " * 600_000 + b"lastword"), message(b"Subject: d", b"", b"x"))
        reason = "its text has more than 1,048,576 bytes; what is behind them isn't in the store"
        self.assertEqual(
            lines, [f"cut: message 1 (2026-11-28 c): {reason}", "2 new, 0 known before, 0 refused"]
        )

    def test_many_are_told_by_their_reasons(self) -> None:
        heads = (b"From: a", b"Subject: s", b"Message-ID: <1@x>", b"")
        lines = self.bring(*(message(*heads, b"text %d" % count) for count in range(20)))
        self.assertEqual(len(lines), 2)
        self.assertIn("left out: 19 places, as message 10: it has the Message-ID", lines[0])
        self.assertEqual(lines[1], "1 new, 0 known before, 19 copies of others, 0 refused")
        box = self.made / "box"
        self.assertEqual(self.run_tool("hac-mail", box, self.store, "/mail", "--quiet").stdout, b"")
        ran = self.run_tool("hac-mail", box, self.store, "/mail", "--list")
        self.assertEqual(len(ran.stdout.splitlines()), 20)

    def test_refused_ones_are_told(self) -> None:
        self.make_store("write /mail x")
        self.assertIn("/mail can't be made in the store: not-dir /mail", self.bring(message(b"", b"x"), status=1)[0])

    def test_long_messages(self) -> None:
        content = b"Subject: long\n\n" + "ä".encode() * 600_000
        # The header and the blank line have 15 bytes, and each sign two.
        self.assertEqual(len(mail.read_message(content).text), 1_048_575)


class Stops(MailTest):
    def test_killed_and_run_again(self) -> None:
        heads = [(b"Subject: s%d" % (n % 7), b"Message-ID: <%d@x>" % n) for n in range(60)]
        messages = [message(*head, b"", b"text %d" % n) for n, head in enumerate(heads)]
        box = self.made / "box"
        box.write_bytes(b"".join(FROM + content + b"\n" for content in messages))
        for moment in range(10):
            run = Run("hac-mail", box, self.store, "/mail")
            time.sleep(0.005 + 0.01 * moment)
            run.kill()
            run.ended()
        self.run_tool("hac-mail", box, self.store, "/mail")
        texts = sorted(text.partition("\\n\\n")[2] for text in self.mails().values())
        self.assertEqual(texts, sorted(f"text {n}\\n" for n in range(60)))

    def test_hac_ends(self) -> None:
        messages = [message(b"Subject: s", b"", b"text %d" % n) for n in range(9)]
        box = self.made / "box"
        box.write_bytes(b"".join(FROM + content + b"\n" for content in messages))
        for replies in range(0, 14):
            hac = self.ends_after(replies, 5, "hac: disk fault")
            ran = Run("hac-mail", box, self.store, "/mail", hac=hac).ended()
            self.assertIn(ran.returncode, (0, 5))
            self.assertEqual(ran.returncode == 5, b"status 5 (hac: disk fault)" in ran.stderr)
        self.run_tool("hac-mail", box, self.store, "/mail")
        self.assertEqual(len(self.mails()), 9)
