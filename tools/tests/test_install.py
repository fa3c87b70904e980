"""What is installed, how it is taken away, and that a session runs from it; the package of Debian; pages and completions."""

from __future__ import annotations

import os
import re
import shutil
import subprocess
import unittest
from pathlib import Path
from typing import Dict, List

from tests.support import HAC, TOOLS, ToolTest

import hac_install
import hac_pages
from hac_client import ToolError

NEEDS_DPKG = unittest.skipUnless(shutil.which("dpkg-deb") and shutil.which("strip"), "dpkg-deb or strip isn't here")


class InstallTest(ToolTest):
    def first_session(self, commands: Path) -> None:
        """Brings a folder, makes a directory and a view of it, by the programs in a folder, as a new user would."""
        notes = self.made / "notes"
        notes.mkdir()
        (notes / "shopping").write_text("Bread and apples\n")
        (notes / "plan").write_text("Learn\n")
        # Nothing of the repository is seen from here, and python isn't found by another name.
        given = {"PATH": f"{commands}:{os.environ['PATH']}", "HOME": str(self.made / "home"), "LC_ALL": "C.UTF-8"}
        for command in (
            "hac-sync notes notes.hac /notes",
            "echo 'smkdir /apples apple*' | hac notes.hac",
            "hac-view notes.hac by-content",
            "hac-shell --help",
            "hac-mail --version",
        ):
            ran = subprocess.run(["sh", "-c", command], cwd=self.made, env=given, capture_output=True)
            self.assertEqual((ran.returncode, ran.stderr), (0, b""), command)
        self.assertEqual(os.listdir(self.made / "by-content/apples"), ["shopping"])

    def files(self, prefix: Path) -> List[str]:
        return sorted(str(path.relative_to(prefix)) for path in prefix.rglob("*"))


class Installed(InstallTest):
    def test_installed_and_taken_away(self) -> None:
        prefix = self.made / "a prefix"
        (prefix / "bin").mkdir(parents=True)
        (prefix / "bin/mine").touch()
        count = hac_install.install(prefix, HAC)
        self.assertEqual((prefix / "lib/hac/hac").read_bytes(), HAC.read_bytes())
        for tool in hac_install.tools():
            for path in (f"bin/{tool}", f"share/man/man1/{tool}.1", f"share/fish/vendor_completions.d/{tool}.fish"):
                self.assertTrue((prefix / path).exists(), path)
        self.first_session(prefix / "bin")
        self.assertEqual(hac_install.install(prefix, HAC), count)
        self.assertEqual(hac_install.uninstall(prefix), count)
        self.assertEqual(self.files(prefix), ["bin", "bin/mine"])
        self.assertRaises(ToolError, hac_install.uninstall, prefix)

    def test_nothing_is_written_over(self) -> None:
        prefix = self.made / "prefix"
        (prefix / "bin").mkdir(parents=True)
        (prefix / "bin/hac").write_text("another program")
        with self.assertRaisesRegex(ToolError, "didn't put it there; nothing was installed"):
            hac_install.install(prefix, HAC)
        self.assertEqual(self.files(prefix), ["bin", "bin/hac"])

    def test_what_is_no_part_any_more_goes(self) -> None:
        prefix = self.made / "prefix"
        hac_install.install(prefix, HAC)
        (prefix / "bin/hac-old").touch()
        with open(prefix / hac_install.MANIFEST, "a") as manifest:
            manifest.write("bin/hac-old\nbin/hac-gone\n")
        hac_install.install(prefix, HAC)
        self.assertFalse((prefix / "bin/hac-old").exists())
        hac_install.uninstall(prefix)
        self.assertFalse(prefix.exists() and self.files(prefix))

    def test_words(self) -> None:
        for words in ([], ["--install", "a", "b"], ["x"], ["--install", ""]):
            ran = subprocess.run([TOOLS / "install", *words], stdin=subprocess.DEVNULL, capture_output=True)
            self.assertEqual(ran.returncode, 2, words)


class Package(InstallTest):
    @NEEDS_DPKG
    def test_the_package(self) -> None:
        ran = subprocess.run(
            [TOOLS / "make-deb", "--program", HAC, self.made], stdin=subprocess.DEVNULL, capture_output=True, text=True
        )
        self.assertEqual((ran.returncode, ran.stderr), (0, ""))
        package = Path(ran.stdout.rstrip("\n"))
        root = self.made / "root"
        self.unpack(package, root)
        fields = subprocess.run(["dpkg-deb", "--field", package], capture_output=True, text=True, check=True).stdout
        self.assertRegex(fields, r"Depends: libc6 \(>= 2\.\d+\)(, libgcc-s1)?, python3 \(>= 3\.8\)\n")
        self.assertTrue((root / "usr/share/man/man1/hac-sync.1.gz").is_file())
        self.first_session(root / "usr/bin")
        if shutil.which("lintian"):
            ran = subprocess.run(
                ["lintian", "--allow-root", "--fail-on", "error", package], stdin=subprocess.DEVNULL, capture_output=True, text=True
            )
            self.assertEqual(ran.returncode, 0, ran.stdout)

    def unpack(self, package: Path, root: Path) -> None:
        """Installs a package into a root of its own, by dpkg where that may be."""
        if os.geteuid() != 0:
            root.mkdir()
            subprocess.run(["dpkg-deb", "--extract", package, root], check=True)
            return
        (root / "var/lib/dpkg/info").mkdir(parents=True)
        (root / "var/lib/dpkg/updates").mkdir()
        (root / "var/lib/dpkg/status").touch()
        words = ["dpkg", f"--root={root}", "--force-depends", "--install", package]
        subprocess.run(words, check=True, stdin=subprocess.DEVNULL, capture_output=True)


def words_of_man(man: str) -> List[str]:
    """The words of a man page without its requests and escapes, and without what stands before its description."""
    text = re.sub(r"^\.(SH|SS|TH) .*$|^\.(PP|TP|nf|fi)$", "", man.partition(".SH DESCRIPTION")[2], flags=re.MULTILINE)
    text = text.partition(".BR hac (1)")[0]
    text = re.sub(r"^\.B ", "", text, flags=re.MULTILINE)
    for escape, sign in ((r"\&", ""), (r"\-", "-"), (r"\(ti", "~"), (r"\(ha", "^"), (r"\(ga", "`"), (r"\e", "\\")):
        text = text.replace(escape, sign)
    return text.split()


class Pages(unittest.TestCase):
    def test_a_man_page_says_what_help_says(self) -> None:
        for tool in hac_install.tools():
            page = hac_install.page_of(tool)
            man = hac_pages.man_of_help(tool, hac_install.about(tool), page)
            self.assertEqual(words_of_man(man), page.split("\n\n", 1)[1].split(), tool)

    def test_each_tool_has_a_heading(self) -> None:
        for tool in hac_install.tools():
            self.assertTrue(hac_install.about(tool), tool)

    def test_options_are_those_of_help(self) -> None:
        wanted = {
            "hac-view": {"--home": "", "--list": "", "--quiet": "", "--help": "", "--version": ""},
            "hac-catalogue": {"--table": "", "--name": "COLUMN", "--delimiter": "SIGN", "--help": "", "--version": ""},
        }
        for tool, options in wanted.items():
            found: Dict[str, str] = {it.name: it.value for it in hac_pages.options_of(hac_install.page_of(tool))}
            self.assertEqual(found, options)

    def test_roff(self) -> None:
        self.assertEqual(hac_pages.roff(".a\n'b \\n --x"), "\\&.a\n\\&'b \\en \\-\\-x")
        wanted = "\\fBa\\-b\\fR, \\fBstrong\\fR, a link and 2*3*4"
        self.assertEqual(hac_pages.inline("`a-b`, **strong**, [a link](x.md) and 2*3*4"), wanted)

    def test_the_manual_loses_no_row(self) -> None:
        manual = (TOOLS.parent / "docs/manual.md").read_text()
        man = hac_pages.man_of_manual("about", manual)
        self.assertEqual(man.count("\n.TP\n"), len(re.findall(r"^\| (?!-)", manual, re.MULTILINE)) - len(re.findall(r"^\|---", manual, re.MULTILINE)))
        self.assertEqual(man.count("\n.SH "), 3 + manual.count("\n## "))

    @unittest.skipUnless(shutil.which("mandoc"), "mandoc isn't here")
    def test_man_pages_are_well_formed(self) -> None:
        manual = (TOOLS.parent / "docs/manual.md").read_text()
        pages = [hac_pages.man_of_help(tool, hac_install.about(tool), hac_install.page_of(tool)) for tool in hac_install.tools()]
        for man in [*pages, hac_pages.man_of_manual("about", manual)]:
            ran = subprocess.run(["mandoc", "-T", "lint", "-W", "error"], input=man, capture_output=True, text=True)
            self.assertEqual((ran.returncode, ran.stdout), (0, ""))


class Completions(ToolTest):
    def test_bash(self) -> None:
        file = self.made / "hac-view"
        file.write_text(hac_pages.bash_completion("hac-view", hac_pages.options_of(hac_install.page_of("hac-view"))))
        lines = [f"source '{file}'", "COMP_WORDS=(hac-view --h); COMP_CWORD=1", "_hac_view", 'echo "${COMPREPLY[@]}"']
        ran = subprocess.run(["bash", "-c", "\n".join(lines)], capture_output=True, text=True)
        self.assertEqual((ran.stdout, ran.stderr), ("--home --help\n", ""))

    def test_other_shells_read_theirs(self) -> None:
        seen = 0
        for shell, make in (("zsh", hac_pages.zsh_completion), ("fish", hac_pages.fish_completion)):
            if not shutil.which(shell):
                continue
            seen += 1
            for tool in hac_install.tools():
                file = self.made / "completion"
                file.write_text(make(tool, hac_pages.options_of(hac_install.page_of(tool))))
                ran = subprocess.run([shell, "-n", file], capture_output=True, text=True)
                self.assertEqual((ran.returncode, ran.stderr), (0, ""), f"{shell}: {tool}")
        if not seen:
            self.skipTest("neither zsh nor fish is here")
