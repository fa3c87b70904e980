"""What an installed hac consists of, and puts it below a folder or takes it away."""

from __future__ import annotations

import os
import re
import subprocess
from dataclasses import dataclass
from pathlib import Path
from typing import Dict, List, Optional, Set

import hac_pages
from hac_client import HERE, TOP, ToolError

# What was installed, by path below the prefix; a folder that was made for it has a slash behind it.
MANIFEST = "lib/hac/installed"
ABOUT = "a file system in one file whose directories may carry a query"


@dataclass(frozen=True)
class Part:
    """A file to be installed: its bytes and rights, or where it leads."""

    content: bytes = b""
    mode: int = 0o644
    link: str = ""


def tools() -> List[str]:
    return sorted(path.name for path in HERE.glob("hac-*") if os.access(path, os.X_OK) and path.is_file())


def page_of(tool: str) -> str:
    ran = subprocess.run([HERE / tool, "--help"], stdin=subprocess.DEVNULL, capture_output=True, text=True)
    if ran.returncode != 0:
        raise ToolError(f"{tool} --help ended with status {ran.returncode}: {ran.stderr.strip()}")
    return ran.stdout


def about(tool: str) -> str:
    """What a tool is, as its page's heading in docs/tools.md says it."""
    heading = re.search(rf"^## {re.escape(tool)}: (.+)$", (TOP / "docs/tools.md").read_text(), re.MULTILINE)
    if heading is None:
        raise ToolError(f"docs/tools.md has no heading for {tool}")
    return heading[1]


def parts(program: Path, python: Optional[str] = None) -> Dict[str, Part]:
    """All that is installed, by its path below the prefix. Where a path of python is given, the tools begin with it."""
    found = {"lib/hac/hac": Part(program.read_bytes(), 0o755), "bin/hac": Part(link="../lib/hac/hac")}
    for module in sorted(HERE.glob("hac_*.py")):
        if module.stem not in ("hac_install", "hac_pages"):
            found[f"lib/hac/{module.name}"] = Part(module.read_bytes())
    # What a tool reads beside itself, such as the page of one that serves a browser.
    for file in sorted(path for path in (HERE / "web").glob("*") if path.is_file()):
        found[f"lib/hac/web/{file.name}"] = Part(file.read_bytes())
    manual = (TOP / "docs/manual.md").read_text()
    found["share/man/man1/hac.1"] = Part(hac_pages.man_of_manual(ABOUT, manual).encode())
    found.update(completions("hac", hac_pages.HAC_OPTIONS))
    for tool in tools():
        content = (HERE / tool).read_bytes()
        if python is not None:
            content = content.replace(b"#!/usr/bin/env python3\n", f"#!{python}\n".encode(), 1)
        found[f"lib/hac/{tool}"] = Part(content, 0o755)
        found[f"bin/{tool}"] = Part(link=f"../lib/hac/{tool}")
        page = page_of(tool)
        found[f"share/man/man1/{tool}.1"] = Part(hac_pages.man_of_help(tool, about(tool), page).encode())
        found.update(completions(tool, hac_pages.options_of(page)))
    for name in ("manual", "queries", "tools", "first_folder", "mount", "first_mount", "store"):
        found[f"share/doc/hac/{name}.md"] = Part((TOP / f"docs/{name}.md").read_bytes())
    return found


def completions(command: str, options: List[hac_pages.Option]) -> Dict[str, Part]:
    return {
        f"share/bash-completion/completions/{command}": Part(hac_pages.bash_completion(command, options).encode()),
        f"share/zsh/site-functions/_{command}": Part(hac_pages.zsh_completion(command, options).encode()),
        f"share/fish/vendor_completions.d/{command}.fish": Part(hac_pages.fish_completion(command, options).encode()),
    }


def put(path: Path, part: Part) -> None:
    """Puts a part in its place, whole or not at all."""
    new = path.with_name(f".{path.name}.hac-new")
    if os.path.lexists(new):
        new.unlink()
    if part.link:
        os.symlink(part.link, new)
    else:
        new.write_bytes(part.content)
        new.chmod(part.mode)
    os.replace(new, path)


def read_manifest(prefix: Path) -> List[str]:
    try:
        return (prefix / MANIFEST).read_text().splitlines()
    except FileNotFoundError:
        return []


def install(prefix: Path, program: Path) -> int:
    """Installs all below a prefix, and takes away what an earlier install put there and this doesn't. Nothing of another
    hand is written over. Gives the number of files."""
    wanted = parts(program)
    listed = read_manifest(prefix)
    for path in wanted:
        if path not in listed and os.path.lexists(prefix / path):
            raise ToolError(f"{prefix / path} is there, and ./hac --install didn't put it there; nothing was installed")
    made: Set[str] = {path for path in listed if path.endswith("/")}
    for folder in sorted({folder for path in [*wanted, MANIFEST] for folder in folders(path)}):
        if not (prefix / folder).is_dir():
            made.add(folder + "/")
            (prefix / folder).mkdir(parents=True)
    # The list is there before what it lists, and names what goes until that has gone.
    everything = sorted({*made, *wanted, *listed})
    put(prefix / MANIFEST, Part("".join(f"{path}\n" for path in everything).encode()))
    for path, part in wanted.items():
        put(prefix / path, part)
    for path in listed:
        if path not in wanted and not path.endswith("/"):
            (prefix / path).unlink(missing_ok=True)
    put(prefix / MANIFEST, Part("".join(f"{path}\n" for path in sorted({*made, *wanted})).encode()))
    return len(wanted)


def folders(path: str) -> List[str]:
    """The folders above a path, the highest first."""
    return [str(above) for above in reversed(Path(path).parents) if str(above) != "."]


def uninstall(prefix: Path) -> int:
    """Takes away what install put below a prefix, and the folders that it made and that are empty. Gives the number of
    files."""
    listed = read_manifest(prefix)
    if not listed:
        raise ToolError(f"nothing is installed below {prefix}: there is no {prefix / MANIFEST}")
    count = 0
    for path in listed:
        if not path.endswith("/") and os.path.lexists(prefix / path):
            (prefix / path).unlink()
            count += 1
    for kept in (prefix / "lib/hac/__pycache__").glob("hac_*.pyc"):
        kept.unlink()
    for folder in [
        prefix / "lib/hac/__pycache__",
        *(prefix / path for path in sorted(listed, reverse=True) if path.endswith("/")),
    ]:
        if folder == prefix / "lib/hac/":
            (prefix / MANIFEST).unlink()
        try:
            folder.rmdir()
        except OSError:
            continue  # It isn't empty, so another hand uses it; or it isn't there.
    (prefix / MANIFEST).unlink(missing_ok=True)
    return count
