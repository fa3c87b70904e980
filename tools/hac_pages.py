"""Makes man pages and completions from the pages that are there: what a tool's --help shows, and docs/manual.md."""

from __future__ import annotations

import re
from dataclasses import dataclass
from typing import Iterator, List, Tuple

from hac_client import VERSION

# Man pages.


def roff(text: str) -> str:
    """A text as it stands in a man page: no sign of it is a request."""
    text = text.replace("\\", "\\e").replace("-", "\\-").replace("~", "\\(ti").replace("^", "\\(ha").replace("`", "\\(ga")
    return "\n".join("\\&" + line if line.startswith((".", "'")) else line for line in text.split("\n"))


def head(name: str, about: str) -> List[str]:
    title = f'.TH {roff(name.upper())} 1 "" "hac {VERSION}" "Hierarchy And Content"'
    return [title, ".SH NAME", f"{roff(name)} \\- {roff(about)}"]


def man_of_help(name: str, about: str, page: str) -> str:
    """The man page of a tool."""
    usage, *blocks = page.strip("\n").split("\n\n")
    lines = [*head(name, about), ".SH SYNOPSIS", f".B {roff(name)}", roff(usage.split(" ", 2)[2]), ".SH DESCRIPTION"]
    for block in blocks:
        if block.startswith("  --"):
            lines.append(".SH OPTIONS")
        elif block.startswith("The status is"):
            lines.append(".SH EXIT STATUS")
        if block.startswith("  "):
            for term, words in terms(block):
                lines += [".TP", f".B {roff(term)}", roff(words)]
        else:
            lines += [".PP", roff(block)]
    return "\n".join([*lines, ".SH SEE ALSO", ".BR hac (1)", ""])


_TERM = re.compile(r"  (\S+(?: \S+)*)  +(\S.*)")


def terms(block: str) -> Iterator[Tuple[str, str]]:
    """The terms of a list in a page, each with what is said of it."""
    found: List[List[str]] = []
    for line in block.split("\n"):
        term = _TERM.fullmatch(line)
        if term is not None:
            found.append([term[1], term[2]])
        elif found:
            found[-1].append(line.strip())
    for term_words in found:
        yield term_words[0], " ".join(term_words[1:])


_INLINE = re.compile(r"`([^`]+)`|\*\*([^*]+)\*\*|\[([^\]]+)\]\([^)]*\)|(?<![\w*])\*([^*\s][^*]*)\*")


def inline(text: str) -> str:
    """A piece of Markdown on a line: code and strong words are bold, and links are their words."""
    pieces, place = [], 0
    for found in _INLINE.finditer(text):
        pieces.append(roff(text[place : found.start()]))
        bold = found[1] or found[2]
        if bold:
            pieces.append(f"\\fB{roff(bold)}\\fR")
        else:
            pieces.append(inline(found[3]) if found[3] else f"\\fI{roff(found[4])}\\fR")
        place = found.end()
    pieces.append(roff(text[place:]))
    joined = "".join(pieces)
    return "\\&" + joined if joined.startswith((".", "'")) else joined


def man_of_manual(about: str, manual: str) -> str:
    """The man page of hac: the manual, whose first block of code is the usage."""
    lines = head("hac", about)
    blocks = re.split(r"\n\n+", manual.strip("\n"))
    for block in blocks:
        if block.startswith("# "):
            lines.append(".SH SYNOPSIS")
        elif block.startswith("## "):
            lines.append(f".SH {roff(block[3:].upper())}")
        elif block.startswith("### "):
            lines.append(f".SS {roff(block[4:])}")
        elif block.startswith("    "):
            lines += [".PP", ".nf", *(roff(line) for line in block.split("\n")), ".fi"]
            if len([line for line in lines if line == ".nf"]) == 1:
                lines.append(".SH DESCRIPTION")
        elif block.startswith("- "):
            for item in re.split(r"^- ", block, flags=re.MULTILINE)[1:]:
                lines += [".IP \\(bu 2", inline(" ".join(item.split()))]
        elif block.startswith("|"):
            lines += table(block)
        else:
            lines += [".PP", inline(block)]
    return "\n".join([*lines, ""])


def table(block: str) -> Iterator[str]:
    """The rows of a table without its head: the first cell is the term."""
    for row in block.split("\n")[2:]:
        first, *rest = [cell.strip().replace("\\|", "|") for cell in row.strip("|").split(" | ")]
        yield from (".TP", inline(first) or "\\&", inline("; ".join(cell for cell in rest if cell)) or "\\&")


# Completions.


@dataclass(frozen=True)
class Option:
    name: str
    value: str
    about: str


HAC_OPTIONS = [
    Option("--new", "", "make the store"),
    Option("--tick", "N", "index up to N files behind each reply"),
    Option("--make", "NUMBER", "play the script that is drawn from a number"),
]


def options_of(page: str) -> List[Option]:
    """The options that a page lists."""
    found = [Option("--version", "", "show the version")]
    for block in page.split("\n\n"):
        if block.startswith("  --"):
            for term, about in terms(block):
                name, _, value = term.partition(" ")
                found.append(Option(name, value, about))
    return found


def bash_completion(command: str, options: List[Option]) -> str:
    function = "_" + command.replace("-", "_")
    names = " ".join(option.name for option in options)
    return (
        f"# Completes the words of {command} in bash.\n"
        f"{function}() {{\n"
        "    COMPREPLY=()\n"
        '    if [[ "${COMP_WORDS[COMP_CWORD]}" == -* ]]; then\n'
        f"""        mapfile -t COMPREPLY < <(compgen -W "{names}" -- "${{COMP_WORDS[COMP_CWORD]}}")\n"""
        "    fi\n"
        "}\n"
        f"complete -o default -o bashdefault -F {function} {command}\n"
    )


def zsh_completion(command: str, options: List[Option]) -> str:
    lines = [f"#compdef {command}", "", "_arguments -S \\"]
    for option in options:
        about = re.sub(r"([\[\]:\\])", r"\\\1", option.about).replace("'", "'\\''")
        value = f":{option.value}: " if option.value else ""
        lines.append(f"    '{option.name}[{about}]{value}' \\")
    return "\n".join([*lines, "    '*:file:_files'", ""])


def fish_completion(command: str, options: List[Option]) -> str:
    lines = [f"# Completes the words of {command} in fish."]
    for option in options:
        about = option.about.replace("\\", "\\\\").replace("'", "\\'")
        value = " -r" if option.value else ""
        lines.append(f"complete -c {command} -l {option.name[2:]}{value} -d '{about}'")
    return "\n".join([*lines, ""])
