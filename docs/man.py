#!/usr/bin/env python3
"""Makes the manual page docs/bridge.1 of docs/COMMANDS.md.

usage: docs/man.py            writes docs/bridge.1
       docs/man.py --check    says whether docs/bridge.1 is the page of docs/COMMANDS.md (status 1 where it isn't)
"""
import pathlib
import re
import sys

HERE = pathlib.Path(__file__).resolve().parent
SOURCE, PAGE = HERE / "COMMANDS.md", HERE / "bridge.1"


def plain(text):
    """A text of Markdown as roff: code and names in bold, links by their words."""
    text = re.sub(r"\[([^]]*)\]\([^)]*\)", r"\1", text)
    text = text.replace("\\|", "|").replace("\\", "\\e").replace("-", "\\-")
    text = re.sub(r"`([^`]*)`", r"\\fB\1\\fR", text)
    text = re.sub(r"\*([^*]+)\*", r"\\fI\1\\fR", text)
    return "\\&" + text if text.startswith((".", "'")) else text


def cells(row):
    return [it.strip() for it in re.split(r"(?<!\\)\|", row.strip())[1:-1]]


def table(rows):
    """A table as a list: the first cell of a row, and behind it each other cell under its head."""
    head, lines = cells(rows[0]), []
    for row in rows[2:]:
        first, *others = cells(row)
        said = [it for it in zip(head[1:], others) if it[1] != "-"]
        lines += [".TP", plain(first)]
        for i, (name, cell) in enumerate(said):
            lines += [".br"] * (i > 0) + [plain(cell if len(head) == 2 else f"{name}: {cell}")]
    return lines


def page(text):
    lines = ['.TH BRIDGE 1 "" "Sirokufa" "User commands"', ".SH NAME"]
    source, at, code = text.splitlines(), 0, False
    while at < len(source):
        line = source[at]
        if line.startswith("```"):
            lines += [".fi", ".RE"] if code else [".RS 4", ".nf"]
            code = not code
        elif code:
            line = line.replace("\\", "\\e").replace("-", "\\-")
            lines.append("\\&" + line if line.startswith((".", "'")) else line)
        elif line.startswith("# "):
            lines += [plain(line[2:]).replace(": ", " \\- ", 1), ".SH SYNOPSIS"]
        elif line.startswith("## "):
            lines += [f'.SH "{plain(line[3:])}"']
        elif line.startswith("### "):
            lines += [f'.SS "{plain(line[4:])}"']
        elif line.startswith("|"):
            end = at
            while end < len(source) and source[end].startswith("|"):
                end += 1
            lines += table(source[at:end])
            at = end - 1
        elif line.startswith("- "):
            lines += [".IP \\(bu 2", plain(line[2:])]
        elif line:
            lines += [".PP", plain(line)]
        at += 1
    return "\n".join(lines) + "\n"


if sys.argv[1:] not in ([], ["--check"]):
    sys.exit("usage: docs/man.py [--check]")
made = page(SOURCE.read_text(encoding="utf-8"))
if sys.argv[1:] == ["--check"]:
    sys.exit(0 if PAGE.exists() and PAGE.read_text(encoding="utf-8") == made else "docs/bridge.1 isn't the page of docs/COMMANDS.md: run docs/man.py")
PAGE.write_text(made, encoding="utf-8")
