"""The documents as they are installed: programs under their installed names, and links that lead somewhere.

A page of the repository links to sources and tools that are not installed. Such a link becomes its own words.
"""

from __future__ import annotations

import os
import re
from typing import Mapping

FOLDER = "share/doc/niwhopera"
# The names that programs of the repository have where they are installed.
NAMES = {"tools/lagtool": "lagtool", "tools/frames": "lagframes", "tools/draw": "lagdraw"}
LINK = re.compile(r"(!?)\[((?:[^\[\]]|\[[^\]]*\])*)\]\(([^()\s]+)\)")


def is_text(path: str) -> bool:
    """Whether a document is a text whose words may change: neither a picture nor a capture nor what a program reads."""
    return path.endswith((".md", ".toml", ".txt", ".py", ".c"))


def renamed(text: str) -> str:
    """A text with the installed names."""
    words = "|".join(re.escape(it) for it in NAMES)
    return re.sub(rf"(?<![\w/.-])(?:\./)?({words})(?![\w/-]|\.d)", lambda found: NAMES[found[1]], text)


def headings(text: str) -> set[str]:
    """The anchors of a page: its headings as GitHub writes them in a link."""
    found: dict[str, int] = {}
    anchors = set()
    for line in outside_of_code(text):
        if re.match(r"#+ ", line):
            words = re.sub(r"\[([^\]]*)\]\([^)]*\)", r"\1", line.lstrip("#").strip()).lower()
            anchor = re.sub(r"[^\w\- ]", "", words).replace(" ", "-")
            anchors.add(f"{anchor}-{found[anchor]}" if anchor in found else anchor)
            found[anchor] = found.get(anchor, 0) + 1
    return anchors


def outside_of_code(text: str) -> list[str]:
    """The lines that do not stand between fences, and are not indented as code."""
    kept, is_code = [], False
    for line in text.split("\n"):
        if line.startswith("```"):
            is_code = not is_code
        elif not is_code and not line.startswith("    "):
            kept.append(line)
    return kept


def target(path: str, link: str) -> tuple[str, str]:
    """The file that a link of a page leads to, and the place within it."""
    file, _, anchor = link.partition("#")
    return os.path.normpath(os.path.join(os.path.dirname(path), file)) if file else path, anchor


def is_outside(link: str) -> bool:
    """Whether a link leads out of the documents."""
    return re.match(r"[a-z]+:", link) is not None


def with_links(path: str, text: str, there: set[str]) -> str:
    """A page of which each link that leads to no installed file is its words alone."""

    def kept(found: re.Match[str]) -> str:
        if is_outside(found[3]) or target(path, found[3])[0] in there:
            return found[0]
        return found[2]

    # A link may hold a picture, which is looked at first.
    return LINK.sub(kept, text)


def installed(paths: Mapping[str, str]) -> dict[str, str]:
    """The texts to install, by where they go below the prefix."""
    there, found = {*paths, *(os.path.dirname(it) for it in paths)}, {}
    for path, file in paths.items():
        if is_text(path):
            with open(file, encoding="utf-8") as it:
                text = renamed(it.read())
            found[f"{FOLDER}/{path}"] = with_links(path, text, there) if path.endswith(".md") else text
    return found


def dangling(pages: Mapping[str, str], there: set[str]) -> list[str]:
    """The links of these pages, each a path and its text, that lead to none of these files, or to no heading of a page."""
    found = []
    for path, text in pages.items():
        for _, _, link in LINK.findall("\n".join(outside_of_code(text))):
            if is_outside(link):
                continue
            file, anchor = target(path, link)
            if file not in there:
                found.append(f"{path}: {link} leads to no file")
            elif anchor and file in pages and anchor not in headings(pages[file]):
                found.append(f"{path}: {link} leads to no heading")
    return found
