"""Packs a page into one file that needs no server and no network, and takes its module out again."""

from __future__ import annotations

import base64
import hashlib
import json
import os
import re

from repository import TOP, Missing, read_text

PARTS = os.path.join(TOP, "page")
# The modules in the order in which each has what it imports.
SCRIPTS = (
    "module records identities keys cases past causes hashes summary shapes packets spans files readings switches status advice implied both standing verdict picture fields octets timeline viewing saving capture pasting script report diagram playing payload page"
).split()
EXAMPLES = os.path.join(TOP, "examples")
EXAMPLE = os.path.join(EXAMPLES, "captures", "unequal-keys.pcapng")
IMPORT = re.compile(r'^import \{ ([\w, ]+) \} from "\./([\w.]+)";\n', re.M)
# What a module declares for all of it: names are those of one scope.
DECLARED = re.compile(r"^(?:export )?(?:async )?(?:class|const|function\*?) (\w+)", re.M)
# Constants that one line declares behind the first.
FURTHER = re.compile(r"(?<=, )([A-Z][A-Z_0-9]*)(?= = )")
# Octets as a data block, lines of them so that tools take the file.
BLOCK = re.compile(r'<script type="application/x-base64" id="module">([^<]*)</script>')
WIDE = 120


def text_of(name: str) -> str:
    return read_text(os.path.join(PARTS, name))


def joined() -> str:
    """The modules as one: names are those of one scope, so imports and exports fall away."""
    texts: list[str] = []
    known: set[str] = set()
    taken: set[str] = set()
    for name in SCRIPTS:
        text = text_of(f"{name}.js")
        for names, source in IMPORT.findall(text):
            unknown = [it for it in names.split(", ") if it not in known]
            if unknown or source.removesuffix(".js") not in SCRIPTS[: SCRIPTS.index(name)]:
                raise Missing(f"page/{name}.js imports {', '.join(unknown) or source}, and no module before it has that")
        further = (FURTHER.findall(it) for it in re.findall(r"^(?:export )?const .*", text, re.M))
        own = set(DECLARED.findall(text)).union(*further)
        if taken & own:
            raise Missing(f"page/{name}.js declares what a module before it does: {', '.join(sorted(taken & own))}")
        taken |= own
        known |= set(re.findall(r"^export (?:async )?(?:class|const|function\*?) (\w+)", text, re.M))
        texts.append(re.sub(r"^export ", "", IMPORT.sub("", text), flags=re.M))
    return "\n".join(texts)


def digest(text: str) -> str:
    return f"'sha256-{base64.b64encode(hashlib.sha256(text.encode()).digest()).decode()}'"


def block(octets: bytes) -> str:
    code = base64.b64encode(octets).decode()
    return "\n".join(code[at : at + WIDE] for at in range(0, len(code), WIDE))


def scripts() -> str:
    """The scripts of examples/ by their names, as a data block."""
    texts: dict[str, str] = {}
    for name in sorted(it for it in os.listdir(EXAMPLES) if it.endswith(".toml")):
        texts[name] = read_text(os.path.join(EXAMPLES, name))
    return json.dumps(texts, indent=0).replace("<", "\\u003c")


def packed(module: bytes) -> str:
    """The page with this module."""
    style, script = text_of("style.css"), joined()
    with open(EXAMPLE, "rb") as it, open(os.path.join(TOP, "VERSION"), encoding="utf-8") as number:
        capture, version = it.read(), number.read().strip()
    allowed = f"script-src {digest(script)} 'wasm-unsafe-eval'; style-src {digest(style)}; worker-src blob:"
    policy = f"default-src 'none'; {allowed}; base-uri 'none'; form-action 'none'"
    values = {"POLICY": policy, "STYLE": style, "SCRIPT": script, "MODULE": block(module), "CAPTURE": block(capture)}
    values |= {"EXAMPLES": scripts(), "VERSION": version}
    return re.sub(r"@([A-Z]+)@", lambda found: values[found[1]], text_of("index.html"))


def module_in(page: str) -> bytes | None:
    """The module of a page; None if it has none."""
    found = BLOCK.search(page)
    return base64.b64decode(found[1]) if found else None
