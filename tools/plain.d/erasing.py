"""Takes from a proved source what only the prover reads, by a filter of its tokens: what is left is Rust, in which each line keeps its number.

facade/eraser, by which cargo builds, does the same by the grammar of items. The two share nothing, and tools/plain --compare compares them.
"""

from __future__ import annotations

import re
from typing import Iterator, NamedTuple

WORD = re.compile(r"[^\W\d]\w*")
NUMBER = re.compile(r"\d\w*(?:\.\d\w*)?")
RAW = re.compile(r'b?r(#*)"')
CHAR = re.compile(r"b?'(?:\\(?:u\{[0-9a-fA-F_]+\}|x[0-9a-fA-F]{2}|.)|[^\\'\n])'")
LIFETIME = re.compile(r"'[^\W\d]\w*")
TEXT = re.compile(r'b?"(?:\\.|[^"\\])*"', re.S)
CLAUSE = re.compile(r"(requires|ensures)\b\*?(?: \w+)? ?\{")
# What of a term in braces is no brace: a text, a comment, and a name, in which a prime or a dash may stand.
IN_TERM = re.compile(r'"(?:\\.|[^"\\\n])*"|\{-.*?-\}|--[^\n]*|[^\s(){}.;,@"«»]+', re.S)
TAKEN_APART = re.compile(r"\{ fn drop \( self \) \{ let \w+ \{ (?:\w+ : _ ,? ?)*\} = self ; \} \}")
# Attributes that go, with what they are called.
GONE = {"#[tactic(": "tactic", "#![tactic(": "tactic", "#[unsafe(no_mangle)]": "export"}


class Token(NamedTuple):
    """A token: a comment, a doc comment, a text, a char, a lifetime, a word, a number or a mark."""

    kind: str
    start: int
    end: int
    text: str


class Erased(NamedTuple):
    """What goes of a text, from `start` to `end`, and of which kind it is."""

    start: int
    end: int
    kind: str


class NotPlain(Exception):
    """The text has what is neither Rust nor erased."""


def past_term(text: str, at: int) -> int | None:
    """Where the term in braces that begins at `at` ends. Its words are not Rust's."""
    depth = 0
    while at < len(text):
        found = IN_TERM.match(text, at)
        if found:
            at = found.end()
            continue
        depth += (text[at] == "{") - (text[at] == "}")
        at += 1
        if depth == 0:
            return at
    return None


def next_token(text: str, at: int) -> Token | None:
    """The token that begins at `at`, where no space is; None where none begins."""
    if text.startswith("//", at):
        end = text.find("\n", at)
        kind = "doc" if text.startswith("///", at) and not text.startswith("////", at) else "comment"
        return Token(kind, at, len(text) if end < 0 else end, "")
    if text.startswith("/*", at):
        return Token("comment", at, text.index("*/", at) + 2, "")
    raw = RAW.match(text, at)
    if raw:
        closing = '"' + raw.group(1)
        return Token("text", at, text.index(closing, raw.end()) + len(closing), "")
    for kind, pattern in (("text", TEXT), ("char", CHAR), ("lifetime", LIFETIME), ("word", WORD), ("number", NUMBER)):
        found = pattern.match(text, at)
        if found:
            return Token(kind, at, found.end(), found.group())
    return Token("mark", at, at + 1, text[at]) if text[at].isascii() else None


class Source:
    """One source, with what goes of it."""

    def __init__(self, text: str, path: str) -> None:
        self.text, self.path = text, path
        self.gone: list[Erased] = []
        self.tokens: list[Token] = []
        self.read()
        code = [it for it in self.tokens if it.kind not in ("comment", "doc")]
        self.writers(code)
        self.exports(code)
        self.drops(code)

    def fault(self, at: int, why: str) -> NotPlain:
        return NotPlain(f"{self.path}:{self.text.count(chr(10), 0, at) + 1}: {why}")

    def erase(self, start: int, end: int, kind: str) -> int:
        self.gone.append(Erased(start, end, kind))
        return end

    def read(self) -> None:
        """Reads the tokens that stay, and erases ghosts, contracts and attributes."""
        text, at = self.text, 0
        while at < len(text):
            if text[at].isspace():
                at += 1
                continue
            token = next_token(text, at)
            if token is None:
                raise self.fault(at, f"{text[at]!r} is no Rust")
            end = self.without_code(token)
            if end is None:
                self.tokens.append(token)
                end = token.end
            at = end

    def without_code(self, token: Token) -> int | None:
        """Erases what begins with this token, where that is none of code; answers where it ends."""
        text, at = self.text, token.start
        if token.kind == "word" and token.text == "ghost":
            return self.ghost(token)
        if token.kind == "word" and token.text in ("requires", "ensures"):
            clause = CLAUSE.match(text, at)
            end = past_term(text, clause.end() - 1) if clause else None
            if end is None:
                raise self.fault(at, f"{token.text!r} begins no clause that ends")
            return self.erase(at, end, "contract")
        for begins, kind in GONE.items():
            if text.startswith(begins, at):
                end = at + len(begins) if begins.endswith("]") else text.index(")]", at) + 2
                return self.erase(at, end, kind)
        return None

    def ghost(self, token: Token) -> int:
        """Erases a ghost: `use` and a member end with `;`, a field with `,` or before the brace of its struct."""
        text, at, start = self.text, token.end, token.start
        # A visibility, and comments of documentation before it, go too.
        kept = self.tokens
        if kept and kept[-1].text == ")":
            while kept[-1].text != "(":
                kept.pop()
            start = kept.pop().start
        if kept and kept[-1].text == "pub":
            start = kept.pop().start
        while kept and kept[-1].kind == "doc":
            start = kept.pop().start
        if re.compile(r"\s+use\b").match(text, at):
            return self.erase(start, text.index(";", at) + 1, "ghost")
        while at < len(text):
            if text[at] == "{":
                end = past_term(text, at)
                if end is None:
                    break
                at = end
            elif text[at] in ";,":
                return self.erase(start, at + 1, "ghost")
            elif text[at] in ")}":
                return self.erase(start, at, "ghost")
            else:
                at += 1
        raise self.fault(token.start, "a ghost that does not end")

    def writers(self, code: list[Token]) -> None:
        """Erases the type parameters of formatters."""
        for at, token in enumerate(code):
            if token.text == "fn" and at + 2 < len(code) and code[at + 2].text == "<":
                end = past_angle(code, at + 2)
                for place in range(at + 3, end):
                    words = " ".join(it.text for it in code[place : place + 6])
                    if words == f"{code[place].text} : fmt : : Write":
                        self.writer(code, place, end, signature_end(code, end))

    def writer(self, code: list[Token], place: int, end: int, body: int) -> None:
        """Erases the parameter at `place`, of those that end at `end`, where the signature, to `body`, uses it in `Formatter<W>` alone."""
        uses = [at for at in range(end, body) if code[at].kind == "word" and code[at].text == code[place].text]
        in_formatters = [at for at in uses if [it.text for it in code[at - 2 : at + 2]] == ["Formatter", "<", code[at].text, ">"]]
        if not uses or uses != in_formatters:
            return
        last = place + 6
        if code[place - 1].text == "<" and code[last].text == ">":
            self.erase(code[place - 1].start, code[last].end, "writer")
        elif code[last].text == ",":
            self.erase(code[place].start, code[last].end, "writer")
        else:
            self.erase(code[place - 1].start, code[last - 1].end, "writer")
        for at in uses:
            self.erase(code[at - 1].start, code[at + 1].end, "writer")

    def exports(self, code: list[Token]) -> None:
        """Erases `extern "C"` of a function: its wrapper has it."""
        for word, abi, behind in zip(code, code[1:], code[2:]):
            if word.text == "extern" and abi.kind == "text" and behind.text == "fn":
                self.erase(word.start, abi.end, "export")

    def drops(self, code: list[Token]) -> None:
        """Erases an `impl Drop` whose drop takes a value apart."""
        words = [it.text for it in code]
        for at, word in enumerate(words):
            if word == "Drop" and words[at + 1 : at + 2] == ["for"]:
                first = max(place for place in range(at) if words[place] == "impl")
                brace = words.index("{", at)
                end = past_brace(words, brace)
                body = " ".join(words[brace:end])
                if not TAKEN_APART.fullmatch(body):
                    raise self.fault(code[first].start, "this drop does more than to take the value apart")
                self.erase(self.with_docs(code[first].start), code[end - 1].end, "drop")

    def with_docs(self, start: int) -> int:
        """Where the comments of documentation begin that stand before what begins at `start`."""
        for token in reversed([it for it in self.tokens if it.end <= start]):
            if token.kind != "doc":
                break
            start = token.start
        return start

    def left(self) -> str:
        """What is left: spaces stand in the place of what goes, and no line ends in spaces."""
        signs = list(self.text)
        for start, end, _ in self.gone:
            for at in range(start, end):
                if signs[at] != "\n":
                    signs[at] = " "
        return "\n".join(line.rstrip() for line in "".join(signs).split("\n"))

    def forms(self) -> Iterator[tuple[str, str]]:
        """Of each part that goes its kind and its form: what stands in braces, and names of a source, are left out."""
        for start, end, kind in self.gone:
            form = " ".join(self.text[start:end].split())
            if kind in ("ghost", "contract"):
                form = re.sub(r"///.*?(?=ghost|pub)", "", form).split("{")[0].strip()
                form = re.sub(r"(requires|ensures\*?) \w+", r"\1 NAME", form)
                form = re.sub(r"ghost use .*", "ghost use ..", form)
            elif kind == "tactic":
                form = re.sub(r"(unfolding|using)\(.*\)\)", r"\1(..))", form)
            yield kind, form


def past_angle(code: list[Token], at: int) -> int:
    """Behind the list of types that begins at `at`."""
    depth = 0
    while True:
        depth += (code[at].text == "<") - (code[at].text == ">" and code[at - 1].text != "-")
        at += 1
        if depth == 0:
            return at


def past_brace(words: list[str], at: int) -> int:
    """Behind the group in braces that begins at `at`."""
    depth = 0
    while True:
        depth += (words[at] == "{") - (words[at] == "}")
        at += 1
        if depth == 0:
            return at


def signature_end(code: list[Token], at: int) -> int:
    """Where the body of a function begins, or the semicolon in its place."""
    while code[at].text not in ("{", ";"):
        at += 1
    return at
