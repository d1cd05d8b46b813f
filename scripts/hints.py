"""The cause and the cure of what a listing names by a number, as docs/LANGUAGE.md has them.

The document is the one source: its index gives each number's cause and cure, and its table of hints what more can be said by
what stands at the place. The form of that table's second column is told in the document, above the table.
"""

from __future__ import annotations

import os
import re
from dataclasses import dataclass

from conditions import CONDITIONS
from deck_tokens import OPERATORS, TYPES, WORDS, Token

DOCUMENT = os.path.join(os.path.dirname(os.path.realpath(__file__)), "..", "docs", "LANGUAGE.md")
INDEX = ["Diagnostics", "Faults", "Limits", "Refusals"]
HINTS = "What stands at the place"
PIECE = re.compile(
    r"`(?P<text>[^`]+)`|(?P<kind>anything|an operator|a name|a number|a string|a type|a value|a word|the deck's end)"
    r"|(?P<link>behind|before|and|or|,)| +"
)
LETTER = {"DIAGNOSTIC": "", "FAULT": "F", "LIMIT": "L"}
KINDS = {
    "anything": lambda token: True,
    "an operator": lambda token: token.text in OPERATORS,
    "a name": lambda token: token.kind == "name",
    "a number": lambda token: token.kind == "number",
    "a string": lambda token: token.kind == "string",
    "a type": lambda token: token.text in TYPES,
    "a value": lambda token: token.kind in ("name", "number", "string", "bits") or token.text in (")", "TRUE", "FALSE", "NULL"),
    "a word": lambda token: token.text in WORDS,
    "the deck's end": lambda token: token.kind == "end",
}


class Misread(Exception):
    """A document that doesn't have the tables in their form, with what is wrong with it."""


@dataclass(frozen=True)
class Entry:
    """A row of the index: what a number means. allowed is what a job may have, of a limit."""

    text: str
    cause: str
    cure: str
    allowed: str = ""


@dataclass(frozen=True)
class Pattern:
    """What stands at a place: tokens before, at and behind it, each one of several, and a condition, where there is one."""

    there: tuple
    before: tuple
    after: tuple
    condition: str


@dataclass(frozen=True)
class Hint:
    """A row of the table of hints. row is its number there, from 1, and number that of a diagnostic, as 20, F6 or L1."""

    row: int
    number: str
    pattern: Pattern
    cause: str
    cure: str


class Book:
    """The index and the hints of the document."""

    def __init__(self, path=DOCUMENT):
        """Reads the tables of the document at this path."""
        with open(path, encoding="utf-8") as file:
            text = file.read()
        self.entries = {}
        for name in INDEX:
            for row in _table(text, name):
                number = row.get("number") or row.get("fault") or row.get("limit") or row.get("behind REFUSED", "")
                key = f"refused {number}".strip() if name == "Refusals" else number
                allowed = plain(row.get("a job may have", ""))
                self.entries[key] = Entry(row["text"].strip("`"), plain(row["usual cause"]), plain(row["cure"]), allowed)
        self.hints = []
        for count, row in enumerate(_table(text, HINTS), 1):
            pattern = _pattern(row["what stands there"])
            self.hints.append(Hint(count, row["number"], pattern, plain(row["what it may be"]), plain(row["cure"])))

    def entry(self, remark):
        """The row of the index for a diagnostic, a fault or a limit."""
        return self._row(LETTER[remark.kind] + str(remark.number))

    def refusal(self, refusal):
        """The row of the index for a refusal."""
        return self._row("refused" if refusal.flaw is None else f"refused {refusal.flaw}")

    def _row(self, key):
        """The row of the index with this key."""
        if key not in self.entries:
            raise Misread(f"the index of LANGUAGE.md has no row for {key}")
        return self.entries[key]

    def hint(self, remark, section, deck):
        """The first hint that holds for a remark, and what its condition found; None and nothing where none holds."""
        key = LETTER[remark.kind] + str(remark.number)
        number = deck.at(remark.card, remark.column)
        if number is None:
            number = _put(deck, remark)
        for hint in self.hints:
            if hint.number == key and _stands(hint.pattern, deck, number):
                found = CONDITIONS[hint.pattern.condition](deck, number, section) if hint.pattern.condition else ""
                if found is not None:
                    return hint, found
        return None, ""


def plain(text):
    """A cell of a table without the marks of links."""
    return re.sub(r"\[([^]]*)\]\([^)]*\)", r"\1", text).replace("\\|", "|").strip()


def _put(deck, remark):
    """Ends the deck's tokens with one of what stands on the card from a place on that begins no token, and gives its number."""
    text = deck.cards[remark.card - 1][remark.column - 1 :] if remark.card <= len(deck.cards) else ""
    deck.tokens = [it for it in deck.tokens if it.kind != "end" and (it.card, it.column) < (remark.card, remark.column)]
    deck.tokens.append(Token("text", text.upper(), remark.card, remark.column))
    return len(deck.tokens) - 1


def _stands(pattern, deck, number):
    """Whether the tokens round the one with this number are those of the pattern."""
    first = number - len(pattern.before)
    wanted = [*pattern.before, pattern.there, *pattern.after]
    if first < 0 or first + len(wanted) > len(deck.tokens):
        return False
    return all(_is_one(deck, first + offset, choices) for offset, choices in enumerate(wanted))


def _is_one(deck, number, choices):
    """Whether a token is one of the choices: kinds, or texts in backquotes. A name that is declared elsewhere is no text."""
    token = deck.tokens[number]
    if token.kind == "text":
        return any(KINDS[choice](token) if choice in KINDS else token.text.startswith(choice) for choice in choices)
    if any(choice in KINDS and KINDS[choice](token) for choice in choices):
        return True
    return token.text in choices and all(at == number for at, _ in deck.declared.get(token.text, []))


def _pattern(cell):
    """The pattern that a cell of the second column says."""
    words, _, condition = plain(cell).partition(" where ")
    if condition and condition not in CONDITIONS:
        raise Misread(f"the table of hints has a condition that isn't known: where {condition}")
    parts = {"there": [[]], "behind": [], "before": []}
    part, at = "there", 0
    while at < len(words):
        found = PIECE.match(words, at)
        if not found:
            raise Misread(f"the table of hints has a cell that isn't of the form: {cell}")
        at = found.end()
        link = found.group("link")
        if link in ("behind", "before"):
            part = link
            parts[part].append([])
        elif link == "and":
            parts[part].append([])
        elif found.group("text") or found.group("kind"):
            parts[part][-1].append(found.group("text") or found.group("kind"))
    if not all(choices for chosen in parts.values() for choices in chosen):
        raise Misread(f"the table of hints has a cell that isn't of the form: {cell}")
    sequences = {name: tuple(map(tuple, chosen)) for name, chosen in parts.items()}
    return Pattern(sequences["there"][0], sequences["behind"], sequences["before"], condition)


def _table(text, name):
    """The rows of the table in a chapter of the document, as what stands in each column; a row may go over several lines."""
    chapter = re.search(rf"(?ms)^### {re.escape(name)}\n(.*?)(?=^##|\Z)", text)
    lines = [line for line in chapter.group(1).splitlines() if line.startswith("|")] if chapter else []
    if len(lines) < 3:
        raise Misread(f"LANGUAGE.md has no table under '{name}'")
    columns, _, *cells = [[cell.strip() for cell in re.split(r"(?<!\\)\|", line)[1:-1]] for line in lines]
    rows = []
    for row in cells:
        if row[0] or row[1].startswith("`") or not rows:
            rows.append(dict(zip(columns, row)))
        else:
            for column, cell in zip(columns, row):
                rows[-1][column] = f"{rows[-1][column]} {cell}".strip()
    return rows
