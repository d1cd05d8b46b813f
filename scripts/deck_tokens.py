"""The tokens of a deck, and what can be said of its form from them alone.

A deck that is explained is mostly wrong, so nothing here parses it: a Deck answers questions such as which parentheses are
open at a token, or where a name is declared, as well as tokens alone can tell.
"""

from __future__ import annotations

import re
from dataclasses import dataclass

WORDS = frozenset(
    """ABS ALGOL AND ARRAY ASSERT BEGIN BITS CASE COMMENT COMPLEX DIV DO ELSE END FALSE FOR FORTRAN GO GOTO IF INTEGER IS
    LOGICAL LONG NULL OF OR PROCEDURE REAL RECORD REFERENCE REM RESULT SHL SHR SHORT STEP STRING THEN TO TRUE UNTIL VALUE
    WHILE""".split()
)
TYPES = frozenset("INTEGER LOGICAL BITS STRING REFERENCE".split())
OPERATORS = frozenset("+ - * / ** = ~= < <= > >= ~ DIV REM SHL SHR AND OR".split())
TOKEN = re.compile(
    r"""(?P<blank>\s+)|(?P<name>[A-Za-z][A-Za-z0-9_]*)|(?P<number>[0-9]+)|(?P<bits>\#[0-9A-Za-z]*)
    |(?P<string>"(?:[^"\n]|"")*")|(?P<symbol>::|:=|~=|<=|>=|\*\*|[(),;:=<>+\-*/|.~])""",
    re.X,
)


@dataclass(frozen=True)
class Token:
    """A token and its place: kind is word, name, number, bits, string, symbol, or end for the end of the deck."""

    kind: str
    text: str
    card: int
    column: int

    @property
    def place(self):
        """The place as a listing writes it."""
        return f"{self.card},{self.column}"


@dataclass(frozen=True)
class Comment:
    """A comment, with its text, the place of its word and the card on which it ends."""

    text: str
    card: int
    column: int
    last: int


class Deck:
    """The tokens of a deck's cards, as far as they can be told, the last one being the deck's end."""

    def __init__(self, cards):
        """Takes the deck apart. Where something is no token, the tokens before it are all that there are."""
        self.cards = cards
        self.tokens = []
        self.comments = []
        self._scan("\n".join(cards))
        self.procedures = set()
        self.declared = {}
        self._find_declarations()

    def _scan(self, text):
        """Finds the tokens and the comments of a text of whole cards."""
        starts = [0]
        for card in self.cards:
            starts.append(starts[-1] + len(card) + 1)
        at, line = 0, 0
        while at < len(text):
            while at >= starts[line + 1]:
                line += 1
            found = TOKEN.match(text, at)
            if not found:
                break
            column = at - starts[line] + 1
            at = found.end()
            kind, piece = found.lastgroup, found.group().upper()
            if piece == "COMMENT":
                stop = text.find(";", at)
                at = len(text) if stop < 0 else stop + 1
                last = text.count("\n", 0, at - 1) + 1
                self.comments.append(Comment(text[found.end() : at].upper(), line + 1, column, last))
            elif kind == "name":
                self.tokens.append(Token("word" if piece in WORDS else "name", piece, line + 1, column))
            elif kind != "blank":
                self.tokens.append(Token(kind, piece, line + 1, column))
        self.tokens.append(Token("end", "", len(self.cards) + 1, 1))

    def _find_declarations(self):
        """Notes each declared name with its tokens' numbers, and the names of procedures."""
        for number, token in enumerate(self.tokens):
            if token.text in TYPES or token.text in ("PROCEDURE", "RECORD"):
                self._note(number)
            elif token.kind == "name" and self.text(number + 1) == ":" and self.text(number - 1) in (";", "BEGIN", ":"):
                self.declared.setdefault(token.text, []).append((number, "LABEL"))

    def _note(self, number):
        """Notes the names that a type, PROCEDURE or RECORD begins to declare."""
        form = [self.text(number)]
        at = number + 1
        if self.text(at) == "(" and form[0] in ("BITS", "STRING", "REFERENCE"):
            at = self.closing(at) + 1
        while self.text(at) in ("VALUE", "RESULT", "ARRAY"):
            form.append(self.text(at))
            at += 1
        while self.kind(at) == "name" and (self.text(at - 1) == "," or self.kind(at - 1) != "name"):
            self.declared.setdefault(self.text(at), []).append((at, " ".join(form)))
            if form[0] == "PROCEDURE":
                self.procedures.add(self.text(at))
            at += 2 if self.text(at + 1) == "," else 1

    def text(self, number):
        """The text of the token with this number, or nothing where there is none."""
        return self.tokens[number].text if 0 <= number < len(self.tokens) else ""

    def kind(self, number):
        """The kind of the token with this number, or nothing where there is none."""
        return self.tokens[number].kind if 0 <= number < len(self.tokens) else ""

    def at(self, card, column):
        """The number of the token at a place; None where no token is known to begin there."""
        for number, token in enumerate(self.tokens):
            if (token.card, token.column) == (card, column):
                return number
        return None

    def closing(self, number):
        """The number of the token that closes this parenthesis or BEGIN, or of the deck's end where none does."""
        opens, closes = ("(", ")") if self.text(number) == "(" else ("BEGIN", "END")
        depth = 0
        for at in range(number, len(self.tokens)):
            depth += (self.text(at) == opens) - (self.text(at) == closes)
            if depth == 0:
                return at
        return len(self.tokens) - 1

    def opened(self, number):
        """The numbers of the parentheses and BEGINs that are open before a token, the outermost first."""
        stack = []
        for at in range(number):
            if self.text(at) in ("(", "BEGIN"):
                stack.append(at)
            elif self.text(at) == ")" and stack and self.text(stack[-1]) == "(":
                stack.pop()
            elif self.text(at) == "END":
                while stack and self.text(stack[-1]) == "(":
                    stack.pop()
                if stack:
                    stack.pop()
        return stack

    def parenthesis(self, number):
        """The number of the innermost open parenthesis before a token; None where none is open within its block."""
        stack = self.opened(number)
        return stack[-1] if stack and self.text(stack[-1]) == "(" else None

    def statement_end(self, number):
        """The number of the token behind the statement that begins at this one: a semicolon, an END, an ELSE, or the end."""
        at = number
        while at < len(self.tokens) - 1:
            if self.text(at) in ("(", "BEGIN"):
                at = self.closing(at)
            elif self.text(at) in (";", "END", "ELSE") and at > number:
                return at
            at += 1
        return len(self.tokens) - 1

    def statement_start(self, number):
        """The number of the first token of the item that a token stands in."""
        depth = 0
        for at in range(number - 1, -1, -1):
            depth += (self.text(at) in (")", "END")) - (self.text(at) in ("(", "BEGIN"))
            if depth < 0 and self.text(at) == "BEGIN" or depth <= 0 and self.text(at) == ";":
                return at + 1
        return 0

    def range_texts(self, start, end):
        """The texts of the tokens from one number up to another."""
        return [token.text for token in self.tokens[start:end]]

    def control_names(self):
        """The names that a FOR declares."""
        return {self.text(at + 1) for at in range(len(self.tokens)) if self.text(at) == "FOR" and self.kind(at + 1) == "name"}
