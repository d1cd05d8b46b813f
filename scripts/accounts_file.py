"""Accounts files: the TOML text of the accounts and their balances that ./monitor --accounts reads and writes.

A text is one where the monitor takes it. Of any other the first thing that is wrong is told, with its line. What stands in
an accounts file is only names and whole numbers under the one key `accounts`, so of TOML 1.1 no more is read here than may
lead to these: comments, headers, dotted keys, quoted keys, whole numbers in four bases, and inline tables.
"""

from __future__ import annotations

import re

NAME = "accounts.toml"
MOST_BYTES = 65_536
MOST_ACCOUNTS = 500
MOST_BALANCE = 999_999_999

ACCOUNT_NAME = re.compile(r"[A-Z][A-Z0-9]{0,7}")
BARE = re.compile(r"[A-Za-z0-9_-]+")
WHITE = re.compile(r"[ \t]*")
# White space, newlines and comments. A control character ends them.
BLANK = re.compile(r"(?:[ \t\n]|\r\n|#[^\x00-\x08\x0a-\x1f\x7f]*(?=\r?\n|\Z))*")
LINE_END = re.compile(r"#|\r?\n|\Z")
WORD = re.compile(r"[^\s,}#]*")
DECIMAL = re.compile(r"[+-]?(?:0|[1-9](?:_?[0-9])*)")
OTHER_BASES = [
    (16, re.compile(r"0x[0-9A-Fa-f](?:_?[0-9A-Fa-f])*")),
    (8, re.compile(r"0o[0-7](?:_?[0-7])*")),
    (2, re.compile(r"0b[01](?:_?[01])*")),
]
CONTROL = re.compile(r"[\x00-\x08\x0a-\x1f\x7f]")
ESCAPES = {"b": "\b", "t": "\t", "n": "\n", "f": "\f", "r": "\r", "e": "\x1b", '"': '"', "\\": "\\"}
OTHER_LINE = "neither [accounts], nor a name with = and a balance, nor a comment"
HEXADECIMAL = {"x": 2, "u": 4, "U": 8}


class Wrong(Exception):
    """Why a text is no accounts file, and in which line; 0 where it is no matter of one."""

    def __init__(self, line, text):
        super().__init__(text)
        self.line, self.text = line, text


def read(content):
    """The balances of the accounts that these bytes state, by their names, in the order of the names; Wrong where they
    state none."""
    if len(content) > MOST_BYTES:
        raise Wrong(0, f"it has over {MOST_BYTES:,} bytes, and no more are read")
    try:
        text = content.decode()
    except UnicodeDecodeError as error:
        line = content.count(b"\n", 0, error.start) + 1
        raise Wrong(line, f"byte {content[error.start]:02X} isn't UTF-8: save the file as plain text") from error
    return dict(sorted(_Text(text).accounts().items()))


def written(balances):
    """The text of these accounts and their balances, as the monitor writes it."""
    return "[accounts]\n" + "".join(f"{name} = {balance}\n" for name, balance in sorted(balances.items()))


def quoted(text):
    """A text as it is told: on one line, and short."""
    text = "".join(letter if letter.isprintable() else ascii(letter)[1:-1] for letter in text)
    return f"'{text}'" if len(text) <= 40 else f"'{text[:37]}...'"


class _Text:
    """A text, of which what stands before `at` has been read."""

    def __init__(self, text):
        self.text = text
        # A byte order mark in front is no part of it.
        self.at = 1 if text.startswith("\ufeff") else 0
        self.found = {}
        self.lines = {}
        # How `accounts` came to be there: by 'a header', 'dotted keys' or 'an inline table'.
        self.way = ""

    def accounts(self):
        """The balances of all accounts, by their names."""
        self.take(BLANK)
        while self.at < len(self.text):
            if self.text[self.at] == "[":
                self.header()
            else:
                self.key_value()
            self.take(WHITE)
            if not LINE_END.match(self.text, self.at):
                raise self.wrong(f"{quoted(self.rest())} stands behind what the line says")
            self.take(BLANK)
        if not self.way:
            raise Wrong(0, "there is no table of accounts: its first line is [accounts]")
        return self.found

    def wrong(self, text):
        """What is wrong at this place."""
        return Wrong(self.line(), text)

    def line(self):
        """The line of this place."""
        return self.text.count("\n", 0, self.at) + 1

    def rest(self):
        """What is left of the line of this place."""
        return self.text[self.at :].split("\n", 1)[0].rstrip("\r")

    def take(self, form):
        """What stands here of this form, which is read."""
        found = form.match(self.text, self.at)
        self.at = found.end()
        return found.group()

    def takes(self, mark):
        """Whether this mark stands here; it is read then."""
        there = self.text.startswith(mark, self.at)
        self.at += len(mark) * there
        return there

    def header(self):
        """A line in brackets."""
        line = self.rest().strip()
        if self.takes("[["):
            raise self.wrong(f"{quoted(line)} is a list of tables; [accounts] is the one table")
        self.takes("[")
        self.take(WHITE)
        keys = self.keys()
        if not self.takes("]"):
            raise self.wrong(f"{quoted(line)} isn't closed by a ]")
        if keys != ["accounts"]:
            raise self.wrong(f"{quoted(line)} is another table; [accounts] is the one table")
        self.come_by("a header")

    def come_by(self, way):
        """Notes how the accounts come to be there, which is one way: only dotted keys may go on with them."""
        if self.way and (self.way, way) != ("dotted keys", "dotted keys"):
            raise self.wrong("the table of accounts stands twice")
        self.way = way

    def key_value(self):
        """A key with its value."""
        line = self.rest().strip()
        keys = self.keys()
        self.equals(line)
        if self.way != "a header" and keys[0] != "accounts":
            raise self.wrong(f"{quoted(line)} isn't in the table of accounts; the line [accounts] stands in front of them")
        if self.way != "a header":
            keys.pop(0)
            self.come_by("dotted keys" if keys else "an inline table")
        if keys:
            self.account(keys, line)
        else:
            self.inline_table(line)

    def equals(self, line):
        """The sign between a key and its value."""
        self.take(WHITE)
        if not self.takes("="):
            raise self.wrong(f"{quoted(line)} is {OTHER_LINE}")
        self.take(WHITE)

    def inline_table(self, line):
        """The accounts in braces."""
        if not self.takes("{"):
            raise self.wrong(f"{quoted(line)}: accounts is a table of names and balances")
        self.take(BLANK)
        while not self.takes("}"):
            if self.at == len(self.text):
                raise self.wrong("the table of accounts isn't closed by a }")
            line = self.rest().strip()
            keys = self.keys()
            self.equals(line)
            self.account(keys, line)
            self.take(BLANK)
            if not self.takes(",") and not self.text.startswith("}", self.at):
                raise self.wrong(f"{quoted(self.rest())} stands where a comma or a }} is due")
            self.take(BLANK)

    def account(self, keys, line):
        """An account, whose balance is still to be read."""
        name = keys[0]
        if len(keys) > 1:
            raise self.wrong(f"{quoted(line)}: the name of an account has no dot")
        if not ACCOUNT_NAME.fullmatch(name):
            raise self.wrong(f"{quoted(name)} is no name: that is a capital letter and at most 7 more capital letters or digits")
        if name in self.found:
            raise self.wrong(f"{name} stands twice, and before in line {self.lines[name]}")
        if len(self.found) == MOST_ACCOUNTS:
            raise self.wrong(f"{name} is account {MOST_ACCOUNTS + 1}, and there are at most {MOST_ACCOUNTS}")
        self.lines[name] = self.line()
        word = self.take(WORD)
        balance = _number(word)
        if balance is None:
            raise self.wrong(f"the balance of {name} is {quoted(word)}, which is no whole number")
        if not 0 <= balance <= MOST_BALANCE:
            raise self.wrong(f"the balance of {name} is {quoted(word)}, and a balance is from 0 to {MOST_BALANCE}")
        self.found[name] = balance

    def keys(self):
        """The parts of a key, which dots part."""
        found = [self.key()]
        while True:
            self.take(WHITE)
            if not self.takes("."):
                return found
            self.take(WHITE)
            found.append(self.key())

    def key(self):
        """A key without dots."""
        if self.takes('"'):
            return self.basic_string()
        if self.takes("'"):
            return self.literal_string()
        if self.text.startswith("#", self.at):
            raise self.wrong("a comment has a character that steers a terminal or printer")
        if not BARE.match(self.text, self.at):
            raise self.wrong(f"{quoted(self.rest())} is {OTHER_LINE}")
        return self.take(BARE)

    def literal_string(self):
        """What stands between apostrophes."""
        end = self.text.find("'", self.at)
        found = self.text[self.at : end]
        if end < 0 or CONTROL.search(found.replace("\t", "")):
            raise self.wrong(f"{quoted(self.rest())} isn't closed by an apostrophe")
        self.at = end + 1
        return found

    def basic_string(self):
        """What stands between quotes."""
        found = []
        while not self.takes('"'):
            letter = self.text[self.at : self.at + 1]
            if not letter or letter != "\t" and CONTROL.match(letter):
                raise self.wrong("a quoted name isn't closed on its line")
            self.at += 1
            found.append(self.escaped() if letter == "\\" else letter)
        return "".join(found)

    def escaped(self):
        """The character behind a backslash."""
        letter = self.text[self.at : self.at + 1]
        self.at += 1
        if letter in HEXADECIMAL:
            digits = self.text[self.at : self.at + HEXADECIMAL[letter]]
            self.at += len(digits)
            number = int(digits, 16) if re.fullmatch(r"[0-9A-Fa-f]+", digits) else None
            if len(digits) == HEXADECIMAL[letter] and number is not None:
                if number < 0xD800 or 0xE000 <= number < 0x110000:
                    return chr(number)
        elif letter in ESCAPES:
            return ESCAPES[letter]
        raise self.wrong("a quoted name has a backslash that begins no character")


def _number(word):
    """The whole number that this word writes, or nothing."""
    for base, form in OTHER_BASES:
        if form.fullmatch(word):
            return int(word[2:].replace("_", ""), base)
    # A balance has at most nine digits: longer numbers aren't read, but told to be out of range.
    return int(word.replace("_", "")[:20]) if DECIMAL.fullmatch(word) else None
