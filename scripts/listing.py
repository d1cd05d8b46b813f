"""Reads a listing of the monitor: what became of each job, and the closing balances.

    from listing import read, Unreadable
    listing = read(text)
    for section in listing.sections: print(section.number, section.job, section.kind)

A job prints what it likes, also lines that look like the head or the end of a section. So the listing is read from its end
upwards, where each line is known before it is reached: behind the last 'CLOSING BALANCES' stand the closing lines alone. The
last line of a section is its sum or its refusal, which no job prints. From a sum upwards stand diagnostics, or the ending,
with a dump whose lines all begin with two blanks. From the ending upwards stand as many lines of output as the sum says,
then 'OUTPUT', then as many cards as the number of the last one says, and then the head of the section. Sections are numbered
without a gap, and what they charge adds up to the closing balances; a text of which that isn't so is no listing.

A listing that was cut short, as a run leaves it that ends with a status from 3 to 6, is refused where it doesn't end with
closing lines. Only the status tells of one that is cut just where a job printed such lines.
"""

from __future__ import annotations

import re
from dataclasses import dataclass, field

HEADING = "ALGOL W BATCH"
HEAD = re.compile(r"JOB (\d+) (\S+) (\S+)")
SUM = re.compile(r"CARDS (\d+) STEPS (\d+) LINES (\d+) CHARGE (\d+)")
REFUSED = re.compile(r"REFUSED(?: (\d+): (.+)|: (RESERVE (\d+), BALANCE (\d+)))")
REMARK = re.compile(r"(DIAGNOSTIC|FAULT|LIMIT) (\d+) AT (\d+),(\d+): (.+)")
BALANCE = re.compile(r"(\S+) OPENING (\d+) CHARGES (\d+) CLOSING (\d+)")
STRAY = re.compile(r"STRAY CARDS (\d+)")
BOARD = re.compile(r"BOARD ARRIVED \d+ ACCEPTED \d+ REFUSED \d+ ENDED \d+ PRINTED \d+")
SOURCE = re.compile(r"([ \d]{3}\d)(?: ([ \d]{8})  (.*))?")


def aligned(columns):
    """The number that stands right in these columns behind blanks alone, or nothing."""
    digits = columns.lstrip(" ")
    return int(digits) if digits.isdecimal() else None


class Unreadable(Exception):
    """A text that is no whole listing, with what is wrong with it and in which line."""


@dataclass(frozen=True)
class Card:
    """A card of a deck, and how often the first statement on it was begun; None where no count stands."""

    number: int
    count: int | None
    text: str


@dataclass(frozen=True)
class Remark:
    """A line that names a place: kind is DIAGNOSTIC, FAULT or LIMIT."""

    kind: str
    number: int
    card: int
    column: int
    text: str


@dataclass(frozen=True)
class Refusal:
    """Why a job was refused: by the flaw of this number, or, where that is None, for its balance."""

    flaw: int | None
    text: str
    reserve: int | None = None
    balance: int | None = None


@dataclass(frozen=True)
class Sums:
    """What a job used, and what it costs."""

    cards: int
    steps: int
    lines: int
    charge: int


@dataclass(frozen=True)
class Account:
    """A line of the closing balances."""

    name: str
    opening: int
    charges: int
    closing: int


@dataclass
class Section:
    """What the listing says of one job.

    The names are '?' where a flaw hides them. Of a job that was refused there are no sums, of one that ran no diagnostics.
    ending is the fault or limit that stopped it, and None where none did. lines is the section as it stands in the listing,
    from its head on, and line the number of its head there, counted from 1.
    """

    number: int = 0
    job: str = ""
    account: str = ""
    kind: str = ""  # normal, fault, limit, diagnosed or refused
    refusal: Refusal | None = None
    cards: list[Card] = field(default_factory=list)
    diagnostics: list[Remark] = field(default_factory=list)
    output: list[str] = field(default_factory=list)
    ending: Remark | None = None
    dump: list[str] = field(default_factory=list)
    sums: Sums | None = None
    line: int = 0
    lines: list[str] = field(default_factory=list)


@dataclass
class Listing:
    """A whole listing: its sections in order, its closing balances in order, and how many stray cards there were."""

    sections: list[Section]
    accounts: list[Account]
    stray: int


def read(text):
    """The listing that this text is; Unreadable where it is none."""
    return _Upwards(text).listing()


def sections(text):
    """The sections of the listing that this text is, in order."""
    return read(text).sections


def plain(text):
    """The text with the monitor's own line ends, and without a line of --board behind it."""
    lines = text.replace("\r\n", "\n").split("\n")
    if len(lines) > 2 and lines[-1] == "" and BOARD.fullmatch(lines[-2]):
        del lines[-2]
    return "\n".join(lines)


class _Upwards:
    """The lines of a listing, of which those above `end` are still to be read."""

    def __init__(self, text):
        """Parts the text into lines. Line ends of another system are taken too: no line of a listing holds such a byte."""
        lines = plain(text).split("\n")
        if lines == [""]:
            raise Unreadable("it is empty")
        if lines[0] != HEADING:
            raise Unreadable(f"line 1 isn't '{HEADING}'")
        if lines.pop() != "" or not STRAY.fullmatch(lines[-1]):
            raise Unreadable("it is cut short: its last line isn't 'STRAY CARDS' and a number")
        self.lines = lines
        self.end = len(lines)

    def expect(self, form, what):
        """The match of the next line upwards, which must be of this form, and is taken."""
        found = re.fullmatch(form, self.lines[self.end - 1]) if self.end else None
        if not found:
            raise Unreadable(f"line {self.end} isn't {what}")
        self.end -= 1
        return found

    def take_while(self, holds):
        """The lines next upwards of which this holds, in the order of the listing."""
        top = self.end
        while top and holds(self.lines[top - 1]):
            top -= 1
        return self.take(self.end - top)

    def take(self, count):
        """So many lines next upwards, in the order of the listing."""
        if count > self.end:
            raise Unreadable(f"line {self.end} has fewer than {count} lines above it, which a sum or a number asks for")
        self.end -= count
        return self.lines[self.end : self.end + count]

    def listing(self):
        """The whole listing, read upwards to its heading."""
        stray = int(self.expect(STRAY, "'STRAY CARDS' and a number").group(1))
        balances = [BALANCE.fullmatch(line) for line in self.take_while(BALANCE.fullmatch)]
        accounts = [Account(it.group(1), *map(int, it.group(2, 3, 4))) for it in balances]
        self.expect("CLOSING BALANCES", "'CLOSING BALANCES' or an account's balance")
        self.expect("", "empty")
        found = []
        while self.end > 1:
            found.append(self.section())
        found.reverse()
        for number, section in enumerate(found, 1):
            if section.number != number:
                raise Unreadable(f"line {section.line} has job {section.number}, where job {number} is due")
        _add_up(found, accounts)
        return Listing(found, accounts, stray)

    def section(self):
        """The section that ends here, with the empty line above it."""
        bottom = self.end
        section = Section()
        refused = REFUSED.fullmatch(self.lines[bottom - 1])
        if refused:
            self.end -= 1
            section.kind = "refused"
            section.refusal = _refusal(refused)
        else:
            self.body(section)
        head = self.expect(HEAD, "the head of a section, as 'JOB 1 SUM ADA'")
        section.number, section.job, section.account = int(head.group(1)), head.group(2), head.group(3)
        section.line = self.end + 1
        section.lines = self.lines[self.end : bottom]
        self.expect("", "empty, as the line above the head of a section is")
        return section

    def body(self, section):
        """What stands between the head and the end of a section with a sum."""
        used = self.expect(SUM, "the sum of a section, as 'CARDS 2 STEPS 2 LINES 1 CHARGE 5'")
        section.sums = Sums(*map(int, used.groups()))
        remarks = self.take_while(lambda line: line.startswith("DIAGNOSTIC "))
        if remarks:
            section.kind = "diagnosed"
            section.diagnostics = [_remark(REMARK.fullmatch(line), line) for line in remarks]
        else:
            self.run(section)
        section.cards = self.deck()

    def run(self, section):
        """The output, the ending and the dump of a job that ran."""
        if self.lines[self.end - 1] == "ENDED NORMALLY":
            self.end -= 1
            section.kind = "normal"
        else:
            section.dump = self.take_while(lambda line: line.startswith("  "))
            self.expect("POST-MORTEM", "'ENDED NORMALLY', 'POST-MORTEM', a diagnostic or a line of a dump")
            section.ending = _remark(self.expect(REMARK, "a fault or a limit"), "")
            section.kind = section.ending.kind.lower()
        section.output = self.take(section.sums.lines)
        self.expect("OUTPUT", f"'OUTPUT', which is due above {section.sums.lines} lines of output")

    def deck(self):
        """The cards of a deck, of which the last one's number says how many there are."""
        last = SOURCE.fullmatch(self.lines[self.end - 1]) if self.end else None
        if not last:
            return []
        many = aligned(last.group(1))
        if many is None:
            raise Unreadable(f"line {self.end} isn't a card of a deck")
        top = self.end + 1 - many
        cards = []
        for number, line in enumerate(self.take(many), 1):
            found = SOURCE.fullmatch(line)
            count = found and (found.group(2) or "")
            if not found or aligned(found.group(1)) != number or count.strip() and aligned(count) is None:
                raise Unreadable(f"line {top + number - 1} isn't card {number} of a deck")
            cards.append(Card(number, aligned(count), found.group(3) or ""))
        return cards


def _refusal(found):
    """The refusal of a line of that form."""
    if found.group(1):
        return Refusal(int(found.group(1)), found.group(2))
    return Refusal(None, found.group(3), int(found.group(4)), int(found.group(5)))


def _remark(found, line):
    """The diagnostic, fault or limit of a line of that form."""
    if not found:
        raise Unreadable(f"'{line}' is no diagnostic")
    return Remark(found.group(1), *map(int, found.group(2, 3, 4)), found.group(5))


def _add_up(found, accounts):
    """Checks that the sums of the sections are those of the accounts."""
    charged = {account.name: 0 for account in accounts}
    for section in found:
        if section.sums:
            used = section.sums
            if used.charge != used.cards + (used.steps + 99) // 100 + 2 * used.lines:
                raise Unreadable(f"job {section.number} isn't charged what it used")
            if section.account not in charged:
                raise Unreadable(f"job {section.number} is charged to an account that has no balance")
            charged[section.account] += used.charge
    for account in accounts:
        if charged[account.name] != account.charges or account.opening - account.charges != account.closing:
            raise Unreadable(f"the charges of the account {account.name} don't add up")
