"""The explanation of a section of a listing: the cards that it names, with causes and cures, as data and as text."""

from __future__ import annotations

import textwrap
from dataclasses import dataclass, field

from deck_tokens import Deck

WIDTH = 80

# The cards of a job's library are numbered behind those that a deck may have.
DECK_CARDS = 2000


@dataclass
class Explained:
    """A line of a listing that names what went wrong, and what is said of it.

    cards are the cards to show, as number and text, of which the last has the place, where the place is on a card; column
    is then its column, and otherwise None. cause, cure and allowed are those of the index, and empty where the same number
    stands above in the section. within is the call or the actual that was under way, or empty. here and mend say more, by
    what stands at the place, or are empty; row is their number in the table of hints.
    """

    line: str
    cards: list = field(default_factory=list)
    column: int | None = None
    cause: str = ""
    cure: str = ""
    allowed: str = ""
    within: str = ""
    here: str = ""
    mend: str = ""
    row: int | None = None


def explained(section, book):
    """What is explained of a section: nothing of one that ended normally."""
    if section.refusal:
        entry = book.refusal(section.refusal)
        return [Explained(section.lines[-1], cause=entry.cause, cure=entry.cure)]
    remarks = section.diagnostics or ([section.ending] if section.ending else [])
    deck = Deck([card.text for card in section.cards])
    seen = set()
    return [_remark(remark, section, deck, book, seen) for remark in remarks]


def _remark(remark, section, deck, book, seen):
    """What is explained of one diagnostic, fault or limit. seen holds what is said above, and gets what is said here."""
    line = f"{remark.kind} {remark.number} AT {remark.card},{remark.column}: {remark.text}"
    said = Explained(line, *_cards(remark, section))
    entry = book.entry(remark)
    if (remark.kind, remark.number) not in seen:
        said.cause, said.cure, said.allowed = entry.cause, entry.cure, entry.allowed
    seen.add((remark.kind, remark.number))
    hint, found = book.hint(remark, section, deck)
    if _is_of_library(remark, section):
        said.here = f"On card {remark.card - DECK_CARDS} of the job's library." if remark.card > DECK_CARDS else ""
    elif hint:
        said.here, said.mend = f"{hint.cause} ({found})" if found else hint.cause, hint.cure
        said.row = hint.row
    said.within = _within(section)
    return said


def _within(section):
    """What was innermost under way where a job was stopped, if that is a call or an actual, in words."""
    entry = section.dump[0].split() if section.dump else []
    if entry[:1] == ["CALL"]:
        return f"a call of {entry[1]} from {entry[3]}"
    return f"the actual at {entry[1]}" if entry[:1] == ["ACTUAL"] else ""


def _is_of_library(remark, section):
    """Whether a place is one of the job's library, and not of its deck or of the deck's end."""
    return remark.card >= DECK_CARDS and remark.card > len(section.cards) + 1 or remark.number == 44


def _cards(remark, section):
    """The cards to show for a place, and its column where the last of them has it: the card of the place, and of a
    diagnostic of form the one above where the place is the first of its card, as the fault may stand there."""
    if _is_of_library(remark, section):
        return [], None
    texts = {card.number: card.text for card in section.cards}
    here = texts.get(remark.card)
    above = max((it for it in texts if it < remark.card and texts[it].strip()), default=None)
    if here is None:
        return ([] if above is None else [(above, texts[above])]), None
    cards = [(remark.card, here)]
    if remark.number == 20 and remark.kind == "DIAGNOSTIC" and not here[: remark.column - 1].strip() and above:
        cards.insert(0, (above, texts[above]))
    return cards, remark.column


def _sentence(text):
    """A text with a capital letter in front and a full stop behind it."""
    return text[:1].upper() + text[1:] + ("" if text.endswith(".") else ".")


def explanation(section, book):
    """The text that explains a section, without its head; nothing of one that ended normally."""
    return "".join(f"{line}\n" for one in explained(section, book) for line in as_text(one))


def as_text(found):
    """The lines that show one explanation."""
    lines = [f"{number:4}  {text}".rstrip() for number, text in found.cards]
    if found.column:
        lines.append(" " * (found.column + 5) + "^")
    elif found.cards:
        lines.append(f"{'':4}  and here the deck ends")
    lines.append(found.line)
    for name in ("within", "cause", "allowed", "cure", "here", "mend"):
        text = getattr(found, name)
        if text:
            lines += textwrap.wrap(
                _sentence(text), WIDTH, initial_indent=f"  {name}:".ljust(11), subsequent_indent=" " * 11,
                break_long_words=False, break_on_hyphens=False,
            )
    return lines
