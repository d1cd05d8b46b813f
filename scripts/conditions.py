"""The conditions of the table of hints in docs/LANGUAGE.md: what stands behind 'where' in its second column.

Each is a function of a deck, the number of the token at the place, and the section. It gives None where the condition
doesn't hold, and otherwise what it found, which is shown behind the hint, or nothing.
"""

from __future__ import annotations

import difflib
import re

from deck_tokens import WORDS

STANDARD = "ODD BITSTRING NUMBER CODE DECODE READ READON READCARD WRITE WRITEON IOCONTROL MAXINTEGER I_W S_W".split()
CODE_LIKE = re.compile(r"(BEGIN|END|INTEGER|LOGICAL|STRING|REFERENCE|PROCEDURE|RECORD|IF|FOR|WHILE)\b|[A-Z]\w* ?\(")


def holds(true):
    """What a condition gives that finds nothing to show."""
    return "" if true else None


def _swallowed(deck, number):
    """The comments before a token that go over a card's end and end in what looks like a statement or a declaration."""
    token = deck.tokens[number]
    for comment in deck.comments:
        ending = comment.text.rstrip(";").split("\n")[-1].strip()
        if (comment.card, comment.column) < (token.card, token.column) and comment.last > comment.card:
            if ":=" in ending or CODE_LIKE.match(ending):
                yield comment, ending


def comment_goes_on(deck, number, section):
    """Whether a comment before the token has perhaps swallowed a statement."""
    for comment, _ in _swallowed(deck, number):
        return f"`COMMENT` at {comment.card},{comment.column}"
    return None


def comment_has_name(deck, number, section):
    """Whether such a comment holds a name of the statement that begins at the token, or the name that the token is."""
    end = deck.statement_end(number) if section.ending else number + 1
    names = {deck.text(at) for at in range(number, end) if deck.kind(at) == "name"}
    for comment, ending in _swallowed(deck, number):
        if names & set(re.findall(r"\w+", ending)):
            return f"`COMMENT` at {comment.card},{comment.column}"
    return None


def begins_deck(deck, number, section):
    """Whether the token is the deck's first."""
    return holds(number == 0)


def begins_card(deck, number, section):
    """Whether the token is the first on its card, and no semicolon ends the card before."""
    return holds(number and deck.tokens[number - 1].card < deck.tokens[number].card and deck.text(number - 1) != ";")


def same_before(deck, number, section):
    """Whether the token before is the same one on the same card, and no parenthesis."""
    one, other = deck.tokens[number - 1], deck.tokens[number]
    return holds(number and (one.text, one.card) == (other.text, other.card) and one.text not in ("(", ")"))


def begin_open(deck, number, section):
    """Which BEGIN has no END before the token: the last, and how many there are, where they are more."""
    begins = [at for at in deck.opened(number) if deck.text(at) == "BEGIN"]
    if not begins:
        return None
    many = f"; {len(begins)} are open" if len(begins) > 1 else ""
    return f"`BEGIN` at {deck.tokens[begins[-1]].place}{many}"


def program_ended(deck, number, section):
    """Whether an END before the token has closed the program's BEGIN."""
    if deck.text(0) != "BEGIN" or deck.opened(number):
        return None
    return holds(number and any(deck.text(at) == "END" for at in range(number)))


def last_of_deck(deck, number, section):
    """Whether the token is the last of the deck, and closes or follows the program's end."""
    ended = program_ended(deck, number, section)
    return ended if deck.kind(number + 1) == "end" else None


def parenthesis_open(deck, number, section):
    """The parenthesis that is open before the token."""
    opened = deck.parenthesis(number)
    return None if opened is None else f"`(` at {deck.tokens[opened].place}"


def no_parenthesis_open(deck, number, section):
    """Whether no parenthesis is open before the token."""
    return holds(deck.parenthesis(number) is None)


def bounds_stand(deck, number, section):
    """Whether the token stands between the parentheses of an array's bounds."""
    at = deck.parenthesis(number)
    if at is None:
        return None
    at -= 1
    while deck.kind(at) == "name" and deck.text(at - 1) == ",":
        at -= 2
    return holds(deck.kind(at) == "name" and deck.text(at - 1) == "ARRAY")


def formals_stand(deck, number, section):
    """Whether the token stands between the parentheses of a procedure's formals."""
    at = deck.parenthesis(number)
    return holds(at is not None and deck.kind(at - 1) == "name" and deck.text(at - 2) == "PROCEDURE")


def formals_ended(deck, number, section):
    """Whether the parenthesis before the token ends the formals of a procedure."""
    if deck.text(number - 1) != ")":
        return None
    at = next((it for it in range(number) if deck.text(it) == "(" and deck.closing(it) == number - 1), 0)
    return holds(deck.kind(at - 1) == "name" and deck.text(at - 2) == "PROCEDURE")


def formals_ended_before(deck, number, section):
    """Whether the parenthesis before the semicolon before the token ends the formals of a procedure."""
    return formals_ended(deck, number - 1, section)


def statement_was_if(deck, number, section):
    """Whether the statement before the semicolon before the token is an IF."""
    return holds("THEN" in deck.range_texts(deck.statement_start(number - 1), number))


def declaration_stands(deck, number, section):
    """Whether the token stands where a declaration has names: behind a type, or a name of such a declaration."""
    at = number - 1
    while deck.kind(at) == "name" or deck.text(at) == ",":
        at -= 1
    if deck.text(at) == ")":
        at = next((it for it in range(at) if deck.text(it) == "(" and deck.closing(it) == at), 0) - 1
    return holds(deck.text(at) in ("INTEGER", "LOGICAL", "BITS", "STRING", "REFERENCE", "ARRAY", "VALUE", "RESULT"))


def _without(word, partner):
    """A condition: the token stands behind such a word, whose partner is missing from the statement."""

    def condition(deck, number, section):
        for at in range(number - 1, -1, -1):
            if deck.text(at) in (";", "BEGIN", "END", partner):
                return None
            if deck.text(at) == word:
                end = next((it for it in range(number, len(deck.tokens)) if deck.text(it) in (";", "END")), number)
                return None if partner in deck.range_texts(number, end) else f"`{word}` at {deck.tokens[at].place}"
        return None

    return condition


def for_declares(deck, number, section):
    """Whether the name at the token is one that a FOR before it declares."""
    for at in range(number):
        if deck.text(at) == "FOR" and deck.text(at + 1) == deck.text(number):
            return f"`FOR` at {deck.tokens[at].place}"
    return None


def declared_elsewhere(deck, number, section):
    """Where the deck declares the name at the token, though not for this place."""
    found = [at for at, _ in deck.declared.get(deck.text(number), []) if at != number]
    return f"{deck.text(number)} at {deck.tokens[found[0]].place}" if found else None


def declared_likewise(deck, number, section):
    """The declared or standard name that is most like the one at the token."""
    known = [*deck.declared, *STANDARD, "TRUE", "FALSE", "NULL"]
    like = difflib.get_close_matches(deck.text(number), known, 1, 0.76)
    return like[0] if like else None


def like_word(deck, number, section):
    """The word of the language that the name at the token is like, where the deck doesn't declare that name."""
    if deck.kind(number) != "name" or deck.text(number) in deck.declared or len(deck.text(number)) < 3:
        return None
    like = difflib.get_close_matches(deck.text(number), sorted(WORDS), 1, 0.75)
    return f"{deck.text(number)} for {like[0]}" if like else None


def before_like_word(deck, number, section):
    """The word of the language that the name before the token is like, where the deck doesn't declare that name."""
    return like_word(deck, number - 1, section)


def _declared_with(*forms):
    """A condition: the name at the token is declared with one of these words."""

    def condition(deck, number, section):
        said = " ".join(form for _, form in deck.declared.get(deck.text(number), [])).split()
        return holds(any(form in said for form in forms))

    return condition


def is_field(deck, number, section):
    """Whether the name at the token is a field of a record class."""
    for at, _ in deck.declared.get(deck.text(number), []):
        opened = deck.parenthesis(at)
        if opened is not None and deck.text(opened - 2) == "RECORD":
            return deck.text(opened - 1)
    return None


def assigned_procedure(deck, number, section):
    """Whether the name of a procedure stands at the token, or before it, and is assigned."""
    at = number if deck.kind(number) == "name" else number - 1
    return holds(deck.text(at) in deck.procedures and deck.text(at + 1) == ":=")


def condition_assigns(deck, number, section):
    """Whether the condition of the IF or WHILE at the token has an assignment."""
    for at in range(number + 1, len(deck.tokens)):
        if deck.text(at) in ("THEN", "DO", ";"):
            return None
        if deck.text(at) == ":=":
            return f"`:=` at {deck.tokens[at].place}"
    return None


def list_assigns(deck, number, section):
    """Whether the list behind the name at the token has an assignment."""
    return holds(deck.text(number + 1) == "(" and ":=" in deck.range_texts(number, deck.closing(number + 1)))


def _sets_width(deck, at):
    """Whether the `:=` at a token sets the width of what a WRITE places, where it stands in a list of one."""
    name = deck.text(at - 1)
    only = deck.text(at - 2) in ("(", ",") and deck.text(at + 2) != ":="
    return name in ("I_W", "S_W") and name not in deck.declared and only


def list_assigns_other(deck, number, section):
    """Whether the list behind the name at the token has an assignment that sets no width."""
    if deck.text(number + 1) != "(":
        return None
    for at in range(number + 2, deck.closing(number + 1)):
        if deck.text(at) == ":=" and not _sets_width(deck, at):
            return f"`:=` at {deck.tokens[at].place}"
    return None


def list_has_string(deck, number, section):
    """Whether the list behind the name at the token has a string."""
    if deck.text(number + 1) != "(":
        return None
    return holds(any(deck.kind(at) == "string" for at in range(number, deck.closing(number + 1))))


def list_has_control_name(deck, number, section):
    """Whether the list behind the name at the token has the control name of a FOR."""
    if deck.text(number + 1) != "(":
        return None
    return holds(deck.control_names() & set(deck.range_texts(number, deck.closing(number + 1))))


def two_lists(deck, number, section):
    """Whether two lists stand behind the name at the token."""
    return holds(deck.text(number + 1) == "(" and deck.text(deck.closing(number + 1) + 1) == "(")


def _equals_at(deck, number):
    """The number of an equals sign that stands behind a name and its lists at the token, where an assignment may be meant."""
    at = number + 1
    while deck.text(at) == "(":
        at = deck.closing(at) + 1
    return at if deck.kind(number) == "name" and deck.text(at) == "=" else None


def statement_equals(deck, number, section):
    """Whether the statement at the token is a name and an equals sign."""
    at = _equals_at(deck, number)
    return None if at is None else f"`=` at {deck.tokens[at].place}"


def part_equals(deck, number, section):
    """Whether a part of the statement at the token is a name and an equals sign."""
    for start in range(number + 1, deck.statement_end(number)):
        at = _equals_at(deck, start)
        if deck.text(start - 1) in ("THEN", "ELSE", "DO") and at is not None:
            return f"`=` at {deck.tokens[at].place}"
    return None


def _last_item(deck):
    """The number of the first token of the program's last item."""
    start, at = 1, 1
    while at < len(deck.tokens) and deck.text(at) != "END":
        if deck.text(at) in ("(", "BEGIN"):
            at = deck.closing(at)
        elif deck.text(at) == ";":
            start = at + 1
        at += 1
    return start


def last_equals(deck, number, section):
    """Whether the program's last item is a name and an equals sign."""
    at = _equals_at(deck, _last_item(deck)) if number == 0 else None
    return None if at is None else f"`=` at {deck.tokens[at].place}"


def last_item(deck, number, section):
    """The program's last item, where the token is the program's BEGIN."""
    return f"the item at {deck.tokens[_last_item(deck)].place}" if number == 0 else None


def own_procedure(deck, number, section):
    """Whether the token is a declared procedure's name."""
    return holds(deck.text(number) in deck.procedures)


def _empty_names(section):
    """The names that the dump shows without a value."""
    return [line.split()[0] for line in section.dump if re.fullmatch(r"    \w+ = \?", line)]


def dump_shows_none(deck, number, section):
    """Which names of the statement at the token the dump shows without a value."""
    texts = set(deck.range_texts(number, deck.statement_end(number)))
    found = [name for name in dict.fromkeys(_empty_names(section)) if name in texts]
    return ", ".join(found) or None


def dump_shows_array(deck, number, section):
    """Which arrays of the statement at the token the dump shows, with their bounds."""
    texts = set(deck.range_texts(number, deck.statement_end(number)))
    found = [line.split() for line in section.dump if re.fullmatch(r"    \w+ ARRAY \(.*\)", line)]
    return ", ".join(dict.fromkeys(f"{name} {bounds}" for name, _, bounds in found if name in texts)) or None


def control_name_declared(deck, number, section):
    """Which name without a value is the control name of a FOR too."""
    texts = set(deck.range_texts(number, deck.statement_end(number)))
    found = [name for name in dict.fromkeys(_empty_names(section)) if name in deck.control_names() and name in texts]
    return ", ".join(found) or None


def used_in_itself(deck, number, section):
    """Which name without a value is assigned at the token, and used in its own assignment."""
    name = deck.text(number)
    used = name in deck.range_texts(number + 2, deck.statement_end(number))
    return name if used and name in _empty_names(section) else None


def _loops(deck, number):
    """The WHILEs that the token begins or stands in, the innermost first, as the numbers of WHILE, DO and the end."""
    for at in range(number, -1, -1):
        if deck.text(at) == "WHILE":
            do = next((it for it in range(at, len(deck.tokens)) if deck.text(it) == "DO"), None)
            end = deck.statement_end(do + 1) if do and deck.text(do + 1) != ";" else do
            if do and (number == at or end and number < end):
                yield at, do, end


def loop_is_empty(deck, number, section):
    """Whether the WHILE at the token has nothing behind its DO."""
    return holds(any(deck.text(do + 1) == ";" for at, do, _ in _loops(deck, number) if at == number))


def loop_changes_nothing(deck, number, section):
    """Which WHILE round the token changes none of the names that its condition has, and calls no procedure of the deck."""
    for at, do, end in _loops(deck, number):
        names = {deck.text(it) for it in range(at, do) if deck.kind(it) == "name"}
        body = range(do + 1, end)
        calls = any(deck.text(it) in deck.procedures or deck.text(it).startswith("READ") for it in body)
        changed = {deck.text(it) for it in body if deck.kind(it) == "name" and _is_assigned(deck, it)}
        if names and not calls and not names & (changed | deck.procedures):
            return f"`WHILE` at {deck.tokens[at].place}: {', '.join(sorted(names))}"
    return None


def _is_assigned(deck, number):
    """Whether the name at a token, with its lists, is assigned."""
    at = number + 1
    while deck.text(at) == "(":
        at = deck.closing(at) + 1
    return deck.text(at) == ":=" or any(deck.text(it) == ":=" for it in range(number, at))


def no_data_cards(deck, number, section):
    """Whether the job has no cards behind its deck."""
    return holds(section.sums.cards == 1 + len(section.cards))


def _reads(form):
    """A condition: the list of the READ at the token has a variable of this type."""

    def condition(deck, number, section):
        texts = deck.range_texts(number, deck.closing(number + 1)) if deck.text(number + 1) == "(" else []
        said = [name for name in texts for _, kind in deck.declared.get(name, []) if kind.startswith(form)]
        return ", ".join(dict.fromkeys(said)) or None

    return condition


def _text_has(form):
    """A condition: what stands at the place and directly behind it has this form."""

    def condition(deck, number, section):
        token = deck.tokens[number]
        return holds(re.match(form, deck.cards[token.card - 1][token.column - 1 :]))

    return condition


CONDITIONS = {
    "a comment above goes on over what looks like a statement": comment_goes_on,
    "a comment above goes on over a statement with its names": comment_has_name,
    "it begins the deck": begins_deck,
    "it begins a card, and no semicolon ends the card above": begins_card,
    "the same stands before it on its card": same_before,
    "a `BEGIN` has no `END`": begin_open,
    "the program has ended": program_ended,
    "the program has ended, and it is the deck's last": last_of_deck,
    "a `(` is open": parenthesis_open,
    "no `(` is open": no_parenthesis_open,
    "the statement before is an `IF`": statement_was_if,
    "formals have ended before the `;`": formals_ended_before,
    "bounds stand": bounds_stand,
    "formals stand": formals_stand,
    "formals have ended": formals_ended,
    "a declaration has its names": declaration_stands,
    "an `IF` has no `THEN`": _without("IF", "THEN"),
    "a `WHILE` has no `DO`": _without("WHILE", "DO"),
    "a `FOR` has no `DO`": _without("FOR", "DO"),
    "a `FOR` has no `UNTIL`": _without("STEP", "UNTIL"),
    "a `CASE` has no `OF`": _without("CASE", "OF"),
    "a FOR declares it": for_declares,
    "the deck declares it elsewhere": declared_elsewhere,
    "a name is declared that is like it": declared_likewise,
    "it is like a word of the language": like_word,
    "the name before is like a word of the language": before_like_word,
    "it is an array's": _declared_with("ARRAY"),
    "it is a string's": _declared_with("STRING"),
    "it is a field's": is_field,
    "it is a procedure's": own_procedure,
    "a procedure's name is assigned": assigned_procedure,
    "its condition has a `:=`": condition_assigns,
    "its list has a `:=`": list_assigns,
    "its list has a `:=` that sets no width": list_assigns_other,
    "its list has a string": list_has_string,
    "its list has the name of a FOR": list_has_control_name,
    "two lists stand behind it": two_lists,
    "an `=` stands behind it": statement_equals,
    "a name and an `=` are a part of it": part_equals,
    "the program's last item is a name and an `=`": last_equals,
    "it is the program's": last_item,
    "the dump shows a name of it without a value": dump_shows_none,
    "the dump shows an array of it": dump_shows_array,
    "such a name is also the control name of a FOR": control_name_declared,
    "a name without a value is used in its own assignment": used_in_itself,
    "nothing stands behind its `DO`": loop_is_empty,
    "a WHILE round it changes no name of its condition": loop_changes_nothing,
    "the job has no data cards": no_data_cards,
    "a variable of its list is a STRING": _reads("STRING"),
    "a variable of its list is a LOGICAL": _reads("LOGICAL"),
    "a variable of its list is an INTEGER": _reads("INTEGER"),
    "a point stands behind it": _text_has(r"[0-9]+\."),
    "a letter stands behind it": _text_has(r"[0-9]+[A-Za-z_]"),
}
