"""Decks as long as a deck may be."""

import itertools
import string


def words(count):
    """So many names, the short ones first."""
    heads, tails = string.ascii_uppercase, string.ascii_uppercase + string.digits
    taken = set("DO GO IF IS OF OR TO ABS AND DIV END FOR REM SHL SHR BITS CASE ELSE GOTO LONG NULL REAL STEP THEN TRUE".split())
    every = ("".join(it) for size in range(4) for it in itertools.product(heads, *[tails] * size))
    return list(itertools.islice((it for it in every if it not in taken), count))


def names(count):
    """A block that declares so many names."""
    return ["BEGIN INTEGER ", *(f"{it}," for it in words(count)[:-1]), words(count)[-1] + ";", " END."]


def uses(count, depth=96):
    """So many uses of a variable in blocks that stand in each other."""
    inside = count // depth
    blocks = [["BEGIN INTEGER Y;", " Y:=X", *["+X"] * (inside - 1), ";"] for _ in range(depth)]
    return ["BEGIN INTEGER X; X:=0;", *itertools.chain(*blocks), *["END "] * depth, "END."]


def uses_within(name, count, depth=90):
    """So many uses, in the innermost of these blocks, of X, which the outermost declares, or of Y, which each other does."""
    return ["BEGIN INTEGER X; ", *["BEGIN INTEGER Y; "] * depth, f"{name}:=0", *[f"+{name}"] * count, ";", *["END "] * depth, "END."]


def terms(count):
    """A sum of so many terms."""
    return ["BEGIN INTEGER X; X:=1", *["+1"] * (count - 1), " END."]


def procedures(count):
    """So many procedures, each with a call."""
    called = words(count)
    return ["BEGIN ", *(f"PROCEDURE {it};{called[0]}; " for it in called), "END."]


def cards(pieces):
    """The pieces on cards of 80 columns."""
    lines = [""]
    for piece in pieces:
        if len(lines[-1]) + len(piece) > 80:
            lines.append("")
        lines[-1] += piece
    return lines


def wrong(deck):
    """The deck with a name more at its end that isn't declared."""
    return [*deck[:-1], deck[-1].replace("END.", ";Q9Q9 END.")]


def batch(decks):
    """A batch with a job for each deck."""
    jobs = (card for deck in decks for card in ["%JOB LONG,ADA,STEPS=10000000", *deck, "%EOJ"])
    return "".join(f"{card}\n" for card in ["%ACCOUNT ADA 999999999", *jobs])
