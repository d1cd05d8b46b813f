"""How many instructions of the processor the steps of a deck take. Valgrind's callgrind counts them, so what is found doesn't
depend on how busy the machine is."""

import os
import re
import subprocess
import sys
import tempfile

PROGRAM = "crates/monitor/out/monitor"
NAMES = ("monitor", "other")


def batch(deck, count):
    """A batch of one job, with one number as its data."""
    cards = ["%ACCOUNT ADA 999999999", "%JOB COUNT,ADA,STEPS=10000000", *deck, "%DATA", str(count), "%EOJ"]
    return "".join(f"{card}\n" for card in cards)


def instructions(words, text):
    """What a program writes that reads this text, and how many instructions that takes. Python's start would else take more or
    fewer from run to run."""
    under = ["valgrind", "--tool=callgrind", "--callgrind-out-file=/dev/null", *words]
    with tempfile.TemporaryDirectory() as room:
        settled = {**os.environ, "PYTHONHASHSEED": "0"}
        ran = subprocess.run(under, input=text, capture_output=True, text=True, cwd=room, env=settled, check=True)
    return ran.stdout, int(re.search(r"Collected : (\d+)", ran.stderr)[1])


def counted(program, text):
    """What the monitor lists, and how many instructions that takes."""
    return instructions([os.path.abspath(program), "--workers", "1"], text)


def steps_of(listing):
    """The steps of the one job of a listing."""
    return int(re.search(r"STEPS (\d+)", listing.split("ENDED NORMALLY")[1])[1])


def a_step(program, deck, count):
    """What two runs list, with a count and with twice that, and the instructions of a step in the difference."""
    (first, fewer), (second, more) = (counted(program, batch(deck, n)) for n in (count, 2 * count))
    return (first, second), (more - fewer) / (steps_of(second) - steps_of(first))


def compared(told, programs, deck, count):
    """The instructions of a step of each program. It stops where two don't list the same."""
    return stepped(told, programs, deck, count)[1]


def stepped(told, programs, deck, count):
    """The two listings, and the instructions of a step of each program. It stops where two don't list the same."""
    listings, figures = zip(*(a_step(program, deck, count) for program in programs))
    if len(set(listings)) != 1:
        sys.exit(f"{told}: the listings differ")
    return listings[0], figures


def output_of(listing):
    """The number that the one job of a listing printed."""
    lines = listing.splitlines()
    return int(lines[lines.index("OUTPUT") + 1])


def print_row(cells):
    """A row of a table."""
    print("|", " | ".join(cells), "|", flush=True)


def print_head(cells):
    """The head of a table, and the line below it."""
    print_row(cells)
    print("|" + "---|" * len(cells), flush=True)
