"""What a run of a program takes. Its memory is told by GNU time (Debian's package `time`), since of a program that Python starts
itself the system tells no less than what Python holds."""

import os
import subprocess
import sys
import tempfile
from typing import NamedTuple

TIME = "/usr/bin/time"


class Run(NamedTuple):
    """What a program wrote, its processor time in seconds, and the most memory that it held in kilobytes."""

    written: str
    seconds: float
    kilobytes: int


def run(words, text="", folder=None):
    """Runs a program that reads this text, in a folder where one is given. It must end with 0."""
    with tempfile.TemporaryFile() as feed, tempfile.TemporaryFile() as output, tempfile.NamedTemporaryFile() as told:
        feed.write(text.encode())
        feed.seek(0)
        timed = [TIME, "-o", told.name, "-f", "%M", *words]
        child = subprocess.Popen(timed, stdin=feed, stdout=output, stderr=subprocess.DEVNULL, cwd=folder)
        _, status, usage = os.wait4(child.pid, 0)
        if status != 0:
            sys.exit(f"{' '.join(words)} ended with {os.waitstatus_to_exitcode(status)}")
        output.seek(0)
        written = output.read().decode(errors="replace")
        return Run(written, usage.ru_utime + usage.ru_stime, int(told.read()))


def least(runs):
    """Of some runs: what the last one wrote, the least processor time, and the most memory."""
    return Run(runs[-1].written, min(it.seconds for it in runs), max(it.kilobytes for it in runs))


def least_of(count, words, text=""):
    """The same of so many runs, one behind the other."""
    return least([run(words, text) for _ in range(count)])
