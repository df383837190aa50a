"""One program run on one input: how much of a processor's time its process took, from its start to its end.

All programs here work on one processor and wait for nothing, so on an idle machine that is the time by the clock. On
a busy one it says more than the clock.
"""

import os
import statistics
import subprocess
import tempfile
from dataclasses import dataclass
from pathlib import Path

TIME = Path("/usr/bin/time")


@dataclass
class Run:
    """Seconds, the status, and what stands on the standard output."""

    seconds: float
    status: int
    text: str


def run_once(words, source=b""):
    """One run, with nothing of Python in its time but the start of the process."""
    with tempfile.NamedTemporaryFile() as put, tempfile.NamedTemporaryFile() as came:
        put.write(source)
        put.flush()
        streams = [
            (os.POSIX_SPAWN_OPEN, 0, put.name, os.O_RDONLY, 0),
            (os.POSIX_SPAWN_OPEN, 1, came.name, os.O_WRONLY, 0),
            (os.POSIX_SPAWN_DUP2, 1, 2),
        ]
        process = os.posix_spawnp(words[0], words, os.environ, file_actions=streams)
        _, ended, used = os.wait4(process, 0)
        return Run(used.ru_utime + used.ru_stime, os.waitstatus_to_exitcode(ended), came.read().decode())


def median_of(runs, words, source=b""):
    """The first of some runs, with their median time."""
    all_runs = [run_once(words, source) for _ in range(runs)]
    return Run(statistics.median(run.seconds for run in all_runs), all_runs[0].status, all_runs[0].text)


def peak_of(words, source):
    """The most memory of a run, in kB; 0 without /usr/bin/time."""
    if not TIME.exists():
        return 0
    with tempfile.NamedTemporaryFile("r") as told:
        command = [TIME, "-f", "%M", "-o", told.name, *words]
        subprocess.run(command, input=source, stdout=subprocess.DEVNULL, check=False)
        return int(told.read().split()[-1])
