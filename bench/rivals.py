"""Other programs that solve the mixed integer programs of plan.py: which options they get, and how they are read."""

import math
import shutil
import statistics
import tempfile
from dataclasses import dataclass
from pathlib import Path

from measure import run_once

# What takes a rival less than so many seconds is run as often as the program itself.
SHORT = 1.0


@dataclass
class Rival:
    """A program, the options of which the fastest counts, how it is run with some, and how its cost is read."""

    name: str
    settings: list
    command: callable
    cost: callable

    def is_here(self):
        return shutil.which(self.name) is not None


class TooLong(Exception):
    """A question took longer than it may."""


def glpsol_command(options, path, out, limit):
    """How glpsol is run on the program at the path."""
    return ["glpsol", *options, "--lp", path, "--tmlim", limit, "-w", out]


def glpsol_cost(told, out):
    """The cost that glpsol wrote, None where nothing is allowed."""
    if "TIME LIMIT" in told:
        raise TooLong
    if "NO PRIMAL FEASIBLE" in told or "NO INTEGER FEASIBLE" in told:
        return None
    solution = next(line.split() for line in out.splitlines() if line.startswith("s "))
    return round(float(solution[-1]))


def cbc_command(options, path, out, limit):
    """How cbc is run on the program at the path."""
    return ["cbc", path, "-sec", limit, *options, "-solve", "-solution", out]


def cbc_cost(_told, out):
    """The cost that cbc wrote, None where nothing is allowed."""
    first = out.split("\n", 1)[0].lower()
    if "infeasible" in first:
        return None
    if not first.startswith("optimal"):
        raise TooLong
    return round(float(first.split()[-1]))


RIVALS = [
    Rival("glpsol", [[], ["--cuts"], ["--pcost"]], glpsol_command, glpsol_cost),
    Rival("cbc", [[]], cbc_command, cbc_cost),
]


@dataclass
class Compared:
    """Seconds for all questions one by one with the faster options, None where the limit didn't do; and what a rival
    answers otherwise than it is told: the place of the question, and both costs."""

    seconds: float | None
    options: list
    wrong: list


def compare(rival, dialogue, costs, limit, runs):
    """The rival on all questions of a dialogue."""
    fastest = Compared(None, [], [])
    for options in rival.settings:
        try:
            seconds, wrong = all_questions(rival, options, dialogue, costs, limit, runs)
        except TooLong:
            continue
        fastest.wrong += wrong
        if fastest.seconds is None or seconds < fastest.seconds:
            fastest.seconds, fastest.options = seconds, options
            limit = min(limit, math.ceil(seconds))
    return fastest


def all_questions(rival, options, dialogue, costs, limit, runs):
    """Seconds for the questions of a dialogue, and those on which the rival disagrees."""
    total, wrong = 0.0, []
    with tempfile.TemporaryDirectory() as name:
        path, out = Path(name) / "plan.lp", Path(name) / "plan.out"
        for place, (plan, cost) in enumerate(zip(dialogue.asked, costs, strict=True)):
            path.write_text(plan.program())
            words = rival.command(options, str(path), str(out), str(limit))
            seconds, other = one_question(rival, words, out, runs)
            total += seconds
            if other != cost:
                wrong.append((place, cost, other))
    return total, wrong


def one_question(rival, words, out, runs):
    """Seconds for one question, the median of some runs where it is short, and the cost."""
    out.unlink(missing_ok=True)
    first = run_once(words)
    cost = rival.cost(first.text, out.read_text() if out.exists() else "")
    if first.seconds >= SHORT:
        return first.seconds, cost
    return statistics.median([first.seconds, *(run_once(words).seconds for _ in range(runs - 1))]), cost
