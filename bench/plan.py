"""Plans as a benchmark makes them: as a script of Uhura, and as a mixed integer program for glpsol.

The program has a time for each controllable event, a binary for each alternative, one that says whether what has a
guard of several literals is active, and for each priced side its units, split where a second price begins. A
requirement bounds the difference of two times at the worst lengths that are left to the durations. The earliest
schedule ends no later than the horizon, which is what all events wait at most, one after the other; so where a
requirement isn't active, its bound is lifted by as much as two times within the horizon need, and no more. The
objective is what is picked, loosened and narrowed.
"""

from dataclasses import dataclass, field, replace


@dataclass(frozen=True)
class Price:
    """What a unit costs, from so many units on more, and how many units there may be."""

    rate: int
    after: int | None = None
    second: int | None = None
    most: int | None = None

    def words(self):
        past = [] if self.after is None else ["past", self.after, self.second]
        return [self.rate, *past] + ([] if self.most is None else [self.most])


@dataclass(frozen=True)
class Duration:
    name: str
    start: str
    end: str
    lower: int
    upper: int
    prices: dict = field(default_factory=dict)

    def line(self):
        return words("uncertain", self.name, self.start, self.end, self.lower, self.upper, *sides(self.prices))


@dataclass(frozen=True)
class Choice:
    name: str
    costs: dict
    guard: tuple = ()

    def line(self):
        pairs = [word for pair in self.costs.items() for word in pair]
        return words("choice", self.name, *pairs, *guard_words(self.guard))


@dataclass(frozen=True)
class Requirement:
    name: str
    start: str
    end: str
    lower: int | None
    upper: int | None
    prices: dict = field(default_factory=dict)
    guard: tuple = ()

    def line(self):
        bounds = ["-" if bound is None else bound for bound in (self.lower, self.upper)]
        return words("require", self.name, self.start, self.end, *bounds, *sides(self.prices), *guard_words(self.guard))


def words(*all_words):
    return " ".join(str(word) for word in all_words)


def sides(prices):
    return [word for side in ("lower", "upper") if side in prices for word in (side, *prices[side].words())]


def guard_words(guard):
    return ["when", *(word for literal in guard for word in literal)] if guard else []


@dataclass(frozen=True)
class Plan:
    events: tuple = ()
    durations: tuple = ()
    choices: tuple = ()
    requirements: tuple = ()
    denials: tuple = ()

    def lines(self):
        """The plan and its denials as commands."""
        for event in self.events:
            yield words("event", event)
        for item in (*self.durations, *self.choices, *self.requirements):
            yield item.line()
        for name, literals in self.denials:
            yield words("deny", name, *(word for literal in literals for word in literal))

    def with_bound(self, name, side, bound):
        """The plan with another bound of a requirement."""
        changed = (replace(r, **{side: bound}) if r.name == name else r for r in self.requirements)
        return replace(self, requirements=tuple(changed))

    def with_denial(self, name, literals):
        return replace(self, denials=(*self.denials, (name, literals)))

    def program(self):
        """The same in the format of CPLEX's LP files."""
        return Program(self).text()


@dataclass(frozen=True)
class Bound:
    """A side of a requirement: one time less another, with what is narrowed, is this number at most."""

    side: str
    terms: list
    later: str
    number: int


class Program:
    def __init__(self, plan):
        self.plan = plan
        self.objective, self.rows, self.limits, self.binaries = [], [], [], []
        self.ends = {duration.end: duration for duration in plan.durations}
        self.narrowed = {}
        self.horizon = 0

    def text(self):
        for choice in self.plan.choices:
            self.put_choice(choice)
        for duration in self.plan.durations:
            self.put_duration(duration)
        bounds = [(requirement, self.bounds(requirement)) for requirement in self.plan.requirements]
        self.put_times(bound for _, both in bounds for bound in both)
        for requirement, both in bounds:
            self.put_requirement(requirement, both)
        for name, literals in self.plan.denials:
            self.row(f"v_{name}", [(1, picked(*literal)) for literal in literals], "<=", len(literals) - 1)
        rows = "\n".join(self.rows)
        goal = " ".join(f"+ {cost} {name}" for cost, name in self.objective) or "0 zero"
        return (
            f"Minimize\n obj: {goal}\nSubject To\n{rows}\n nothing: zero = 0\nBounds\n"
            + "\n".join(self.limits)
            + f"\nBinary\n {' '.join(self.binaries)}\nEnd\n"
        )

    def row(self, name, terms, relation, bound):
        self.rows.append(f" {name}: " + " ".join(f"{c:+d} {v}" for c, v in terms) + f" {relation} {bound}")

    def active(self, name, guard):
        """A binary that is 1 exactly where all literals of the guard are picked; none for an empty guard."""
        if not guard:
            return None
        if len(guard) == 1:
            return picked(*guard[0])
        self.binaries.append(name)
        for place, literal in enumerate(guard):
            self.row(f"{name}_{place}", [(1, name), (-1, picked(*literal))], "<=", 0)
        self.row(f"{name}_all", [(1, name), *((-1, picked(*literal)) for literal in guard)], ">=", 1 - len(guard))
        return name

    def put_choice(self, choice):
        alternatives = [(1, picked(choice.name, name)) for name in choice.costs]
        active = self.active(f"g_{choice.name}", choice.guard)
        self.binaries.extend(name for _, name in alternatives)
        self.objective.extend((cost, picked(choice.name, name)) for name, cost in choice.costs.items())
        if active:
            self.row(f"c_{choice.name}", [*alternatives, (-1, active)], "=", 0)
        else:
            self.row(f"c_{choice.name}", alternatives, "=", 1)

    def units(self, name, price):
        """The units of a side, as terms: none without a price, and two parts with a second one."""
        if price is None:
            return []
        first = f"{name}_a"
        self.objective.append((price.rate, first))
        if price.after is None:
            if price.most is not None:
                self.limits.append(f" 0 <= {first} <= {price.most}")
            return [(1, first)]
        second = f"{name}_b"
        self.objective.append((price.second, second))
        self.limits.append(f" 0 <= {first} <= {price.after}")
        if price.most is not None:
            self.row(f"{name}_most", [(1, first), (1, second)], "<=", price.most)
        return [(1, first), (1, second)]

    def put_duration(self, duration):
        lower = self.units(f"n_{duration.name}_l", duration.prices.get("lower"))
        upper = self.units(f"n_{duration.name}_u", duration.prices.get("upper"))
        self.narrowed[duration.name] = {"lower": lower, "upper": upper}
        if lower or upper:
            self.row(f"w_{duration.name}", [*lower, *upper], "<=", duration.upper - duration.lower)

    def time(self, event, side, sign):
        """An event's time at the least or the greatest length left of its duration: terms and a number."""
        if event not in self.ends:
            return [(sign, f"t_{event}")], 0
        duration = self.ends[event]
        number = duration.lower if side == "lower" else duration.upper
        turned = sign if side == "lower" else -sign
        units = [(turned * count, name) for count, name in self.narrowed[duration.name][side]]
        return [(sign, f"t_{duration.start}"), *units], sign * number

    def bounds(self, requirement):
        """The sides of a requirement that have a bound."""
        both = []
        for side, bound, sign in (("upper", requirement.upper, 1), ("lower", requirement.lower, -1)):
            if bound is None:
                continue
            worst, best = ("upper", "lower") if side == "upper" else ("lower", "upper")
            to, length_to = self.time(requirement.end, worst, sign)
            start, length_start = self.time(requirement.start, best, -sign)
            later = self.base(requirement.start if side == "upper" else requirement.end)
            both.append(Bound(side, [*to, *start], later, sign * bound - length_to - length_start))
        return both

    def base(self, event):
        """The controllable event that an event hangs on."""
        return self.ends[event].start if event in self.ends else event

    def put_times(self, bounds):
        """The times, from 0 to the horizon."""
        waits = {}
        for bound in bounds:
            waits[bound.later] = max(waits.get(bound.later, 0), -bound.number)
        self.horizon = sum(waits.values())
        self.limits.extend(f" 0 <= t_{event} <= {self.horizon}" for event in self.plan.events)

    def put_requirement(self, requirement, bounds):
        active = self.active(f"r_{requirement.name}", requirement.guard)
        for bound in bounds:
            name = f"l_{requirement.name}_{bound.side}"
            units = [(-count, part) for count, part in self.units(name, requirement.prices.get(bound.side))]
            lift = max(0, self.horizon - bound.number) if active else 0
            lifted = [(lift, active)] if lift else []
            self.row(name, merged([*bound.terms, *units, *lifted]), "<=", bound.number + lift)


def merged(terms):
    """The terms with each variable once."""
    sums = {}
    for count, name in terms:
        sums[name] = sums.get(name, 0) + count
    return [(count, name) for name, count in sums.items() if count] or [(0, "zero")]


def picked(choice, alternative):
    return f"p_{choice}_{alternative}"
