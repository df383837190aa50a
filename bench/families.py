"""The families of plans and dialogues, each made by number: a name, and the plans that are asked one after another."""

from dataclasses import dataclass

from plan import Choice, Duration, Plan, Price, Requirement, words


@dataclass
class Draws:
    """The minimal standard generator of Park and Miller, as revised in 1993."""

    x: int

    def draw(self, m):
        self.x = 48271 * self.x % 2147483647
        return self.x % m


@dataclass
class Dialogue:
    """Lines of a script, the questions among them, and the plan that stands at each question."""

    family: str
    name: str
    lines: list
    asked: list

    def script(self):
        return "".join(line + "\n" for line in self.lines)


def once(family, name, plan):
    return Dialogue(family, name, [*plan.lines(), "propose"], [plan])


def generated(number, events):
    """The plan that uhura_gen makes from a number."""
    d = Draws(number)

    def price():
        return Price(1 + d.draw(9))

    def both():
        return {"lower": price(), "upper": price()}

    def range_within(first, width):
        low = d.draw(first)
        return low, low + d.draw(width)

    durations, requirements = [], []
    for i in range(events // 4):
        low, high = range_within(20, 20)
        durations.append(Duration(f"u{i}", f"e{4 * i}", f"f{i}", low, high, both()))
    choices = [Choice(f"c{i}", {f"a{k}": d.draw(30) for k in range(3)}) for i in range(3)]
    for i in range(1, events):
        low, high = range_within(10, 40)
        requirements.append(Requirement(f"r{i}", f"e{i - 1}", f"e{i}", low, high, both()))
    for i in range(events // 4):
        low, high = range_within(10, 30)
        prices = both()
        guard = ((f"c{i % 3}", f"a{d.draw(3)}"),)
        requirements.append(Requirement(f"s{i}", f"f{i}", f"e{4 * i + 3}", low, high, prices, guard))
    high = d.draw(10 * events)
    last = Requirement("all", "e0", f"e{events - 1}", None, high, {"upper": Price(1 + d.draw(50))})
    return Plan(tuple(f"e{i}" for i in range(events)), tuple(durations), tuple(choices), (*requirements, last))


def choices_with_requirements(number, count, alternatives, length=24):
    """A chain of events with a deadline, and choices, each alternative with a guarded requirement somewhere on it."""
    d = Draws(number)
    events = tuple(f"e{i}" for i in range(length))
    choices = tuple(Choice(f"c{i}", {f"a{k}": d.draw(30) for k in range(alternatives)}) for i in range(count))

    def lower(first, width):
        return first + d.draw(width), None, {"lower": Price(1 + d.draw(9))}

    requirements = [Requirement(f"r{i}", f"e{i}", f"e{i + 1}", *lower(1, 10)) for i in range(length - 1)]
    for i in range(count):
        for k in range(alternatives):
            start = d.draw(length - 4)
            end = start + 1 + d.draw(3)
            guard = ((f"c{i}", f"a{k}"),)
            requirements.append(Requirement(f"g{i}_{k}", f"e{start}", f"e{end}", *lower(5, 25), guard))
    deadline = Requirement("all", "e0", f"e{length - 1}", None, 6 * length, {"upper": Price(1 + d.draw(20))})
    return Plan(events, (), choices, (*requirements, deadline))


def each_branch_its_own(number, count, alternatives):
    """Choices that each lengthen a link of their own: every branch lacks another time, and little is learned for two."""
    d = Draws(number)
    events = tuple(f"e{i}" for i in range(count + 1))
    choices = tuple(Choice(f"c{i}", {f"a{k}": d.draw(30) for k in range(alternatives)}) for i in range(count))
    requirements = [
        Requirement(f"r{i}_{k}", f"e{i}", f"e{i + 1}", 5 + d.draw(40), None, {"lower": Price(1 + d.draw(9))}, ((f"c{i}", f"a{k}"),))
        for i in range(count)
        for k in range(alternatives)
    ]
    deadline = Requirement("all", "e0", f"e{count}", None, 12 * count, {"upper": Price(1 + d.draw(20))})
    return Plan(events, (), choices, (*requirements, deadline))


def chain_to_a_deadline(number, links, count):
    """A chain with another price on every link to one deadline, and choices that each loosen a link."""
    d = Draws(number)
    events = tuple(f"e{i}" for i in range(links + 1))
    choices = tuple(Choice(f"c{i}", {"plain": 0, "quick": 1 + d.draw(60)}) for i in range(count))
    requirements = []
    for i in range(links):
        low = 10 + d.draw(20)
        price = {"lower": Price(1 + d.draw(99))}
        if i < count:
            requirements.append(Requirement(f"p{i}", f"e{i}", f"e{i + 1}", low, None, price, ((f"c{i}", "plain"),)))
            requirements.append(Requirement(f"q{i}", f"e{i}", f"e{i + 1}", low // 2, None, price, ((f"c{i}", "quick"),)))
        else:
            requirements.append(Requirement(f"p{i}", f"e{i}", f"e{i + 1}", low, None, price))
    deadline = Requirement("all", "e0", f"e{links}", None, 12 * links)
    return Plan(events, (), choices, (*requirements, deadline))


def ties(count):
    """Choices whose alternatives cost the same and of which any one has to be paid for."""
    events = ("a", "b")
    choices = tuple(Choice(f"c{i}", {"x": 1, "y": 1}) for i in range(count))
    requirements = tuple(
        Requirement(f"r{i}_{k}", "a", "b", 10 + i, None, {"lower": Price(1)}, ((f"c{i}", k),)) for i in range(count) for k in "xy"
    )
    return Plan(events, (), choices, (*requirements, Requirement("all", "a", "b", None, 5)))


def nothing_allowed(count):
    """The plan of the greatest size that allows nothing: a chain through all events, low and high by turns."""
    events = tuple(f"e{i}" for i in range(256))
    durations = tuple(Duration(f"u{i}", f"e{i}", f"f{i}", 1, 9, {"lower": Price(1), "upper": Price(1)}) for i in range(256))
    choices = tuple(Choice(f"c{i}", {"x": i, "y": 1}) for i in range(count))
    order = [i // 2 if i % 2 == 0 else 255 - i // 2 for i in range(256)]
    requirements = [Requirement(f"r{i}", f"e{order[i]}", f"e{order[i + 1]}", 10, None) for i in range(255)]
    requirements.append(Requirement("deadline", f"e{order[0]}", f"e{order[-1]}", None, 2549))
    number = 0
    while len(requirements) < 2048:
        guard = ((f"c{number % count}", "xy"[number // count % 2]),)
        requirements.append(
            Requirement(f"s{number}", f"e{number % 256}", f"f{(number * 7 + 1) % 256}", None, 4000, {"upper": Price(1)}, guard)
        )
        number += 1
    return Plan(events, durations, choices, tuple(requirements))


def bounds_changed(name, plan, questions, number):
    """Bounds of a plan changed one after another, with a question behind each."""
    d = Draws(number)
    priced = [r.name for r in plan.requirements if r.lower is not None and r.upper is not None]
    lines, asked = [*plan.lines(), "propose"], [plan]
    for _ in range(questions - 1):
        at = priced[d.draw(len(priced))]
        requirement = next(r for r in plan.requirements if r.name == at)
        bound = requirement.lower + d.draw(40)
        plan = plan.with_bound(at, "upper", bound)
        lines += [words("bound", at, "upper", bound), "propose"]
        asked.append(plan)
    return Dialogue("dialogues", name, lines, asked)


def vetoes_one_after_another(name, plan, questions, number):
    """Denials of two alternatives together, one after another."""
    d = Draws(number)
    lines, asked, seen = [*plan.lines(), "propose"], [plan], set()
    while len(asked) < questions:
        pair = sorted({d.draw(len(plan.choices)), d.draw(len(plan.choices))})
        literals = tuple((plan.choices[c].name, sorted(plan.choices[c].costs)[d.draw(len(plan.choices[c].costs))]) for c in pair)
        if len(pair) < 2 or literals in seen:
            continue
        seen.add(literals)
        name_of_veto = f"v{len(asked)}"
        plan = plan.with_denial(name_of_veto, literals)
        lines += [words("deny", name_of_veto, *(w for literal in literals for w in literal)), "propose"]
        asked.append(plan)
    return Dialogue("dialogues", name, lines, asked)


def read_and_asked_once(lines):
    """A large plan read line by line and asked once."""
    events = tuple(f"e{i}" for i in range(512))
    requirements = tuple(Requirement(f"r{i}", f"e{i % 512}", f"e{(i * 5 + 1) % 512}", None, 10 + i) for i in range(lines))
    return Plan(events, (), (), requirements)


def all_families():
    """Every dialogue of the benchmark."""
    tiny = Plan(
        ("home",),
        (Duration("drive", "home", "arrive", 30, 50, {"upper": Price(3)}),),
        (),
        (Requirement("dinner", "home", "arrive", None, 40, {"upper": Price(2)}),),
    )
    yield once("tiny", "drive", tiny)
    yield once("tiny", "generated 1 of 4", generated(1, 4))
    for events in (16, 64, 128, 256):
        yield once("generated", f"generated 1 of {events}", generated(1, events))
    for count, alternatives in ((8, 2), (10, 3), (16, 2), (8, 4)):
        yield once("many choices", f"{count} of {alternatives}", choices_with_requirements(1, count, alternatives))
    for count, alternatives in ((8, 2), (8, 3)):
        yield once("each its own", f"{count} of {alternatives}", each_branch_its_own(1, count, alternatives))
    for links, count in ((30, 8), (60, 12)):
        yield once("chains", f"{links} links, {count} choices", chain_to_a_deadline(1, links, count))
    yield once("ties", "12 choices", ties(12))
    yield once("nothing allowed", "16 choices of 2", nothing_allowed(16))
    yield bounds_changed("100 bounds of generated 1 of 64", generated(1, 64), 100, 7)
    yield vetoes_one_after_another("50 denials, 8 of 3", choices_with_requirements(2, 8, 3), 50, 7)
    yield once("read once", "2,048 requirements", read_and_asked_once(2048))
