"""A model of the processors under a plan: what each does and waits for, in rounds of one step of each.

It is the machine of docs/MACHINE.md as `run --by core` goes, without values: subscripts, bounds and
comparisons are affine, so that who does what and waits for whom doesn't depend on them.
"""

import re

import advice
import counts
import source as sources
from plans import Fault

MOST_ACTS, MOST_ROUNDS = 60000, 6000
COMPARISONS = {
    "LT": lambda a, b: a < b, "LE": lambda a, b: a <= b, "EQ": lambda a, b: a == b,
    "GE": lambda a, b: a >= b, "GT": lambda a, b: a > b,
}  # fmt: skip


class Act:
    """One act of a processor: work, a post of a counter, or an await of another one's."""

    def __init__(self, kind, phase, processor=0, counter=0):
        self.kind, self.phase, self.processor, self.counter = kind, phase, processor, counter


class Model:
    """The acts of each processor, those on its own cells left out: they are done in the turn of another."""

    def __init__(self, program, plan):
        self.program, self.plan = program, plan
        self.counts = counts.Counts(program)
        self.acts = [[] for _ in range(plan.workers)]
        self.variables = {it.variable for it in program.loops}
        self.executed, self.made = 0, 0
        try:
            self.walk(plan.phases, 0, {}, lambda it: it.above, self.execute)
        except counts.TooMany as fault:
            raise Fault("this run is too long to draw: take smaller values of named constants, as N=8") from fault

    def walk(self, items, depth, values, loops_of, do):
        """Comes to items in sequential order: those in the same loop together, for each of its trips."""
        at = 0
        while at < len(items):
            loops = loops_of(items[at])
            if len(loops) == depth:
                do(items[at], values)
                at += 1
                continue
            loop, end = loops[depth], at
            while end < len(items) and len(loops_of(items[end])) > depth and loops_of(items[end])[depth] is loop:
                end += 1
            for value in self.counts.trips(loop, values):
                self.counts.spend(1)
                self.walk(items[at:end], depth + 1, {**values, loop.number: value}, loops_of, do)
            at = end

    def add(self, processor, act):
        self.acts[processor].append(act)
        self.made += 1
        if self.made > MOST_ACTS:
            raise counts.TooMany

    # ---- waits

    def awaited(self, phase, processor, values):
        """Whom a processor waits for in front of a phase."""
        workers = self.plan.workers
        all_kinds = {
            "NOTHING": [], "LEFT": [processor - 1], "RIGHT": [processor + 1], "BOTH": [processor - 1, processor + 1],
            "BARRIER": range(workers), "JOIN": range(workers),
        }  # fmt: skip
        if phase.kind == "PRODUCER":
            found = [phase.producer.owner_at(self.counts, values, workers)]
        else:
            found = all_kinds[phase.kind]
        return [it for it in found if 0 <= it < workers and it != processor]

    def execute(self, phase, values):
        """One execution of a phase by all processors."""
        counter, workers = self.executed, range(self.plan.workers)
        self.executed += 1
        awaited = [self.awaited(phase, it, values) for it in workers]
        for it in workers:
            if any(it in others for others in awaited):
                self.add(it, Act("post", phase.number, it, counter))
        for it in workers:
            for other in awaited[it]:
                self.add(it, Act("await", phase.number, other, counter))
        own, summed = self.own_scalars(phase)
        self.touched = [set() for _ in workers]
        depth = len(phase.above)

        def instance(action, inside):
            self.instance(phase, action, inside, own, summed)

        self.walk(phase.actions, depth, values, lambda it: it.loops, instance)
        self.close(phase, values, own, summed)

    # ---- work

    def own_scalars(self, phase):
        """The private and the summed scalars of a phase."""
        loop = phase.loop
        if not loop or self.plan.mark(loop) not in ("DOALL", "SUM"):
            return [], []
        names = []
        for action in phase.actions:
            if action.target and not action.subscripts and action.target not in names:
                names.append(action.target)
        uses = {it: advice.uses_of(self.program, loop, it) for it in names}
        own = [it for it in names if advice.is_plain_store(it, uses[it][0]) and uses[it][0].loops[-1] is loop]
        given = self.plan.privates.get(loop.number, [])
        summed = [it for it in names if self.plan.mark(loop) == "SUM" and all(advice.is_sum(it, use) for use in uses[it])]
        return own[: len(given)], summed

    def owner(self, phase, values):
        """The processor that owns what a phase does for these values."""
        workers = self.plan.workers
        found = phase.anchor.owner_at(self.counts, values, workers)
        if not 0 <= found < workers:
            raise Fault(f"phase {phase.number} has an owner {found}, and the processors are 0 to {workers - 1}: no such plan is accepted")
        return found

    def instance(self, phase, action, values, own, summed):
        if action.guard and not self.holds(action, values):
            return
        owner = self.owner(phase, values)
        for _ in range(sum(self.loads(name, whole, {*own, *summed}) for name, whole in self.reads(action))):
            self.add(owner, Act("work", phase.number))
        if action.target in own or action.target in summed:
            self.touched[owner].add(action.target)
        else:
            self.add(owner, Act("work", phase.number))

    def reads(self, action):
        """The variables that a statement loads, in text order, and whether as a whole array."""
        for it in re.finditer(rf"(?<![A-Z0-9.])({sources.NAME})(\(?)", action.value):
            if it[1] not in self.program.constants and it[1] not in self.variables and it[1] not in sources.FUNCTIONS:
                yield it[1], not it[2] and it[1] in self.program.arrays

    def loads(self, name, whole, own):
        if not whole:
            return name not in own
        size = 1
        for low, high in self.program.arrays[name]:
            size *= high - low + 1
        return size

    def holds(self, action, values):
        left, word, right = re.fullmatch(r"(.*)\.(LT|LE|EQ|GE|GT)\.(.*)", action.guard).groups()
        sides = [self.counts.value(self.program.form_of(it, action.loops), values) for it in (left, right)]
        return COMPARISONS[word](*sides)

    def close(self, phase, values, own, summed):
        """Behind a phase with scalars of its own these come to the shared cells."""
        trips = self.counts.trips(phase.loop, values) if own else []
        if trips:
            last = self.owner(phase, {**values, phase.loop.number: trips[-1]})
            for _ in own:
                self.add(last, Act("work", phase.number))
        for processor, names in enumerate(self.touched):
            for name in summed:
                if name in names:
                    self.add(processor, Act("work", phase.number))


class Span:
    """Rounds in a row in which a processor does one thing; of a wait the one that it is for."""

    def __init__(self, kind, phase, number, on):
        self.kind, self.phase, self.on = kind, phase, on
        self.begin = self.end = number


def run(model):
    """The lanes of a run in rounds, and how many rounds it has."""
    workers = range(len(model.acts))
    at, counters, lanes = [0] * len(model.acts), [0] * len(model.acts), [[] for _ in workers]
    rounds = 0
    while any(at[it] < len(model.acts[it]) for it in workers):
        rounds += 1
        if rounds > MOST_ROUNDS:
            raise Fault(f"this run has more than {MOST_ROUNDS} rounds: take smaller values of named constants, as N=8")
        for it in workers:
            if at[it] == len(model.acts[it]):
                continue
            act = model.acts[it][at[it]]
            kind = "work" if act.kind == "work" else "step"
            if act.kind == "await" and counters[act.processor] < act.counter:
                kind = "wait"
            else:
                at[it] += 1
                if act.kind == "post":
                    counters[it] = act.counter
            extend(lanes[it], kind, act, rounds)
    return lanes, rounds


def extend(lane, kind, act, number):
    last = lane[-1] if lane else None
    on = act.processor if kind == "wait" else 0
    if last and (last.kind, last.phase, last.on) == (kind, act.phase, on):
        last.end = number
    else:
        lane.append(Span(kind, act.phase, number, on))
