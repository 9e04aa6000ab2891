"""Reads the text of a plan, with the reasons behind it, and finds its phases in the source."""

import re

import source as sources


class Fault(Exception):
    """What is wrong, and where."""


class Anchor:
    """An affine form with a distribution."""

    def __init__(self, constant, loops, names, block):
        self.constant, self.loops, self.names, self.block = constant, loops, names, block

    def owner(self, workers):
        """The processor that owns it, where the form is a constant."""
        if self.loops or self.names:
            return None
        return self.owner_of(self.constant, workers)

    def owner_of(self, value, workers):
        return value // self.block if self.block else value % workers

    def owner_at(self, counts, values, workers):
        """The processor that owns it where the loops have these values."""
        form = sources.Form(self.constant, self.loops, self.names)
        return self.owner_of(counts.value(form, values), workers)

    def told(self, program):
        """The form as a person writes it, and how it is dealt out."""
        loops = {k: program.loops[k - 1].variable if program and k <= len(program.loops) else f"L{k}" for k in self.loops}
        names = {k: program.constants[k - 1] if program and k <= len(program.constants) else f"P{k}" for k in self.names}
        text = ""
        terms = [(v, loops[k]) for k, v in self.loops.items()] + [(v, names[k]) for k, v in self.names.items()]
        for times, name in sorted(terms, key=lambda it: it[0] < 0):
            size = name if abs(times) == 1 else f"{abs(times)}*{name}"
            text += (" - " if times < 0 else " + ") + size if text else ("-" if times < 0 else "") + size
        if self.constant or not text:
            sign = (" - " if self.constant < 0 else " + ") if text else ("-" if self.constant < 0 else "")
            text += f"{sign}{abs(self.constant)}"
        return f"{text}, in blocks of {self.block}" if self.block else f"{text}, in turn"


class Phase:
    """A phase as its line has it, with its reasons, and where it stands in the source once that is known."""

    def __init__(self, number, kind, producer, anchor, text):
        self.number, self.kind, self.producer = number, kind, producer
        self.anchor, self.text = anchor, text
        self.reasons, self.meeting = [], []
        self.line, self.loop, self.above, self.actions = 0, None, [], []
        self.lines, self.times = [], None


class Plan:
    """A plan, and of each loop that isn't dealt out why not: its tries, one after the other."""

    def __init__(self, workers, marks, phases, privates):
        self.workers, self.marks, self.phases, self.privates = workers, marks, phases, privates
        self.loop_reasons = {}
        self.told = []  # its lines up to the certificates
        self.is_made = False  # the reasons of a made plan stand behind it

    def mark(self, loop):
        return self.marks[loop.number - 1] if loop.number <= len(self.marks) else ""


FORM = r"(-?\d+)((?: -?\d+\*[LP]\d+)*) (?:BLOCK (\d+)|CYCLIC)"
PHASE = re.compile(rf"(\d+) (NOTHING|LEFT|RIGHT|BOTH|BARRIER|JOIN|PRODUCER ({FORM})) AT ({FORM})$")


def anchor_of(text):
    """The anchor with this text."""
    constant, terms, block = re.fullmatch(FORM, text).groups()
    pairs = re.findall(r"(-?\d+)\*([LP])(\d+)", terms)
    loops = {int(n): int(v) for v, which, n in pairs if which == "L"}
    names = {int(n): int(v) for v, which, n in pairs if which == "P"}
    return Anchor(int(constant), loops, names, int(block) if block else None)


class Lines:
    """The lines of a text, one after the other."""

    def __init__(self, text):
        self.lines, self.at = text.splitlines(), 0

    def take(self, pattern, what):
        """The next line's groups; `what` says what it has to be."""
        line = self.lines[self.at] if self.at < len(self.lines) else None
        found = re.fullmatch(pattern, line) if line is not None else None
        if found is None:
            shown = "the text ends" if line is None else f"{line[:60]} stands"
            raise Fault(f"line {self.at + 1} of the plan: {shown} where {what} is wanted")
        self.at += 1
        return found

    def rest(self):
        """The lines that are left."""
        return self.lines[self.at :]


def refuse_other_text(text):
    """What is no plan's text at all is named as what it is."""
    first = text.lstrip("\n").split("\n")[0]
    if not text.strip():
        raise Fault("nothing was read; a plan comes by: seagrynt plan --workers 4 < heat.f | draw-plan")
    if re.match(r"REFUSED |WORDS |PLAN |TOO LONG", first):
        raise Fault(f"there is no plan to draw: seagrynt wrote {first}")
    if re.match(r"(C|c|\*| {6}|\d)", first) and not first.startswith("SPMD"):
        raise Fault("this is a source, and no plan; a plan comes by: seagrynt plan --workers 4 < heat.f | draw-plan")


def read_plan(text):
    """The plan that stands in front of a text, with its reasons where they stand behind it."""
    refuse_other_text(text)
    lines = Lines(text)
    version = lines.take(r"SPMD PLAN ([1-5])", "SPMD PLAN 1 to 5")[1]
    workers = int(lines.take(r"WORKERS ([1-9]\d?)", "WORKERS with 1 to 64")[1])
    if workers > 64:
        raise Fault(f"line 2 of the plan: {workers} workers; there are 1 to 64")
    if version in "345":
        rows = lines.take(r"WHERE (VALUES|\d+)", "WHERE")[1]
        for _ in range(0 if rows == "VALUES" else int(rows)):
            lines.take(r".* <= -?\d+", "a row of conditions")
    loops = [
        lines.take(rf"{k + 1} (OUTER|DOALL|SUM|SINGLE|INNER)( PRIVATE(?: V\d+)+)?", f"the mark of loop {k + 1}")
        for k in range(int(lines.take(r"LOOPS (\d+)", "the number of loops")[1]))
    ]
    privates = {k + 1: [int(v) for v in re.findall(r"V(\d+)", it[2])] for k, it in enumerate(loops) if it[2]}
    phases = []
    for k in range(int(lines.take(r"PHASES (\d+)", "the number of phases")[1])):
        found = lines.take(PHASE, f"phase {k + 1}")
        if int(found[1]) != k + 1:
            raise Fault(f"line {lines.at} of the plan: phase {found[1]} stands where phase {k + 1} is wanted")
        producer = anchor_of(found[3]) if found[3] else None
        phases.append(Phase(k + 1, found[2].split()[0], producer, anchor_of(found[7]), found[7]))
    plan = Plan(workers, [it[1] for it in loops], phases, privates)
    plan.told = lines.lines[: lines.at]
    lines.take(r"CERTIFICATES (\d+)", "the number of certificates")
    rest = lines.rest()
    for line in rest[rest.index("END PLAN") :] if "END PLAN" in rest else rest:
        read_reason(plan, line)
        plan.is_made = plan.is_made or line == "END REASONS"
    return plan


def read_reason(plan, line):
    """Keeps a reason line with the phase or the loop that it explains."""
    found = re.fullmatch(
        r"PHASE (\d+) NOT (.+) LINES (\d+) (\d+) NAME (\w+) LEVEL (\d+) PIECE \d+ (\w+)", line
    )
    if found and 1 <= int(found[1]) <= len(plan.phases):
        _, kind, first, second, name, level, answer = found.groups()
        plan.phases[int(found[1]) - 1].reasons.append((kind, first, second, name, level, answer))
    found = re.fullmatch(r"LOOP (\d+) NOT (DOALL|PRIVATE|SUM) (?:PRINT|LINES (\d+) (\d+) NAME (\w+) (\w+))", line)
    if found:
        plan.loop_reasons.setdefault(int(found[1]), []).append(found.groups()[1:])


def other_blocks(plan, program):
    """The first phase of a made plan whose blocks are those of other values of the named constants, or None."""
    for phase in plan.phases if plan.is_made else []:
        form, _, block = phase.text.partition(" BLOCK ")
        known = [it.partition(" BLOCK ") for action in phase.actions for it in program.anchor_of(action, plan.workers)]
        blocks = [it[2] for it in known if it[0] == form and it[2]]
        if block and blocks and block not in blocks:
            return phase
    return None


def place_in_source(plan, program):
    """Finds each phase in the source; whether the plan's marks and phases are as many as the program's."""
    places = program.phases(plan.marks)
    if len(places) != len(plan.phases) or len(program.loops) != len(plan.marks):
        return False
    for phase, (line, loop, actions) in zip(plan.phases, places):
        phase.line, phase.loop, phase.actions = line, loop, actions
        around = loop.above if loop else actions[0].loops
        phase.above = [it for it in around if plan.mark(it) == "OUTER"]
    return True
