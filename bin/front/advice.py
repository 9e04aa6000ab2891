"""Warnings on a source and on the plan that is made of it, and what a plan comes to in one line."""

import re
import time

import counts
import plans
import source as sources

WAITS = {"PRODUCER": "one processor", "LEFT": "neighbours", "RIGHT": "neighbours", "BOTH": "neighbours", "NOTHING": "nobody"}
MOST_SECONDS, MOST_ASKED = 2, 3


def listed(lines, most=4):
    """So many lines of a list, in words."""
    lines = [str(it) for it in lines]
    word = "line " if len(lines) == 1 else "lines "
    if len(lines) > most:
        return word + ", ".join(lines[:most]) + f" and {len(lines) - most} more"
    return word + (" and ".join([", ".join(lines[:-1]), lines[-1]]) if len(lines) > 1 else lines[0])


def in_words(names):
    return " and ".join([", ".join(names[:-1]), names[-1]] if len(names) > 1 else names)


# ---- the source


def source_warnings(source, program):
    long = [n for n, it in enumerate(source.lines[: source.end or None], 1)
            if it[72:].strip() and it[:1] not in tuple("Cc*") and it[:72].strip()]
    if long:
        first = source.lines[long[0] - 1]
        yield f"{listed(long)}: columns past 72 are no part of a line; {sources.shown(first[72:].strip()[:20])!r} is passed over"
    taken = {line for line, _, _ in program.axes.values()}
    for it in source.directives:
        if it.line not in taken:
            yield f"line {it.line}: {why_no_directive(it, program)}; it is a comment"
    for number, line in enumerate(source.lines[: source.end or None], 1):
        if re.match(r"(?i)[C*!].{0,2}(\$ *DIST\b|DIST *[A-Z]\w*\()", line) and not re.match(r"C\$DIST", line[:6], re.I):
            yield f"line {number}: a directive has C$DIST in columns 1 to 6; this line is a comment"
    yield from empty_loops(program)
    yield from never_stored(program)


def why_no_directive(directive, program):
    found = re.match(rf"({sources.NAME})\((.*)\)$", directive.text)
    if not found:
        return "a directive is C$DIST A(BLOCK) or C$DIST A(*,CYCLIC)"
    name, items = found[1], found[2].split(",")
    if name not in program.arrays:
        return f"{name} is no array of the program"
    count = len(program.arrays[name])
    if len(items) != count:
        return f"{name} has {count} dimension{'s' * (count > 1)}, and {len(items)} in this directive"
    if any(it not in ("*", "BLOCK", "CYCLIC") for it in items):
        return "each dimension is *, BLOCK or CYCLIC here"
    if sum(it != "*" for it in items) != 1:
        return "one dimension is BLOCK or CYCLIC, each other one *"
    return f"a later directive for {name} counts"


def empty_loops(program):
    """Loops that never have a trip, also where their bounds go with those of loops outside."""
    reader = counts.Counts(program)
    for loop in program.loops:
        try:
            low, high, step = reader.bounds(loop)
        except counts.TooMany:
            continue
        length = high.plus(low, -1)
        if not length.loops and (reader.value(length, {}) + step) // step <= 0:
            ends = loop.bounds[:2] if low.loops else [reader.value(it, {}) for it in (low, high)]
            yield f"line {loop.line}: this loop has no trips: it goes from {ends[0]} to {ends[1]}" + (f" by {step}" if step != 1 else "")


def never_stored(program):
    """Variables and arrays that are read, and stored nowhere."""
    stored = {it.target for it in program.actions}
    told = set(stored) | set(program.constants) | {it.variable for it in program.loops} | {*sources.FUNCTIONS}
    for action in program.actions:
        for name in re.findall(rf"(?<![A-Z0-9]){sources.NAME}", " ".join([action.value, *action.subscripts, re.sub(r"\.[A-Z]+\.", " ", action.guard)])):
            if name not in told:
                told.add(name)
                yield f"line {action.line}: {name} is read here and stored nowhere: it is 0"


# ---- the plan


def plan_warnings(program, plan, ask):
    """Warnings on a plan; `ask` gives the plan of a changed source, or None."""
    ends = time.monotonic() + MOST_SECONDS
    yield from idle_directives(program, plan, ask, ends)
    idle = idle_processors(program, plan)
    if idle:
        yield idle
    yield from serial_warnings(program, plan, ask, ends)


def idle_directives(program, plan, ask, ends):
    """Directives without which the same plan is made, of arrays that no phase is seen to take its owners from."""
    used = {next((it.target for it in phase.actions if phase.text in program.anchor_of(it, plan.workers)), None) for phase in plan.phases}
    lines = [line for name, (line, _, _) in program.axes.items() if name not in used]
    source = [*program.source.lines[: program.source.end], ""]
    made = ask("\n".join(source), ends - time.monotonic()) if lines else None
    for line in sorted(lines) if made else []:
        other = ask("\n".join([*source[: line - 1], "C", *source[line:]]), ends - time.monotonic())
        if other and other.told == made.told:
            yield f"line {line}: this C$DIST changes nothing: the same plan is made without it"


def idle_processors(program, plan):
    """The processors that own nothing in any phase, in words."""
    reader, owners = counts.Counts(program), set()
    try:
        for phase in plan.phases:
            owners |= reader.owners([*phase.above, *([phase.loop] if phase.loop else [])], phase.anchor, plan.workers)
    except counts.TooMany:
        return None
    idle = sorted(set(range(plan.workers)) - owners)
    if not idle or not plan.phases:
        return None
    told = f"processors {idle[0]} to {idle[-1]} of {plan.workers} own" if len(idle) > 2 and idle[-1] - idle[0] == len(idle) - 1 else (
        f"processor{'s' * (len(idle) > 1)} {in_words([str(it) for it in idle])} of {plan.workers} own{'s' * (len(idle) == 1)}")
    return f"{told} nothing in any phase: fewer workers do the same"


def serial_warnings(program, plan, ask, ends):
    """Scalars that keep loops from being dealt out, where nothing else does; else what does."""
    asked = 0
    for loop in program.loops:
        mark = plan.mark(loop)
        tries = plan.loop_reasons.get(loop.number, [])
        last = (tries[-1][3] or "PRINT") if tries else None
        name = serial_scalar(program, loop, last)
        if not name or not (mark == "SINGLE" or (mark == "OUTER" and last == name)):
            continue
        kept = "on one processor" if mark == "SINGLE" else "from being dealt out"
        asked += 1
        found = None if asked > MOST_ASKED else what_keeps(program, loop, name, ask, ends)
        if found is None:
            yield f"line {loop.line}: {name} keeps this loop {kept}"
            continue
        names, stays = found
        if stays:
            yield f"line {loop.line}: {stays} keeps this loop {kept}, whatever {in_words(names)} does"
        elif len(names) > 1:
            yield f"line {loop.line}: {in_words(names)} keep this loop {kept}: in each a trip needs what another one stored"
        else:
            yield f"line {loop.line}: {name} keeps this loop {kept}: {why_kept(program, loop, name)}"


def what_keeps(program, loop, name, ask, ends):
    """The scalars without which a loop is dealt out, or, with these, what stays in its way.

    The program is asked for a plan of the source in which each trip begins with a store of them.
    """
    names = []
    while name and len(names) < 4 and time.monotonic() < ends:
        names.append(name)
        text, added = with_stores(program, loop, names)
        plan = ask(text, ends - time.monotonic())
        if plan is None or len(plan.marks) != len(program.loops):
            return None
        if plan.mark(loop) in ("DOALL", "SUM"):
            return names, None
        tries = plan.loop_reasons.get(loop.number)
        if not tries:
            return (names, None) if plan.mark(loop) == "INNER" else None
        _, first, second, other, _ = tries[-1]
        if first is None:
            return names, "a PRINT"
        lines = sorted({int(it) - added * (int(it) > program.source.statement_at(loop.line).lines[-1]) for it in (first, second)})
        if other in program.arrays or other in names:
            return names, f"{other} in {listed(lines)}"
        name = other
    return None


def with_stores(program, loop, names):
    """The source with a store of each scalar at the head of a loop, and how many lines that adds."""
    lines, at = list(program.source.lines), program.source.statement_at(loop.line).lines[-1]
    added = [f"      {it} = 0" for it in names]
    return "\n".join([*lines[:at], *added, *lines[at : program.source.end], ""]), len(added)


def asker(program, words):
    """What gives the plan of another source, made by a program on these words."""

    def ask(text, seconds):
        import subprocess

        try:
            done = subprocess.run([program, "plan", *words], input=text.encode("latin-1"), capture_output=True, timeout=max(0.05, seconds))
            return plans.read_plan(done.stdout.decode("latin-1")) if done.returncode == 0 else None
        except (OSError, subprocess.TimeoutExpired, plans.Fault):
            return None

    return ask


def serial_scalar(program, loop, last):
    """The first scalar that a loop stores, and that is neither private in it nor a sum; a loop inside
    that stores it first may make no trip where it is what the last try fails by."""
    for action in program.actions:
        name = action.target
        if loop not in action.loops or not name or action.subscripts or name in program.arrays:
            continue
        uses = uses_of(program, loop, name)
        is_private = is_plain_store(name, uses[0]) and (uses[0].loops[-1] is loop or name != last)
        if not is_private and not all(is_sum(name, it) for it in uses):
            return name
    return None


def uses_of(program, loop, name):
    """The statements in a loop that store or load a scalar."""
    return [it for it in program.actions if loop in it.loops and (it.target == name or is_read(name, it))]


def why_kept(program, loop, name):
    """Why a scalar is neither private in a loop nor a sum."""
    uses = uses_of(program, loop, name)
    if is_plain_store(name, uses[0]):
        return f"a loop inside stores it first, and may make no trip; with {name} = 0 in front of that loop each trip has its own"
    if uses[0].target == name and not is_read(name, uses[0]):
        return "where the IF does not hold a trip needs what another one stored"
    if all(it.target == name and re.match(r"(MAX|MIN)\(", it.value) for it in uses):
        which = uses[0].value[:3]
        return f"a {which} over trips is not dealt out; what it is taken of can be, stored in an array by a loop in front of this one"
    if all(it.target == name and is_read(name, it) and not it.guard for it in uses):
        return f"a trip needs what another one stored, and only sums, {name} = {name} + .., are dealt out all the same"
    return "a trip needs what another one stored"


def is_plain_store(name, action):
    return action.target == name and not is_read(name, action) and not action.guard


def is_read(name, action):
    return is_named(name, " ".join([action.value, *action.subscripts]))


def is_named(name, text):
    return re.search(rf"(?<![A-Z0-9]){name}(?![A-Z0-9(])", text) is not None


def is_sum(name, action):
    """Whether a statement adds to a scalar once, K = K + .., K = K - .. or K = .. + K, and names it nowhere else."""
    parts, depth = [""], 0
    for c in action.value:
        depth += (c == "(") - (c == ")")
        if depth == 0 and c in "+-":
            parts.append("")
        parts[-1] += c
    others = [it for it in parts if it.lstrip("+") != name]
    return action.target == name and len(others) == len(parts) - 1 and not any(is_named(name, it) for it in [*others, *action.subscripts])


# ---- the summary


def summary(program, plan):
    """What a plan comes to: its phases and waits, and how often each is executed where loops stand round them."""
    times = [counts.number_of(program, it.above) for it in plan.phases]
    if None in times:
        times = [1] * len(plan.phases)
    total, many = sum(times), len(plan.phases)
    parts = []
    for kind, word in (("BARRIER", "barrier"), ("JOIN", "join")):
        lines = [it.line for it in plan.phases if it.kind == kind]
        count = sum(n for n, it in zip(times, plan.phases) if it.kind == kind)
        if lines or kind == "BARRIER":
            where = f" ({listed(lines)})" if lines else ""
            parts.append(f"{count or 'no'} {word}{'s' * (count != 1)}{where}")
    word = "wait"
    for whom in ("one processor", "neighbours", "nobody"):
        count = sum(n for n, it in zip(times, plan.phases) if WAITS.get(it.kind) == whom)
        if count:
            parts.append(f"{count} {word + 's' * (count != 1) + ' ' if word else ''}for {whom}")
            word = ""
    said = f"{many} phase{'s' * (many != 1)}{f', executed {total} times' if total != many else ''}: {', '.join(parts)}"
    alone = [it for it in program.loops if plan.mark(it) == "SINGLE"]
    if alone:
        told = [f"line {it.line}{why_alone(program, plan, it)}" for it in alone]
        more = f" and {len(told) - 6} more" if len(told) > 6 else ""
        said += f"; loops on one processor: {', '.join(told[:6])}{more}"
    return said


def why_alone(program, plan, loop):
    tries = plan.loop_reasons.get(loop.number)
    reason = serial_scalar(program, loop, tries and tries[-1][3]) or (tries and (tries[-1][3] or "PRINT"))
    if not reason:
        return ""
    return " (a PRINT)" if reason == "PRINT" else f" ({reason})"
