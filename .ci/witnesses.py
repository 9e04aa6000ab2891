"""Holds what `explain` tells of plans against a walk of the program.

witnesses.py PROGRAM TOOL WORKERS SOURCE..

For each source PROGRAM (that of crates/plan_tool) tells of the plan for so many workers as JSON, and
TOOL (that of crates/spmd_tool) writes that plan. The instances of the source are walked in sequential
order, and of each two iterations that are told to meet it is looked up that both are instances with
these values of the loops, that both access this element in these lines, one of them storing, that the
first comes before the second, and that the plan gives them these owners; of an array's element that is
stored and then loaded, that no store of it stands in between but of the load's own processor; where a
loop isn't dealt out, that the two stand in two of its trips. Of a loop that is told to make no trip it is
looked up that it makes none where those outside it have these values, and that it stands round the store.
And behind the plan there is a line for each reason, in the same order, that names the same obligation. The
status is 0 where all is so, else 1 with a line for each fault.
"""
import json
import os
import re
import subprocess
import sys

sys.dont_write_bytecode = True
sys.path.insert(0, os.path.join(os.path.dirname(os.path.realpath(__file__)), "..", "bin", "front"))

import source as sources  # noqa: E402

COMPARE = {".LT.": "<", ".LE.": "<=", ".EQ.": "==", ".GE.": ">=", ".GT.": ">"}
FORM = r"(-?\d+)((?: -?\d+\*[LP]\d+)*) (?:BLOCK (\d+)|CYCLIC)"


REASON = r"(?:LOOP (\d+) NOT (DOALL|PRIVATE|SUM)|PHASE (\d+) NOT (.*?))(?: PRINT| LINES (\d+) (\d+) NAME (\w+)(?: LEVEL (\d+) PIECE (\d+))? \w+)"


class Fault(Exception):
    """What isn't so."""


class Walk:
    """The instances of a program, in order: the statement, and the values of the loops round it; and how many
    trips each loop makes, by its number and the values of the loops round it."""

    def __init__(self, path):
        with open(path, "rb") as file:
            self.program = sources.Program(sources.Source(file.read()))
        self.instances, self.places, self.trips = [], {}, {}
        self.walk(self.children(None), {})

    def children(self, loop):
        """The loops and the statements right inside a loop, or outside all, in text order."""
        above = [loop] if loop else []
        program = self.program
        inner = [it for it in program.loops if it.above[-1:] == above]
        actions = [it for it in program.actions if it.loops[-1:] == above]
        return sorted(inner + actions, key=lambda it: it.line)

    def value(self, text, loops, values):
        form = self.program.form_of(text, loops)
        if form is None:
            raise Fault(f"{text} is no form")
        names = sum(times * self.program.values[it - 1] for it, times in form.names.items())
        return form.constant + names + sum(times * values[it] for it, times in form.loops.items())

    def walk(self, items, values):
        for it in items:
            if isinstance(it, sources.Loop):
                bounds = [self.value(text, it.above, values) for text in it.bounds]
                step = bounds[2] if len(bounds) > 2 else 1
                trips = range(bounds[0], bounds[1] + (1 if step > 0 else -1), step)
                self.trips[it.number, tuple(values.values())] = len(trips)
                for value in trips:
                    self.walk(self.children(it), {**values, it.number: value})
            elif self.is_done(it, values):
                self.places[it.line, tuple(values.values())] = len(self.instances)
                self.instances.append((it, values))

    def is_done(self, action, values):
        if not action.guard:
            return True
        found = re.fullmatch(r"(.*)(\.L[TE]\.|\.EQ\.|\.G[TE]\.)(.*)", action.guard)
        left, right = (self.value(found[k], action.loops, values) for k in (1, 3))
        return {"<": left < right, "<=": left <= right, "==": left == right, ">=": left >= right, ">": left > right}[COMPARE[found[2]]]

    def loads(self, action, values):
        """The elements that a statement's expressions name; None in place of the subscripts of an array printed whole."""
        text, found = action.value, []
        for name in re.finditer(sources.NAME, text):
            if name.start() and text[name.start() - 1].isalnum():
                continue
            if text[name.end() : name.end() + 1] == "(":
                inside = text[name.end() + 1 : sources.closing(text, name.end())]
                if name[0] in self.program.arrays:
                    found.append((name[0], self.subscripts(sources.split_outside(inside), action, values)))
            else:
                found.append((name[0], None if name[0] in self.program.arrays else ()))
        return found

    def subscripts(self, texts, action, values):
        return tuple(self.value(text, action.loops, values) for text in texts)

    def accesses(self, stores, name, subscripts, instance):
        """Whether an instance stores or loads an element."""
        action, values = instance
        if stores:
            return (name, subscripts) == (action.target, self.subscripts(action.subscripts, action, values))
        whole = all(low <= it <= high for it, (low, high) in zip(subscripts, self.program.arrays.get(name, [])))
        loads = self.loads(action, values)
        return (name, subscripts) in loads or (name, None) in loads and whole


class Owners:
    """Who owns an instance under a plan."""

    def __init__(self, text, program):
        lines = [it for it in text.split("\n") if it != "WHERE VALUES"]
        self.workers = int(lines[1].split()[1])
        marks = [re.match(r"\d+ (\w+)", it)[1] for it in lines[3 : 3 + int(lines[2].split()[1])]]
        at = 3 + len(marks)
        anchors = [it.split(" AT ")[1] for it in lines[at + 1 : at + 1 + int(lines[at].split()[1])]]
        self.of_action = {}
        for anchor, (_, _, actions) in zip(anchors, program.phases(marks)):
            self.of_action.update({id(it): anchor for it in actions})
        self.values = program.values

    def owner(self, instance):
        action, values = instance
        constant, terms, block = re.fullmatch(FORM, self.of_action[id(action)]).groups()
        at = int(constant)
        for times, which, number in re.findall(r"(-?\d+)\*([LP])(\d+)", terms):
            at += int(times) * (values[int(number)] if which == "L" else self.values[int(number) - 1])
        return at // int(block) if block else at % self.workers


def looked_up(walk, owners, touch):
    """The place of the instance that a touch names, once all that is told of it is so."""
    values = tuple(it["value"] for it in touch["loops"])
    place = walk.places.get((touch["line"], values))
    if place is None:
        raise Fault(f"line {touch['line']} has no instance with {values}")
    instance = walk.instances[place]
    if list(instance[1]) != [it["loop"] for it in touch["loops"]]:
        raise Fault(f"line {touch['line']} stands in other loops")
    if not walk.accesses(touch["stores"], touch["name"], tuple(touch["subscripts"]), instance):
        raise Fault(f"line {touch['line']} with {values} does not touch {touch['name']}{touch['subscripts']}")
    if "processor" in touch and owners.owner(instance) != touch["processor"]:
        raise Fault(f"line {touch['line']} with {values} belongs to {owners.owner(instance)}")
    return place


def hold(walk, owners, reason):
    """Holds a reason against the walk."""
    first, second = reason["first"], reason["second"]
    places = looked_up(walk, owners, first), looked_up(walk, owners, second)
    if places[0] >= places[1]:
        raise Fault("the first does not come before the second")
    if (first["name"], first["subscripts"]) != (second["name"], second["subscripts"]):
        raise Fault("the two touch two elements")
    if not first["stores"] and not second["stores"]:
        raise Fault("none of the two stores")
    if "loop" in reason:
        trips = [walk.instances[place][1] for place in places]
        above = [it.number for it in walk.program.loops[reason["loop"] - 1].above]
        if any(trips[0][it] != trips[1][it] for it in above) or trips[0][reason["loop"]] == trips[1][reason["loop"]]:
            raise Fault("the two do not stand in two trips of the loop")
    elif first["processor"] == second["processor"]:
        raise Fault("one processor runs both")
    elif first["stores"] and not second["stores"] and second["subscripts"]:
        last = looked_up(walk, owners, reason["last"]) if "last" in reason else places[0]
        if not places[0] <= last < places[1]:
            raise Fault("the last store does not stand between the two")
        hold_last(walk, owners, second, range(last + 1, places[1]))


def hold_last(walk, owners, load, between):
    """Holds that the last store of an element in front of a load, if there is one more, is of the load's processor."""
    if len(between) > 20000:
        return
    for place in reversed(between):
        instance = walk.instances[place]
        if instance[0].target == load["name"] and walk.accesses(True, load["name"], tuple(load["subscripts"]), instance):
            if owners.owner(instance) != load["processor"]:
                raise Fault(f"line {instance[0].line} stores the element once more")
            return


def hold_zero_trip(walk, reason):
    """Holds that a loop makes no trip where those outside it have these values."""
    line, store = reason["obligation"]["lines"]
    loop = next((it for it in walk.program.loops if it.line == line), None)
    if loop is None or [it.number for it in loop.above] != [it["loop"] for it in reason["outside"]]:
        raise Fault(f"line {line} has no loop that stands in these")
    values = tuple(it["value"] for it in reason["outside"])
    if walk.trips.get((loop.number, values)) != 0:
        raise Fault(f"the loop of line {line} makes {walk.trips.get((loop.number, values))} trips at {values}")
    inside = [it for it in walk.program.actions if it.line == store and loop in it.loops]
    if not any(it.target == reason["obligation"]["name"] for it in inside):
        raise Fault(f"line {store} stores no {reason['obligation']['name']} in that loop")


def hold_lines(text, reasons):
    """Holds the reasons against the lines behind a plan, one by one."""
    lines = [it for it in text.split("END PLAN\n")[1].split("\n") if it not in ("END REASONS", "")]
    if len(lines) != len(reasons):
        raise Fault(f"{len(lines)} lines of reasons stand behind the plan, and {len(reasons)} are told")
    for line, reason in zip(lines, reasons):
        loop, tried, phase, kind, first, second, name, level, piece = re.fullmatch(REASON, line).groups()
        about = (reason.get("loop"), reason.get("tried"), reason.get("phase"), reason.get("not"))
        wanted = tried.lower() if tried and tried != "DOALL" else None
        if about != (int(loop) if loop else None, wanted, int(phase) if phase else None, kind):
            raise Fault(f"the reason for {line} is told of {about}")
        told = reason.get("obligation")
        wanted = {"lines": [int(first), int(second)], "name": name, "level": int(level or 0), "piece": int(piece or 0)} if first else None
        if told != wanted and reason["why"] != "certified":
            raise Fault(f"the reason for {line} is told by {told}")


def run(words, path):
    with open(path, "rb") as file:
        return subprocess.run(words, stdin=file, capture_output=True, check=True, text=True).stdout


def main(program, tool, workers, *paths):
    held, without, status = 0, 0, 0
    for path in paths:
        walk = Walk(path)
        plan = run([tool, "plan", "--workers", workers], path)
        owners = Owners(plan, walk.program)
        told = json.loads(run([program, "explain", "--workers", workers, "--json"], path))
        try:
            hold_lines(plan, told["reasons"])
        except Fault as fault:
            print(f"{path}: {fault}")
            status = 1
        for reason in told["reasons"]:
            try:
                if reason["why"] == "meeting":
                    hold(walk, owners, reason)
                    held += 1
                elif reason["why"] == "zero_trip":
                    hold_zero_trip(walk, reason)
                    without += 1
            except Fault as fault:
                print(f"{path}: {fault}: {json.dumps(reason)}")
                status = 1
    print(f"{held} meetings of two iterations and {without} loops without a trip are as a walk has them")
    return status


if __name__ == "__main__":
    sys.exit(main(*sys.argv[1:]))
