"""How often loops and phases are executed, and which processors own something in a phase."""

MOST = 100000


class TooMany(Exception):
    """There is more to count than is counted here, or a bound is none that can be read."""


class Counts:
    """What a program's loops come to, for the values of its named constants."""

    def __init__(self, program):
        self.program, self.steps = program, 0
        self.forms = {}

    def bounds(self, loop):
        """The forms of a loop's first and last value, and its step."""
        if loop.number not in self.forms:
            texts = loop.bounds
            step = self.program.number_of(texts[2]) if len(texts) > 2 else 1
            self.forms[loop.number] = [self.program.form_of(it, loop.above) for it in texts[:2]] + [step]
        if None in self.forms[loop.number] or self.forms[loop.number][2] == 0:
            raise TooMany
        return self.forms[loop.number]

    def value(self, form, values):
        """A form's value where the loops have these values, by their numbers."""
        constants = sum(times * self.program.values[it - 1] for it, times in form.names.items())
        return form.constant + constants + sum(times * values[it] for it, times in form.loops.items())

    def trips(self, loop, values):
        """The values of a loop's variable, one for each of its trips."""
        low, high, step = self.bounds(loop)
        first, last = self.value(low, values), self.value(high, values)
        count = max(0, (last - first + step) // step)
        return range(first, first + count * step, step)

    def count(self, loops, values=None):
        """How often what stands in these loops, from the outermost, is executed."""
        values = values or {}
        if not loops:
            return 1
        loop, inside = loops[0], loops[1:]
        trips = self.trips(loop, values)
        used = any(loop.number in form.loops for it in inside for form in self.bounds(it)[:2])
        if not used and trips:
            return len(trips) * self.count(inside, {**values, loop.number: trips[0]})
        self.spend(len(trips))
        return sum(self.count(inside, {**values, loop.number: it}) for it in trips)

    def each(self, loops, values=None):
        """The values of these loops, each time that what stands in them is executed."""
        values = values or {}
        if not loops:
            yield values
            return
        for it in self.trips(loops[0], values):
            self.spend(1)
            yield from self.each(loops[1:], {**values, loops[0].number: it})

    def spend(self, steps):
        self.steps += steps
        if self.steps > MOST:
            raise TooMany

    # ---- owners

    def owners(self, loops, anchor, workers):
        """The processors that own something of what an anchor deals out in these loops, all where that is much to tell."""
        used = [it for it in loops if it.number in self.needed(loops, anchor)]
        if self.count(used) * len(used) > MOST // 10:
            return set(range(workers))
        return {anchor.owner_at(self, it, workers) for it in self.each(used)}

    def needed(self, loops, anchor):
        """The loops that an anchor's values depend on, with those that the bounds of these need."""
        needed = set(anchor.loops)
        for loop in reversed(loops):
            if loop.number in needed:
                needed |= {it for form in self.bounds(loop)[:2] for it in form.loops}
        return needed


def number_of(program, loops):
    """How often what stands in these loops is executed, or None where that is not told."""
    try:
        return Counts(program).count(loops)
    except TooMany:
        return None
