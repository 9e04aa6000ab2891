"""Reads a source as docs/LANGUAGE.md has it, for what the scripts tell a person.

It is no judge: the program alone says whether a source is refused. A line with a fault is passed
over, so that as much as possible can be told of the others.
"""

import re

MOST = 2**63
NAME = r"[A-Z][A-Z0-9]*"
FUNCTIONS = ("MIN", "MAX")


class Statement:
    """A statement: its text without blanks and in capitals, and the line and column of each byte.

    In `code` the characters of constants are `~`, so that patterns do not see them.
    """

    def __init__(self, line, label):
        self.line, self.label = line, label
        self.text, self.code, self.spots, self.lines = "", "", [], []


class Directive:
    def __init__(self, line, text):
        self.line, self.text = line, text


class Loop:
    def __init__(self, number, line, label, variable, bounds, above):
        self.number, self.line, self.label = number, line, label
        self.variable, self.bounds, self.above, self.end = variable, bounds, above, 0


class Action:
    """An assignment or a PRINT, and the loops round it."""

    def __init__(self, line, loops, value, target="", subscripts=(), guard=""):
        self.line, self.loops, self.value = line, loops, value
        self.target, self.subscripts, self.guard = target, subscripts, guard


def shown(text):
    """Bytes as a terminal may show them."""
    marks = {9: "^I", 127: "^?"}
    it = [marks.get(ord(c), c if 32 <= ord(c) < 127 else "^" + chr(ord(c) + 64) if ord(c) < 32 else "?") for c in text]
    return "".join(it)


def split_outside(text, mark=","):
    """The parts of a text between marks that stand in no parentheses."""
    parts, depth, begun = [], 0, 0
    for at, c in enumerate(text):
        depth += (c == "(") - (c == ")")
        if c == mark and depth == 0:
            parts.append(text[begun:at])
            begun = at + 1
    return [*parts, text[begun:]]


def closing(text, at):
    """The place of the parenthesis that closes the one here, or -1."""
    depth = 0
    for place in range(at, len(text)):
        depth += (text[place] == "(") - (text[place] == ")")
        if depth == 0:
            return place
    return -1


class Source:
    """The lines of a source up to END, its statements and its directives."""

    def __init__(self, data):
        text = data.decode("latin-1")
        self.lines = [it[:-1] if it.endswith("\r") and n else it for it, n in _lines(text)]
        self.ends_open = bool(text) and not text.endswith("\n")
        self.statements, self.directives, self.end = [], [], 0
        quoted = False
        for number, line in enumerate(self.lines, 1):
            columns = line[:72].ljust(72)
            if re.match(r"C\$DIST", columns, re.I):
                self.directives.append(Directive(number, columns[6:].replace(" ", "").upper()))
            if columns[0] in "Cc*" or not columns.strip():
                continue
            if columns[5] in " 0":
                label = columns[:5].replace(" ", "")
                label = int(label) if label.isdigit() else 0
                self.statements.append(Statement(number, label))
                quoted = False
            elif not self.statements:
                continue
            statement = self.statements[-1]
            statement.lines.append(number)
            quoted = _add(statement, number, columns, quoted)
            if columns[5] in " 0" and statement.text == "END":
                self.end = number
                break

    def statement_at(self, line):
        """The statement that begins in this line, or goes on in it."""
        return next((it for it in self.statements if line in it.lines), None)

    def behind_end(self):
        return self.lines[self.end :] if self.end else []


def _lines(text):
    """Each line, and whether it ends with a line feed."""
    parts = text.split("\n")
    return [(it, True) for it in parts[:-1]] + ([(parts[-1], False)] if parts[-1] else [])


def _add(statement, number, columns, quoted):
    """Adds what a line has of a statement; whether a constant is open behind it."""
    for column in range(6, 72):
        c = columns[column]
        if c == " " and not quoted:
            continue
        hidden = quoted and c != "'"
        if c == "'":
            quoted = not quoted
        statement.text += c if hidden else c.upper()
        statement.code += "~" if hidden else c.upper()
        statement.spots.append((number, column + 1))
    return quoted


# ---- values and forms


def wrapped(value):
    return (value + MOST) % (2 * MOST) - MOST


def quotient(a, b):
    return wrapped(abs(a) // abs(b) * (1 if (a < 0) == (b < 0) else -1))


class Form:
    """A sum of a number, multiples of loops by number and multiples of constants by number."""

    def __init__(self, constant=0, loops=None, names=None):
        self.constant, self.loops, self.names = constant, loops or {}, names or {}

    def plus(self, other, times=1):
        def both(a, b):
            sums = {it: a.get(it, 0) + times * b.get(it, 0) for it in {*a, *b}}
            return {it: value for it, value in sorted(sums.items()) if value}

        return Form(
            self.constant + times * other.constant,
            both(self.loops, other.loops),
            both(self.names, other.names),
        )

    def __str__(self):
        pairs = [f" {value}*L{it}" for it, value in self.loops.items()]
        pairs += [f" {value}*P{it}" for it, value in self.names.items()]
        return str(self.constant) + "".join(pairs)


class NoForm(Exception):
    """What stands there is no affine form."""


class Reading:
    """Reads one expression as a form."""

    def __init__(self, text, program, loops):
        self.text, self.at, self.program = text, 0, program
        self.variables = {it.variable: it.number for it in loops}

    def whole(self):
        form = self.sum()
        if self.at != len(self.text):
            raise NoForm
        return form

    def peek(self):
        return self.text[self.at : self.at + 1]

    def take(self, pattern):
        found = re.compile(pattern).match(self.text, self.at)
        if found:
            self.at = found.end()
        return found and found[0]

    def value(self, form):
        if form.loops:
            raise NoForm
        values = self.program.values
        return form.constant + sum(times * values[it - 1] for it, times in form.names.items())

    def sum(self):
        sign = self.take(r"[+-]")
        form = self.term()
        if sign == "-":
            form = Form().plus(form, -1)
        while self.peek() in ("+", "-"):
            times = 1 if self.take(r"[+-]") == "+" else -1
            form = form.plus(self.term(), times)
        return form

    def term(self):
        form = self.factor()
        while self.peek() in ("*", "/"):
            if self.take(r"[*/]") == "/":
                divisor = self.value(self.factor())
                if divisor == 0:
                    raise NoForm
                form = Form(quotient(self.value(form), divisor))
                continue
            other = self.factor()
            if not form.loops:
                form = Form().plus(other, self.value(form))
            else:
                form = Form().plus(form, self.value(other))
        return form

    def factor(self):
        number = self.take(r"\d+")
        if number:
            return Form(int(number))
        if self.take(r"\("):
            form = self.sum()
            if not self.take(r"\)"):
                raise NoForm
            return form
        name = self.take(NAME)
        if name in FUNCTIONS and self.take(r"\("):
            values = [self.value(self.sum())]
            while self.take(","):
                values.append(self.value(self.sum()))
            if not self.take(r"\)"):
                raise NoForm
            return Form(min(values) if name == "MIN" else max(values))
        if name in self.variables:
            return Form(0, {self.variables[name]: 1})
        if name in self.program.constants:
            return Form(0, {}, {self.program.constants.index(name) + 1: 1})
        raise NoForm


# ---- the program of a source


class Program:
    """What the statements of a source say, as far as it can be told."""

    def __init__(self, source, settings=None):
        self.source, self.settings = source, settings or {}
        self.constants, self.values, self.constant_lines = [], [], {}
        self.integers, self.arrays, self.declared = set(), {}, {}
        self.loops, self.actions, self.stops = [], [], []
        self.open = []
        for statement in source.statements:
            self.take(statement)
        self.axes = self.taken_directives()

    def number_of(self, text):
        """The value of a constant expression, or None."""
        try:
            reading = Reading(text, self, [])
            return wrapped(reading.value(reading.whole()))
        except (NoForm, IndexError, RecursionError):
            return None

    def form_of(self, text, loops):
        try:
            return Reading(text, self, loops).whole()
        except (NoForm, IndexError, RecursionError):
            return None

    def take(self, statement):
        code = statement.code
        do = re.match(rf"DO(\d+),?({NAME})=(.*,.*)$", code)
        if do and len(split_outside(do[3])) > 1:
            number = len(self.loops) + 1
            loop = Loop(number, statement.line, int(do[1]), do[2], split_outside(do[3]), self.open[:])
            self.loops.append(loop)
            self.open.append(loop)
            return
        self.act(statement) or self.declare(code, statement.line)
        while statement.label and self.open and self.open[-1].label == statement.label:
            self.open.pop().end = statement.lines[-1]

    def act(self, statement):
        """Takes an assignment, an IF with one, or a PRINT."""
        code, guard = statement.code, ""
        if code.startswith("PRINT*"):
            self.actions.append(Action(statement.line, self.open[:], code[7:]))
            return True
        if code.startswith("IF("):
            end = closing(code, 2)
            guard, code = (code[3:end], code[end + 1 :]) if end > 0 else ("", code)
        found = re.match(rf"({NAME})(\(|=)", code)
        if not found:
            return False
        end = closing(code, found.end() - 1) if found[2] == "(" else found.end() - 2
        if end < 0 or code[end + 1 : end + 2] != "=" or len(split_outside(code[end + 2 :])) > 1:
            return False
        subscripts = split_outside(code[found.end() : end]) if found[2] == "(" else []
        action = Action(statement.line, self.open[:], code[end + 2 :], found[1], subscripts, guard)
        self.actions.append(action)
        return True

    def declare(self, code, line):
        parameter = re.match(r"PARAMETER\((.*)\)$", code)
        if parameter:
            for it in split_outside(parameter[1]):
                name, _, text = it.partition("=")
                value = self.settings.get(name, self.number_of(text))
                self.constants.append(name)
                self.constant_lines.setdefault(name, line)
                self.values.append(0 if value is None else value)
            return
        listed = re.match(r"(INTEGER|DIMENSION)(.*)$", code)
        if not listed or not re.match(rf"{NAME}(\(|,|$)", listed[2]):
            return
        for it in split_outside(listed[2]):
            name, _, bounds = it.partition("(")
            if listed[1] == "INTEGER":
                self.integers.add(name)
            if bounds:
                self.arrays[name] = [self.bounds_of(b) for b in split_outside(bounds[:-1])]
                self.declared.setdefault(name, line)

    def bounds_of(self, text):
        lower, colon, upper = text.partition(":")
        return (self.number_of(lower), self.number_of(upper)) if colon else (1, self.number_of(text))

    def is_integer(self, name):
        return name in self.integers or "I" <= name[0] <= "N"

    def taken_directives(self):
        """Of each array that a directive deals out: its line, the dimension from 0, and how."""
        axes = {}
        for it in self.source.directives:
            found = re.match(rf"({NAME})\((.*)\)$", it.text)
            items = found[2].split(",") if found else []
            dealt = [k for k, item in enumerate(items) if item in ("BLOCK", "CYCLIC")]
            good = len(dealt) == 1 and all(i == "*" for k, i in enumerate(items) if k not in dealt)
            if good and len(items) == len(self.arrays.get(found[1], [])):
                axes[found[1]] = (it.line, dealt[0], items[dealt[0]])
        return axes

    # ---- phases

    def phases(self, marks):
        """For each phase of a plan with these marks: its loop or None, and its actions."""
        phases, by_loop = [], {}
        for action in self.actions:
            dealt = [it for it in action.loops if _mark(marks, it) != "OUTER"]
            loop = dealt[0] if dealt else None
            if loop is None or loop.number not in by_loop:
                place = loop.line if loop else action.line
                phases.append((place, loop, [action]))
                if loop:
                    by_loop[loop.number] = phases[-1]
            else:
                by_loop[loop.number][2].append(action)
        for loop in self.loops:
            alone = _mark(marks, loop) in ("DOALL", "SUM", "SINGLE") and loop.number not in by_loop
            if alone:
                phases.append((loop.line, loop, []))
        return sorted(phases, key=lambda it: it[0])

    def anchor_of(self, action, workers):
        """The anchors that the array stored by an action may give its phase, as a plan writes them."""
        bounds = self.arrays.get(action.target)
        if not bounds or len(bounds) != len(action.subscripts):
            return []
        _, axis, how = self.axes.get(action.target, (0, len(bounds) - 1, "BLOCK"))
        form = self.form_of(action.subscripts[axis], action.loops)
        lower, upper = bounds[axis]
        if form is None or lower is None or upper is None:
            return []
        form = form.plus(Form(lower), -1)
        block = -(-(upper - lower + 1) // workers)
        return [f"{form} CYCLIC"] + ([f"{form} BLOCK {block}"] if how == "BLOCK" else [])


def _mark(marks, loop):
    return marks[loop.number - 1] if loop.number <= len(marks) else ""
