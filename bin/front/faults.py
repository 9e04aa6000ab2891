"""Each fault of a refused source: behind the first one, what the program refuses once that is mended.

A mend here is a guess that lets the program go on: a line moved to column 7, a name made shorter, a
statement passed over. The program itself is asked what is wrong then, so that each line that is told
is refused by it; what may follow from a guess alone is left out.
"""

import re
import subprocess
import time

import hints
import source as sources

MOST_FAULTS, MOST_RUNS, MOST_SECONDS = 10, 60, 1.5
DECLARES = (
    r"INTEGER|DIMENSION|PARAMETER|REAL|DOUBLEPRECISION|COMPLEX|LOGICAL|CHARACTER|IMPLICIT|DATA|COMMON|SAVE|EQUIVALENCE"
    r"|EXTERNAL|INTRINSIC|FORMAT|INCLUDE|USE|ALLOCATABLE|POINTER|TARGET|PROGRAM|SUBROUTINE|FUNCTION"
)

EXECUTES = rf"{sources.NAME}(\(.*\))?=|IF\(|PRINT|DO|CONTINUE|STOP|GOTO|CALL|WRITE|READ|END"


class Fault:
    """A fault, the line and column that are shown, and the lines that have the same."""

    def __init__(self, code, number, hint, place):
        self.code, self.number, self.hint, self.place = code, number, hint, place
        self.lines = [number]

    def key(self):
        return (self.hint.name, self.hint.say) if self.hint else (self.code, self.number)


class Mending:
    """A source as it would be with what was told mended, line for line."""

    def __init__(self, data, settings):
        self.lines = data.decode("latin-1").split("\n")
        self.settings = settings
        self.moved = {}  # how far what stands in a line was moved to the right, or None where it is another text
        self.guessed = set()  # names of statements that are passed over
        self.labels = set()  # those that are given to loops without one
        self.no_ranges = False  # a loop's bounds are guessed
        self.read()

    def read(self):
        self.source = sources.Source(self.data())
        self.program = sources.Program(self.source, self.settings)

    def data(self):
        return "\n".join(self.lines).encode("latin-1")

    # ---- changes

    def put(self, number, text, moved=None):
        self.lines[number - 1] = text
        self.moved[number] = moved if self.moved.get(number, 0) is not None else None

    def move(self, number, at):
        """Moves what stands in a line from a column on to column 7, a label in front of it to its place."""
        text = self.lines[number - 1][at - 1 :]
        found = re.match(r"(\d{1,5}) +(\D.*)", text)
        if found:
            self.put(number, f"{found[1]:>5} {found[2]}", 6 - (at - 1 + found.start(2)))
        else:
            self.put(number, "      " + text, 7 - at)

    def write(self, statement, text):
        """Another text for a statement, in as many lines as it has."""
        parts = [text[at : at + 66] for at in range(0, len(text), 66)] or [""]
        if len(parts) > len(statement.lines):
            return self.pass_over(statement)
        label = f"{statement.label:>5} " if statement.label else "      "
        for place, number in enumerate(statement.lines):
            part = parts[place] if place < len(parts) else None
            self.put(number, "C" if part is None else (label if place == 0 else "     &") + part)

    def pass_over(self, statement):
        """Makes a statement one that does nothing, and keeps the names that it may have given a meaning."""
        code, line = statement.code, statement.line
        do = re.match(rf"DO(\d+),?({sources.NAME})=", code)
        written = " ".join(self.lines[number - 1][6:72].upper() for number in statement.lines)
        is_first = not any(it.line < line for it in [*self.program.actions, *self.program.loops])
        for number in statement.lines:
            self.put(number, "C")
        if do and do[2] not in self.variables_at(line):
            self.no_ranges = True
            self.lines[line - 1] = f"      DO{do[1]}{do[2]}=1,1"
        elif re.match(DECLARES, code) or (is_first and not re.match(EXECUTES, code)):
            self.guessed |= set(re.findall(r"[A-Z][A-Z0-9]*", written))
        else:
            target = re.match(sources.NAME, code)
            self.guessed |= {target[0]} if target and len(target[0]) > 6 else set()
            self.lines[line - 1] = f"{statement.label or '':>5} CONTINUE"

    def leave_out(self, statement):
        """Makes a DO that can't be one a comment."""
        do = re.match(rf"DO\d+,?({sources.NAME})=", statement.code)
        self.guessed |= {do[1]} if do else set()
        for number in statement.lines:
            self.put(number, "C")

    def new_label(self, line):
        self.labels.add(80000 + line % 9999)
        return 80000 + line % 9999

    def rename(self, name, shorter):
        """Gives a name another one in the whole source."""
        taken = set(re.findall(r"[A-Z][A-Z0-9]*", self.data().decode("latin-1").upper()))
        new = next(it for it in [shorter, *(f"{shorter[:4]}{k}" for k in range(10, 99))] if it not in taken)
        for number, line in enumerate(self.lines, 1):
            changed = re.sub(rf"(?i)(?<![A-Z0-9_]){re.escape(name)}(?![A-Z0-9_])", new, line)
            if changed != line:
                self.put(number, changed, 0 if len(new) == len(name) else None)

    def variables_at(self, line):
        return {it.variable for it in self.loops_at(line)}

    def loops_at(self, line):
        return [it for it in self.program.loops if it.line < line and (not it.end or line <= it.end)]

    # ---- what is done for a fault

    def mend(self, fault):
        """Mends what was told, in other lines that have the same too; False where it can't go on."""
        code, number, hint = fault.code, fault.number, fault.hint
        name = hint.name if hint else ""
        if code[0] == "X" or name in ("open_loop", "column_six", "ends_here"):
            return False
        if code == "L4":
            return self.mend_end(hint)
        if code == "L5":
            # no more than the names of functions stays, as comments
            behind = [it for it in self.lines[self.source.end :] if re.search(r"(?i)FUNCTION", it)]
            self.lines[self.source.end :] = [*("C" + it for it in behind), ""]
        elif code[0] == "L":
            self.mend_line(fault, name)
        else:
            statement = self.source.statement_at(number)
            if statement is None:
                return False
            self.mend_statement(statement, name, hint)
        self.read()
        return True

    def mend_end(self, hint):
        if hint and hint.name == "end-name":
            self.put(hint.line, "      END")
        else:
            self.lines += ["      END"]
        self.read()
        return self.source.end > 0

    def mend_line(self, fault, name):
        same = dict((it[0], it[2]) for it in hints.LINES).get(name) if name in ("free-form", "comment-line", "tab", "byte") else None
        end = self.source.end or len(self.lines)
        for number in [fault.number, *range(fault.number + 1, end + 1)] if same else [fault.number]:
            line = self.lines[number - 1]
            found = re.match(same, line[:72]) if same else None
            is_comment = re.match(r"[Cc*]", line) and not (name == "free-form" and is_free(line))
            if same and (not found or is_comment or re.match(r" *\d+ ", line)):
                continue
            if number != fault.number:
                fault.lines.append(number)
            self.mend_one_line(number, line, name)

    def mend_one_line(self, number, line, name):
        if name == "tab":
            found = re.match(r"( *\d* *)\t *(.*)", line)
            self.put(number, f"{found[1].strip():>5} {found[2]}".replace("\t", " ") if found else line.replace("\t", " "))
        elif name == "byte":
            self.put(number, re.sub(r"[^ -~]", " ", line), 0)
        elif name == "comment-line":
            self.put(number, "C" + line, 1)
        elif name == "directive":
            self.put(number, "C$DIST" + re.sub(r"^\s*!?\$ *(?i:DIST)", "", line))
        elif name == "label-place":
            found = re.match(r" *(\d+) *(.*)", line)
            self.put(number, f"{found[1]:>5} {found[2]}", 6 - found.start(2))
        elif name in ("free-form", "goes-on"):
            self.move(number, len(line) - len(line.lstrip()) + 1)
        elif name == "twentieth" or line[5:6] not in ("", " ", "0"):
            begun = self.source.statement_at(number)
            self.pass_over(begun) if begun else self.put(number, "C")
        else:
            self.put(number, "     " + line[5:], 0)

    def mend_statement(self, statement, name, hint):
        code, line = statement.code, statement.line
        listed = re.sub(r"=[^,()]*", "", code.rpartition("::")[2]) if "::" in code else ""
        if name in ("type", "kind", "colons"):
            self.mend_type(statement, listed)
        elif name == "parameter":
            self.write(statement, f"PARAMETER ({code[len('PARAMETER'):]})")
        elif name == "first-value":
            self.write(statement, "INTEGER " + ", ".join(it.partition("=")[0] for it in sources.split_outside(code[len("INTEGER"):])))
        elif name == "end-do" and self.loops_at(line):
            self.put(line, f"{self.loops_at(line)[-1].label:>5} CONTINUE")
        elif name == "missing_label":
            self.write(statement, f"DO {self.new_label(line)} {statement.text[2:]}")
        elif name in ("do-while", "concurrent"):
            self.write(statement, f"DO{self.new_label(line)}IQ{line % 9999}=1,1")
        elif name == "long-label" or (name == "limit" and code.startswith("DO")):
            self.leave_out(statement)
        elif name == "label_columns":
            found = re.match(r" *(\d+)(.*)", self.lines[line - 1])
            self.put(line, f"{found[1][:5]:>5} {found[2].strip()}")
        elif name == "comment" and len(statement.lines) == 1:
            self.put(line, self.lines[line - 1].partition("!")[0], 0)
        elif name == "semicolon" and len(statement.lines) == 1:
            self.guessed |= {it for it, _ in hints.names_in(code.partition(";")[2])}
            self.guessed |= set(re.findall(rf"DO\d*({sources.NAME})=", code))
            self.put(line, self.lines[line - 1].partition(";")[0], 0)
        elif name == "quotes":
            for number in statement.lines:
                self.put(number, self.lines[number - 1].replace('"', "'"), 0)
        elif name == "end-name":
            self.put(line, "      END")
        elif name == "gone_on":
            self.move(hint.line, 6)
        elif name == "twice_labelled":
            self.put(line, "     " + self.lines[line - 1][5:], 0)
        elif name in ("long_name", "underscore", "no_integer"):
            self.mend_name(statement, name, hint)
        else:
            self.pass_over(statement)

    def mend_type(self, statement, listed):
        """A declaration of another form, as one of INTEGER."""
        code = statement.code
        found = re.match(r"INTEGER(\*\d+|\([^()]*\))?|REAL(\*\d+|\(\d+\))?|DOUBLEPRECISION|LOGICAL", code)
        rest = code[found.end() :] if found else ""
        if re.match(r",PARAMETER::", rest):
            self.write(statement, f"PARAMETER ({rest.partition('::')[2]})")
        elif re.match(r",DIMENSION(\(.*\))::", rest):
            bounds = re.match(r",DIMENSION(\(.*\))::", rest)[1]
            self.write(statement, "INTEGER " + ", ".join(it + bounds for it in listed.split(",")))
        elif found and (listed or rest[:1].isalpha()):
            self.write(statement, "INTEGER " + (listed or rest))
        else:
            self.pass_over(statement)

    def mend_name(self, statement, name, hint):
        at = next((k for k, it in enumerate(statement.spots) if it == (hint.line, hint.column)), None)
        at = None if at is None else max(at, hints.body_of(statement.code))
        found = re.match(r"[A-Z][A-Z0-9_]*", statement.code[at:]) if at is not None else None
        if not found:
            return self.pass_over(statement)
        plain = found[0].replace("_", "")
        self.rename(found[0], "I" + plain[:5] if name == "no_integer" else plain[:6])

    def is_guess(self, fault):
        """Whether a fault may come of what was passed over alone: one of form doesn't."""
        if fault.code in ("F1", "F2", "F11"):
            return False
        if fault.code == "F9" and fault.hint:
            return self.is_guessed_label(fault.hint)
        if fault.code == "S1":
            return self.no_ranges or bool(self.guessed)
        hint = fault.hint
        statement = self.source.statement_at(fault.number)
        if not self.guessed or statement is None:
            return False
        at = next((k for k, it in enumerate(statement.spots) if hint and it == (hint.line, hint.column)), None)
        found = re.match(r"[A-Z][A-Z0-9]*", statement.code[at:]) if at is not None else None
        names = {found[0]} if found else {name for name, _ in hints.names_in(statement.code)}
        return bool(names & self.guessed)

    def is_guessed_label(self, hint):
        """Whether what is told of a label is of one that stands in no line of the source."""
        loop, line = re.search(r"DO (\d+)", hint.say), re.search(r"stands in line (\d+) already", hint.say)
        return bool(loop and int(loop[1]) in self.labels) or bool(line and self.moved.get(int(line[1]), 0) is None)

    def place(self, hint):
        """The line and the column of a hint in the source as it is."""
        moved = self.moved.get(hint.line, 0)
        if moved is None or hint.column is None or hint.column - moved < 1:
            return hint.line, None
        return hint.line, hint.column - moved


def is_free(line):
    """Whether a line that begins with C is rather a statement of free form."""
    return re.match(r"(?i)(CALL |CONTINUE *$|CLOSE|CYCLE|CHARACTER|COMMON|COMPLEX|C\w*(\(.*\))? *= )", line) is not None


def faults_of(refusal, data, settings, words, program, has_plan=False):
    """The faults of a source, the first one first, and whether there may be more.

    The program is asked by these words, `verify` or `systems` with the settings, which run nothing.
    What stands behind END is a plan to it, so that is looked at here, where no plan is meant to stand there.
    """
    mending, found, ends = Mending(data, settings), [], time.monotonic() + MOST_SECONDS
    for _ in range(MOST_RUNS):
        fault = fault_told(mending, refusal)
        same = next((it for it in found if it.key() == fault.key()), None)
        if same:
            same.lines.append(fault.number)
        elif found and len(found) == MOST_FAULTS:
            return found, True
        elif not found or not mending.is_guess(fault):
            found.append(fault)
        above = mending.data()
        if not fault.number or not mending.mend(fault) or mending.data() == above:
            return found, False
        if same:
            same.lines += fault.lines[1:]
        try:
            done = subprocess.run(
                [program, *words], input=mending.data(), capture_output=True, timeout=max(0.05, ends - time.monotonic())
            )
        except (OSError, subprocess.TimeoutExpired):
            return found, True
        refusal = done.stdout.decode("latin-1").split("\n")[0]
        behind = None if has_plan or re.match(r"REFUSED L[1-4]", refusal) else first_behind(mending.source)
        if behind:
            refusal, done.returncode = f"REFUSED L5 LINE {behind}", 1
        if done.returncode != 1 or not refusal.startswith("REFUSED "):
            return found, False
    return found, True


def first_behind(source):
    """The first line behind END that is no comment."""
    for number, line in enumerate(source.behind_end(), source.end + 1):
        if line[:1] not in tuple("Cc*") and line[:72].strip():
            return number
    return None


def fault_told(mending, refusal):
    """The fault of a refusal of the source as it is mended so far."""
    parts = refusal.split()
    code = parts[1] if len(parts) > 1 else ""
    number = int(parts[3]) if len(parts) > 3 and parts[2] == "LINE" else 0
    hint = hints.hint_for(mending.program, code, number, refusal) if number else None
    return Fault(code, number, hint, mending.place(hint) if hint else (number, None))
