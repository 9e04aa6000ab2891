"""tell.py WHAT STATUS SOURCE OUTPUT FIRST_LINE PROGRAM WORD..

Says what a person may want to know of a run of bin/seagrynt, which calls this and puts it on
standard error: with WHAT `fault` what a refusal means (statuses 1, 2 and 6; FIRST_LINE is what was
written), with WHAT `done` warnings on the source and, of the plan in the file OUTPUT, what it comes
to. SOURCE is the file with what was read, PROGRAM what read it; the WORDs are those of the command.
"""

import os
import re
import sys

import advice
import plans
import source as sources
from advice import listed

ROOT = os.path.dirname(os.path.dirname(os.path.dirname(os.path.abspath(__file__))))
COMMANDS = ("seq", "plan", "run", "verify", "bench", "explain", "systems", "emit")
CHOICES = {"--plan": ("made", "barrier", "given"), "--by": ("spmd", "join", "core"), "--barrier": ("arrive", "dissemination")}
OPTIONS = {
    "seq": (),
    "plan": ("--workers",),
    "run": ("--workers", "--plan", "--by", "--barrier"),
    "verify": ("--sweep",),
    "bench": ("--workers",),
    "explain": ("--workers", "--plan", "--json"),
    "systems": ("--workers", "--plan"),
    "emit": ("--workers", "--plan"),
}
SCRIPT_WORDS = ("--plan-only", "--output-only")
MOST_BYTES = 4194304  # of a source with a plan behind it
USAGE = (
    "seagrynt seq [NAME=VALUE..] < SOURCE",
    "seagrynt plan --workers P [--plan-only] [NAME=VALUE..] < SOURCE",
    "seagrynt run --workers P [--plan made|barrier|given] [--by spmd|join|core] [--barrier arrive|dissemination] [--plan-only|--output-only] [NAME=VALUE..] < SOURCE",
    "seagrynt verify [--sweep NAME=LOW:HIGH] [NAME=VALUE..] < SOURCE_AND_PLAN",
    "seagrynt bench --workers P N M",
    "seagrynt explain [--workers P [--plan made|barrier|given]] [--json] [NAME=VALUE..] < SOURCE",
    "seagrynt systems [--workers P [--plan made|barrier|given]] [NAME=VALUE..] < SOURCE",
    "seagrynt emit --workers P [--plan made|barrier|given] [NAME=VALUE..] < SOURCE",
    "seagrynt --help, seagrynt run --help, seagrynt --version",
)


def say(text):
    print(f"seagrynt: {text}".encode("ascii", "replace").decode())


def read(path):
    try:
        with open(path, "rb") as it:
            return it.read()
    except OSError:
        return b""


def meaning_of(document, key):
    """The meaning of a code, as a table of a document has it."""
    try:
        with open(f"{ROOT}/docs/{document}", encoding="utf-8") as it:
            found = re.search(rf"(?m)^\| `{re.escape(key)}(?: [^`]*)?` \| (.*) \|$", it.read())
    except OSError:
        found = None
    return found and found[1]


def show_line(lines, number, column, what="line"):
    """A line of the source, and a caret below a column of it."""
    if number > len(lines):
        say(f"{what} {number} is missing: the source ends above it")
        return
    say(f"{what} {number} is: {sources.shown(lines[number - 1][:200])}")
    if column and column <= 200:
        place = len(f"{what} {number} is: ") + len(sources.shown(lines[number - 1][: column - 1]))
        say(" " * place + "^")


# ---- refusals of a source


def tell_refusal(line, data, words, program):
    import faults

    settings = settings_of(words)
    if len(line.split()) < 4 or line.split()[2] != "LINE":
        say(f"{line}: {meaning_of('LANGUAGE.md', line.split()[1]) or 'the source is refused'}")
    elif not data:
        say(f"{line}: {hints_say(line, data, settings)}")
        say("nothing was read; the source comes on standard input: seagrynt seq < heat.f")
    else:
        command = "systems" if words[0] in ("explain", "systems", "emit") else "verify"
        asked = [command, *(it for it in parts_of(words)[1] if "=" in it)]
        options = parts_of(words)[0]
        has_plan = words[:1] == ("verify",) or ("--plan", "given") in options or is_behind(words)
        found, more = faults.faults_of(line, data, settings, asked, program, has_plan)
        lines = sources.Source(data).lines
        for place, it in enumerate(found):
            said = (it.hint and it.hint.say) or meaning_of("LANGUAGE.md", it.code) or "the source is refused"
            where = sorted(set(it.lines)) if len(it.lines) > 1 else [it.place[0]]
            say(f"{line}: {said}" if place == 0 else f"also {listed(where)}, {it.code}: {said}")
            show_line(lines, *it.place)
            others = sorted(set(it.lines[1:]) - {it.number})
            if place == 0 and others:
                say(f"the same in {listed(others)}")
            if place == 0 and it.place[0] != it.number and it.number <= len(lines):
                show_line(lines, it.number, None)
        if more:
            say("more may come when these are mended")
    say('docs/LANGUAGE.md explains it under "Refusals"')


def hints_say(line, data, settings):
    import hints

    program = sources.Program(sources.Source(data), settings)
    hint = hints.hint_for(program, line.split()[1], int(line.split()[3]), line)
    return (hint and hint.say) or meaning_of("LANGUAGE.md", line.split()[1])


# ---- words


def close_to(word, known):
    """The word among these that may be meant, in a list, or none."""
    import difflib

    return difflib.get_close_matches(word, known, 1, 0.55)


def parts_of(words):
    """The options of a list of words with their values, and the other words behind the command."""
    options, others, at = [], [], 1
    while at < len(words):
        word = words[at]
        name, equals, value = word.partition("=")
        if name in ("--workers", "--plan", "--by", "--barrier", "--sweep"):
            if not equals:
                at += 1
                value = words[at] if at < len(words) else None
            options.append((name, value))
        elif word.startswith("-"):
            options.append((word, ""))
        else:
            others.append(word)
        at += 1
    return options, others


def is_behind(words):
    """Whether the plan is the one behind the source since no number of processors is named."""
    return words[:1] in (("explain",), ("systems",)) and "--workers" not in dict(parts_of(words)[0])


def is_file(word):
    return "=" not in word and (os.path.isfile(word) or re.search(r"\.(f|for|f77|f90)$", word, re.I))


def is_help(word):
    return word.lower() in ("help", "-help", "-?", "usage")


def help_of(command):
    return f"seagrynt {command} --help writes the help of {command}"


def from_a_file(words, file):
    """The command as it is meant where a file's name is one of the words."""
    rest = [it for it in words if it != file]
    if not rest or rest[0] not in COMMANDS:
        rest = ["seq", *rest]
    if rest[0] == "verify":
        return f"{file} is a file's name; a source and the plan behind it come on standard input: cat SOURCE PLAN | seagrynt verify"
    import shlex

    return f"{file} is a file's name; the source comes on standard input: seagrynt {shlex.join(rest)} < {shlex.quote(file)}"


def wrong_setting(words, number, program):
    others = parts_of(words)[1]
    word = others[number - 1] if number <= len(others) else "?"
    if is_file(word):
        return from_a_file(words, word)
    if is_help(word):
        return f"{word} is no setting; {help_of(words[0])}"
    name, equals, value = word.partition("=")
    names = ", ".join(program.constants)
    if not equals and number < len(others) and others[number].startswith("="):
        return f"{word} is no setting: a setting is one word without blanks, {name.upper()}={others[number].strip('=') or ''.join(others[number + 1 : number + 2])}"
    if not equals:
        # nothing has been read then, but of a file
        has = f", one of {names}" if names else ""
        return f"{word} is no setting: a setting is NAME=VALUE for a named constant of the program{has}"
    if not re.fullmatch(r"[A-Za-z][A-Za-z0-9]*", name):
        return f"{word}: no named constant has the name {name or 'that is empty'}"
    if not re.fullmatch(r"-?\d+", value):
        return f"{word}: {value or 'nothing'} is no whole number in decimal digits"
    if not -(2**63) <= int(value) < 2**63:
        return f"{word}: {value} does not fit 64 bits"
    return f"{word}: {no_constant(program, name)}"


def wrong_sweep(words, program):
    word = dict(parts_of(words)[0]).get("--sweep") or "?"
    found = re.fullmatch(r"([A-Za-z][A-Za-z0-9]*)=(-?\d+):(-?\d+)", word)
    if not found:
        return f"{word} is no sweep: a sweep is NAME=LOW:HIGH, two whole numbers in decimal digits"
    name, low, high = found[1], int(found[2]), int(found[3])
    odd = [it for it in (low, high) if not -(2**63) <= it < 2**63]
    if odd:
        return f"{word}: {odd[0]} does not fit 64 bits"
    if low > high:
        return f"{word}: {low} is above {high}; the lower value comes first"
    if high - low >= 1000:
        return f"{word}: these are {high - low + 1} values; a sweep has at most 1000"
    return f"{word}: {no_constant(program, name)}"


def no_constant(program, name):
    names = ", ".join(program.constants)
    has = f"its named constants are {names}" if names else "it has none; PARAMETER (N = 8) makes one"
    return f"the program has no named constant (PARAMETER) {name.upper()}; {has}"


def wrong_word(words):
    """The first word that is wrong, and what it may be."""
    odd = [it for it in words if any("\udc80" <= c <= "\udcff" for c in it)]
    if odd:
        return f"{odd[0]!r} is no text in UTF-8"
    command = words[0] if words else ""
    if command not in COMMANDS:
        if not words:
            return f"a command is missing: {', '.join(COMMANDS[:-1])} or {COMMANDS[-1]}; seagrynt --help says what they do"
        if is_help(command):
            return "seagrynt --help writes the help, seagrynt run --help that of run"
        if command.lower() in ("version", "-version", "-v"):
            return "seagrynt --version writes the version"
        if command.partition("=")[0] in {it for options in OPTIONS.values() for it in options}:
            return f"the command comes first: seagrynt run {command} .."
        if is_file(command):
            return from_a_file(words, command)
        close = close_to(command.lower(), COMMANDS)
        meant = f"; {close[0]} is one" if close else ""
        return f"{command} is no command{meant}: there are {', '.join(COMMANDS[:-1])} and {COMMANDS[-1]}"
    return wrong_option(words, command)


def wrong_option(words, command):
    options, others = parts_of(words)
    if any(is_help(it) for it in others[:1]):
        return help_of(command)
    seen = set()
    for name, value in options:
        if name in SCRIPT_WORDS and (command == "run" or (command == "plan" and name == "--plan-only")):
            return f"{name} stands behind another one: of {' and '.join(SCRIPT_WORDS)} one stands, once"
        if name not in OPTIONS[command]:
            close = close_to(name, [*OPTIONS[command], "--help"])
            has = " and ".join(OPTIONS[command]) or "no options"
            meant = f"; {close[0]} is one" if close else f"; {command} has {has}"
            return f"{name} is no option of {command}{meant}"
        if name in seen:
            return f"{name} stands twice"
        seen.add(name)
        if value is None:
            return f"{name} has no value behind it"
        if name == "--workers" and not (re.fullmatch(r"[1-9]\d?", value) and int(value) <= 64):
            return f"--workers {value}: it is the number of processors, 1 to 64 in decimal digits without leading zeros"
        if name in CHOICES and value not in CHOICES[name]:
            return f"{name} {value}: it may be {' or '.join(CHOICES[name])}"
    choice = dict(options).get("--plan", "given")
    if "--workers" in OPTIONS[command] and "--workers" not in seen and not (is_behind(words) and choice == "given"):
        asks = f" --plan {choice}" if command in ("explain", "systems") else ""
        return f"{command}{asks} needs --workers P, the number of processors, 1 to 64"
    for word in others:
        if is_file(word):
            return from_a_file(words, word)
    if command == "bench":
        return "bench wants two numbers, N points, 1 to 500000, and M sweeps, 0 to 1000000, in decimal digits without leading zeros"
    return "these words are none that is offered"


def tell_words(line, data, words):
    if line == "WORDS SWEEP":
        say(f"{line}: the sweep is wrong: {wrong_sweep(words, sources.Program(sources.Source(data)))}")
        return
    number = int((line.split() + ["0", "0"])[1])
    if number:
        program = sources.Program(sources.Source(data))
        say(f"{line}: setting {number} is wrong: {wrong_setting(words, number, program)}")
        return
    say(f"{line}: {wrong_word(words)}")
    own = [it for it in USAGE if words and it.startswith(f"seagrynt {words[0]} ")]
    for place, it in enumerate(own or USAGE):
        say(("usage: " if place == 0 else "       ") + it)
    say("README.md has the words and the statuses, docs/LANGUAGE.md the source language")


# ---- refusals of a plan


def tell_plan(line, data, words):
    _, kind, *rest = line.split() + ["", ""]
    key = {"P1": f"P1 {rest[0]}", "P5": f"P5 obligation {rest[1]}"}.get(kind, kind)
    say(f"{line}: {meaning_of('PLANS.md', f'PLAN {key}') or 'the plan is refused'}")
    source = sources.Source(data)
    if kind == "SYNTAX":
        number = int(rest[0])
        behind = source.behind_end()
        lines = [it.decode("latin-1") for it in data.split(b"\n")]
        show_line(lines if lines[-1] else lines[:-1], source.end + number, None, "line")
        said = round_trip(behind, number, words)
        if said:
            say(said)
    say('docs/PLANS.md explains it under "When a plan is refused"')


def text_behind(data, source):
    """The lines behind END."""
    lines = data.decode("latin-1").split("\n")[source.end :]
    return lines if lines and lines[-1] else lines[:-1]


def round_trip(behind, number, words):
    at = behind[number - 1] if number <= len(behind) else None
    if at is None and number == 1 and is_behind(words):
        return f"no plan stands behind END; seagrynt {words[0]} --workers P takes the plan that is made"
    if at is None and number == 1:
        return "no plan stands behind END; seagrynt plan --workers P --plan-only makes one, and cat SOURCE PLAN | seagrynt verify looks at both"
    above = behind[: number - 1]
    if above and above[-1] == "END PLAN":
        what = "reasons of `plan`" if re.match(r"(LOOP|PHASE) \d+ NOT |END REASONS", at or "") else "output of `run`"
        return f"a plan's text ends with END PLAN, and what stands behind it seems to be the {what}: keep a plan by --plan-only, or cut it there by sed '/^END PLAN$/q'"
    if at is not None and at.endswith("\r"):
        return "this line ends with a carriage return; a plan's lines end with a line feed alone"
    if number == 1 and at and at[:1] in "Cc* ":
        return "a plan's text begins with the byte behind the line end of END"
    return None


# ---- warnings and the summary


def no_way_back(source, data, output):
    """What to say where the plan in a text is too long to be read behind its source, else None."""
    first, last = "SPMD PLAN ", "\nEND PLAN\n"
    begin = 0 if output.startswith(first) else output.rfind("\n" + first) + 1
    plan = output.find(last, begin) + len(last) - begin
    count = sum(len(it) + 1 for it in data.split(b"\n")[: source.end]) + plan
    if count <= MOST_BYTES:
        return None
    return f"source and plan have {count} bytes together, of which {MOST_BYTES} are read at most: neither verify nor run --plan given takes this plan"


def tell_done(command, data, output, words, asked):
    source = sources.Source(data)
    program = sources.Program(source, settings_of(words))
    for it in advice.source_warnings(source, program):
        say(f"warning: {it}")
    if command not in ("plan", "run", "emit"):
        return
    said = no_way_back(source, data, output)
    if said:
        say(f"warning: {said}")
    if command == "emit":
        return
    plan = plans.read_plan(output)
    if not plans.place_in_source(plan, program):
        return
    given = [it for it in parts_of(words)[1] if "=" in it]
    ask = advice.asker(asked, ["--workers", str(plan.workers), *given])
    for it in advice.plan_warnings(program, plan, ask):
        say(f"warning: {it}")
    say(advice.summary(program, plan))


def settings_of(words):
    settings = {}
    options, others = parts_of(words)
    lowest = [(value or "").partition(":")[0] for name, value in options if name == "--sweep"]
    for it in others + lowest:
        name, _, value = it.partition("=")
        if re.fullmatch(r"-?\d+", value):
            settings[name.upper()] = int(value)
    return settings


def main(what, status, source, output, line, program, *words):
    data = read(source)
    if what == "done":
        tell_done(words[0] if words else "", data, read(output).decode("latin-1"), words, program)
    elif status == "1":
        tell_refusal(line, data, words, program)
    elif status == "2":
        tell_words(line, data, words)
    else:
        tell_plan(line, data, words)


if __name__ == "__main__":
    main(*sys.argv[1:])
