"""Looks at what programs answer to sources, by tables: the command by answers.txt and for long
inputs, the program that tells of plans by plans.txt, the parts that are timed by parts.txt, and by
said.txt and drawn.txt what the scripts say to a person.

In a table `--- TITLE` begins a source, with a plan behind it or none. Behind it `$ WORDS` is a
command on that source, with its status in brackets where that isn't 0, and behind the command, or
several of them, stands what it writes; `[...]` in that stands for any text. `< FILE..` stands for what
the files have, a source `< .` for a folder, of which each read fails. Behind these lines `> PART` is
said on standard error, among other things, and of `| LINE`, once or more, these lines are said, each
behind a name, and no others; `|` alone says that nothing is. Behind `~ OLD => NEW`, or several of
them, the commands are on the source with these changes. A byte in a word may be written as \\xFF. What
is told of a plan that is made was compared, up to its certificates, with another program that was
written independently.

    python3 .ci/answers.py PROGRAM TABLE..
"""

import os
import re
import subprocess
import sys
import tempfile
from concurrent.futures import ThreadPoolExecutor

MOST_BYTES = 4194304
FOLDER = "."


def changed(source, line):
    """The source with the one change that a line tells."""
    old, new = line[2:].rstrip("\n").replace("\\n", "\n").split(" => ")
    if old not in source:
        sys.exit(f"this is to be changed, and isn't there: {old}")
    return source.replace(old, new, 1)


def text_of(lines):
    """The lines, and what the files have that they name."""
    return "".join("".join(map(read, it[1:].split())) if it[0] == "<" else it for it in lines)


def read(path):
    if path == FOLDER:
        return FOLDER
    with open(path, encoding="utf-8") as it:
        return it.read()


def groups_of(lines):
    """The lines in groups that begin with changes or with commands."""
    group = []
    for before, line in zip([" ", *lines], lines):
        if group and line[0] in "$~" and line[0] != before[0] and (before[0], line[0]) != ("~", "$"):
            yield group
            group = []
        group.append(line)
    yield group


def commands_in(source, lines):
    """The commands of a case: of each its source, its words, its status, what it writes and says."""
    now = source
    for group in groups_of(lines):
        if group[0][0] == "~":
            now = source
        for line in group:
            now = changed(now, line) if line[0] == "~" else now
        wanted = text_of(it for it in group if it[0] not in "$~>|")
        said = [it.rstrip("\n") for it in group if it[0] in ">|"]
        for line in group:
            if line[0] == "$":
                status, words = re.fullmatch(r"\$(?: \[(\d)\])?(.*)\n?", line).groups()
                yield now, words.split(), int(status or 0), wanted, said


def table(path):
    """Each source with its title, as it stands in its first lines, and its commands."""
    for case in read(path).split("--- ")[1:]:
        title, *lines = case.splitlines(keepends=True)
        first = next(at for at, line in enumerate(lines) if line[0] in "$~")
        source = text_of(lines[:first])
        yield title.strip(), source, [*commands_in(source, lines[first:])]


def source_of(*lines):
    return "".join(f"      {it}\n" for it in [*lines, "END"])


def long_inputs(path):
    """Inputs at their limits: a title, the source, and the commands on it."""
    yield "no line end behind END", "      PRINT *\n      END", [(["seq"], 0, "\n")]
    yield "nothing but line ends", "\n" * MOST_BYTES, [(["seq"], 1, "REFUSED L4 LINE [...]")]
    yield "a byte more", "\n" * (MOST_BYTES + 1), [(["seq"], 7, "TOO LONG\n")]
    opened = ("     +" + "(" * 66 + "\n") * 9
    closed = ("     +" + ")" * 66 + "\n") * 9
    yield (
        "a number in 600 pairs of parentheses, over twenty lines",
        f"      K=\n{opened}     +((((((1))))))\n{closed}      END\n",
        [(["seq"], 0, "")],
    )
    loops = [f"DO 10 I{it} = 1, 100" for it in range(1, 7)]
    nested = source_of("INTEGER A(100)", *loops, "A(I6) = A(I1) + 1").replace("      A(I6)", "   10 A(I6)")
    reason = "LOOP 1 NOT DOALL LINES 8 8 NAME A OPEN\n"
    yield (
        "10^12 instances, whose subscripts are certified and not gone through",
        nested,
        [(["plan", "--workers", "1"], 0, f"SPMD PLAN 2\n[...]END PLAN\n{reason}END REASONS\n")],
    )
    constants = [f"PARAMETER (N{it} = {it})" for it in range(199)]
    statements = [f"K{it} = N{it} + 1" for it in range(199)]
    settings = [f"N{it}=1000" for it in range(199)]
    run = ["run", "--workers", "64", "--plan", "barrier", "--by", "core"]
    yield (
        "as many statements as a program may have, and a setting for each constant",
        source_of(*constants, *statements, "PRINT *, K198"),
        [
            ([*run, *settings], 0, "[...]\nEND PLAN\n 1001\n"),
            (["plan", "--workers", "64"], 0, "[...]\nEND PLAN\nEND REASONS\n"),
        ],
    )
    printed = source_of("INTEGER A(30000)", "DO 10 I = 1, 30000").replace("      END\n", "")
    yield (
        "an array of 30,000 elements behind as many comment lines as there is room for",
        "C\n" * 2097000 + printed + "   10 A(I) = -I\n" + source_of("PRINT *, A"),
        [(["run", "--workers", "3", "--plan", "barrier", "--by", "core"], 0, "[...] -29999 -30000\n")],
    )
    mirror = next(source for title, source, _ in table(path) if title == "a plan that is given, by core")
    front = mirror[: mirror.index("CERTIFICATES")]
    steps = "".join(f"{it} STEPS 1\n1 1*1 6*1 10*1 11*1\n" for it in range(1, 110001))
    yield (
        "110,000 certificates",
        f"{front}CERTIFICATES 110000\n{steps}END PLAN\n",
        [(["verify"], 6, "PLAN P1 7\n")],
    )
    lines = mirror.splitlines(keepends=True)
    for count in range(15):
        broken = "".join(lines[: 7 + count])
        yield f"{count} lines of a plan", broken, [(["verify"], 6, f"PLAN SYNTAX {count + 1}\n")]


def own_sources():
    """Commands that read nothing: a title and the words; something is written."""
    for words in (["--help"], ["run", "-h"], ["plan", "--help"], ["--version"]):
        yield words, 0, "[...]\n"
    for points, sweeps in ((1, 0), (1, 1000000), (500000, 0)):
        sizes = ["bench", "--workers", "1", str(points), str(sweeps)]
        yield sizes, 0, f"BENCH N {points} M {sweeps} WORKERS 1\n[...]"
    for workers in "14":
        yield ["bench", "--workers", workers, "2000", "200"], 0, "BENCH [...]\n -8 -3986014\n"


def run(program, source, words):
    """The program on a file with the source, or on a folder."""
    with tempfile.TemporaryFile() as file:
        file.write(source.encode())
        file.seek(0)
        place = os.open(FOLDER, os.O_RDONLY) if source == FOLDER else file.fileno()
        plain = [it.encode().decode("unicode_escape").encode("latin-1") for it in words]
        done = subprocess.run([program, *plain], stdin=place, capture_output=True, timeout=120)
        if source == FOLDER:
            os.close(place)
    return done.returncode, done.stdout, done.stderr.decode(errors="replace")


def is_said(told, said):
    lines = [it[2:] for it in said if it[0] == "|"]
    if lines and [re.sub("^[a-z-]+: ", "", it) for it in told.splitlines()] != [it for it in lines if it]:
        return False
    return all(it[2:] in told for it in said if it[0] == ">")


def fault_in(program, title, source, words, status, wanted, said=()):
    """What is wrong with the program's answer, or None."""
    ended, out, told = run(program, source, words)
    form = ".*".join(re.escape(it) for it in wanted.split("[...]"))
    if ended == status and re.fullmatch(form.encode(), out, re.DOTALL) and is_said(told, said):
        return None
    shown = out[:200].decode(errors="replace")
    return f"{title}: {' '.join(words)[:80]}: status {ended} and not {status}, or not what is wanted: {shown}{told if said else ''}"


def rows_of(path):
    yield from ((title, *it) for title, _, its in table(path) for it in its)
    if path.endswith("/answers.txt"):
        yield from ((title, source, *it) for title, source, its in long_inputs(path) for it in its)
        yield from ((words[0], "", words, status, wanted) for words, status, wanted in own_sources())


def main(program, *paths):
    rows = [it for path in paths for it in rows_of(path)]
    with ThreadPoolExecutor(4) as runners:
        faults = [it for it in runners.map(lambda row: fault_in(program, *row), rows) if it]
    print(*faults, f"{len(rows)} commands, {len(faults)} of them answered otherwise", sep="\n")
    return 1 if faults or len(rows) < 10 else 0


if __name__ == "__main__":
    sys.exit(main(*sys.argv[1:]))
