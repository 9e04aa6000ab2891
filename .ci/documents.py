"""Looks up what the documents name.

- Each link's file and heading, and each path within backticks that begins with a folder of the
  repository. A path with a word in capitals in place of a name (crates/NAME/src) or below an out/
  is passed over.
- In each table with a column "Clause", in every document: the calls are there, and each clause
  stands in the contract of one of the row's calls itself. The crate is the one of the column
  "Crate", or of the folder of the document, or the last one named within the table. Where a table
  has no column "Call", the calls stand in front of their clauses in the cell, or in a cell above;
  what stands in parentheses there is passed over.
- In the text of every document: a clause that is named with its call (`call`'s clause `name`, or
  `module::call` (`name`, ..)) stands in that call's contract, and one that is named alone (the
  clause `name`) in the contract of some call.
- In a table with a column "Edit", each wrong body is there, in the crates of the column "Crate".
- Each crate has its README.md, which docs/CRATES.md links.
- The picture of docs/CRATES.md, below "The layers", has each crate once, and none but these, above
  those that crates.txt names for it.

Nothing is looked up below a heading "To come".
"""
import os
import re
import sys

FOLDERS = ("docs/", "examples/", "bench/", "bin/", "crates/", ".ci/")
NAME = r"`([A-Za-z0-9_:]+)`"


def text_of(path):
    with open(path, encoding="utf-8") as it:
        return it.read()


# ---- the code


class Call:
    """A function: its module or type, its name, and its clauses by name; "" is one without."""

    def __init__(self, places, name, clauses):
        self.places = places
        self.name = name
        self.clauses = clauses

    def is_named(self, words):
        *front, name = words.split("::")
        return name == self.name and all(it in self.places for it in front)


def without_comments(code):
    texts = r'b?"(?:[^"\\]|\\.)*"|b?\'(?:[^\'\\\n]|\\.)\''
    return re.sub(rf"({texts})|//[^\n]*", lambda it: '""' if it[1] else "", code)


def closing(code, at):
    """The place behind the brace that closes the one at this place."""
    depth = 0
    for brace in re.finditer(r"[{}]", code[at:]):
        depth += 1 if brace[0] == "{" else -1
        if depth == 0:
            return at + brace.end()
    return len(code)


def contract_at(code, at):
    """The clauses of the function whose parameters begin here, and where its contract ends."""
    clauses = []
    while True:
        # a semicolon before a closing bracket is an array's
        stop = re.compile(r"\{|;(?![^\[\]{};]*\])").search(code, at)
        if not stop or stop[0] == ";":
            return clauses, stop.end() if stop else len(code)
        clause = re.search(r"\b(ensures|requires)\*?(?:\s+(\w+))?\s*$", code[at : stop.start()])
        if not clause:
            return clauses, stop.start()
        if clause[1] == "ensures":
            clauses.append(clause[2] or "")
        at = closing(code, stop.start())


def type_of(head):
    """The names by which the functions of an impl or a trait are called."""
    bare = re.sub(r"<[^<>]*>", "", re.sub(r"<[^<>]*>", "", head))
    words = re.findall(r"\w+", re.sub(r"\bwhere\b.*", "", bare, flags=re.S))
    return words[-1:] if "for" in words else words[1:2]


def calls_in(code, places):
    """The functions of a file."""
    code = without_comments(code)
    blocks = []
    for block in re.finditer(r"(?m)^\s*(?:pub(?:\([a-z]+\))?\s+)?((?:impl|trait)\b[^{;]*)\{", code):
        blocks.append((block.start(), closing(code, block.end() - 1), type_of(block[1])))
    for it in re.finditer(r"\bfn\s+(\w+)", code):
        within = [name for start, end, names in blocks if start < it.start() < end for name in names]
        yield Call(places + within, it[1], contract_at(code, it.end())[0])


def sources_of(crate):
    for at, _, files in os.walk(f"crates/{crate}/src"):
        yield from (os.path.join(at, it) for it in sorted(files) if it.endswith(".rt"))


def calls_of(crate):
    calls = []
    for file in sources_of(crate):
        modules = os.path.relpath(file[:-3], f"crates/{crate}/src").split(os.sep)
        calls += calls_in(text_of(file), modules)
    return calls


def crates():
    """The crates, each with those that it names."""
    for line in text_of("crates.txt").split("\n"):
        name, _, below = line.partition(":")
        if re.fullmatch(r"[a-z0-9_]+", name):
            yield name, below.split()


BELOW = dict(crates())
CODE = {it: calls_of(it) for it in BELOW}


def named_calls(crate, words):
    """The functions of these words, in the crate or in any."""
    return [it for name in ([crate] if crate else CODE) for it in CODE[name] if it.is_named(words)]


# ---- the documents


def documents():
    for at, folders, files in os.walk("."):
        folders[:] = sorted(it for it in folders if it not in (".git", "out"))
        for name in sorted(files):
            if name.endswith(".md"):
                yield os.path.relpath(os.path.join(at, name))


def lines_of(document):
    """The lines that are looked up, with their numbers."""
    skipped = 0
    for number, line in enumerate(text_of(document).split("\n"), 1):
        heading = re.match(r"(#+) (.*)", line)
        if heading and (not skipped or len(heading[1]) <= skipped):
            skipped = len(heading[1]) if heading[2] == "To come" else 0
        if not skipped:
            yield number, line


def is_looked_up(path):
    if not path.startswith(FOLDERS) or re.search(r"[\s*<>{}]", path) or "/out/" in path:
        return False
    return not re.search(r"(^|/)[A-Z]{2,}(\.[a-z]+)?(/|$)", re.sub(r"[A-Z]+\.md$", "", path))


def headings(document):
    """The headings of a document, as a link names them."""
    for heading in re.findall(r"(?m)^#+ (.*)$", text_of(document)):
        yield re.sub(r"[^\w\- ]", "", heading.lower()).replace(" ", "-")


def missing_files(document):
    for number, line in lines_of(document):
        for target in re.findall(r"\]\(([^)\s]+)\)", line):
            if re.match(r"[a-z]+:", target):
                continue
            path, _, heading = target.partition("#")
            file = os.path.normpath(os.path.join(os.path.dirname(document), path)) if path else document
            if not os.path.exists(file):
                yield number, f"the file of the link {target}"
            elif heading and heading not in headings(file):
                yield number, f"the heading of the link {target}"
        for path in re.findall(r"`([^`]+)`", line):
            if is_looked_up(path) and not os.path.exists(path):
                yield number, f"the file {path}"


def crate_of(document):
    found = re.match(r"crates/(\w+)/", document)
    return found[1] if found and found[1] in CODE else None


def is_carried(call, cell):
    """Whether the cell names a clause of the call, or says of it what has no name."""
    if set(re.findall(NAME, cell)) & set(call.clauses) or re.search(r"invariant|see the", cell):
        return True
    if not cell or re.search(r"\b(its|their) clause", cell):
        return len(call.clauses) == 1
    return bool(re.search(r"\ball\b", cell) and call.clauses)


def missing_in_row(crate, calls, cell):
    """What a row with these calls in a column of their own says that is not there.

    Where the cell names no clause, a word in capitals among the calls may be a type or a trait.
    """
    clauses = re.findall(NAME, cell)
    functions = {it: named_calls(crate, it) for it in re.findall(NAME, calls)}
    for words, found in functions.items():
        if not found and (clauses or not re.fullmatch(r"[A-Z]\w*", words)):
            yield f"{crate}'s call {words}"
        elif found and not any(is_carried(it, cell) for it in found):
            yield f"a clause of {words}, in \"{cell}\","
    for clause in clauses:
        if not any(clause in it.clauses for found in functions.values() for it in found):
            yield f"the clause {clause} at {calls or 'no call'}"


class Reading:
    """Reads cells in which the calls stand in front of their clauses."""

    def __init__(self, crate):
        self.crate = crate
        self.calls = []

    def missing_in(self, cell):
        is_behind_call = False
        for word in re.findall(NAME, re.sub(r"\([^)]*\)", "", cell)):
            if word in CODE:
                self.crate, self.calls, is_behind_call = word, [], False
            elif any(word in it.clauses for it in self.calls):
                is_behind_call = False
            elif named_calls(self.crate, word) and ("::" in word or not self.is_clause(word)):
                self.calls = [*(self.calls if is_behind_call else []), *named_calls(self.crate, word)]
                is_behind_call = True
            else:
                yield f"{word}, as a call of {self.crate} or a clause of the call named before"

    def is_clause(self, word):
        return any(word in it.clauses for it in CODE.get(self.crate, []))


def columns_of(cells):
    names = [it.lower().rstrip("s") for it in cells]
    return {it: names.index(it) for it in ("crate", "call", "clause") if it in names}


def missing_in_tables(document):
    columns, reading, calls = {}, None, ""
    for number, line in lines_of(document):
        if line.startswith("#"):
            reading = Reading(crate_of(document))
        if not line.startswith("|"):
            columns = {}
            continue
        cells = [it.strip() for it in re.split(r"(?<!\\)\|", line.strip()[1:-1])]
        if not columns:
            columns = columns_of(cells) or {"": 0}
        elif "clause" in columns and not set(line) <= set("|-: ") and len(cells) > max(columns.values()):
            # an empty cell stands for the calls of the row above
            calls = "call" in columns and cells[columns["call"]] or calls
            for what in missing_in_cells(document, columns, cells, calls, reading):
                yield number, what


def missing_in_cells(document, columns, cells, calls, reading):
    clause = cells[columns["clause"]]
    if "call" not in columns:
        yield from reading.missing_in(clause)
        return
    crate = cells[columns["crate"]].strip("`") if "crate" in columns else crate_of(document)
    if crate not in CODE:
        yield f"the crate {crate}"
    else:
        yield from missing_in_row(crate, calls, clause)


def missing_in_edits(document):
    columns = None
    for number, line in lines_of(document):
        if not line.startswith("|"):
            columns = None
            continue
        cells = [it.strip() for it in re.split(r"(?<!\\)\|", line.strip()[1:-1])]
        if columns is None:
            columns = {it: place for place, it in enumerate(cells) if it in ("Crate", "Edit")}
        elif len(columns) == 2 and len(cells) > max(columns.values()):
            for crate in re.findall(NAME, cells[columns["Crate"]]):
                for edit in re.findall(NAME, cells[columns["Edit"]]):
                    path = f"crates/{crate}/must-fail/{edit}.edit"
                    if not os.path.exists(path):
                        yield number, f"the wrong body {path}"


def missing_in_picture():
    """What is wrong with the picture of the crates' layers, from the top."""
    picture = re.search(r"(?ms)^## The layers\n.*?^```\n(.*?)^```", text_of("docs/CRATES.md"))
    rows = {}
    for row, line in enumerate(picture[1].split("\n") if picture else []):
        for name in re.findall(r"[a-z0-9]+(?:_[a-z0-9]+)*", line):
            if "_" not in name and name not in BELOW:
                continue
            if name in rows or name not in BELOW:
                yield f"one crate {name} in the picture"
            rows[name] = row
    for name, below in BELOW.items():
        if name not in rows:
            yield f"{name} in the picture"
        for it in below:
            if rows.get(name, -1) >= rows.get(it, len(rows)):
                yield f"{it} below {name} in the picture"


def missing_in_text(document):
    crate = crate_of(document)
    every = {it for name in CODE for call in CODE[name] for it in call.clauses}
    named = rf"{NAME}(?:'s clauses?:? | \()((?:{NAME}(?:, | and )?)+)(\))?"
    for number, line in lines_of(document):
        if line.startswith("|"):
            continue
        for it in re.finditer(named, line):
            calls = named_calls(crate, it[1]) or named_calls(None, it[1])
            if "'s clause" in it[0] or (it[4] and "::" in it[1] and calls):
                for clause in re.findall(NAME, it[2]):
                    if not any(clause in call.clauses for call in calls):
                        yield number, f"the clause {clause} at {it[1]}"
        for it in re.finditer(rf"(?:the|its) clauses? ((?:{NAME}(?:, | and )?)+)", line):
            for clause in re.findall(NAME, it[1]):
                if clause not in every:
                    yield number, f"the clause {clause}"


def main():
    found = []
    for document in documents():
        for look_up in (missing_files, missing_in_tables, missing_in_edits, missing_in_text):
            found += [(document, number, what) for number, what in look_up(document)]
    found += [("docs/CRATES.md", 1, what) for what in missing_in_picture()]
    for crate in CODE:
        if not os.path.exists(f"crates/{crate}/README.md"):
            found.append(("crates.txt", 1, f"crates/{crate}/README.md"))
        if f"](../crates/{crate}/README.md)" not in text_of("docs/CRATES.md"):
            found.append(("docs/CRATES.md", 1, f"the link to crates/{crate}/README.md"))
    for document, number, what in found:
        print(f"{document}:{number}: {what} is not there")
    return 1 if found else 0


sys.exit(main())
