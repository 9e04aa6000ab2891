"""Runs the commands of the documents and compares what they write: blocks.py DOCUMENT..

A block that begins with ```console has commands, each behind `$ ` in a line of its own, and below
each what it writes to standard output. A line `..` stands for any lines. The commands run in a folder
that sees bin/, examples/ and docs/ of the repository; the programs are those that are built.
"""

import os
import re
import subprocess
import sys
import tempfile

ROOT = os.path.dirname(os.path.dirname(os.path.abspath(__file__)))
BUILT = {"SEAGRYNT_UNPROVED": "no", "BENCH_PARTS_BUILD": "no"}


def commands_of(document):
    """The commands of a document's blocks: line, command, lines that are due."""
    with open(f"{ROOT}/{document}", encoding="utf-8") as it:
        lines = it.read().split("\n")
    inside = False
    for number, line in enumerate(lines, 1):
        if line.startswith("```"):
            inside = line == "```console"
        elif inside and line.startswith("$ "):
            due = []
            for below in lines[number:]:
                if below.startswith(("$ ", "```")):
                    break
                due.append(below)
            yield number, line[2:], due


def pattern_of(due):
    return "".join(r"(?:.*\n)*?" if it == ".." else re.escape(it) + "\n" for it in due)


def main(documents):
    tried = failed = 0
    with tempfile.TemporaryDirectory() as room:
        for folder in ("bin", "examples", "docs"):
            os.symlink(f"{ROOT}/{folder}", f"{room}/{folder}")
        for document in documents:
            found = list(commands_of(document))
            if not found:
                failed += 1
                print(f"{document}: it has no block with commands")
            for number, command, due in found:
                tried += 1
                try:
                    done = subprocess.run(
                        ["bash", "-c", command], cwd=room, capture_output=True, timeout=120, env={**os.environ, **BUILT}
                    )
                except subprocess.TimeoutExpired:
                    failed += 1
                    print(f"{document}:{number}: {command} takes more than 120 seconds")
                    continue
                wrote = done.stdout.decode("utf-8", "replace")
                if not re.fullmatch(pattern_of(due), wrote):
                    failed += 1
                    print(f"{document}:{number}: {command}", "writes", wrote, done.stderr.decode("utf-8", "replace"), sep="\n")
    print(f"{tried} commands of {len(documents)} documents, {failed} faults")
    return 1 if failed else 0


if __name__ == "__main__":
    sys.exit(main(sys.argv[1:]))
