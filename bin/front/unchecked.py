"""unchecked.py IN.ll OUT.ll FOLDER..

Writes a program's module without what `rt try` adds to find faults (traps, checks, fillings of
memory), and marks for inlining each function that has the attribute `inline(always)` in the sources
below the folders. What the compiler then makes of it is fast, and proves nothing.
"""

import os
import re
import sys

FUNCTION = re.compile(
    r"#\[inline\(always\)\](?:\s*#\[[^\]]*\])*\s*(?:pub(?:\([^)]*\))?\s+)?(?:const\s+)?(?:unsafe\s+)?fn\s+(\w+)"
)
ADDED = ("  call void @llvm.trap()", '  call void @"rattle-llvm-checks::')


def inlined_in(folder):
    """The module and the name of each function to be inlined, from the sources below a folder."""
    for place, _, files in os.walk(folder):
        for file in files:
            path = os.path.join(place, file)
            parts = os.path.relpath(path, folder)[:-3].split(os.sep)
            if not file.endswith(".rt") or "src" not in parts:
                continue
            with open(path, encoding="utf-8", errors="replace") as it:
                names = FUNCTION.findall(it.read())
            at = parts.index("src")
            modules = parts[at + 1 :]
            if modules[-1] in ("lib", "main", "mod"):
                modules.pop()
            crate = parts[at - 1] if at else os.path.basename(folder)
            for name in names:
                yield "::".join([crate, *modules]), name


def is_added(line):
    fills = line.startswith("  call void @llvm.memset.p0.i64(") and ", i8 -86, i64 " in line
    return line.startswith(ADDED) or fills


def marked(line, inlined):
    """A function's first line, marked where it is to be inlined."""
    found = re.match(r'define internal .*?@"?([^"(]+)"?\(', line)
    parts = re.sub(r"::<.*$", "", found[1]).split("::") if found else []
    if any(("::".join(parts[:k]), parts[-1]) in inlined for k in range(len(parts) - 1, 0, -1)):
        return re.sub(r"\) (#\d+ )?\{$", lambda it: ") alwaysinline " + (it[1] or "") + "{", line.rstrip("\n")) + "\n"
    return line


def main(source, target, *folders):
    inlined = {it for folder in folders for it in inlined_in(folder)}
    with open(source, encoding="utf-8") as lines, open(target, "w", encoding="utf-8") as out:
        for line in lines:
            if line.startswith("attributes #"):
                added = "" if "nounwind" in line else " nounwind"
                line = line.replace(" sanitize_address", added).replace(' "frame-pointer"="all"', "")
            elif line.startswith("define internal"):
                line = marked(line, inlined)
            if not is_added(line):
                out.write(line)


if __name__ == "__main__":
    main(*sys.argv[1:])
