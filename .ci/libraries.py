"""Looks at what the pages of the crates that serve alone say under "As a library".

The crates that come with one are those that crates.txt has below it; each signature stands in the
crate's sources; each example is a function of 20 lines at most of house_tests, so that it is proved
and run. The recipe of docs/CRATES.md takes each of them, one after the other, into one
new repository: then each crate that it names is there, once, with those that it stands on.
"""

import os
import re
import subprocess
import sys
import tempfile

ROOT = os.path.dirname(os.path.dirname(os.path.abspath(__file__)))


def text_of(path):
    with open(f"{ROOT}/{path}", encoding="utf-8") as it:
        return it.read()


def sources_of(crate):
    files = []
    for at, _, names in os.walk(f"{ROOT}/crates/{crate}/src"):
        files += [os.path.join(at, it) for it in sorted(names) if it.endswith(".rt")]
    return "\n".join(text_of(os.path.relpath(it, ROOT)) for it in files)


def closed(code):
    """Code without blanks and trailing commas, so that layouts don't differ."""
    return re.sub(r",(?=[)>])", "", re.sub(r"\s+", "", code))


def below(crate):
    """The crates of the repository below this one, in order."""
    command = 'root=$1; . "$root/bin/building.sh"; crates_of "$2"; printf "%s\\n" "${crates[@]}"'
    found = subprocess.run(["bash", "-c", command, "", ROOT, crate], capture_output=True, check=True)
    return [it for it in found.stdout.decode().split() if it != crate]


def faults_in(crate, section):
    come = re.search(r"With it comes? (.*?)[.;]", section)
    named = re.findall(r"\w+", come[1].replace(" and ", " ")) if come else []
    named = [] if named[:3] == ["no", "other", "crate"] else named
    if named != below(crate):
        yield f"with it come {' '.join(below(crate))}, and not {' '.join(named)}"
    blocks = re.findall(r"```rust\n(.*?)```", section, re.S)
    signatures = [it for it in blocks if it.startswith("pub fn")]
    for it in re.split(r"\n(?=pub fn)", "\n".join(signatures)):
        if not it or closed(it) not in closed(sources_of(crate)):
            yield f"this signature isn't in its sources: {it}"
    examples = [it for it in blocks if it not in signatures]
    if not examples:
        yield "there is no example"
    for it in examples:
        if it not in sources_of("house_tests"):
            yield f"this is no function of house_tests: {it}"
        if it.count("\n") > 20:
            yield f"this example has {it.count(chr(10))} lines"


def recipe_faults(listed):
    """What is wrong with a repository into which the recipe has taken all these crates."""
    recipe = re.search(r"```\n(root=\.\./seagrynt;.*?)```", text_of("docs/CRATES.md"), re.S)[1]
    own = {it.split(":")[0].split()[0] for it in text_of("crates.txt").split("\n") if re.match(r"\w", it)}
    with tempfile.TemporaryDirectory() as room:
        os.symlink(ROOT, f"{room}/seagrynt")
        os.mkdir(f"{room}/new")
        for crate in listed:
            command = recipe.replace("plan_checker", crate)
            done = subprocess.run(["bash", "-e", "-c", command], cwd=f"{room}/new", capture_output=True)
            if done.returncode or done.stderr:
                yield f"{crate}: the recipe ends with {done.returncode}: {done.stderr.decode()}"
        with open(f"{room}/new/crates.txt", encoding="utf-8") as it:
            lines = [(re.match(r"\w+", line)[0], line.partition(":")[2].split()) for line in it]
        names = [name for name, _ in lines]
        wanted = {it for crate in listed for it in [crate, *below(crate)]}
        if sorted(names) != sorted(wanted):
            yield f"crates.txt has {' '.join(sorted(names))}, and not {' '.join(sorted(wanted))}"
        for at, (name, needs) in enumerate(lines):
            if not any(os.path.isfile(f"{room}/new/crates/{name}/src/{it}.rt") for it in ("lib", "main")):
                yield f"crates/{name} isn't there"
            late = [it for it in needs if it in own and it not in names[:at]]
            if late:
                yield f"{name} stands in front of {' '.join(late)}, which it needs"


def main():
    found = 0
    listed = re.findall(r"\| \[(\w+)\]", text_of("docs/CRATES.md").split("## As libraries")[1].split("\n## ")[0])
    for crate in listed:
        page = text_of(f"crates/{crate}/README.md")
        section = page.split("\n## As a library\n")[-1].split("\n## ")[0] if "\n## As a library\n" in page else ""
        for fault in faults_in(crate, section) if section else ["no such section"]:
            found += 1
            print(f"crates/{crate}/README.md: As a library: {fault}")
    for fault in recipe_faults(listed):
        found += 1
        print(f"docs/CRATES.md: {fault}")
    print(f"{len(listed)} pages, {found} faults")
    return 1 if found or not listed else 0


if __name__ == "__main__":
    sys.exit(main())
