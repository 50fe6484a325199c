#!/usr/bin/env python3
"""Checks that the examples of README.md, docs/REFERENCE.md and examples/ are sessions that the tests play.

In a document an example is a fenced block of which a line begins with > or <, as in the scripts of svr_tests_sessions. The
blocks of a document, in their order, are the cases of its script, and a case begins where a block does. A line of a block that
begins with { is a request that the script has too. Each other file of examples/ is the input of the case of its name, and
what the case wants to be written is the file with the ending .out. Each script is listed, so that it is played."""
import pathlib
import sys

TOP = pathlib.Path(__file__).resolve().parent.parent
DATA = TOP / "crates" / "svr_tests_sessions" / "data"
DOCUMENTS = {"README.md": "readme.session", "docs/REFERENCE.md": "reference.session"}


def cases_of(script):
    """The cases of a script by their names: lists of what a document shows of them."""
    cases = {}
    for line in (DATA / script).read_text(encoding="utf-8").splitlines():
        if line.startswith("case "):
            lines = cases.setdefault(line[len("case ") :], [])
        elif line and line != "run" and not line.startswith(("#", "pieces ")):
            lines.append(line)
    return cases


def blocks_of(text):
    """The fenced blocks that name no language: the number of their first line, and their lines."""
    fence, lines = None, []
    for number, line in enumerate(text.splitlines(), 1):
        if not line.startswith("```"):
            lines.append(line)
        elif fence is None:
            fence, lines = line, []
        else:
            if fence == "```":
                yield number - len(lines), lines
            fence = None


def document_faults(name, script):
    cases = list(cases_of(script).values())
    wanted = [(line, place == 0) for lines in cases for place, line in enumerate(lines)]
    sent = {line[2:] for line, _ in wanted if line.startswith("> ")}
    for first, lines in blocks_of((TOP / name).read_text(encoding="utf-8")):
        if not any(line.startswith((">", "<")) for line in lines):
            yield from (f"{name}:{first}: {script} doesn't send {line}" for line in lines if line.startswith("{") and line not in sent)
            continue
        for place, line in enumerate(lines):
            next_line, begins = wanted.pop(0) if wanted else ("no more", False)
            if line != next_line or (begins and place > 0):
                yield f"{name}:{first + place}: {script} has {next_line} in place of {line}"
                return
    if wanted:
        yield f"{name}: no block has {wanted[0][0]} of {script}"


def example_faults():
    wanted = {}
    for name, lines in cases_of("examples.session").items():
        for sign, file in (("> ", name), ("< ", pathlib.Path(name).stem + ".out")):
            wanted[file] = "".join(line[2:] + "\n" for line in lines if line.startswith(sign))
    files = {file.name: file.read_text(encoding="utf-8") for file in TOP.glob("examples/*")}
    for name in sorted(wanted.keys() | files.keys()):
        if wanted.get(name) != files.get(name):
            yield f"examples/{name}: is not what examples.session has"


def listing_faults():
    listed = (DATA / "scripts").read_text(encoding="utf-8").splitlines()
    return [f"{file.name}: is not listed in scripts" for file in sorted(DATA.glob("*.session")) if file.name not in listed]


faults = [fault for name, script in DOCUMENTS.items() for fault in document_faults(name, script)]
faults += [*example_faults(), *listing_faults()]
for fault in faults:
    print(fault, file=sys.stderr)
sys.exit(1 if faults else 0)
