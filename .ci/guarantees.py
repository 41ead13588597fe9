#!/usr/bin/env python3
"""Looks up each call, clause, definition, edit and test that docs/GUARANTEES.md names, and fails on one that is gone.

It also fails on a wrong body, in crates/NAME/must-fail/ or bugs/NAME/, that no longer applies to its file.

A line of the document that begins with one of these words names them in backquotes:
- Call: `crate::function` or `crate::Type::method`, then perhaps clauses: `name`, ..
- Meaning: `path`: `name`, ..
- Refused bugs: `path`, ..
- Tests: `path`: `name`, ..
A row of a table whose last cell begins with the path of a definition names definitions too.
An edit may be named by either of its two folders, and stands in one of them.
"""
import pathlib
import re
import sys

TOP = pathlib.Path(__file__).resolve().parent.parent
NAMES = re.compile(r"`([^`]+)`")
missing = []
found = 0


def check(holds, line, what):
    global found
    if holds:
        found += 1
    else:
        missing.append(f"docs/GUARANTEES.md:{line}: {what}")


def heads(crate, function):
    """The heads of the functions of this name in a crate, each up to its body."""
    for path in sorted((TOP / "crates" / crate / "src").rglob("*.rt")):
        text = path.read_text()
        for start in re.finditer(rf"\bfn {re.escape(function)}\b", text):
            rest = text[start.start():]
            end = re.search(r"^\s*\{|;\s*$|\{\}", rest, re.M)
            yield rest[: end.start()] if end else rest


def call(line, names):
    path, clauses = names[0], names[1:]
    crate, function = path.split("::")[0], path.split("::")[-1]
    all_heads = list(heads(crate, function))
    check(all_heads, line, f"no function {path}")
    for clause in clauses:
        there = any(re.search(rf"\bensures {re.escape(clause)} \{{", head) for head in all_heads)
        check(there, line, f"no clause {clause} of {path}")


def meaning(line, names):
    path = TOP / names[0]
    text = path.read_text() if path.is_file() else ""
    check(text, line, f"no file {names[0]}")
    for name in names[1:]:
        pattern = rf"^ *(abbrev |unfoldable )?pub (record |data )?{re.escape(name)}\b"
        check(re.search(pattern, text, re.M), line, f"no definition {name} in {names[0]}")


def edit_places(name):
    """Both files in which the edit of this path may stand, or none for another path."""
    parts = re.fullmatch(r"(?:crates/(\w+)/must-fail|bugs/(\w+))/([\w.-]+\.edit)", name)
    if not parts:
        return []
    crate, file = parts.group(1) or parts.group(2), parts.group(3)
    return [TOP / "crates" / crate / "must-fail" / file, TOP / "bugs" / crate / file]


def bugs(line, names):
    for name in names:
        check(any(place.is_file() for place in edit_places(name)), line, f"no edit {name}")


def pairs_of(edit):
    """The replacements of an edit, in order: the file, the text that goes and the text that comes."""
    file = old = None
    for text in edit.read_text().split("\n"):
        if text.startswith("file: "):
            file = text[len("file: "):].strip()
        elif text.startswith("old: "):
            old = text[len("old: "):]
        elif text.startswith("new:"):
            yield file, old, re.sub("^new: ?", "", text)
            old = None


def why_not_applied(edit, crate):
    """Why an edit can't be applied to the files of a crate, or None."""
    texts = {}
    for file, old, new in pairs_of(edit):
        if not file or not old:
            return "a 'new:' line without its 'file:' and 'old:' lines"
        if file not in texts and not (crate / file).is_file():
            return f"no file {file} in the crate {crate.name}"
        text = texts.get(file) or (crate / file).read_text()
        if text.count(old) != 1:
            return f"an 'old:' text stands {text.count(old)} times in {file}"
        texts[file] = text.replace(old, new)
    return None if texts else "no 'old:' and 'new:' pair"


def edits():
    """Tries to apply each edit of both folders to the sources as they stand, and proves nothing."""
    found_edits = sorted([*TOP.glob("crates/*/must-fail/*.edit"), *TOP.glob("bugs/*/*.edit")])
    for edit in found_edits:
        crate = TOP / "crates" / edit.relative_to(TOP).parts[1]
        why = why_not_applied(edit, crate)
        if why:
            missing.append(f"{edit.relative_to(TOP)}: {why}")
    return len(found_edits)


def tests(line, names):
    path = TOP / names[0]
    text = path.read_text() if path.is_file() else ""
    check(text, line, f"no file {names[0]}")
    for name in names[1:]:
        check(re.search(rf"#\[test\]\s+fn {re.escape(name)}\b", text), line, f"no test {name} in {names[0]}")


KINDS = {"Call": call, "Meaning": meaning, "Refused bugs": bugs, "Tests": tests}

for number, text in enumerate((TOP / "docs/GUARANTEES.md").read_text().splitlines(), 1):
    start = re.match(r"- ([A-Z][a-z ]+): ", text)
    if start and start.group(1) in KINDS:
        names = NAMES.findall(text)
        check(names, number, "a line that names nothing")
        if names:
            KINDS[start.group(1)](number, names)
    cell = re.match(r"\|.*\| (`crates/[^`]+`: [^|]*)\|$", text)
    if cell:
        meaning(number, NAMES.findall(cell.group(1)))

applied = edits()
for line in missing:
    print(line)
print(f"guarantees: {found} names and {applied} edits looked up, {len(missing)} missing or not applied")
sys.exit(1 if missing or not found else 0)
