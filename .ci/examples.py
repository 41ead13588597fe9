#!/usr/bin/env python3
"""Compares the files of examples/, and the batch of docs/FORMATS, with what the tests of the program have.

Each file of an example stands in the tests as a literal, and the stored run of the program is one of them.
Then runs the texts of GUIDE's "Reading a refusal" by the program that the gate has built: each is refused with
the line that stands beside it, and what is to be written instead is taken; QUERY's parts of texts are theirs.
Where no program is built, no text is run. With --unproved they are run before anything is proved.
"""
import os
import pathlib
import re
import shutil
import subprocess
import sys
import tempfile

TOP = pathlib.Path(__file__).resolve().parent.parent
SOURCES = TOP / "crates/top_rows/src"
TESTS = "".join(path.read_text() for path in [SOURCES / "examples.rt", *sorted((SOURCES / "examples").glob("*.rt"))])
missing = []
files = sorted(path for path in (TOP / "examples").rglob("*") if path.is_file())

for path in files:
    literal = path.read_text().replace("\\", "\\\\").replace('"', '\\"')
    if f'"{literal}"' not in TESTS:
        missing.append(f"{path.relative_to(TOP)} is not as the tests have it")

data = TOP / "crates/jobs_cli/data"
for path in sorted(path for path in data.rglob("*") if path.is_file()):
    there = TOP / path.relative_to(data)
    if not there.is_file() or there.read_bytes() != path.read_bytes():
        missing.append(f"{path.relative_to(TOP)} is not the file of the example")
if (TOP / "crates/jobs_cli/stdout").read_bytes() != (TOP / "examples/meters/expected.txt").read_bytes():
    missing.append("crates/jobs_cli/stdout is not the expected text of examples/meters")

# What README and the documents show behind a preview's command is the expected text.
for path in [TOP / "README.md", *sorted((TOP / "docs").glob("*.md"))]:
    text = path.read_text()
    for name in re.findall(r"^\./stream_jobs - preview examples/(\w+)/query.sql", text, re.M):
        if (TOP / "examples" / name / "expected.txt").read_text() not in text:
            missing.append(f"{path.relative_to(TOP)} shows another text than that of examples/{name}")

GUIDE, QUERY = ((TOP / "docs" / name).read_text() for name in ("GUIDE.md", "QUERY.md"))
BUILT = TOP / "crates/jobs_cli/out/jobs_cli"
program = [str(TOP / "stream_jobs"), "--unproved"] if "--unproved" in sys.argv[1:] else [str(BUILT)]
ran = 0


def rows(text, head):
    """The cells of each row of the table with this head."""
    lines = text.partition(f"| {head} |\n")[2].splitlines()[1:]
    for line in lines[: next((at for at, line in enumerate(lines) if not line.startswith("|")), len(lines))]:
        yield [cell.strip() for cell in line.strip("|").split("|")]


def code(cell):
    """The first text in backquotes."""
    return re.search(r"`([^`]+)`", cell)[1]


def answer(query):
    """What `check` writes for a query over the document of examples/sensor."""
    global ran
    ran += 1
    with tempfile.TemporaryDirectory() as folder:
        (pathlib.Path(folder) / "query.sql").write_text(query)
        shutil.copy(TOP / "examples/sensor/inputs.toml", folder)
        words = [*program, "-", "check", "query.sql", "inputs.toml"]
        done = subprocess.run(words, cwd=folder, stdout=subprocess.PIPE, stderr=subprocess.DEVNULL, text=True)
        return done.stdout.rstrip("\n")


def expect(holds, what):
    """Notes what doesn't hold."""
    if not holds:
        missing.append(f"docs: {what}")


# GUIDE: a name of a refusal, a text and its place; a text, its line, and the text to be written.
refused = [(text, f"error 3 {name} {place}") for name, text, place in re.findall(
    r"^\| `(Query\.\w+) PLACE` \| `([^`]+)`: (\d+) \|", GUIDE, re.M) if ".." not in text]
table = [tuple(map(code, cells)) for cells in rows(GUIDE, "Written | Refused | To be written")]
expect(refused and table, "GUIDE has no texts that are refused")
if program[0] != str(BUILT) or BUILT.is_file():
    for text, line in [*refused, *(row[:2] for row in table)]:
        found = answer(text)
        expect(found == line, f"{text} gives {found}, not {line}")
    for better in dict.fromkeys(row[2] for row in table):
        found = answer(better)
        expect(found and not found.startswith("error"), f"{better} gives {found}")

# A word of the command line that is no text is refused like any other wrong word.
if BUILT.is_file():
    ran += 1
    done = subprocess.run([os.fsencode(str(BUILT)), b"-", b"check", b"\xff", b"inputs.toml"], stdout=subprocess.PIPE, stderr=subprocess.DEVNULL)
    expect((done.returncode, done.stdout) == (2, b"error 2 Usage\n"), f"a word that is no text gives {done.returncode}, {done.stdout}")

# QUERY: a part of a text of GUIDE's table, the refusal and the word at its place, a part of the text to be written.
parts = list(rows(QUERY, "Written there | Refused here | To be written"))
expect(len(parts) == len(table), "QUERY has other texts than GUIDE")
for written, refusal, better in parts:
    name, word = refusal.split(" at ")[0], code(refusal)
    expect(any(code(written) in text and code(better) in instead and line.split()[2] == f"Query.{name}"
               and text.encode()[int(line.split()[3]):].decode().startswith(word) for text, line, instead in table),
           f"{written} isn't refused so in GUIDE, or {better} isn't written there")

# The batch that FORMATS shows byte by byte is the one of the test.
shown = re.findall(r"^ *\d+  ((?:[0-9a-f]{2} )*[0-9a-f]{2})(?: |$)", (TOP / "docs/FORMATS.md").read_text(), re.M)
batches = (TOP / "crates/byte_rows/src/batches.rt").read_text()
tested = re.findall(r"0x([0-9a-f]{2})", batches.split("const WORKED")[1].split("];")[0])
if " ".join(shown).split() != tested:
    missing.append("docs/FORMATS.md shows another batch than crates/byte_rows has")

for line in missing:
    print(line)
print(f"examples: {len(files)} files, {ran} texts run, {len(missing)} differ")
sys.exit(1 if missing or not files else 0)
