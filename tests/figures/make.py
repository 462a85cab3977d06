#!/usr/bin/env python3
"""make.py [--check]: counts the tree, and writes the tables of docs/FIGURES.md.

Everything from the line `## Measured` on stands in that file alone and is kept as it is: what no script can count from the tree. With --check
nothing is written: the last line says whether the file holds what the tree has, with status 0 where it does.

A line counts unless it is blank or a comment (`//`, `--`).
  code         lines of src/ that are neither `ghost` nor an attribute `tactic`, nor part of a clause `requires { .. }` or `ensures { .. }`, with its
               name where it has one
  definitions  lines of specs/
  proofs       lines of proofs/
  functions    each `fn NAME`; public are those that begin `pub fn` or `pub extern "C" fn`, and not `pub(crate) fn`
An edit or a record of the list is sorted by what it changes, once it is made: the code lines of a function (a program), else clauses or ghost lines
alone (a promise), else only what stands in specs/ (a definition). One that does not fit the files is an error.
"""
import re
import sys
from pathlib import Path

ROOT = Path(__file__).resolve().parents[2]
FIGURES = ROOT / "docs" / "FIGURES.md"
KEPT = "## Measured\n"
KINDS = ("program", "promise", "definition")
faults = []


# ---- lines

def counted(text, comment):
    return [line for line in text.splitlines() if line.strip() and not line.strip().startswith(comment)]


def code_lines(text):
    """The code of a file: no comments, no ghost lines, no clauses, however many lines they have, and nothing that only guides the check."""
    kept, depth = [], 0
    for line in counted(text, "//"):
        if depth or re.match(r"\s*(requires|ensures|ghost)\b", line):
            depth += line.count("{") - line.count("}")
        elif not re.match(r"\s*#!?\[tactic\b", line):
            kept.append(line)
    return kept


def number_of_lines(files, lines):
    return sum(len(lines(file.read_text())) for file in files)


# ---- edits

def edits(text, file=None):
    """Triples of file, old and new text; lines of one kind in a row are one text."""
    found, last = [], None
    for line in text.splitlines():
        kind, _, rest = line.partition(":")
        rest = rest[1:]
        if kind == "file":
            file = rest
        elif kind == "old" and last == "old":
            found[-1][1] += "\n" + rest
        elif kind == "old":
            found.append([file, rest, ""])
        elif kind == "new":
            found[-1][2] += ("\n" if last == "new" else "") + rest
        last = kind
    return found


def kind_of(name, folder, changes):
    """What an edit changes, by the files before it and after it."""
    before, after = {}, {}
    for file, old, new in changes:
        path = folder / file
        if path not in before:
            before[path] = after[path] = path.read_text() if path.exists() else ""
        if after[path].count(old) != 1:
            faults.append(f"{name}: stands {after[path].count(old)} times in {file}: {old}")
            return None
        after[path] = after[path].replace(old, new)
    changed = [p for p in before if before[p] != after[p]]
    if any(p.suffix == ".rt" and code_lines(before[p]) != code_lines(after[p]) for p in changed):
        return "program"
    if any(p.suffix == ".rt" for p in changed):
        return "promise"
    if changed and all(p.relative_to(ROOT).parts[2] == "specs" for p in changed):
        return "definition"
    faults.append(f"{name}: changes no program, promise or definition")
    return None


def must_fail():
    """(crate, name) of each edit of the gate to its kind."""
    return {
        (path.parts[-3], path.stem): kind_of(path.relative_to(ROOT), path.parents[1], edits(path.read_text()))
        for path in sorted(ROOT.glob("crates/*/must-fail/*.edit"))
    }


def wrong_answers():
    """Crate, name and kind of each record of the list. A name stands in brackets at the end of what is said; else the function is the name."""
    found = []
    for record in re.split(r"^wrong: ", (ROOT / "tests/wrong_answers/list.txt").read_text(), flags=re.M)[1:]:
        function, _, rest = record.partition("\n")
        said = re.search(r"^says: (.*)$", rest, re.M)[1]
        name = re.search(r"\[(\w+/\w+)\]$", said)
        found.append((function.split("::")[0], name[1] if name else function, kind_of(f"list.txt, {function}: {said}", ROOT, edits(rest))))
    return found


# ---- tables

def row(*cells):
    return "| " + " | ".join(str(c) if c or c == 0 else "" for c in cells) + " |\n"


def head(*cells):
    return row(*cells) + "|" + "---|" * len(cells) + "\n"


def crates():
    """In the order of crates.txt."""
    return re.findall(r"^(\w+)(?: staticlib)?:", (ROOT / "crates.txt").read_text(), re.M)


def sizes(tried, listed):
    text = head("crate", "code", "definitions", "proofs", "proof lines a code line", "functions", "public", "edits", "in the list")
    total = [0] * 7
    for crate in crates():
        folder = ROOT / "crates" / crate
        sources = sorted(folder.glob("src/**/*.rt"))
        code = [line for file in sources for line in code_lines(file.read_text())]
        numbers = [
            len(code),
            number_of_lines(folder.glob("specs/**/*.antt"), lambda t: counted(t, "--")),
            number_of_lines(folder.glob("proofs/**/*.antt"), lambda t: counted(t, "--")),
            sum(len(re.findall(r"\bfn \w+", line)) for line in code),
            sum(bool(re.match(r'\s*pub (extern "C" )?fn \w+', line)) for line in code),
            sum(c == crate for c, _ in tried),
            sum(c == crate for c, _, _ in listed),
        ]
        total = [a + b for a, b in zip(total, numbers)]
        text += sized(crate, numbers)
    return text + sized("all", total)


def sized(name, numbers):
    ratio = f"{numbers[2] / numbers[0]:.1f}" if numbers[0] and numbers[2] else ""
    return row(name, *(n or "" for n in numbers[:3]), ratio, *(n or "" for n in numbers[3:]))


def kinds(tried, listed):
    text = head("what is changed", "edits in the gate", "in the list")
    for kind in KINDS:
        text += row(f"a {kind}", sum(k == kind for k in tried.values()), sum(k == kind for _, _, k in listed))
    text += row("all", len(tried), len(listed)) + "\n"
    for kind in KINDS[1:]:
        gate = [f"{crate}/{name}" for (crate, name), k in tried.items() if k == kind]
        others = [name for _, name, k in listed if k == kind]
        text += f"- A {kind}, and no program, in the gate: {named(gate)}; in the list: {named(others)}.\n"
    return text


def named(names):
    return ", ".join(f"`{name}`" for name in names) or "none"


def map_rows(part):
    text = (ROOT / "docs/SPEC-MAP.md").read_text().partition(f"\n## {part}\n")[2].partition("\n## ")[0]
    return sum(line.startswith("|") and not re.match(r"\|(-+\||\s*(row|path)\s*\|)", line) for line in text.splitlines())


def others():
    recorded = (ROOT / "crates/recorded/stdin").read_text().splitlines()
    cases = sum(line[:1].isdigit() for line in recorded)
    said = (ROOT / "crates/recorded/stdout").read_text().splitlines()[-1]
    if said != f"{cases} agree in all":
        faults.append(f"crates/recorded: stdin has {cases} cases, and stdout ends: {said}")
    decisions = re.findall(r"^- \*\*\w+-\d+\*\*", (ROOT / "docs/DECISIONS.md").read_text(), re.M)
    c_functions = [name for path in sorted(ROOT.glob("crates/vekalumist_c/src/*.rt")) for name in re.findall(r'pub extern "C" fn veka_', path.read_text())]
    refusals = re.findall(r"^    \w+(?: = \d+)?,$", re.search(r"pub enum Refusal \{(.*?)\n\}", (ROOT / "crates/wire/src/refusal.rt").read_text(), re.S)[1], re.M)
    return (
        head("what", "how many")
        + row("refusals (`crates/wire/src/refusal.rt`)", len(refusals))
        + row("exported C functions (`crates/vekalumist_c/src`)", len(c_functions))
        + row("recorded cases (`crates/recorded/stdin`)", cases)
        + row("rows of docs/SPEC-MAP.md: sentences", map_rows("Sentences"))
        + row("rows of docs/SPEC-MAP.md: definitions", map_rows("Definitions"))
        + row("decisions (docs/DECISIONS.md)", len(decisions))
    )


def made():
    tried, listed = must_fail(), wrong_answers()
    return f"""# Figures

What is counted from the tree, by `tests/figures/make.py`; `tests/figures/make.py --check` fails where it is no longer so. README, ARCHITECTURE and PROMISES repeat none of it.

## Sizes

Lines without blank ones and comments; code without contracts, `ghost` lines and `tactic` attributes. Edits are `crates/*/must-fail/*.edit`, which the gate tries; the list is `tests/wrong_answers/list.txt`, by the crate of the function, which is tried on demand.

{sizes(tried, listed)}
## What edits and wrong answers change

A changed promise or definition is no wrong program: there the code stays, and does not meet what is then asked of it.

{kinds(tried, listed)}
## Others

{others()}
"""


def main(arguments):
    if arguments not in ([], ["--check"]):
        sys.exit("usage: make.py [--check]")
    old = FIGURES.read_text() if FIGURES.exists() else ""
    new = made() + KEPT + old.partition(KEPT)[2]
    if faults:
        sys.exit("\n".join(faults))
    if not arguments:
        FIGURES.write_text(new)
        return
    if old == new:
        print("figures: as the tree has them")
        return
    for line in sorted(set(new.splitlines()) - set(old.splitlines())):
        print(f"now: {line}")
    sys.exit("figures: docs/FIGURES.md is not what the tree has; tests/figures/make.py writes it")


main(sys.argv[1:])
