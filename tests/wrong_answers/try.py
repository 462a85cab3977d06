#!/usr/bin/env python3
"""try.py [CRATE...]: tries the wrong answers of list.txt (of the named crates, or all); the prover must refuse each, for a fact that fails.

The repository is copied to a temporary folder, and only the copy is changed. Each crate is proved as it is, then with one wrong answer after
the other, then as it is again. `rt` must be on the path. A wrong answer counts as refused where the prover ends with `logic=not-proved`, says
of the public function that it is not proved, and its first complaint is about a fact and not about the proof's shape (a name or a field that
is no longer there). A line for each; the last is `N tried, M not refused`, with status 0 where M is 0.
"""
import re
import shutil
import subprocess
import sys
import tempfile
from pathlib import Path

HERE = Path(__file__).resolve().parent
ROOT = HERE.parents[1]
SHAPE = re.compile(
    r"can be named|has no field|is not a field|has no `|unknown name|is no name|not in scope|unexpected|expected a |expected the end"
    r"|operand is missing|cannot continue|can import|already brought in|no clause covers"
)


def records(text):
    """Function, what is said of it, triples of file, old and new text, and what steps are called then. Lines of one kind in a row are one text."""
    found, file, last = [], None, None
    for line in text.splitlines():
        kind, _, rest = line.partition(":")
        rest = rest[1:]
        if kind == "wrong":
            found.append({"function": rest, "says": "", "edits": [], "steps": []})
        elif kind == "says":
            found[-1]["says"] = rest
        elif kind == "steps":
            found[-1]["steps"].append(rest.split(" "))
        elif kind == "file":
            file = rest
        elif kind == "old":
            if last == "old":
                found[-1]["edits"][-1][1] += "\n" + rest
            else:
                found[-1]["edits"].append([file, rest, ""])
        elif kind == "new":
            found[-1]["edits"][-1][2] += ("\n" if last == "new" else "") + rest
        last = kind
    return found


def prove(root, crate):
    folder = root / "crates" / crate
    ended = subprocess.run(["rt", "check"], cwd=folder, stdout=subprocess.PIPE, stderr=subprocess.STDOUT, text=True)
    return ended.stdout.replace(f"{root}/", "").splitlines()


def logic(lines):
    """What is said of the crate itself: the last of the lines that say it of one, since those that it stands on come first."""
    return ([line.split()[0] for line in lines if line.startswith("logic=")] or [""])[-1]


def proved(lines):
    return logic(lines) == "logic=proved"


def complaint(lines):
    """The first line that says what is wrong and is not about what follows from it; with the next, where that says that a field is missing."""
    for i, line in enumerate(lines):
        if (": error" in line and "was not admitted" not in line) or "it is not proved that" in line:
            more = "".join(lines[i + 1 : i + 2]).strip()
            return f"{line} {more}" if more.startswith("has no field") else line
    return ""


def verdict(function, lines):
    """What is wrong with the refusal, or nothing; and the first complaint."""
    first = complaint(lines)
    if proved(lines):
        return "NOT REFUSED", first
    if logic(lines) != "logic=not-proved" or not first:
        return "NO VERDICT: " + (lines[-1] if lines else "nothing was said"), first
    if not any(re.match(rf"fn {re.escape(function)}: (not proved|no proof)", line) for line in lines):
        return "REFUSED ELSEWHERE", first
    if SHAPE.search(first.split("computed as far")[0]):
        return "REFUSED FOR THE SHAPE", first
    return "", first


def attempt(root, one):
    saved = {}
    try:
        for file, old, new in one["edits"]:
            path = root / file
            text = path.read_text()
            saved.setdefault(path, text)
            if text.count(old) != 1:
                return f"BAD EDIT: {text.count(old)} times in {file}: {old!r}", ""
            path.write_text(text.replace(old, new))
        for folder, old, new in one["steps"]:
            paths = [path for path in sorted((root / folder).glob("*.antt")) if old in path.read_text()]
            if not paths:
                return f"BAD EDIT: no proof in {folder} names {old}", ""
            for path in paths:
                saved.setdefault(path, path.read_text())
                path.write_text(path.read_text().replace(old, new))
        return verdict(one["function"], prove(root, one["function"].split("::")[0]))
    finally:
        for path, text in saved.items():
            path.write_text(text)


def copy(to):
    # what was proved before need not be proved again: rt begins with what a check kept in another copy
    shutil.copytree(ROOT / "crates", to / "crates", ignore=shutil.ignore_patterns("out"))
    shutil.copy(ROOT / "crates.txt", to)


def main(wanted, full=None):
    """Where `full` is given, it is called with each record and its first complaint, whole."""
    wrong = records((HERE / "list.txt").read_text())
    crates = list(dict.fromkeys(one["function"].split("::")[0] for one in wrong))
    for crate in wanted:
        if crate not in crates:
            sys.exit(f"try.py: the list has nothing of {crate}")
    tried = missed = 0
    with tempfile.TemporaryDirectory() as folder:
        root = Path(folder).resolve()
        copy(root)
        for crate in crates:
            if wanted and crate not in wanted:
                continue
            if not proved(prove(root, crate)):
                sys.exit(f"try.py: {crate} is not proved as it is")
            for one in wrong:
                if one["function"].split("::")[0] != crate:
                    continue
                fault, first = attempt(root, one)
                tried += 1
                missed += fault != ""
                print(f"{one['function']}: {one['says']}: {fault or 'refused'} ({first[:160]})", flush=True)
                if full:
                    full(one, first)
            if not proved(prove(root, crate)):
                sys.exit(f"try.py: {crate} is not proved again")
    print(f"{tried} tried, {missed} not refused")
    return missed != 0


if __name__ == "__main__":
    sys.exit(main(sys.argv[1:]))
