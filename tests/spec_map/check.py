#!/usr/bin/env python3
"""check.py [ROOT]: holds docs/SPEC-MAP.md to the files that it names. ROOT is the repository; by default the one that this file stands in.

1. What a row names is there: the path, and the name in it.
   .antt      a definition or theorem: `pub NAME :`, `abbrev pub`, `unfoldable pub`, `pub record`, `pub data`, or a case of such data; a field
              of a record as RECORD.FIELD
   .rt        `fn`, `struct`, `enum` or `const` NAME
   .md        a heading NAME, or an item that begins with **NAME**, as a decision does with its id
   any other  the text NAME
2. What a promise cites has a row among the definitions. Cited are, of a public function, the names in its `ensures` that come from specs/; of
   the theorems in crates/promises/proofs, the names in what they state that come from specs/, or from proofs/ where they are definitions.
3. Row numbers among the definitions are rows of the sentences; a section has all its rows, in order, but for those that ask for nothing; a
   definition that a sentence's row names has that row beside it; and open points and rows name each other.
4. Every public function has an `ensures` and no `requires`. (tests/pages/check.py looks for its laws.)
5. No decision's id stands twice, and an id that a file names after DECISIONS.md is one.

Rows to come are not held to 1 before their name is there; then they count as definitions. The last line is `N rows, M wrong`, with status 0
where M is 0.
"""
import re
import sys
from pathlib import Path

ROOT = Path(sys.argv[1] if len(sys.argv) > 1 else Path(__file__).resolve().parents[2])
MAP = ROOT / "docs" / "SPEC-MAP.md"
wrong = []


def say(text):
    wrong.append(text)
    print(text)


# ---- what is defined in a file

def blocks(lines):
    """Each line with the record or data that it stands in, by keyword, or None."""
    inside = None
    for line in lines:
        bare = line.strip()
        indent = len(line) - len(line.lstrip())
        if inside and bare and indent <= inside[1]:
            inside = None
        yield line, inside and inside[0]
        m = re.match(r"pub (record|data) ", bare)
        if m:
            inside = m.group(1), indent


def antt_names(path):
    """Name to kind: `definition`, `theorem`, `case`, or `field` of a record as RECORD.FIELD."""
    names, record = {}, None
    for line, inside in blocks(path.read_text().splitlines()):
        bare = line.strip()
        m = re.match(r"(abbrev |unfoldable )?pub (record |data )?([^\s:(){}]+)", bare)
        if m and not inside and m.group(3) != "mod":
            names[m.group(3)] = "definition" if m.group(1) or m.group(2) else "theorem"
            record = m.group(3)
        elif m and inside == "record":
            names[f"{record}.{m.group(3)}"] = "field"
        m = re.match(r"([^\s:(){}]+) :", bare)
        if m and inside == "data":
            names[m.group(1)] = "case"
    return names


def rt_names(path):
    return set(re.findall(r"\b(?:fn|struct|enum|const) (\w+)", path.read_text()))


def md_names(path):
    text = path.read_text()
    return set(re.findall(r"^#+ (.+?)\s*$", text, re.M)) | set(re.findall(r"^- \*\*(\S+)\*\* ", text, re.M))


def is_there(path, name):
    """Why `name` is not in `path`, or nothing."""
    file = ROOT / path
    if not file.exists():
        return f"no such file: {path}"
    if not name:
        return None
    if file.is_dir():
        return f"{path} is a folder, and has no {name}"
    if file.suffix == ".antt":
        found = name in antt_names(file)
    elif file.suffix == ".rt":
        found = name in rt_names(file)
    elif file.suffix == ".md":
        found = name in md_names(file)
    else:
        found = name in file.read_text(errors="replace")
    return None if found else f"{path} has no {name}"


# ---- what a promise cites

IMPORT = re.compile(r"use Rattle\.(\w+)\.(specs|proofs)\.([\w.]+?)(?:\.\{([^}]*)\}| as ([\w-]+))", re.S)


def imports(text):
    """Name in this file to (path, name there); and alias of a whole file to its path. What the check makes of the source, in
    `declared` and `contracts`, stands in no file of the repository, and neither do libraries of the kit, as std."""
    names, files = {}, {}
    for crate, folder, module, listed, alias in IMPORT.findall(text):
        if module.split(".")[0] in ("declared", "contracts") or not (ROOT / "crates" / crate).is_dir():
            continue
        path = f"crates/{crate}/{folder}/{module.replace('.', '/')}.antt"
        if alias:
            files[alias] = path
        for item in filter(None, (x.strip() for x in listed.split(","))):
            there, _, here = item.partition(" as ")
            names[here.strip() or there.strip()] = path, there.strip()
    return names, files


def tokens(text):
    return set(re.split(r"[\s(){}\[\],;]+", text))


def cited(text, names, files):
    """What the text names: a name, also before the dot of a field that is read of it, or a name of a file's alias."""
    for token in tokens(text):
        head, *fields = token.split(".")
        if head in names:
            yield names[head]
        elif head in files and fields:
            yield files[head], fields[0]


def clauses(contract, word):
    """The texts of `word { .. }` and of `word NAME { .. }`, braces counted."""
    for m in re.finditer(rf"\b{word} (?:\w+ )?\{{", contract):
        depth, i = 1, m.end()
        while depth and i < len(contract):
            depth += {"{": 1, "}": -1}.get(contract[i], 0)
            i += 1
        yield contract[m.end():i - 1]


PUBLIC = re.compile(r'( *)pub (?:(?:extern "C"|const|unsafe) )*fn (\w+)')
CLAUSE = re.compile(r"\s*(?:requires|ensures)\b")


def contracts(text):
    """Each public function with the text from its name to its body, which after a clause begins with a line `{`."""
    lines = text.splitlines()
    for i, line in enumerate(lines):
        m = PUBLIC.match(line)
        if not m:
            continue
        head, clause = [], False
        for next_line in lines[i:]:
            if next_line == m.group(1) + "{":
                break
            head.append(next_line)
            clause = clause or bool(CLAUSE.match(next_line))
            if next_line.endswith("{") and not clause:
                break
        yield m.group(2), "\n".join(head)


def public_functions():
    """Of the modules that are `pub`, or from which the root brings something out. A parameter's name hides an import's."""
    for path in sorted(ROOT.glob("crates/*/src/*.rt")):
        root = path.with_name("lib.rt").read_text() if path.with_name("lib.rt").exists() else ""
        if f"\nmod {path.stem};" in root and not re.search(rf"^pub use (?:crate::|self::)?{path.stem}\b", root, re.M):
            continue
        text = path.read_text()
        names, files = imports(text)
        for name, contract in contracts(text):
            lent = set(re.findall(r"(\w+): ", contract.partition("->")[0]))
            yield path.relative_to(ROOT), name, contract, {n: at for n, at in names.items() if n not in lent}, files


def stated(path):
    """The text of what a file of theorems says: statements and definitions, no proofs."""
    out, keep, until = [], None, None
    for line, inside in blocks(path.read_text().splitlines()):
        bare = line.strip()
        if bare.startswith(("--", "use ")):
            continue
        if inside:
            out.append(bare)
            continue
        if not bare:
            keep = None
            continue
        m = re.match(r"((?:abbrev |unfoldable )?)pub (record |data )?([^\s:(){}]+)", bare)
        if m:
            keep = "all" if m.group(1) else "statement"
            until = m.group(3)
            out.append(bare)
        elif bare.startswith("module "):
            keep = None
            out.append(bare)
        elif keep == "statement" and (bare.startswith("unfolding ") or bare.split()[0] == until):
            keep = None
        elif keep:
            out.append(bare)
    return "\n".join(out)


def is_definition(path, name):
    file = ROOT / path
    return file.exists() and antt_names(file).get(name) in ("definition", "case")


def promised():
    """(path, name) to those that cite it; and how many functions and files were read."""
    found, functions, files_read = {}, 0, 0
    for path, name, contract, names, files in public_functions():
        functions += 1
        for key in cited("\n".join(clauses(contract, "ensures")), names, files):
            found.setdefault(key, set()).add(f"{path} {name}")
    for path in sorted(ROOT.glob("crates/promises/proofs/*.antt")):
        files_read += 1
        text = path.read_text()
        names, files = imports(text)
        for key in cited(stated(path), names, files):
            if "/specs/" in key[0] or (is_definition(*key) and not key[0].startswith("crates/promises/")):
                found.setdefault(key, set()).add(str(path.relative_to(ROOT)))
    return found, functions, files_read


# ---- the map

def tables(text):
    """Part, by its `## ` heading, to its rows: the cells of each table line that is no header."""
    part, rows = None, {}
    for line in text.splitlines():
        if line.startswith("## "):
            part = line[3:].strip()
        elif line.startswith("|") and part:
            cells = [c.strip() for c in line.strip().strip("|").split("|")]
            if set(cells[0]) <= set("-: ") or cells[0] in ("row", "path"):
                continue
            rows.setdefault(part, []).append(cells)
    return rows


def references(cell):
    """`PATH NAME`, or `PATH NAME, NAME` of definitions and code."""
    for ref in re.findall(r"`([^`]+)`", cell):
        path, _, names = ref.partition(" ")
        for name in names.split(", ") if path.endswith((".antt", ".rt")) else [names]:
            yield path, name


def hold_note(row, note):
    for path, name in references(note):
        why = "/" in path and is_there(path, name)
        if why:
            say(f"{row}: {why}")


def sections(text):
    """Each section of the sentences: its name, how many sentences it has, and which of them ask for nothing."""
    for name, count, body in re.findall(r"^### (\w+), (\d+) sentences:(.*?)(?=^##)", text, re.M | re.S):
        m = re.search(r"^Asks for nothing: (\d+(?:, \d+)*)", body, re.M)
        yield name, int(count), set(m.group(1).split(", ")) if m else set()


def open_points(text):
    """Number to the rows of each point of the last part."""
    last = text.partition("\n## Open\n")[2]
    return {n: list(row_numbers(rows)) for n, rows in re.findall(r"^(\d+)\. ([^:]+):", last, re.M)}


def row_numbers(cell):
    """`Scan 3, 5 to 7; Map 1`: the rows that it names."""
    section = None
    for item in filter(None, (x.strip() for x in re.split(r"[,;]", cell))):
        m = re.fullmatch(r"(?:([A-Z][a-z]+) )?(\d+)(?: to (\d+))?", item)
        if not m or not (m.group(1) or section):
            yield item
            continue
        section = m.group(1) or section
        for n in range(int(m.group(2)), int(m.group(3) or m.group(2)) + 1):
            yield f"{section} {n}"


# ---- the decisions

ID = r"[a-z]+-\d+"
CITED = re.compile(rf"DECISIONS\.md`?,? ({ID}(?:(?:, | and | to ){ID})*)")
TEXT = {".md", ".rt", ".antt", ".py", ".sh", ".rs", ".h", ".c", ".edit", ".txt"}


def hold_decisions():
    ids = re.findall(rf"^- \*\*({ID})\*\* ", (ROOT / "docs/DECISIONS.md").read_text(), re.M)
    for one in sorted({x for x in ids if ids.count(x) > 1}):
        say(f"docs/DECISIONS.md: {one} stands twice")
    files = [f for top in ("docs", "crates", "tests", "rust", "include", "examples", "tools", "bench") for f in sorted((ROOT / top).glob("**/*"))]
    for file in [ROOT / "README.md", *files]:
        if file.suffix not in TEXT or {"target", "out"} & set(file.relative_to(ROOT).parts):
            continue
        for named in CITED.findall(file.read_text(errors="replace")):
            for one in re.findall(ID, named):
                if one not in ids:
                    say(f"{file.relative_to(ROOT)}: docs/DECISIONS.md has no {one}")
    return len(ids)


def main():
    text = MAP.read_text()
    parts = tables(text)
    sentences, definitions, later = (parts.get(p, []) for p in ("Sentences", "Definitions", "To come"))

    expected = [f"{name} {n}" for name, count, none in sections(text) for n in range(1, count + 1) if str(n) not in none]
    present = [row for row, *_ in sentences]
    for row in sorted(set(expected) - set(present)):
        say(f"{row}: has no row")
    for row in sorted(set(present) - set(expected)):
        say(f"{row}: is no sentence of a section")
    if set(expected) == set(present) and expected != present:
        say("the sentences are out of order, or one stands twice")

    rows, points = {}, open_points(text)
    for row, _, where, note, *_ in sentences:
        rows[row] = list(references(where))
        hold_note(row, note)
        for n in re.findall(r"\d+", " ".join(re.findall(r"open ([\d, ]+)", note))):
            if row not in points.get(n, []):
                say(f"{row}: open point {n} does not name it")
        if not rows[row]:
            say(f"{row}: names nothing")
        for path, name in rows[row]:
            why = is_there(path, name)
            if why:
                say(f"{row}: {why}")

    for n, named in points.items():
        for row in set(named) - set(rows):
            say(f"open point {n}: there is no row {row}")

    serves, waiting = {}, 0
    for path, name, numbers, *_ in later:
        why = is_there(path.strip("`"), name.strip("`"))
        if why:
            waiting += 1
        else:
            print(f"note: no longer to come: {path} {name}")
            definitions.append([path, name, numbers])
    for path, name, numbers, *note in definitions:
        key = path.strip("`"), name.strip("`")
        hold_note(f"definition {key[1]}", " ".join(note))
        why = is_there(*key)
        if why:
            say(f"definition {key[1]}: {why}")
        if key in serves:
            say(f"definition {' '.join(key)}: stands twice")
        serves[key] = set(row_numbers(numbers))
        if not serves[key]:
            say(f"definition {' '.join(key)}: serves no sentence")
        for row in sorted(serves[key] - set(rows)):
            say(f"definition {' '.join(key)}: there is no row {row}")
    for row, named in rows.items():
        for key in named:
            if key in serves and row not in serves[key]:
                say(f"definition {' '.join(key)}: row {row} names it, and it does not name the row")

    found, functions, files_read = promised()
    for key in sorted(set(found) - set(serves)):
        say(f"no row: {' '.join(key)}, cited by {', '.join(sorted(found[key]))}")
    for key in sorted(set(serves) - set(found)):
        print(f"note: no promise cites {' '.join(key)}")
    for path, name, contract, _, _ in public_functions():
        if not list(clauses(contract, "ensures")):
            say(f"{path} {name}: nothing is said of its result")
        if list(clauses(contract, "requires")):
            say(f"{path} {name}: something is asked of the caller")

    decisions = hold_decisions()
    print(f"{len(sentences)} sentences, {len(serves)} definitions, {waiting} to come, {len(points)} points open, {decisions} decisions")
    print(f"{functions} public functions and {files_read} files of theorems cite {len(found)} definitions")
    print(f"{len(sentences) + len(serves)} rows, {len(wrong)} wrong")
    sys.exit(1 if wrong else 0)


main()
