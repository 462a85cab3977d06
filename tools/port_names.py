#!/usr/bin/env python3
"""Respells the names of this repository's own definitions and lemmas, once, after port.py: words in snake case, types in camel case.

    tools/port_names.py [ROOT]

A name of specs/ or proofs/ in lower camel case becomes snake case, as `firstMet` first_met; one that gives a type becomes upper camel case, as
`noneMet` NoneMet. Between words a dash becomes `_`, as in `read_is_form`; it stays where it joins the names of two functions, as in `length-rows`.
A lemma that would then have a function's name gets `_lem`. The proof of a function f is f_spec. What the check makes of the source (after `c.` or
`tie.`), functions and variables of src/, exported names, names in capitals (as NO-HASH, a refusal's), strings and files keep their names. Pages
are respelled inside backticks alone, and so is a name with dashes in a comment, but where a comment lists names, one a line.
"""
import collections
import glob
import os
import re
import sys

NAME = re.compile(r"[^\W\d][\w'₀-₉]*(?:-[\w'₀-₉]+)*")
# a declaration: its modifiers, its name, its parameters, and what follows the colon
DECLARED = re.compile(r"^(\s*)((?:abbrev |unfoldable |pub )*)([^\W\d][\w'₀-₉-]*)((?: [({][^()]*(?:\([^()]*\)[^()]*)*[)}])*) :(?: (.*))?$")
DATA = re.compile(r"^\s*(?:pub )?(?:data|record) ([\w'-]+)", re.M)
ALIAS = re.compile(r"\bas ([a-z][\w'-]*)")
MODULE_ALIAS = re.compile(r"^use (Rattle\.[\w.'-]+) as ([\w'-]+)", re.M)
# of the library, or of the check
KEPT = {"uint_Makes", "uint_Tells", "shr_slice_Tells", "shr_slice_Lawful", "walk_Meets", "is_IsWord", "Own-s", "Own-l"}
MADE = ("Tie", "Lts", "Goals", "Given", "Reads", "Met", "Code", "Statement")
# functions by whose name a lemma on another function begins
HEADS = {"length", "take", "drop", "sets", "slice", "get_or", "le", "le_bytes"}


def snake(part):
    """`firstMet` is first_met; a word that begins with a capital stays."""
    if part[0].isupper():
        return part
    part = re.sub(r"([A-Z]+)(?=[A-Z][a-z])", lambda m: "_" + m.group(1).lower(), part)
    return re.sub(r"(_?)([A-Z])", lambda m: "_" + m.group(2).lower(), part)


def upper_camel(name):
    words = re.sub(r"([A-Z])", r" \1", name).replace("-", " ").replace("_", " ").split()
    return "".join(w[0].upper() + w[1:] for w in words)


def spelled(name, functions):
    parts = name.split("-")
    if parts[-1] == "spec":
        return "_".join(parts)
    if name.upper() == name:
        return name
    out = snake(parts[0])
    for i, right in enumerate(parts[1:]):
        joins = i == 0 and snake(parts[0]) in HEADS and (right in functions or snake(right) in functions)
        out += ("-" if joins else "_") + snake(right)
    return out


def files(root, *patterns):
    for p in patterns:
        for f in sorted(glob.glob(os.path.join(root, p), recursive=True)):
            if "/out/" not in f and "/target/" not in f:
                yield f


def read(f):
    with open(f, encoding="utf-8") as it:
        return it.read()


def declarations(text):
    """Each declared name of a file, whether it is a definition, and whether it gives a type."""
    lines = text.split("\n")
    for i, line in enumerate(lines):
        m = None if line.lstrip().startswith("--") else DECLARED.match(line)
        if not m:
            continue
        indent, how, name, said = m.group(1), m.group(2), m.group(3), m.group(5) or ""
        for more in lines[i + 1:]:
            deeper = len(more) - len(more.lstrip()) > len(indent)
            if not more.strip() or not deeper or more.lstrip().startswith("--") or re.match(r"\s*" + re.escape(name) + r"\b.*=", more):
                break
            said += " " + more.strip()
        defined = bool(re.search(r"\b(abbrev|unfoldable)\b", how))
        yield name, defined, defined and bool(re.search(r"(?:^|→ )Type 0\s*$", said))


def used(texts, name):
    """The files that have a name outside comments."""
    whole = re.compile(r"(?<![\w'-])" + re.escape(name) + r"(?![\w'-])")
    return {f for f, text in texts.items() if whole.search(re.sub(r"--(?= ).*", "", text))}


def table(root):
    """Old name to new name, of every name that changes."""
    texts = {f: read(f) for f in files(root, "crates/*/specs/**/*.antt", "crates/*/proofs/**/*.antt")}
    functions, types, declared = set(HEADS), set(), collections.defaultdict(set)
    for f, text in texts.items():
        types.update(DATA.findall(text))
        for name, defined, gives_type in declarations(text):
            declared[name].add(f)
            if defined:
                functions.add(name)
            if gives_type:
                types.add(name)
        for name in re.findall(r"\blet ([^\W\d][\w'-]*)", text):
            declared[name].add(f)
        for name in NAME.findall(re.sub(r"--.*", "", text)):
            if re.match(r"[a-z][a-z_]*[A-Z]", name) and "-" not in name and not re.match(r"x[0-9A-F_]+$", name):
                declared[name].add(f)
    new = {}
    for name in sorted(declared):
        if name in KEPT:
            continue
        new[name] = upper_camel(name) if name in types and name[0].islower() else spelled(name, functions)
    # two names of which one is a function's: the other is the lemma on it
    meet = collections.defaultdict(list)
    for name, to in new.items():
        meet[to].append(name)
    for to, names in meet.items():
        if len(names) > 1:
            own = [n for n in names if n in functions] or [n for n in names if "-" not in n and n != to]
            for n in names:
                # one of specs/ that no file has beside the other keeps its own name
                apart = any("/specs/" in f for f in declared[n]) and not used(texts, n) & used(texts, own[0])
                if n != own[0] and not apart:
                    new[n] = to + "_lem"
    return {n: to for n, to in new.items() if n != to}, declared


def clashes(new, declared):
    """Two names that fall together in a file, and a new name that stood for something else."""
    for old, to in sorted(new.items()):
        for other in declared:
            if other != old and new.get(other, other) == to and declared[other] & declared[old]:
                yield old, other, to


def plain(text, at):
    """Whether the place is in a comment's own words: not in backticks, and not in a list of names at the comment's left."""
    start = text.rfind("\n", 0, at) + 1
    line = text[start:text.find("\n", at) if "\n" in text[at:] else len(text)]
    mark = re.search(r"--(?= |$)|//|^#|^says:", line)
    if not mark or mark.start() > at - start:
        return False
    before = line[mark.end():at - start]
    return before.count("`") % 2 == 0 and not re.match(r"\s{3,}(?:[\w'-]+, )*$", before)


def respelled(text, new, aliases):
    """The text in the new spelling. After a dot a name with dashes is the check's, but behind the name of one of the repository's own modules."""
    def one(m):
        name, at = m.group(0), m.start()
        if "-" in name and plain(text, at):
            return name
        if at and text[at - 1] == "." and "-" in name:
            head = re.search(r"([^\W\d][\w'₀-₉-]*)\.$", text[max(0, at - 80):at])
            if not head or head.group(1) not in aliases:
                return name
        return new.get(name, name)
    return NAME.sub(one, text)


def local(text, new):
    """What a file brings in under a name of its own: in snake case, with `_call` where the file has that name already."""
    own = {}
    names = {new.get(n, n) for n in re.findall(r"(?<![.\w'-])" + NAME.pattern, text)}
    for alias in set(ALIAS.findall(text)):
        to = "_".join(snake(p) for p in alias.split("-"))
        if to != alias:
            own[alias] = to + "_call" if to in names else to
        elif alias in new:
            own[alias] = alias
    return own


def main(root):
    new, declared = table(root)
    together = list(clashes(new, declared))
    for old, other, to in together:
        print(f"falls together: {old} and {other} are {to}")
    if together:
        return 1
    # in the sources a name with neither a capital nor a dash is a function's or a variable's
    turned = {n: to for n, to in new.items() if "-" in n or n.lower() != n}
    changed = 0
    for f in files(root, "crates/*/specs/**/*.antt", "crates/*/proofs/**/*.antt", "crates/*/src/**/*.rt", "crates/*/must-fail/*.edit"):
        text = read(f)
        own = {m.group(2) for m in MODULE_ALIAS.finditer(text) if m.group(1).rsplit(".", 1)[-1] not in MADE}
        names = new | local(text, new) if f.endswith(".antt") else turned
        result = respelled(text, names, own)
        if result != text:
            with open(f, "w", encoding="utf-8") as it:
                it.write(result)
            changed += 1
    for f in files(root, "README.md", "CHANGELOG.md", "docs/**/*.md", "tests/**/*.md", "tests/**/list.txt"):
        text = read(f)
        if f.endswith(".md"):
            result = re.sub(r"`[^`\n]+`", lambda m: respelled(m.group(0), turned, set()), text)
        else:
            result = respelled(text, turned, set())
        if result != text:
            with open(f, "w", encoding="utf-8") as it:
                it.write(result)
            changed += 1
    print(f"{len(new)} names respelled, {changed} files changed")
    return 0


if __name__ == "__main__":
    raise SystemExit(main(sys.argv[1] if len(sys.argv) > 1 else "."))
