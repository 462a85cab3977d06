#!/usr/bin/env python3
"""Every imported name is used, and every law is cited: fails with the list of those that are not.

    check.py         says what is unused, by file and line
    check.py --fix   takes unused names out of the imports

A name counts as used if it stands anywhere else in its file outside comments; an operator `◌+◌` where `+` stands, and `◌>>=◌` where a `do` block
does; a trait of std where one of its functions is called. A law (a `pub` name declared in proofs/*.antt; those of crate promises are the
conclusions) counts as cited if it stands anywhere but in its own declaration, in a file under crates/ or in a paper under docs/. Names are compared
as words, so a law that shares its name with something else counts as cited.
"""
import re
import sys
from collections import Counter
from pathlib import Path

ROOT = Path(__file__).resolve().parents[2]
USE = re.compile(r'^[ \t]*(?:ghost )?use\s+([^;\n{]+?)(?:(?:\.|::)\{([^}]*)\}|\s+as\s+(\S+?))?;?[ \t]*$', re.M)
WORD = re.compile(r'\[\][^\s(){},;.«»"\[\]`⌜⌝]*|[^\s(){},;.«»"\[\]`⌜⌝]+')
CALLED = {'◌>>=◌': {'do'}, 'Read': {'read', 'read_exact', 'read_to_end'}, 'Write': {'write', 'write_all', 'flush'}}
DECLARED = re.compile(r'^( *)(?:(?:abbrev|unfoldable)\s+)?pub\s+([^\s:]+)\s*:', re.M)


def bare(path):
    """The text without comments, with its lines and places as they were."""
    mark = '//' if path.suffix == '.rt' else '--'
    return re.sub(r'(?<!\S)' + mark + r'.*', lambda m: ' ' * len(m.group()), path.read_text())


def body(code):
    """The code without its imports."""
    return USE.sub('', code)


def words(code):
    found = set(WORD.findall(code))
    for word in list(found):
        found.update(re.findall(r"[\w'′₀-₉-]+", word))
        found.update(re.split(r'::|[&!?*<>=:]', word))
    return found | {'>>='} if 'do' in found else found


def is_used(name, found):
    return name in found or '◌' in name and all(p in found for p in name.split('◌') if p) or bool(CALLED.get(name, set()) & found)


def unused(code):
    """The imports of a file that it does not use: line, the import, and the item in its braces, or None for a whole import."""
    found = words(body(code))
    for m in USE.finditer(code):
        line = code.count('\n', 0, m.start()) + 1
        if m.group(2) is None:
            name = m.group(3) or re.split(r'::|\.', m.group(1).strip())[-1]
            if not is_used(name, found):
                yield line, m, None
            continue
        for item in filter(None, (i.strip() for i in m.group(2).split(','))):
            if not is_used(item.split(' as ')[-1].strip(), found):
                yield line, m, item


def without(text, drops):
    """The text with those items taken out."""
    for m in sorted({d[1] for d in drops}, key=lambda m: -m.start()):
        gone = {d[2] for d in drops if d[1] is m}
        kept = [] if None in gone else [i.strip() for i in m.group(2).split(',') if i.strip() and i.strip() not in gone]
        line = text[m.start():m.end()]
        if kept:
            text = text[:m.start()] + line[:line.index('{') + 1] + ', '.join(kept) + line[line.rindex('}'):] + text[m.end():]
        else:
            text = text[:m.start()] + text[m.end() + 1:]
    return text


def laws(code):
    """The names that are declared outside records, with their lines and in how many lines of their own they stand."""
    for m in DECLARED.finditer(code):
        above = [l for l in code[:m.start()].split('\n') if l.strip() and len(l) - len(l.lstrip()) < len(m.group(1))]
        if m.group(1) and above and 'record' in above[-1].split():
            continue
        own = re.findall(r'^' + m.group(1) + r'(?:(?:(?:abbrev|unfoldable)\s+)?pub\s+)?' + re.escape(m.group(2)) + r'(?=\s)', code, re.M)
        yield m.group(2), code.count('\n', 0, m.start(2)) + 1, len(own)


def main():
    fix = '--fix' in sys.argv[1:]
    files = sorted(p for p in (ROOT / 'crates').rglob('*') if p.suffix in ('.antt', '.rt') and 'out' not in p.relative_to(ROOT).parts)
    wrong = 0
    named = Counter()
    for path in files:
        drops = list(unused(bare(path)))
        for line, m, item in drops:
            wrong += 1
            print(f'{path.relative_to(ROOT)}:{line}: unused: {item or m.group(1).strip()}')
        if fix and drops:
            path.write_text(without(path.read_text(), drops))
        code = body(bare(path))
        named.update(WORD.findall(code))
        # a function's attribute names a law by its whole path, of which the last word is its name
        for attribute in re.findall(r'#\[tactic\((.*?)\)\]', code, re.S):
            named.update(path.split('::')[-1] for path in re.findall(r"[\w:'-]+", attribute))
    for path in (ROOT / 'docs').rglob('*.md'):
        named.update(re.findall(r'[^\s`(),;:|]+', path.read_text()))
    for path in files:
        if path.parent.name == 'proofs' and path.parent.parent.name != 'promises':
            for name, line, own in laws(bare(path)):
                if named[name] <= own:
                    wrong += 1
                    print(f'{path.relative_to(ROOT)}:{line}: cited by nothing: {name}')
    print(f'imports: {len(files)} files, {wrong} wrong')
    return 1 if wrong else 0


if __name__ == '__main__':
    sys.exit(main())
