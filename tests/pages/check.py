#!/usr/bin/env python3
"""Every public function has no `requires`, and its lines on the page of its crate (crates/promises/proofs/OfCRATE.antt): that it asks nothing and
allows one answer (NAME_answers; or, where no plain result is promised, NAME_asks with NAME_one or NAME_leaves), and for all memory that it is lent to
write to that what it leaves is one (NAME_leaves..). NAME_crosses says it of an exported function's number, of its answer where it has one, and
of its place. Main names every page. A static library has no page: its functions promise what a library's of their names do (tools/signatures.py).
Methods count as functions do. What stands in a module that is not `pub`, and from which the crate's root brings nothing out by `pub use`, is not
public. Fails with what is missing.
"""
import re
import sys
from pathlib import Path

ROOT = Path(__file__).resolve().parents[2]
PAGES = ROOT / 'crates/promises/proofs'
FUNCTION = re.compile(r'^([ \t]*)pub fn (\w+)(?:<[^>]*>)?(\(.*?\))[^{]*?(?=\n\s*(?:requires|ensures|\{))(.*?)^\1\{', re.M | re.S)


def main():
    wrong, total = [], 0
    main_page = (PAGES / 'Main.antt').read_text()
    static = set(re.findall(r'^(\w+) staticlib:', (ROOT / 'crates.txt').read_text(), re.M))
    for crate in sorted(p for p in (ROOT / 'crates').iterdir() if (p / 'src/lib.rt').exists() and p.name not in static):
        title = 'Of' + crate.name.capitalize()
        page = PAGES / (title + '.antt')
        declared = re.findall(r'^  pub (\w+) :', page.read_text(), re.M) if page.exists() else []
        root = (crate / 'src/lib.rt').read_text()
        inner = set(re.findall(r'^mod (\w+);', root, re.M)) - set(re.findall(r'^pub use (?:crate::|self::)?(\w+)', root, re.M))
        names = []
        for path in sorted(crate.glob('src/**/*.rt')):
            if path.relative_to(crate / 'src').parts[0].removesuffix('.rt') in inner:
                continue
            code = re.sub(r'//[^\n]*', '', path.read_text())
            for m in FUNCTION.finditer(code):
                name = m.group(2)
                if name in names:
                    wrong.append(f'{crate.name}: {name}: is the name of two functions, and has one line')
                names.append(name)
                if re.search(r'^\s*requires\b', m.group(4), re.M):
                    wrong.append(f'{crate.name}: {name}: has a requires')
                lent = m.group(3).count('&mut ')
                crosses = f'{name}_crosses' in declared
                left = sum(d.startswith(f'{name}_leaves') for d in declared) + crosses * min(lent, 2)
                if f'{name}_answers' not in declared and not crosses and not (f'{name}_asks' in declared and (left or f'{name}_one' in declared)):
                    wrong.append(f'{page.name}: no {name}_answers')
                if left != lent:
                    wrong.append(f'{page.name}: {name} is lent {lent} to write to, and {left} are said to be one')
        total += len(names)
        if names and f'proofs.{title}.' not in main_page:
            wrong.append(f'Main.antt: does not name {title}')
    for line in wrong:
        print(line)
    print(f'pages: {total} public functions, {len(wrong)} wrong')
    return 1 if wrong else 0


if __name__ == '__main__':
    sys.exit(main())
