#!/usr/bin/env python3
"""make.py [--check | --list]: writes the sample files beside it, from the format alone, under the small program's stand-in facts, and the table of
them in README.md, between its two marks.

With --check nothing is written: each file and the table are held to what would be, with status 0 where all is as it should be. With --list it prints
NAME STATUS TEXT of each file: the status with which `mast-layout` ends, and what it prints, `\\n` for a newline but for the last.
"""
import pathlib, struct, sys

HERE = pathlib.Path(__file__).resolve().parent
README = HERE.parent / "README.md"
BEGIN, END = "<!-- samples: written by samples/make.py -->\n", "<!-- /samples -->\n"
MAGIC, VERSION, HASHLESS = b"MAST", bytes([0, 0, 2]), 2


def count(v, more=0):
    """v in its shortest form, or in so many bytes more, up to nine."""
    n = more + next((n for n in range(1, 9) if v < 1 << 7 * n), 9)
    return ((2 * v + 1) << (n - 1)).to_bytes(n, "little") if n < 9 else b"\0" + v.to_bytes(8, "little")


def join(a, b):
    return a << 30 | b


def block(offset):
    return 3 << 60 | offset


DYN, EXTERNAL = 6 << 60, 8 << 60


def forest(flags, entries, roots, blocks, advice=(), digests=None, more=0):
    """A file of entry words, digests (of the external nodes and then of the others; zero if not given), and advice entries (key of four numbers,
    values), each count so many bytes longer than it need be; and its page."""
    external = sum(w == EXTERNAL for w in entries)
    internal = len(entries) - external
    digests = digests or bytes(32 * len(entries))
    out = MAGIC + bytes([flags]) + VERSION + count(internal, more) + count(external, more) + count(len(roots), more)
    page = f"nodes {len(entries)} internal {internal} external {external}\nroots {len(roots)} at {len(out)}\n"
    out += b"".join(struct.pack("<I", r) for r in roots) + count(len(blocks), more)
    page += f"blocks {len(blocks)} at {len(out)}\n"
    out += blocks
    page += f"entries at {len(out)}\n"
    out += b"".join(struct.pack("<Q", w) for w in entries)
    page += f"external digests at {len(out)}\n"
    out += digests[: 32 * external]
    page += "node hashes none\n" if flags & HASHLESS else f"node hashes at {len(out)}\n"
    out += b"" if flags & HASHLESS else digests[32 * external :]
    page += f"advice at {len(out)} "
    out += count(len(advice), more)
    for key, values in advice:
        out += struct.pack("<4Q", *key) + count(len(values), more) + struct.pack(f"<{len(values)}Q", *values)
    return out, page + f"end {len(out)}"


def refused(number, place):
    return f"refused {number} at {place}"


P10 = [EXTERNAL, block(0), join(0, 1)]
ADVICE = [((1, 0, 0, 0), [7, 8, 9]), ((0, 2, 0, 0), [])]
LINKED, RISING = [EXTERNAL, EXTERNAL, block(0), join(0, 2)], bytes(range(128))
hashless, hashless_page = forest(HASHLESS, P10, [2], b"\xab")
hashes, hashes_page = forest(0, P10, [2], b"\xab")
twice, _ = forest(HASHLESS, P10, [2], b"\xab", [((1, 0, 0, 0), []), ((1, 0, 0, 0), [])])
# Of each file: what it is, its bytes, and what `mast-layout` prints. Each of the last five is accepted, and fails one check that a store may ask for
# besides: the description names it, with its place.
FILES = {
    "p10.mast": ("P10 of the paper, which is hashless", hashless, hashless_page),
    "p10-hashes.mast": ("P10 with hashes", hashes, hashes_page),
    "advice.mast": ("with hashes, and a map of two entries", *forest(0, P10, [2], b"\xab", ADVICE)),
    "long.mast": ("the same, each of its seven counts a byte too long", *forest(0, P10, [2], b"\xab", ADVICE, more=1)),
    "empty.mast": ("no node, no root, an empty map", *forest(0, [], [], b"")),
    "digests.mast": ("two external nodes and two others, with digests of rising bytes", *forest(0, LINKED, [3], b"\xab", digests=RISING)),
    "short.mast": ("three bytes of wrong magic", b"XXX", refused(1, 0)),
    "bad-magic.mast": ("P10 with another first byte", b"X" + hashless[1:], refused(2, 0)),
    "bad-tag.mast": ("P10 with tag 9 in its first entry", hashless[:24] + b"\x90" + hashless[25:], refused(9, 17)),
    "twice.mast": ("P10 with one key twice in its map", twice, refused(19, 107)),
    "trailing.mast": ("with hashes; a line of a log follows the map", hashes + b"log: stored\n", hashes_page),
    "root-beyond.mast": ("with hashes; root 1 is node 3 of three: ROOT-ID at 1", *forest(0, P10, [2, 3], b"\xab")),
    "forward.mast": ("with hashes; node 2 joins nodes 0 and 3: FORWARD at 2", *forest(0, [*P10[:2], join(0, 3), join(0, 1)], [2], b"\xab")),
    "disorder.mast": ("with hashes; a Block after a Join: ORDER at 3", *forest(0, [*P10, block(0)], [2], b"\xab")),
    "not-canonical.mast": ("with hashes; a Dyn with a payload: NOT-CANONICAL at 3", *forest(0, [*P10, DYN | 1], [2], b"\xab")),
}


def status(text):
    return 1 if text.startswith("refused ") else 0


def table():
    out = "| File | Bytes | What it is | `mast-layout` says | Status |\n|---|---|---|---|---|\n"
    for name, (what, data, text) in FILES.items():
        says = f"`{text}`" if status(text) else "the page, `" + text[text.rindex("end ") :] + "`"
        out += f"| {name} | {len(data)} | {what} | {says} | {status(text)} |\n"
    return out


def with_table(text):
    """README's text with the table between its marks, or None if it does not have one of each, in turn."""
    if text.count(BEGIN) != 1 or text.count(END) != 1 or text.index(BEGIN) > text.index(END):
        return None
    return text[: text.index(BEGIN) + len(BEGIN)] + table() + text[text.index(END) :]


def wrong():
    """What is not as it would be written."""
    there = {path.name for path in HERE.glob("*.mast")}
    found = [f"samples/{name}: make.py does not make it" for name in sorted(there - set(FILES))]
    found += [f"samples/{name}: is missing" for name in FILES if name not in there]
    found += [f"samples/{name}: differs" for name, (_, data, _) in FILES.items() if name in there and (HERE / name).read_bytes() != data]
    text = README.read_text()
    return found + ["README.md: the table of the samples differs, or its marks"] * (with_table(text) != text)


def main(words):
    if words == ["--list"]:
        for name, (_, _, text) in FILES.items():
            print(name, status(text), text.replace("\n", "\\n"))
    elif words == ["--check"]:
        found = wrong()
        print(*found, f"samples: {len(FILES)} files and their table, {len(found)} wrong", sep="\n")
        return 1 if found else 0
    elif words:
        print("usage: make.py [--check | --list]", file=sys.stderr)
        return 2
    else:
        text = with_table(README.read_text())
        if text is None:
            sys.exit("samples: README.md does not have the two marks of the table, one of each; nothing is written")
        for name, (_, data, _) in FILES.items():
            (HERE / name).write_bytes(data)
            print(name, len(data))
        README.write_text(text)
    return 0


sys.exit(main(sys.argv[1:]))
