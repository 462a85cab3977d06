#!/usr/bin/env python3
"""run.py MAST [SMALL]: holds the program MAST against naive.py: samples, made and damaged files, options, streams, help, a file of 100 MB.

SMALL is a command of one word that runs the small program on standard input; where it is given, `MAST layout` must write what it writes, byte
for byte, and after a page one line more, on long counts. The last line is `N of N agree`, with status 0 where all do.
"""
import json, os, pathlib, random, re, shlex, struct, subprocess, sys, tempfile, time
from array import array
sys.dont_write_bytecode = True  # nothing is left beside the scripts
import naive
from naive import KINDS, PRIME, STAND_IN, Facts, Options

SAMPLES = pathlib.Path(__file__).resolve().parents[2] / "samples"
COMMANDS = ("layout", "roots", "nodes", "map", "lookup", "check")
ONE = (1, 0, 0, 0)  # a key that the samples have
HEAD = b"MAST\0\0\0\2"
OTHER = Facts(b"MASU", bytes([3, 2, 1]), 0x40, 0x03, 30)  # no two of these words can change places unseen
SHOWN = 20  # differences that are shown; the others are counted
tried = agreed = 0


def hold(asked, holds, wanted, got, times=1):
    """Counts a comparison, and shows one that does not hold."""
    global tried, agreed
    tried, agreed = tried + times, agreed + (times if holds else 0)
    if not holds and tried - agreed - times < SHOWN:
        print(f"--- {asked}\nwanted: {wanted}\ngot:    {got}", flush=True)


def run(words, given=b"", program=None, **streams):
    done = subprocess.run([program or MAST, *words], input=given, **{"stdout": subprocess.PIPE, "stderr": subprocess.PIPE, **streams})
    return done.stdout, (done.stderr or b"").decode(errors="replace"), done.returncode


def agrees(got, output, errors, status):
    return got[0] == output and re.fullmatch(errors, got[1]) is not None and got[2] == status


def hold_run(words, output, errors, status, given=b"", note=""):
    """One run: all of standard output, a pattern for all of standard error, and the status."""
    got = run(words, given)
    hold(shlex.join(["mast", *words]) + note, agrees(got, output, errors, status), (output, errors, status), got)


def hold_wrong(*words, given=b""):
    """Wrong use: status 2, nothing on standard output, a reason on standard error."""
    hold_run(words, b"", r"mast: .+\n(.+\n)?", 2, given)


def facts_word(facts):
    return f"{facts.magic.hex()},{facts.version.hex()},{facts.hashless:02x},{facts.reserved:02X},{facts.maximum}"


def words_of(options):
    first, end = options.span
    words = [] if options.facts is STAND_IN else ["--facts", facts_word(options.facts)]
    words += [] if options.hashless_allowed else ["--no-hashless"]
    words += [] if options.bound is None else [f"--bound={options.bound}"]
    return words + ([] if options.span == (0, None) else [f"--range={first or ''}..{'' if end is None else end}"])


def hold_files(command, files, options=Options(), key=ONE):
    """A command on files (name, bytes) in one call, as text and as JSON; where that differs, each file is tried alone, to show the one that does."""
    for as_json in (False, True):
        words = [command] + ([naive.hex_key(key)] if command == "lookup" else []) + words_of(options) + (["--json"] if as_json else [])
        wanted, got = naive.page(command, files, as_json, options, key), run(words + [name for name, _ in files])
        if agrees(got, *wanted) or tried - agreed >= SHOWN:
            hold("", agrees(got, *wanted), "", "", len(files))
            continue
        before = tried - agreed
        for name, data in files:
            hold_run(words + [name], *naive.page(command, [(name, data)], as_json, options, key), note=f"\n{name}: {data.hex()[:4000]}")
        if tried - agreed == before:  # each is as wanted alone
            hold(shlex.join(["mast", *words, *(name for name, _ in files)]), False, wanted, got)


def hold_small(files, facts=STAND_IN):
    """The same standard output as the small program's, which takes at most 65,536 bytes; after a page there is one line more."""
    for name, data in files if SMALL else []:
        wanted = run([] if facts is STAND_IN else facts_word(facts).split(","), data, SMALL)[0]
        more = rb"" if wanted.startswith(b"refused ") else rb"long counts \d+ scan \d+ map \d+\n"
        got = run(["layout", *words_of(Options(facts)), name])[0]
        hold(f"mast layout beside the small program: {data.hex()[:4000]}", re.fullmatch(re.escape(wanted) + more, got), wanted, got)


def in_folder(files):
    for name, data in files:
        pathlib.Path(name).write_bytes(data)
    return files


def batches(files, size):
    return [files[i:i + size] for i in range(0, len(files), size)]


# Making files

def count(v, length=0):
    """v as a count of a given length from 1 to 9 where it fits, else of the shortest."""
    length = max(length, next((n for n in range(1, 9) if v < 1 << 7 * n), 9))
    return ((2 * v + 1) << length - 1).to_bytes(length, "little") if length < 9 else b"\0" + v.to_bytes(8, "little")


def any_entry(dice, index, nodes, wild):
    """An entry word: tame ones have their children before them, wild ones any number that fits, and at times one that does not."""
    tag = dice.choice([3, 6, 8]) if index == 0 and not wild else dice.randrange(9)
    before = dice.randrange(max(index, 1))
    number = dice.choice([before, before, dice.randrange(nodes + 2), 2**30 - 1]) if wild else before
    if tag < 2:
        return tag << 60 | number << 30 | dice.choice([before, number])
    if tag < 6:
        return tag << 60 | (dice.choice([2**32 - 1, 2**32, 2**60 - 1]) if wild and dice.random() < 0.005 else number)
    return tag << 60 | (dice.randrange(2**60) if wild and dice.random() < 0.1 else 0)


def any_numbers(dice, n, odds):
    """n numbers, each with these odds no element: the least that is none, the most that is one, and others."""
    one = lambda: dice.choice([PRIME, 2**64 - 1]) if dice.random() < odds else dice.choice([0, 7, PRIME - 1, dice.randrange(PRIME)])
    return struct.pack(f"<{n}Q", *(one() for _ in range(n)))


# Keys that are ordered otherwise by who compares bytes, or the last element first; the last of them is no word of elements
KEYS = [(a, b, c, d) for a in (0, 1, 256) for b in (0, PRIME - 1) for c in (0, 2) for d in (0, 2**32)] + [(0, 0, PRIME, 0)]


def any_map(dice, length):
    keys = dice.sample(KEYS[:-1], dice.randrange(13))
    if keys and dice.random() < 0.12:
        keys.append(dice.choice([keys[0], keys[-1], KEYS[-1]]))
    sizes = [dice.randrange(4) for _ in keys]
    pairs = (struct.pack("<4Q", *key) + count(n, length()) + any_numbers(dice, n, 0.05) for key, n in zip(keys, sizes))
    return count(len(keys), length()) + b"".join(pairs)


def any_file(dice, facts=STAND_IN):
    wild, long_counts, nodes = dice.random() < 0.6, dice.random() < 0.3, dice.randrange(41)
    length = lambda: dice.randrange(10) if long_counts else 0
    words = [any_entry(dice, i, nodes, wild) for i in range(nodes)]
    if not wild and dice.random() < 0.7:  # in the order that the check wants; a child may then come after its parent
        words.sort(key=lambda w: {8: 0, 3: 1}.get(w >> 60, 2))
    if words and dice.random() < 0.03:
        words[dice.randrange(nodes)] = dice.randrange(9, 16) << 60
    external = sum(w >> 60 == 8 for w in words)
    external += dice.choice([-1, 1]) if 0 < external < nodes and dice.random() < 0.05 else 0  # the header then differs from the entries
    flags = dice.choice([0, 0, facts.hashless]) | dice.choice([0, dice.randrange(256) & ~(facts.hashless | facts.reserved)])
    roots = [dice.randrange(nodes or 1) if dice.random() < 0.9 else dice.choice([nodes, 2**32 - 1]) for _ in range(dice.randrange(6))]
    blocks, odds = dice.randbytes(dice.randrange(40)), dice.choice([0, 0, 0.04])
    rows = external if flags & facts.hashless else nodes
    return b"".join([facts.magic, bytes([flags]), facts.version, count(nodes - external, length()), count(external, length()),
                     count(len(roots), length()), struct.pack(f"<{len(roots)}I", *roots), count(len(blocks), length()), blocks,
                     struct.pack(f"<{nodes}Q", *words), any_numbers(dice, 4 * rows, odds), any_map(dice, length),
                     dice.randbytes(dice.choice([0, 0, 0, 0, 1, 8, 40]))])


def edge_files():
    """Places of the scan and the walk that chance does not reach, each by a smallest file."""
    none, key, dyn = count(0), bytes(32), struct.pack("<Q", 6 << 60)
    pair = key + none
    bodies = [count(2**64 - 1) + count(1), count(2**64 - 1) + none, count(2**30), count(2**30 - 1) + count(1), count(2**30 - 1) + none,
              none * 2 + count(2**62), none * 2 + count(2**62 - 1), count(1) + none * 2 + count(2**64 - 40), count(1) + none * 2 + count(2**64 - 41),
              none * 3 + count(2**64 - 1), count(1) + none * 3 + dyn + bytes(31), count(2) + count(1) + none * 2 + dyn * 3 + bytes(96)]
    maps = [b"", count(0, 9), count(2**64 - 1), count(1) + key, count(1) + key + count(2**61), count(1) + key + count(2**61 - 1),
            count(1) + b"\xff" * 31, count(1) + b"\xff" * 32, count(2) + pair + key + count(1), count(2) + pair * 2, count(9) + pair]
    starts = [b"", b"XXX", b"XXXX", b"MAST", b"MAST\xff", b"MAST\0\0\0", b"MAST\xff\0\0\2", b"MAST\xff\0\0\3", b"MAST\1\0\0\2" + none * 5]
    return [(f"edge{i}.mast", data) for i, data in enumerate(starts + [HEAD + body for body in bodies] + [HEAD + none * 4 + rest for rest in maps])]


def damaged(dice, data):
    """A copy that is cut, or lengthened, or has a byte more, less or changed; half of the places are near the start, where the counts are."""
    at = dice.randrange(min(len(data), 40) + 1 if dice.random() < 0.5 else len(data) + 1)
    changed = dice.choice([dice.randrange(256), data[at] ^ 1 << dice.randrange(8)]) if at < len(data) else 0
    return dice.choice([data[:at], data + dice.randbytes(dice.randrange(1, 70)), data[:at] + dice.randbytes(1) + data[at:],
                        data[:at] + data[at + 1:], data[:at] + bytes([changed]) + data[at + 1:], data[:at] + bytes([changed]) + data[at + 1:]])


# The parts

def try_samples(samples):
    paper = ("nodes 3 internal 2 external 1\nroots 1 at 11\nblocks 1 at 16\nentries at 17\nexternal digests at 41\nnode hashes none\n"
             "advice at 73 end 74\nlong counts 0 scan 0 map 0\n")
    hold_run(["layout", "p10.mast"], paper.encode(), "", 0)
    for lengths in ((2, 1, 1, 1, 1), (1, 2, 1, 1, 1), (1, 1, 9, 1, 1), (1, 1, 1, 8, 1), (1, 1, 1, 1, 9), (9, 2, 3, 4, 5)):
        in_folder([("padded.mast", HEAD + b"".join(count(0, length) for length in lengths))])  # five times the count 0
        scan, advice = sum(length > 1 for length in lengths[:4]), int(lengths[4] > 1)
        got = run(["layout", "padded.mast"])
        wanted = f"long counts {scan + advice} scan {scan} map {advice}"
        hold(f"mast layout, counts of {lengths} bytes", got[0].decode().splitlines()[7:] == [wanted] and got[1:] == ("", 0), wanted, got)
    for file in samples:
        for command in COMMANDS:
            for key in (ONE, (0, 2, 0, 0), (5, 5, 5, 5)) if command == "lookup" else (ONE,):
                hold_files(command, [file], key=key)
    hold_small(samples)


def try_made_files(samples):
    dice = random.Random(1)
    made, edges = in_folder([(f"made{i}.mast", any_file(dice)) for i in range(360)]), in_folder(edge_files())
    other = in_folder([(f"other{i}.mast", any_file(dice, OTHER)) for i in range(40)])
    for batch in batches(made, 20) + batches(edges, 8):
        for command in COMMANDS:
            for key in dice.sample(KEYS, 12) if command == "lookup" else (ONE,):
                hold_files(command, batch, key=key)
    for batch in batches(made + edges, 10):
        first, end = sorted(dice.choices(range(45), k=2))
        for options in (Options(bound=dice.choice([0, 7, 100, 400, 800, 1600])), Options(hashless_allowed=False)):
            for command in COMMANDS:
                hold_files(command, batch, options)
        for span in ((first, end), (0, end), (first, None)):
            hold_files("nodes", batch, Options(span=span))
    for command in COMMANDS:
        hold_files(command, other, Options(OTHER))
    pool = [data for _, data in samples + made + edges]
    copies = in_folder([(f"damaged{i}.mast", damaged(dice, dice.choice(pool))) for i in range(1500)])
    for batch in batches(copies, 50):
        hold_files("layout", batch)
        hold_files("check", batch)
    hold_small(made + edges + copies)
    hold_small(other, OTHER)
    reached = {n for n in range(1, 23) if n not in (14, 20, 21)}  # a digest that is not there is no refusal, tables are as long as needed
    hold("the refusals that these files reach", naive.met == reached, reached, naive.met)


def try_options(samples):
    """Facts, bounds and ranges: right ones beside the reader, and wrong ones."""
    p10, hashed = (dict(samples)[name] for name in ("p10.mast", "p10-hashes.mast"))
    other = in_folder([("other.mast", OTHER.magic + b"\x44" + OTHER.version + p10[8:])])
    changes = [{}, {"magic": b"MAST"}, {"version": bytes(3)}, *({"hashless": mask} for mask in (0x80, 0x44, 0)),
               *({"reserved": mask} for mask in (7, 0x40)), *({"maximum": n} for n in (2, 3, 2**30, 2**30 + 1, 2**64 - 1))]
    for command in COMMANDS:
        for change in changes:  # each word changed alone gives the answer of its own place
            hold_files(command, other, Options(OTHER._replace(**change)))
        for name, data, least in (("p10.mast", p10, 57), ("p10-hashes.mast", hashed, 121)):  # the bytes of all sections together
            for bound in (least, least - 1, 64, 63, 32, 31, 24, 23, 4, 3, 0, 2**64 - 1):
                hold_files(command, [(name, data)], Options(bound=bound))
            hold_files(command, [(name, data)], Options(hashless_allowed=False))
    for span in ((0, 1), (1, 3), (1, None), (0, 2), (0, 3), (2, 2), (0, 0), (3, 3), (3, None), (7, None), (0, 4), (3, 4), (2, 9), (9, 9), (0, 2**31)):
        hold_files("nodes", [("p10.mast", p10), ("p10-hashes.mast", hashed)], Options(span=span))
    for word in ("", ",", "4D415354", "4D415354,000002,02,FC", "4D41535,000002,02,FC,3", "4D415354,00002,02,FC,3", "4D415354,000002,2,FC,3",
                 "4D415354,000002,02,F,3", "4D415354,000002,02,FC,", "4D415354,000002,02,FC,x", "4D415354,000002,02,FC,-1", "4D41535g,000002,02,FC,3",
                 "4D415354,000002,02,FC,18446744073709551616", "4D415354,000002,02,FC,3,3", "4D415354 000002 02 FC 3"):
        hold_wrong("layout", "--facts", word, "p10.mast")
    for word in ("", "x", "-1", "+1", "1.5", "18446744073709551616"):
        hold_wrong("layout", "--bound", word, "p10.mast")
    for word in ("", "1", "2..1", "a..b", "1..b", "-1..2", "+1..2", "1..2..3", "...2", "1-2", "18446744073709551616.."):
        hold_wrong("nodes", "--range", word, "p10.mast")
    for words in (["layout"], ["roots"], ["map"], ["lookup", "1,0,0,0"], ["check"]):
        hold_wrong(*words, "--range", "0..1", "p10.mast")


def try_words(samples):
    """Where options, keys and files stand, and how they are written."""
    data = dict(samples)
    page = naive.page("layout", [("p10.mast", data["p10.mast"])])
    in_folder([("--json", data["p10.mast"])])
    facts = facts_word(STAND_IN)
    for line in ("--bound=57 p10.mast", "p10.mast --bound 57", "--bound 57 -- p10.mast", "-- --json", "./p10.mast", "-", "- --bound 57",
                 f"p10.mast --facts={facts.upper()}", f"--facts {facts.lower()} p10.mast"):
        hold_run(["layout", *line.split()], *page, given=data["p10.mast"])
    hold_run(["layout", "p10.mast", "-"], b"==> p10.mast <==\n" + page[0] + b"\n==> - <==\n" + page[0], "", 0, data["p10.mast"])
    hold_run(["layout", "-"], b"refused 9 at 17\n", r"mast: .+: refused 9 \(TAG\) at byte 17: .+\n", 1, data["bad-tag.mast"])
    hold_wrong("layout", "-", "-", given=data["p10.mast"])
    for line in ("", "layout", "layout --json", "lookup", "lookup 1,0,0,0", "lookup p10.mast", "p10.mast", "laid p10.mast", "--laid", "help laid",
                 "layout --laid p10.mast", "layout p10.mast --laid", "layout -x p10.mast", "layout p10.mast --bound", "layout p10.mast --facts",
                 "nodes p10.mast --range", "layout --json=1 p10.mast", "layout --no-hashless=1 p10.mast"):
        hold_wrong(*line.split())
    advice, digits = [("advice.mast", data["advice.mast"])], "01" + "00" * 31
    for key in ("1,0,0,0", digits, "0x" + digits, "01,0,00,0"):
        hold_run(["lookup", "--bound", "1000", key, "advice.mast"], *naive.page("lookup", advice, key=ONE))
    hold_run(["lookup", "0x" + "aB" * 32, "advice.mast"], *naive.page("lookup", advice, key=struct.unpack("<4Q", b"\xab" * 32)))
    for key in ("", "1,0,0", "1,0,0,0,0", "1,0,0,", "1,0,0,x", "1,0,0,-1", "1,0,0,18446744073709551616", digits[1:], digits + "0", digits[1:] + "g"):
        hold_wrong("lookup", key, "advice.mast")


def try_names(samples):
    """Files that cannot be read, and names that a text or JSON might stumble over."""
    data = dict(samples)
    page = naive.page("layout", [("p10.mast", data["p10.mast"])])
    os.mkdir("folder")
    for name in ("missing.mast", "folder", ""):
        hold_run(["layout", name], b"", rf"mast: {name}: .+\n", 2)
        got = run(["check", "--json", name])
        named = list(parsed(got[0]) or {}) == ["file", "error"] and parsed(got[0])["file"] == name
        hold(f"mast check --json {name!r}", named and re.fullmatch(rf"mast: {name}: .+\n", got[1]) and got[2] == 2, "a name and an error", got)
    # the other files are still told, and the worst status counts
    three = b"==> missing.mast <==\n\n==> bad-tag.mast <==\nrefused 9 at 17\n\n==> p10.mast <==\n" + page[0]
    hold_run(["layout", "missing.mast", "bad-tag.mast", "p10.mast"], three, r"mast: missing.mast: .+\nmast: bad-tag.mast: refused 9 .+\n", 2)
    for name in ("a b.mast", "a\"'\\b.mast", "a\nb\t.mast", "\u00e9\u20ac\u0001.mast"):  # text has them as they are, JSON is one line still
        in_folder([(name, data["p10.mast"])])
        hold_run(["layout", name, "p10.mast"], f"==> {name} <==\n".encode() + page[0] + b"\n==> p10.mast <==\n" + page[0], "", 0)
        for command in COMMANDS:
            got = run([command, *(["1,0,0,0"] if command == "lookup" else []), "--json", name])
            wanted = naive.answer(command, name, data["p10.mast"], key=ONE)[1]
            hold(f"mast {command} --json {name!r}", got[0].count(b"\n") == 1 and parsed(got[0]) == wanted and got[1:] == ("", 0), wanted, got)
    in_folder([(os.fsdecode(b"\xff.mast"), data["p10.mast"])])
    got = run(["layout", "--json", b"\xff.mast"])
    hold("a name that is no UTF-8", got[1:] == ("", 0) and (parsed(got[0]) or {}).get("node_count") == 3, "an object of JSON", got)


def parsed(line):
    try:
        return json.loads(line.decode())
    except ValueError:
        return None


def try_streams(samples):
    """Streams that are closed early or full."""
    in_folder([("long.mast", HEAD + count(20000) + count(0) * 3 + struct.pack("<Q", 6 << 60) * 20000 + bytes(32 * 20000) + count(0))])
    for words, wanted in ((["nodes"], b"node 0 at 14 Dyn "), (["nodes", "--json"], b'{"file":"long.mas')):
        process = subprocess.Popen([MAST, *words, "long.mast"], stdout=subprocess.PIPE, stderr=subprocess.PIPE)
        start = process.stdout.read(len(wanted))
        process.stdout.close()
        got = start, process.stderr.read(), process.wait()  # not all was told, so it is no success; the reader knows, so there is no complaint
        hold(f"mast {' '.join(words)} long.mast, its output closed early", got == (wanted, b"", 2), (wanted, b"", 2), got)
    for line, reason in (("layout bad-tag.mast", "refused 9 "), ("check root-beyond.mast", "refused 13 "), ("roots --json root-beyond.mast", "refused 13 "),
                         ("layout p10.mast missing", "")):
        reader, writer = os.pipe()
        os.close(reader)
        got = run(line.split(), stdout=writer)
        os.close(writer)
        hold(f"mast {line}, its output closed", reason in got[1] and got[2] == 2, (reason, 2), got)
    with open("output", "wb") as output:  # a standard input that cannot be read is no empty file
        process = subprocess.run([MAST, "layout", "-"], stdin=output, capture_output=True)
    hold("mast layout -, its input only written to", process.returncode == 2 and process.stdout == b"", "status 2 and no page", process)
    got = subprocess.run([MAST, "roots", "--json", "root-beyond.mast"], stdout=subprocess.PIPE, stderr=subprocess.STDOUT).stdout.splitlines()
    hold("mast roots --json, both streams in one", len(got) == 2 and parsed(got[0]) and got[1].startswith(b"mast: "), "a line each", got)
    if not os.path.exists("/dev/full"):
        return print("there is no /dev/full: that part is skipped")
    with open("/dev/full", "wb") as full:
        for line in ("layout p10.mast", "nodes long.mast", "check --json p10.mast", "layout bad-tag.mast", "--help", "--version"):
            got = run(line.split(), stdout=full)
            hold(f"mast {line}, standard output full", got[2] == 2 and got[1].startswith("mast: "), "status 2 and a complaint", got)
        for line, output in (("layout bad-tag.mast", b"refused 9 at 17\n"), ("layout missing.mast", b""), ("laid", b"")):
            got = run(line.split(), stderr=full)  # what cannot be complained of is still told by the status, and by no other than the help's
            hold(f"mast {line}, standard error full", got[0] == output and got[2] in (1, 2), (output, "status 1 or 2"), got)


def try_help(samples):
    in_folder([("program.mast", HEAD + count(25) + count(0) + count(1) + bytes(4) + count(0) + struct.pack("<Q", 3 << 60) * 25 + bytes(32 * 25)
                + count(1) + struct.pack("<4Q", *ONE) + count(1) + bytes(8))])  # enough for the help's examples
    whole = run(["--help"])
    text = whole[0].decode()
    named = {head: re.findall(r"^  (\S.*)$", text.split(f"\n{head}\n")[1].split("\n\n")[0], re.M) for head in ("COMMANDS", "OPTIONS", "EXAMPLES")}
    commands = [line.split()[0] for line in named["COMMANDS"]]
    hold("mast --help", whole[1:] == ("", 0) and sorted(commands) == sorted(COMMANDS) and named["EXAMPLES"], "every command, and examples", whole)
    for words in (["-h"], ["help"]):
        hold_run(words, whole[0], "", 0)
    for command in commands:
        own, key = run([command, "--help"]), ["1,0,0,0"] if command == "lookup" else []
        options = re.findall(r"^  (-.*)$", own[0].decode(), re.M)
        wanted = [line for line in named["OPTIONS"] if "--range" not in line or command == "nodes"]
        hold(f"mast {command} --help", own[1:] == ("", 0) and f"mast {command} " in own[0].decode() and options == wanted, wanted, own)
        for words in (["help", command], [command, "-h"], [command, "program.mast", "--help"]):
            hold_run(words, own[0], "", 0)
        for line in options + [""]:  # with each option that it names, and with none
            value = {"WORDS": [facts_word(STAND_IN).upper()], "BYTES": ["2000"], "A..B": ["0..1"]}.get(line.split(" ")[-1], [])
            for word in re.findall(r"-+\w[-\w]*", line) or [None]:
                got = run([command, *key, *([word] if word else []), *value, "program.mast"])
                hold(f"mast {command} {word} {value} program.mast", got[1:] == ("", 0) and got[0], "something, and status 0", got)
        text += own[0].decode()
    hold("the facts that the help names", facts_word(STAND_IN).upper() in text, facts_word(STAND_IN).upper(), text)
    hold("the width of the help", max(map(len, text.splitlines())) <= 82, "at most 82", max(text.splitlines(), key=len))
    for example in named["EXAMPLES"]:
        got = run(["-c", example.replace("mast ", shlex.quote(MAST) + " ", 1).replace("*.mast", "p10*.mast")], program="sh")
        hold(example, got[1:] == ("", 0) and got[0], "something, and status 0", got)
    for word in ("--version", "-V"):
        got = run([word])
        hold(f"mast {word}", re.fullmatch(rb"mast \d+\.\d+\.\d+\b.*\n", got[0]) and got[1:] == ("", 0), "a name and a version", got)


def try_big_file(samples):
    """Some 100 MB. Digest row r is the numbers 4r to 4r + 3, so that a digest tells its row; externals, then blocks, then seven kinds in turn."""
    external, blocks, others, pairs, block_length = 200_000, 500_000, 800_000, 300_000, 28_000_000
    nodes, first_other = external + blocks + others, external + blocks
    turn = [KINDS.index(kind) for kind in ("Join", "Split", "Loop", "Call", "SysCall", "Dyn", "Dyncall")]
    children = lambda i: [i - 2, i - 1] if i % 7 < 2 else [i // 2] if i % 7 < 5 else []
    entry = lambda i: ("External", []) if i < external else ("Block", [i - external]) if i < first_other else (KINDS[turn[i % 7]], children(i))
    keys = [(i * 0x9E3779B1 % 2**32 % 1000, i * 0x9E3779B1 % 2**32, 0, i) for i in range(pairs)]  # an odd factor: none twice, and not rising
    pack = struct.Struct("<4QBQ").pack  # a key, the count 1, a value: 41 bytes
    advice = count(pairs) + b"".join(pack(*key, 3, i) for i, key in enumerate(keys))
    start = HEAD + count(nodes - external) + count(external) + count(2)
    block_at = len(start) + 8 + len(count(block_length))
    entries_at, digests_at = block_at + block_length, block_at + block_length + 8 * nodes
    map_at = digests_at + 32 * nodes
    end, pair_at = map_at + len(advice), map_at + len(count(pairs))
    with open("big.mast", "wb") as file:
        file.writelines([start, struct.pack("<2I", nodes - 1, 0), count(block_length), bytes(block_length),
                         array("Q", (naive.written(*entry(i)) for i in range(nodes))), array("Q", range(4 * nodes)), advice])
    page = (f"nodes {nodes} internal {nodes - external} external {external}\nroots 2 at {len(start)}\nblocks {block_length} at {block_at}\n"
            f"entries at {entries_at}\nexternal digests at {digests_at}\nnode hashes at {digests_at + 32 * external}\nadvice at {map_at} end {end}\n"
            "long counts 0 scan 0 map 0\n")
    began = time.monotonic()
    hold_run(["layout", "big.mast"], page.encode(), "", 0)
    print(f"mast layout took {time.monotonic() - began:.2f} s on {end:,} bytes")
    hold_run(["check", "big.mast"], b"roots ok\nchildren ok\norder ok\nstrict ok\nmap ok\ntrailing ok\n", "", 0)
    for first in (external - 2, first_other - 2, nodes // 2, nodes - 4):
        text = ""
        for i in range(first, first + 4):  # as externals are the first nodes, the rows of both sections together are in node order
            (kind, own), row = entry(i), "0x" + struct.pack("<4Q", *range(4 * i, 4 * i + 4)).hex()
            text += naive.node_text({"node": i, "at": entries_at + 8 * i, "kind": kind, "children": own, "ops_offset": i - external,
                                     "slot": i if i < external else i - external, "digest": row, "digest_at": digests_at + 32 * i}) + "\n"
        hold_run(["nodes", "--range", f"{first}..{first + 4}", "big.mast"], text.encode(), "", 0)
    rows = sorted(naive.Row(key, pair_at + 41 * i, 1, pair_at + 41 * i + 33) for i, key in enumerate(keys))
    for key in (keys[123_456], (500, 1, 2, 3)):
        row, compared = naive.lookup(rows, key)
        text, values = ("absent", "") if row is None else (f"found values 1 at {row.values_at}", f"value {key[3]} at {row.values_at}\n")
        hold_run(["lookup", naive.hex_key(key), "big.mast"], f"key {naive.hex_key(key)} {text} compared {compared}\n{values}".encode(), "", 0)
    if os.path.exists("/proc/self/limits"):  # with little memory it ends with 2, and never otherwise
        ended = [run(["-c", f'ulimit -v {kilobytes}; exec "$0" nodes --range 0..1 big.mast', MAST], program="sh")[2]
                 for kilobytes in range(20_000, 140_000, 2_000)]
        hold("mast nodes big.mast, with 20 to 140 MB of memory", set(ended) == {0, 2} and ended == sorted(ended, reverse=True), "2, then 0", ended)
    with open("big.mast", "r+b") as file:  # the last key becomes the first one
        file.seek(end - 41)
        file.write(struct.pack("<4Q", *keys[0]))
    hold_run(["layout", "big.mast"], f"refused 19 at {end - 41}\n".encode(), rf"mast: big.mast: refused 19 \(DUPLICATE\) at byte {end - 41}: .+\n", 1)


def main():
    with tempfile.TemporaryDirectory() as folder:
        os.chdir(folder)
        samples = in_folder([(path.name, path.read_bytes()) for path in sorted(SAMPLES.glob("*.mast"))])
        for part in (try_samples, try_made_files, try_options, try_words, try_names, try_streams, try_help, try_big_file):
            before = tried
            part(samples)
            print(f"{part.__name__}: {tried - before} tried", flush=True)
        os.chdir("/")
    print("" if SMALL else "no small program was given: that part is skipped\n", end="")
    print(f"{agreed} of {tried} agree")
    return 0 if agreed == tried else 1


if __name__ == "__main__":
    if len(sys.argv) not in (2, 3):
        sys.exit(__doc__)
    MAST, SMALL = os.path.abspath(sys.argv[1]), os.path.abspath(sys.argv[2]) if len(sys.argv) == 3 else None
    sys.exit(main())
