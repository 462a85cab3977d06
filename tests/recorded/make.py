#!/usr/bin/env python3
"""make.py ORACLE MODEL: writes crates/recorded/stdin and crates/recorded/stdout.

ORACLE is the program mast-oracle (the published Rust over shims), MODEL the folder that has model.py.
The program `recorded` calls the exported functions of include/vekalumist.h and holds what they return
and leave in lent memory to the answers that are written here.

stdin is ASCII text. NUMBERS are decimal numbers without leading zeros, each followed by one space, so
an empty group is no byte at all. Every line ends in a newline, and no line is blank.

    @TITLE                     begins a section, whose title is printed; the file is empty now
    =NUMBERS                   the file from here on: its bytes
    NUMBERS;NUMBERS;NUMBERS    a case: the call and what is given; lent memory before; the answer

The first number of a case is the call, its place in CALLS below from 1 on. The answer is the number
that the function returns; the place of a refusal afterwards, which held 900 before; the places of the
answer afterwards, as many as the function has (ANSWERS below), of which place i held 901 + i before, and
the flags byte 91; and all of the lent memory afterwards. The calls 2, 20 and 23 record the number that
they return, and nothing else. What is given, and what is lent after the bar:

    1 veka_read_count        at                      13 veka_slots          layout bound | slots
    2 veka_shortest_len      v                       14 veka_write_count    at v | output
    3 veka_decode_entry      word                    15 veka_walk           at | keys
    4 veka_encode_entry      kind first second       16 veka_lookup         key n | keys
    5 veka_scan              facts allow bound       17 veka_values         key n | keys
    6 veka_root              layout index            18 veka_write          facts parts | output
    7 veka_entry             layout index            19 veka_flags
    8 veka_children          layout                  20 veka_places         at
    9 veka_order             layout                  21 veka_key            index | keys
   10 veka_strict            layout                  22 veka_map_entry      index | keys
   11 veka_digest            layout index            23 veka_version
   12 veka_digest_with_table layout index | slots

facts are ten numbers, of which nine are bytes, a layout twelve, a key four, in the header's order; a bound
is two: 0 and any number for none, else any other number and the bytes. Slots are numbers below 2^32, an
output is bytes. The parts to write are the flags, eight ends and the numbers themselves: flags b0 b1 w k l v
r o .. The file holds the parts that are bytes: blocks up to b0, external digests from there to b1, hashes to
its end. The others lie in what is given, whose first fact is number 0: words from 19 to w, keys to k, lengths
to l, values to v, roots to r, the claimed order of keys to o, where the list ends. The program has room for a
file of 98,304 bytes, groups of 4,096, 4,096 and 8,192 numbers, and 3,000,000 bytes of text.

stdout has a line for each section, `A agree: TITLE`, and at its end `N agree in all`.

What the layers below do is asked through the calls that show it: one number, entry or word of a file
through veka_root, veka_entry and veka_digest over a layout made for it, many entries through veka_slots, the
order of two words through veka_walk and veka_lookup. No call shows refusal_number, is_short, u64_at,
read_u64, row_place and digest_place by themselves: these are held by their contracts alone.

Each answer has up to three sources, which have to agree: the published Rust, model.py, and the plain
statement of document 01 in this file. What is counted as a case's source is the first of the three
that has an answer. A case that would come twice comes once.
"""
import functools
import random
import subprocess
import sys
from pathlib import Path

TOP = 2**64 - 1
MODULUS = 2**64 - 2**32 + 1
FAR = (2**63, TOP - 7, TOP)  # places that no file reaches
(SHORT, MAGIC, VERSION, FLAGS, HASHLESS, OVERFLOW, TOO_MANY, BUDGET, TAG, PAYLOAD, EXTERNALS, INDEX,
 ROOT_ID) = range(1, 14)
NO_HASH, CHILD_RANGE, FORWARD, ORDER, ELEMENT, DUPLICATE, ROOM, FORMAT, NOT_CANONICAL, PARTS = range(14, 24)
KINDS = "Join Split Loop Block Call SysCall Dyn Dyncall External".split()
CALLS = ("veka_read_count veka_shortest_len veka_decode_entry veka_encode_entry veka_scan veka_root veka_entry veka_children "
         "veka_order veka_strict veka_digest veka_digest_with_table veka_slots veka_write_count veka_walk veka_lookup veka_values "
         "veka_write veka_flags veka_places veka_key veka_map_entry veka_version").split()
# how many places the answer of each call has; None: it returns a number and cannot refuse
ANSWERS = dict(zip(CALLS, (4, None, 3, 1, 13, 1, 3, 0, 0, 0, 4, 4, 2, 1, 4, 4, 3, 1, 1, None, 4, 6, None)))
PLACE = 900  # the place before a call
LINKED = 400  # what veka_version says
rng = random.Random()

# ---- document 01, and request 2 on long counts: bytes and numbers to an answer, which is 0 and values, or a refusal's number and its place


def le(b):
    return sum(x << 8 * i for i, x in enumerate(b))


def is_short(s, at, n):
    return len(s) < at + n


def read_count(s, at):
    if is_short(s, at, 1):
        return [SHORT, at]
    zeros = 8 if s[at] == 0 else [s[at] >> i & 1 for i in range(8)].index(1)
    size = zeros + 1
    if is_short(s, at, size):
        return [SHORT, at]
    value = le(s[at:at + size]) >> size if size <= 8 else le(s[at + 1:at + 9])
    return [0, value, size, at + size]


def shortest_len(v):
    return next((size for size in range(1, 9) if v < 2**(7 * size)), 9)


def is_long(value, size):
    """More bytes than the shortest form."""
    return size > shortest_len(value)


def count_at(s, at):
    """The count, and 1 if it is the shortest."""
    number, *said = read_count(s, at)
    return [number, *said] if number else [0, *said, int(not is_long(*said[:2]))]


def form(v, size):
    """v as a count of `size` bytes."""
    number = (2 * v + 1) << size - 1 if size <= 8 else v << 8
    return list(number.to_bytes(size, "little"))


def write_count(out, at, v):
    """The answer and the output after it."""
    size = shortest_len(v)
    if is_short(out, at, size):
        return [ROOM, at], out
    return [0, at + size], out[:at] + form(v, size) + out[at + size:]


def word_at(s, at):
    return [le(s[at + i:at + i + 8]) for i in (0, 8, 16, 24)]


def check_word(s, at):
    if is_short(s, at, 32):
        return [SHORT, at]
    return [0, at + 32] if all(x < MODULUS for x in word_at(s, at)) else [ELEMENT, at]


def decode(word, place):
    tag, payload = word // 2**60, word % 2**60
    if tag > 8:
        return [TAG, place]
    if tag < 2:
        return [0, tag, payload // 2**30, payload % 2**30]
    if tag > 5:
        return [0, tag, 0, 0]
    return [PAYLOAD, place] if payload > 2**32 - 1 else [0, tag, payload, 0]


def encode_entry(kind, first, second):
    if kind > 8:
        return [INDEX, kind]
    if kind < 2:
        wide = first >= 2**30 or second >= 2**30
        return [PAYLOAD, 0] if wide else [0, kind * 2**60 + first * 2**30 + second]
    if kind < 6:
        return [PAYLOAD, 0] if first >= 2**32 else [0, kind * 2**60 + first]
    return [0, kind * 2**60]


def over(n):
    """By how much a number is above those of 64 bits: above 0 if it is."""
    return n - TOP


def ones(n):
    return bin(n).count("1")


def bad_format(facts):
    *_, hashless, reserved, maximum = facts
    return ones(hashless) != 1 or hashless & reserved != 0 or maximum > 2**30


def missing(s, at, n):
    return at + n - len(s)


def count_missing(s, at):
    size = 1 if is_short(s, at, 1) else 9 if s[at] == 0 else (s[at] & -s[at]).bit_length()
    return missing(s, at, size)


def scan_rules(s, facts, allow, bound):
    """The scan's table, a line at a time: name, number, place, and by how much the rule is broken, which
    is 0 or less if it is not. Past a broken rule nothing is asked. The last line is the layout, and how many
    counts are long."""
    magic, version, (mask, reserved, maximum) = facts[:4], facts[4:7], facts[7:]

    def beyond(size, count):
        return count - bound[1] // size if bound[0] else 0

    yield "FORMAT", FORMAT, 0, int(bad_format(facts))
    yield "SHORT magic", SHORT, 0, missing(s, 0, 4)
    yield "MAGIC", MAGIC, 0, int(s[:4] != magic)
    yield "SHORT flags", SHORT, 4, missing(s, 4, 1)
    yield "SHORT version", SHORT, 5, missing(s, 5, 3)
    yield "VERSION", VERSION, 5, int(s[5:8] != version)
    yield "FLAGS", FLAGS, 4, ones(s[4] & reserved)
    hashless = s[4] & mask != 0
    yield "HASHLESS", HASHLESS, 4, int(hashless and not allow)
    yield "SHORT internal count", SHORT, 8, count_missing(s, 8)
    _, internal, _, external_at = read_count(s, 8)
    yield "SHORT external count", SHORT, external_at, count_missing(s, external_at)
    _, external, _, roots_at = read_count(s, external_at)
    nodes = internal + external
    yield "OVERFLOW nodes", OVERFLOW, 8, over(nodes)
    yield "TOO-MANY", TOO_MANY, 8, nodes - maximum
    yield "BUDGET nodes", BUDGET, 8, beyond(8, nodes)
    yield "BUDGET externals", BUDGET, 8, beyond(32, external)
    yield "BUDGET internals", BUDGET, 8, 0 if hashless else beyond(32, internal)
    yield "SHORT roots count", SHORT, roots_at, count_missing(s, roots_at)
    _, roots, _, rows_at = read_count(s, roots_at)
    yield "BUDGET roots", BUDGET, roots_at, beyond(4, roots)
    yield "OVERFLOW roots", OVERFLOW, roots_at, over(4 * roots)
    yield "SHORT roots", SHORT, rows_at, missing(s, rows_at, 4 * roots)
    length_at = rows_at + 4 * roots
    yield "SHORT block length", SHORT, length_at, count_missing(s, length_at)
    _, length, _, data_at = read_count(s, length_at)
    hashes = 0 if hashless else 32 * internal
    sections = length + 8 * nodes + 32 * external + hashes
    yield "OVERFLOW sections", OVERFLOW, length_at, over(sections)
    yield "BUDGET sections", BUDGET, length_at, beyond(1, sections)
    yield "SHORT sections", SHORT, data_at, missing(s, data_at, sections)
    entries_at = data_at + length
    places = range(entries_at, entries_at + 8 * nodes, 8)
    words = [le(s[at:at + 8]) for at in places]
    for at, word in zip(places, words):
        yield "TAG", TAG, at, word // 2**60 - 8
        yield "PAYLOAD", PAYLOAD, at, int(word // 2**60 in (2, 3, 4, 5)) * (word % 2**60 - 2**32 + 1)
    counted = sum(word // 2**60 == 8 for word in words)
    yield "EXTERNALS", EXTERNALS, external_at, abs(counted - external)
    digests_at = entries_at + 8 * nodes
    hashes_at = digests_at + 32 * external
    long = (is_long(internal, external_at - 8) + is_long(external, roots_at - external_at)
            + is_long(roots, rows_at - roots_at) + is_long(length, data_at - length_at))
    yield None, 0, [nodes, internal, external, roots, rows_at, data_at, length, entries_at, digests_at,
                    *((0, 0) if hashless else (1, hashes_at)), hashes_at + hashes, long], 1


def looked_at(s, args):
    """The lines of the table down to the first that is broken, or to the layout."""
    for rule in scan_rules(s, list(args[:10]), args[10], args[11:]):
        yield rule
        if rule[3] > 0:
            return


def scan_layout(s, *args):
    *_, (line, number, value, _) = looked_at(s, args)
    return [number, value] if line else [number, *value]


def row_place(section, size, i):
    at = section + size * i
    return [OVERFLOW] if over(at + size) > 0 else [0, at]


def row_read(s, section, size, i, read):
    number, *at = row_place(section, size, i)
    if number:
        return [number, i]
    return [SHORT, i] if is_short(s, *at, size) else read(le(s[at[0]:at[0] + size]))


def row_entry(s, first, i):
    return row_read(s, first, 8, i, lambda word: decode(word, i))


def root_at(s, *args):
    i = args[12]
    if args[3] <= i:
        return [INDEX, i]
    return row_read(s, args[4], 4, i, lambda id: [ROOT_ID, i] if args[0] <= id else [0, id])


def entry_at(s, *args):
    return [INDEX, args[12]] if args[0] <= args[12] else row_entry(s, args[7], args[12])


def digest_in(s, args, external, slot):
    """The digest in a slot of the section of a kind."""
    i = args[12]
    if not external and not args[9]:
        return [NO_HASH, i]
    number, *at = row_place(args[8] if external else args[10], 32, slot)
    if number:
        return [number, i]
    number, _ = check_word(s, *at)
    return [number, i] if number else [0, *word_at(s, *at)]


def digest_by_counting(s, *args):
    i = args[12]
    if args[0] <= i:
        return [INDEX, i]
    kinds = []
    for j in range(i + 1):
        number, kind, *_ = row_entry(s, args[7], j)
        if number:
            return [number, kind]
        kinds.append(kind == 8)
    return digest_in(s, args, kinds[i], kinds[:i].count(kinds[i]))


def digest_with_table(s, args, table):
    i = args[12]
    if args[0] <= i:
        return [INDEX, i]
    if len(table) < args[0]:
        return [ROOM, i]
    number, kind, *_ = row_entry(s, args[7], i)
    return [number, kind] if number else digest_in(s, args, kind == 8, table[i])


def build_slots(s, args, table):
    """The answer and the table after it."""
    nodes, (is_bound, bound) = args[0], args[12:14]
    if nodes > 2**30:
        return [TOO_MANY, 0], table
    if is_bound and bound < 4 * nodes:
        return [BUDGET, 0], table
    if len(table) < nodes:
        return [ROOM, 0], table
    slots, seen = [], [0, 0]
    for i in range(nodes):
        number, kind, *_ = row_entry(s, args[7], i)
        if number:
            return [number, kind], table
        slots.append(seen[kind == 8])
        seen[kind == 8] += 1
    left = (1, bound - 4 * nodes) if is_bound else (0, 0)
    return [0, *left], slots + table[nodes:]


def each_node(judge):
    """A check of all nodes: `judge` has the number of a refusal or 0."""
    def check(s, *args):
        before = []
        for i in range(args[0]):
            number, *entry = row_entry(s, args[7], i)
            if number:
                return [number, i]
            at = args[7] + 8 * i
            number = judge(i, args[0], entry, before, s[at:at + 8])
            if number:
                return [number, i]
            before.append(entry)
        return [0]
    return check


def children_of(kind, left, right):
    return {0: [left, right], 1: [left, right], 2: [left], 4: [left], 5: [left]}.get(kind, [])


def judge_children(i, nodes, entry, before, row):
    for child in children_of(*entry):
        if child >= nodes:
            return CHILD_RANGE
        if child >= i:
            return FORWARD
    return 0


def judge_order(i, nodes, entry, before, row):
    def rank(kind):
        return {8: 0, 3: 1}.get(kind, 2)
    return ORDER if before and rank(entry[0]) < rank(before[-1][0]) else 0


def judge_strict(i, nodes, entry, before, row):
    return 0 if encode_entry(*entry)[1] == le(row) else NOT_CANONICAL


def map_values(s, length_at):
    """The length and the values there: a refusal, or 0, their place and their number."""
    read = read_count(s, length_at)
    if read[0]:
        return read
    _, length, _, at = read
    if over(8 * length) > 0:
        return [OVERFLOW, length_at]
    return [SHORT, at] if is_short(s, at, 8 * length) else [0, at, length]


def walk(s, at, room):
    """The key offsets by rising keys, the end, and how many counts are long; or the number of a refusal and its place."""
    read = read_count(s, at)
    if read[0]:
        return read
    _, n, size, at = read
    long, seen = is_long(n, size), {}
    for _ in range(n):
        if len(seen) == room:
            return [ROOM, at]
        read = check_word(s, at)
        if read[0]:
            return read
        number, *values = map_values(s, at + 32)
        if number:
            return [number, *values]
        key = tuple(word_at(s, at))
        if key in seen:
            return [DUPLICATE, at]
        seen[key] = at
        long += is_long(values[1], values[0] - at - 32)
        at = values[0] + 8 * values[1]
    return [0, [seen[key] for key in sorted(seen)], at, int(long)]


def walk_map(s, at, table):
    """The answer and the table after it."""
    number, *rest = walk(s, at, len(table))
    if number:
        return [number, *rest], [0] * len(table)
    keys, end, long = rest
    return [0, len(keys), end, len(s) - end, long], keys + table[len(keys):]


def lookup(s, args, table):
    key, n = list(args[:4]), args[4]
    if len(table) < n:
        return [ROOM, n]
    low, size, compared = 0, n, 0
    while size:
        middle = low + size // 2
        at = table[middle]
        if is_short(s, at, 32):
            return [SHORT, at]
        compared += 1
        there = word_at(s, at)
        if key == there:
            number, *values = map_values(s, at + 32)
            if number:
                return [number, *values]
            for place in range(values[0], values[0] + 8 * values[1], 8):
                if le(s[place:place + 8]) >= MODULUS:
                    return [ELEMENT, place]
            return [0, 1, *values, compared]
        low, size = (low, size // 2) if key < there else (middle + 1, size - size // 2 - 1)
    return [0, 0, 0, 0, compared]


def values(s, args, table):
    number, *found = lookup(s, args, table)
    return [number, *found] if number else [0, found[0], found[1], 8 * found[2]]


def flags(s):
    return [SHORT, 4] if is_short(s, 4, 1) else [0, s[4]]


def places(s, at):
    """No more than the count says, and than the entries that begin in the file, the least of which has 33 bytes."""
    number, *count = read_count(s, at)
    return 0 if number else min(count[0], (len(s) - count[2]) // 33 + 1)


def key_at(s, i, table):
    if len(table) <= i:
        return [INDEX, i]
    number, at = check_word(s, table[i])
    return [number, at] if number else [0, *word_at(s, table[i])]


def map_entry(s, i, table):
    number, *key = key_at(s, i, table)
    if number:
        return [number, *key]
    number, *values = map_values(s, table[i] + 32)
    return [number, *values] if number else [0, *key, values[1], values[0]]


# ---- the writer: parts are flags, roots, block bytes, entry words, bytes of external digests and of hashes,
# keys (four numbers each), value lengths, values


def canonical(word):
    """The written form of the entry that a word reads as."""
    return encode_entry(*decode(word, 0)[1:])[1]


def as_read(parts):
    flags, roots, block, words, *rest = parts
    return [flags, roots, block, [canonical(word) for word in words], *rest]


def little(numbers, width):
    return [b for x in numbers for b in x.to_bytes(width, "little")]


def external_count(words):
    return sum(word >> 60 == 8 for word in words)


def file_of(facts, parts, sizes=()):
    """The file of these parts, its entries as they stand. Each count has its shortest form, or `sizes` bytes,
    in the order of the file: internal, external, roots, block length, map count, value lengths."""
    flags, roots, block, words, external, hashes, keys, lengths, held = parts
    sizes = [*sizes, *[0] * (5 + len(lengths))]
    externals = external_count(words)
    values = [len(words) - externals, externals, len(roots), len(block), len(lengths), *lengths]
    counts = [form(v, size or shortest_len(v)) for v, size in zip(values, sizes)]
    s = [*facts[:4], flags, *facts[4:7], *counts[0], *counts[1], *counts[2], *little(roots, 4)]
    s += counts[3] + block + little(words, 8) + external + hashes + counts[4]
    used = 0
    for i, length in enumerate(lengths):
        s += little(keys[4 * i:4 * i + 4], 8) + counts[5 + i] + little(held[used:used + length], 8)
        used += length
    return s


def file_length(parts):
    """By the numbers of things alone: also of parts that do not fit together."""
    flags, roots, block, words, external, hashes, keys, lengths, held = parts
    externals = external_count(words)
    counts = [len(words) - externals, externals, len(roots), len(block), len(lengths), *lengths]
    return (8 + sum(map(shortest_len, counts)) + 4 * len(roots) + len(block) + 8 * len(words) + len(external)
            + len(hashes) + 8 * len(keys) + 8 * len(held))


def writer_rules(facts, parts, room):
    """The writer's table: name, number, place, whether it is met. All lines are asked of any parts."""
    flags, roots, block, words, external, hashes, keys, lengths, held = parts
    mask, reserved, maximum = facts[7:]
    externals = external_count(words)
    yield "FORMAT", FORMAT, 0, bad_format(facts)
    yield "FLAGS", FLAGS, 4, flags & reserved != 0
    yield "TOO-MANY", TOO_MANY, 0, len(words) > maximum
    for i, word in enumerate(words):
        yield "TAG", TAG, i, word // 2**60 > 8
        yield "PAYLOAD", PAYLOAD, i, word // 2**60 in (2, 3, 4, 5) and word % 2**60 > 2**32 - 1
    yield "PARTS 1", PARTS, 1, len(external) != 32 * externals
    yield "PARTS 2", PARTS, 2, len(hashes) != (0 if flags & mask else 32 * (len(words) - externals))
    yield "PARTS 3", PARTS, 3, len(keys) != 4 * len(lengths)
    yield "PARTS 4", PARTS, 4, len(held) != sum(lengths)
    rows = [tuple(keys[4 * i:4 * i + 4]) for i in range(len(lengths))]
    for i, key in enumerate(rows):
        yield "ELEMENT", ELEMENT, i, any(x >= MODULUS for x in key)
        yield "DUPLICATE", DUPLICATE, i, key in rows[:i]
    yield "OVERFLOW", OVERFLOW, 0, over(file_length(parts)) > 0
    yield "ROOM", ROOM, file_length(parts), room < file_length(parts)


def met(facts, parts, room):
    return [(name, number, place) for name, number, place, is_met in writer_rules(facts, parts, room) if is_met]


def write(facts, parts, out):
    """The answer and the output after it."""
    refusals = met(facts, parts, len(out))
    if refusals:
        return list(refusals[0][1:]), out
    written = file_of(facts, as_read(parts))
    assert len(written) == file_length(parts)
    return [0, len(written)], written + out[len(written):]


def counts_of(s):
    """The four counts of a file that the scan accepts."""
    counts = [read_count(s, 8)]
    counts += [read_count(s, counts[0][3])]
    counts += [read_count(s, counts[1][3])]
    _, roots, _, roots_at = counts[2]
    return counts + [read_count(s, roots_at + 4 * roots)]


def file_parts(s, facts):
    """The parts of a file that scan and walk accept, its map's end, and its counts' lengths beside the shortest."""
    number, nodes, internal, external, roots, roots_at, blocks_at, block, entries_at, digests_at, hashed, hashes_at, at, _ = (
        scan_layout(s, *facts, 1, 0, 0))
    assert number == 0
    end_of_digests = hashes_at if hashed else at
    parts = [s[4], [le(s[k:k + 4]) for k in range(roots_at, roots_at + 4 * roots, 4)], s[blocks_at:blocks_at + block],
             [le(s[k:k + 8]) for k in range(entries_at, entries_at + 8 * nodes, 8)], s[digests_at:end_of_digests],
             s[end_of_digests:at], [], [], []]
    counts = [*counts_of(s), read_count(s, at)]
    walked = walk(s, at, TOP)
    _, n, _, at = counts[4]
    for _ in range(n):
        counts += [read_count(s, at + 32)]
        _, length, _, values_at = counts[-1]
        parts[6] += word_at(s, at)
        parts[7] += [length]
        at = values_at + 8 * length
        parts[8] += [le(s[k:k + 8]) for k in range(values_at, at, 8)]
    assert walked[0] == 0 and len(walked[1]) == n and walked[2] == at
    return parts, at, [(size, shortest_len(value)) for _, value, size, _ in counts]


def listed(facts, parts, order=()):
    """Facts and parts as they are given to veka_write, and the file that holds the byte parts."""
    flags, roots, block, words, external, hashes, *of_map = parts
    given = [*facts, flags, len(block), len(block) + len(external)]
    groups = [words, *of_map, roots, list(order)]
    ends = [19 + sum(map(len, groups[:i + 1])) for i in range(6)]
    return given + ends + sum(groups, []), block + external + hashes


def unlisted(s, given):
    """Facts and parts from what is given to veka_write: what it claims of the order of keys changes no answer."""
    flags, b0, b1, *ends = given[10:19]
    assert b0 <= b1 <= len(s) and [19, *ends] == sorted([19, *ends]) and ends[5] == len(given)
    words, keys, lengths, held, roots, _ = (given[a:b] for a, b in zip([19, *ends], ends))
    return given[:10], [flags, roots, s[:b0], words, s[b0:b1], s[b1:], keys, lengths, held]


# ---- the calls: file, what is given and what is lent to an answer and what is lent after it


def leaves(answer):
    """A call that lends nothing, or leaves it as it was."""
    return lambda s, given, lent: (answer(s, *given), lent)


DOCUMENT = {
    "veka_read_count": leaves(count_at),
    "veka_shortest_len": leaves(lambda s, v: [0, shortest_len(v)]),
    "veka_decode_entry": leaves(lambda s, word: decode(word, 0)),
    "veka_encode_entry": leaves(lambda s, *entry: encode_entry(*entry)),
    "veka_scan": leaves(scan_layout),
    "veka_root": leaves(root_at),
    "veka_entry": leaves(entry_at),
    "veka_children": leaves(each_node(judge_children)),
    "veka_order": leaves(each_node(judge_order)),
    "veka_strict": leaves(each_node(judge_strict)),
    "veka_digest": leaves(digest_by_counting),
    "veka_digest_with_table": lambda s, given, lent: (digest_with_table(s, given, lent), lent),
    "veka_slots": build_slots,
    "veka_write_count": lambda s, given, lent: write_count(lent, *given),
    "veka_walk": lambda s, given, lent: walk_map(s, *given, lent),
    "veka_lookup": lambda s, given, lent: (lookup(s, given, lent), lent),
    "veka_values": lambda s, given, lent: (values(s, given, lent), lent),
    "veka_write": lambda s, given, lent: write(*unlisted(s, given), lent),
    "veka_flags": leaves(flags),
    "veka_places": leaves(lambda s, at: [0, places(s, at)]),
    "veka_key": lambda s, given, lent: (key_at(s, *given, lent), lent),
    "veka_map_entry": lambda s, given, lent: (map_entry(s, *given, lent), lent),
    "veka_version": leaves(lambda s: [0, LINKED]),
}
assert list(DOCUMENT) == CALLS

# ---- the model, where it has the call


def modelled(model):
    read = []  # the number and the bytes of each count that the model reads
    plain_count = model.count

    def noted(s, at, *reader):
        value, end = plain_count(s, at, *reader)
        read.append((value, end - at))
        return value, end

    model.count = noted

    def long_ones():
        """How many were long, by the bits of their numbers: the model itself has no such answer."""
        return sum(size > (9 if value >= 2**56 else max((value.bit_length() + 6) // 7, 1)) for value, size in read)

    def refusing(f):
        def answer(s, *args):
            read.clear()
            try:
                return f(bytes(s), *args)
            except model.Refused as r:
                return [r.number, r.place]
        return answer

    def simple(f):
        return lambda s, given, lent: (refusing(f)(s, *given), lent)

    def count(s, at):
        value, end = model.count(s, at)
        return [0, value, end - at, end, 1 - long_ones()]

    def shown(kind, ids):
        return [0, kind, *ids, 0, 0][:4]

    def encoded(s, kind, *ids):
        return [0, model.le(model.write_entry(kind, ids[:(2, 2, 1, 1, 1, 1, 0, 0, 0)[kind]]))]

    def scanned(s, *args):
        facts = type("Facts", (), dict(zip(("hashless", "reserved", "max_nodes"), args[7:10])))
        facts.magic, facts.version = bytes(args[:4]), bytes(args[4:7])
        lay = model.scan(s, args[10], args[12] if args[11] else None, f=facts)[1]
        *fields, hashes, map_at = (getattr(lay, name) for name in model.FIELDS.split())
        return [0, *fields, *((0, 0) if hashes is None else (1, hashes)), map_at, long_ones()]

    def layout(args):
        return model.Layout(*args[:9], args[10] if args[9] else None, args[11])

    def digest(s, args, *table):
        word = model.digest(s, layout(args), args[12], *table)
        return [0, *(model.le(word[k:k + 8]) for k in (0, 8, 16, 24))]

    def checks(check):
        return simple(lambda s, *args: [0, *(check(s, layout(args)) or ())])

    def strict(s, lay):
        for i in range(lay.nodes):
            kind, ids = model.node(s, lay, i)
            at = lay.entries_at + 8 * i
            model.need(model.write_entry(kind, ids) == s[at:at + 8], NOT_CANONICAL, i)

    def slots(s, given, lent):
        bound = given[13] if given[12] else None
        try:
            rows, left = model.slots(bytes(s), layout(given), bound)
        except model.Refused as r:
            return [r.number, r.place], lent
        return [0, *((0, 0) if left is None else (1, left))], rows + lent[len(rows):]

    def walked(s, given, lent):
        read.clear()
        try:
            rows, end = model.walk(bytes(s), *given)
        except model.Refused as r:
            return [r.number, r.place], [0] * len(lent)
        return [0, len(rows), end, len(s) - end, long_ones()], [row[1] for row in rows] + lent[len(rows):]

    answers = {
        "veka_read_count": simple(count),
        "veka_decode_entry": simple(lambda s, word: shown(*model.entry(word.to_bytes(8, "little"), 0, 0))),
        "veka_encode_entry": simple(encoded),
        "veka_scan": simple(scanned),
        "veka_root": simple(lambda s, *args: [0, model.root(s, layout(args), args[12])]),
        "veka_entry": simple(lambda s, *args: shown(*model.node(s, layout(args), args[12]))),
        "veka_children": checks(model.children),
        "veka_order": checks(model.order),
        "veka_strict": checks(strict),
        "veka_digest": simple(lambda s, *args: digest(s, args)),
        "veka_digest_with_table": lambda s, given, lent: (refusing(digest)(s, given, lent), lent),
        "veka_slots": slots,
        "veka_walk": walked,
    }

    def answer(name, s, given, lent, number):
        """What the model says, or None: it knows no kind above 8 and no number above 32 bits, and has all the room that it needs."""
        if name not in answers or name == "veka_encode_entry" and beyond_rust(given):
            return None
        return None if number == ROOM and name in ("veka_walk", "veka_slots") else answers[name](s, given, lent)
    return answer


# ---- the Rust, where it has the call: commands, and what the answer to the last one says


def hexed(s):
    return bytes(s).hex() or "."


def scan_command(s, args):
    magic, version, hashless, reserved = (bytes(args[a:b]).hex() for a, b in ((0, 4), (4, 7), (7, 8), (8, 9)))
    bound = str(args[12]) if args[11] else "-"
    return [f"format {magic} {version} {hashless} {reserved} {args[9]}", f"scan {args[10]} {bound} {hexed(s)}"]


def by_layout(what, layout, asked, s):
    fields = [*layout[:9], layout[10] if layout[9] else "-", layout[11]]
    return f"{what} {','.join(map(str, fields))} {asked} {hexed(s)}"


def beyond_rust(entry):
    """Whether an entry has a kind or a number that the Rust's type has not."""
    return entry[0] > 8 or max(entry[1:]) >= 2**32


def commands(name, s, given, lent, number):
    if name == "veka_decode_entry":
        return ["entry " + given[0].to_bytes(8, "little").hex()]
    if name == "veka_encode_entry" and not beyond_rust(given):
        ids = given[1:(3, 3, 2, 2, 2, 2, 1, 1, 1)[given[0]]]
        return [" ".join(["encode", KINDS[given[0]], *map(str, ids)])]
    if name == "veka_read_count":  # the count reader is a shim, and no source: it only has to agree
        return ["shim-count " + hexed(s[given[0]:])]
    if name == "veka_scan" and number != FORMAT:  # the Rust's facts are constants
        return scan_command(s, given)
    if name == "veka_root":
        return [by_layout("root", given, given[12], s)]
    if name == "veka_entry":
        return [by_layout("node", given, given[12], s)]
    if name == "veka_slots" and number not in (TOO_MANY, ROOM):
        return [by_layout("slots", given, str(given[13]) if given[12] else "-", s)]
    if name == "veka_digest_with_table" and number != ROOM:  # the Rust takes a shorter table
        return [by_layout("digest-table", given, f"{','.join(map(str, lent)) or '.'} {given[12]}", s)]
    if name == "veka_digest" and number != NO_HASH and all(
            row_entry(s, given[7], i)[0] == 0 for i in range(min(given[0], 9))) and given[0] < 9:
        return [by_layout("digest", given, str(given[12]), s)]  # the Rust reads all entries, and rebuilds hashes
    if name == "veka_walk" and number != ROOM:
        return [f"map {given[0]} {hexed(s)}"]
    return []


def known(name, answer):
    """What the Rust says of an answer: of a count the value alone, of a file its layout alone. Of a map its places tell the long counts."""
    return answer[:{"veka_read_count": 2, "veka_scan": 13}.get(name)]


def said(name, s, given, lent, answer):
    """An answer of the Rust in the numbers of a case; its count reader reads at 0."""
    words = answer.split(" | ")[0].split()
    if words[0] == "err":
        at = given[0] if name == "veka_read_count" else 0
        return [int(words[1]), at + int(words[3])], [0] * len(lent) if name == "veka_walk" else lent
    assert words[0] == "ok", answer
    if name == "veka_slots":
        left = (0, 0) if words[2] == "-" else (1, int(words[2]))
        return [0, *left], [*map(int, words[4:]), *lent[given[0]:]]
    if name == "veka_walk":
        rows = [[int(n) for n in w.replace("+", ":").split(":")] for w in words[6:]]
        end, keys = int(words[4]), [row[0] for row in rows]
        long = is_long(len(rows), min([end, *keys]) - given[0]) + sum(is_long(n, at - key - 32) for key, at, n in rows)
        return [0, int(words[2]), end, len(s) - end, long], keys + lent[len(keys):]
    if name in ("veka_digest", "veka_digest_with_table"):
        word = bytes.fromhex(words[1])
        return [0, *(le(word[k:k + 8]) for k in (0, 8, 16, 24))], lent
    if name == "veka_scan":
        *fields, hashes, map_at = words[2].split(",")
        return [0, *map(int, fields), *((0, 0) if hashes == "-" else (1, int(hashes))), int(map_at)], lent
    if name in ("veka_root", "veka_read_count"):
        return [0, int(words[1])], lent
    if name == "veka_encode_entry":
        return [0, le(bytes.fromhex(words[1]))], lent
    ids = words[2:-2] if name == "veka_decode_entry" else words[2:]  # `next 8` comes last
    return [0, KINDS.index(words[1]), *map(int, ids), 0, 0][:4], lent


# ---- the cases, by section

cases = {}  # by title; each case once
repeated = 0


def case(name, *given, s=(), lent=(), title=None):
    global repeated
    one = name, tuple(given), tuple(s), tuple(lent)
    if any(one in held for held in cases.values()):
        repeated += 1
        return
    cases.setdefault(title or name, {})[one] = None


def all_cases(*names):
    for title, held in cases.items():
        for name, given, s, lent in held:
            if name in names:
                yield title, name, list(given), list(s), list(lent)


def some(n):
    return [rng.randrange(256) for _ in range(n)]


def number():
    """A number of any size, small ones as often as large ones."""
    return rng.getrandbits(rng.randrange(65))


FIELDS = ("nodes internal external roots roots_at blocks_at blocks entries_at externals_at is_hashed hashes_at "
          "map_at").split()


def layout(**fields):
    """A record of which only these numbers matter."""
    assert set(fields) <= set(FIELDS)
    return [fields.get(name, 0) for name in FIELDS]


EDGES = sorted({0, 1, 2, TOP, 2**63, 2**32 - 1, 2**32} | {2**(7 * k) + d for k in range(1, 10) for d in (-1, 0, 1)})


def numbers():
    """Four bytes anywhere, as a root below any node count."""
    def held(at, s):
        case("veka_root", *layout(nodes=TOP, roots=1, roots_at=at), 0, s=s)

    for size in range(6):
        held(0, some(size))
    s = some(5)
    for at in (*range(7), *FAR, TOP - 5, TOP - 4, TOP - 3):
        held(at, s)
    for b in 0, 1, 127, 128, 255:
        held(1, [b] * 6)
    for i in range(4):
        held(0, [255 * (i == j) for j in range(4)])


def counts():
    for v in EDGES:
        case("veka_shortest_len", v)
        for size in range(shortest_len(v), 10):  # the shortest form, and every longer one
            case("veka_read_count", 0, s=form(v, size))
    for size in range(1, 10):
        whole = form(number() % 2**min(7 * size, 64), size)
        for left in range(size):  # cut short by each number of bytes
            case("veka_read_count", 0, s=whole[:left])
        for at in range(10):
            case("veka_read_count", at, s=some(at) + whole + some(3))
        for at in (size, size + 1, *FAR):
            case("veka_read_count", at, s=whole)
    for first in range(256):
        if first < 2 or rng.random() < 0.2:
            case("veka_read_count", 0, s=[first] + some(8))
    case("veka_read_count", 4095, s=[i % 7 for i in range(4095)] + [255])
    for _ in range(60):
        v = number()
        case("veka_shortest_len", v)
        case("veka_write_count", rng.randrange(6), v, lent=some(rng.randrange(16)))
        case("veka_read_count", rng.randrange(6), s=some(rng.randrange(16)))
    for v in EDGES:
        size = shortest_len(v)
        case("veka_write_count", 0, v, lent=some(size))
        case("veka_write_count", 0, v, lent=some(size - 1))
        case("veka_write_count", 2, v, lent=some(size + 4))
    for at in (0, 1, *FAR):
        for size in 0, 1, 9, 10:
            case("veka_write_count", at, TOP, lent=some(size))


def counts_among_bytes():
    """Every length with 6 to 11 bytes left: eight are read together where they are left, and the longest form has nine."""
    for size in range(1, 10):
        for left in range(6, 12):
            at = rng.randrange(4)
            case("veka_read_count", at, s=(some(at) + form(number() % 2**min(7 * size, 64), size) + some(10))[:at + left])


def small_number(size):
    """A number that needs fewer bytes than these."""
    return number() % 2**(7 * rng.randrange(1, size))


def padded_counts():
    """Long counts of every length with up to 11 bytes left, from none behind them on."""
    for size in range(2, 10):
        for left in range(size, 12):
            at = rng.randrange(4)
            case("veka_read_count", at, s=(some(at) + form(small_number(size), size) + some(10))[:at + left])


WORDS = "veka_digest, one word"
TWO_WORDS = "veka_walk, two words", "veka_lookup, two words"


def words():
    """A word anywhere, as the digest of the one node, which is external; and two words side by side."""
    def word(at, s):
        case("veka_digest", *layout(nodes=1, external=1, externals_at=min(8 + at, TOP)), 0, s=EXTERNAL + s, title=WORDS)

    def held(w, at=0, after=0):
        word(at, some(at) + little(w, 8) + some(after))

    for x in [0, 1, MODULUS - 2, MODULUS - 1, MODULUS, MODULUS + 1, *EDGES, *(number() for _ in range(10))]:
        held([x, 0, 0, 0])
    for i in range(4):
        for x in MODULUS - 1, MODULUS, MODULUS + 1, TOP, 0:
            held([x if i == j else number() % MODULUS for j in range(4)], at=i, after=rng.randrange(3))
        for j in range(4):
            held([MODULUS if k in (i, j) else 5 for k in range(4)])
    for size in 0, 1, 8, 24, 31, 32, 33:  # SHORT comes before ELEMENT
        word(0, [255] * size)
        word(0, [0] * size)
    s = some(33)
    for at in (1, 2, 32, *FAR, TOP - 40, TOP - 39):
        word(at, s)
    for _ in range(30):
        held([number() for _ in range(4)], at=rng.randrange(8), after=rng.randrange(8))

    def two(a, b):
        case("veka_walk", 0, s=map_bytes([(a, []), (b, [])]), lent=[71, 72], title=TWO_WORDS[0])
        # the same key twice in the table: it is compared once where a is above it, twice where a is below
        case("veka_lookup", *a, 2, s=map_bytes([(b, [])]), lent=[1, 1], title=TWO_WORDS[1])

    for i in range(4):
        for lower, upper in ((0, 1), (MODULUS - 2, MODULUS - 1), (MODULUS - 1, MODULUS), (2**63, TOP), (255, 256)):
            for later in TOP, MODULUS - 1:  # what comes later points the other way
                before = [number() for _ in range(i)]
                a = before + [lower] + [later] * (3 - i)
                b = before + [upper] + [0] * (3 - i)
                two(a, b)
                two(b, a)
    for _ in range(10):
        w = [number() for _ in range(4)]
        two(w, w)
        two(w, [number() for _ in range(4)])


PAYLOADS = [0, 1, 2**30 - 1, 2**30, 2**30 + 2, 2**32 - 1, 2**32, 2**32 + 1, 2**60 - 1]
IDS = [0, 1, 2**30 - 1, 2**30, 2**32 - 1]
ONE_ROW = "veka_entry, one row"


def one_row(first, i, s):
    """The entry of a row, of as many rows as there can be: only the last number is no row's."""
    case("veka_entry", *layout(nodes=TOP, entries_at=first), i, s=s, title=ONE_ROW)


def entries():
    for tag in range(16):
        for payload in PAYLOADS:
            word = tag * 2**60 + payload
            case("veka_decode_entry", word)
            one_row(0, 0, little([word], 8))
    for _ in range(40):
        case("veka_decode_entry", number())
        one_row(3, 0, some(3 + rng.randrange(12)))
    for kind in 0, 1:
        for left in IDS:
            for right in IDS:
                case("veka_encode_entry", kind, left, right)
    for kind in 2, 3, 4, 5:
        for id in IDS:
            case("veka_encode_entry", kind, id, 0)
            case("veka_encode_entry", kind, id, 2**32 - 1)  # a number that the kind has not
    for kind in 6, 7, 8:
        for ids in (0, 0), (1, 0), (0, 2**30), (2**32 - 1, 2**32 - 1):
            case("veka_encode_entry", kind, *ids)
    for kind in 9, 15, 16, 2**32, 2**60, TOP:
        case("veka_encode_entry", kind, 0, 0)
        case("veka_encode_entry", kind, 2**30, 2**30)
    for _ in range(30):
        case("veka_encode_entry", rng.randrange(9), number() % 2**32, number() % 2**32)
    for kind in range(10):  # numbers that no entry has: looked at only where the kind has them
        for wide in 2**32, 2**32 + 1, 2**63, TOP:
            case("veka_encode_entry", kind, wide, 0)
            case("veka_encode_entry", kind, 1, wide)
    for tag in 0, 3, 8, 9:
        word = little([tag * 2**60 + number() % 2**32], 8)
        for left in range(8):
            one_row(0, 0, word[:left])
        for at in range(10):
            one_row(at, 0, some(at) + word + some(2))
        for at in (8, 9, *FAR, TOP - 8):
            one_row(at, 0, word)


def bench():
    """P1 to P9, with what document 01 says of each."""
    for s, v in (("01", 0), ("0200", 0), ("ff", 127), ("0202", 128), ("feff", 16383), ("040002", 16384),
                 ("80ffffffffffffff", 2**56 - 1), ("000000000000000001", 2**56)):
        s = list(bytes.fromhex(s))
        assert read_count(s, 0) == [0, v, len(s), len(s)]
        case("veka_read_count", 0, s=s)
        if s != [2, 0]:  # the longer form of 0 is read, and not written
            assert write_count([7] * 10, 0, v) == ([0, len(s)], s + [7] * (10 - len(s)))
            case("veka_write_count", 0, v, lent=[7] * 10)
    for word, answer in ((0x40000002, [0, 0, 1, 2]), (0x0FFFFFFFFFFFFFFF, [0, 0, 2**30 - 1, 2**30 - 1]),
                         (0x2000000100000000, [PAYLOAD, 0]), (0x6000000000000001, [0, 6, 0, 0]),
                         (0x9000000000000000, [TAG, 0])):
        assert decode(word, 0) == answer
        case("veka_decode_entry", word)
        one_row(0, 0, little([word], 8))
        if answer[0] == 0:
            case("veka_encode_entry", *answer[1:])
    assert encode_entry(6, 0, 0) == [0, 0x6000000000000000]


# the facts that the small program has for want of others
FACTS = [*b"MAST", 0, 0, 2, 2, 0xFC, 2**30 - 1]
NO_HASHES = 2


def entry(kind, payload=0):
    return list((kind * 2**60 + payload).to_bytes(8, "little"))


EXTERNAL, DYN, JOIN, BLOCK = entry(8), entry(6), entry(0, 1), entry(3)


def forest(rows=(), roots=(), block=(), flags=0, facts=FACTS, said=None, sizes=(0, 0, 0, 0)):
    """A file with these entries, whose digests are zeros and whose map is empty. It says the true counts,
    or those of `said`: internal, external, roots, block length. Each has its shortest form, or `sizes` bytes."""
    external = sum(row[7] >> 4 == 8 for row in rows)
    true = [len(rows) - external, external, len(roots), len(block)]
    counts = [form(v, size or shortest_len(v)) for v, size in zip(said or true, sizes)]
    digests = external if flags & facts[7] else len(rows)
    head = [*facts[:4], flags, *facts[4:7], *counts[0], *counts[1], *counts[2]]
    return head + little(roots, 4) + counts[3] + list(block) + sum(rows, []) + [0] * (32 * digests) + [1]


scan_title = None  # after the maker at work


def scan(s, allow=1, bound=None, facts=FACTS):
    case("veka_scan", *facts, int(allow), *((0, 0) if bound is None else (1, bound)), s=s, title=f"veka_scan, {scan_title}")


P10 = [EXTERNAL, BLOCK, JOIN], [2], [0xAB]


def scan_bench_files():
    """P10 with and without hashes: whole, cut, each byte damaged in two ways."""
    for flags in NO_HASHES, 0:
        s = forest(*P10, flags=flags)
        assert scan_layout(s, *FACTS, 1, 0, 0)[8:] == ([17, 41, 0, 0, 73, 0] if flags else [17, 41, 1, 73, 137, 0])
        for allow in 0, 1:
            for bound in None, 0, len(s), TOP:
                scan(s, allow, bound)
        # of the digests, which no scan reads, every eighth byte and the last ones
        places = [at for at in range(len(s)) if at < 42 or at % 8 == 1 or at > len(s) - 4]
        for left in places:
            scan(s[:left], bound=(None, 400, TOP)[left % 3])
        for at in places:
            for damage in 255, 1 << rng.randrange(8):
                bad = s[:at] + [s[at] ^ damage] + s[at + 1:]
                scan(bad, rng.randrange(8) > 0, rng.choice((None, None, 200, 400, TOP)))


def scan_headers():
    good = forest(*P10, flags=NO_HASHES)
    for mask, reserved, maximum in ((0, 0, 5), (0, 255, 5), (3, 0, 5), (129, 4, 5), (255, 0, 5), (2, 2, 5),
                                    (2, 254, 5), (128, 255, 5), (1, 254, 2**30 + 1), (1, 254, TOP),
                                    (2, 252, 2**30), (2, 252, 0), (64, 0, 5), (1, 2, 5), (254, 1, 5)):
        facts = [*FACTS[:7], mask, reserved, maximum]
        for s in good, [], forest(*P10, facts=facts), [1, 2, 3, 4]:
            scan(s, facts=facts)
    for bit in range(8):
        for reserved in 0, 255 - (1 << bit), 1 << (bit + 1) % 8, 255:
            facts = [*some(7), 1 << bit, reserved, rng.choice((0, 3, 2**30))]
            scan([], facts=facts)
            for flags in 0, 1 << bit, 255, rng.randrange(256):  # bits of neither mask are free
                scan(forest([BLOCK], [2], [0xAB], flags, facts), rng.randrange(4) > 0, facts=facts)
    for size in range(9):
        scan(good[:size])
        scan([0] * size)
        scan(good[:4] + [255] * (size - 4))
    for at in range(8):
        scan(good[:at] + [good[at] ^ 128] + good[at + 1:at + 1 + 8 * (at % 2)])
    for flags in range(0, 256, 5):
        scan(forest(*P10, flags=flags), flags % 2)
    scan([*good[:4], 255, 0, 0, 3])  # VERSION before FLAGS
    scan([*good[:4], 255, 0, 0, 2], 0)  # FLAGS before HASHLESS
    for magic in [0] * 4, [255] * 4, [1, 2, 3, 4]:
        facts = [*magic, 9, 8, 7, 1, 254, 3]
        scan(forest(*P10, flags=1, facts=facts), facts=facts)
        scan(good, facts=facts)


def scan_given_numbers():
    """What only the numbers of a call can say: flags that are neither 0 nor 1."""
    good = forest(*P10)
    for flag in 0, 1, 2, 255, 256, 2**32, 2**63, TOP:
        for bound in 0, len(good) - 16, 400:
            case("veka_scan", *FACTS, 1, flag, bound, s=good, title=f"veka_scan, {scan_title}")


def scan_sizes():
    """The counts: cut, in long forms, their sum, and how many the facts and a bound allow."""
    for k in range(4):
        for size in range(1, 10):  # each count in each form, and each form cut
            longer = forest(*P10, flags=NO_HASHES, sizes=[size * (i == k) for i in range(4)])
            end = 11 + (4 + 1) * (k == 3) - (k < 3) * (2 - k) + size - 1
            scan(longer, bound=rng.choice((None, 400)))
            scan(longer[:end])
            scan(longer[:end - 1])
            scan(longer[:end - size])
    for a, b in ((TOP, 0), (TOP, 1), (1, TOP), (0, TOP), (2**63, 2**63), (2**63, 2**63 - 1), (TOP, TOP)):
        scan(forest(said=[a, b, 0, 0]), bound=rng.choice((None, 0)))
    for maximum in 0, 1, 5, 2**30 - 1, 2**30:
        facts = [*FACTS[:9], maximum]
        for nodes in maximum, maximum + 1:
            for external in sorted({0, nodes // 2, nodes}):
                said = [nodes - external, external, 0, 0]
                scan(forest(said=said), facts=facts)
                scan(forest(said=said)[:-2], bound=TOP, facts=facts)
    for k in 1, 2, 5:
        for size, kind, flags in (8, DYN, NO_HASHES), (32, EXTERNAL, NO_HASHES), (32, DYN, 0), (32, EXTERNAL, 0):
            s = forest([kind] * k, flags=flags)
            for bound in size * k - 1, size * k, size * k + size - 1, 8 * k - 1, 8 * k, 40 * k - 1, 40 * k:
                scan(s, bound=bound)
                scan(s[:10], bound=bound)
    scan(forest([DYN] * 3 + [EXTERNAL], flags=0), bound=95)
    scan(forest([DYN] * 3 + [EXTERNAL], flags=0)[:10], bound=96)


def scan_padded():
    """Any of the four counts long, and all of them: accepted, and refused after all were read."""
    for which in range(16):
        sizes = [rng.randrange(2, 10) * (which >> k & 1) for k in range(4)]
        for rows in [EXTERNAL, BLOCK, JOIN], [EXTERNAL, EXTERNAL, JOIN]:
            scan(forest(rows, *P10[1:], flags=NO_HASHES, said=[2, 1, 1, 1], sizes=sizes) + [0] * 32)
    for size in 2, 5, 9:
        scan(forest(sizes=[size] * 4)[:-1])
        scan(forest(sizes=[size] * 4)[:-2])


def scan_sections():
    """Roots and sections: their budgets, where they end, and lengths near 2 ** 64."""
    for k in 1, 2, 3:
        s = forest([DYN], list(range(k)), flags=NO_HASHES)
        for bound in 4 * k - 1, 4 * k, 4 * k + 3, 8:
            scan(s, bound=max(bound, 8))
            scan(forest([], list(range(k))), bound=bound)
    for k in range(11):  # one root, two roots: cut
        scan(forest([], [5, 6])[:k + 11])
    for roots in 2**62 - 2, 2**62 - 1, 2**62, 2**62 + 1, 2**63, TOP:
        for bound in None, 0, 100, TOP:
            scan(forest(said=[0, 0, roots, 0]), bound=bound)
    for rows, flags in ([], 0), ([DYN], 0), ([EXTERNAL, DYN], 0), ([EXTERNAL, DYN], NO_HASHES), ([EXTERNAL] * 2, 0):
        s = forest(rows, [0], flags=flags)
        fixed = len(s) - 17
        external = rows.count(EXTERNAL)
        for d in -25, -24, -23, -1, 0, 1, 2:  # their end, at 24 and more, and their sum beside 2 ** 64 - 1
            length = min(TOP - fixed + d, TOP)
            long = forest(rows, [0], flags=flags, said=[len(rows) - external, external, 1, length])
            scan(long, bound=rng.choice((None, TOP)))
            scan(long, bound=100)
        scan(forest(rows, [0], flags=flags, said=[len(rows) - external, external, 1, TOP]), bound=200)
        for block in 1, 7:
            whole = forest(rows, [0], some(block), flags)
            scan(whole[:-1])
            scan(whole[:-2])
            scan(whole[:len(whole) - 1 - fixed])
            for bound in block - 1, block, fixed - 1, fixed, block + fixed - 1, block + fixed:
                scan(whole, bound=max(bound, 0))
    for block in 1, 2, 40:
        for bound in block - 1, block, block + 1:
            scan(forest([], [], some(block)), bound=bound)
            scan(forest([], [], some(block), NO_HASHES)[:-2], bound=bound)


def scan_entries():
    for tag in range(16):
        for payload in PAYLOADS:
            at = rng.randrange(3)
            rows = [DYN, EXTERNAL, JOIN]
            rows[at] = entry(tag, payload)
            scan(forest(rows, flags=rng.choice((0, NO_HASHES))))
    for first in entry(9), entry(4, 2**32):  # the first bad entry is named, and before EXTERNALS
        for second in entry(15), entry(2, 2**32):
            scan(forest([DYN, first, second], [1], [7] * 3, said=[2, 1, 1, 3]))
    for rows in [], [DYN], [EXTERNAL], [EXTERNAL, DYN], [DYN, EXTERNAL], [BLOCK, JOIN, EXTERNAL, EXTERNAL]:
        external = rows.count(EXTERNAL)
        for d in -1, 1:
            if 0 <= external + d <= len(rows):  # as many sections as it says: zeros after the entries
                said = [len(rows) - external - d, external + d, 0, 0]
                scan(forest(rows, said=said))
                scan(forest(rows, flags=NO_HASHES, said=said) + [0] * 32, bound=TOP)


def scan_many_entries():
    """More than a block of the quick pass, which has 4,096 entries, as many as a lent table can have places: all good; a wide
    payload and a bad tag in the second block."""
    rows = [entry(0)] * 4100
    rows[7], rows[4095], rows[4096], rows[4099] = EXTERNAL, entry(5, 2**32 - 1), EXTERNAL, entry(6, 2**60 - 1)
    for bad in {}, {4096: entry(2, 2**32)}, {4097: entry(9)}:
        scan(forest([bad.get(i, row) for i, row in enumerate(rows)], flags=NO_HASHES))


def scan_random_files():
    for _ in range(180):
        facts = FACTS
        if rng.random() < 0.3:
            mask = 1 << rng.randrange(8)
            facts = [*some(7), mask, rng.randrange(256) & ~mask, rng.choice((2, 4, 2**30))]
        rows = [entry(rng.randrange(9), rng.getrandbits(rng.randrange(33))) for _ in range(rng.randrange(5))]
        if rng.random() < 0.1 and rows:
            rows[-1] = some(8)
        flags = facts[7] * rng.randrange(2) | (rng.randrange(256) if rng.random() < 0.1 else 0)
        wide = [rng.choice((0, 0, 0, rng.randrange(4, 10))) for _ in range(4)]
        s = forest(rows, [rng.randrange(5) for _ in range(rng.randrange(3))], some(rng.randrange(4)), flags,
                   facts, sizes=wide)
        if rng.random() < 0.4:
            at = rng.randrange(len(s))
            s = s[:at] + rng.choice(([], [rng.randrange(256)] + s[at + 1:], some(2) + s[at:]))
        scan(s, rng.randrange(5) > 0, rng.choice((None, None, rng.randrange(300), TOP)), facts)


ALL_ROWS = "veka_slots, all rows", "veka_digest, all rows"


def all_rows(first, n, s):
    """The entries of n rows in turn: as many slots; or, of more than a table may have, the last one's digest."""
    lay = layout(nodes=n, entries_at=first)
    if n < TOP:
        case("veka_slots", *lay, 0, 0, s=s, lent=[71 + i for i in range(n)], title=ALL_ROWS[0])
    else:
        case("veka_digest", *lay, n - 1, s=s, title=ALL_ROWS[1])


def rows_by_number():
    rows = [EXTERNAL, entry(0, 2**30 + 5), entry(2, 2**32), entry(9), entry(4, 2**32 - 1), entry(7, 3), entry(8, 9)]
    s = some(3) + sum(rows, [])
    for i in (*range(8), 2**61 - 2, 2**61 - 1, 2**61, TOP - 1, TOP):
        one_row(3, i, s)
        one_row(4, i, s)
    for first in len(s) - 8, len(s) - 7, len(s), TOP - 8, TOP - 7, TOP:
        for i in 0, 1:
            one_row(first, i, s)
            all_rows(first, i, s)
    for good in range(7):
        clean = some(3) + sum([DYN, EXTERNAL, BLOCK, entry(8, 2**60 - 1), JOIN, entry(5, 7)][:good], [])
        for n in (*range(good + 2), TOP):  # to the file's end, and past it
            all_rows(3, n, clean)
        all_rows(3, good, clean[:-1])
    for tag in range(16):
        for payload in 2**32 - 1, 2**32:
            all_rows(0, 3, DYN + entry(tag, payload) + EXTERNAL)
    for n in 2, 3, TOP:
        all_rows(3, n, s)
        all_rows(TOP - 15, n, s)
        all_rows(TOP - 7, n, s)


def readers_by_index():
    made = dict(nodes=3, roots=2, roots_at=5, entries_at=13)

    def both(s, i, **fields):
        f = made | fields
        for name in "veka_root", "veka_entry":
            case(name, f["nodes"], 2, 1, f["roots"], f["roots_at"], 16, 1, f["entries_at"], 41,
                 *rng.choice(((0, 0), (1, 73))), 73, i, s=s)

    rows = [EXTERNAL, entry(9), entry(3, 2**32)]
    s = some(5) + [2, 0, 0, 0, 3, 0, 0, 0] + sum(rows, [])
    for i in 0, 1, 2, 3, 4, TOP - 1, TOP:
        both(s, i)
        both(s, i, nodes=TOP, roots=TOP)
        both(s, i, nodes=0, roots=0)
        both(s, i, roots_at=len(s) - 4 * min(i, 9), entries_at=len(s) - 8 * min(i, 4))
        both(s, i, roots_at=len(s) - 4 * min(i, 8) - 4, entries_at=len(s) - 8 * min(i, 3) - 8)
        both(s, i, roots_at=len(s) - 4 * min(i, 8) - 3, entries_at=len(s) - 8 * min(i, 3) - 7)
        for d in -1, 0, 1:  # a row that ends beside 2 ** 64 - 1
            both(s, i, nodes=TOP, roots=TOP, roots_at=max(TOP - 4 - 4 * i + d, 0),
                 entries_at=max(TOP - 8 - 8 * i + d, 0))
    for i in 2**61 - 2, 2**61 - 1, 2**61, 2**62 - 2, 2**62 - 1, 2**62:
        for at in 0, 3, 4, 7, 8:
            both(s, i, nodes=TOP, roots=TOP, roots_at=at, entries_at=at)
    for id in 0, 1, 2, 3, 2**31, 2**32 - 1:  # ROOT-ID at the node count
        for nodes in sorted({0, id, id + 1, 2**32, TOP}):
            both(list(id.to_bytes(4, "little")) + EXTERNAL, 0, nodes=nodes, roots_at=0, entries_at=4)
    for tag in range(16):
        for payload in 2**32 - 1, 2**32:
            both(entry(tag, payload), 0, entries_at=0, roots_at=4)
    for _ in range(60):
        both(some(rng.randrange(40)), rng.choice((0, 1, 2, number())), nodes=number(), roots=number(),
             roots_at=rng.choice((rng.randrange(40), number())), entries_at=rng.choice((rng.randrange(40), number())))


def laid(rows, hashes=True, **fields):
    """A file of entries, then a digest for each of them and one more, and its record; `fields` replace the record's numbers."""
    external = sum(row[7] >> 4 == 8 for row in rows)
    n = len(rows)
    before = some(rng.randrange(4))
    digests_at = len(before) + 8 * n
    digests = little([rng.choice((0, rng.randrange(256), number() % MODULUS)) for _ in range(4 * (n + 1))], 8)
    s = before + sum(rows, []) + digests
    return s, layout(**dict(nodes=n, internal=n - external, external=external, entries_at=len(before),
                            externals_at=digests_at, is_hashed=int(hashes),
                            hashes_at=digests_at + 32 * external if hashes else 0, map_at=len(s)) | fields)


def some_rows(n, wide=False):
    """Entries whose children are below them, or wherever."""
    rows = []
    for i in range(n):
        kind = rng.randrange(9) if i else rng.choice((3, 6, 7, 8))
        top = n + 2 if wide else max(i, 1)
        ids = [rng.randrange(top), rng.randrange(top)]
        rows.append(entry(kind, ids[0] * 2**30 + ids[1] if kind < 2 else ids[0] if kind < 6 else 0))
    return rows


BAD = entry(9), entry(15, 2**60 - 1), entry(2, 2**32), entry(5, 2**60 - 1)


def slots():
    def built(s, lay, *bound, lent):
        case("veka_slots", *lay, *bound, s=s[:lay[8]], lent=lent)  # digests are not read

    for n in range(8):
        s, lay = laid(some_rows(n))
        for room in sorted({n, n + 1, n + 5, max(n - 1, 0), 0}):
            for bound in (0, 0), (1, 4 * n), (1, 4 * n + 1), (1, max(4 * n - 1, 0)), (1, TOP):
                built(s, lay, *bound, lent=[rng.getrandbits(32) for _ in range(room)])
    for n in range(1, 6):
        for bad in BAD:
            for at in range(n):
                rows = some_rows(n)
                rows[at] = bad
                built(*laid(rows, external=rng.randrange(3)), 0, 0, lent=[7] * (n + 1))
    for nodes in 2**30 + 1, TOP:  # TOO-MANY comes first
        for bound in (0, 0), (1, 0):
            built(*laid([DYN], nodes=nodes), *bound, lent=[5])
    for nodes in 2**30, 2**30 - 1, 65:
        s, lay = laid([DYN], nodes=nodes)
        built(s, lay, 0, 0, lent=[5])
        built(s, lay, 1, 4 * nodes - 1, lent=[5])
    s, lay = laid([DYN, EXTERNAL])
    for at in (*range(14), TOP - 8, TOP - 7, TOP):
        case("veka_slots", *lay[:7], at, *lay[8:], 0, 0, s=s[:18], lent=[5, 6, 7])
    for flag in 2, 256, 2**32, TOP:  # any flag but 0 is a bound
        for bound in 7, 8, 9:
            built(s, lay, flag, bound, lent=[5, 6, 7])
        built(s, lay, 0, flag, lent=[5, 6, 7])
    built(*laid([entry(rng.choice((3, 8))) for _ in range(64)]), 1, 300, lent=range(64))


def digests():
    def both(s, lay, i, table):
        case("veka_digest", *lay, i, s=s)
        case("veka_digest_with_table", *lay, i, s=s, lent=table)

    def built(s, lay):
        return build_slots(s, [*lay, 0, 0], [0] * lay[0])[1]

    for n in range(1, 7):
        for hashes in True, False:
            s, lay = laid(some_rows(n), hashes)
            for i in range(n + 2):
                both(s, lay, i, built(s, lay))
            case("veka_digest_with_table", *lay, 0, s=s, lent=built(s, lay)[:-1])  # ROOM
            case("veka_digest_with_table", *lay, n, s=s)  # INDEX before ROOM
            case("veka_digest_with_table", *lay, n - 1, s=s, lent=built(s, lay) + [9, 9])
    for n in range(1, 5):
        for bad in BAD:
            for at in range(n):
                rows = some_rows(n)
                rows[at] = bad
                s, lay = laid(rows)
                both(s, lay, rng.randrange(n), [0] * n)
    for row in EXTERNAL, DYN:
        name = "externals_at" if row is EXTERNAL else "hashes_at"
        for hashes in True, False:
            for at in TOP - 32, TOP - 31, TOP, 8, 9:  # OVERFLOW and SHORT of the row
                s, lay = laid([row], hashes, **{name: at})
                both(s[:41], lay, 0, [0])
        for slot in 0, 1, 2, 2**32 - 1:  # a lent slot may be any
            s, lay = laid([row, row])
            case("veka_digest_with_table", *lay, 1, s=s, lent=[0, slot])
        for k in range(4):
            s, lay = laid([row], entries_at=0, externals_at=8, hashes_at=8)
            s = list(row) + little([MODULUS - (j != k) for j in range(4)], 8)
            both(s, lay, 0, [0])
        for flag in 2, 256, 2**32, TOP:  # any flag but 0 means that there are hashes
            s, lay = laid([row], is_hashed=flag)
            both(s, lay, 0, [0])
    for at in 0, 1, TOP - 7, TOP - 8, TOP:
        s, lay = laid([DYN], entries_at=at)
        both(s[:8], lay, 0, [0])


CHECKS = "veka_children", "veka_order", "veka_strict"


def node_checks():
    def all_three(rows, **fields):
        s, lay = laid(rows, **fields)
        for name in CHECKS:
            case(name, *lay, s=s[:lay[8]])  # no check reads digests

    for n in range(7):
        for _ in range(4):
            all_three(some_rows(n))
            all_three(some_rows(n, wide=True))
            all_three(sorted(some_rows(n), key=lambda row: {8: 0, 3: 1}.get(row[7] >> 4, 2)))
    for bad in BAD:
        for at in range(3):
            rows = [EXTERNAL, BLOCK, DYN]
            rows[at] = bad
            all_three(rows)
    for kind in range(6):
        for left in 0, 1, 2, 3:
            for right in (0, 2, 3) if kind < 2 else (0,):
                all_three([BLOCK, entry(kind, left * 2**30 + right if kind < 2 else left), DYN])
    for kind in range(9):  # what a written entry has, and more
        for payload in 0, 1, 2**30, 2**32 - 1, 2**60 - 1:
            all_three([entry(kind, payload)])
    for first in EXTERNAL, BLOCK, DYN, JOIN:
        for second in EXTERNAL, BLOCK, DYN:
            all_three([first, second])
            all_three([EXTERNAL, first, second, EXTERNAL])
    for at in 0, 9, 10, TOP - 15, TOP - 16, TOP:
        s, lay = laid([EXTERNAL, BLOCK], entries_at=at)
        for name in CHECKS:
            case(name, *lay, s=s[:18])


def map_bytes(entries, size=0, said=None, sizes=()):
    """A map of keys and values; `size` is the count's form, `sizes` are those of the lengths, and `said` is what the count says if not
    their number."""
    n = len(entries) if said is None else said
    s = form(n, size or shortest_len(n))
    for (key, held), size in zip(entries, [*sizes, *[0] * len(entries)]):
        s += little(key, 8) + form(len(held), size or shortest_len(len(held))) + little(held, 8)
    return s


def some_entries(n):
    return [([rng.choice((0, 1, number() % MODULUS)) for _ in range(4)], [number() % MODULUS for _ in range(rng.randrange(3))])
            for _ in range(n)]


def looked(s, n, key, table, title=None):
    for name in "veka_lookup", "veka_values":
        case(name, *key, n, s=s, lent=table, title=title)


def maps():
    def walked(s, at, room):
        case("veka_walk", at, s=s, lent=[number() for _ in range(room)])

    for n in range(7):
        for _ in range(4):
            entries = some_entries(n)
            before = some(rng.randrange(4))
            s = before + map_bytes(entries, rng.choice((0, 0, 9))) + some(rng.randrange(3))
            for room in sorted({n, n + 2, max(n - 1, 0), 0}):
                walked(s, len(before), room)
            twice = entries + [entries[rng.randrange(n)]] + some_entries(1) if n else []
            walked(before + map_bytes(twice), len(before), n + 2)
            table = walk(s, len(before), 9)
            if table[0] == 0:
                for key in [e[0] for e in entries] + [[number() % MODULUS for _ in range(4)], [0] * 4]:
                    looked(s, len(table[1]), key, table[1] + [0] * rng.randrange(2))
    for n in 12, 40:
        for order in (range(n), range(n - 1, -1, -1), rng.sample(range(n), n)):
            s = map_bytes([([7, 7, 7, 2 * k + 1], [k] * (k % 3)) for k in order])
            walked(s, 0, n + 1)
            table = walk(s, 0, n)[1]
            for k in range(0, 25, 2) if n == 12 else (1, 40, 79):
                looked(s, n, [7, 7, 7, k], table)
                looked(s, n - 1, [7, 7, 7, k + 1], table)
        looked(s, n, [7, 7, 7, 2 * n - 1], [1] * 64)
    s = map_bytes([([1, 2, 3, 4], [5, 6]), ([1, 2, 3, 3], [])])
    for left in range(len(s)):
        walked(s[:left], 0, 3)
    for at in (1, len(s), len(s) + 1, *FAR):
        walked(s, at, 2)
    for k in range(4):
        for x in MODULUS - 1, MODULUS, TOP:
            key = [x if j == k else 5 for j in range(4)]
            s = map_bytes([(key, [3])])
            walked(s, 0, 1)
            looked(s, 1, key, [1])  # keys are not judged by the lookup
    for length in 2**61 - 1, 2**61, TOP, 3, 2:
        s = [3] + [0] * 32 + form(length, 9) + [0] * 16
        walked(s, 0, 1)
        walked(s[:-17], 0, 1)
        looked(s, 1, [0] * 4, [1])
    for j in range(3):  # values that are no elements: the walk takes them, the lookup does not
        s = map_bytes([([9, 0, 0, 0], [MODULUS if i >= j else 1 for i in range(3)])])
        walked(s, 0, 1)
        looked(s, 1, [9, 0, 0, 0], [1])
    s = map_bytes(some_entries(3))
    for n, table in (1, []), (TOP, [1]), (0, []), (0, [1, 2]), (2, [1]), (1, [len(s) - 32]), (1, [len(s) - 31]), (1, [TOP]):
        looked(s, n, [0] * 4, table)
        looked(s, n, word_at(s, len(s) - 32), table)


def padded_maps():
    """A map's count and its lengths in all their forms: accepted; cut, with a key twice and with too few places."""
    def walked(entries, *sizes, cut=0, room=3):
        s = map_bytes(entries, sizes[0], sizes=sizes[1:])
        case("veka_walk", 0, s=s[:len(s) - cut], lent=[71, 72, 73][:room])

    two = [([1, 2, 3, 4], [5]), ([1, 2, 3, 3], [])]
    for size in range(1, 10):
        walked([], size)
        for sizes in (size, 0, 0), (0, size, 0), (0, 0, size), (size, size, size), [rng.randrange(1, 10) for _ in range(3)]:
            walked(two, *sizes)
        walked(two, size, 9, size, cut=1)
        walked(two, size, 9, size, room=1)
        walked([*two, two[0]], 2, size, size)


# ---- made maps: by a formula, in three orders

RISING, FALLING, SHUFFLED = ORDERS = range(3)


def made_key(k):
    """The key of a number: entries have the odd ones, in the order of their ranks."""
    return k // 64 * 255, k // 16 % 4 * 2**62, k // 4 % 4 * 255, k % 4 * 255


def made_ranks(n, order):
    if order == SHUFFLED:
        return [(1237 * i + 611) % n for i in range(n)]
    return list(range(n))[::1 if order == RISING else -1]


def made_value(i, j):
    x = 4 * i + j
    return TOP if x % 61 == 7 else 3 * x + 1  # a few are no elements


def made_entries(n, order, again=0):
    """`again`: the last entry repeats a key."""
    numbers = [2 * rank + 1 for rank in made_ranks(n, order)] + [n // 2 * 2 + 1] * again
    lengths = [(i % 11 + i // 11) % 4 if n < 100 or i % 5 == 2 else 0 for i in range(len(numbers))]
    return [(made_key(k), [made_value(i, j) for j in range(lengths[i])]) for i, k in enumerate(numbers)]


@functools.cache
def made_map(n, order, again=0, cut=0):
    s = map_bytes(made_entries(n, order, again))
    return s[:len(s) - cut]


@functools.cache
def largest_map(order):
    """From 1 on a map of 2,000 entries. From 0 on the count has nine bytes and is larger, so that one entry more is read,
    which repeats a key: one file serves both."""
    s = [0] + map_bytes(made_entries(LARGEST, order, 1), 8, LARGEST)
    assert read_count(s, 1) == [0, LARGEST, 8, 9] and read_count(s, 0) == [0, LARGEST * 256 + 128, 9, 9]
    return s


SPARE = 20  # places of a table that no entry fills
MARKS = [9000 + i for i in range(150)]  # no offsets of the smaller files
MADE, LARGEST = (0, 1, 2, 3, 100), 2000
MADE_TITLE, LARGEST_TITLE = (f"veka_walk, veka_lookup and veka_values, made maps of {n} entries" for n in ("0 to 100", LARGEST))


def asked_of(n, order):
    """Numbers of keys: present ones have odd numbers, and absent are the even ones and those above 2 n. Two
    have a value that is no element, of which the walk says nothing."""
    if n < 4:
        return range(8)
    ranked = zip(made_ranks(n, order), made_entries(n, order))
    bad = [rank for rank, (_, held) in ranked if TOP in held]
    present = {0, 1, n // 3, n // 2, 2 * n // 3 + 1, n - 2, n - 1, bad[0], bad[-1]}
    return sorted({2 * rank + 1 for rank in present} | {0, 2, n // 2 * 2, n // 5 * 2, 2 * n - 2, 2 * n})


def made_maps():
    def walked(places, *made):
        case("veka_walk", 0, s=made_map(*made), lent=MARKS[:places], title=MADE_TITLE)

    def looked_up(n, order, places, asked, k):
        """Over the table that a walk with so many places leaves."""
        s = made_map(n, order)
        looked(s, asked, made_key(k), walk_map(s, 0, MARKS[:places])[1], MADE_TITLE)

    for n in MADE:
        for order in ORDERS:
            for places in n, n + 1, n + SPARE:
                walked(places, n, order)
            walked(n, n, order, 0, 1)
            for k in asked_of(n, order):  # absent keys over more places, present ones over as many as there are entries
                looked_up(n, order, n if k % 2 else n + SPARE, n, k)
            if n:
                walked(n - 1, n, order)
                walked(n + 1, n, order, 1)
                walked(n + SPARE, n, order, 1)
                walked(n, n, order, 1)  # ROOM of the entry that repeats a key
                walked(n + 1, n, order, 1, 1)  # and SHORT
        looked_up(n, SHUFFLED, n, n + 1, 1)  # ROOM
        looked_up(n, SHUFFLED, n + SPARE, n + SPARE, 2 * n)  # more than were walked: a mark is no offset of the file
        if n:
            looked_up(n, SHUFFLED, n - 1, n - 1, 1)  # over the zeros that a refused walk leaves


LARGEST_ASKED = 1, LARGEST + 1, 2 * LARGEST - 1, 0, LARGEST, 2 * LARGEST  # first, middle, last; below, between, above
LARGEST_MARKS = [i % 9 + 1 for i in range(LARGEST + 1)]


def largest_maps():
    def walked(at, places, order):
        case("veka_walk", at, s=largest_map(order), lent=LARGEST_MARKS[:places], title=LARGEST_TITLE)

    for order in ORDERS:
        walked(1, LARGEST, order)
    walked(1, LARGEST - 1, SHUFFLED)
    walked(0, LARGEST + 1, SHUFFLED)
    s = largest_map(SHUFFLED)
    table = walk(s, 1, LARGEST)[1]
    for k in LARGEST_ASKED:
        case("veka_lookup", *made_key(k), LARGEST, s=s, lent=table, title=LARGEST_TITLE)
    case("veka_values", *made_key(LARGEST_ASKED[1]), LARGEST, s=s, lent=table, title=LARGEST_TITLE)


def made_well_covered(answers):
    """Each size in each order: what is asked, and that the map is what it is meant to be."""
    keys = [made_key(k) for k in range(2 * LARGEST + 1)]
    assert keys == sorted(set(keys)) and max(max(key) for key in keys) < MODULUS
    parts = [next(e for e in range(4) if a[e] != b[e]) for a, b in zip(keys[1::2], keys[3::2])]
    assert set(parts) == {0, 1, 2, 3} and parts.count(3) > 900
    for e in 0, 2, 3:  # numbers are compared: their bytes, from the first one on, come in another order
        rising = sorted({key[e] for key in keys})
        assert sorted(rising, key=lambda x: little([x], 8)) != rising

    def recorded(name, given, s, lent):
        return answers[name, tuple(given), tuple(s), tuple(lent)]

    def laid_out(n, order, at):
        """Where each key is, in the order of the file, and where the map ends."""
        assert sorted(made_ranks(n, order)) == list(range(n))
        places = {}
        for key, held in made_entries(n, order):
            places[key] = at
            at += 33 + 8 * len(held)
        return places, at

    def well_looked(n, order, s, places, asked, table_of, name):
        """That each key asked for is found or not, as the entries have it."""
        entries = dict(made_entries(n, order))
        assert {0, 2 * n} <= set(asked)  # below and above all
        assert n == 0 or {1, 2 * n - 1, n // 2 * 2 + 1} <= set(asked)  # the first, the last, the middle
        assert n < 2 or n // 2 * 2 in asked  # between two
        for k in asked:
            key = made_key(k)
            assert (key in entries) == (k % 2 == 1 and k < 2 * n)
            answer, _ = recorded(name, [*key, n], s, table_of(k))
            if name == "veka_lookup" and answer[0] == 0:
                *answer, compared = answer
                assert compared <= n.bit_length()
            held = entries.get(key)
            if held is None:
                assert answer == [0, 0, 0, 0]
            elif TOP in held:
                assert answer == [ELEMENT, places[key] + 33 + 8 * held.index(TOP)]
            elif name == "veka_lookup":
                assert answer == [0, 1, places[key] + 33, len(held)]
            else:
                assert answer == [0, 1, places[key] + 33, 8 * len(held)]

    for n in MADE:
        for order in ORDERS:
            places, end = laid_out(n, order, shortest_len(n))
            s, rows = made_map(n, order), [places[key] for key in sorted(places)]
            assert end == len(s)
            for spare in 0, 1, SPARE:
                assert recorded("veka_walk", [0], s, MARKS[:n + spare]) == ([0, n, end, 0, 0], rows + MARKS[n:n + spare])
            assert recorded("veka_walk", [0], made_map(n, order, 0, 1), MARKS[:n])[0][0] == SHORT
            if n:
                twice, last = made_map(n, order, 1), list(places.values())[-1]
                assert recorded("veka_walk", [0], s, MARKS[:n - 1]) == ([ROOM, last], [0] * (n - 1))
                for spare in 1, SPARE:
                    assert recorded("veka_walk", [0], twice, MARKS[:n + spare]) == ([DUPLICATE, end], [0] * (n + spare))
                assert recorded("veka_walk", [0], twice, MARKS[:n]) == ([ROOM, end], [0] * n)
                assert recorded("veka_walk", [0], made_map(n, order, 1, 1), MARKS[:n + 1])[0][0] == SHORT
            asked = asked_of(n, order)
            assert len(asked) >= 8
            for name in "veka_lookup", "veka_values":
                well_looked(n, order, s, places, asked, lambda k: rows if k % 2 else rows + MARKS[n:n + SPARE], name)
    for order in ORDERS:
        places, end = laid_out(LARGEST, order, 9)
        s, rows = largest_map(order), [places[key] for key in sorted(places)]
        assert recorded("veka_walk", [1], s, LARGEST_MARKS[:-1]) == ([0, LARGEST, end, len(s) - end, 1], rows) and end < len(s)
    last = list(places.values())[-1]
    assert recorded("veka_walk", [1], s, LARGEST_MARKS[:-2]) == ([ROOM, last], [0] * (LARGEST - 1))
    assert recorded("veka_walk", [0], s, LARGEST_MARKS) == ([DUPLICATE, end], [0] * (LARGEST + 1))
    well_looked(LARGEST, SHUFFLED, s, places, LARGEST_ASKED, lambda k: rows, "veka_lookup")
    middle = made_key(LARGEST_ASKED[1])
    held = dict(made_entries(LARGEST, SHUFFLED))[middle]
    assert recorded("veka_values", [*middle, LARGEST], s, rows)[0] == [0, 1, places[middle] + 33, 8 * len(held)] and held


# ---- files to write


def small(n):
    """Bytes: most are one digit, so that lines are short."""
    return [rng.randrange(10) if rng.random() < 0.8 else rng.randrange(256) for _ in range(n)]


def some_word(raw):
    """An entry's word; `raw`: what is ignored when read may be any."""
    kind = rng.randrange(9)
    ids = rng.choice((0, 1, 2**30 + 2, 2**32 - 1, rng.getrandbits(32)))
    if kind < 2:
        ids = rng.choice((ids, 2**60 - 1, rng.getrandbits(60)))
    return kind * 2**60 + (ids if kind < 6 else rng.choice((1, 9, 2**60 - 1)) * raw)


def some_facts():
    """Facts that leave some flag bits free, and flags of theirs."""
    if rng.random() < 0.6:
        mask, reserved = 2, rng.choice((0xFC, 0xF0, 0))
        facts = [*FACTS[:7], mask, reserved, rng.choice((FACTS[9], 6, 2**30))]
    else:
        mask = 1 << rng.randrange(8)
        reserved = rng.randrange(256) & ~mask & rng.randrange(256)
        facts = [*small(7), mask, reserved, rng.choice((6, 2**30, 1000))]
    return facts, rng.randrange(256) & ~mask & ~reserved & rng.choice((0, 255))


def some_parts(facts, flags, hashless, nodes, entries, raw=False, roots=0, block=0, order=SHUFFLED, longest=5):
    """Parts that fit together; a key has at most `longest` values."""
    words = [some_word(raw) for _ in range(nodes)]
    externals = external_count(words)
    keys = set()
    while len(keys) < entries:
        keys.add(tuple(rng.choice((0, 1, 7, 255, number() % MODULUS if rng.random() < 0.3 else 2)) for _ in range(4)))
    keys = sorted(keys, reverse=order == FALLING)
    if order == SHUFFLED:
        rng.shuffle(keys)
    lengths = [min(rng.choice((0, 1, 1, 2, 3, 5)), longest) for _ in keys]
    held = [rng.choice((0, 5, 9, rng.randrange(1000), TOP)) for _ in range(sum(lengths))]
    roots = [rng.choice((0, 3, 9, 2**32 - 1, rng.getrandbits(32))) for _ in range(roots)]
    return [flags | facts[7] * hashless, roots, small(block), words, small(32 * externals),
            small(0 if hashless else 32 * (nodes - externals)), [x for key in keys for x in key], lengths, held]


FILLED = [i % 9 + 1 for i in range(1024)]  # an output before: nonzero, neighbours differ, and one digit each
REWRITTEN, READ_AGAIN = "veka_write, parts of files", "veka_scan and veka_walk, files and what is written of them"
rewritten = []  # facts, file, whether it starts with what is written


def rewrite(facts, s):
    """The parts of a file, written where the file to its map's end has room; and both files read."""
    parts, end, counts = file_parts(s, facts)
    given, held = listed(facts, parts)
    answer, out = write(facts, parts, FILLED[:end])
    assert answer[0] == 0, answer
    written = out[:answer[1]]
    again, _, counts_again = file_parts(written, facts)
    same, equal = as_read(again) == as_read(parts), s[:len(written)] == written
    # document 01: the same parts always; no longer, and as long exactly if each count has its shortest form;
    # so equal bytes exactly if, besides, each entry has its written form
    shortest = all(size == least for size, least in counts)
    assert same and len(written) <= end and (len(written) == end) == shortest
    assert equal == (shortest and parts == as_read(parts)) and all(size == least for size, least in counts_again)
    assert again == as_read(parts) and written == file_of(facts, again)
    rewritten.append((facts, s, equal))
    case("veka_write", *given, s=held, lent=FILLED[:end], title=REWRITTEN)
    for one in s, written:
        case("veka_scan", *facts, 1, 0, 0, s=one, title=READ_AGAIN)
        case("veka_walk", scan_layout(one, *facts, 1, 0, 0)[12], s=one, lent=FILLED[:8], title=READ_AGAIN)


def rewrites():
    def held(facts, parts, sizes=(), after=0):
        plain = [parts[0], *parts[1:4], *([0] * len(part) for part in parts[4:6]), [], [], []]
        rows = [little([word], 8) for word in parts[3]]
        four = [*sizes, 0, 0, 0, 0][:4]
        assert file_of(facts, plain, four) == forest(rows, *parts[1:3], parts[0], facts, sizes=four)
        s = file_of(facts, parts, sizes)
        assert file_parts(s, facts)[0] == parts
        rewrite(facts, s + small(after))

    for k in range(6):  # each count in each longer form alone: the last is the length of some values
        for size in range(2, 10):
            facts, flags = some_facts()
            entries = rng.randrange(1, 3)
            parts = some_parts(facts, flags, size % 2, rng.randrange(3), entries, raw=size > 5, roots=rng.randrange(3),
                               block=rng.randrange(4))
            at = k + (rng.randrange(entries) if k == 5 else 0)
            held(facts, parts, [size * (i == at) for i in range(5 + entries)], after=rng.choice((0, 0, 3)))
    for i in range(96):
        facts, flags = some_facts()
        nodes = (0, 1, 2, 1, 2, 3, 6, 4)[i % 8]
        entries = (0, 1, 2, 3, 0, 1, 6 if nodes < 3 else 4)[i % 7]
        parts = some_parts(facts, flags, i // 8 % 2, nodes, entries, raw=i % 4 > 1, roots=rng.randrange(6),
                           block=rng.choice((0, 1, 3, 8, 40)), order=(SHUFFLED, RISING, SHUFFLED, FALLING)[i // 3 % 4])
        sizes = []
        if i % 2:
            sizes = [rng.choice((0, rng.randrange(2, 10))) for _ in range(5 + entries)]
        held(facts, parts, sizes, after=rng.choice((0, 0, 1, 5)))
    for block in 127, 128, 200:  # a count that needs two bytes, and one beside it
        for size in 0, 2, 3, 9:
            facts, flags = some_facts()
            parts = some_parts(facts, flags, 1, 1, 1, block=block)
            held(facts, parts, [0, 0, 0, size])
    held(FACTS, [0, *[[]] * 8])
    held(FACTS, [NO_HASHES, *[[]] * 8], [9] * 5)


def bad_word(tag):
    return rng.choice((9, 10, 15)) * 2**60 + 5 if tag else rng.randrange(2, 6) * 2**60 + rng.choice((2**32, 2**60 - 1))


def cut_or_more(part, *sizes):
    """Longer or shorter by one of the sizes."""
    by = rng.choice(sizes)
    return part[:-by] if len(part) >= by and rng.randrange(2) else part + [1] * by


def spoil(name, facts, parts, at, whole=32):
    """Makes facts and parts meet a line of the writer's table, at the node or key `at`."""
    if name == "FORMAT":
        facts[7:] = rng.choice(([0, *facts[8:]], [facts[7] | 3 << 3, *facts[8:]], [facts[7], facts[8] | facts[7], facts[9]],
                                [*facts[7:9], 2**30 + 1], [*facts[7:9], TOP]))
    elif name == "FLAGS":
        parts[0] |= facts[8] & -facts[8]
    elif name == "TOO-MANY":
        facts[9] = rng.choice((0, len(parts[3]) - 1))
    elif name in ("TAG", "PAYLOAD"):
        parts[3][at] = bad_word(name == "TAG")
    elif name == "PARTS 1":
        parts[4] = cut_or_more(parts[4], 1, 31, whole)
    elif name == "PARTS 2":
        parts[5] = cut_or_more(parts[5], 1, 31, whole)
    elif name == "PARTS 3":
        parts[6] = cut_or_more(parts[6], 1, 3, 4)
    elif name == "PARTS 4":
        parts[8] = cut_or_more(parts[8], 1, 2)
    elif name == "ELEMENT":
        parts[6][4 * at + rng.randrange(4)] = rng.choice((MODULUS, MODULUS + 1, TOP))
    elif name == "DUPLICATE":
        other = rng.randrange(at)
        parts[6][4 * at:4 * at + 4] = parts[6][4 * other:4 * other + 4]


LINES = "FORMAT,FLAGS,TOO-MANY,TAG,PAYLOAD,PARTS 1,PARTS 2,PARTS 3,PARTS 4,ELEMENT,DUPLICATE,ROOM".split(",")
# both of two lines met, and the first of them given; TAG and PAYLOAD go node by node, ELEMENT and DUPLICATE key by key
PAIRS = [*zip(LINES, LINES[1:]), ("PAYLOAD", "TAG"), ("TAG", "PARTS 1"), ("TOO-MANY", "PAYLOAD"), ("DUPLICATE", "ELEMENT"),
         ("PARTS 4", "DUPLICATE"), ("ELEMENT", "ROOM"), ("FORMAT", "ROOM"), ("PARTS 1", "ROOM")]
OTHER_PARTS = "veka_write, other parts"


def written_parts():
    def asked(facts, parts, spare):
        room = min(max(file_length(parts) + spare, 0), len(FILLED))
        given, held = listed(facts, parts)
        case("veka_write", *given, s=held, lent=FILLED[:room], title=OTHER_PARTS)
        return [name for name, *_ in met(facts, parts, room)]

    def some_case(entries=None, order=SHUFFLED, hashless=None):
        flags = rng.choice((0, 1))
        facts = [*FACTS[:8], 0xF8, rng.choice((6, FACTS[9]))]
        return facts, some_parts(facts, flags, rng.randrange(2) if hashless is None else hashless, rng.randrange(2, 4),
                                 3 if entries is None else entries, raw=rng.randrange(2) > 0, roots=rng.randrange(3),
                                 block=rng.randrange(4), order=order, longest=1)

    for order in ORDERS:
        for entries in 0, 1, 2, 3, 6:
            for spare in (0, rng.choice((1, 9, 300))):
                facts, parts = some_case(entries, order)
                assert asked(facts, parts, spare) == []
    for spare in -1, -1, -1, -2, -8, -30, -100, -1024:
        facts, parts = some_case()
        assert asked(facts, parts, spare) == ["ROOM"]
    for name in LINES[:-1]:
        for i in range(6):
            facts, parts = some_case(4 if name == "ELEMENT" else None, order=rng.randrange(3), hashless=i % 2)
            if name in ("TAG", "PAYLOAD"):
                at = (0, 1, 1, 0, -1, -1)[i] % len(parts[3])
            elif name == "ELEMENT":
                at = i % 4
            else:
                at = (1, 2, 1, 2, -1, -1)[i] % len(parts[7])
            spoil(name, facts, parts, at)
            assert asked(facts, parts, rng.choice((0, 0, 9)))[0] == name
    for order in ORDERS:  # a key again: at once, later, last
        for at in 1, 3, 5:
            facts, parts = some_case(6, order, 1)
            spoil("DUPLICATE", facts, parts, at)
            assert asked(facts, parts, 0) == ["DUPLICATE"]
    for first, second in PAIRS:
        for i in range(3):
            facts, parts = some_case(hashless=i % 2)
            places = {"TAG": 0, "PAYLOAD": 0, "ELEMENT": 1, "DUPLICATE": 1}
            if {first, second} in ({"TAG", "PAYLOAD"}, {"ELEMENT", "DUPLICATE"}):
                places[second] += 1
            if (first, second) == ("ELEMENT", "DUPLICATE") and i == 0:  # of one key: the earlier one is no word either
                parts[6][0:8] = [TOP, 1, 2, 3] * 2
            else:
                spoil(first, facts, parts, places.get(first, 0))
                # 33: a whole digest could make up for an external node that has been spoilt
                spoil(second, facts, parts, places.get(second, 0), whole=33)
            lines = asked(facts, parts, -rng.choice((1, 2, 40)) if second == "ROOM" else 0)
            assert lines[0] == first and second in lines, (first, second, lines)
    for wrapped in [2**63, 2**63], [TOP, 1], [2**64 - 5, 2, 3], [2**62] * 4:  # the sum is a true number
        for more in [], [2]:
            facts, parts = some_case(len(wrapped) + len(more))
            parts[7], parts[8] = wrapped + more, [5] * sum(more)
            assert sum(parts[7]) % 2**64 == len(parts[8]) and asked(facts, parts, 0)[0] == "PARTS 4"


CLAIMS = "veka_write, claims of the order of keys"


def true_order(keys):
    """The key numbers by rising keys, equal ones by rising number."""
    return sorted(range(len(keys) // 4), key=lambda i: keys[4 * i:4 * i + 4])


def claimed_orders():
    """No claim, the true one and wrong ones: turned round, short, long, twice the same, of no key. The answer is the same."""
    def asked(facts, parts, spare):
        order = true_order(parts[6])
        n = len(order)
        wrong = [order[::-1], order[:-1], order + [n], [0] * n, [n, *order[1:]], [TOP, *order[1:]], list(range(n))]
        for claim in [], order, *wrong:
            given, held = listed(facts, parts, claim)
            case("veka_write", *given, s=held, lent=FILLED[:max(file_length(parts) + spare, 0)], title=CLAIMS)

    facts = [*FACTS[:8], 0xF8, 6]
    for order in ORDERS:
        for entries in 1, 2, 3, 6:
            asked(facts, some_parts(facts, 0, 1, 1, entries, order=order, longest=1), rng.choice((0, 0, 3)))
        for at in 1, 3, 5:  # a key again
            parts = some_parts(facts, 0, 1, 1, 6, order=order, longest=1)
            spoil("DUPLICATE", facts, parts, at)
            asked(facts, parts, 0)
        parts = some_parts(facts, 0, 1, 1, 5, order=order, longest=1)
        parts[6][8:20] = parts[6][:4] * 3  # the same key four times
        asked(facts, parts, 0)
        parts = some_parts(facts, 0, 1, 1, 4, order=order, longest=1)
        spoil("ELEMENT", facts, parts, 2)
        asked(facts, parts, 0)
        asked(facts, some_parts(facts, 0, 1, 1, 3, order=order, longest=1), -1)  # ROOM


def claims_well_covered(answers):
    """For each set of parts the claims have one answer: a file, a refusal of a key again, others."""
    by_parts = {}
    for title, name, given, s, lent in all_cases("veka_write"):
        if title == CLAIMS:
            answer, after = answers[name, tuple(given), tuple(s), tuple(lent)]
            facts, parts = unlisted(s, given)
            claim = given[given[17]:]
            kind = "none" if not claim else "true" if claim == true_order(parts[6]) else "wrong"
            by_parts.setdefault(str((facts, parts, lent)), []).append((kind, answer, after))
    for held in by_parts.values():
        assert {kind for kind, *_ in held} == {"none", "true", "wrong"}
        assert all(rest == list(held[0][1:]) for rest in ([answer, after] for _, answer, after in held))
    numbers_said = [held[0][1][0] for held in by_parts.values()]
    assert numbers_said.count(0) >= 12 and numbers_said.count(DUPLICATE) >= 12 and {ELEMENT, ROOM} <= set(numbers_said)


def headers():
    """The flags byte of any bytes, and the version."""
    for size in range(12):
        case("veka_flags", s=some(size))
    for flags in 0, 1, 2, 90, 91, 92, 128, 255:
        case("veka_flags", s=[*b"MAST", flags])
        case("veka_flags", s=forest(*P10, flags=flags))
    case("veka_version")


def map_places():
    """Places of a key table: how many are enough, the key at each, and the entry at each."""
    def enough(s, at):
        """As many places as are said to be enough serve as well as any more, and one less does not where the walk is whole."""
        case("veka_places", at, s=s)
        n = places(s, at)
        assert walk_map(s, at, [0] * n)[0] == walk_map(s, at, [0] * (n + 3))[0]
        assert n == 0 or walk(s, at, n)[0] or walk(s, at, n - 1)[0] == ROOM

    def at_places(s, table, beyond=2):
        for i in (*range(len(table) + beyond), TOP):
            for name in "veka_key", "veka_map_entry":
                case(name, i, s=s, lent=table)

    for n in range(6):
        for size in 0, 2, 9:
            before = some(rng.randrange(3))
            s = before + map_bytes(some_entries(n), size) + some(rng.randrange(3))
            enough(s, len(before))
            table = walk(s, len(before), 9)
            if table[0] == 0:
                at_places(s, table[1])
    for said in 0, 1, 2, 3, 127, 128, 2**56, TOP:  # more and fewer than there are
        for size in 0, 32, 33, 34, 65, 66, 67, 99:
            s = form(said, shortest_len(said))
            enough(s + [0] * size, 0)
    whole = map_bytes([([1, 2, 3, 4], [5, 6]), ([1, 2, 3, 3], [])])
    for left in range(0, len(whole), 3):
        enough(whole[:left], 0)
        at_places(whole[:left], [1], 0)
    for at in (0, 1, len(whole), len(whole) + 1, *FAR):
        enough(whole, at)
        at_places(whole, [at], 0)
    for k in range(4):
        for x in MODULUS - 1, MODULUS, TOP:
            at_places(map_bytes([([x if j == k else 5 for j in range(4)], [3])]), [1], 0)
    for length in 2**61 - 1, 2**61, TOP, 3, 2:  # OVERFLOW and SHORT of the values
        at_places([3] + [0] * 32 + form(length, 9) + [0] * 16, [1], 0)
    at_places(map_bytes([([9, 0, 0, 0], [MODULUS, TOP])]), [1], 0)  # values are not judged
    at_places(whole, [], 1)


def writer_well_covered(answers):
    """How many files have what, and how often each line of the writer's table refuses."""
    files = [(facts, s, *file_parts(s, facts), equal) for facts, s, equal in rewritten]
    longer = [[size > least for size, least in counts] for *_, counts, _ in files]
    assert len(files) >= 150 and sum(map(any, longer)) >= 90
    for k in range(6):
        forms = {size for *_, counts, _ in files for size, least in (counts[5:] if k == 5 else counts[k:k + 1]) if size > least}
        assert forms == set(range(2, 10)), k
    kinds = [word >> 60 for _, _, parts, *_ in files for word in parts[3]]
    assert all(kinds.count(kind) > 20 for kind in range(9))
    raw = [{word >> 60 for word in parts[3] if word != canonical(word)} for _, _, parts, *_ in files]
    assert all(sum(kind in some for some in raw) > 10 for kind in (6, 7, 8))
    for is_long in False, True:  # with all counts shortest and not, all entries canonical and not, hashless and not
        for is_raw in False, True:
            for hashless in False, True:
                seen = [equal for (facts, _, parts, *_, equal), some, long in zip(files, raw, longer)
                        if (any(long), bool(some), parts[0] & facts[7] != 0) == (is_long, is_raw, hashless)]
                assert len(seen) > 6 and all(equal == (not is_long and not is_raw) for equal in seen)
    assert {len(parts[3]) for _, _, parts, *_ in files} >= set(range(5)) | {6}
    assert {len(parts[1]) for _, _, parts, *_ in files} == set(range(6))
    assert {len(parts[7]) for _, _, parts, *_ in files} >= set(range(5)) | {6}
    assert {length for _, _, parts, *_ in files for length in parts[7]} == {0, 1, 2, 3, 5}
    assert sum(parts[0] & ~facts[7] != 0 for facts, _, parts, *_ in files) > 40  # free bits set
    assert sum(facts[:9] != FACTS[:9] for facts, *_ in files) > 80
    assert sum(len(s) > end for _, s, _, end, *_ in files) > 60  # bytes after the map
    orders = [[tuple(parts[6][i:i + 4]) for i in range(0, len(parts[6]), 4)] for _, _, parts, *_ in files]
    assert sum(len(keys) > 1 and keys == sorted(keys) for keys in orders) > 20
    assert sum(len(keys) > 1 and keys == sorted(keys)[::-1] for keys in orders) > 20
    assert sum(keys not in (sorted(keys), sorted(keys)[::-1]) for keys in orders) > 10
    for (facts, s, parts, end, *_), is_long in zip(files, longer):  # each is written, and it and what is written are read to the end
        given, held = listed(facts, parts)
        (_, n), out = answers["veka_write", tuple(given), tuple(held), tuple(FILLED[:end])]
        assert out[n:] == FILLED[n:end]
        for one, to, long in (s, end, is_long), (out[:n], n, []):
            (number, *lay), _ = answers["veka_scan", (*facts, 1, 0, 0), tuple(one), ()]
            walked, _ = answers["veka_walk", (lay[11],), tuple(one), tuple(FILLED[:8])]
            assert number == 0 and lay[12] == sum(long[:4]) and walked == [0, len(parts[7]), to, len(one) - to, sum(long[4:])]
    made = [(*unlisted(s, given), lent, *answers[name, tuple(given), tuple(s), tuple(lent)])
            for title, name, given, s, lent in all_cases("veka_write") if title == OTHER_PARTS]
    lines = [met(facts, parts, len(lent)) for facts, parts, lent, *_ in made]
    assert len(made) >= 140 and all(answer == list(seen[0][1:]) for (*_, answer, _), seen in zip(made, lines) if seen)
    given = [seen[0][0] if seen else None for seen in lines]
    assert set(given) == {None, *LINES} and all(given.count(name) >= 5 for name in set(given))
    for first, second in PAIRS:
        assert sum(names[:1] == [first] and second in names for names in ([name for name, *_ in seen] for seen in lines)) >= 3
    assert all((lent == out) == (answer[0] != 0) for *_, lent, answer, out in made)
    assert {place for *_, (number, place), _ in made if number == DUPLICATE} >= {1, 2, 3, 5}
    assert {place for *_, (number, place), _ in made if number == ELEMENT} >= {0, 1, 2, 3}
    short = [answer[1] - len(lent) for *_, lent, answer, _ in made if answer[0] == ROOM]
    spare = [len(lent) - answer[1] for *_, lent, answer, _ in made if answer[0] == 0]
    assert 1 in short and max(short) > 99 and min(short) > 0 and {0, 1} <= set(spare) and max(spare) > 99 and min(spare) == 0
    return {name or "written": given.count(name) for name in [None, *LINES]} | {"longer forms": sum(map(any, longer))}


def well_covered():
    """Each line of the scan's table refuses two files or more, one by the least that can be, and is passed
    by one at the limit itself. (4 x roots is never 2 ** 64 - 1: the nearest is 3 below.)"""
    excesses = {}
    for _, _, given, s, _ in all_cases("veka_scan"):
        for line, _, _, excess in looked_at(s, given):
            excesses.setdefault(line, []).append(excess)
    assert len(excesses.pop(None)) > 100 and len(excesses) == 26
    for line, seen in excesses.items():
        assert sum(x > 0 for x in seen) > 1 and 1 in seen and (-3 if line == "OVERFLOW roots" else 0) in seen, line


# where each call takes a place of the file or of the output
PLACES = {
    "veka_read_count": [0], "veka_write_count": [0], "veka_walk": [0], "veka_root": [4], "veka_entry": [7], "veka_slots": [7],
    "veka_places": [0], "veka_children": [7], "veka_order": [7], "veka_strict": [7], "veka_digest": [7, 8, 10], "veka_digest_with_table": [7, 8, 10],
}


def far_well_covered():
    """Each place is asked about beside 2 ** 64, and a table has such a place and is said to have so many."""
    for name, places in PLACES.items():
        for i in places:
            assert {TOP, TOP - 7, TOP - 8, TOP - 15, TOP - 31} & {given[i] for _, _, given, *_ in all_cases(name)}, (name, i)
    for name in "veka_lookup", "veka_values":
        assert any(TOP in lent for *_, lent in all_cases(name)) and any(given[4] == TOP for _, _, given, *_ in all_cases(name))


def words_well_covered(answers):
    """Two words: their order both ways, the same one twice, and what is no word; by the lookup all of them."""
    seen = {name: set() for name in TWO_WORDS}
    for title, name, given, s, lent in all_cases("veka_walk", "veka_lookup"):
        answer, after = answers[name, tuple(given), tuple(s), tuple(lent)]
        if title == TWO_WORDS[0]:
            a, b = word_at(s, 1), word_at(s, 34)
            no_word = [at for at, w in ((1, a), (34, b)) if max(w) >= MODULUS]
            assert (answer, after) == (([ELEMENT, no_word[0]], [0, 0]) if no_word else ([DUPLICATE, 34], [0, 0]) if a == b
                                       else ([0, 2, 67, len(s) - 67, 0], [1, 34] if a < b else [34, 1]))
            seen[title].add((answer[0], *after))
        elif title == TWO_WORDS[1]:
            a, b = given[:4], word_at(s, 1)
            assert answer == ([0, 1, 34, 0, 1] if a == b else [0, 0, 0, 0, 2 if a < b else 1])
            seen[title].add((*answer, max(a + b) < MODULUS))
    assert seen[TWO_WORDS[0]] == {(0, 1, 34), (0, 34, 1), (DUPLICATE, 0, 0), (ELEMENT, 0, 0)}
    assert len(seen[TWO_WORDS[1]]) >= 5


def long_well_covered(answers):
    """Each count of a file and of a map is long in each of its lengths somewhere; by itself each length is the shortest somewhere too."""
    seen, numbers = {}, {"veka_scan": set(), "veka_walk": set()}

    def met(what, value, size):
        seen.setdefault((what, is_long(value, size)), set()).add(size)

    for _, name, given, s, lent in all_cases("veka_read_count", *numbers):
        answer, after = answers[name, tuple(given), tuple(s), tuple(lent)]
        if answer[0]:
            continue
        if name == "veka_read_count":
            _, value, size, _, shortest = answer
            met(name, value, size)
            assert shortest == (size == shortest_len(value))
            continue
        numbers[name].add(answer[-1])
        if name == "veka_scan":
            for k, (_, value, size, _) in enumerate(counts_of(s)):
                met(("internal", "external", "roots", "block")[k], value, size)
        else:
            _, n, size, _ = read_count(s, given[0])
            met("entries", n, size)
            for at in after[:n]:
                met("values", *read_count(s, at + 32)[1:3])
    for what in "veka_read_count", "internal", "external", "roots", "block", "entries", "values":
        assert seen[what, True] == set(range(2, 10)), what
    assert seen["veka_read_count", False] == set(range(1, 10))
    assert numbers["veka_scan"] == set(range(5)) and numbers["veka_walk"] >= set(range(4)), numbers


# what each call has to say: 0 where it accepts, and every refusal that it has; the writer's OVERFLOW needs more bytes than a machine has
SAID = {
    "veka_read_count": {0, SHORT},
    "veka_shortest_len": {0},
    "veka_decode_entry": {0, TAG, PAYLOAD},
    "veka_encode_entry": {0, PAYLOAD, INDEX},
    "veka_scan": {0, *range(SHORT, EXTERNALS + 1), FORMAT},
    "veka_root": {0, SHORT, OVERFLOW, INDEX, ROOT_ID},
    "veka_entry": {0, SHORT, OVERFLOW, TAG, PAYLOAD, INDEX},
    "veka_children": {0, SHORT, OVERFLOW, TAG, PAYLOAD, CHILD_RANGE, FORWARD},
    "veka_order": {0, SHORT, OVERFLOW, TAG, PAYLOAD, ORDER},
    "veka_strict": {0, SHORT, OVERFLOW, TAG, PAYLOAD, NOT_CANONICAL},
    "veka_digest": {0, SHORT, OVERFLOW, TAG, PAYLOAD, INDEX, NO_HASH, ELEMENT},
    "veka_digest_with_table": {0, SHORT, OVERFLOW, TAG, PAYLOAD, INDEX, NO_HASH, ELEMENT, ROOM},
    "veka_slots": {0, SHORT, OVERFLOW, TOO_MANY, BUDGET, TAG, PAYLOAD, ROOM},
    "veka_write_count": {0, ROOM},
    "veka_walk": {0, SHORT, OVERFLOW, ELEMENT, DUPLICATE, ROOM},
    "veka_lookup": {0, SHORT, OVERFLOW, ELEMENT, ROOM},
    "veka_values": {0, SHORT, OVERFLOW, ELEMENT, ROOM},
    "veka_write": {0, FORMAT, FLAGS, TOO_MANY, TAG, PAYLOAD, PARTS, ELEMENT, DUPLICATE, ROOM},
    "veka_flags": {0, SHORT},
    "veka_places": {0},
    "veka_key": {0, SHORT, INDEX, ELEMENT},
    "veka_map_entry": {0, SHORT, OVERFLOW, INDEX, ELEMENT},
    "veka_version": {0},
}
# the same of some sections, by call
SAID_THERE = {
    (ONE_ROW, "veka_entry"): {0, SHORT, OVERFLOW, TAG, PAYLOAD, INDEX},
    (ALL_ROWS[0], "veka_slots"): {0, SHORT, OVERFLOW, TAG, PAYLOAD},
    (ALL_ROWS[1], "veka_digest"): {SHORT, OVERFLOW, PAYLOAD},
    (WORDS, "veka_digest"): {0, SHORT, OVERFLOW, ELEMENT},
    (MADE_TITLE, "veka_walk"): {0, SHORT, DUPLICATE, ROOM},
    (MADE_TITLE, "veka_lookup"): {0, SHORT, ELEMENT, ROOM},
    (LARGEST_TITLE, "veka_walk"): {0, DUPLICATE, ROOM},
    (LARGEST_TITLE, "veka_lookup"): {0},
    (READ_AGAIN, "veka_scan"): {0},
    (READ_AGAIN, "veka_walk"): {0},
    (REWRITTEN, "veka_write"): {0},
}

# ---- the text


def first_call(title):
    """The number of the call that a title begins with."""
    return CALLS.index(title.split(",")[0].split(" ")[0]) + 1


def laid_answer(name, answer, after):
    """The number returned, the place, the answer's places, and what was lent; or a plain number."""
    number, *said = answer
    if ANSWERS[name] is None:
        return said
    before = [91] if name == "veka_flags" else list(range(901, 901 + ANSWERS[name]))
    laid = [number, *said, *before] if number else [0, PLACE, *said]
    assert len(laid) == 2 + ANSWERS[name]
    return laid + after


def row(numbers):
    return "".join(f"{x} " for x in numbers)


def by_file(held):
    """The cases of a section, those of one file together, and those of the empty file first."""
    files = {(): []}
    for one in held:
        files.setdefault(one[2], []).append(one)
    return [one for group in files.values() for one in group]


def text_of(sections, answers):
    lines = []
    for title, held in sections.items():
        lines.append("@" + title)
        file = ()
        for one in held:
            name, given, s, lent = one
            if s != file:
                lines.append("=" + row(s))
                file = s
            lines.append(";".join(map(row, ([CALLS.index(name) + 1, *given], lent, laid_answer(name, *answers[one])))))
    return "".join(line + "\n" for line in lines)


def read_again(text):
    """The text by its description alone: sections with their titles and cases, a case being its file and three groups."""
    def group(part, most, below=2**64):
        assert part == "" or part[-1] == " "
        words = part[:-1].split(" ") if part else []
        assert all(word.isdigit() and (word == "0" or word[0] != "0") for word in words) and len(words) <= most
        found = [int(word) for word in words]
        assert all(x < below for x in found)
        return found

    assert text.isascii() and len(text) <= 3000000 and text[-1] == "\n" and text[0] == "@"
    sections, file = [], []
    lines = text[:-1].split("\n")
    for line, following in zip(lines, [*lines[1:], "@"]):
        assert line != "" and "@" not in line[1:] and (line[0] != "=" or following[0] not in "=@")
        if line[0] == "@":
            assert len(line) > 1
            sections.append((line[1:], []))
            file = []
        elif line[0] == "=":
            before, file = file, group(line[1:], 98304, 256)
            assert file != before
        else:
            first, second, third = line.split(";")
            call, *given = group(first, 4096)
            lent_below = {12: 2**32, 13: 2**32, 14: 256, 18: 256}.get(call, 2**64)
            lent = group(second, 4096, lent_below)
            answer = group(third, 8192)
            lends = call in (12, 13, 14, 15, 16, 17, 18, 21, 22)
            width = {1: 4, 3: 3, 5: 13, 7: 3, 8: 0, 9: 0, 10: 0, 11: 4, 12: 4, 13: 2, 15: 4, 16: 4, 17: 3, 21: 4, 22: 6}.get(call, 1)
            fixed_part = 1 if call in (2, 20, 23) else 2 + width
            assert (lends or not lent) and len(answer) == fixed_part + len(lent) and all(x < lent_below for x in answer[fixed_part:])
            assert call not in (5, 18) or max(given[:9]) < 256
            if call == 18:
                assert given[10] < 256 and len(given) == given[18] and all(x < 2**32 for x in given[given[16]:given[17]])
            else:
                fixed = {1: 1, 2: 1, 3: 1, 4: 3, 5: 13, 6: 13, 7: 13, 8: 12, 9: 12, 10: 12, 11: 13, 12: 13, 13: 14, 14: 2,
                         15: 1, 16: 5, 17: 5, 19: 0, 20: 1, 21: 1, 22: 1, 23: 0}
                assert len(given) == fixed[call]
            assert call != 5 or given[10] < 2
            sections[-1][1].append((call, given, file, lent, answer))
    return sections


MAKERS = [bench, numbers, counts, counts_among_bytes, padded_counts, words, entries, scan_bench_files, scan_headers, scan_given_numbers,
          scan_sizes, scan_padded, scan_sections, scan_entries, scan_many_entries, scan_random_files, rows_by_number, readers_by_index,
          slots, digests, node_checks, maps, padded_maps, made_maps, largest_maps, map_places, rewrites, written_parts, claimed_orders,
          headers]


def make_cases():
    global scan_title
    for make in MAKERS:
        rng.seed(make.__name__)  # its own numbers, so that a change of one maker leaves the cases of the others
        scan_title = make.__name__.removeprefix("scan_").replace("_", " ")
        make()


def asked_of_all(oracle, by_model, model, answers):
    """Holds the answers to the other sources; how many each source has."""
    sources = dict.fromkeys(("the published Rust", "model.py", "document 01"), 0)
    asks = [commands(name, list(s), list(given), list(lent), answer[0])
            for (name, given, s, lent), (answer, _) in answers.items()]
    text = "".join(c + "\n" for ask in asks for c in ask)
    run = subprocess.run([oracle], input=text, capture_output=True, text=True, check=True)
    replies = iter(run.stdout.splitlines())
    for ((name, given, s, lent), (answer, after)), ask in zip(answers.items(), asks):
        s, given, lent = list(s), list(given), list(lent)
        source = "document 01"
        by = by_model(name, s, given, lent, answer[0])
        if by is not None:
            assert by == (answer, after), (name, given, s, lent, by)
            source = "model.py"
        replied = [next(replies) for _ in ask]
        if ask:
            reply = said(name, s, given, lent, replied[-1])
            assert reply == (known(name, answer), after), (name, given, s, lent, reply)
            source = source if name == "veka_read_count" else "the published Rust"
        if name == "veka_write" and answer[0] == 0:  # neither has a writer of files: the model reads what is written, to the end
            facts, parts = unlisted(s, given)
            written = after[:answer[1]]
            (number, *lay), _ = by_model("veka_scan", written, [*facts, 1, 0, 0], [], 0)
            assert number == 0 and lay[12] == 0
            walked, _ = by_model("veka_walk", written, lay[11:12], [0] * 8, 0)
            assert walked == [0, len(parts[7]), len(written), 0, 0]
        if name == "veka_write_count" and answer[0] == 0:  # the model has no count writer: it reads back
            assert model.count(bytes(after), given[0]) == (given[1], answer[1])
        sources[source] += 1
    assert next(replies, None) is None
    return sources


def main(oracle, model_folder):
    sys.dont_write_bytecode = True
    sys.path.insert(0, model_folder)
    import model
    make_cases()
    well_covered()
    far_well_covered()
    sections = {title: by_file(cases[title]) for title in sorted(cases, key=first_call)}
    answers = {}
    for held in sections.values():
        for one in held:
            name, given, s, lent = one
            answers[one] = DOCUMENT[name](list(s), list(given), list(lent))
    words_well_covered(answers)
    long_well_covered(answers)
    made_well_covered(answers)
    writer_seen = writer_well_covered(answers)
    claims_well_covered(answers)
    for name, numbers_said in SAID.items():
        assert {answer[0] for one, (answer, _) in answers.items() if one[0] == name} == numbers_said, name
    for (title, name), numbers_said in SAID_THERE.items():
        assert {answers[one][0][0] for one in sections[title] if one[0] == name} == numbers_said, (title, name)
    sources = asked_of_all(oracle, modelled(model), model, answers)
    text = text_of(sections, answers)
    assert read_again(text) == [
        (title, [(CALLS.index(name) + 1, [*given], [*s], [*lent], laid_answer(name, *answers[name, given, s, lent]))
                 for name, given, s, lent in held]) for title, held in sections.items()]
    seen = {title: len(held) for title, held in sections.items()}
    total = sum(seen.values())
    crate = Path(__file__).resolve().parents[2] / "crates" / "recorded"
    (crate / "stdin").write_text(text)
    (crate / "stdout").write_text("".join(f"{n} agree: {title}\n" for title, n in seen.items()) + f"{total} agree in all\n")
    for title, n in [*seen.items(), ("in all", total), *sources.items(), *writer_seen.items(), ("came twice", repeated)]:
        print(n, title)


if __name__ == "__main__":
    if len(sys.argv) != 3:
        sys.exit(__doc__)
    main(*sys.argv[1:])
