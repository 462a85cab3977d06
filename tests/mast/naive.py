"""naive.py: a second reader of program files, slow and plain, written from document 01; run.py holds what the program says against it.

Nothing here is shared with the program: Python sorts the map, a digest's slot is counted anew for every node, and each check is its definition.
"""
import json, re, struct
from collections import namedtuple
from types import SimpleNamespace

MOST, PRIME = 2**64 - 1, 18446744069414584321  # an element is below PRIME
REFUSALS = ("SHORT MAGIC VERSION FLAGS HASHLESS OVERFLOW TOO-MANY BUDGET TAG PAYLOAD EXTERNALS INDEX ROOT-ID NO-HASH CHILD-RANGE FORWARD ORDER "
            "ELEMENT DUPLICATE ROOM FORMAT NOT-CANONICAL PARTS").split()
KINDS = "Join Split Loop Block Call SysCall Dyn Dyncall External".split()
Facts = namedtuple("Facts", "magic version hashless reserved maximum")
STAND_IN = Facts(b"MAST", bytes([0, 0, 2]), 0x02, 0xFC, 2**30 - 1)
Options = namedtuple("Options", "facts hashless_allowed bound span", defaults=(STAND_IN, True, None, (0, None)))
Row = namedtuple("Row", "key at length values_at")  # an entry of the advice map
met = set()  # the numbers of all refusals that were wanted so far


class Refused(Exception):
    """A refusal; its argument is what told() gives."""


def told(name, place, unit):
    met.add(REFUSALS.index(name) + 1)
    return {"number": REFUSALS.index(name) + 1, "name": name, "place": place, "unit": unit}


def refuse(wrong, name, place, unit="byte"):
    if wrong:
        raise Refused(told(name, place, unit))


def read_count(data, at):
    """The count at a place and the place after it."""
    first = data[at] if at < len(data) else 0
    length = (first & -first).bit_length() or 9
    refuse(at + length > len(data), "SHORT", at)
    return int.from_bytes(data[at:at + length], "little") >> min(length, 8), at + length


def longs(*counts):
    """How many of some counts, each by its value and the places where it begins and ends, have more bytes than a shorter form would: one of n
    bytes holds 7 n bits, and one of nine 64."""
    return sum(any(value < 2**(7 * n) for n in range(1, end - at)) for value, at, end in counts)


def read_entry(word, place):
    """An entry's kind, and its numbers: two of Join and Split, one of Loop, Block, Call and SysCall, none of the others."""
    tag, payload = word >> 60, word % 2**60
    refuse(tag > 8, "TAG", place)
    refuse(2 <= tag <= 5 and payload >= 2**32, "PAYLOAD", place)
    return KINDS[tag], [payload >> 30, payload % 2**30] if tag < 2 else [payload] if tag < 6 else []


def written(kind, numbers):
    return KINDS.index(kind) << 60 | (numbers[0] << 30 | numbers[1] if len(numbers) == 2 else sum(numbers))


def scan(data, options):
    """The tests in the paper's order."""
    facts = options.facts

    def budget(number, size, place):
        refuse(options.bound is not None and number > options.bound // size, "BUDGET", place)

    refuse(bin(facts.hashless).count("1") != 1 or facts.hashless & facts.reserved or facts.maximum > 2**30, "FORMAT", 0)
    refuse(len(data) < 4, "SHORT", 0)
    refuse(data[:4] != facts.magic, "MAGIC", 0)
    refuse(len(data) < 5, "SHORT", 4)
    refuse(len(data) < 8, "SHORT", 5)
    refuse(data[5:8] != facts.version, "VERSION", 5)
    refuse(data[4] & facts.reserved, "FLAGS", 4)
    hashless = bool(data[4] & facts.hashless)
    refuse(hashless and not options.hashless_allowed, "HASHLESS", 4)
    internal, external_count_at = read_count(data, 8)
    external, roots_count_at = read_count(data, external_count_at)
    nodes, hashes = internal + external, 0 if hashless else internal
    refuse(nodes > MOST, "OVERFLOW", 8)
    refuse(nodes > facts.maximum, "TOO-MANY", 8)
    for number, size in ((nodes, 8), (external, 32), (hashes, 32)):
        budget(number, size, 8)
    roots, roots_at = read_count(data, roots_count_at)
    budget(roots, 4, roots_count_at)
    refuse(4 * roots > MOST, "OVERFLOW", roots_count_at)
    refuse(4 * roots > len(data) - roots_at, "SHORT", roots_at)
    block_length, block_at = read_count(data, roots_at + 4 * roots)
    sections = block_length + 8 * nodes + 32 * external + 32 * hashes
    refuse(sections > MOST, "OVERFLOW", roots_at + 4 * roots)
    budget(sections, 1, roots_at + 4 * roots)
    refuse(sections > len(data) - block_at, "SHORT", block_at)
    entries_at, digests_at = block_at + block_length, block_at + block_length + 8 * nodes
    words = struct.unpack_from(f"<{nodes}Q", data, entries_at)
    entries = [read_entry(word, entries_at + 8 * i) for i, word in enumerate(words)]
    refuse(sum(kind == "External" for kind, _ in entries) != external, "EXTERNALS", external_count_at)
    fields = {"bytes": len(data), "flags": data[4], "node_count": nodes, "internal_node_count": internal, "external_node_count": external,
              "roots_count": roots, "roots_offset": roots_at, "basic_block_offset": block_at, "basic_block_len": block_length,
              "node_entry_offset": entries_at, "external_digest_offset": digests_at,
              "node_hash_offset": None if hashless else digests_at + 32 * external, "advice_map_offset": block_at + sections}
    long_counts = longs((internal, 8, external_count_at), (external, external_count_at, roots_count_at), (roots, roots_count_at, roots_at),
                        (block_length, roots_at + 4 * roots, block_at))
    return SimpleNamespace(data=data, fields=fields, words=words, entries=entries, long_counts=long_counts, **fields)


def walk(forest):
    """The advice map's rows, keys rising, its end, and how many of its counts are long."""
    data, rows = forest.data, {}
    count, at = read_count(data, forest.advice_map_offset)
    long_counts = longs((count, forest.advice_map_offset, at))
    for _ in range(count):
        refuse(at + 32 > len(data), "SHORT", at)
        key = struct.unpack_from("<4Q", data, at)
        refuse(max(key) >= PRIME, "ELEMENT", at)
        length, values_at = read_count(data, at + 32)
        refuse(8 * length > MOST, "OVERFLOW", at + 32)
        refuse(8 * length > len(data) - values_at, "SHORT", values_at)
        refuse(key in rows, "DUPLICATE", at)
        rows[key] = Row(key, at, length, values_at)
        long_counts += longs((length, at + 32, values_at))
        at = values_at + 8 * length
    return sorted(rows.values()), at, long_counts


def lookup(rows, key):
    """The row of a key, or None, and how many keys were compared on the way, by the halving rule."""
    low, size, compared = 0, len(rows), 0
    while size:
        row, half, compared = rows[low + size // 2], size // 2, compared + 1
        if row.key == key:
            return row, compared
        low, size = (low, half) if key < row.key else (low + half + 1, size - half - 1)
    return None, compared


def digest(forest, index):
    """The slot of a node, by counting the nodes of its class before it, and the members that tell its digest."""
    outside = [kind == "External" for kind, _ in forest.entries[:index + 1]]
    slot = outside[:index].count(outside[index])
    start = forest.external_digest_offset if outside[index] else forest.node_hash_offset
    if start is None:
        return slot, {"digest": None}
    row = forest.data[start + 32 * slot:start + 32 * slot + 32]
    if max(struct.unpack("<4Q", row)) >= PRIME:
        return slot, {"refused": told("ELEMENT", index, "node")}
    return slot, {"digest": "0x" + row.hex(), "digest_at": start + 32 * slot}


def root_row(forest, number):
    at = forest.roots_offset + 4 * number
    node, = struct.unpack_from("<I", forest.data, at)
    if node >= forest.node_count:
        return {"root": number, "at": at, "refused": told("ROOT-ID", number, "root")}
    return {"root": number, "at": at, "node": node, "kind": forest.entries[node][0], **digest(forest, node)[1]}


def node_row(forest, index):
    (kind, numbers), (slot, found) = forest.entries[index], digest(forest, index)
    own = {"ops_offset": numbers[0]} if kind == "Block" else {"children": numbers}
    return {"node": index, "at": forest.node_entry_offset + 8 * index, "kind": kind, **own, "slot": slot, **found}


def chosen_nodes(forest, span):
    """The nodes of a range; one that reaches past the last node is refused at the node before its end, an empty one asks for no node."""
    first, end = span
    refuse(end is not None and end > max(first, forest.node_count), "INDEX", (end or 0) - 1, "node")
    return range(first, forest.node_count if end is None else end)


def tests_of(forest):
    """The four checks of roots and nodes, each as its tests in turn: whether it fails, name, place and unit."""
    classes = [{"External": 0, "Block": 1}.get(kind, 2) for kind, _ in forest.entries]
    children = [(parent, child) for parent, (kind, numbers) in enumerate(forest.entries) if kind != "Block" for child in numbers]
    return {"roots": [("node" not in root_row(forest, i), "ROOT-ID", i, "root") for i in range(forest.roots_count)],
            "children": [test for parent, child in children for test in ((child >= forest.node_count, "CHILD-RANGE", parent, "node"),
                                                                         (child >= parent, "FORWARD", parent, "node"))],
            "order": [(classes[i] < classes[i - 1], "ORDER", i, "node") for i in range(1, len(classes))],
            "strict": [(written(*entry) != forest.words[i], "NOT-CANONICAL", i, "node") for i, entry in enumerate(forest.entries)]}


def check_rows(forest):
    failed = {name: next((test[1:] for test in tests if test[0]), None) for name, tests in tests_of(forest).items()}
    rows = [{"check": name, "ok": False, "refused": told(*test)} if test else {"check": name, "ok": True} for name, test in failed.items()]
    try:
        end = walk(forest)[1]
    except Refused as refused:  # only a whole map has an end, so nothing is said of what follows it
        return rows + [{"check": "map", "ok": False, "refused": refused.args[0]}]
    left = {"bytes": len(forest.data) - end, "at": end} if end < len(forest.data) else {}
    return rows + [{"check": "map", "ok": True}, {"check": "trailing", "ok": not left, **left}]


def refused_text(row):
    return f"refused {row['refused']['number']} at {row['refused']['unit']} {row['refused']['place']}"


def digest_text(row):
    return "digest " + (refused_text(row) if "refused" in row else f"{row['digest']} at {row['digest_at']}" if row["digest"] else "none")


def root_text(row):
    return f"root {row['root']} at {row['at']} " + (f"node {row['node']} {row['kind']} {digest_text(row)}" if "node" in row else refused_text(row))


def node_text(row):
    numbers = [row["ops_offset"]] if row["kind"] == "Block" else row["children"]
    return f"node {row['node']} at {row['at']} {row['kind']} {''.join(f'{n} ' for n in numbers)}slot {row['slot']} {digest_text(row)}"


def check_text(row):
    return row["check"] + " " + ("ok" if row["ok"] else refused_text(row) if "refused" in row else f"found {row['bytes']} at {row['at']}")


def layout_text(f, end, scan_longs, map_longs):
    hashes = "none" if f["node_hash_offset"] is None else f"at {f['node_hash_offset']}"
    return (f"nodes {f['node_count']} internal {f['internal_node_count']} external {f['external_node_count']}\n"
            f"roots {f['roots_count']} at {f['roots_offset']}\nblocks {f['basic_block_len']} at {f['basic_block_offset']}\n"
            f"entries at {f['node_entry_offset']}\nexternal digests at {f['external_digest_offset']}\nnode hashes {hashes}\n"
            f"advice at {f['advice_map_offset']} end {end}\nlong counts {scan_longs + map_longs} scan {scan_longs} map {map_longs}\n")


def hex_key(key):
    return "0x" + struct.pack("<4Q", *key).hex()


def lookup_answer(data, rows, key):
    row, compared = lookup(rows, key)
    if row is None:
        return f"key {hex_key(key)} absent compared {compared}\n", {"key": hex_key(key), "found": False, "compared": compared}
    values = [(row.values_at + 8 * i, value) for i, value in enumerate(struct.unpack_from(f"<{row.length}Q", data, row.values_at))]
    for at, value in values:
        refuse(value >= PRIME, "ELEMENT", at)
    text = f"key {hex_key(key)} found values {row.length} at {row.values_at} compared {compared}\n"
    members = {"key": hex_key(key), "found": True, "length": row.length, "values_at": row.values_at, "compared": compared}
    return text + "".join(f"value {v} at {at}\n" for at, v in values), members | {"values": [{"value": str(v), "at": at} for at, v in values]}


def accepted(command, data, options, key):
    """The text and the members for a file that is not refused as a whole."""
    forest = scan(data, options)
    if command in ("layout", "map", "lookup"):
        rows, end, map_longs = walk(forest)
    if command == "layout":
        more = {"advice_map_entries": len(rows), "advice_map_end": end, "trailing": len(data) - end,
                "long_counts": forest.long_counts + map_longs, "scan_long_counts": forest.long_counts, "advice_map_long_counts": map_longs}
        return layout_text(forest.fields, end, forest.long_counts, map_longs), forest.fields | more
    if command == "lookup":
        return lookup_answer(data, rows, key)
    if command == "map":
        text = "".join(f"key {hex_key(r.key)} at {r.at} values {r.length} at {r.values_at}\n" for r in rows)
        return text, {"map": [{"key": hex_key(r.key), "at": r.at, "length": r.length, "values_at": r.values_at} for r in rows]}
    name, rows, text = {"roots": lambda: ("roots", [root_row(forest, i) for i in range(forest.roots_count)], root_text),
                        "nodes": lambda: ("nodes", [node_row(forest, i) for i in chosen_nodes(forest, options.span)], node_text),
                        "check": lambda: ("checks", check_rows(forest), check_text)}[command]()
    return "".join(text(row) + "\n" for row in rows), {name: rows}


def complaint(row):
    """The pattern of the line on standard error for a refused row, or for trailing bytes; the reason may be any words."""
    if "refused" in row:
        return r"refused {number} \({name}\) at {unit} {place}: .+".format(**row["refused"])
    follow = "1 byte follows" if row["bytes"] == 1 else f"{row['bytes']} bytes follow"
    return f"{follow} the map, the first at byte {row['at']}"


def answer(command, name, data, options=Options(), key=None):
    """For one file: the text, the JSON object and the patterns of the complaints; the status is 1 exactly where there are any."""
    try:
        text, members = accepted(command, data, options, key)
    except Refused as refused:
        members = {"refused": refused.args[0]}
        text = "refused {number} at {place}\n".format(**refused.args[0]) if command == "layout" else ""
    rows = members.get("roots") or members.get("nodes") or members.get("checks") or [members]
    return text, {"file": name} | members, [complaint(row) for row in rows if "refused" in row or row.get("ok") is False]


def page(command, files, as_json=False, options=Options(), key=None):
    """For several files (name, bytes): all of standard output, a pattern for all of standard error, and the status."""
    names, answers = [name for name, _ in files], [answer(command, name, data, options, key) for name, data in files]
    if as_json:
        output = "".join(json.dumps(members, separators=(",", ":")) + "\n" for _, members, _ in answers)
    else:
        output = "\n".join((f"==> {name} <==\n" if len(files) > 1 else "") + text for name, (text, _, _) in zip(names, answers))
    errors = "".join(f"mast: {re.escape(name)}: {pattern}\n" for name, (_, _, patterns) in zip(names, answers) for pattern in patterns)
    return output.encode(), errors, int(bool(errors))
