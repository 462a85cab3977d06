#!/usr/bin/env python3
"""signatures.py: what a compiler of one language cannot see, and the linker does not look at. The raw C header and the Rust declarations have
each exported function just as crates/vekalumist_c declares it, and no other; those of the comparison are among them. Each exported function has
the parameters and the promises of crates/vekalumist's function of its name, and calls it. A struct has as many numbers as the array it stands for; each function that takes a slice has its inline one, which hands on what it is given; names, version,
refusals and kinds are the same everywhere. Says what it held together, and fails where something differs."""
import pathlib, re, sys

ROOT = pathlib.Path(__file__).resolve().parent.parent
C_TYPES = {"uint8_t": "u8", "uint32_t": "u32", "uint64_t": "u64", "size_t": "usize", "bool": "bool"}
RUST_NUMBERS = {"u8": "u8", "u32": "u32", "u64": "u64", "usize": "u64", "Slot": "u64", "ByteOffset": "u64"}
# a row's struct has its parameter's name, but for these
STRUCTS = {"left": "bound", "looked": "lookup", ("map_entry", "entry"): "map_entry"}
wrong = []


def text(path):
    return (ROOT / path).read_text()


def same(what, got, expected):
    if got != expected:
        wrong.append(f"{what}: {got}, and not {expected}")


def words(s):
    return " ".join(s.split())


def without_comments(s):
    return re.sub(r"/\*.*?\*/", "", s, flags=re.S)


# ---- types: a struct as its numbers' names and kinds, nested ones in their place


def c_structs(path):
    found = {}
    for body, name in re.findall(r"typedef struct \{(.*?)\} (\w+);", without_comments(text(path)), re.S):
        fields = []
        for field in filter(None, map(words, body.split(";"))):
            const, kind, pointer, own, count = re.fullmatch(r"(const )?(\w+) (\*?)(\w+)(?:\[(\d+)\])?", field).groups()
            if pointer:
                fields.append((own, f"&[{C_TYPES[kind]}]" if const else field))
            elif kind in found:
                fields += [(f"{own}.{inner}", number) for inner, number in found[kind]]
            else:
                fields += [(own, C_TYPES[kind])] * int(count or 1)
        found[name] = fields
    return found


def rust_structs(units, path):
    """Each #[repr(C)] struct; a one-number struct is that number, and keeps its name beside."""
    found = {}
    for name, number in (("Slot", "usize"), ("ByteOffset", "usize"), ("NodeId", "u32")):
        if not re.search(rf"#\[repr\(transparent\)\]\npub struct {name}\(pub {number}\);", text(units)):
            wrong.append(f"{units}: {name} is not one {number}")
    for name, body in re.findall(r"#\[repr\(C\)\]\npub struct (\w+) \{(.*?)\n\}", text(path), re.S):
        fields = re.findall(r"^    (?:pub(?:\(crate\))? )?(\w+): (\w+),", body, re.M)
        found[name] = [f for own, kind in fields for f in (found[kind] if kind in found else [(own, kind)])]
    return found


def as_array(fields):
    """The array that a struct of numbers is: one kind, so that nothing lies between them."""
    kinds = {kind for _, kind in fields}
    return f"[{kinds.pop()}; {len(fields)}]" if len(kinds) == 1 else f"a struct of {sorted(kinds)}"


# ---- functions: parameters by name, as crates/vekalumist_c writes them


def slices(parameters):
    """A pointer to numbers that is followed by its length is a slice, any other a single number."""
    out = []
    for name, kind in parameters:
        if out and name == f"{out[-1][0]}_len" and kind == "usize" and re.fullmatch(r"&(mut )?u\d+", out[-1][1]):
            out[-1] = (out[-1][0], re.sub(r"(u\d+)$", r"[\1]", out[-1][1]))
        else:
            out.append((name, kind))
    return out


def parameters(given):
    return [p for p in map(words, re.split(r",(?![^\[]*\])", given)) if p]


def exported(parameter):
    return tuple(parameter.split(": "))


def in_c(structs):
    def one(function, parameter):
        const, kind, pointer, name = re.fullmatch(r"(const )?(\w+) (\*?)(\w+)", parameter).groups()
        if kind in structs:
            bare = re.sub("^veka_(raw_)?", "", function)
            wanted = STRUCTS.get((bare, name), STRUCTS.get(name, name))
            same(f"{function}, {name}", kind, f"veka_{wanted}_t")
            kind = as_array(structs[kind])
        else:
            kind = C_TYPES[kind]
        return name, f"&{'' if const else 'mut '}{kind}" if pointer else kind

    return one


def in_rust(structs):
    def one(_, parameter):
        name, kind = parameter.split(": ")
        pointer, kind = re.fullmatch(r"(\*const |\*mut )?(.*)", kind).groups()
        if kind in structs:
            kind = as_array([(own, RUST_NUMBERS[number]) for own, number in structs[kind]])
        return name, {None: "", "*const ": "&", "*mut ": "&mut "}[pointer] + kind

    return one


def sources(crate):
    """By module; lib is the crate itself."""
    return {p.stem: p.read_text() for p in sorted((ROOT / "crates" / crate / "src").glob("*.rt"))}


def declared_in(module, head):
    """Each function: what it is given, its promises and its body."""
    found = re.findall(rf"^{head}fn (\w+)\(([^)]*)\) -> u64\n(.*?)^\{{\n(.*?)^\}}", module, re.M | re.S)
    return {name: (parameters(given), words(promises), words(body)) for name, given, promises, body in found}


EXPORT = r'#\[unsafe\(no_mangle\)\]\npub extern "C" '
exports = {name: declared_in(module, EXPORT) for name, module in sources("vekalumist_c").items()}
library = sources("vekalumist")
functions = {name: [exported(p) for p in given] for module in exports.values() for name, (given, _, _) in module.items()}
same("exported functions that are not mangled and give a u64", len(functions), "".join(sources("vekalumist_c").values()).count("fn "))
if not functions:
    wrong.append("crates/vekalumist_c exports nothing")
for module in sorted(exports.keys() | library.keys()):
    own = declared_in(library.get(module, ""), "pub ")
    for name in sorted(exports.get(module, {}).keys() | {name for name in own if name.startswith("veka_")}):
        given, promises, body = exports.get(module, {}).get(name, ([], "", ""))
        at = "" if module == "lib" else f"{module}::"
        handed = re.sub(r"\(\s*", "(", re.sub(r",? \)$", ")", body))
        same(f"{name}: the export", (given, promises), own.get(name, ("not there",))[:2])
        same(f"{name}: what the export calls", handed, f"vekalumist::{at}{name}({', '.join(exported(p)[0] for p in given)})")
for name, given in functions.items():
    takes = any(re.match(r"&(mut )?\[\w+\]$", kind) for _, kind in given)
    same(f"{name}: its name says that it takes a slice", name.startswith("veka_raw_"), takes)

raw_structs = c_structs("include/vekalumist_raw.h")
of_rust = rust_structs("rust/src/units.rs", "rust/src/layout.rs")
raw = re.findall(r"\nuint64_t (\w+)\(([^)]*)\);", without_comments(text("include/vekalumist_raw.h")))
raw = {name: [] if given == "void" else parameters(given) for name, given in raw}


def of_extern_block(path):
    return {name: parameters(given) for name, given in re.findall(r"    fn (veka_\w+)\(([^)]*)\)\s*-> u64;", text(path))}


beside = "tests/beside_rust/src/raw.rs"  # declares what it calls, which need not be all
for path, declared, crossing in [
    ("include/vekalumist_raw.h", raw, in_c(raw_structs)),
    ("rust/src/sys.rs", of_extern_block("rust/src/sys.rs"), in_rust(of_rust)),
    (beside, of_extern_block(beside), in_rust({})),
]:
    for name in sorted(functions.keys() | declared.keys()):
        if path == beside and name not in declared:
            continue
        got = slices([crossing(name, p) for p in declared[name]]) if name in declared else "not there"
        same(f"{path}: {name}", got, functions.get(name, "not exported"))

# ---- the inline functions: the raw one's parameters, facts and parts as structs, a bound by value; slices through veka_lent_

header = without_comments(text("include/vekalumist.h"))
structs = {**raw_structs, **c_structs("include/vekalumist.h")}
marks = raw_structs.get("veka_marks_t", [])
same("veka_facts_t", structs.get("veka_facts_t"), marks + [("max_nodes", "u64")])
lent_parts = functions.get("veka_raw_write", [])[2:-3]
parts = slices([(name, kind.replace("[", "").replace("]", "")) for name, kind in structs.get("veka_parts_t", [])])
same("veka_parts_t", parts, lent_parts)
inline = re.findall(r"\nstatic inline [^\n(]*?(\w+)\(([^)]*)\) \{\n(.*?)\n\}", header, re.S)
inline = {name: (words(given), words(body)) for name, given, body in inline}
for name, given in sorted(raw.items()):
    if not name.startswith("veka_raw_"):
        continue
    own, body = inline.get(name.replace("raw_", ""), ("not there", ""))
    wanted = ", ".join(given).replace("const veka_marks_t *marks, size_t max_nodes", "const veka_facts_t *facts")
    wanted = wanted.replace("const veka_bound_t *bound", "veka_bound_t bound").replace("bool allow", "bool allow_hashless")
    if name == "veka_raw_write":
        wanted = re.sub(r"uint8_t flags.*order_len", "const veka_parts_t *parts", wanted)
    same(f"the inline function of {name}", own, wanted)
    handed = []
    for one, kind in functions.get(name, []):
        lent = re.fullmatch(r"&(mut )?\[(\w+)\]", kind)
        at = f"parts->{one}" if (one, kind) in lent_parts and name == "veka_raw_write" else one
        at = {"max_nodes": "facts->max_nodes", "marks": "&marks", "bound": "&bound", "allow": "allow_hashless"}.get(one, at)
        handed.append(f"veka_lent_{lent[1] and 'mut_' or ''}{lent[2]}({at}, {at}_len), {at}_len" if lent else at)
    same(f"what the inline function hands to {name}", body.split("return ")[-1], f"{name}({', '.join(handed)});")
for name in inline:
    if f"veka_raw_{name[5:]}" not in raw and name in functions:
        wrong.append(f"{name} is declared twice")

# ---- the layout: its fields' names, order and units

of_rattle = re.findall(r"pub (\w+): ([\w<>]+),", re.search(r"pub struct ForestLayout \{(.*?)\n\}", text("crates/layout/src/forest.rt"), re.S)[1])
two = [("has_node_hashes", "u64"), ("node_hash_offset", "ByteOffset")]
of_rattle = [f for own in of_rattle for f in (two if own == ("node_hash_offset", "Option<ByteOffset>") else [own])]
same("veka_layout_t", [name for name, _ in raw_structs.get("veka_layout_t", [])], [name for name, _ in of_rattle])
same("rust/src/layout.rs: Layout", of_rust.get("Layout"), of_rattle)
# what the scan gives: the layout, and then one number
same("veka_scanned_t", raw_structs.get("veka_scanned_t"), [(f"layout.{name}", "u64") for name, _ in of_rattle] + [("long_counts", "u64")])
same("rust/src/layout.rs: Scanned", of_rust.get("Scanned"), of_rattle + [("long_counts", "usize")])

# ---- numbers that have names: version, refusals, kinds


def shouted(name):
    return re.sub(r"(?<=[a-z])(?=[A-Z])", "_", name).upper()


defined = {name: int(number) for name, number in re.findall(r"#define VEKA_(\w+) (\d+)", header)}
version = re.search(r"\nconst VERSION: u64 = (\d+);", library["lib"])
package = [int(n) for n in re.search(r'^version = "(\d+)\.(\d+)\.(\d+)"', text("rust/Cargo.toml"), re.M).groups()]
same("VEKA_VERSION", defined.get("VERSION"), version and int(version[1]))
same("rust/Cargo.toml: version", package[0] * 10000 + package[1] * 100 + package[2], version and int(version[1]))

refusals, number = {}, 0
for name, given in re.findall(r"^    (\w+)(?: = (\d+))?,$", re.search(r"pub enum Refusal \{(.*?)\n\}", text("crates/wire/src/refusal.rt"), re.S)[1], re.M):
    number = int(given) if given else number + 1
    refusals[shouted(name)] = number
for name, number in {"OK": 0, **refusals}.items():
    # the plain name is the library's version
    same(f"the number of {name}", defined.get("FILE_VERSION" if name == "VERSION" else name), number)
named = {number: name.replace("_", "-") for name, number in {"OK": 0, **refusals}.items()}
said = re.findall(r'"([A-Z-]+)"', inline.get("veka_refusal_name", ("", ""))[1])
same("veka_refusal_name", said, [named[n] for n in sorted(named)] + ["UNKNOWN"])
table = {int(number): name for number, name in re.findall(r"\| (\d+) \| ([A-Z-]+) (?=\|)", text("README.md"))}
same("README's table", {0: "OK", **table}, named)
of_kinds = re.findall(r'^    (\w+) (\d+) "([A-Z-]+)" "([^"]+)",$', text("rust/src/refusal.rs"), re.M)
told = re.findall(r"^\| (\d+) \| [A-Z-]+ \| (.*) \|$", text("README.md"), re.M)
same("README's table, what is said", told, [(number, says) for _, number, _, says in of_kinds])
wanted = [(number, name) for name, number in refusals.items()]
same("rust/src/refusal.rs: variants", [(int(number), shouted(variant)) for variant, number, _, _ in of_kinds], sorted(wanted))
same("rust/src/refusal.rs: names", [(int(number), name) for _, number, name, _ in of_kinds], [(n, named[n]) for n, _ in sorted(wanted)])

kinds = re.search(r"\npub enum MastNodeEntry \{(.*?)\n\}", text("crates/info/src/lib.rt"), re.S)[1]
kinds = re.findall(r"^    (\w+)", kinds, re.M)
for number, kind in enumerate(kinds):
    same(f"the number of {kind}", defined.get(kind.upper()), number)
of_entry = re.search(r"\npub enum Entry \{(.*?)\n\}", text("rust/src/entry.rs"), re.S)[1]
same("rust/src/entry.rs: kinds in their order", re.findall(r"^    ([A-Z]\w*)", of_entry, re.M), kinds)

for line in wrong:
    print(line)
held = f"{len(functions)} functions, {len(structs)} types, {len(refusals)} refusals, {len(kinds)} kinds"
print(f"{len(wrong)} differ" if wrong else held)
sys.exit(1 if wrong else 0)
