#!/usr/bin/env python3
"""Turns a crate's proofs by hand, proofs/F/Proof.antt over `tie.spec`, to Invariants.antt and Answers.antt, once, after port.py and port_names.py.

    cd crates/NAME && rt check --generated DIR --old-names
    tools/port_proofs.py crates/NAME DIR/names.json [F ..]

names.json has, for each function, its goals and the steps of its code by the name that each had and has. An answer that only calls a tactic which
the check tries by itself is dropped. A step is named from `c` alone: `c.before.before.args.s` is c.args.s. A helper over a step of the code becomes a
`let` of the goals that use it. What it cannot turn it says, and leaves as it stands. rt check decides.
"""
import json
import os
import re
import sys

SELF = re.compile(r"^(?:search rules|omega arith|grind arith)$")
NAMES = r"[^\W\d][\w'₀-₉]*(?:-[\w'₀-₉]+)*"
PATH = re.compile(r"(?<![\w.'-])(" + NAMES + r")((?:\.(?:[\w'₀-₉+-]+))*)")


def flat(name):
    return name.replace("-", "_")


class Decl:
    def __init__(self, notes, lines):
        self.notes = notes
        m = re.match(r"((?:abbrev |pub |unfoldable )*)(" + NAMES + r") :", lines[0])
        self.name, self.how = m.group(2), m.group(1)
        i, said = 0, []
        while i < len(lines) and not re.match(r"unfolding ", lines[i]) and not (i and re.match(re.escape(self.name) + r"(?![\w'-])", lines[i])):
            said.append(lines[i])
            i += 1
        self.type = "\n".join(said)[len(self.how) + len(self.name) + 2:].strip()
        self.unfolding = []
        if i < len(lines) and lines[i].startswith("unfolding "):
            self.unfolding = lines[i].split()[1:]
            i += 1
        clauses, here = [], []
        for l in lines[i:]:
            if re.match(re.escape(self.name) + r"(?![\w'-])", l) and here:
                clauses.append("\n".join(here))
                here = []
            here.append(l)
        clauses.append("\n".join(here))
        self.text = "\n".join(lines)
        self.clauses = []
        for c in clauses:
            m = re.match(re.escape(self.name) + r"((?: [^=\n]*?)?) =(?=\s)", c)
            self.clauses.append((m.group(1).split() if m else None, c[m.end():].strip("\n") if m else c))


def parse(text):
    lines = text.split("\n")
    head, uses, decls, i = [], [], [], 0
    while i < len(lines) and (lines[i].startswith("--") or not lines[i].strip()):
        head.append(lines[i])
        i += 1
    while i < len(lines) and (lines[i].startswith("use ") or not lines[i].strip() or (lines[i].startswith(" ") and uses)):
        if lines[i].strip():
            uses.append(lines[i])
        i += 1
    notes, here, blocks = [], [], []
    for l in lines[i:] + [""]:
        if not l.strip():
            if here:
                blocks.append((notes, here))
                notes, here = [], []
            continue
        if l.startswith("--") and not here:
            notes.append(l)
        else:
            here.append(l)
    for n, b in blocks:
        decls.append(Decl(n, b))
    return [h for h in head if h.strip()], uses, decls


def arguments(text):
    """The arguments of a call, each in parentheses or a name."""
    out, i = [], 0
    while i < len(text):
        if text[i].isspace():
            i += 1
        elif text[i] == "(":
            depth, j = 0, i
            while True:
                depth += {"(": 1, ")": -1}.get(text[j], 0)
                j += 1
                if not depth:
                    break
            out.append(text[i:j])
            i = j
        else:
            m = re.match(r"[^\s()]+", text[i:])
            out.append(m.group(0))
            i += m.end()
    return out


class Function:
    def __init__(self, data, decls, said):
        self.data, self.said = data, said
        self.places, self.by_old = [], {}
        for old, parent, (field, new_field), call, _ in data["places"]:
            p = {"old": old, "parent": parent, "field": field, "new": new_field, "typed": []}
            self.places.append(p)
            self.by_old[flat(old)] = p
        for p, typed, arm, clauses, (_, _, _, call, _) in zip(self.places, data["typed"], data["arms"], data["clauses"], data["places"]):
            p["typed"], p["arm"], p["clauses"], p["call"] = typed, arm, clauses, call
        self.args = {}
        for old, new in data["args"]:
            if old.startswith(".args ."):
                self.args[old[7:]] = new[7:]
        self.decls = {d.name: d for d in decls}

    def parent(self, p):
        return self.by_old[flat(p["parent"])] if p["parent"] else None

    def path(self, place, fields):
        """What stands for a path from a place's record: from c alone."""
        while fields and fields[0] == "before":
            # above the start there is nothing: the arguments are the same everywhere
            place, fields = self.parent(place) or place, fields[1:]
        if not fields:
            return place, None
        head, rest = fields[0], fields[1:]
        if head == "args" and rest and rest[0] in self.args:
            rest = [self.args[rest[0]]] + rest[1:]
        if head == "requires":
            rest = clause_path((self.data.get("pre") or {}).get("fields") or [], rest)
        if head in ("args", "requires", "ranges", "lifetimes", "well_formed", "well-formed"):
            return place, ".".join(["c", flat(head)] + rest)
        p = place
        while p:
            for var, step in self.by_old[flat(p["old"])]["typed"]:
                if flat(step) == flat(head) and rest[:1] == ["given"]:
                    return place, ".".join(["c", "type_inv", var] + rest[1:])
            if p["arm"]:
                label, _, parts = p["arm"]
                fit = [(new, path) for new, step, path in parts if flat(step) == flat(head) and path and rest[:len(path)] == path]
                if fit:
                    new, path = max(fit, key=lambda it: len(it[1]))
                    return place, ".".join(["c", label, new] + rest[len(path):])
            if p["field"] and flat(p["field"]) == flat(head):
                return place, ".".join(["c", p["new"]] + self.of_call(p, rest))
            p = self.parent(p)
        # a word of today's check, as port.py has it
        for p in self.places:
            if p["new"] and flat(p["new"]) == flat(head):
                return place, ".".join(["c", p["new"]] + self.of_call(p, rest))
        # a step that has its old name alone, where fewer steps lie between than there were
        fit = {p["new"]: p for p in self.places if p["field"] and flat(p["field"]) == flat(head)}
        if len(fit) == 1:
            (p,) = fit.values()
            return place, ".".join(["c", p["new"]] + self.of_call(p, rest))
        self.said(f"no step {head} at {place['old']}")
        return place, ".".join(["c"] + fields)

    def of_call(self, p, rest):
        """A call's `.new.1.0` and `.auto.1.0` by its parameter's name, and its `.ensures.0` by its clause's."""
        if p["call"] and rest[:1] in (["new"], ["auto"]):
            k = 0
            while rest[1 + k:2 + k] == ["1"]:
                k += 1
            names = self.data["params"].get(p["call"], [])
            if rest[1 + k:2 + k] == ["0"] and k < len(names):
                return [rest[0], names[k]] + rest[2 + k:]
        if p["clauses"] and rest[:1] in (["ensures"], ["requires"]) and len(rest) > 1 and rest[1].isdigit():
            names = p["clauses"]
            if isinstance(names, dict):
                names = names.get("fields") or names.get(rest[0], [])
            return [rest[0]] + clause_path(names, rest[1:])
        return rest

    def place_of(self, type_text):
        m = re.match(r"tie\.((?:[\w'+-]+))", type_text.strip())
        return self.by_old.get(flat(m.group(1))) if m else None

    def helper(self, name):
        """The place that a helper takes first, the name it has there, the rest of its type, or None."""
        d = self.decls.get(name)
        if not d:
            return None
        if len(d.clauses) != 1 or not d.clauses[0][0]:
            return None
        m = re.match(r"\((" + NAMES + r") : (tie\.[^()]*?)\)\s*(?:→\s*)?(?=\S)(.*)$", d.type, re.S)
        var, step, said = (m.group(1), m.group(2), m.group(3)) if m else (None, None, None)
        if not m:
            m = re.match(r"(tie\.[\w'+-]+(?: " + NAMES + r")*)\s*→\s*(.*)$", d.type, re.S)
            if not m:
                return None
            var, step, said = d.clauses[0][0][0], m.group(1), m.group(2)
        place = self.place_of(step)
        if not place:
            return None
        return place, var, said, d

    def turn(self, text, env, used):
        """The text with its paths named from c; the helpers that it uses go into used."""
        env = dict(env)
        # a name for a step's whole record goes
        while True:
            m = re.search(r"(?<![\w'.-])let (" + NAMES + r") = (" + NAMES + r")((?:\.before)*) in(?=\s)\s*", text)
            found = None
            while m:
                if m.group(2) in env:
                    found = m
                    break
                m = re.compile(r"(?<![\w'.-])let (" + NAMES + r") = (" + NAMES + r")((?:\.before)*) in(?=\s)\s*").search(text, m.end())
            if not found:
                break
            place, _ = self.path(env[found.group(2)], found.group(3).split(".")[1:])
            env[found.group(1)] = place
            text = text[:found.start()] + text[found.end():]
        # a name for the arguments has them by the names of today
        for m in re.finditer(r"(?<![\w'.-])let (" + NAMES + r") = " + NAMES + r"(?:\.before)*\.args in(?=\s)", text):
            for old, new in self.args.items():
                text = re.sub(r"(?<![\w'.-])" + re.escape(m.group(1) + "." + old) + r"(?![\w'-])", f"{m.group(1)}.{new}", text)
        # and a name for a call with several clauses
        for m in list(re.finditer(r"(?<![\w'.-])let (" + NAMES + r") = (" + NAMES + r")((?:\.before)*\." + NAMES + r") in(?=\s)\s*", text)):
            if m.group(2) not in env:
                continue
            fields = m.group(3).split(".")[1:]
            step = [p for p in self.places if p["field"] and flat(p["field"]) == flat(fields[-1]) and p["clauses"]]
            if step:
                text = text.replace(m.group(0), "", 1)
                text = re.sub(r"(?<![\w'.-])" + re.escape(m.group(1)) + r"(?=\.)", m.group(2) + m.group(3), text)
        # helpers over a step
        def call(m):
            h = self.helper(m.group(1))
            if not h or m.group(2) not in env:
                return m.group(0)
            place, whole = self.path(env[m.group(2)], m.group(3).split(".")[1:])
            if whole is not None:
                return m.group(0)
            if m.group(1) not in used:
                used[m.group(1)] = None
                place, var, said, d = h
                deeper = {}
                t = self.turn(said, {var: place}, deeper)
                b = self.turn(d.clauses[0][1], {d.clauses[0][0][0]: place}, deeper)
                for n, v in deeper.items():
                    used.setdefault(n, v)
                more = d.clauses[0][0][1:]
                lam = f"λ {' '.join(more)}. " if more else ""
                unfolding = set(d.unfolding)
                for n in deeper:
                    unfolding |= used[n][1] if used.get(n) else set()
                del used[m.group(1)]
                said = "" if "abbrev" in d.how else f" : {t}"
                used[m.group(1)] = (f"let {m.group(1)}{said} = {lam}{b.strip()} in", unfolding)
            return m.group(1)
        text = re.sub(r"(?<![\w'.-])(" + NAMES + r") (" + NAMES + r")((?:\.before)*)(?![\w'.-])", call, text)

        def one(m):
            if m.group(1) not in env:
                return m.group(0)
            fields = m.group(2).split(".")[1:]
            place, out = self.path(env[m.group(1)], fields)
            if out is None:
                self.said(f"a whole record: {m.group(0)}")
                return m.group(0)
            return out
        return PATH.sub(one, text)


def whole_ensures(fn, text):
    """What a call with several clauses ensures, given to a lemma as a whole: a pair of its clauses."""
    end = re.split(r"\bin\s", text)[-1].strip()
    fields = {p["new"]: p["clauses"]["fields"] for p in fn.places if p["call"] and isinstance(p["clauses"], dict) and len(p["clauses"].get("fields") or []) > 1}

    def one(m):
        names = fields.get(m.group(1))
        if not names or end == m.group(0) or (end.startswith("rw ") and text.rstrip().endswith(m.group(0))):
            return m.group(0)
        parts = [f"{m.group(0)}.{n}" for n in names]
        out = parts[-1]
        for p in reversed(parts[:-1]):
            out = f"({p}, {out})"
        return out
    return re.sub(r"(?<![\w'.-])c\.([\w'₀-₉+-]+)\.ensures(?![\w'.-])", one, text)


def split_tuple(text):
    parts, here, depth = [], "", 0
    for ch in text[1:-1]:
        depth += {"(": 1, "{": 1, "[": 1, ")": -1, "}": -1, "]": -1}.get(ch, 0)
        if ch == "," and not depth:
            parts.append(here)
            here = ""
        else:
            here += ch
    if here.strip():
        parts.append(here)
    return parts


def clause_path(names, rest):
    """Clauses were pairs, each with what follows it: a path into them by the clauses' names."""
    if len(names) < 2:
        return rest
    k = 0
    while k < len(names) - 1 and rest[k:k + 1] == ["1"]:
        k += 1
    if k == len(names) - 1:
        return [names[k]] + rest[k:]
    if rest[k:k + 1] == ["0"]:
        return [names[k]] + rest[k + 1:]
    return rest


def by_clause(text, names, failed):
    """The tuple at the end of a term, as a record by the names of the clauses."""
    depth, start = 0, None
    end = len(text.rstrip())
    if text.rstrip().endswith(")"):
        for i in range(end - 1, -1, -1):
            depth += {")": 1, "(": -1}.get(text[i], 0)
            if not depth:
                start = i
                break
    if start is None or not re.search(r"(?:^|\bin)\s*$", text[:start]):
        end = re.split(r"\bin\s", text)[-1].strip()
        if not re.match(r"(?:rw|omega|search|grind|elim|simp|absurd|cc|record)\b", end):
            fields = "; ".join(f"{n} = both{'.1' * i}{'.0' if i < len(names) - 1 else ''}" for i, n in enumerate(names))
            return f"let both = {text.strip()} in record {{ {fields} }}"
        failed()
        return text
    parts = split_tuple(text[start:end])
    while len(parts) < len(names) and re.fullmatch(r"\(.*\)", parts[-1].strip(), re.S):
        last = split_tuple(parts[-1].strip())
        if len(last) < 2:
            break
        parts[-1:] = last
    if len(parts) != len(names):
        failed()
        return text
    return text[:start] + "record { " + "; ".join(f"{n} = {p.strip()}" for n, p in zip(names, parts)) + " }"


def tie_types(text):
    return re.findall(r"tie\.[\w'+-]+", text)


def convert(crate, key, data, folder):
    said = []
    text = open(os.path.join(folder, "Proof.antt"), encoding="utf-8").read()
    head, uses, decls = parse(text)
    fn = Function(data, decls, said.append)
    last = decls[-1]
    m = re.search(r"tie\.spec\b(.*)\)\s*$", last.clauses[-1][1], re.S)
    if not m:
        return ["no tie.spec"], None, None
    args = arguments(re.sub(r"(?m)^\s*--.*$", "", m.group(1)).strip())
    loops = data["loops"]
    mark, rest = args[:2 * len(loops)], args[2 * len(loops):]
    if len(rest) != len(data["needs"]):
        # more goals were asked once than are: each answer that is more than a tactic names its goal, and the others go
        named = {}
        for arg in rest:
            d = fn.decls.get(arg)
            m = d and re.match(r"tie\.Need-([\w'+-]+)", d.type)
            if m:
                named[flat(m.group(1))] = arg
            elif not re.match(r"\(λ [^.]*\.\s*(?:search rules|omega arith)\)$", arg):
                return [f"{len(rest)} answers for {len(data['needs'])} goals"], None, None
        rest = [named.pop(flat(old), "(λ c. search rules)") for old, new in data["needs"]]
        if named:
            said.append(f"no goal for {sorted(named)}")
    path = key.split(".proofs.", 1)[1] if ".proofs." in key else key
    module = f"Rattle.{crate}.proofs.{path}"
    uses = [u for u in uses if not re.search(r"\.(Statement|Tie)\b", u)]
    invariants, taken = [], {"invariant": set(), "used": set()}
    for (old, new), names, changed, (inv, mu) in zip([l[0] for l in loops], [l[1] for l in loops], data["changed"], zip(mark[::2], mark[1::2])):
        for label, arg in ((f"invariant-{new}", inv), (f"decreases-{new}", mu)):
            d = fn.decls.get(arg)
            if not d:
                said.append(f"{label} is {arg}")
                continue
            taken["used"].add(arg)
            params, body = d.clauses[0]
            want = [n + ("₀" if ch else "") for n, ch in zip(names, changed)] + [n for n, ch in zip(names, changed) if ch]
            if len(params) != len(want):
                said.append(f"{label} takes {params}, wanted {want}")
            to = {}
            for p, w in zip(params, want):
                to[p] = "l.initial." + w[:-1] if w.endswith("₀") else "l." + w
            body = PATH.sub(lambda m: to.get(m.group(1), m.group(1)) + m.group(2), body)
            notes = "\n".join(d.notes) + "\n" if d.notes else ""
            unf = "unfolding " + " ".join(d.unfolding) + "\n" if d.unfolding else ""
            invariants.append(f"{notes}abbrev pub {label} : goal.{label}\n{unf}{label} l = {body.strip()}\n")
    goals, kept = [], []
    inv_names = set(mark)
    for (old, new), (place_old, place_new), arg in zip(data["needs"], data["asked_at"], rest):
        place = fn.by_old[flat(place_old)]
        notes, unfolding = [], []
        if arg.startswith("("):
            inner = arg[1:-1].strip()
            m = re.match(r"λ ([^.]*)\.\s*(.*)$", inner, re.S)
            if not m:
                said.append(f"{new} is {arg[:60]}")
                continue
            params, body = m.group(1).split(), m.group(2)
            # what the whole proof unfolds
            if not SELF.match(body.strip()) or new.startswith("returns"):
                unfolding = list(last.unfolding)
        else:
            d = fn.decls.get(arg)
            if not d:
                said.append(f"{new} is {arg}")
                continue
            h = fn.helper(arg)
            if h and "Need" not in d.type:
                params, body = ["c"], f"{arg} c"
            elif len(d.clauses) != 1 or not d.clauses[0][0]:
                body = d.clauses[0][1]
                m = re.match(r"\s*λ ([^.]*)\.\s*(.*)$", body, re.S)
                if not m:
                    said.append(f"{new} is {arg}, with {len(d.clauses)} clauses")
                    continue
                params, body = m.group(1).split(), m.group(2)
                notes, unfolding = d.notes, d.unfolding
            else:
                params, body = d.clauses[0]
                notes, unfolding = d.notes, d.unfolding
            taken["used"].add(arg)
        if SELF.match(body.strip()) and not unfolding:
            continue
        used = {}
        # a `requires` was asked at the lifetimes too; what else is named is a premise of the goal
        more = params[2:] if old.split("-")[-1].startswith("requires") or re.search(r"-requires(?:-\d+)?$", old) else params[1:]
        env = {params[0]: place} if params[0] != "_" else {}
        b = whole_ensures(fn, fn.turn(body, env, used))
        if old in data["asked"]:
            b = by_clause(b, data["asked"][old], lambda: said.append(f"{new} is no tuple of {data['asked'][old]}"))
        lets = ""
        for name, made in used.items():
            lets += "\n    " + made[0]
            unfolding = list(dict.fromkeys(list(unfolding) + sorted(made[1])))
        unf = "unfolding " + " ".join(unfolding) + "\n" if unfolding else ""
        note = "\n".join(notes) + "\n" if notes else ""
        goals.append(f"{note}pub {new} : goal.{new}\n{unf}{' '.join([new, 'c'] + more)} ={lets}\n    {b.strip()}\n")
    for d in decls[:-1]:
        if d.name in taken["used"] or d.name in inv_names or fn.helper(d.name):
            continue
        if tie_types(d.text):
            said.append(f"left: {d.name}")
            continue
        kept.append("\n".join(d.notes + [d.text]) + "\n")
    uses_text = "\n".join(uses)
    header = "\n".join(head)
    inv_file = ans_file = None
    if invariants:
        inv_file = header + "\n" + uses_text + f"\nuse {module}.Given as goal\n\n" + "\n".join(kept_for(invariants, kept) + invariants)
    if goals:
        ans_file = header + "\n" + uses_text + f"\nuse {module}.Goals as goal\n\n" + "\n".join(kept_for(goals, kept) + goals)
    return said, inv_file, ans_file


def kept_for(texts, kept):
    """The lemmas that the texts cite, and those that these cite."""
    names = {re.match(r"(?:--.*\n)*(?:abbrev |pub |unfoldable )*(" + NAMES + ")", k).group(1): k for k in kept}
    want, grown = set(), True
    while grown:
        grown = False
        for n in names:
            if n not in want and any(re.search(r"(?<![\w'.-])" + re.escape(n) + r"(?![\w'-])", t) for t in texts + [names[w] for w in want]):
                want.add(n)
                grown = True
    return [k for n, k in names.items() if n in want]


def main(argv):
    crate_dir, names = argv[0].rstrip("/"), argv[1]
    crate = os.path.basename(crate_dir)
    wanted = argv[2:]
    with open(names, encoding="utf-8") as f:
        table = json.load(f)
    for key, data in sorted(table.items()):
        m = re.match(r"Rattle-" + crate + r"-proofs\.(.*)\.Lts$", key)
        if not m:
            continue
        path = m.group(1)
        folder = os.path.join(crate_dir, "proofs", *path.split("."))
        if not os.path.isfile(os.path.join(folder, "Proof.antt")) or (wanted and path not in wanted):
            continue
        said, inv, ans = convert(crate, f".proofs.{path}", data, folder)
        if inv is None and ans is None and any(s.startswith("no tie.spec") or "answers for" in s for s in said):
            print(f"{path}: {said}")
            continue
        os.remove(os.path.join(folder, "Proof.antt"))
        for name, text in (("Invariants.antt", inv), ("Answers.antt", ans)):
            if text:
                with open(os.path.join(folder, name), "w", encoding="utf-8") as f:
                    f.write(text)
        if not inv and not ans and not os.listdir(folder):
            os.rmdir(folder)
        print(f"{path}:{' invariants' if inv else ''}{' answers' if ans else ' no answers'}" + ("; " + "; ".join(said) if said else ""))
    return 0


if __name__ == "__main__":
    raise SystemExit(main(sys.argv[1:]))
