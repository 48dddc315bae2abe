#!/usr/bin/env python3
"""Turns the proofs of a crate's functions from the older form, proofs/F/Proof.antt with its whole list of goals, to
proofs/F/Invariants.antt and proofs/F/Answers.antt. It takes the names from `rt check --generated DIR --old-names`.
An answer that says `search rules` alone goes, as the check tries that by itself.

usage: python3 tools/answers.py NAMES.json crates/NAME [FUNCTION ..]
"""
import json
import os
import re
import sys

TOKEN = re.compile(r"[^\s(){}\[\];,.λ:\"`|]+")
PATH = re.compile(r"(?<![\w'.-])(\w+)((?:\.[\w₀-₉'◌-]+)+)")


def flat(name):
    return name.replace("-", "_")


def groups(text):
    """The declarations of a file at its left edge, each with the comments above it: (name, head, body lines)."""
    out, lead = [], []
    for line in text.split("\n"):
        if line.startswith("use ") or not line.strip():
            if not line.strip() and out and out[-1][2] and not lead:
                out[-1][2].append("")
            continue
        if line.startswith("--"):
            lead.append(line)
            continue
        if not line.startswith((" ", ")", "}", "]")):
            m = re.match(r"(?:abbrev |pub |unfoldable |record |data |ruleset |module )*([^\s(){}:]+)", line)
            name = m[1]
            if line.startswith("unfolding") and out:
                out[-1][2].append(line)
                continue
            if out and out[-1][0] == name and not lead:
                out[-1][2].append(line)
                continue
            out.append([name, lead, [line]])
            lead = []
        else:
            out[-1][2].append(line)
    return out, lead


class Function:
    def __init__(self, crate, path, names):
        self.crate, self.path, self.names = crate, path, names
        self.places = {p[0]: p for p in names["places"]}
        self.needs = {flat(o): (n, i) for i, (o, n) in enumerate(names["needs"])}
        self.said, self.kinds = [], []

    def goal(self, old):
        key = flat(old)
        if key in self.needs:
            return self.needs[key]
        # one goal alone may have been told apart by a number
        bare = re.sub(r"^overflow_", "", key)
        for k in (bare, re.sub(r"^slice_bounds_", "part_", key), key + "_1", re.sub(r"_1$", "", key)):
            if k in self.needs:
                return self.needs[k]
        return None

    def cite(self, place, fields):
        rest = [f for f in fields if f != "before"]
        if not rest:
            return None, "a whole place"
        f = rest[0]
        at, (old, new) = place, ("", "")
        while at is not None:
            row = self.places[at]
            old, new = row[2]
            if old and flat(f) in (flat(old), flat(old) + "_lem"):
                break
            at = row[1]
        if re.match(r"(shared|mut)_slice_known|slice_known", flat(f)):
            v = next((v for v, o in self.kinds if flat(o) == flat(f)), None)
            if v:
                return None, ["c", "type_inv", v] + rest[1:]
        if f in ("args", "requires", "ranges"):
            own = self.names["pre"] if f == "requires" else None
            return None, ["c", f] + self.clause(own and own.get("fields"), rest[1:])
        if at is not None:
            tail = rest[1:]
            order = [q[0] for q in self.names["places"]]
            arm = self.names["arms"][order.index(at)]
            for new_field, label, path in arm[2] if arm else []:
                if path and flat(label) == flat(f) and tail[: len(path)] == path:
                    return None, ["c", arm[0], new_field] + tail[len(path) :]
            if flat(old) == "match" and tail and re.fullmatch(r"\w+[a-z]\d+", tail[0]):
                tail = ["is"] + tail[1:]
            if tail and tail[0] == "taken":
                tail = ["true" if at.startswith("Then") or at.startswith("In") else "false"] + tail[1:]
            if tail and tail[0] in ("new", "last") and row[3] in self.names["params"]:
                i, more = 0, tail[1:]
                while more and more[0] == "1":
                    i, more = i + 1, more[1:]
                if more and more[0] == "0":
                    tail = ["new", self.names["params"][row[3]][i]] + more[1:]
            if tail and tail[0] in ("ensures", "requires"):
                order = [q[0] for q in self.names["places"]]
                known = self.names["clauses"][order.index(at)]
                tail = [tail[0]] + self.clause(known and known.get("fields"), tail[1:])
            return None, ["c", new] + tail
        self.said.append(f"{f} from {place}")
        return None, ["c"] + rest

    def clause(self, fields, tail):
        """The old fields .1.1.0 of a clause among several are its name."""
        if not fields or len(fields) < 2:
            return tail
        i, rest = 0, list(tail)
        while i < len(fields) - 1 and rest and rest[0] == "1":
            i, rest = i + 1, rest[1:]
        if i < len(fields) - 1:
            if not rest or rest[0] != "0":
                return tail
            rest = rest[1:]
        return [fields[i]] + rest

    def turn(self, text, place):
        """Rewrites the paths of an answer."""
        known = {"c": place}
        lets = re.compile(r"let (\w+) = (\w+)((?:\.before)+) in\s*")
        while True:
            m = lets.search(text)
            if not m or m[2] not in known:
                break
            at = known[m[2]]
            for _ in range(m[3].count("before")):
                at = self.places[at][1]
            known[m[1]] = at
            text = text[: m.start()] + text[m.end() :]

        # a name for a contract's facts is written out
        while True:
            m = re.search(r"let (\w+) = (c(?:\.[\w-]+)*\.(?:requires|ensures)) in\s*", text)
            if not m:
                break
            rest = text[m.end() :]
            text = text[: m.start()] + re.sub(r"(?<![\w'.-])" + m[1] + r"(?![\w'-])", lambda _: m[2], rest)

        def one(m):
            if m[1] not in known:
                return m[0]
            fields = m[2][1:].split(".")
            at, new = self.cite(known[m[1]], fields)
            if isinstance(new, list):
                return ".".join(new)
            self.said.append(f"{m[0]}: {new or 'a whole place'}")
            return m[0]

        return re.sub(r"(c\.type_inv\.\w+)\.given\b", r"\1", PATH.sub(one, text))


def parts(term):
    """The two sides of a pair (a, b), or None."""
    t = re.sub(r",\s*\)$", ")", term.strip())
    if not (t.startswith("(") and t.endswith(")")):
        return None
    deep, cuts = 0, []
    for i, ch in enumerate(t):
        deep += (ch in "([{") - (ch in ")]}")
        if deep == 0 and i < len(t) - 1:
            return None
        if deep == 1 and ch == ",":
            cuts.append(i)
    if len(cuts) != 1:
        return None
    return t[1 : cuts[0]].strip(), t[cuts[0] + 1 : -1].strip()


def record_of(term, fields, report):
    """A goal of several clauses takes a record, no longer pairs."""
    lets = re.match(r"(\s*(?:let .*? in\s+)+)(\(.*\))\s*$", term, re.S)
    if lets and parts(lets[2]):
        return lets[1] + record_of(lets[2], fields, report).strip()
    at, values = term, []
    while len(values) < len(fields) - 1:
        two = parts(at)
        if not two:
            break
        values.append(two[0])
        at = two[1]
    if not values:
        return term
    values += [at] * (len(fields) - len(values))
    return " record { " + "; ".join(f"{f} = {v}" for f, v in zip(fields, values)) + " }"


def convert(crate, folder, names, report):
    rel = os.path.relpath(folder, f"crates/{crate}/proofs")
    with open(os.path.join(folder, "Proof.antt"), encoding="utf-8") as f:
        text = f.read()
    fn = Function(crate, rel, names)
    text = re.sub(r"^(use [^\n]*\{)\n((?:[^}]*\n)*?)(\})$", lambda m: m[1] + " ".join(w.strip() for w in m[2].split("\n")).strip(" ,") + "}", text, flags=re.M)
    uses = [l for l in text.split("\n") if l.startswith("use ")]
    uses = [l for l in uses if not l.endswith(".Tie as tie") and ".Statement." not in l]
    head = []
    for line in text.split("\n"):
        if not line.startswith("--"):
            break
        head.append(line)
    decls, tail = groups("\n".join(text.split("\n")[len(head) :]))
    module = rel.replace("/", ".")
    inv, ans, own = [], [], []
    for name, lead, lines in decls:
        if len(lines) > 1 and lines[0].endswith(" :"):  # joined heads
            lines = [lines[0] + " " + lines[1].strip()] + lines[2:]
        body = "\n".join(lines).rstrip()
        m = re.search(r"tie\.(invariant|decreases)-([\w-]+)", lines[0])
        n = re.search(r"tie\.Need-([\w₀-₉'-]+)", lines[0])
        if m and " : tie." in lines[0]:
            kind, loop = m[1], m[2]
            row = next((r for r in fn.names["loops"] if flat(r[0][0]) == flat(loop)), None)
            if row is None:
                row = fn.names["loops"][0] if len(fn.names["loops"]) == 1 else None
            if row is None:
                report.append(f"{rel}: no loop {loop}")
                continue
            which = fn.names["loops"].index(row)
            changed = fn.names["changed"][which] if which < len(fn.names["changed"]) else [False] * len(row[1])
            wanted = [("l.initial." if ch else "l.") + v for v, ch in zip(row[1], changed)]
            wanted += ["l." + v for v, ch in zip(row[1], changed) if ch]
            d = re.match(re.escape(name) + r"((?: [^\s=]+)*) =(.*)", "\n".join(lines[1:]), re.S)
            if not d:
                report.append(f"{rel}: {name} has another form")
                continue
            params = d[1].split()
            if len(params) != len(wanted):
                report.append(f"{rel}: {name} has {params}, wanted {wanted}")
            table = {p: w for p, w in zip(params, wanted) if p != "_"}
            term = d[2]

            def put(m2):
                if m2[0] in table and not term[: m2.start()].endswith("."):
                    return table[m2[0]]
                return m2[0]

            new = f"{kind}-{row[0][1]}"
            inv.append("\n".join(lead + [f"abbrev pub {new} : goal.{new}", f"{new} l ={TOKEN.sub(put, term).rstrip()}"]))
        elif n and " : tie." in lines[0]:
            g = fn.goal(n[1])
            if g is None:
                report.append(f"{rel}: {n[1]} is settled")
                continue
            new, i = g
            place = fn.names["asked_at"][i][0] if i < len(fn.names["asked_at"]) else "Start"
            place = place.replace("-unread", "")
            rest = "\n".join(l for l in lines[1:])
            d = re.match(r"((?:unfolding [^\n]*\n)*)" + re.escape(name) + r" c(?: κs)? =(.*)", rest, re.S)
            if not d:
                report.append(f"{rel}: {name} has another form: {rest[:80]!r}")
                continue
            term = d[2].rstrip()
            if term.strip() == "search rules" and not d[1]:
                continue
            if place not in fn.places:
                report.append(f"{rel}: {new} is asked at {place}")
                place = None
            order = [q[0] for q in fn.names["places"]]
            fn.kinds = fn.names["typed"][order.index(place)] if place in order else []
            if place and re.search(r"(?<![\w'])c\.", term):
                term = fn.turn(term, place)
            fields = next((v for k, v in fn.names["asked"].items() if flat(k) == flat(fn.names["needs"][i][0])), None)
            if fields and len(fields) > 1:
                term = record_of(term, fields, report)
            ans.append("\n".join(lead + [f"pub {new} : goal.{new}", f"{d[1]}{new} c ={term}"]))
        elif re.match(r"pub [\w'-]+[-_]spec :", lines[0]):
            continue
        else:
            own.append("\n".join(lead + [body]))
    report += [f"{rel}: {s}" for s in fn.said]
    files = {}
    if inv:
        files["Invariants.antt"] = head + uses + [f"use Rattle.{crate}.proofs.{module}.Given as goal", ""] + ["\n\n".join(inv)]
    if ans or own:
        files["Answers.antt"] = head + uses + [f"use Rattle.{crate}.proofs.{module}.Goals as goal", ""] + ["\n\n".join(own + ans)]
    for name, lines in files.items():
        with open(os.path.join(folder, name), "w", encoding="utf-8") as f:
            f.write("\n".join(lines).rstrip() + "\n")
    os.remove(os.path.join(folder, "Proof.antt"))
    if not os.listdir(folder):
        os.rmdir(folder)


def main(argv):
    with open(argv[0]) as f:
        names = json.load(f)
    crate = os.path.basename(argv[1].rstrip("/"))
    wanted = argv[2:]
    report = []
    for folder, dirs, files in os.walk(f"crates/{crate}/proofs"):
        dirs.sort()
        if "Proof.antt" not in files:
            continue
        rel = os.path.relpath(folder, f"crates/{crate}/proofs")
        if wanted and rel not in wanted:
            continue
        with open(os.path.join(folder, "Proof.antt"), encoding="utf-8") as f:
            if "Tie as tie" not in f.read():
                report.append(f"{rel}: by hand")
                continue
        key = f"Rattle-{crate}-proofs.{rel.replace('/', '.')}.Lts"
        if key not in names:
            report.append(f"{rel}: no names ({key})")
            continue
        convert(crate, folder, names[key], report)
    print("\n".join(report))


main(sys.argv[1:])
