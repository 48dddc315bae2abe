#!/usr/bin/env python3
"""Respells the repository's own definitions and lemmas: words and lemmas in snake case (`cmpKey` and `swap-or_else` become
`cmp_key` and `swap_or_else`); types, modules and facts keep their capitals. Names of the library, names that Rattle makes,
functions of src/, strings, inputs and outputs stay. Run once, after port.py, at the top of the repository. It changes files
in place, and lists the names that it left because two of them would fall together.

usage: python3 tools/spell.py [--check]
"""
import os
import re
import sys

DECLARED = re.compile(r"^\s*(?:(?:abbrev|unfoldable|ruleset|opaque|record|data|module|pub|constructor)\s+)*([^\s(){}:;,.]+)(?=[\s(){}][^\n]*?:|\s:|\s*$)", re.M)
TOKEN = re.compile(r"[^\s(){}\[\];,.λ:\"`|]+")
USE = re.compile(r"^\s*(?:ghost )?(?:pub )?use ([^\s{;]+?)(?:\.\{([^}]*)\})?(?: as ([^\s;]+))?;?$", re.M)
# Words of antt that a declaration's line may begin with.
WORDS = {"use", "let", "where", "in", "pub", "module", "open", "elim", "mod", "rw", "record", "data", "abbrev"}


# Variables and local names that no line declares; types whose names had a dash.
EXTRA = ["dataEnd", "gap-table", "ranges-2", "readWhole", "run-place", "rangeBy"]
TYPES = {"Demand-3": "Demand3", "Is-part": "IsPart", "View-rest": "ViewRest"}
RESERVED = {"first_of", "search", "simp", "grind", "omega", "cc", "rw", "hlevel", "assumption", "ground", "open", "syntax", "absurd", "subst", "ap", "in", "data"}


def snake(name):
    name = re.sub(r"(?<=[a-z0-9₀-₉])(?=[A-Z])", "_", name.replace("-", "_"))
    name = re.sub(r"(?<=[A-Z])(?=[A-Z][a-z])", "_", name)
    return re.sub(r"[A-Z]", lambda m: m[0].lower(), name)


def is_old(name):
    return name[0].islower() and ("-" in name[1:] or re.search(r"[a-z0-9₀-₉][A-Z]", name)) is not None and bool(re.match(r"^[\w'₀-₉-]+$", name)) and bool(name.strip("-")) and not name.endswith("-")


def files(root):
    for folder, dirs, names in os.walk(root):
        dirs[:] = sorted(d for d in dirs if d not in ("out", "target", ".git"))
        for n in sorted(names):
            yield os.path.join(folder, n)


def read(path):
    with open(path, encoding="utf-8") as f:
        return f.read()


def bare(text):
    return re.sub(r"--[ -].*|--$", "", text, flags=re.M)


def is_walk(path):
    """Whether the names that a file declares at its top are answers, which Rattle names."""
    return os.path.basename(path) in ("Proof.antt", "Answers.antt", "Invariants.antt")


def declared(path):
    """The names that a file declares; of a proof of a function, those that are not answers or its theorem."""
    text = bare(read(path))
    names = set(DECLARED.findall(text)) - WORDS
    names |= set(re.findall(r"^\s*(?:pub )?ruleset (\S+)", text, re.M))
    if is_walk(path):
        top = set(re.findall(r"^(?:abbrev |pub )*([^\s(){}:]+) : (?:tie|goal)\.", text, re.M))
        names -= top
        names = {n for n in names if not n.endswith("-spec") and not n.endswith("_spec")}
    return names


def foreign(path):
    """The names that a file imports from a library."""
    found = set()
    for module, names, _ in USE.findall(read(path)):
        if not module.startswith("Rattle.") or module.startswith("Rattle.std.") or module.startswith("Rattle.core."):
            found |= {n.strip().split(" as ")[0] for n in names.split(",") if n.strip()}
    return found


def respell(text, path, table, kept):
    def one(m):
        name = m[0]
        if name not in table or name in kept:
            return name
        before = text[: m.start()]
        if before.endswith(("tie.", "goal.", "Tie.", "Goals.", "Given.")):
            return name
        return table[name]

    return TOKEN.sub(one, text)


def rust(text, table):
    """A source file: clauses, ghost items and comments, and no string."""
    out, at = [], 0
    for m in re.finditer(r'b?"(?:\\.|[^"\\])*"', text):
        out.append(respell(text[at : m.start()], "", table, set()))
        out.append(m[0])
        at = m.end()
    out.append(respell(text[at:], "", table, set()))
    return "".join(out)


def main(argv):
    antt = [p for p in files("crates") if p.endswith(".antt")]
    names = set()
    for p in antt:
        names |= {n for n in declared(p) if is_old(n)}
    texts = {p: read(p) for p in antt}
    tokens = {p: set(TOKEN.findall(bare(texts[p]))) for p in antt}
    spelt = {n for p in antt for n in declared(p) if not is_old(n)}
    words = {n: snake(n) for n in names if "-" not in n}
    table = dict(words)
    table.update(TYPES)
    table.update({n: snake(n) for n in EXTRA})
    left = []
    for n in sorted(names - set(words)):
        s = snake(n)
        if s in words.values():
            s += "_lem"  # a lemma that would have its function's name
        elif s in spelt and any(n in ts and s in ts for ts in tokens.values()):
            left.append(f"{n} stays, beside {s}")
            continue
        table[n] = s
    # A lemma that had its function's name in snake case already.
    lemmas = {}
    for p in antt:
        for n, s in words.items():
            if n in tokens[p] and s in declared(p) and "/proofs/" in p:
                lemmas.setdefault(p.split("/")[1], {})[s] = s + "_lem"
    for crate, of in sorted(lemmas.items()):
        left.append(f"{crate}: {of}")
    made = {}
    for n, s in table.items():
        made.setdefault(s, []).append(n)
    left += [f"{ns} all become {s}" for s, ns in made.items() if len(ns) > 1]
    left += [f"{n} becomes the reserved word {s}" for n, s in table.items() if s in RESERVED]
    for p in antt:
        for n in sorted(tokens[p] & set(table)):
            if table[n] in tokens[p] and n not in foreign(p) and table[n] not in lemmas.get(p.split("/")[1], {}):
                left.append(f"{p}: {n} beside {table[n]}")
    print("\n".join(left))
    print(f"spell: {len(table)} names, {len(left)} to look at")
    if "--check" in argv:
        return
    for p in antt:
        new = texts[p]
        own = lemmas.get(p.split("/")[1])
        if own and "/proofs/" in p:
            new = TOKEN.sub(lambda m: own[m[0]] if m[0] in own and not new[: m.start()].endswith(".") else m[0], new)
        new = respell(new, p, table, foreign(p))
        if new != texts[p]:
            with open(p, "w", encoding="utf-8") as f:
                f.write(new)
    for p in files("crates"):
        if p.endswith((".rt", ".edit")):
            old = read(p)
            new = rust(old, table)
            if new != old:
                with open(p, "w", encoding="utf-8") as f:
                    f.write(new)
    pages = [p for d in ("docs", ".") for p in ([os.path.join(d, n) for n in sorted(os.listdir(d))]) if p.endswith(".md")]
    for p in pages:
        old = read(p)
        new = re.sub(r"`[^`\n]+`", lambda m: respell(m[0], p, table, set()), old)
        if new != old:
            with open(p, "w", encoding="utf-8") as f:
                f.write(new)


main(sys.argv[1:])
