#!/usr/bin/env python3
"""Counts, for docs/DESIGN-PASS.md, the places of each point of the design pass in src/ (and the answers in proofs/).
Usage: tools/places.py [FOLDER]: the folder of a checkout; --list prints each place."""
import re, sys, glob, os, collections
args = [a for a in sys.argv[1:] if not a.startswith("--")]
show = "--list" in sys.argv
top = args[0] if args else "."
src = {f: open(f).read() for f in sorted(glob.glob(f"{top}/crates/*/src/**/*.rt", recursive=True))}
def lines(pattern, files=src):
    out = []
    for f, t in files.items():
        for n, line in enumerate(t.split("\n"), 1):
            code = line.split("//")[0]
            if re.search(pattern, code):
                out.append(f"{os.path.relpath(f, top)}:{n}: {line.strip()}")
    return out
def enums():
    for f, t in src.items():
        for m in re.finditer(r"^(pub )?enum (\w+)(<[^>]*>)? \{\n(.*?)^\}", t, re.S | re.M):
            body = re.sub(r"//[^\n]*", "", m.group(4))
            cases = re.findall(r"^    (\w+)", body, re.M)
            yield f, m.group(2), cases, body
def place(f, what):
    return f"{os.path.relpath(f, top)}: {what}"
p = collections.OrderedDict()
p["1a enums with a case Stop(..)"] = [place(f, n) for f, n, c, b in enums() if "Stop" in c]
p["1b enums of two cases of which one is bare, or both carry a value"] = [
    place(f, n) for f, n, c, b in enums()
    if "Stop" not in c and len(c) == 2 and ("(" in b or "{" in b)]
p["1c flags beside a value: fields of type bool"] = lines(r"^\s+(pub )?\w+: bool,$")
p["1d numbers for refusals: fields, cases and results of type u8"] = lines(r"(fault|stop|late): u8|-> u8$|-> u8 \{|Stop\(u8\)")
p["2 twins: functions of one name in several crates or modules, or named few and many"] = []
names = collections.defaultdict(list)
for f, t in src.items():
    for m in re.finditer(r"^(?:pub )?(?:extern \"C\" )?fn (\w+)", t, re.M):
        names[m.group(1)].append(f)
for n, fs in sorted(names.items()):
    if len(fs) > 1 and n != "main":
        p["2 twins: functions of one name in several crates or modules, or named few and many"].append(n + ": " + ", ".join(os.path.relpath(f, top) for f in fs))
    elif re.search(r"_(few|many)$", n):
        p["2 twins: functions of one name in several crates or modules, or named few and many"].append(n + ": " + os.path.relpath(fs[0], top))
p["3 loops: while"] = lines(r"^\s*while ")
p["4 by hand: orders, copies, numbers of kinds"] = lines(r"fn (is_less|is_equal|at_most|or_else|number|kind_number|side_number|order_number|kind_of|start_kind|end_kind|form_of|form_number|cut_number|run_kind_of|run_kind_number|bit|wide|cmp_number|half|lesser|greater|shorter|less|maximum|clamp|differ|key_equal|same|side_if|kind_of|bound_of|supplied_of|other_side|test_given|test_of|both)\(")
facts = collections.Counter()
for f, t in src.items():
    for m in re.finditer(r"^(?:    )?(?:pub )?(?:extern \"C\" )?fn \w+.*?^(?:    )?\{\n", t, re.S | re.M):
        for n in set(re.findall(r"requires[^{\n]*\{ *\(?([A-Z]\w+)", m.group(0))):
            facts[n] += 1
p["5 facts that stand in the contracts of three or more functions"] = [f"{n}: {k}" for n, k in sorted(facts.items()) if k >= 3]
p["6 tables of numbers: parameters &[usize], &mut [usize], &[u64], &mut [u64]"] = lines(r"&(mut )?\[(usize|u64)\]")
p["7 switches: a bool or a number that says which step to run"] = lines(r"(start|up|first|at_or_below|flagged|shown|point|ordered): bool[,)]|match call|\.call ==")
ans = glob.glob(f"{top}/crates/*/proofs/**/Answers.antt", recursive=True)
p["8 answers"] = [l for f in sorted(ans) for l in re.findall(r"^pub ([\w-]+) :", open(f).read(), re.M)]
p["8 answers that only search one ruleset"] = [l for f in sorted(ans) for l in re.findall(r"= search \(rules, [\w]+\)$", open(f).read(), re.M)]
for k, v in p.items():
    print(f"{len(v):5}  {k}")
    if show:
        for x in v:
            print("       ", x)
