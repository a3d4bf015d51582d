#!/usr/bin/env python3
"""Lists the places in crates/*/src that docs/DESIGN-PASS.md counts, point by point.

    python3 tools/places.py [FOLDER [POINT]]

FOLDER is a checkout (this one by default). A line is a candidate: the page says which of them are places.
"""
import collections
import glob
import os
import re
import sys

ROOT = sys.argv[1] if len(sys.argv) > 1 else os.path.join(os.path.dirname(__file__), "..")
ONLY = sys.argv[2] if len(sys.argv) > 2 else None


def sources():
    for path in sorted(glob.glob(os.path.join(ROOT, "crates/*/src/**/*.rt"), recursive=True)):
        yield os.path.relpath(path, os.path.join(ROOT, "crates")), open(path).read()


def code(line):
    return not line.strip().startswith("//")


def lines_with(*patterns):
    found = []
    for name, text in sources():
        for number, line in enumerate(text.split("\n"), 1):
            if code(line) and any(re.search(p, line) for p in patterns):
                found.append(f"{name}:{number}: {line.strip()[:110]}")
    return found


def functions():
    """Each function: its crate, name, parameters, clauses and body lines."""
    head = re.compile(r"(?m)^ *(?:pub(?:\(crate\))? )?fn (\w+)(?:<[^>{(]*>)?\(")
    for name, text in sources():
        for m in head.finditer(text):
            depth, i = 1, m.end()
            while depth:
                depth += {"(": 1, ")": -1}.get(text[i], 0)
                i += 1
            params = re.sub(r"\s+", " ", text[m.end():i - 1])
            clauses, body, inside, indent = [], [], False, ""
            for line in text[i:].split("\n"):
                if inside:
                    if line == indent + "}":
                        break
                    body.append(line)
                elif line.strip().startswith(("requires", "ensures")):
                    clauses.append(line)
                elif line.rstrip().endswith("{"):
                    inside, indent = True, re.match(r" *", m.group()).group()
                elif line.rstrip().endswith((";", "{}")):
                    break
            yield name, m.group(1), params, "\n".join(clauses), body


def shape(line):
    line = re.sub(r"\b(0x)?[0-9][0-9_A-F]*\b", "0", line.strip())
    return re.sub(r"\b(?!for|in|if|else|let|mut|match|return|while|loop|fn|Some|None|Ok|Err)[A-Za-z_]\w*", "x", line)


def twins():
    seen, found = collections.defaultdict(list), []
    for name, fn, _, _, body in functions():
        rows = [shape(x) for x in body if x.strip()]
        for k in range(len(rows) - 4):
            run = tuple(rows[k:k + 5])
            if sum(len(r) > 3 for r in run) >= 4:
                seen[run].append(f"{name}:{fn}")
    pairs = sorted({tuple(sorted(set(v))) for v in seen.values() if len(set(v)) > 1})
    for p in pairs:
        found.append(" ~ ".join(p))
    return found


def repeated():
    facts, pairs, found = collections.defaultdict(set), collections.defaultdict(set), []
    for name, fn, params, clauses, _ in functions():
        crate = name.split("/")[0]
        listed = [p.strip() for p in re.split(r",(?![^<(\[]*[>)\]])", params) if ":" in p]
        for i, one in enumerate(listed):
            for other in listed[i + 1:]:
                pairs[crate, one, other].add(fn)
        for fact in re.findall(r"requires (?:\w+ )?\{ (.*) \}", clauses):
            facts[crate, re.sub(r"\.(now|old|new)\b", "", fact)].add(fn)
    for what, table in (("fact", facts), ("parameters", pairs)):
        for key, fns in sorted(table.items(), key=lambda x: (-len(x[1]), x[0])):
            if len(fns) >= 3:
                found.append(f"{what}: {' | '.join(key)} in {', '.join(sorted(fns))}")
    return found


def proofs():
    found = []
    files = [p for p in glob.glob(os.path.join(ROOT, "crates/*/proofs/**/*.antt"), recursive=True)]
    text = {p: open(p).read() for p in files}
    answers = [p for p in files if p.endswith("Answers.antt")]
    single = sum(len(re.findall(r"(?m)^pub \S+ : goal\.", text[p])) for p in answers)
    found.append(f"files of answers {len(answers)}, with {single} answers")
    found.append(f"files of invariants {sum(p.endswith('Invariants.antt') for p in files)}")
    found.append(f"files of lemmas {sum(os.path.dirname(p).endswith('proofs') and not p.endswith('Lib.antt') for p in files)}")
    found.append(f"lines {sum(t.count(chr(10)) for t in text.values())}")
    return found


POINTS = {
    "1": ("enums, and numbers for kinds and refusals", lambda: lines_with(
        r"^\s*(pub(\(crate\))? )?enum ", r"\.refusal\([0-9]", r"\b(put_line|put_terms|put_told)\((0x)?[0-9]",
        r"^\s+(0x)?[0-9A-F]+ if ", r"^\s+\w+(::\w+)*(\(.*\))? => [0-9]+,$", r"^\s+0x8[0-9A],$", r'b"82', r"=> \([01], ",
        r"^pub const NO_\w+: u")),
    "2": ("functions that share five lines of one shape", twins),
    "3": ("loops over numbers, and by a count", lambda: lines_with(
        r"\bfor \w+ in .*\.\.", r"\bwhile (?!let)", r"\bfor \(.*\.enumerate\(\)")),
    "4": ("equality, order, copies, conversions and printing by hand", lambda: lines_with(
        r"\bfn (refusal|goes_ahead|at_least_as_good|letter|digit|half|word|signed|halves)\b", r"=> true,$",
        r"None => None,", r"Some\(\w+\) => Some\(", r"Err\(_\) => 0,", r"_ => 0,$", r"_ => false,$")),
    "5": ("facts and pairs of parameters in three and more functions", repeated),
    "6": ("counts beside buffers, and arrays cut to a count", lambda: lines_with(
        r"\bcount: (u8|usize)\b(?!.*->)", r"= \[.*; \w+\];", r"\[(0)?\.\.(n|count|span|points\.len\(\))\]")),
    "7": ("enums without data that a function is given to choose a step, tables of functions", lambda: lines_with(
        r"\baxis: Axis\b", r": fn\(", r"\bdyn\b")),
    "8": ("proofs", proofs),
}

for point, (what, count) in POINTS.items():
    if ONLY in (None, point):
        rows = count()
        print(f"{point} {what}: {len(rows)}")
        for row in rows:
            print("   " + row)
