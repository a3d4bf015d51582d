"""Respells the names that Rattle makes (goals, steps, fields) in a crate's Answers.antt and Invariants.antt, after the scripts that
respell everything else.

    python3 tools/port_goals.py crates/NAME

`rt check --generated OUT --old-names` lists the names of each function. A word of a proof file that is one of them but for dashes
and low lines gets today's spelling, where only one name fits. Run it again after functions below have been mended.
"""
import collections
import json
import os
import re
import subprocess
import sys
import tempfile

WORD = re.compile(r"(?<![\w'◌-])[\w'][\w']*(?:-[\w']+)+(?![\w◌])")
ENDINGS = ("-init", "-preserved", "-smaller", "-test", "-index", "-item", "-is", "-end", "-iterator")
BEGINNINGS = ("invariant-", "decreases-", "After-")


def names_in(entry, found):
    if isinstance(entry, str):
        found |= {entry, entry.removesuffix("-own")}
    elif isinstance(entry, list):
        for it in entry:
            names_in(it, found)
    elif isinstance(entry, dict):
        for key, it in entry.items():
            names_in(key, found)
            names_in(it, found)


class Speller:
    def __init__(self, entry):
        self.names = {"type_inv"}
        names_in(entry, self.names)
        self.by_key = collections.defaultdict(set)
        for name in self.names:
            self.by_key[name.replace("-", "_")].add(name)

    def only(self, word):
        fits = self.by_key.get(word.replace("-", "_"), ())
        return next(iter(fits)) if len(fits) == 1 else None

    def spelled(self, word):
        if word in self.names:
            return word
        if self.only(word):
            return self.only(word)
        for end in ENDINGS:
            if word.endswith(end) and self.only(word.removesuffix(end)):
                return self.only(word.removesuffix(end)) + end
        for begin in BEGINNINGS:
            if word.startswith(begin) and self.only(word.removeprefix(begin)):
                return begin + self.only(word.removeprefix(begin))
        side = re.match(r"(then|else|Then|Else|returns-then|returns-else)-(.*)$", word)
        if side and self.only("if-" + side[2]):
            return side[1] + "-" + self.only("if-" + side[2]).removeprefix("if-")
        return word

    def line(self, line):
        if line.startswith("use ") and not re.search(r"\.(Goals|Given)\b", line):
            return line
        comment = re.search(r"(^|\s)--", line)
        at = comment.start() if comment else len(line)
        return WORD.sub(lambda m: self.spelled(m[0]), line[:at]) + line[at:]


def main(top):
    crate = os.path.basename(os.path.abspath(top))
    with tempfile.TemporaryDirectory() as out:
        ran = subprocess.run(["rt", "check", "--generated", out, "--old-names"], cwd=top, capture_output=True, text=True)
        if not os.path.exists(os.path.join(out, "names.json")):
            sys.exit(ran.stdout[-2000:] + ran.stderr[-2000:])
        with open(os.path.join(out, "names.json"), encoding="utf-8") as f:
            entries = json.load(f)
    proofs = os.path.join(top, "proofs")
    for folder, _, files in os.walk(proofs):
        entry = entries.get(f"Rattle-{crate}-proofs.{os.path.relpath(folder, proofs).replace('/', '.')}.Lts")
        for name in {"Answers.antt", "Invariants.antt"} & set(files) if entry else ():
            path = os.path.join(folder, name)
            with open(path, encoding="utf-8") as f:
                old = f.read()
            new = "\n".join(map(Speller(entry).line, old.split("\n")))
            if new != old:
                with open(path, "w", encoding="utf-8") as f:
                    f.write(new)
                print(f"port_goals: {path}")


main(sys.argv[1])
