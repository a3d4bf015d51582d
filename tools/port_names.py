"""Respells the repository's own definitions and lemmas: words in snake case, types and modules in camel case.

    python3 tools/port_names.py [FOLDER]

Run once, right after the kit's port.py, in the same state of the tree. It goes by the table beside it
(tools/port_names.tsv: old name, new name; a name of a module's file has a third column, `module`), and
turns whole words alone:

- in the code of .antt files, of .rt files and of must-fail edits; in comments and in README.md and docs/
  only what stands between backticks;
- behind a dot only what the third column calls a `field`, and in an Answers.antt or Invariants.antt never what
  stands right behind the record of a goal (c, l, w, v or g), since those names are made by Rattle.

A module's file moves with its name. Where port.py wrote `AllByRecursion as All`, which `rt ci` refuses in specs/,
the word keeps the library's name AllByRecursion.
"""
import os
import re
import subprocess
import sys

HERE = os.path.dirname(os.path.realpath(__file__))
TOP = sys.argv[1] if len(sys.argv) > 1 else "."
NAME = re.compile(r"(?<![\w'◌-])[\w'][\w']*(?:-[\w']+)*(?![\w◌-])")
MADE = re.compile(r"(?<![\w'.-])[clwvg]\.$")


def rows():
    with open(os.path.join(HERE, "port_names.tsv"), encoding="utf-8") as f:
        for line in f:
            old, new, *kind = line.rstrip("\n").split("\t")
            yield old, new, kind[0] if kind else ""


ROWS = list(rows())
WORDS = {old: new for old, new, _ in ROWS}
BEHIND_DOT = {old for old, _, kind in ROWS if kind in ("field", "module")}
MODULES = {old: new for old, new, kind in ROWS if kind == "module"}


def words(text, goals=False):
    def turn(m):
        old = m[0]
        if old not in WORDS:
            return old
        before = text[: m.start()]
        if before.endswith(".") and (old not in BEHIND_DOT or goals and MADE.search(before)):
            return old
        return WORDS[old]

    return NAME.sub(turn, text)


def spans(text):
    return re.sub(r"`[^`\n]*`", lambda m: words(m[0]), text)


def code(text, mark, goals=False):
    """A file of code, line by line; what follows the mark is a comment, and a text between quotes stays."""
    out = []
    for line in text.split("\n"):
        m = re.search(rf"(^|\s){mark}", line)
        at = m.start() if m else len(line)
        quoted = re.split(r'(b?"[^"]*")', line[:at]) if mark == "//" else [line[:at]]
        out.append("".join(q if k % 2 else words(q, goals) for k, q in enumerate(quoted)) + spans(line[at:]))
    return "\n".join(out)


ALL = re.compile(r"(?<![\w'◌.-])All(?![\w'◌.-])")


def one_name(text, mark):
    """AllByRecursion under its own name, in a file of code that has it as All."""
    if "AllByRecursion as All" not in text:
        return text
    out = []
    for line in text.replace("AllByRecursion as All", "AllByRecursion").split("\n"):
        m = re.search(rf"(^|\s){mark}", line)
        at = m.start() if m else len(line)
        out.append(ALL.sub("AllByRecursion", line[:at]) + line[at:])
    return "\n".join(out)


def turned(path, text):
    text = one_name(text, "--" if path.endswith(".antt") else "//")
    if path.endswith(".antt"):
        return code(text, "--", os.path.basename(path) in ("Answers.antt", "Invariants.antt"))
    if path.endswith((".rt", ".edit")):
        return code(text, "//")
    return spans(text)


def main():
    os.chdir(TOP)
    tracked = subprocess.run(["git", "ls-files", "-co", "--exclude-standard"], capture_output=True, text=True, check=True).stdout
    count = 0
    for path in tracked.splitlines():
        if not os.path.isfile(path) or path == "docs/PORT.md":
            continue
        if not (path.startswith("crates/") and path.endswith((".antt", ".rt", ".edit")) or re.fullmatch(r"README\.md|docs/\w+\.md", path)):
            continue
        with open(path, encoding="utf-8") as f:
            old = f.read()
        new = turned(path, old)
        if new != old:
            with open(path, "w", encoding="utf-8") as f:
                f.write(new)
            count += 1
        stem = os.path.basename(path).removesuffix(".antt")
        if path.endswith(".antt") and stem in MODULES:
            os.rename(path, os.path.join(os.path.dirname(path), MODULES[stem] + ".antt"))
    print(f"port_names: {count} files respelled")


main()
