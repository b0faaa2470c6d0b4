"""Brings the definitions and lemmas of the repository to one spelling, by the table respell.tsv beside this file: words are in snake case.

usage: python3 tools/respell.py [FOLDER]     FOLDER holds crates/; without it, the folder that the script's own stands in

A row of the table is a name as the kit's script port.py leaves it, a tab, and its name now. Whole words turn: in the files of specs/ and proofs/,
in the clauses, `ghost use` items and comments of src/, and in the pages where a word stands between backticks. Code, strings,
exported names and what programs read or write keep their words. It is run once, after port.py. A second run changes only names that a row
turns and another row makes, so it is not run again.
"""

import os
import re
import sys

HERE = os.path.dirname(os.path.abspath(__file__))
ROOT = os.path.abspath(sys.argv[1]) if len(sys.argv) > 1 else os.path.dirname(HERE)
with open(os.path.join(HERE, "respell.tsv"), encoding="utf-8") as table:
    ROWS = dict(line.rstrip("\n").split("\t") for line in table)

WORD = re.compile(r"[^\s(){}.;,@\"«»`]+")
# A name of a function's proof folder in a path is the function's own: `Rattle.bbb.proofs.act.one_more.Statement`.
FOLDERS = re.compile(r"Rattle\.\w+\.proofs\.(?:[\w+]+\.)*(?:Statement|Tie|Kinds|Reads|Given|Goals|Met)\b")
OF_A_FUNCTION = re.compile(r"^([\w-]+)-spec$")


def turned(text, also=None):
    """The text with each word of the table turned; `also` turns a word that has no row."""
    kept = [(m.start(), m.end()) for m in FOLDERS.finditer(text)]
    out, at, k = [], 0, 0
    for m in WORD.finditer(text):
        while k < len(kept) and kept[k][1] <= m.start():
            k += 1
        if k < len(kept) and kept[k][0] <= m.start():
            continue
        word = m.group()
        new = ROWS.get(word) or (also(word) if also else None)
        if new and new != word:
            out += [text[at : m.start()], new]
            at = m.end()
    return "".join(out) + text[at:]


def of_a_function(word):
    m = OF_A_FUNCTION.match(word)
    return m.group(1).replace("-", "_") + "_spec" if m else None


# In a source, code is left as it is: only comments, `ghost use` items and clauses turn.
SOURCE = re.compile(r"//[^\n]*|\"(?:[^\"\\]|\\.)*\"|b?'(?:[^'\\]|\\.)'|ghost use[^;]*;|\b(?:requires|ensures)\*?\s*(?:\w+\s*)?\{|\bghost\s+(?:\w+\s*(?::\s*)?)?\{")


def source(text):
    out, at = [], 0
    while m := SOURCE.search(text, at):
        out.append(text[at : m.start()])
        at = m.end()
        found = m.group()
        if found.endswith("{"):
            depth = 1
            while depth:
                depth += {"{": 1, "}": -1}.get(text[at], 0)
                at += 1
            found = text[m.start() : at]
            out.append(turned(found))
        elif found.startswith(("//", "ghost")):
            out.append(turned(found))
        else:
            out.append(found)
    return "".join(out) + text[at:]


def page(text):
    return re.sub(r"`[^`\n]+`", lambda m: turned(m.group()), text)


def rewritten(path):
    name = os.path.basename(path)
    with open(path, encoding="utf-8", newline="") as it:
        text = it.read()
    if name == "Proof.antt":
        new = turned(text, of_a_function)
    elif name.endswith(".antt"):
        new = turned(text)
    elif name.endswith(".rt"):
        new = source(text)
    else:
        new = page(text)
    if new != text:
        with open(path, "w", encoding="utf-8", newline="") as it:
            it.write(new)
        return 1
    return 0


def main():
    count = 0
    for folder, folders, files in os.walk(ROOT):
        folders[:] = sorted(f for f in folders if f not in ("out", "target", ".git"))
        inside = os.path.relpath(folder, ROOT).split(os.sep)[0] == "crates"
        for name in sorted(files):
            if name.endswith(".md") or (inside and name.endswith((".antt", ".rt"))):
                count += rewritten(os.path.join(folder, name))
    print(f"respell: {len(ROWS)} rows, {count} files changed")


main()
