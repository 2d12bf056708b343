#!/usr/bin/env python3
"""Respells the repository's own definitions and lemmas: words in snake case, types in camel case.

usage: tools/respell.py [TOP]      (default: the current folder)

tools/respelled.txt has the old and the new spelling, a pair a line. Whole words are replaced in specs/ and proofs/, in the
clauses of src/ and of must-fail/, and between back quotes in docs/ and README.md; comments and strings stay as they are.
It stops, and writes nothing, where two words of one file would fall together.
"""
import os
import re
import sys

HERE = os.path.dirname(os.path.abspath(__file__))
TABLE = dict(line.split() for line in open(os.path.join(HERE, "respelled.txt"), encoding="utf-8") if line.strip())
# A field or a function of src/ and a word of the clauses or a field of a specification's record may share a name.
APART = {"code_number", "digit_letter", "in_service", "over_service", "place_letter", "upper_written", "with_flag"}
WORD = re.compile(r"[A-Za-z0-9_'₀-₉]+(?:-[A-Za-z0-9_'₀-₉]+)*")
QUOTED = re.compile(r"`[^`\n]*`")


def respelled(text):
    return WORD.sub(lambda m: TABLE.get(m.group(), m.group()), text)


def pieces(text, antt):
    """The text in parts: (code or not, part). Comments, and strings of src/, are not code."""
    skip = re.compile(r"--[^\n]*" if antt else r'//[^\n]*|"(?:\\.|[^"\\\n])*"')
    at = 0
    for m in skip.finditer(text):
        yield True, text[at : m.start()]
        yield False, m.group()
        at = m.end()
    yield True, text[at:]


def turned(path, text):
    if path.endswith(".md"):
        return QUOTED.sub(lambda m: respelled(m.group()), text)
    return "".join(respelled(part) if code else part for code, part in pieces(text, path.endswith(".antt")))


def fallen(path, text):
    """Words of the file that the table would make one."""
    seen = {}
    for code, part in pieces(text, path.endswith(".antt")):
        if code:
            for word in WORD.findall(part):
                seen.setdefault(TABLE.get(word, word), set()).add(word)
    return {new: sorted(old) for new, old in seen.items() if len(old) > 1 and new not in APART}


def files(top):
    for folder, folders, names in os.walk(top):
        folders[:] = sorted(f for f in folders if f not in ("out", ".git", "tools"))
        for name in sorted(names):
            if name.endswith((".rt", ".antt", ".edit", ".md")):
                yield os.path.join(folder, name)


def main(top):
    texts = {}
    bad = 0
    for path in files(top):
        with open(path, encoding="utf-8") as f:
            text = f.read()
        new = turned(path, text)
        if new != text:
            texts[path] = new
            if not path.endswith(".md"):
                for word, old in fallen(path, text).items():
                    print(f"{path}: {' and '.join(old)} would both be {word}")
                    bad += 1
    if bad:
        return 1
    for path, text in texts.items():
        with open(path, "w", encoding="utf-8") as f:
            f.write(text)
    print(f"{len(texts)} files respelled")
    return 0


if __name__ == "__main__":
    raise SystemExit(main(sys.argv[1] if len(sys.argv) > 1 else "."))
