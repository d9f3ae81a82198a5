#!/usr/bin/env python3
"""Gives the repository's own definitions and lemmas the spelling of today's Rattle: words in snake case, a dash only between two names, and _lem behind a
lemma that would have its function's name. Run once, at the top, right after the kit's port.py; the names are in respelled.tsv beside it (old, a tab, new).

What turns: every name of crates/*/specs and crates/*/proofs, clauses and `ghost use` lines of crates/*/src, and names in comments. Names of functions in src/, C names,
strings and outputs have no capital inside and no dash, so that none of them is touched. Behind a dot a name with a dash turns only if it is a field of a record of
this repository: the others there are names that Rattle makes.
"""

import glob
import os
import re

HERE = os.path.dirname(os.path.realpath(__file__))
TABLE = dict(l.rstrip("\n").split("\t") for l in open(os.path.join(HERE, "respelled.tsv"), encoding="utf-8"))
WORD = re.compile(r'[^\s(){}.;,@"«»]+')
STRING = re.compile(r'b?"(?:\\.|[^"\\])*"')


def fields():
    """The fields of records of this repository."""
    found = set()
    for p in glob.glob("crates/*/specs/*.antt") + glob.glob("crates/*/proofs/**/*.antt", recursive=True):
        depth = None
        for line in open(p, encoding="utf-8"):
            if re.match(r"\s*(pub )?record .*where\s*$", line):
                depth = len(line) - len(line.lstrip())
            elif depth is not None and line.strip():
                if len(line) - len(line.lstrip()) <= depth:
                    depth = None
                else:
                    m = re.match(r"\s*pub ([^\s:]+(?: [^\s:]+)*) :", line)
                    found.update(m.group(1).split() if m else ())
    return found


def turned(text, own):
    """A piece of code with its names turned."""

    def one(m):
        word = m.group(0)
        to = TABLE.get(word)
        if to is None:
            return word
        behind_dot = m.start() > 0 and text[m.start() - 1] == "."
        path = re.search(r"(?:specs|proofs)(?:\.[A-Z]\w*)+\.$", text[: m.start()])
        return word if behind_dot and "-" in word and word not in own and not path else to

    return WORD.sub(one, text)


def commented(text):
    """The same for a comment: a name with a dash turns only between back quotes, since it may be prose."""
    text = re.sub(r"[A-Za-z_][\w']*", lambda m: TABLE.get(m.group(0), m.group(0)), text)
    return re.sub(r"`([^`\s]+)`", lambda m: "`" + TABLE.get(m.group(1), m.group(1)) + "`", text)


def rewrite(path, mark, own):
    out = []
    for line in open(path, encoding="utf-8").read().split("\n"):
        m = re.search(r"(^|\s)" + mark + r"(\s|$)", line)
        code, note = (line[: m.start()], line[m.start() :]) if m else (line, "")
        parts, at = [], 0
        for s in STRING.finditer(code):
            parts += [turned(code[at : s.start()], own), s.group(0)]
            at = s.end()
        out.append("".join(parts) + turned(code[at:], own) + commented(note))
    text = "\n".join(out)
    if text != open(path, encoding="utf-8").read():
        open(path, "w", encoding="utf-8").write(text)


def main():
    own = fields()
    for p in sorted(glob.glob("crates/*/specs/*.antt") + glob.glob("crates/*/proofs/**/*.antt", recursive=True)):
        rewrite(p, "--", own)
    for p in sorted(glob.glob("crates/*/src/*.rt")):
        rewrite(p, "//", own)


main()
