#!/usr/bin/env python3
"""Brings this repository's own definitions, laws, fields and constructors to snake case.

usage: tools/spelling.py [FOLDER]

FOLDER is a checkout that the kit's port.py has turned; without it, the one that this file stands in. A second run changes nothing.
In crates/: each word of specs/, proofs/, src/ (but for strings) and must-fail/ that is written as in 'listTo' is written as in 'list_to', between dashes too.
In texts and in the harness the same words, as far as crates/ has them; the pages of docs/landings stay, each of which speaks of its own commits.
Words of IEEE 754 and of Lucene stay as they are there, and in comments.
It stops before it writes where two names would become one. Where a new name meets a word that stood already it does not: docs/PORT.md has how those were read.
"""

import os
import re
import sys

TOKEN = re.compile(r"[\w']+")
CAMEL = re.compile(r"[a-z][a-z0-9']*(?:[A-Z][a-z0-9']*)+")
STRING = re.compile(r'"(?:[^"\\\n]|\\.)*"')
# words of IEEE 754 and of Lucene: their spelling stays in prose, the definitions that render them are respelled
THEIRS = set("byte4ToInt convertFormat floatToSortableInt int4ToLong intToByte4 longToInt4 nextUp roundTiesToEven sortableIntToFloat totalOrder".split())
# words that go otherwise: the older kit's within names of laws, and one that would meet a word of the kit
OTHERWISE = {"getD": "get_or", "other_Offset": "other_offset", "takeAll": "take_nodes"}
# laws whose names would hide a definition as it is now spelled: a file, the old name, the new one, and that definition's old name
HIDING = [
    ("crates/border_demands/proofs/Pages.antt", "goes_on", "goes_on_lem", "goesOn"),
    ("crates/window_bits/proofs/Passes.antt", "asked_by", "asked_by_lem", "askedBy"),
    ("crates/index/proofs/Accepted.antt", "no_index", "no_index_lem", "noIndex"),
    ("crates/index/proofs/Words.antt", "leaf_first", "leaf_first_lem", "leafFirst"),
    ("crates/adjacent_leaves/proofs/plain_leaves/Proof.antt", "leaf_first", "leaf_first_lem", "leafFirst"),
    ("crates/posting_check/proofs/wrong_run/Proof.antt", "leaf_first", "leaf_first_lem", "leafFirst"),
]
TEXTS = ("README.md", "docs", "harness", "include", "examples", "Makefile", ".ci")
KINDS = (".md", ".rs", ".h", ".c", ".toml", "Makefile", "run")


def snake(word):
    return re.sub(r"(?<=[a-z0-9'])([A-Z])", lambda m: "_" + m[1].lower(), word)


def new_name(word):
    if word in OTHERWISE:
        return OTHERWISE[word]
    return snake(word) if CAMEL.fullmatch(word) else word


def turned(text, known=None, prose=False):
    def one(m):
        w = m[0]
        if prose and w in THEIRS or known is not None and w not in known:
            return w
        return new_name(w)

    return TOKEN.sub(one, text)


def in_parts(text, mark, strings):
    """Code is turned; a comment, from its mark to the end of the line, as prose; a string stays, where there are strings."""
    out = []
    for line in text.split("\n"):
        at, i = 0, line.find(mark)
        quoted = [m.span() for m in STRING.finditer(line)] if strings else []
        while i >= 0 and any(a < i < b for a, b in quoted):
            i = line.find(mark, i + 1)
        end = len(line) if i < 0 else i
        done = ""
        for a, b in quoted:
            if a < end:
                done += turned(line[at:a]) + line[a:b]
                at = b
        done += turned(line[at:end]) if at < end else ""
        out.append(done + turned(line[max(at, end):], prose=True))
    return "\n".join(out)


def files(root, below, kinds):
    top = os.path.join(root, below)
    if os.path.isfile(top):
        yield top
    for folder, dirs, names in os.walk(top):
        dirs[:] = sorted(d for d in dirs if d not in ("out", "target", ".git", "landings"))
        for name in sorted(names):
            if name.endswith(kinds):
                yield os.path.join(folder, name)


def main():
    root = os.path.abspath(sys.argv[1] if len(sys.argv) > 1 else os.path.join(os.path.dirname(os.path.abspath(__file__)), ".."))
    texts = {}
    for path in files(root, "crates", (".antt", ".rt", ".edit")):
        with open(path, encoding="utf-8") as f:
            texts[path] = f.read()
    before = dict(texts)
    for name, old, new, hidden in HIDING:
        path = os.path.join(root, name)
        if hidden in TOKEN.findall(texts.get(path, "")):
            texts[path] = TOKEN.sub(lambda m: new if m[0] == old else m[0], texts[path])
    known, met = set(), {}
    for path, text in texts.items():
        for w in TOKEN.findall(text):
            if new_name(w) != w:
                known.add(w)
                if met.setdefault(new_name(w), w) != w:
                    raise SystemExit(f"{met[new_name(w)]} and {w} would become one name, {new_name(w)}: nothing is written")
    for path, text in texts.items():
        kind = os.path.splitext(path)[1]
        if kind == ".edit":
            # a line of an edit is code after its first word, and prose where it has none
            lines = [turned(l, prose=not re.match(r"(file|old|new):", l)) for l in text.split("\n")]
            texts[path] = "\n".join(lines)
        else:
            texts[path] = in_parts(text, "--" if kind == ".antt" else "//", kind == ".rt")
    for below in TEXTS:
        for path in files(root, below, KINDS):
            with open(path, encoding="utf-8") as f:
                before[path] = f.read()
            texts[path] = turned(before[path], known, prose=True)
    n = 0
    for path, text in texts.items():
        if text != before[path]:
            n += 1
            with open(path, "w", encoding="utf-8") as f:
                f.write(text)
    print(f"spelling: {len(known)} words, {n} files")


main()
