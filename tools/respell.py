#!/usr/bin/env python3
"""Spells the repository's own definitions, lemmas, fields and constructors in snake case, in every crate and in docs/.

usage: python3 tools/respell.py [--check]      at the top of the repository, once, after port.py

Turned are names that the files below crates/*/specs and crates/*/proofs declare, but for the labels of Answers and Invariants
files, which Rattle makes: 'not-all' and 'notAll' become 'not_all'. Types and modules keep their capitals. Names of Rust source,
strings, inputs, outputs and comments stay; in docs/ and README.md code spans turn. Where a lemma would get the name of a
definition, it gets '_lem' behind; OTHERS gives the spelling of names that would meet one of a library or of a function beside
them. With --check nothing is written. A name that meets another one in some file is told, and nothing is written.
"""

import collections
import glob
import os
import re
import sys

# Definitions that would meet a function beside them, and lemmas that would meet a library's word.
OTHERS = {
    "deepestTwo": "deepest_two_of",
    "withinLimits": "within_limits_of",
    "sampleFigures": "sample_figures_of",
    "bit-or": "bit_or_lem",
    "bit-xor": "bit_xor_lem",
    "log-stands": "log_stands_lem",
    "room-suffices": "room_suffices_lem",
}
# Files whose methods may have the name of the definition that they are proved to compute.
MIRRORED = {"crates/mains/src/lists.rt": {"of_pairs"}, "crates/mains/src/nodes.rt": {"is_free"}}

TOKEN = re.compile(r"[^\s(){}.;,@\"«»`:\[\]|]+")
DECLARED = re.compile(r"^\s*(?:(?:pub|abbrev|unfoldable|abstract)\s+)*((?:[^\s(){}.;,@\"«»:]+ )*[^\s(){}.;,@\"«»:]+)(?:\s*\{[^{}]*\})*\s+:\s")
KINDS = re.compile(r"^\s*pub (?:record|data)|^\s*(?:record|data) ")


def snake(name):
    words = re.sub(r"(?<=[a-z0-9])([A-Z])", lambda m: "_" + m[1].lower(), name)
    return words.replace("-", "_")


def is_label_file(path):
    return os.path.basename(path) in ("Answers.antt", "Invariants.antt", "Proof.antt")


def without_comments(text, mark):
    return re.sub(r"(?m)(?:^|(?<=\s))" + mark + r"[^\n]*", lambda m: " " * len(m[0]), text)


def declared(texts):
    names = set()
    for path, text in texts.items():
        if not path.endswith(".antt") or is_label_file(path):
            continue
        for line in without_comments(text, "--").splitlines():
            m = DECLARED.match(line)
            if not m or KINDS.match(line):
                continue
            words = m[1].split()
            while words and words[0] in ("pub", "abbrev", "unfoldable", "abstract"):
                words = words[1:]
            names |= {w for w in words if re.match(r"[a-z]", w)}
    return names


def spellings(names):
    together = collections.defaultdict(set)
    for n in names:
        together[snake(n)].add(n)
    table = {}
    for new, olds in together.items():
        camel = {o for o in olds if re.search(r"[A-Z]", o)}
        plain = {o for o in olds if o == new}
        first = camel or plain or olds
        for o in olds:
            table[o] = OTHERS.get(o, new if o in first else new + "_lem")
    return {o: n for o, n in table.items() if o != n}


def split_code(text, mark):
    """The text as pieces: (is code, piece). Comments and string literals are no code."""
    pieces, at = [], 0
    for m in re.finditer(r'(?m)(?:(?:^|(?<=\s))' + mark + r'[^\n]*)|b?"(?:\\.|[^"\\\n])*"', text):
        pieces += [(True, text[at : m.start()]), (False, m[0])]
        at = m.end()
    return pieces + [(True, text[at:])]


def main(argv):
    own = {os.path.basename(c) for c in glob.glob("crates/*")}
    texts = {}
    for path in sorted(glob.glob("crates/**/*", recursive=True)):
        if path.endswith((".antt", ".rt", ".edit")) and "/out/" not in path:
            texts[path] = open(path, encoding="utf8").read()
    names = declared(texts)
    table = spellings(names)
    # A library's name in a file that imports it stays there.
    foreign = re.compile(r"\buse (?!Rattle\.(?:" + "|".join(sorted(own)) + r")\.)[\w.'-]+\.\{([^}]*)\}")
    bad = []
    back = collections.defaultdict(set)
    for n in names:
        back[table.get(n, n)].add(n)
    for new, olds in sorted(back.items()):
        if len(olds) > 1:
            bad.append(f"{' and '.join(sorted(olds))} both become {new}")
    out = {}
    for path, text in texts.items():
        mark = "--" if path.endswith(".antt") else "//"
        lent = set()
        for m in foreign.finditer(text):
            lent |= {w.strip().split(" as ")[-1] for w in m[1].split(",")}
        turn = {o: n for o, n in table.items() if o not in lent}
        labels = set()
        if path.endswith(".antt") and is_label_file(path):
            labels = {m[1] for m in re.finditer(r"(?m)^(?:abbrev )?pub (\S+) :", text)}
        pieces = split_code(text, mark)
        tokens = {t for code, p in pieces if code for t in TOKEN.findall(p)} - MIRRORED.get(path, set())
        met = collections.defaultdict(set)
        for old in tokens:
            met[turn.get(old, old)].add(old)
        bad += [f"{path}: {' meets '.join(sorted(o))}" for o in met.values() if len(o) > 1]

        def word(m):
            w = m[0]
            if w in labels:
                return w
            return turn.get(w, w)

        out[path] = "".join(TOKEN.sub(word, p) if code else p for code, p in pieces)
    for b in bad:
        print("meets:", b)
    print(f"{len(table)} names turn, {len(bad)} meet another")
    if bad or "--check" in argv:
        return 1 if bad else 0
    for path in ["README.md"] + sorted(glob.glob("docs/*.md")):
        text = open(path, encoding="utf8").read()
        out[path] = re.sub(r"`[^`\n]+`", lambda m: TOKEN.sub(lambda t: table.get(t[0], t[0]), m[0]), text)
    for path, text in out.items():
        if open(path, encoding="utf8").read() != text:
            open(path, "w", encoding="utf8").write(text)
    return 0


raise SystemExit(main(sys.argv[1:]))
