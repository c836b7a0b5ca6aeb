#!/usr/bin/env python3
"""Spells the repository's own definitions and lemmas in snake case.

usage: tools/respell.py [--check]      at the top of the repository, right after port.py

What it renames is what the files of crates/*/specs and crates/*/proofs declare (a function's own proof, Proof.antt, aside):
`wordAt` becomes `word_at`, a prime becomes an apostrophe, and a dash becomes `_`, but where it joins the names of two definitions.
Names of Rust's, strings, inputs and outputs stay. It stops where two names would fall together. --check writes nothing.
"""

import os
import re
import sys

NAME = r"[^\s(){}\[\].;:,@\"«»|`]+"
DECLARED = re.compile(r"(?m)^\s*(?:(?:pub|abbrev|unfoldable|ruleset) )*([a-z][^\s:{}().]*)(?: (?:\{[^}\n]*\}|\([^)\n]*\)))* :(?= |$)")
USE = re.compile(r"(?m)^\s*(?:pub |ghost )*use ([^\s;{]+)(?:\{([^}]*)\})?")
# std's words that a lemma's name may join to ours.
STD = {"length", "append", "drop", "take", "set", "get", "map", "sum", "count"}
# A lemma that would have its function's name.
OTHERWISE = {
    "all-inBytes": "all_in_bytes_lem",
    "copy-field": "copy_field_lem",
    "copy-group": "copy_group_lem",
    "free-row": "free_row_lem",
    "fresh-table": "fresh_table_lem",
    "is-raw": "is_raw_lem",
    "key-or-old": "key_or_old_lem",
    "letter-of": "letter_of_lem",
    "message-end": "message_end_lem",
    "read_named": "read_named_lem",
    "tuple_at": "tuple_at_lem",
    "until-zero": "until_zero_lem",
    "write-field": "write_field_lem",
    "write-fields": "write_fields_lem",
    "write-group": "write_group_lem",
    "write-part": "write_part_lem",
    "write-text": "write_text_lem",
    "write-value": "write_value_lem",
}


def texts(top):
    for folder, dirs, files in os.walk(top):
        dirs[:] = sorted(d for d in dirs if d not in ("out", "target", ".git", "wip"))
        for f in sorted(files):
            yield os.path.join(folder, f)


def read(path):
    with open(path, encoding="utf-8", newline="") as f:
        return f.read()


def snake(name):
    return re.sub(r"(?<=[a-z0-9])[A-Z]+", lambda m: "_" + m[0].lower(), name).replace("′", "'")


def joined(name, words):
    """The name with `_` for each dash that doesn't join the names of two definitions."""
    parts = [snake(p) for p in name.split("-")]
    out = [parts[0]]
    for p in parts[1:]:
        if out[-1] in words and p in words:
            out.append(p)
        else:
            out[-1] += "_" + p
    return "-".join(out)


def is_lemma_file(path):
    return path.endswith(".antt") and not path.endswith("/Proof.antt")


def main(argv):
    files = [p for p in texts("crates")]
    declared, defined = {}, set()
    for p in files:
        if is_lemma_file(p):
            for n in DECLARED.findall(read(p)):
                declared.setdefault(n, set()).add(p)
                if "/specs/" in p:
                    defined.add(snake(n))
    words = {w for w in defined if "-" not in w} | STD
    new = {}
    for n in declared:
        to = OTHERWISE.get(n) or joined(n, words)
        if to != n:
            new[n] = to
    clash = 0
    by_new = {}
    for n in sorted(declared):
        by_new.setdefault(new.get(n, n), []).append(n)
    for to, olds in sorted(by_new.items()):
        if len(olds) > 1:
            clash += 1
            print("fall together:", to, {o: sorted(declared[o]) for o in olds})
    if clash:
        return 1
    if "--check" in argv:
        for n, to in sorted(new.items()):
            print(n, to)
        return 0
    token = re.compile(r"(?<![^\s(){}\[\].;:,@\"«»|`])" + NAME)
    changed = 0
    for p in files + [q for q in texts("docs") if q.endswith(".md")] + ["README.md"]:
        if not p.endswith((".antt", ".rt", ".edit", ".md")):
            continue
        t = read(p)
        skip = set()
        only = None
        if p.endswith(".antt"):
            own, others = set(DECLARED.findall(t)), set()
            for where, names in USE.findall(t):
                ns = {x.strip().split(" as ")[0] for x in names.split(",")} if names else set()
                if re.match(r"Rattle\.(?!(std|core)\b)", where):
                    others |= ns
                else:
                    skip |= ns
            if p.endswith("/Proof.antt"):
                only = others
        if p.endswith((".rt", ".md")):
            # A dash in code or prose is no part of a name but in what antt reads.
            only = {n for n in new if "-" not in n}

        def turned(m):
            n = m[0]
            if n in new and n not in skip and (only is None or n in only or (p.endswith("/Proof.antt") and "-" not in n and n not in own)):
                return new[n]
            return n

        out = token.sub(turned, t)
        if p.endswith(".rt"):
            out = re.sub(r"(?m)^\s*ghost use [^;]*;", lambda m: token.sub(lambda k: new.get(k[0], k[0]), m[0]), out)
        if p.endswith(".md"):
            out = re.sub(r"`[^`\n]+`", lambda m: token.sub(lambda k: new.get(k[0], k[0]), m[0]), out)
        if out != t:
            changed += 1
            with open(p, "w", encoding="utf-8", newline="") as f:
                f.write(out)
    print(f"{len(new)} names, {changed} files")
    return 0


if __name__ == "__main__":
    raise SystemExit(main(sys.argv[1:]))
