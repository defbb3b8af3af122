#!/usr/bin/env python3
"""Brings the names of this repository's own definitions and lemmas to today's spelling.

usage: python3 tools/respell.py        at the top of the repository, once, after port.py

A definition, constructor, field or lemma of specs/ and proofs/ goes to snake case. A dash stays where it
joins the names of two definitions that laws are about, as in length-read_run; elsewhere it becomes '_'.
A lemma that would get the name of a definition ends in '_lem'. Facts and types keep their capital. Names of
src/ and names that Rattle makes (proofs/F/, 'goal.NAME') stay as they are. The edits in must-fail/ follow.
"""

import os
import re
import sys

TOP = "crates"
# what the laws of this repository are about
JOINED = {"length", "get_or", "set", "used", "unused", "read_run", "write_run", "decoded", "upset", "put_mid", "bounded", "append"}
# a lemma whose name a definition takes
NAMED = {"no_table": "with_table_past"}
WORD = r"[\w'′₀-₉][\w'′₀-₉-]*"
TOKEN = re.compile(r"(?<![\w'′-])" + WORD)
DECLARED = re.compile(r"^(\s*)((?:(?:pub|abbrev|unfoldable|record|data|axiom)\s+)*)(" + WORD + r")((?:\s*[({][^(){}]*(?:\{[^{}]*\}|\([^()]*\)|[^(){}])*[)}])*)\s*:\s(.*)")
FIELDS = re.compile(r"^\s*(?:pub\s+)?(" + WORD + r")\s*:\s")
IMPORT = re.compile(r"^(?:pub\s+|ghost\s+)?use\s+(Rattle\.\w+)\.[^{]*\{([^}]*)\}")


def files():
    for folder, dirs, names in os.walk(TOP):
        dirs[:] = sorted(d for d in dirs if d != "out")
        for name in sorted(names):
            if name.endswith((".antt", ".rt", ".edit")):
                yield os.path.join(folder, name)


def read(path):
    with open(path, encoding="utf-8") as f:
        return f.read()


def snake(part):
    return re.sub(r"([a-z0-9])([A-Z])", r"\1_\2", part).lower()


def is_camel(part):
    return bool(re.search(r"[a-z0-9][A-Z]", part)) and part[:1].islower()


def main():
    texts = {p: read(p) for p in files()}
    library, own, rust = set(), {}, set()
    for path, text in texts.items():
        for line in text.splitlines():
            m = IMPORT.match(line)
            if m and m.group(1) == "Rattle.std":
                library |= {n.strip().split(" as ")[0] for n in m.group(2).split(",")}
        if path.endswith(".rt"):
            code = re.sub(r'"[^"\n]*"', '""', text)
            rust |= set(re.findall(r"(?:fn|const|static|struct|enum|trait|mod|type|let|let mut|ghost)\s+(\w+)", code))
            rust |= set(re.findall(r"\b(\w+)\s*:", code))
        if path.endswith(".antt"):
            for line in text.splitlines():
                m = DECLARED.match(line)
                if m and not m.group(5).startswith("goal."):
                    own.setdefault(m.group(3), path)
    turned = {old: new for old, new in NAMED.items() if old in own}
    definitions = {snake(n) if is_camel(n) else n for n in own if "-" not in n and n not in turned}
    for name in sorted(own):
        if name in library or name in rust or name in turned:
            continue
        parts = [snake(p) if is_camel(p) else p for p in name.split("-")]
        parts = ["get_or" if p == "get_d" else p for p in parts]
        out = parts[0]
        for before, after in zip(parts, parts[1:]):
            out += ("-" if before in JOINED and after in JOINED else "_") + after
        if "-" in name and out in definitions:
            out += "_lem"
        if out != name:
            turned[name] = out
    # names that fall together, or with a name that specs and proofs use already
    tokens = set()
    for path, text in texts.items():
        if path.endswith(".antt"):
            tokens |= {t for line in text.splitlines() if not re.match(r"(pub )?use .*\.(Goals|Given) as goal", line) for t in TOKEN.findall(line)}
    into = {}
    for old, new in sorted(turned.items()):
        into.setdefault(new, []).append(old)
    bad = False
    for new, olds in sorted(into.items()):
        if len(olds) > 1:
            print(f"together: {olds} -> {new}")
            bad = True
        if new in tokens and new not in turned:
            print(f"taken: {olds[0]} -> {new}")
            bad = True
    if "--list" in sys.argv:
        for old, new in sorted(turned.items()):
            print(f"{old} -> {new}")
    if bad and "--anyway" not in sys.argv:
        print("nothing was changed")
        raise SystemExit(1)
    if "--list" in sys.argv:
        return
    changed = 0
    for path, text in texts.items():
        out = []
        for line in text.split("\n"):
            keep = re.match(r"^\s*(//|--|pub goal|file:)", line)
            if path.endswith(".rt") and keep:
                out.append(line)
                continue
            out.append(TOKEN.sub(lambda m: turned.get(m.group(0), m.group(0)), line))
        new = "\n".join(out)
        if new != text:
            with open(path, "w", encoding="utf-8") as f:
                f.write(new)
            changed += 1
    print(f"{len(turned)} names, {changed} files")


main()
