#!/usr/bin/env python3
"""Brings the repository's own definitions and lemmas to the spelling of today's Rattle.

usage: python3 tools/respell.py        at the top of the repository, once, after the toolchain's port.py

Words are in snake case, facts and types in camel case. Renamed are names that specs/ and proofs/ declare: definitions, lemmas,
constructors and fields. Names of goals, which the checker makes, names of functions, strings and outputs stay as they are.
It prints each renaming, and stops before it writes where two names would fall together.
"""

import os
import re
import sys

WORD = r"[A-Za-z0-9_'ℕℤ+\-α-ωΑ-Ω₀-₉]"
TOKEN = re.compile(r"(?<!" + WORD + r")[A-Za-z]" + WORD + r"*")
TOP = re.compile(r"^(?:abbrev |unfoldable |pub |data |record |ruleset )*([A-Za-z][^\s:({]*)\s+:", re.M)
HEAD = re.compile(r"^(?:abbrev |unfoldable )?(?:pub )?(?:data|record) ([A-Za-z][^\s:({]*)", re.M)
PART = re.compile(r"^  (?:pub )?([A-Za-z][^\s:({]*)\s+:", re.M)
INNER = re.compile(r"^ {2,}(?:abbrev |unfoldable |pub )*([A-Za-z][^\s:({]*[-A-Z][^\s:({]*)\s+:\s", re.M)
GOAL = re.compile(r"^(?:abbrev |unfoldable |pub )*([A-Za-z][^\s:({]*)\s+:\s*goal\.", re.M)

# Names that would fall together with another one, or with a variable of the same spelling.
CHOSEN = {"ids-of": "ids_of_lem", "name-at": "name_at_lem", "off": "IsOff", "all": "AllBelow", "sameId": "is_same_id"}


def files():
    for folder, dirs, names in os.walk("crates"):
        dirs[:] = sorted(d for d in dirs if d not in ("out", "target", "must-fail"))
        for name in sorted(names):
            if name.endswith((".antt", ".rt")):
                yield os.path.join(folder, name)


def read(path):
    with open(path, encoding="utf-8") as f:
        return f.read()


def blocks(text):
    """The parts of a text that are the body of a `data` or `record` declaration."""
    for m in re.finditer(r"^(?:abbrev |unfoldable )?(?:pub )?(?:data|record)[^\n]*where\n((?:[ \t]+[^\n]*\n|\n)*)", text, re.M):
        yield m.group(1)


def spelled(name, is_type):
    if name in CHOSEN:
        return CHOSEN[name]
    parts = [p for p in re.split(r"[-+]", name) if p]
    if name.isupper() or re.fullmatch(r"[A-Z0-9+\-_]+", name):
        return "_AND_".join("_".join(p for p in q.split("-") if p) for q in name.split("+"))
    if is_type:
        return "".join(p[:1].upper() + p[1:] for p in re.split(r"[-+_]", name) if p)
    out = []
    for p in parts:
        out.append(re.sub(r"(?<=[a-z0-9])([A-Z])", lambda m: "_" + m.group(1).lower(), p))
    return "_".join(out)


def main():
    tops, members, goals, types, local = set(), set(), set(), set(), {}
    texts = {p: read(p) for p in files()}
    for path, text in texts.items():
        if not path.endswith(".antt"):
            continue
        answers = os.path.basename(path) in ("Answers.antt", "Invariants.antt")
        mine = set(GOAL.findall(text)) if answers else set()
        goals |= mine
        heads = set(HEAD.findall(text))
        types |= heads
        here = (set(TOP.findall(text)) | heads) - mine
        for m in re.finditer(r"^(?:abbrev |unfoldable |pub )*([A-Za-z][^\s:({]*)\s+:[^\n]*→ Type 0$|^(?:abbrev |unfoldable |pub )*([A-Za-z][^\s:({]*) : Type 0$", text, re.M):
            types.add(m.group(1) or m.group(2))
        here |= set(INNER.findall(text)) - mine
        if answers:
            local[path] = here
        else:
            tops |= here
        for block in blocks(text):
            members |= set(PART.findall(block))
    table = {}
    for name in sorted(tops | members | set().union(*local.values()) if local else tops | members):
        new = spelled(name, name in types and name not in members)
        if new != name:
            table[name] = new
    # A goal's name is the checker's: a helper of a proof file that has one's name keeps it.
    for name in list(table):
        if name in goals:
            print(f"kept, a goal has this name: {name}")
            if name not in tops and name not in members:
                del table[name]
    known = tops | members | set().union(*local.values())
    bad = False
    seen = {}
    words = {w for text in texts.values() for w in TOKEN.findall(text)}
    for name, new in sorted(table.items()):
        if new in words:
            print(f"look: {name} -> {new}, which stands in a text already")
    for name, new in sorted(table.items()):
        if new in known or new in seen:
            print(f"falls together: {name} -> {new}")
            bad = True
        seen[new] = name
    if bad:
        return 1
    changed = 0
    for path, text in texts.items():
        answers = os.path.basename(path) in ("Answers.antt", "Invariants.antt", "Proof.antt")
        # A plain word, as `all`, is also a variable elsewhere: it changes only in the file that declares it.
        mine = {n: w for n, w in table.items() if not re.fullmatch(r"[a-z]+", n) or re.search(rf"^(?:abbrev )?(?:pub )?{n} : [^\n]*→ Type 0$", text, re.M)}
        new = respell(path, text, mine, goals, members, answers)
        if new != text:
            with open(path, "w", encoding="utf-8") as f:
                f.write(new)
            changed += 1
    for name, new in sorted(table.items()):
        print(f"{name} -> {new}")
    print(f"respelled {len(table)} names in {changed} files")
    return 0


def respell(path, text, table, goals, members, answers):
    rust = path.endswith(".rt")
    out = []
    for line in text.split("\n"):
        code, note = line, ""
        cut = line.find("//" if rust else "--")
        if cut >= 0 and (cut == 0 or line[cut - 1] == " "):
            code, note = line[:cut], line[cut:]
        if rust and '"' in code:
            out.append(line)
            continue

        def turn(m):
            name = m.group(0)
            if name not in table:
                return name
            before = code[: m.start()]
            path_head = re.search(r"([A-Za-z_'ℕ0-9\-]+)(?:\.[A-Za-z_'ℕ0-9\-]+)*\.$", before)
            if answers and path_head and path_head.group(1) in ("c", "l", "goal", "w", "Goals", "Given") and name not in members:
                return name
            if answers and name in goals and (path_head or re.match(r"^(abbrev |pub )*$", before)):
                return name
            return table[name]

        out.append(TOKEN.sub(turn, code) + note)
    return "\n".join(out)


if __name__ == "__main__":
    sys.exit(main())
