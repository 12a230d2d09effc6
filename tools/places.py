#!/usr/bin/env python3
"""Lists where today's forms may serve better than what stands: tools/places.py POINT [-c] [FOLDER]

POINT is 1 to 8; -c prints counts by crate alone; FOLDER is another checkout. It goes over the code of every crate and
finds by text, so that each line is a candidate, which a reader then judges; docs/DESIGN-PASS.md says what came of each.
"""
import collections
import pathlib
import re
import sys

ROOT = pathlib.Path(__file__).resolve().parent.parent


def code():
    """Every line of code with its file and number; comments and ghost lines are none."""
    for path in sorted(ROOT.glob("crates/*/src/**/*.rt")):
        for n, line in enumerate(path.read_text().splitlines(), 1):
            bare = line.strip()
            if bare and not bare.startswith("//") and not bare.startswith("ghost use"):
                yield path.relative_to(ROOT), n, line


def lines(*patterns):
    for path, n, line in code():
        if any(re.search(p, line) for p in patterns):
            yield path, n, line.strip()


def functions():
    """Every function with its body, names of locals and types kept."""
    for path in sorted(ROOT.glob("crates/*/src/**/*.rt")):
        text = path.read_text()
        for m in re.finditer(r"^( *)(?:pub(?:\(crate\))? )?fn (\w+)", text, re.M):
            end = text.find("\n" + m.group(1) + "}\n", m.start())
            if end < 0:
                end = text.find(";\n", m.start())
            part = text[m.start():end]
            body = re.split(r"\n" + m.group(1) + r"\{\n", part, maxsplit=1)
            if len(body) == 1:
                body = part.split("{\n", 1)
            n = text.count("\n", 0, m.start()) + 1
            shape = re.sub(r"\s+", "", body[1] if len(body) > 1 else "")
            yield path.relative_to(ROOT), n, m.group(2), shape


def own_enums():
    """1: enums of our own, errors that are numbers, flags in tuples, numbers for kinds, results that are numbers."""
    yield from lines(
        r"\benum \w+",
        r"Result<.*, (u8|u16|u32|u64|usize)>",
        r"\((bool|u8|u16|usize), (bool|u8|u16|usize)\)",
        r"\bconst [A-Z_]+: u(8|16|32|64) = ",
        r"-> u8\b",
        r"\w+: bool,",
    )


def twins():
    """2: functions of one name in several crates or impls, and functions of one body."""
    named = collections.defaultdict(list)
    shaped = collections.defaultdict(list)
    for path, n, name, shape in functions():
        if "tests" in path.parts[1] and path.name == "tests.rt" and name not in ("id", "push_field", "push_pair"):
            continue
        named[name].append((path, n))
        if len(shape) > 12:
            shaped[shape].append((path, n, name))
    for name, places in sorted(named.items()):
        if len(places) > 1 and name not in ("main", "fmt"):
            for path, n in places:
                yield path, n, "named " + name
    for shape, places in sorted(shaped.items(), key=lambda x: x[1]):
        if len(places) > 1:
            for path, n, name in places:
                yield path, n, "bodied " + name


def loops():
    """3: loops with no iterator over what they read, and loops over a range of numbers."""
    yield from lines(r"\bwhile ", r"\bloop \{", r"\bfor \w+ in [^{]*\.\.", r"\.enumerate\(\)")


def by_hand():
    """4: comparisons, conversions and printing that a derive or a trait could say."""
    yield from lines(
        r"\bimpl (PartialEq|Eq|PartialOrd|Ord|Clone|Copy|Debug|Default|Hash) for",
        r"\bfn (same|is_same|first|sooner|is_itself)\b",
        r"\bfn (number|which|flag|tag_of|\w*_of|id|hex|digit|push_hex|denied|done|have|told|algorithm\w*|say_\w+)\b.*\)",
        r"\(b >> 4\)|b / 16",
        r"copy_from_slice",
    )


def facts():
    """5: clauses that stand three times or more, and parameters that travel together through three functions or more."""
    clauses = collections.defaultdict(list)
    pairs = collections.defaultdict(list)
    for path, n, line in code():
        m = re.match(r"\s*(?:requires|ensures)\s*\w*\s*\{(.*)\}\s*$", line)
        if m:
            clauses[m.group(1).strip()].append((path, n))
    for path in sorted(ROOT.glob("crates/*/src/**/*.rt")):
        text = path.read_text()
        for m in re.finditer(r"^ *(?:pub(?:\(crate\))? )?fn \w+(?:<[^(]*>)?\(([^)]*)\)", text, re.M):
            names = [p.split(":")[0].strip() for p in m.group(1).split(",") if ":" in p]
            n = text.count("\n", 0, m.start()) + 1
            for i, a in enumerate(names):
                for b in names[i + 1:]:
                    pairs[(a, b)].append((path.relative_to(ROOT), n))
    for clause, places in sorted(clauses.items(), key=lambda x: -len(x[1])):
        if len(places) >= 3:
            for path, n in places:
                yield path, n, clause
    for (a, b), places in sorted(pairs.items(), key=lambda x: -len(x[1])):
        if len(places) >= 3:
            for path, n in places:
                yield path, n, "parameters " + a + ", " + b


def buffers():
    """6: lengths and indices beside buffers, slices searched by hand, links that are numbers."""
    yield from lines(
        r"^\s+(pub(\(crate\))? )?(len|used|linked|limit|next|first|head|count|room): (usize|u64|u32|u16),",
        r"\.contains\(&",
        r"(calls|replies): (&|Vec)",
        r"shown: ",
        r"parents: &",
    )


def switches():
    """7: a choice of which code to run by a value that the caller passes."""
    yield from lines(r"Algorithm::\w+\)? (=>|, calls\) =>)", r"Algorithm::(Noop|Consecutive|Skipping), calls", r"Mark::\w+", r"Ancestors::\w+", r"Mode::\w+")


def proofs():
    """8: answers that say no more than the search, and answers or lemmas of one body that stand three times or more."""
    bodies = collections.defaultdict(list)
    for path in sorted(ROOT.glob("crates/*/proofs/**/*.antt")):
        text = path.read_text()
        for m in re.finditer(r"^(?:abbrev )?pub (\S+) :[^\n]*\n((?:\1[^\n]*\n(?:[ \t]+[^\n]*\n)*)+)", text, re.M):
            name, body = m.group(1), m.group(2)
            _, _, right = body.partition("=")
            shape = re.sub(r"\s+", " ", right.strip())
            n = text.count("\n", 0, m.start()) + 1
            if path.name == "Answers.antt" and shape in ("search rules", "search (rules)", "refl", "tt"):
                yield path.relative_to(ROOT), n, name + " = " + shape
            elif path.name != "Invariants.antt" and len(shape) > 20:
                bodies[shape].append((path.relative_to(ROOT), n, name))
    for shape, places in sorted(bodies.items(), key=lambda x: -len(x[1])):
        if len(places) >= 3:
            for path, n, name in places:
                yield path, n, name + " = " + shape[:90]


POINTS = [own_enums, twins, loops, by_hand, facts, buffers, switches, proofs]


def main():
    global ROOT
    words = [word for word in sys.argv[1:] if word != "-c"]
    if len(words) > 1:
        ROOT = pathlib.Path(words[1])
    found = list(POINTS[int(words[0]) - 1]())
    if "-c" in sys.argv:
        by_crate = collections.Counter(path.parts[1] for path, _, _ in found)
        print(f"{len(found)}:", ", ".join(f"{c} {k}" for c, k in sorted(by_crate.items())))
    else:
        for path, n, text in found:
            print(f"{path}:{n}: {text}")
        print(len(found))


if __name__ == "__main__":
    main()
