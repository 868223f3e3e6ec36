#!/usr/bin/env python3
"""Respells the repository's own names in specs/, proofs/ and the clauses of src/: functions, lemmas and fields in snake case, facts in camel case.

usage: python3 tools/snake_names.py        at the top, once, after the kit's own scripts

It takes the names that specs/ and proofs/ declare, leaves the names of goals, and of Rust functions, and stops where two names would fall together.
"""

import os
import re
import sys

# A lemma that would get the name of its definition or of the function that promises it, and tests that would get the name of their lemma.
BESIDE = {
    "on-set": "on_set_lem",
    "refusal-of": "refusal_of_lem",
    "with-table": "with_table_lem",
    "phase-in": "phase_in_lem",
    "demand-rises": "demand_rises_lem",
    "drives-are-runs": "drives_are_runs_lem",
    "figure-exists": "figure_exists_lem",
    "figure-unique": "figure_unique_lem",
    "hits-by-division": "hits_by_division_lem",
    "plans-are-lawful": "plans_are_lawful_lem",
    "reach-bounded": "reach_bounded_lem",
    "reach-exists": "reach_exists_lem",
    "reach-jumps": "reach_jumps_lem",
    "reach-unique": "reach_unique_lem",
    "reach-within": "reach_within_lem",
    "runs-exist": "runs_exist_lem",
    "service-drains": "service_drains_lem",
    "service-exists": "service_exists_lem",
    "steps-are-rounds": "steps_are_rounds_lem",
    "sameNumber": "is_same_number",
    "sameOutcome": "is_same_outcome",
}
IMPORT = re.compile(r"use Rattle\.std[^{\n]*\{([^}]*)\}")
DECLARED = re.compile(r"^\s*(?:abbrev |unfoldable |pub |data |record )*([^\s(){}\[\]:;,.|=]+)(?=[^=]*:\s)")
TOKEN = re.compile(r"[^\s(){}\[\];,.\"|]+")
STRING = re.compile(r'"(?:[^"\\]|\\.)*"')


def files(ending):
    for folder, dirs, names in os.walk("crates"):
        dirs[:] = sorted(d for d in dirs if d != "out")
        for name in sorted(names):
            if name.endswith(ending):
                yield os.path.join(folder, name)


def text_of(path):
    with open(path, encoding="utf-8") as f:
        return f.read()


def declared():
    found = set()
    for path in files(".antt"):
        for line in text_of(path).split("\n"):
            if line.lstrip().startswith("--") or ": goal." in line:
                continue
            m = DECLARED.match(line)
            if m:
                found.add(m.group(1))
    return found


def respelled(name):
    if name in BESIDE:
        return BESIDE[name]
    name = name.replace("′", "'")
    if name[0].isupper():
        parts = name.split("-")
        return parts[0] + "".join(p[:1].upper() + p[1:] for p in parts[1:])
    name = name.replace("-", "_")
    return re.sub(r"(?<=[a-z0-9])([A-Z])", lambda m: "_" + m.group(1).lower(), name)


def turned(text, names):
    return TOKEN.sub(lambda m: names.get(m.group(0), m.group(0)), text)


def turned_code(text, names):
    out, at = [], 0
    for m in STRING.finditer(text):
        out += [turned(text[at : m.start()], names), m.group(0)]
        at = m.end()
    return "".join(out + [turned(text[at:], names)])


def main():
    words = re.compile(r"^[A-Za-z][A-Za-z0-9'′]*(-[A-Za-z0-9'′]+)*$")
    names = {n: respelled(n) for n in declared() if words.match(n)}
    names = {n: m for n, m in names.items() if n != m}
    taken = declared()
    for path in list(files(".antt")) + list(files(".rt")):
        for m in IMPORT.finditer(text_of(path)):
            taken |= {w.strip() for w in m.group(1).split(",")}
    meet = {}
    for n, m in names.items():
        meet.setdefault(m, []).append(n)
    bad = [f"{sorted(ns)} -> {m}" for m, ns in meet.items() if len(ns) > 1]
    bad += [f"{n} -> {m}, which is there" for n, m in names.items() if m in taken]
    for line in sorted(bad):
        print("falls together: " + line)
    if bad and "--force" not in sys.argv:
        sys.exit(1)
    for path in list(files(".antt")) + list(files(".rt")):
        old = text_of(path)
        new = turned(old, names) if path.endswith(".antt") else turned_code(old, names)
        if new != old:
            with open(path, "w", encoding="utf-8") as f:
                f.write(new)
    print(f"{len(names)} names")
    if "--list" in sys.argv:
        for n in sorted(names):
            print(n, names[n])


main()
