#!/usr/bin/env python3
"""Respells the repository's own names, once, after the kit's port.py.

usage: python3 tools/respell.py [--dry | --names]        at the top of the checkout

Definitions, lemmas, fields, constructors and bound names of specs/ and proofs/ that were written with dashes get
underscores, and types among them camel case. Names of libraries, names that the check makes (goals, steps) and
everything in src/ but its clauses keep their spelling.
"""

import collections
import os
import re
import sys

NAME = r"[A-Za-z][\w']*(?:-[\w']+)+"
TOKEN = re.compile(r"(?<![\w'·-])(" + NAME + r")(?![\w'-])")
# Where the check makes names: after `goal.`, in imports from Goals and Given, and as steps and joins.
MADE_HEAD = re.compile(r"^(returns|loop|invariant|decreases|overflow|overflow_\w+|bounds|nonzero|invariant_of|slice_bounds)-")
MADE_TAIL = re.compile(r"-requires(-|$)")
MADE_STEP = re.compile(r"^(if|else|then|in)-")
# Clause words of a source file whose braces hold antt.
CLAUSE = re.compile(r"^\s*(ghost|requires|ensures|ensures\*|requires\*|law)\b")


def files(kinds):
    for root, dirs, names in os.walk("crates"):
        dirs[:] = sorted(d for d in dirs if d != "out")
        for name in sorted(names):
            if name.endswith(kinds):
                yield os.path.join(root, name)


def code_of(line):
    at = line.find("--")
    while at > 0 and line[at - 1] not in " \t":
        at = line.find("--", at + 2)
    return (line, "") if at < 0 else (line[:at], line[at:])


def imports_of(text):
    """The names that a file takes from libraries of the kit."""
    found = set()
    for line in text.splitlines():
        m = re.match(r"\s*(?:pub )?(?:ghost )?use ([\w.'·+]+)\.\{([^}]*)\}", line)
        if m and re.match(r"Rattle\.std\b|Prim\b|mathlib\b|native\b|lib\b|antt\b|denote\b", m.group(1)):
            found |= set(TOKEN.findall(m.group(2)))
    return found


def made_in(text):
    """The names that the check makes and a file cites."""
    found = set(re.findall(r"\bgoal\.(" + NAME + ")", text))
    for m in re.finditer(r"\.(?:Goals|Given)\.\{([^}]*)\}", text):
        found |= set(TOKEN.findall(m.group(1)))
    return found


def declared_in(text):
    found = set()
    for line in text.splitlines():
        code, _ = code_of(line)
        m = re.match(r"\s*(?:(?:pub|abbrev|unfoldable|private|irreducible)\s+)*(" + NAME + r")\s*:(?!.*\bgoal\.)", code)
        if m:
            found.add(m.group(1))
        m = re.match(r"\s*(?:pub\s+)?(?:record|data)\s+(" + NAME + ")", code)
        if m:
            found.add(m.group(1))
        # bound names: (a b-c : T), λ a-b. and let a-b = or let a-b :
        for m in re.finditer(r"[({]([^(){}:=]*) : ", code):
            found |= set(TOKEN.findall(m.group(1)))
        for m in re.finditer(r"λ ([^.]*)\.", code):
            found |= set(TOKEN.findall(m.group(1)))
        for m in re.finditer(r"\blet (" + NAME + r")\s*[:=]", code):
            found.add(m.group(1))
    return found


def respelt(name):
    parts = name.split("-")
    if name[0].isupper():
        return "".join(p[0].upper() + p[1:] for p in parts)
    return "_".join(p[0].lower() + p[1:] for p in parts)


def main():
    dry = "--dry" in sys.argv
    own, library, made = set(), set(), set()
    texts = {p: open(p, encoding="utf-8").read() for p in files((".antt", ".rt"))}
    for path, text in texts.items():
        library |= imports_of(text)
        if path.endswith(".antt"):
            made |= made_in(text)
            own |= declared_in(text)
    own -= library
    both = {n for n in own & made}
    own -= made
    doubtful = {n for n in own if MADE_HEAD.match(n) or MADE_TAIL.search(n) or MADE_STEP.match(n)}
    names = {n: respelt(n) for n in own}
    taken = set(re.findall(r"[A-Za-z_][\w']*", "\n".join(code_of(l)[0] for p, t in texts.items() if p.endswith(".antt") for l in t.splitlines())))
    together = collections.defaultdict(list)
    for old, new in names.items():
        together[new].append(old)
    for new, olds in sorted(together.items()):
        if len(olds) > 1 or new in taken:
            print("falls together:", new, olds, "taken" if new in taken else "")
    left = set()
    for path, text in texts.items():
        if path.endswith(".antt"):
            for line in text.splitlines():
                left |= set(TOKEN.findall(code_of(line)[0]))
    left -= own | library | made
    print("own and made:", sorted(both))
    print("doubtful:", sorted(doubtful))
    print("not declared here:", sorted(left))
    print(len(names), "names")
    if "--names" in sys.argv:
        for old, new in sorted(names.items()):
            print(old, new)
        return
    if dry:
        return
    for path, text in texts.items():
        out = []
        inside = path.endswith(".antt")
        for line in text.splitlines(keepends=True):
            code, comment = code_of(line) if inside else (line, "")
            comment = re.sub(r"`[^`]*`", lambda m: TOKEN.sub(lambda t: names.get(t.group(1), t.group(1)), m.group(0)), comment)
            if inside or CLAUSE.match(line) or "ghost" in line:
                code = TOKEN.sub(lambda m: names.get(m.group(1), m.group(1)), code)
            out.append(code + comment)
        new = "".join(out)
        if new != text:
            with open(path, "w", encoding="utf-8") as f:
                f.write(new)


main()
