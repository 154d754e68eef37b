#!/usr/bin/env python3
"""Brings the repository's own names to today's spelling: definitions, lemmas, constructors and fields in snake case, as `read_value` for
`readValue` and `take_next` for `take-next`. Types, modules, functions of src/ and what Rattle generates keep their names.

usage: python3 tools/port_names.py [--say]      at the top, once, after port.py, with nothing of it turned yet

It goes by words: a word is turned where it is one of the repository's own, that is, declared in specs/ or proofs/. Where two own names would fall
together, a lemma gets `_lem` and a module's other name `_fn`. It turns specs/, proofs/, the clauses of src/ and the must-fail edits.
"""
import collections
import os
import re
import sys

WORD = re.compile(r"[^\W\d][\w']*(?:-[\w']+)*")
CAMEL = re.compile(r"^[a-z][\w'-]*[A-Z]")
MADE = re.compile(r"^(invariant|decreases)-")
LIBRARIES = ("borrow", "contract", "denote", "lib", "mathlib", "native", "Prim", "array", "logic")


def files(ends):
    for folder, dirs, names in os.walk("crates"):
        dirs[:] = sorted(d for d in dirs if d != "out")
        for n in sorted(names):
            if n.endswith(ends):
                yield os.path.join(folder, n)


def snake(n):
    return re.sub(r"(?<=[a-z0-9])([A-Z])", lambda m: "_" + m[1].lower(), n).replace("-", "_")


def own_names(texts):
    """Each name that specs/ and proofs/ declare, with its files; and for each file the names that it takes from a library."""
    own, taken = collections.defaultdict(set), collections.defaultdict(set)
    for p, t in texts.items():
        for path, items, other in re.findall(r"(?m)^use ([^\s{]+?)(?:\.\{([^}]*)\})?(?: as (\S+))?$", t):
            if not path.startswith("Rattle.") or path.startswith("Rattle.std"):
                taken[p] |= {i.strip().split(" as ")[-1] for i in items.split(",")}
            for n in [other, *re.findall(r" as ([^\s,]+)", items)]:
                if n and path.startswith("Rattle.") and not path.startswith("Rattle.std"):
                    own[n].add(p + ":alias")
        for line in t.split("\n"):
            line = re.sub(r"--.*", "", line)
            m = re.match(r"^\s*(?:(?:abbrev|unfoldable|pub|let|in|ruleset)\s+)*([^\s(){};,.:λ=]+)\s*(?:\{[^}]*\})?\s*:(?!=)", line)
            m = m or re.match(r"^\s*(?:(?:abbrev|unfoldable|pub)\s+)*(?:record|data|ruleset)\s+([^\s(){};,.:λ=]+)", line)
            for n in ([m[1]] if m else []) + re.findall(r"\blet ([^\s(){};,.:λ=]+)", line):
                own[n].add(p)
    return own, taken


def table(own):
    """What each own name becomes."""
    groups = collections.defaultdict(list)
    for n in own:
        groups[snake(n) if n[0].islower() else n].append(n)
    new = {}
    for to, names in groups.items():
        first = next((n for n in names if any("/specs/" in p for p in own[n])), None) or next((n for n in names if CAMEL.match(n)), names[0])
        for n in names:
            if len(names) > 1 and n != first:
                new[n] = to + ("_fn" if all(":alias" in p for p in own[n]) else "_lem")
            else:
                new[n] = to
    return {n: to for n, to in new.items() if n != to and not MADE.match(n)}


def turn(text, new, skip, steps, clauses_only):
    """The text with its own words turned. In a walk (`steps`) a word with a dash behind a dot is a step of the code, and stays."""
    out = []
    for line in text.split("\n"):
        code, dashes, note = (line.partition("//") if clauses_only else line.partition("--"))

        def word(m, note=False):
            n = m[0]
            to = new.get(n)
            if to is None or n in skip:
                return n
            before = m.string[: m.start()]
            if note and not CAMEL.match(n) and not before.endswith("`"):
                return n
            if clauses_only and not CAMEL.match(n):
                return n
            if before.endswith("."):
                root = re.search(r"([\w'·-]+)(?:\.[\w'·-]+)*\.$", before)
                if root and root[1] in LIBRARIES:
                    return n
                if steps and not CAMEL.match(n):
                    return n
            return to

        if re.match(r"\s*use (?!Rattle\.(?!std))", code):
            out.append(line)
            continue
        out.append(WORD.sub(word, code) + dashes + WORD.sub(lambda m: word(m, True), note))
    return "\n".join(out)


def main():
    texts = {p: open(p, encoding="utf-8").read() for p in files(".antt")}
    own, taken = own_names(texts)
    for p in files(".rt"):
        for n in re.findall(r" as (\w+)[,}]", "".join(re.findall(r"(?m)^ghost use Rattle\.(?!std).*$", open(p, encoding="utf-8").read()))):
            own[n].add(p + ":alias")
    new = table(own)
    if "--say" in sys.argv:
        for n, to in sorted(new.items()):
            if to != snake(n):
                print(n, "->", to, *sorted(own[n]))
        return
    turned = 0
    # a lemma that already reads as a definition is about to: only where the lemma itself is meant
    plain = {n for n in new if "-" not in n and not CAMEL.match(n)}
    for p, t in texts.items():
        skip = set(taken[p])
        for n in plain:
            if p not in own[n] and not re.search(r"(?m)^use Rattle\.\w+\.proofs\.[^{\n]*\{[^}\n]*\b%s\b" % re.escape(n), t):
                skip.add(n)
        u = turn(t, new, skip, p.endswith("Proof.antt"), False)
        if u != t:
            open(p, "w", encoding="utf-8").write(u)
            turned += 1
    for p in list(files(".rt")) + list(files(".edit")):
        t = open(p, encoding="utf-8").read()
        of_proof = p.endswith(".edit") and re.search(r"(?m)^file: (specs|proofs)/", t)
        u = turn(t, {n: to for n, to in new.items() if n not in plain}, set(), False, not of_proof)
        if p.endswith(".edit"):
            # port.py turned these names everywhere but here
            u = WORD.sub(lambda m: snake(m[0]) if CAMEL.match(m[0]) and snake(m[0]) in own else m[0], u).replace("′", "'")
        if u != t:
            open(p, "w", encoding="utf-8").write(u)
            turned += 1
    print(f"{turned} files turned, {len(new)} names")


main()
