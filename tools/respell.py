#!/usr/bin/env python3
"""Brings the repository's own names in specs/ and proofs/ to today's spelling, once: run it at the top of a checkout, right after the toolchain's port.py.

Functions, fields, constructors and lemmas go to snake case (rates-of to rates_of, lastWord to last_word), facts and types to upper camel case (Never-behind to
NeverBehind). A lemma whose name begins with a function, as length-raised, keeps the dash behind it, as the library's lemmas do. Code of src/ keeps its names:
only clauses and ghost items change there. Answers and invariants are named by the toolchain and stay. It prints names that fall together, and changes nothing then.
"""

import os
import re
import sys

OUTSIDE = re.compile(r"use\s+(?:pub\s+)?((?:Rattle\.(?:std|core|io)\b|native|mathlib|borrow|denote|base|antt|Prim|lib|logic|seplogic)[\w.']*)(?:\.\{([^}]*)\})?", re.S)
NAME = r"[A-Za-z_][A-Za-z0-9_'\u2080-\u2089]*(?:-[A-Za-z0-9_'\u2080-\u2089]+)*"
HEAD = re.compile(r"^((?:(?:pub|abbrev|unfoldable|private)\s+)*)(" + NAME + r")(?=\s*(?:\{[^}]*\}\s*|\([^)]*\)\s*)*:(?!=))", re.M)
TYPE = re.compile(r"^(?:pub\s+)?(?:record|data)\s+(" + NAME + r")", re.M)
FIELD = re.compile(r"^\s+(?:pub\s+)?(" + NAME + r")\s*:", re.M)
ANSWER = re.compile(r":\s*(?:\([^)]*\)\s*→\s*)*(?:goal|need|given|goals|Goals|Given)\b")
ALIAS = re.compile(r"\bas\s+(" + NAME + r")(?=\s*[,}])")
LIBRARY = set("length take drop map sum filter append reverse replicate min max div mod add sub mul zip set insert remove fold find position cond leb ltb eqb and or not whole".split())


def uncommented(line, mark):
    """The line's code and its comment."""
    i = 0
    while True:
        i = line.find(mark, i)
        if i < 0:
            return line, ""
        if i == 0 or line[i - 1] in " \t({[":
            return line[:i], line[i:]
        i += 1


def bare(text):
    return "\n".join(uncommented(l, "--")[0] for l in text.split("\n"))


def snake(name):
    name = name.replace("-", "_")
    return re.sub(r"(?<=[a-z0-9])([A-Z])", lambda m: "_" + m[1].lower(), name)


def camel(name):
    return "".join(p[:1].upper() + p[1:] for p in name.split("-"))


def odd(name):
    return "-" in name or bool(re.match(r"^[a-z].*[a-z0-9][A-Z]", name))


def files(root):
    for folder, dirs, names in os.walk(os.path.join(root, "crates")):
        dirs[:] = sorted(d for d in dirs if d not in ("out", ".git"))
        for n in sorted(names):
            if n.endswith((".antt", ".rt", ".edit")):
                yield os.path.join(folder, n)


def declared(path, text, top):
    """Names that a file declares: (name, kind), the kind one of function, type, part, lemma."""
    code = bare(text)
    lemmas = "/proofs/" in path
    for m in HEAD.finditer(code):
        line = code[m.start() : code.find("\n", m.end()) if code.find("\n", m.end()) > 0 else len(code)]
        if not top and ANSWER.search(line[len(m[0]) :]):
            continue
        made = "abbrev" in m[1] or "unfoldable" in m[1] or not lemmas
        yield m[2], "function" if made else "lemma"
    for m in TYPE.finditer(code):
        yield m[1], "type"
    for m in re.finditer(r"^(?:pub\s+)?(?:record|data)\b[^\n]*(?:\n(?:[ \t]+[^\n]*|))*", code, re.M):
        for f in FIELD.finditer(m[0]):
            yield f[1], "part"


def main():
    root = sys.argv[1] if len(sys.argv) > 1 else "."
    names, outside, texts = {}, set(), {}
    for p in files(root):
        with open(p, encoding="utf-8") as f:
            texts[p] = f.read()
    for p, t in texts.items():
        if p.endswith(".edit"):
            continue
        for m in OUTSIDE.finditer(t):
            outside.update(w for it in (m[2] or "").split(",") for w in it.split()[:1])
        for m in ALIAS.finditer(t):
            names.setdefault(m[1], set()).add(("alias", p))
        if p.endswith(".antt"):
            top = bool(re.search(r"/(specs|proofs)/[^/]+$", p))
            for n, kind in declared(p, t, top):
                names.setdefault(n, set()).add((kind, p))
    functions = {n for n, at in names.items() if any(k == "function" for k, _ in at)} | LIBRARY
    new, clash = {}, []
    for n, at in sorted(names.items()):
        if not odd(n):
            continue
        if n in outside:
            print(f"left: {n} is also a name of the library's")
            continue
        kinds = {k for k, _ in at}
        if n[0].isupper():
            to = camel(n)
        elif kinds == {"lemma"} and "-" in n and n.split("-")[0] in functions:
            first, rest = n.split("-", 1)
            to = snake(first) + "-" + snake(rest)
        else:
            to = snake(n)
        if to != n:
            new[n] = to
    seen = {}
    for n in names:
        seen.setdefault(new.get(n, n), set()).add(n)
    for to, old in sorted(seen.items()):
        if len(old) > 1:
            where = {o: {p for _, p in names[o]} for o in old}
            a = list(where.items())
            clash.append(f"fall together: {', '.join(sorted(old))} -> {to}: " + "; ".join(f"{o} in {len(ps)} file(s), {sorted(ps)[0]}" for o, ps in a))
        if to in outside and not old <= {to}:
            clash.append(f"falls together with the library's {to}: {', '.join(sorted(old))}")
    for c in clash:
        print(c)
    if any("-v" == a for a in sys.argv):
        for n, to in new.items():
            print(f"{n} -> {to}")
    if clash and "--go" not in sys.argv:
        return 1
    one = re.compile(r"(?<![\w'\-\u2080-\u2089])(" + "|".join(sorted(map(re.escape, new), key=len, reverse=True)) + r")(?![\w'\-\u2080-\u2089])")
    changed = 0
    for p, t in texts.items():
        mark = "--" if p.endswith(".antt") else "//"
        out = []
        for line in t.split("\n"):
            code, comment = (line, "") if p.endswith(".edit") else uncommented(line, mark)
            if not p.endswith(".antt"):
                parts = re.split(r'("(?:[^"\\]|\\.)*")', code)
                parts[::2] = [one.sub(lambda m: new[m[1]], q) for q in parts[::2]]
                code = "".join(parts)
            else:
                code = one.sub(lambda m: new[m[1]], code)
            out.append(code + comment)
        t2 = "\n".join(out)
        if t2 != t:
            changed += 1
            with open(p, "w", encoding="utf-8") as f:
                f.write(t2)
    print(f"{len(new)} names, {changed} files")
    return 0


if __name__ == "__main__":
    raise SystemExit(main())
