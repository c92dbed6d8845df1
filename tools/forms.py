#!/usr/bin/env python3
"""forms.py [FOLDER]: counts the places in FOLDER/crates/*/src (tests left aside) that an older style of Rattle would leave.

Each line is a place to look at, not a fault: which of them are places is said in docs/DESIGN-PASS.md.
1  enums; matches and ifs that only pass an Option or a Result on; numbers that stand for nothing or for an error
2  functions of the same shape in two types or crates; structs with the same fields
3  loops, and of them those that count an index by hand
4  equality, order, copying, conversion and printing that is written by an impl
5  facts that stand in the `requires` of three or more functions; parameters that stand together in four or more
6  arrays and lent buffers in a struct
7  function pointers, trait objects, closures in a field
8  answers and lemmas of the proofs
"""
import glob
import os
import re
import sys
from collections import Counter, defaultdict

ROOT = sys.argv[1] if len(sys.argv) > 1 else "."
FILES = sorted(
    f
    for f in glob.glob(os.path.join(ROOT, "crates/*/src/**/*.rt"), recursive=True)
    if not f.endswith("tests.rt")
)


def text_of(path):
    text = open(path, encoding="utf-8").read()
    return text.split("#[cfg(test)]\nmod tests {")[0]


TEXTS = {os.path.relpath(f, os.path.join(ROOT, "crates")): text_of(f) for f in FILES}


def places(pattern, flags=re.M):
    found = []
    for name, text in TEXTS.items():
        for match in re.finditer(pattern, text, flags):
            line = text.count("\n", 0, match.start()) + 1
            found.append((f"{name}:{line}", " ".join(match.group(0).split())[:110]))
    return found


def show(title, found):
    print(f"{title}: {len(found)}")
    for where, what in found:
        print(f"    {where}  {what}")


def functions():
    for name, text in TEXTS.items():
        pattern = r"^( *)(?:pub(?:\(\w+\))? )?(?:extern \"C\" )?fn (\w+)(?:<[^(]*?>)?\((.*?)\)(.*?)^\1\}"
        for match in re.finditer(pattern, text, re.M | re.S):
            line = text.count("\n", 0, match.start()) + 1
            yield f"{name}:{line}", match.group(2), match.group(3), match.group(4)


def parameters(inside):
    inside = " ".join(inside.split())
    return [part.split(":")[0].replace("mut ", "").strip() for part in inside.split(", ") if ":" in part]


print("== 1")
show("enums", places(r"^ *(pub(\(crate\))? )?enum \w+"))
show(
    "matches and ifs that only pass on",
    places(r"=> (None|Ok\(\(\)\)),|(Ok|Some|Err)\((\w+)\) => (Ok|Some|Err)\(.*|None => unreachable\(\)|\} else \{\s*(None|Err\(\w+\))\s*\}|\bErr\(_\) =>.*"),
)
show(
    "numbers that stand for nothing or for an error",
    places(r"///.*\b0 (where|before)\b.*|Result<[^<>]*, (u8|u16|u32|u64|usize)>|u64::MAX|unwrap_or\(0\)"),
)

print("== 2")
shapes = defaultdict(list)
for where, name, inside, rest in functions():
    body = rest[rest.find("\n{") if "\n{" in rest else rest.find("{"):] if "{" in rest else ""
    body = "\n".join(l for l in rest.split("\n") if not re.match(r"\s*(ensures|requires|///|//)", l))
    shape = re.sub(r"\b[A-Za-z_]\w*\b", "x", re.sub(r"\b0?x?[0-9][0-9a-f_]*\b", "n", " ".join(body.split())))
    if body.count("\n") >= 5:
        shapes[shape].append((where, name))
same = [group for group in shapes.values() if len(group) > 1]
show("functions of one shape", [(", ".join(w for w, _ in g), ", ".join(n for _, n in g)) for g in same])
names = defaultdict(list)
for where, name, inside, rest in functions():
    names[name].append(where)
show("names that two or more functions have", [(n, ", ".join(w)) for n, w in names.items() if len(w) > 1 and n not in ("fmt", "from")])
fields = defaultdict(list)
for name, text in TEXTS.items():
    for match in re.finditer(r"(?:struct |^ {4})(\w+)(?:<.*?>)? \{(.*?)\}", text, re.M | re.S):
        inside = tuple(sorted(re.findall(r"^\s*(?:pub(?:\(crate\))? )?(\w+): ", match.group(2), re.M)))
        if len(inside) > 1:
            fields[inside].append(f"{name} {match.group(1)}")
pairs = []
keys = list(fields)
for i, a in enumerate(keys):
    for b in keys[i:]:
        both = set(a) & set(b)
        if a is b and len(fields[a]) > 1:
            pairs.append((", ".join(a), ", ".join(fields[a])))
        elif a is not b and len(both) >= 4:
            pairs.append((", ".join(sorted(both)), ", ".join(fields[a] + fields[b])))
show("structs and cases that share four fields, or all", pairs)

print("== 3")
loops = places(r"^ *(while|loop|for) [^{]*\{|^ *loop \{|^ *while let [^{]*\{")
loops = [(w, x) for w, x in loops if not x.startswith("for <")]
show("loops", loops)
show("indices counted by hand", places(r"\b(place|number|low|i|count|index) \+= \w+|for \w+ in [^{]*\.len\(\)|low = middle \+ 1|\w+ \+= (1|2|4);"))

print("== 4")
show("by an impl", places(r"^impl(<.*?>)? (fmt::)?(PartialEq|Eq|PartialOrd|Ord|Clone|Copy|From|TryFrom|Into|Display|Debug|Hash|Default|Before)\b.* for .*"))
show("conversions by a function of their own", places(r"fn (\w+_of|\w+_reply|to_\w+|into_\w+|from_\w+)\(.*"))

print("== 5")
facts = defaultdict(set)
together = Counter()
where_together = defaultdict(list)
for where, name, inside, rest in functions():
    for match in re.finditer(r"requires (?:\w+ )?\{ (.*) \}\n", rest):
        for part in match.group(1).split(" × "):
            part = re.sub(r"\b\w+\.(old|now)\b", "X", part.strip("() "))
            facts[part].add(where)
    own = parameters(inside)
    for i, a in enumerate(own):
        for b in own[i + 1:]:
            together[tuple(sorted((a, b)))] += 1
            where_together[tuple(sorted((a, b)))].append(name)
show("facts in three or more", [(f"{len(w)}", f"{f}  in {', '.join(sorted(w))}") for f, w in facts.items() if len(w) > 2])
show("parameters together in four or more", [(f"{n}", f"{a}, {b}: {', '.join(where_together[(a, b)])}") for (a, b), n in together.most_common() if n > 3])

print("== 6")
show("arrays and lent buffers in a struct", places(r"^ +(pub )?\w+: (\[.*;.*\]|&'a (mut )?\[.*\]|Vec<.*>|ArrayVec<.*>),"))
show("counts in a struct", places(r"^ +(pub )?(count|written|len|used|first|last|running): .*,"))

print("== 7")
show("function pointers, objects and closures kept", places(r"\bfn\(|\bdyn |Box<|: &?(mut )?impl Fn|: \w*Fn(Mut|Once)?\("))

print("== 8")
for crate in sorted(os.listdir(os.path.join(ROOT, "crates"))):
    folder = os.path.join(ROOT, "crates", crate, "proofs")
    answers = lines = lemmas = 0
    for f in glob.glob(folder + "/**/*.antt", recursive=True):
        text = open(f, encoding="utf-8").read()
        lines += text.count("\n")
        if f.endswith("Answers.antt"):
            answers += len(re.findall(r"^pub \S+ : goal\.", text, re.M))
        elif os.path.dirname(f) == folder:
            lemmas += len(re.findall(r"^(?:abbrev |unfoldable )?(?:pub )?[^\s:(){}|-][^\s:(){}]* : ", text, re.M))
    print(f"    {crate}: {answers} answers, {lemmas} lemmas, {lines} lines of proofs")
