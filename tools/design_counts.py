#!/usr/bin/env python3
"""Counts the places of docs/DESIGN-PASS.md in crates/*/src (and, for point 8, in crates/*/proofs) of a checkout: tools/design_counts.py [DIR] [--list]."""
import collections
import glob
import re
import sys

ROOT = next((a for a in sys.argv[1:] if not a.startswith("-")), ".")
LIST = "--list" in sys.argv
FILES = {p[len(ROOT) + 8 :]: open(p).read() for p in sorted(glob.glob(f"{ROOT}/crates/*/src/**/*.rt", recursive=True))}
CODE = {p: re.sub(r"//[^\n]*", "", re.sub(r"^ghost use [^\n]*\n", "", t, flags=re.M)) for p, t in FILES.items()}


def end_of(s, i):
    """The place of the bracket that closes the one at i."""
    depth = 0
    while True:
        depth += {"(": 1, "[": 1, "{": 1, ")": -1, "]": -1, "}": -1}.get(s[i], 0)
        if depth == 0:
            return i
        i += 1


def functions():
    """(file, name, parameters, clauses, body) of each function with a body."""
    for path, s in CODE.items():
        for m in re.finditer(r"\bfn (\w+)(?:<[^>]*>)?\(", s):
            close = end_of(s, m.end() - 1)
            head = re.compile(r"(?:\n\s*(?:requires|ensures)\b[^\n]*|[^{;]|\n)*?(\{\n|\{ [^\n]*\}\n|;)").match(s, close + 1)
            start = None
            for line in re.compile(r"[^\n]*\n").finditer(s, close + 1):
                t = line.group(0).rstrip()
                if not re.match(r"\s*(requires|ensures)", t):
                    if t.endswith("{"):
                        start = line.start() + len(t) - 1
                        break
                    if t.endswith(";"):
                        break
            if start is None:
                continue
            params = [p.strip() for p in re.sub(r"\s+", " ", s[m.end() : close]).split(",") if p.strip()]
            yield path, m.group(1), params, s[close + 1 : start], s[start : end_of(s, start) + 1]


def say(point, found):
    print(f"{point}: {len(found)}")
    if LIST:
        for it in found:
            print("   ", it)


FUNCTIONS = list(functions())

# 1. own enums that say that something is there or not, or was answered or refused
NO = r"Refused|EndOfFile|None|Invalid|Nothing|NoSection|NoTable|Broken|Bad"
enums = []
for path, s in CODE.items():
    for m in re.finditer(r"\benum (\w+)(?:<[^{]*>)? \{", s):
        body = s[m.end() : end_of(s, m.end() - 1)]
        if re.search(rf"^\s*(?:{NO})\b", body, re.M):
            enums.append(f"{path} {m.group(1)}")
say("1a own enums of the shape of Option or Result", enums)
bools = []
for path, s in CODE.items():
    for m in re.finditer(r"\bstruct (\w+)(?:<[^{]*>)? \{", s):
        body = s[m.end() : end_of(s, m.end() - 1)]
        if re.search(r"\b(present|met|whole): bool", body):
            bools.append(f"{path} {m.group(1)}")
say("1b structs with a flag that says whether other fields mean something", bools)
say("1c errors handed on by a match or a let-else of their own", [f"{p} {n}" for p, n, _, _, b in FUNCTIONS for _ in re.findall(r"(?:Refused|Err)\((\w+)\) => (?:return )?\w*(?:::)?(?:Refused|Err)\(\1\)|let \w+(?:::\w+)?\([^=]*\) = [^;]*? else \{\s*return \w+::EndOfFile;", b)])

# 2. functions whose bodies are the same but for types, sizes, constants and the names of what they call
shapes = collections.defaultdict(list)
for path, name, params, _, body in FUNCTIONS:
    t = re.sub(r"\s+", " ", body)
    if len(t) < 60:
        continue
    t = re.sub(r"\b(?:\d[\w.]*|0x[\w]+)\b", "N", t)
    t = re.sub(r"\b(?:[A-Za-z_]\w*::)+", "", t)
    t = re.sub(r"\b[a-z_]\w*(?=\()", "f", t)
    t = re.sub(r"\b[A-Z]\w*\b", "T", t)
    names = {}
    t = re.sub(r"\b[a-z_]\w*\b", lambda m: m.group(0) if m.group(0) in ("if", "else", "while", "for", "in", "let", "mut", "match", "return", "as", "loop", "true", "false", "f") else names.setdefault(m.group(0), f"v{len(names)}"), t)
    shapes[t].append(f"{path} {name}")
groups = [g for g in shapes.values() if len(g) > 1]
say("2a groups of functions of one shape", [" = ".join(g) for g in groups])
print(f"2b functions in these groups: {sum(map(len, groups))}")
fields = collections.defaultdict(list)
for path, s in CODE.items():
    for m in re.finditer(r"\b(?:struct|enum) (\w+)(?:<[^{]*>)? \{", s):
        body = re.sub(r"#\[[^\]]*\]|\bpub(?:\(crate\))? |\bghost [^\n]*", "", s[m.end() : end_of(s, m.end() - 1)])
        parts = re.sub(r"\s+", " ", body).strip().rstrip(",")
        if "," in parts:
            fields[parts].append(f"{path} {m.group(1)}")
say("2c groups of types with the same fields or variants", [" = ".join(g) for g in fields.values() if len(g) > 1])

# 3. loops that count an index or what is left by hand
loops, counted = [], []
for path, name, _, _, body in FUNCTIONS:
    for m in re.finditer(r"\b(?:while\b[^{]*|loop )\{", body):
        inner = body[m.end() - 1 : end_of(body, m.end() - 1) + 1]
        loops.append(f"{path} {name}")
        if re.search(r"\b(\w+) (?:\+= 1|-= 1|= \1 [+-] 1);", inner):
            counted.append(f"{path} {name}")
say("3a loops by while or loop", loops)
say("3b of these, loops that step a number by 1", counted)
say("3c loops by for and chains of iterators", [f"{p} {n}" for p, n, _, _, b in FUNCTIONS for _ in re.findall(r"\bfor [^;{]* in |\.iter\(\)|copy_from_slice|\.fill\(", b)])

# 4. equality, conversion and copying by hand
BY_HAND = r"equals|is_same|same|le16|le32|signed16|signed32|to_bits_16|from_bits_16|wrapping_times_16|signed_word|to_lowercase|put|put_u32|put_word|put_words|put_last|put_leaves|floor|ceil|to_i16|is_finite|to_bits|from_bits|sqrt|min|max|flag_word|again"
say("4 functions that a derive or the library has", [f"{p} {n}" for p, n, _, _, b in FUNCTIONS if re.fullmatch(BY_HAND, n) and b.count("\n") > 2 and not re.search(r"\.(?:floor|ceil|sqrt|is_finite|wrapping_mul|cast_\w+)\(|std::num::\w+_with_nan|copy_from_slice|saturating_", b)])

# 5. needs that stand at three functions or more, and parameters that travel together
needs = collections.Counter(re.sub(r"^requires(?: \w+)? ", "", r.strip()) for _, _, _, clauses, _ in FUNCTIONS for r in re.findall(r"requires[^\n]*", clauses))
say("5a needs that stand at three functions or more", [f"{n} times {t}" for t, n in needs.most_common() if n > 2])


def facts(t):
    """The facts that a need joins by ×, without brackets around them and without the moment of which they speak."""
    t = t.strip()
    while t[:1] in "({" and end_of(t, 0) == len(t) - 1:
        t = t[1:-1].strip()
    depth, start, parts = 0, 0, []
    for i, c in enumerate(t):
        depth += {"(": 1, ")": -1}.get(c, 0)
        if c == "×" and depth == 0:
            parts.append(t[start:i])
            start = i + 1
    if not parts:
        return [re.sub(r"\.(?:old|now)\b", "", t)]
    return [f for part in [*parts, t[start:]] for f in facts(part)]


shared = collections.Counter(f for n in needs.elements() for f in set(facts(n)))
say("5c facts within needs that stand at three functions or more", [f"{n} times {t}" for t, n in shared.most_common() if n > 2])
together = collections.Counter()
for _, _, params, _, _ in FUNCTIONS:
    for k in (3, 4, 5):
        for i in range(len(params) - k + 1):
            together[tuple(params[i : i + k])] += 1
say("5b runs of three or more parameters that stand at four functions or more", [f"{n} times {', '.join(t)}" for t, n in together.most_common() if n > 3 and not any(set(t) < set(u) and together[u] == n for u in together)])

# 6. a list with its length or a place beside it
say("6 functions that take a list and how many of it count", [f"{p} {n}" for p, n, ps, _, _ in FUNCTIONS for a, b in zip(ps, ps[1:]) if re.search(r": &(?:mut )?\[", a) and re.match(r"(?:count|len|length|size|upto|to|nodes|left): (?:usize|u32)", b)])

# 7. a switch on which step to run
say("7 matches whose arms call one function each", [f"{p} {n}" for p, n, _, _, b in FUNCTIONS if (arms := re.findall(r"=> (?:\w+::)*(\w+)\(", b)) and len(set(arms)) > 3 and not any(a[0].isupper() for a in arms)])

# 8. what is written of the proofs of functions
answers = [p for p in glob.glob(f"{ROOT}/crates/*/proofs/**/Answers.antt", recursive=True)]
print(f"8a files of answers: {len(answers)}")
texts = [open(p).read() for p in answers]
print(f"8b answers: {sum(len(re.findall(r'^pub [^ ]+ : goal', t, re.M)) for t in texts)}")
lines = collections.Counter()
for t in texts:
    for m in re.finditer(r"^[^ ]+ c = (.*)$", t, re.M):
        lines[m.group(1)] += 1
print(f"8c answers whose term stands at another goal too: {sum(n for n in lines.values() if n > 1)}")
print(f"8d lines of proofs: {sum(open(p).read().count(chr(10)) for p in glob.glob(f'{ROOT}/crates/*/proofs/**/*.antt', recursive=True))}")
