#!/usr/bin/env python3
"""Brings the definitions and lemmas of this repository to the spelling of today's Rattle: snake case.

usage: python3 tools/respell.py          at the top of the repository, once, right after the kit's port.py

A name is turned if a file of specs/ or proofs/ declares it (at the beginning of a line, before ' :') and it is written with capitals
inside a word (nearestRoot), with a dash (rises-zero) or with the old prime. It becomes nearest_root and rises_zero. Where a file has the
new spelling already for something else, or two names would fall together there, '_lem' is put behind the name of the lemma.
Turned are: the code of .antt files and the spans in backticks of their comments; clauses, 'ghost' lines and comments' spans of .rt files;
the lines old: and new: of must-fail edits; spans in backticks of the pages. Functions of src/, names that the checker makes, strings,
inputs and outputs stay.
"""

import os
import re
import sys

WORD = re.compile(r'[^\s(){}.;,@"«»\[\]]+')
DECLARED = re.compile(r"^\s*(?:(?:abbrev|unfoldable|pub|field|syntax)\s+)*([^\s(){}.;,@\"«»\[\]]+)(?: (?:\(|\{)[^:\n]*)? :(?:\s|$)", re.M)
IN_TEXT = re.compile(r'[^\s(){}.;:,@"«»\[\]`]+')
SPAN = re.compile(r"`[^`\n]+`")
SKIPPED = ("out", ".git", "target", "node_modules")


def files(root, endings):
    for folder, dirs, names in os.walk(root):
        dirs[:] = sorted(d for d in dirs if d not in SKIPPED and not os.path.islink(os.path.join(folder, d)))
        for n in sorted(names):
            if n.endswith(endings):
                yield os.path.join(folder, n)


def read(path):
    with open(path, encoding="utf-8", newline="") as f:
        return f.read()


def is_own_spelling(name):
    """Whether a declared name wants another spelling: it begins with a small letter and has a capital, a dash between letters, or the old prime."""
    if not re.match(r"[a-z]", name):
        return False
    return bool(re.search(r"[a-z0-9][A-Z]|[A-Za-z0-9'₀-₉→≤≡]-[A-Za-z0-9→≤≡]|′", name))


def snake(name):
    name = name.replace("′", "'")
    name = re.sub(r"([a-z0-9])([A-Z])", lambda m: m.group(1) + "_" + m.group(2), name)
    name = re.sub(r"([A-Z])([A-Z][a-z])", lambda m: m.group(1) + "_" + m.group(2), name)
    return re.sub(r"-+", "_", name).lower() if re.search(r"[A-Z]", name) else re.sub(r"-+", "_", name)


# Spellings that were chosen by hand. Behind a dot, and as the label of a record's field, a name is no other name's neighbour.
CHOSEN = {"recordOf": "record_of", "nodeAt": "node_at", "sameWay": "same_way", "inOrder": "in_order", "isFront": "is_front",
    "floatWord": "float_word", "madeUp": "made_up", "bytesOf": "bytes_of", "builtIn": "built_in_sizes"}
# In these files a lemma has such a spelling already and gives way.
GIVES_WAY = {"crates/ways/proofs/Counted.antt": {"same_way": "same_way_lem"}, "crates/walk/proofs/Grown.antt": {"in_order": "in_order_lem"}}
# What a function's proof answers: it is named by the goal, and written anew with it.
ANSWER = re.compile(r"^[^\s:]+(?: [^\s:]+)? : tie\.(?:Need|invariant|decreases)[^\n]*$", re.M)
# A name that the checker makes for a function's goals is spelled with dashes, and stays where it stands in a proof of a function.
MADE = re.compile(r"^(?:returns|loop|invariant|decreases)(?:-|$)|-(?:requires|init|preserved|smaller)(?:-|$)")


def code_parts(text):
    """The text in parts: (True, code) or (False, comment)."""
    at = 0
    for m in re.finditer(r'"(?:[^"\\\n]|\\.)*"|(?:(?<=\s)|^)--[^\n]*', text, re.M):
        yield "code", text[at : m.start()]
        yield ("string" if m.group().startswith('"') else "comment"), m.group()
        at = m.end()
    yield "code", text[at:]


def words_of(path, text):
    """The words of a file's code, but for the modules that its 'use' lines go through."""
    found = set()
    for kind, part in code_parts(text):
        if kind == "code":
            found.update(WORD.findall(re.sub(r"(?m)^(\s*(?:pub )?use )[^\s{]*\.(\{|[^\s.{]+ as )?", r"\1\2", part)))
    return found


def turned_code(text, table, generated):
    def one(m):
        w = m.group()
        if w not in table:
            return w
        # a path that begins at a record of the checker's own: c.before.map-of.ensures
        if generated and "-" in w and text[: m.start()].endswith("."):
            head = re.search(r"([^\s(){};,]+)$", text[max(0, m.start() - 200) : m.start()])
            if head and head.group(1).split(".")[0] in ("c", "w", "l", "g", "goal", "tie"):
                return w
        if generated and MADE.search(w) and not re.search(r"[A-Z]", w):
            return w
        return table[w]

    return WORD.sub(one, text)


def turned_spans(text, table):
    def span(m):
        return IN_TEXT.sub(lambda w: table.get(w.group(), w.group()), m.group())

    text = SPAN.sub(span, text)
    # a bare word with a capital inside is a name
    return IN_TEXT.sub(lambda w: table.get(w.group(), w.group()) if re.search(r"[a-z][A-Z]", w.group()) else w.group(), text)


IMPORT = re.compile(r"^\s*(?:pub )?use (?!Rattle\.(?!std\b|core\b))[^\s{]+\.\{([^}]*)\}", re.M)


def without_imported(text, table):
    """The table less what the file brings in from the libraries of the kit: those names have their spelling already."""
    theirs = set()
    for m in IMPORT.finditer(text):
        theirs.update(it.split(" as ")[0].strip() for it in m.group(1).split(","))
    return {a: b for a, b in table.items() if a not in theirs}


def turned_antt(path, text, table):
    table = without_imported(text, table)
    generated = "/proofs/" in path and os.path.basename(path) == "Proof.antt"
    out = []
    for kind, part in code_parts(text):
        out.append(turned_code(part, table, generated) if kind == "code" else turned_spans(part, table) if kind == "comment" else part)
    return "".join(out)


def turned_rt(text, table):
    out = []
    depth = 0
    for line in text.splitlines(keepends=True):
        if line.lstrip().startswith("//"):
            out.append(turned_spans(line, table))
            continue
        opens = re.match(r"\s*(?:ghost use\b|ghost\b|requires\b|ensures\b|pub ghost\b)", line)
        if opens or depth > 0:
            code, _, tail = line.partition("//")
            out.append(WORD.sub(lambda w: table.get(w.group(), w.group()), code) + (("//" + turned_spans(tail, table)) if _ else ""))
            depth += line.count("{") - line.count("}")
            depth = max(depth, 0)
        else:
            code, _, tail = line.partition("//")
            out.append(code + (("//" + turned_spans(tail, table)) if _ else ""))
    return "".join(out)


def turned_edit(text, table):
    target = re.search(r"^file: (\S+)", text, re.M)
    antt = bool(target and target.group(1).endswith(".antt"))
    out = []
    for line in text.splitlines(keepends=True):
        if line.startswith(("old:", "new:")):
            head, body = line[:4], line[4:]
            if antt or re.match(r"\s*(?:requires|ensures|ghost)\b", body) or re.search(r"[a-z][A-Z]", body):
                body = WORD.sub(lambda w: table.get(w.group(), w.group()) if antt or not re.match(r"\w+-\w+$", w.group()) else w.group(), body)
            line = head + body
        else:
            line = turned_spans(line, table) if not line.startswith("file:") else line
        out.append(line)
    return "".join(out)


def main():
    root = os.getcwd()
    crates = os.path.join(root, "crates")
    if not os.path.isdir(crates):
        sys.exit("run it at the top of the repository")
    texts = {p: read(p) for p in files(crates, (".antt", ".rt", ".edit"))}
    # what a function's own proof declares in a list of goals is turned when that proof is written anew, but for capitals
    declared = set()
    for p, t in texts.items():
        if not p.endswith(".antt"):
            continue
        of_function = os.path.basename(p) == "Proof.antt"
        code = "".join(part for kind, part in code_parts(t) if kind != "comment")
        if of_function:
            code = ANSWER.sub("", code)
        for name in DECLARED.findall(code):
            if is_own_spelling(name) and not (of_function and MADE.search(name)):
                declared.add(name)
    table = {n: snake(n) for n in declared}
    table = {a: b for a, b in table.items() if a != b}
    # what a file would have twice gets another ending
    clashes = {}
    for p, t in texts.items():
        if not p.endswith(".antt"):
            continue
        words = words_of(p, t)
        seen = {}
        for w in sorted(words):
            to = table.get(w, w)
            if to in seen and seen[to] != w:
                # the definition has the name, and the lemma beside it gets the ending
                pair = [e for e in (w, seen[to]) if e in table]
                lemmas = [e for e in pair if "-" in e]
                for each in lemmas or pair:
                    clashes.setdefault(each, set()).add(os.path.relpath(p, root))
            seen.setdefault(to, w)
    for name in sorted(clashes):
        table[name] = table[name] + "_lem"
    again = {}
    for a, b in table.items():
        again.setdefault(b, []).append(a)
    for b, names in sorted(again.items()):
        if len(names) > 1:
            # a definition and a lemma about it, in different files
            for a in names:
                if "-" in a:
                    table[a] = b + "_lem"
    table.update({a: b for a, b in CHOSEN.items() if a in table})
    again = {}
    for a, b in table.items():
        again.setdefault(b, []).append(a)
    for b, names in sorted(again.items()):
        if len(names) > 1:
            sys.exit(f"together: {', '.join(sorted(names))} -> {b}")
    changed = 0
    for p, t in texts.items():
        here = GIVES_WAY.get(os.path.relpath(p, root))
        new = turned_antt(p, t, {**table, **here} if here else table) if p.endswith(".antt") else turned_rt(t, table) if p.endswith(".rt") else turned_edit(t, table)
        if new != t:
            with open(p, "w", encoding="utf-8", newline="") as f:
                f.write(new)
            changed += 1
    for p in list(files(root, (".md",))):
        t = read(p)
        new = SPAN.sub(lambda m: IN_TEXT.sub(lambda w: table.get(w.group(), w.group()), m.group()), t)
        if new != t:
            with open(p, "w", encoding="utf-8", newline="") as f:
                f.write(new)
            changed += 1
    with open(os.path.join(root, "tools", "respelled.tsv"), "w", encoding="utf-8") as f:
        for a, b in sorted(table.items()):
            f.write(f"{a}\t{b}\n")
    print(f"{len(table)} names, {changed} files")


if __name__ == "__main__":
    main()
