#!/usr/bin/env python3
"""Respells the repository's own definitions, lemmas and modules: words in snake case, types and modules in camel case.

usage: python3 tools/spelling.py [--check]      at the top of the repository

It takes the names with a dash that the .antt files of crates/ declare (definitions, lemmas, fields, constructors, local
names) and the dashed names of those files, and writes `keep-each` as `keep_each`, `Well-formed` as `WellFormed`, in code
alone: comments, strings and names that the check itself makes (behind `goal.`, `c.` and `g.` in a function's proof) stay.
In docs/ and README.md it turns code spans. A new name that was there already is printed on a line 'meets:'.
Run once; a second run changes nothing.
"""
import os
import re
import sys

CHECK = "--check" in sys.argv
NAME = r"[^\s(){}\[\].;,@\"«»]+"
DECLARED = re.compile(rf"^\s*(?:let )?(?:(?:pub|abbrev|unfoldable|infixl?|infixr|private) )*((?:{NAME} )*?{NAME}) :(?=\s)")
LET = re.compile(rf"(?:\blet |\|\| )({NAME})(?= (?::|=|{NAME} ))")
LOCAL = re.compile(rf"^\s*({NAME})(?: {NAME})* =(?=\s|$)")
HEAD = re.compile(rf"^\s*(?:pub )?(?:data|record|module|tactic|syntax) (?:pub )?({NAME})")
ABBREV = re.compile(rf"^\s*abbrev (?:pub )?({NAME})")
LAMBDA = re.compile(r"[λ∀] ((?:[^\s.(){}]+ )*[^\s.(){}]+)\.")
BINDER = re.compile(rf"[({{]((?:{NAME} )*{NAME}) :")
ALIAS = re.compile(rf"\bas ({NAME})")
LABEL = re.compile(r"\b(?:goal|given|c|g|l|k)((?:\.[^\s(){}\[\].;,@\"]+)+)")


def files(*kinds):
    for folder, dirs, names in os.walk("crates"):
        dirs[:] = sorted(d for d in dirs if d not in ("out", "target"))
        for f in sorted(names):
            if f.endswith(kinds):
                yield os.path.join(folder, f)


def is_answer(path):
    return os.path.basename(path) in ("Answers.antt", "Invariants.antt", "Choices.antt", "Proof.antt")


def no_comments(text):
    return re.sub(r"(?m)(?:(?<=\s)|^)--(?=\s|$).*|\"(?:[^\"\\\n]|\\.)*\"", "", text)


def respelled(name):
    if name[0].isupper():
        return "".join(w[:1].upper() + w[1:] for w in name.split("-"))
    return name.replace("-", "_")


def is_dashed(name):
    return re.fullmatch(r"[A-Za-z][\w?']*(?:-[\w?'ℕℤ]+)+", name) is not None


def declared():
    names, generated = set(), set()
    for path in files(".antt"):
        with open(path, encoding="utf-8") as f:
            text = no_comments(f.read())
        base = os.path.basename(path)[: -len(".antt")]
        if is_dashed(base):
            names.add(base)
        for line in text.split("\n"):
            m = re.match(rf"\s*(?:pub )?(?:abbrev (?:pub )?)?({NAME}) : (?:goal|given)\.", line)
            if m:
                generated.add(m[1])
                continue
            for it in (DECLARED, BINDER, LAMBDA):
                for m in it.finditer(line):
                    names.update(w for w in m[1].split() if is_dashed(w))
            for it in (LET, HEAD, ABBREV, ALIAS):
                for m in it.finditer(line):
                    if is_dashed(m[1]):
                        names.add(m[1])
            m = LOCAL.match(line)
            if m and is_dashed(m[1]) and not is_answer(path):
                names.add(m[1])
            for m in re.finditer(rf"\bmod ({NAME})", line):
                if is_dashed(m[1]):
                    names.add(m[1])
    return names, generated


def every_word(kinds):
    words = set()
    for path in files(*kinds):
        with open(path, encoding="utf-8") as f:
            words.update(re.findall(NAME, f.read()))
    return words


SPLIT = re.compile(rf"(\"(?:[^\"\\\n]|\\.)*\")|((?:(?<=\s)|^)--(?=\s|$)[^\n]*)|({NAME})", re.M)
SPLIT_RT = re.compile(rf"(b?\"(?:[^\"\\\n]|\\.)*\")|(//[^\n]*)|({NAME})", re.M)


def turned(path, text, table):
    split = SPLIT_RT if path.endswith(".rt") else SPLIT
    labels = set()
    if is_answer(path):
        for m in LABEL.finditer(text):
            # `goal.X`, and the first name behind `c` and `g`, are made by the check
            labels.add(m.start(1) + 1)
        made = {m[1] for m in re.finditer(rf"^\s*(?:pub )?(?:abbrev (?:pub )?)?({NAME}) : (?:goal|given)\.", text, re.M)}
    else:
        made = set()

    def put(m):
        if m[3] is None or m.start(3) in labels or m[3] in made:
            return m[0]
        return table.get(m[3], m[3])

    return split.sub(put, text)


def main():
    names, generated = declared()
    table = {n: respelled(n) for n in names}
    words = every_word((".antt", ".rt"))
    for old, new in sorted(table.items()):
        if new in words:
            print("meets:", old, new)
    by_new = {}
    for old, new in table.items():
        by_new.setdefault(new.lower(), []).append(old)
    for new, olds in sorted(by_new.items()):
        if len(olds) > 1:
            print("alike:", *sorted(olds))
    for n in sorted(names & generated):
        print("also made by the check:", n)
    print(len(table), "names")
    if CHECK:
        return
    for path in list(files(".antt", ".rt")):
        with open(path, encoding="utf-8") as f:
            text = f.read()
        new = turned(path, text, table)
        if new != text:
            with open(path, "w", encoding="utf-8") as f:
                f.write(new)
        base = os.path.basename(path)
        stem = base[: -len(".antt")] if base.endswith(".antt") else None
        if stem in table:
            os.rename(path, os.path.join(os.path.dirname(path), table[stem] + ".antt"))
    for path in [os.path.join("docs", f) for f in sorted(os.listdir("docs")) if f.endswith(".md")] + ["README.md"]:
        with open(path, encoding="utf-8") as f:
            text = f.read()
        new = re.sub(r"`[^`\n]*`", lambda s: re.sub(rf"[^\s(){{}}\[\].;,@\"«»`/·]+", lambda m: table.get(m[0], m[0]), s[0]), text)
        if new != text:
            with open(path, "w", encoding="utf-8") as f:
                f.write(new)


main()
