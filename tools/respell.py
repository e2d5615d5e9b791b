#!/usr/bin/env python3
"""Brings the names of this repository's definitions and lemmas to the spelling of today's Rattle, once.

usage: python3 tools/respell.py [--dry]      at the top of the checkout, right after port.py

A definition, lemma, field, constructor, module parameter or local name with dashes gets underscores (`call-line`: `call_line`); a type or a
fact, which begins with a capital, gets camel case (`Taken-in`: `TakenIn`). Functions of src/, strings, inputs and outputs keep their names, and
so do the names that Rattle makes (of goals, and of what stands in a goal's context). Comments and documents change between backticks alone.
"""

import glob
import os
import re
import sys

# Names whose own spelling is not enough: what they were called after has another name now.
OWN = {
    "numberAfter-is": "number_after_is",
    "getD-forgetting": "get_or_forgetting",
    "getD-under": "get_or_under",
    # The ghost fields of `Figures` have the names with underscores, and the library's `bit_or` is what the lemma is about.
    "cores-pass": "passes_cores",
    "slots-pass": "passes_slots",
    "words-pass": "passes_words",
    "strip-pass": "passes_strip",
    "allowance-pass": "passes_allowance",
    "bit-or": "bit_of_or",
    "Numbers-of": "numbers_of",
}
# In an answer, names that Rattle makes.
MADE = re.compile(r"^(returns|loop|invariant|invariant_of|decreases|overflow|bounds|slice-bounds|slice_bounds|in|out|after|if|then|else)-")
SIGNATURE = re.compile(r"^([ \t]*)(?:(?:abbrev|unfoldable|pub|opaque) )*([^\s(){}:,.;«»\"|]+)((?: \([^)]*\)| \{[^}]*\})*) :(?: |$)", re.M)
HEAD = re.compile(r"^[ \t]*(?:pub )?(?:record|data) ([^\s(){}:,.;«»\"|]+)((?: \([^)]*\)| \{[^}]*\})*)", re.M)
BINDER = re.compile(r"[({]([^(){}:=]+) : ")
LOCAL = re.compile(r"\blet ([^\s:=(){}]+)")
LAMBDA = re.compile(r"λ ((?:[^\s(){}.:]+ )*[^\s(){}.:]+)\.")
CASE = re.compile(r"^[ \t]*(?:pub )?\| ([^\s(){}:,.;«»\"|]+)", re.M)
LEFT = re.compile(r"^[ \t]*((?:[^\s=:;,.{]+ )+)=(?: |$)", re.M)
OF_STD = re.compile(r"^[ \t]*(?:ghost )?(?:pub )?use Rattle\.std\.[^\n{]*\{([^}\n]*)\}", re.M)
ALIAS = re.compile(r"^[ \t]*(?:ghost )?(?:pub )?use .*$", re.M)
AS = re.compile(r" as ([^\s(){}:,.;«»\"|]+)")
WORD = re.compile(r"[^\s(){}\[\].,;:«»\"`|λ/*+]+")


def files():
    for kind in ("specs", "proofs"):
        for p in sorted(glob.glob(f"crates/*/{kind}/**/*.antt", recursive=True)):
            yield p


def is_answer(p):
    return os.path.basename(p) in ("Answers.antt", "Invariants.antt", "Proof.antt")


def without_comments(text):
    return re.sub(r"(?m)(^|\s)--(\s.*)?$", r"\1", text)


def dashed(name):
    return "-" in name.strip("-") and re.match(r"^[^\W\d]", name)


def defined():
    """Each name with a dash that the repository defines."""
    names = set()
    for p in files():
        with open(p, encoding="utf-8") as f:
            t = without_comments(f.read())
        found = set()
        for m in SIGNATURE.finditer(t):
            if not (is_answer(p) and m.group(1) == ""):
                found.add(m.group(2))
        for pattern in (HEAD, CASE, LOCAL):
            found.update(m.group(1) for m in pattern.finditer(t))
        for pattern in (BINDER, LAMBDA):
            for m in pattern.finditer(t):
                found.update(m.group(1).split())
        if not is_answer(p):
            for m in LEFT.finditer(t):
                found.update(WORD.findall(m.group(1)))
        names.update(n for n in found if dashed(n) and not (is_answer(p) and MADE.match(n)))
    for p in list(files()) + sorted(glob.glob("crates/*/src/**/*.rt", recursive=True)):
        with open(p, encoding="utf-8") as f:
            for line in ALIAS.findall(f.read()):
                names.update(n for n in AS.findall(line) if dashed(n) and not (is_answer(p) and MADE.match(n)))
    return names


def respelled(name):
    if name in OWN:
        return OWN[name]
    if name[0].isupper():
        return "".join(part[:1].upper() + part[1:] for part in name.split("-"))
    return name.replace("-", "_")


def turn_words(text, names, answer=False):
    """The text with each of the names respelled; in an answer not what stands in the context `c` or in the module of goals."""

    def turn(m):
        w = m.group(0)
        if w not in names:
            return w
        before = text[: m.start()]
        if answer and re.search(r"(?<![\w'.-])(c|goal)\.$", before[-8:]):
            return w
        return names[w]

    return WORD.sub(turn, text)


def turn_code(text, names, comment, answer):
    """Source: what is no comment, no string; in comments what stands between backticks."""
    out = []
    for line in text.split("\n"):
        if re.search(r"\.(Goals|Given)\.\{", line):
            out.append(line)
            continue
        m = re.search(comment, line)
        code, rest = (line[: m.start()], line[m.start():]) if m else (line, "")
        parts = re.split(r'("(?:[^"\\]|\\.)*")', code)
        code = "".join(s if i % 2 else turn_words(s, names, answer) for i, s in enumerate(parts))
        out.append(code + turn_ticks(rest, names))
    return "\n".join(out)


def turn_ticks(text, names):
    return re.sub(r"`[^`\n]*`", lambda m: turn_words(m.group(0), names), text)


def main():
    names = {n: respelled(n) for n in defined()}
    dry = "--dry" in sys.argv[1:]
    texts = {}
    for p in list(files()):
        texts[p] = r"(^|(?<=\s))--(\s|$)"
    for p in sorted(glob.glob("crates/*/src/**/*.rt", recursive=True)):
        texts[p] = r"//"
    for p in sorted(glob.glob("crates/*/must-fail/*.edit")):
        texts[p] = None
    for p in sorted(glob.glob("docs/*.md")) + ["README.md"]:
        texts[p] = "ticks"
    together = {}
    for n, to in names.items():
        together.setdefault(to, []).append(n)
    for to, ns in sorted(together.items()):
        if len(ns) > 1:
            print(f"fall together: {' '.join(sorted(ns))} -> {to}")
    turned = 0
    every = names
    for p, comment in texts.items():
        with open(p, encoding="utf-8") as f:
            old = f.read()
        # What a file takes from the library under its own name stays.
        std = {w.strip() for m in OF_STD.finditer(old) for w in m.group(1).split(",")}
        names = {n: to for n, to in every.items() if n not in std}
        code = old if comment in (None, "ticks") else "\n".join(re.split(comment, line)[0] for line in old.split("\n"))
        words = set(WORD.findall(code))
        for n, to in sorted(names.items()):
            if n in words and to in words:
                print(f"both in one file: {n} and {to} in {p}")
        if comment is None:
            new = turn_words(old, names)
        elif comment == "ticks":
            new = turn_ticks(old, names)
        else:
            new = turn_code(old, names, comment, is_answer(p))
        if new != old:
            turned += 1
            if not dry:
                with open(p, "w", encoding="utf-8") as f:
                    f.write(new)
    print(f"respell: {len(every)} names, {turned} files")


if __name__ == "__main__":
    main()
