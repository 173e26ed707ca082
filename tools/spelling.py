#!/usr/bin/env python3
"""Brings the repository's own definitions and lemmas to today's spelling: words in snake case.

usage: python3 tools/spelling.py          at the top of the repository: rewrites crates/*/specs, crates/*/proofs, the clauses of
                                          crates/*/src and crates/*/must-fail in place, and prints what could fall together
       python3 tools/spelling.py --list   only prints old and new names

A name is changed if a file of specs/ or proofs/ declares it, it begins with a small letter, and it has a capital or a dash: `highByte` becomes
`high_byte`, `registers-dmg` becomes `registers_dmg`, `writeSP` becomes `write_sp`. What begins with a capital is a type, a fact or an entry of the
published tables (`LD-r8-n8`) and stays, as do the operands of those tables (`rBC`, `pAF`). In src/ only clauses and `ghost use` lines are read:
functions, strings and what the code calls keep their names.
"""
import glob
import os
import re
import sys

# operands as the reference writes them, one small letter before the register: r8 and r16 of the tables, and what PUSH and POP move
OPERANDS = re.compile(r"^[rp][A-Z]{1,2}$")
DECLARED = [
    re.compile(r"^(?:(?:abbrev|unfoldable|pub|opaque)\s+)*(?P<n>[a-z][^\s:(){}◌.]*)\s*(?:[({].*)?:(?:\s|$)"),   # definitions and lemmas
    re.compile(r"^\s+(?:pub\s+)?(?P<n>[a-z][^\s:(){}◌.]*)\s*:(?:\s|$)"),                                         # fields, local lemmas
    re.compile(r"^use\s+\S+\s+as\s+(?P<n>[a-z][^\s:(){}◌.]*)\s*$"),                                               # modules under another name
    re.compile(r"^ruleset\s+(?:pub\s+)?(?P<n>[a-z][^\s:(){}◌.]*)"),
]
CONSTRUCTORS = re.compile(r"^\s+(?P<ns>[a-z][^\s:(){}◌.]*(?:\s+[a-z][^\s:(){}◌.]*)*)\s*:\s")
WORD = r"[\w'\-◌·]"
# lemmas whose name in snake case stands already, in their own file or in one that uses them
NAMED_ALREADY = {"bit-and", "jump-row", "is-over"}
# names in the new spelling that would fall together with one of those that get it now: where they stand, and what they are called from now on
FIRST = {
    "crates/phk/proofs/Going.antt": {"so_far": "reached"},
    "crates/replay/proofs/Means.antt": {"same_left": "same_left_lem"},
    "crates/rows/proofs/Lengths.antt": {"too_long": "too_long_lem"},
    "crates/text/proofs/address/ReadBack.antt": {"is_digit": "is_digit_lem"},
    "crates/watch/proofs/": {"by_last": "by_last_lem"},
}


def snake(name):
    n = name.replace("-", "_")
    n = re.sub(r"([a-z0-9])([A-Z])", r"\1_\2", n)
    n = re.sub(r"([A-Z])([A-Z][a-z])", r"\1_\2", n)
    return re.sub(r"__+", "_", n.lower())


def antt_files():
    return sorted(p for d in ("specs", "proofs") for p in glob.glob(f"crates/*/{d}/**/*.antt", recursive=True) if "/out/" not in p)


def rust_files():
    return sorted(p for p in glob.glob("crates/*/src/**/*.rt", recursive=True))


def renamed():
    names = {}
    for p in antt_files():
        if re.search(r"/proofs/.*/(Answers|Invariants)\.antt$", p):
            continue
        walked = p.endswith("/Proof.antt")  # its goals and its last line are named by the check
        for line in open(p, encoding="utf-8"):
            if walked and re.search(r":\s.*\b(tie\.|statement M)", line):
                continue
            found = [m.group("n") for r in DECLARED for m in [r.match(line)] if m]
            m = CONSTRUCTORS.match(line)
            if m and not line.lstrip().startswith(("--", "use ", "let ", "in ")):
                found += m.group("ns").split()
            for n in found:
                if n in ("use", "mod", "where", "infix", "infixl", "infixr", "module", "section", "open", "pub"):
                    continue
                if OPERANDS.match(n) or not re.search(r"[A-Z\-]", n) or not re.fullmatch(r"[\w'\-+]+", n):
                    continue
                names[n] = snake(n)
    # two names that would fall together: the one with a dash is the lemma, and says so
    heads = {names[n] for n in names if "-" not in n}
    for n in names:
        if "-" in n and (names[n] in heads or n in NAMED_ALREADY):
            names[n] += "_lem"
    return names


def turn(text, names, pattern):
    return pattern.sub(lambda m: names[m.group(0)], text)


def spans_of_clauses(text):
    """Where a clause or a ghost line stands in a source file: (start, end) pairs."""
    spans = []
    for m in re.finditer(r"^\s*ghost use [^;]*;", text, re.M):
        spans.append(m.span())
    for m in re.finditer(r"\b(?:requires|ensures|ghost)\b\*?(?:\s+[a-z_0-9]+)?\s*:?\s*\{", text):
        depth, i = 0, m.end() - 1
        while i < len(text):
            if text[i] == "{":
                depth += 1
            elif text[i] == "}":
                depth -= 1
                if depth == 0:
                    break
            i += 1
        spans.append((m.start(), i + 1))
    return sorted(spans)


def main():
    names = renamed()
    if "--list" in sys.argv:
        for n in sorted(names):
            print(n, names[n])
        return
    olds = sorted(names, key=len, reverse=True)
    every = re.compile(f"(?<!{WORD})(?:" + "|".join(re.escape(n) for n in olds) + f")(?!{WORD})")
    capitals = [n for n in olds if re.search(r"[A-Z]", n)]
    spoken = re.compile(f"(?<!{WORD})(?:" + "|".join(re.escape(n) for n in capitals) + f")(?!{WORD})")
    for p in antt_files():
        text = open(p, encoding="utf-8").read()
        for where, first in FIRST.items():
            if p.startswith(where) and "/Proof.antt" not in p or p == where:
                for old, new in first.items():
                    text = re.sub(rf"(?<!{WORD}){old}(?!{WORD})", new, text)
        had = set(re.findall(r"(?<![\w'\-])[a-z_][\w'\-]*", re.sub(r"--.*", "", text)))
        lines = []
        for line in text.split("\n"):
            code, dash, said = line.partition("-- ") if re.match(r"\s*-- ", line) else (line, "", "")
            lines.append(turn(code, names, every) + dash + turn(said, names, spoken))
        new = "\n".join(lines)
        for n in sorted(had & set(names)):
            if names[n] in had:
                print(f"{p}: {n} becomes {names[n]}, which stands there already")
        open(p, "w", encoding="utf-8").write(new)
    for p in rust_files():
        text = open(p, encoding="utf-8").read()
        out, at = [], 0
        for a, b in spans_of_clauses(text):
            if a < at:
                continue
            out.append(turn(text[at:a], names, spoken))
            piece = text[a:b]
            for n in sorted(set(every.findall(piece))):
                if not piece.lstrip().startswith("ghost use") and re.search(rf"(?<!{WORD}){re.escape(names[n])}(?!{WORD})", piece):
                    print(f"{p}: {n} becomes {names[n]}, which stands in the same clause")
            out.append(turn(piece, names, every))
            at = b
        out.append(turn(text[at:], names, spoken))
        new = "".join(out)
        if new != text:
            open(p, "w", encoding="utf-8").write(new)
    for p in sorted(glob.glob("crates/*/must-fail/*.edit")):
        text = open(p, encoding="utf-8").read()
        new, file = [], ""
        for line in text.split("\n"):
            if line.startswith("file: "):
                file = line[6:]
            if line.startswith(("old: ", "new: ")):
                line = turn(line, names, every if file.endswith(".antt") or "≡" in line or "ghost use" in line else spoken)
            new.append(line)
        new = "\n".join(new)
        if new != text:
            open(p, "w", encoding="utf-8").write(new)


if __name__ == "__main__":
    if not os.path.isdir("crates"):
        sys.exit("spelling.py: run it at the top of the repository, where crates/ is")
    main()
