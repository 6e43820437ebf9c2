#!/usr/bin/env python3
"""Respells the repository's own definitions, lemmas, fields and local names in snake case, as the kit's are: `faultOf` is `fault_of`, `rows-none` is `rows_none`.

usage: python3 tools/respell.py [--dry] in a checkout that the kit's port.py has just turned. Names of the kit, functions of src/, types and modules, strings and what
Rattle itself makes keep theirs. Names that would fall together are told apart by APART, and the run stops if any are left.
"""
import collections
import glob
import os
import re
import sys

# names that would fall together with another of the same scope, or with a word of the kit or of a clause
APART = {
    "clausesIn": "clauses_inside",
    "lineCount": "count_of_lines",
    "oneLine": "exactly_one_line",
    "clausesOk": "clauses_are_ok",
    "formulaOk": "formula_is_ok",
    "freeOk": "free_is_ok",
    "inForm": "in_the_form",
    "levelsOk": "levels_are_ok",
    "limitsOk": "limits_are_ok",
    "numbersOk": "numbers_are_ok",
    "prefixOk": "prefix_is_ok",
    "recordsOk": "records_are_ok",
    "restOk": "rest_is_ok",
    "stepOk": "step_is_ok",
    "storeOk": "store_is_ok",
}

TOKEN = re.compile(r"[^\s(){}\[\];,.:=|\\@\"«»`]+")
HUMP = re.compile(r"(?<=[a-zα-ω0-9])(?=[A-Z])")
SIGNATURE = re.compile(r"^\s*(?:(?:abbrev|unfoldable|pub|opaque) )*([^\s(){}:;,.=]+(?: [^\s(){}:;,.=]+)*) :(?= |$)", re.M)
USE = re.compile(r"^\s*(?:ghost |pub )*use (\S+?)\.\{([^}]*)\}", re.M)


def plain(text):
    """The text with comments and strings blanked, of the same length."""
    def blank(m):
        return re.sub(r"[^\n]", " ", m[0])

    return re.sub(r"(?m)(^|(?<=\s))--(?=\s|$).*$|//.*$|\"(?:[^\"\\\n]|\\.)*\"", blank, text)


def odd(name):
    """Whether a name is in no snake case and no type's or module's."""
    lower = name[0].islower() or not name[0].isalpha()
    return bool((lower and HUMP.search(name)) or re.search(r"[\w'′→]-[\w'′→≤≡<]|[→≤≡<]-\w", name))


def snake(name):
    if name in APART:
        return APART[name]
    name = name.replace("-", "_")
    parts = name.split("_")
    return "_".join(p if p[:1].isupper() else HUMP.sub("_", p).lower() if HUMP.search(p) else p for p in parts)


def files(root):
    for pattern in ("specs", "proofs"):
        yield from glob.glob(f"{root}/crates/*/{pattern}/**/*.antt", recursive=True)
    yield from glob.glob(f"{root}/crates/*/src/**/*.rt", recursive=True)


def imported(text, crates):
    """The names that a file takes from the kit, and those that it takes from a crate of the repository."""
    kit, own = set(), set()
    for m in USE.finditer(text):
        module = m[1].split(".")
        mine = module[0] == "Rattle" and len(module) > 1 and module[1] in crates
        (own if mine else kit).update(n.strip() for n in m[2].split(","))
    return kit, own


def declared(text):
    names = set()
    for m in SIGNATURE.finditer(text):
        names.update(m[1].split())
    names.update(m[1] for m in re.finditer(r"(?:record|data) ([^\s(){}:]+)", text))
    return names


def main(argv):
    root = "."
    dry = "--dry" in argv
    crates = set(os.listdir(f"{root}/crates"))
    texts = {f: open(f, encoding="utf8").read() for f in sorted(files(root))}
    plains = {f: plain(t) for f, t in texts.items()}
    fields = set()
    names = collections.defaultdict(set)
    for f, t in plains.items():
        if f.endswith(".antt") and not f.endswith("/Proof.antt"):
            for n in declared(t):
                names[n].add(f)
    kit_all = set()
    for f, t in plains.items():
        kit_all |= imported(t, crates)[0]
    renamed = {n: snake(n) for n in names if odd(n)}
    clash = collections.defaultdict(set)
    for n in names:
        clash[renamed.get(n, n)].add(n)
    # a lemma that would have its function's name gets `_lem`
    for new, olds in sorted(clash.items()):
        functions = [n for n in olds if HUMP.search(n)] or [n for n in olds if n == new]
        if len(olds) > 1 and len(functions) == 1:
            for n in sorted(olds - set(functions)):
                renamed[n] = new + "_lem"
                print(f"lemma: {n} is {renamed[n]}, beside {functions[0]}", sorted(names[n])[:2])
    clash = collections.defaultdict(set)
    for n in names:
        clash[renamed.get(n, n)].add(n)
    bad = 0
    for new, olds in sorted(clash.items()):
        if len(olds) > 1:
            # together only where one file sees both
            seen = [f for f, t in plains.items() if len({o for o in olds if re.search(r"(?<![\w'.-])" + re.escape(o) + r"(?![\w'-])", t)}) > 1]
            print("together:", new, sorted(olds), {o: sorted(names[o])[:3] for o in olds}, "seen in", seen[:4])
            bad += len(seen) > 0
    changed = 0
    for f, t in texts.items():
        p = plains[f]
        kit, own = imported(p, crates)
        mine = declared(p) if f.endswith(".antt") else set()
        walk = f.endswith("/Proof.antt")
        rust = f.endswith(".rt")
        taken = kit - own - mine
        out, last = [], 0

        def new_name(tok, start, text):
            if not odd(tok) and tok not in renamed:
                return tok
            dotted = text[start - 1 : start] == "."
            if dotted:
                if walk and "-" in tok:
                    return tok
                return renamed.get(tok, tok)
            if rust and tok not in own and not (HUMP.search(tok) and tok in renamed):
                return tok
            if walk and tok not in own and tok not in mine and not (tok in renamed and tok not in taken):
                return tok
            if tok in taken:
                return tok
            return renamed.get(tok) or snake(tok)

        for m in TOKEN.finditer(p):
            tok = m[0]
            new = new_name(tok, m.start(), p)
            if new != tok:
                out += [t[last : m.start()], new]
                last = m.end()
        out.append(t[last:])
        done = "".join(out)
        # names that a comment has in backticks
        done = re.sub(r"`([^`\n]+)`", lambda m: "`" + TOKEN.sub(lambda k: renamed.get(k[0], k[0]), m[1]) + "`", done)
        if done != t:
            changed += 1
            if not dry:
                open(f, "w", encoding="utf8").write(done)
    # names of the kit that a renamed one now falls together with in one file
    for f, t in plains.items():
        kit, own = imported(t, crates)
        for n in own | (declared(t) if f.endswith(".antt") else set()):
            if n in renamed and renamed[n] in kit:
                print("the kit's:", f, n, renamed[n])
                bad += 1
    print(f"{len(renamed)} names, {changed} files", "(dry)" if dry else "")
    return 1 if bad else 0


if __name__ == "__main__":
    raise SystemExit(main(sys.argv[1:]))
