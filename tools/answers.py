#!/usr/bin/env python3
"""Writes Invariants.antt and Answers.antt from proofs that walk the code by hand (Proof.antt), by the names that the check gives both forms.

usage: python3 tools/answers.py CRATE..   at the top of the checkout, where the crates below stand proved. A Proof.antt that it turned is removed; what it could not
turn it says, and the check decides. Trivial answers are left to the check.
"""
import glob
import json
import os
import re
import subprocess
import sys
import tempfile

SEG = r"[^\s(){}\[\];,.:=|\\@\"«»`]+"
PATH = re.compile(r"(?<![\w.'-])([A-Za-zκλ_][\w'₀-₉]*(?:-\w+)*)((?:\.(?:" + SEG + r"))+)?(?![\w'₀-₉-])")
UNKNOWN = "(search rules)"
TRIVIAL = re.compile(r"^(search rules|omega arith|tt)$")


def norm(name):
    return re.sub(r"-lem(?=-|$)", "", re.sub(r"^overflow-", "", name.replace("_", "-").lower()))


def functions(root):
    """Of each function of the repository: its parameters, which are `&mut`, and the names of its clauses."""
    found = {}
    for f in glob.glob(f"{root}/crates/*/src/**/*.rt", recursive=True):
        crate, rest = f.split("/crates/")[1].split("/src/")
        mods = [m for m in rest[:-3].split("/") if m not in ("lib", "main", "mod")]
        text = open(f, encoding="utf8").read()
        for m in re.finditer(r"^(\s*)(?:#\[[^\]]*\]\s*)?(?:pub )?(?:extern \"C\" )?(?:unsafe )?(?:extern \"C\" )?fn (\w+)(?:<[^>]*>)?\(", text, re.M):
            i, deep = m.end(), 1
            while deep:
                deep += text[i] in "(["
                deep -= text[i] in ")]"
                i += 1
            params = [p.strip() for p in re.split(r",(?![^\[(]*[\])])", text[m.end() : i - 1]) if p.strip()]
            end = re.compile(r"^" + m[1] + r"\{$|\{$", re.M).search(text, i)
            head = re.split(r"\n" + m[1] + r"\{\n", text[i:], maxsplit=1)[0] if "\n" + m[1] + "{\n" in text[i:] else text[i : i + 200]
            nxt = re.search(r"\n(?:pub )?fn ", head)
            if nxt:
                head = head[: nxt.start()]
            clauses = {k: re.findall(r"^\s*" + k + r"\*? ?(\w*) ?\{", head, re.M) for k in ("requires", "ensures")}
            names = [re.sub(r"^(mut )?", "", p.split(":")[0].strip()) for p in params]
            muts = [n for n, p in zip(names, params) if re.search(r":\s*&('\w+ )?mut\b", p)]
            found["::".join([crate, *mods, m[2]])] = dict(params=names, muts=muts, **clauses)
    return found


def declarations(text):
    """The head's comment, the `use` lines, and the declarations, each as (comment, mark, name, type, args, body)."""
    lines = text.split("\n")
    head, uses, blocks, cur = [], [], [], []
    i = 0
    while i < len(lines) and lines[i].startswith("--"):
        head.append(lines[i])
        i += 1
    for line in lines[i:]:
        if line.startswith("use "):
            uses.append(line)
        elif line and not line[0].isspace() and not line.startswith(")") and not line.startswith("]") and not line.startswith("}"):
            cur.append(line)
            blocks.append(cur) if False else None
        else:
            cur.append(line)
    # group: a declaration begins at a signature at column 0
    out, group = [], []
    sig = re.compile(r"^(?:abbrev |pub |unfoldable )*(\S+) :(?: |$)")
    for line in lines[i:]:
        if line.startswith("use "):
            continue
        if sig.match(line) or line.startswith(("record ", "pub record", "data ", "module ")):
            out.append(group)
            group = [line]
        elif line.startswith("--"):
            out.append(group)
            group = [line]
        else:
            if group and all(g.startswith("--") for g in group) and sig.match(line):
                pass
            group.append(line)
    out.append(group)
    merged = []
    for g in out:
        while g and not g[-1].strip():
            g.pop()
        if not g:
            continue
        if merged and all(x.startswith("--") for x in merged[-1]):
            merged[-1] = merged[-1] + g
        else:
            merged.append(g)
    decls = []
    for g in merged:
        comment = []
        while g and g[0].startswith("--"):
            comment.append(g[0])
            g = g[1:]
        if not g:
            continue
        m = sig.match(g[0])
        if not m:
            decls.append(dict(comment=comment, name=None, text="\n".join(g), mark="", type="", args=[], body=""))
            continue
        name = m[1]
        # the type goes on until the line that defines the name
        k = 1
        while k < len(g) and not re.match(re.escape(name) + r"(\s|$)", g[k]):
            k += 1
        typ = "\n".join([g[0][m.end() :]] + g[1:k]).strip()
        unf = re.findall(r"^unfolding .*$", typ, re.M)
        typ = re.sub(r"\n?unfolding .*$", "", typ, flags=re.M).strip()
        rest = "\n".join(g[k:])
        starts = [x.start() for x in re.finditer(r"^" + re.escape(name) + r"(?=\s|$)", rest, re.M)]
        clauses = []
        for a, b in zip(starts, starts[1:] + [len(rest)]):
            one = re.match(re.escape(name) + r"((?:\s+(?:[^\s=()]+|\([^=]*?\)))*?)\s*=(?=\s|$)", rest[a:b])
            clauses.append((re.findall(r"\([^=]*?\)|[^\s()]+", one[1]), rest[a:b][one.end() :].strip("\n")) if one else ([], ""))
        dm = re.match(re.escape(name) + r"((?:\s+[^\s=]+)*?)\s*=(?=\s|$)", rest)
        decls.append(
            dict(comment=comment, name=name, mark=g[0][: m.start(1)], type=typ, unfolding=unf, clauses=len(clauses), parts=clauses, args=dm[1].split() if dm else [], body=rest[dm.end() :].strip("\n") if dm else "", text="\n".join(g))
        )
    return head, uses, decls


def nested(parts):
    """Clauses as the nested pairs that older proofs read."""
    return parts[0] if len(parts) == 1 else f"({parts[0]}, {nested(parts[1:])})"


def clause_at(named, digits):
    """The clause that a path into the nested pairs leads to, and the rest of the path."""
    k = 0
    while k < len(named) - 1 and k < len(digits) and digits[k] == "1":
        k += 1
    if k == len(named) - 1:
        return named[k], digits[k:]
    return (named[k], digits[k + 1 :]) if k < len(digits) and digits[k] == "0" else (None, digits)


def projection(k, n):
    return ".".join(["1"] * k + (["0"] if k < n - 1 else []))


def tuple_parts(t):
    """What stands before the tuple at the text's end, and its parts; or None."""
    if not t.endswith(")"):
        return None
    deep, i = 0, len(t) - 1
    while i >= 0:
        deep += t[i] == ")"
        deep -= t[i] == "("
        if deep == 0:
            break
        i -= 1
    parts, last, deep = [], i + 1, 0
    for k in range(i + 1, len(t) - 1):
        if t[k] in "([{":
            deep += 1
        elif t[k] in ")]}":
            deep -= 1
        elif t[k] == "," and deep == 0:
            parts.append(t[last:k].strip())
            last = k + 1
    parts.append(t[last : len(t) - 1].strip())
    return t[:i], [p for p in parts if p]


def recorded(body, names):
    """The body with its last tuple as a record of these clauses."""
    t = body.rstrip()
    got = tuple_parts(t)
    if got and (got[0].strip() == "" or re.search(r"(^|\s)in$", got[0].rstrip())):
        before, parts = got
        while len(parts) < len(names):
            more = tuple_parts(parts[-1])
            if not more or more[0].strip() or len(more[1]) < 2:
                break
            parts = parts[:-1] + more[1]
        if len(parts) == len(names):
            return before + "record { " + "; ".join(f"{n} = {p}" for n, p in zip(names, parts)) + " }"
    m = re.match(r"(?s)(.*\sin(?=\s))(.*)$", t)
    head, tail = ("", t)
    if m and re.match(r"\s*let\b", t):
        head, tail = m[1] + " ", m[2].strip()
    return f"{head}let both = {tail.strip()} in record {{ " + "; ".join(f"{n} = both.{projection(k, len(names))}" for k, n in enumerate(names)) + " }"


class Turn:
    def __init__(self, crate, rel, names, fns, left):
        self.crate, self.rel, self.n, self.fns, self.left = crate, rel, names, fns, left
        self.places = names["places"]
        self.index = {}
        for i, p in enumerate(self.places):
            self.index.setdefault(norm(p[0]), i)
        self.macros = {}
        self.helpers = {}
        self.inv_names = set()

    def parent(self, i):
        p = self.places[i][1]
        return None if p is None else self.index.get(norm(p))

    def say(self, what):
        self.left.append(f"{self.crate}/{self.rel}: {what}")

    def own(self):
        return "::".join([self.crate, *self.rel.split("/")])

    def callee(self, need):
        """The clauses that a goal `f-requires` asks for, where they are several."""
        m = re.match(r"(.*)-requires(-\d+)?$", norm(need))
        if not m:
            return None
        fits = [f for f in self.fns if norm(f.split("::")[-1]) == re.sub(r"-\d+$", "", m[1]) or norm(f.split("::")[-1]) == m[1]]
        mine = [f for f in fits if f.startswith(self.crate + "::")] or fits
        return self.clause_names(mine[0], "requires") if mine else None

    def clause_names(self, fn, kind):
        it = self.fns.get(fn)
        return it[kind] if it and len(it[kind]) > 1 else None

    def step(self, place, at, name):
        """The place of a step of that name, nearest to the place named."""
        name = {"type_size": "size_of", "type-size": "size_of"}.get(name, name)
        for want in (norm, lambda x: re.sub(r"-?[0-9]+$", "", norm(x))):
            if want(self.places[place][2][0]) == want(name):
                return place
            chain, j = [], at
            while j is not None:
                chain.append(j)
                j = self.parent(j)
            here = chain.index(place) if place in chain else len(chain)
            fits = [k for k, j in enumerate(chain) if self.places[j][2][0] and want(self.places[j][2][0]) == want(name)]
            if fits:
                return chain[min(fits, key=lambda k: abs(k - here))]
        return None

    def arm(self, at, step, path):
        """What an arm of a match has for a path of a step."""
        j = at
        while j is not None:
            it = self.n["arms"][j]
            for field, st, front in (it[2] if it else []):
                if norm(st) == norm(step) and front and path[: len(front)] == front:
                    return ".".join([it[0], field, *path[len(front) :]])
            j = self.parent(j)
        return None

    def tail(self, place, segs, root, at, whole):
        """What stands for .segs at a place."""
        segs = [{"inv": "invariant", "taken": "true", "last": "new"}.get(s, s) if k == 1 and segs[0] != "args" else s for k, s in enumerate(segs)]
        segs = ["requires", *segs[1:]] if segs[0] == "pre" else segs
        segs = [s.replace("-", "_") if s in ("type-inv", "ref-ptr", "well-formed") else s for s in segs]
        if segs[0] in ("args", "requires", "ranges", "lifetimes", "well_formed"):
            if segs[0] == "requires" and len(segs) > 1 and segs[1].isdigit():
                named = self.clause_names(self.own(), "requires")
                if named:
                    name, rest = clause_at(named, segs[1:])
                    if name:
                        segs = ["requires", name, *rest]
            if segs == ["requires"] and self.clause_names(self.own(), "requires"):
                return nested([f"{root}.requires.{n}" for n in self.clause_names(self.own(), "requires")])
            if segs[0] == "args" and len(segs) > 1:
                named = {norm(a[0].split(" .")[-1]): a[1].split(" .")[-1] for a in self.n["args"] if a[0].startswith(".args ")}
                segs[1] = named.get(norm(segs[1]), segs[1].replace("-", "_"))
            return root + "." + ".".join(segs)
        j = self.step(place, at, segs[0])
        if j is None:
            self.say(f"no step {segs[0]} at {self.places[place][0]} ({whole})")
            return UNKNOWN
        step_old, step_new = self.places[j][2]
        arm = self.arm(at, step_old, segs[1:])
        if arm:
            return root + "." + arm
        if len(segs) > 1 and segs[1] == "given":
            for k in (at, place, j):
                for var, st in self.n["typed"][k]:
                    if st == step_old:
                        return root + ".type_inv." + var + "".join("." + s for s in segs[2:])
            fn = self.places[j][3]
            if fn:
                segs[1] = "type_inv"
            elif segs[1:] == ["given"]:
                return f"{root}.{step_new}.given"
            else:
                return UNKNOWN
        fn = self.places[j][3]
        if fn and len(segs) > 2 and segs[2].isdigit():
            k = int(segs[2])
            params = self.n["params"].get(fn) or self.fns.get(fn, {}).get("params") or []
            if segs[1] in ("new", "auto") and params:
                k = 0
                while len(segs) > 2 and segs[2] == "1":
                    k += 1
                    segs = segs[:2] + segs[3:]
                if len(segs) > 2 and segs[2] == "0":
                    segs = segs[:2] + segs[3:]
                if k < len(params):
                    segs[2:2] = [params[k]]
                else:
                    self.say(f"{whole}: no such parameter of {fn}")
            if segs[1] == "ensures":
                named = self.clause_names(fn, "ensures")
                if named:
                    name, rest = clause_at(named, segs[2:])
                    if name:
                        segs = segs[:2] + [name, *rest]
        if fn and segs[1:] == ["ensures"] and self.clause_names(fn, "ensures"):
            return nested([f"{root}.{step_new}.ensures.{n}" for n in self.clause_names(fn, "ensures")])
        segs = segs[:1] + [x.replace("-", "_") if k else x for k, x in enumerate(segs[1:])]
        return root + "." + step_new + "".join("." + s for s in segs[1:])

    def place_of(self, base, segs, env):
        """(place, rest) of a path, or None."""
        if base not in env:
            return None
        it = env[base]
        place, rest = (it, list(segs)) if isinstance(it, int) or it is None else (it[0], it[1] + list(segs))
        while rest and rest[0] == "before" and place is not None:
            up = self.parent(place)
            place = place if up is None else up
            rest = rest[1:]
        return (place, rest) if place is not None else None

    def text(self, body, env, root, at, goal):
        """The body with its paths turned. env has the names that stand for places."""
        env = dict(env)
        body = re.sub(r"\.«([\w-]+)»", r".\1", body)
        def aliases(body):
            while True:
                for m in re.finditer(r"let ([\w-]+) = (\w+)((?:\.[\w'-]+)*) in\b[ ]?", body):
                    got = self.place_of(m[2], [s for s in m[3].split(".") if s], env)
                    if got and (len(got[1]) < 2 or got[1][-1] in ("requires", "ensures", "new", "given")):
                        env[m[1]] = (got[0], got[1])
                        body = body[: m.start()] + body[m.end() :]
                        break
                else:
                    return body

        body = aliases(body)
        # macros: (start c.before) is a place
        again = True
        while again:
            again = False
            for name, (frm, to) in self.macros.items():
                for m in re.finditer(r"\(" + re.escape(name) + r" (\w+)((?:\.before)*)\)", body):
                    got = self.place_of(m[1], [s for s in m[2].split(".") if s], env)
                    if got is None:
                        continue
                    fresh = f"zzplace{len(env)}"
                    env[fresh] = to
                    body = body[: m.start()] + fresh + body[m.end() :]
                    again = True
                    break
                if again:
                    break
                m = re.search(r"let (\w+) = " + re.escape(name) + r" (\w+)((?:\.before)*) in\b", body)
                if m and self.place_of(m[2], [s for s in m[3].split(".") if s], env):
                    env[m[1]] = to
                    body = body[: m.start()] + body[m.end() :]
                    again = True
                    break
        body = aliases(body)
        # a helper over a place is a `let` of the answer
        wanted = []
        for name in self.helpers:
            def call(m):
                var, rest = (m[2], m[3]) if m[2] else (m[4], m[5])
                if self.place_of(var, [s for s in (rest or "").split(".") if s], env) is None:
                    return m[0]
                if name not in wanted:
                    wanted.append(name)
                return name + (m[6] or "")

            body = re.sub(r"(?<![\w.'-])" + re.escape(name) + r"\s+(\((\w+)((?:\.before)*)\)|(\w+)((?:\.before)*))(?![\w'-])((?:\.[\w'-]+)*)", call, body)

        def sub(m):
            segs = [s for s in (m[2] or "").split(".") if s]
            got = self.place_of(m[1], segs, env)
            if got is None:
                return m[1] + "".join("." + s.replace("-", "_") for s in segs) if segs and m[1] not in ("tie", "goal") and not m[1][0].isupper() else m[0]
            place, rest = got
            if not rest:
                if place == at:
                    return root
                self.say(f"the place {m[0]} at {goal}")
                return m[0]
            return self.tail(place, rest, root, at, m[0]) or m[0]

        body = PATH.sub(sub, body)
        body = re.sub(r"(?<![\w.'-])" + root + r"(?:\.before)+\.(args|requires|ranges)\b", root + r".\1", body)
        lets = ""
        for name in self.helpers:
            if name in wanted:
                h = self.helpers[name]
                typ = self.text(h["type"], {h["var"]: h["place"]}, root, at, goal).strip()
                inner = self.text(h["body"], {h["arg"]: h["place"]}, root, at, goal).strip()
                if h["args"]:
                    inner = f"λ {' '.join(h['args'])}. {inner}"
                lets += f"let {name} : {typ} = {inner} in\n    "
        body = lets + body
        body = re.sub(r"\((?:not[-_]true|not[-_]false) (?:_|[\w.-]+|\((?:[^()]|\([^()]*\))*\)) (\w+\.[\w.-]+\.(?:true|false))\)", r"\1§", body)
        body = re.sub(r"(?<![\w'-])(?:not[-_]true|not[-_]false) (?:_|[\w.-]+|\((?:[^()]|\([^()]*\))*\)) (\w+\.[\w.-]+\.(?:true|false))(?![\w.-])", r"\1§", body)
        body = re.sub(r"(?<![\w.'-])(\w+\.if-not-[\w-]+\.(?:true|false))(?!§)", lambda m: f"(ap not {m[1]}§)", body)
        body = re.sub(r",\s*\(search rules\)(\.[\w-]+)*(?=\s*[,)])", "", body) if "omega" in body else body
        return re.sub(r"\n[ ]*\n", "\n", body)

    def needs(self):
        known = {}
        for i, (old, new) in enumerate(self.n["needs"]):
            known.setdefault(norm(old), i)
        return known

    def turn(self, head, uses, decls):
        known = self.needs()
        invariants, answers, trivial = [], [], 0
        loops = {norm(l[0][0]): (i, l) for i, l in enumerate(self.n["loops"])}
        taken = set()
        order = []
        for d in decls:
            if d["name"] and d["name"].endswith("_spec") and "statement" in d["type"]:
                m = re.search(r"tie\.spec((?:\s+[^\s()]+)*)", d["body"])
                order = m[1].split() if m else []
        wants = [d for d in decls if d["name"] and re.match(r"tie\.Need-", d["type"])]
        plain = [n for n in order if any(n == d["name"] for d in wants)]
        # macros first
        for d in decls:
            m = d["name"] and re.match(r"tie\.(\S+?)(?: .*?)? → tie\.(\S+)", d["type"])
            if m and len(d["args"]) == 1 and re.match(r"^\w+(\.before)*$|^\w+ \(?\w+(\.before)*\)?$", d["body"].strip()):
                a, b = self.index.get(norm(m[1])), self.index.get(norm(m[2]))
                if a is not None and b is not None:
                    self.macros[d["name"]] = (a, b)
                    d["done"] = True
        # helpers over a place
        for d in decls:
            if d.get("done") or not d["name"] or not d["args"] or d["clauses"] != 1:
                continue
            t = d["type"]
            m = re.match(r"\((\w+) : tie\.([^\s)]+)(?: [^)]*)?\)\s*→?", t)
            var, place = (m[1], m[2]) if m else (None, None)
            if not m:
                m = re.match(r"tie\.(?!Need|invariant|decreases)(\S+?)(?: (?:invariant|decreases)_\S+)*\s*→", t)
                var, place = ("zznone", m[1]) if m else (None, None)
            if m and self.index.get(norm(place)) is not None:
                self.helpers[d["name"]] = dict(var=var, place=self.index[norm(place)], type=t[m.end() :].strip(), arg=d["args"][0], args=d["args"][1:], body=d["body"])
        for d in decls:
            if d.get("done"):
                continue
            t = d["type"]
            if d["name"] is None:
                answers.append((d, d["text"]))
                continue
            if d["name"].endswith("_spec") and "statement" in t:
                continue
            m = re.match(r"tie\.(invariant|decreases)-(\S+)", t)
            if m:
                got = loops.get(norm(m[2]))
                if not got:
                    self.say(f"no loop {m[2]}")
                    continue
                i, ((old, new), live) = got
                changed = self.n["changed"][i]
                args, body = d["args"], d["body"]
                cur = [v for v, c in zip(live, changed) if c]
                if len(args) != len(live) + len(cur):
                    self.say(f"loop {old}: {len(args)} arguments for {live} and {cur}")
                    invariants.append((d, d["text"]))
                    continue
                to = {}
                for a, v, c in zip(args, live, changed):
                    to[a] = f"l.initial.{v}" if c else f"l.{v}"
                for a, v in zip(args[len(live) :], cur):
                    to[a] = f"l.{v}"
                body = re.sub(r"(?<![\w.'-])([^\s(){}\[\];,.:=|\\@\"«»`]+)", lambda k: to.get(k[1], k[1]), body)
                name = f"{m[1]}-{new}"
                invariants.append((d, f"abbrev pub {name} : goal.{name}\n{name} l = {body.strip()}"))
                continue
            m = re.match(r"tie\.Need-(\S+)", t)
            if m:
                i = known.get(norm(m[1]))
                if i is None and d["name"] in plain and len(plain) == len(self.n["needs"]):
                    i = plain.index(d["name"])
                if i is None:
                    body = d["body"].strip()
                    if TRIVIAL.match(body):
                        trivial += 1
                        continue
                    self.say(f"no goal {m[1]} for {d['name']}")
                    i = None
                    answers.append((d, "-- TODO " + d["text"].replace("\n", "\n-- ")))
                    continue
                new = self.n["needs"][i][1]
                taken.add(i)
                body = d["body"].strip("\n")
                if TRIVIAL.match(body.strip()):
                    trivial += 1
                    continue
                where = self.index.get(norm(self.n["asked_at"][i][0]))
                if not d["parts"] or not d["parts"][0][0]:
                    self.say(f"{d['name']}: no argument")
                    continue
                unf = "".join(u + "\n" for u in d["unfolding"])
                out = f"pub {new} : goal.{new}\n{unf}"
                for args, body in d["parts"]:
                    body = self.text(body, {args[0]: where}, "c", where, new)
                    named = self.clause_names(self.own(), "ensures") if new.startswith("returns") else self.callee(self.n["needs"][i][0])
                    if named and len(d["parts"]) == 1:
                        body = recorded(body, named)
                    more = "".join(" " + x for x in args[1:] if x != "κs")
                    out += f"{new} c{more} = {body.strip()}\n"
                answers.append((d, out.rstrip("\n")))
                continue
            if d["name"] in self.helpers:
                continue
            if "tie." in t:
                self.say(f"helper {d['name']} : {t[:60]}")
            inv_bodies = " ".join(x[1] for x in invariants) + " ".join(x["body"] for x in decls if re.match(r"tie\.(invariant|decreases)-", x["type"]))
            if re.search(r"(?<![\w'-])" + re.escape(d["name"]) + r"(?![\w'-])", inv_bodies):
                mark = d["mark"] if "pub" in d["mark"] else d["mark"] + "pub "
                invariants.append((d, re.sub(r"^(?:abbrev |pub |unfoldable )*", mark, d["text"], count=1)))
                self.inv_names.add(d["name"])
            else:
                answers.append((d, d["text"]))
        return invariants, answers, trivial


def used(text, uses, extra=()):
    """The `use` lines of the names that the text has."""
    out = []
    words = set(re.findall(r"[^\s(){}\[\];,.:=|\\@\"«»`]+", text))
    for u in uses:
        m = re.match(r"use (\S+?)\.\{(.*)\}$", u)
        if not m:
            am = re.match(r"use \S+ as (\S+)$", u)
            if am and am[1] in ("tie",):
                continue
            if am and not re.search(r"(?<![\w'-])" + re.escape(am[1]) + r"\.", text):
                continue
            out.append(u)
            continue
        if m[1].endswith((".Statement", ".Tie")):
            continue
        keep = []
        for n in (x.strip() for x in m[2].split(",")):
            n0 = n.split(" as ")[-1]
            parts = [p for p in n0.split("◌") if p]
            if all(p in words or p in text for p in parts):
                keep.append(n)
        if keep:
            out.append(f"use {m[1]}.{{{', '.join(keep)}}}")
    return out


def crate_names(root, crate):
    with tempfile.TemporaryDirectory() as d:
        r = subprocess.run(["rt", "check", "--generated", d, "--old-names"], cwd=f"{root}/crates/{crate}", capture_output=True, text=True)
        try:
            return json.load(open(f"{d}/names.json"))
        except OSError:
            print(r.stdout[-1500:], r.stderr[-800:])
            return None


def main(argv):
    root = os.getcwd()
    fns = functions(root)
    left = []
    for crate in argv:
        names = crate_names(root, crate)
        if names is None:
            print(f"{crate}: no names")
            continue
        n = 0
        for key, it in names.items():
            m = re.match(r"Rattle-(\w+)-proofs\.(.*)\.Lts$", key)
            if not m or m[1] != crate:
                continue
            rel = m[2].replace(".", "/")
            folder = f"{root}/crates/{crate}/proofs/{rel}"
            path = f"{folder}/Proof.antt"
            if not os.path.exists(path):
                continue
            text = open(path, encoding="utf8").read()
            head, uses, decls = declarations(text)
            turn = Turn(crate, rel, it, fns, left)
            try:
                invariants, answers, trivial = turn.turn(head, uses, decls)
            except Exception as e:  # noqa: BLE001
                left.append(f"{crate}/{rel}: {type(e).__name__} {e}")
                raise
            module = f"Rattle.{crate}.proofs.{m[2]}"

            def write(name, parts, goals, more=()):
                p = f"{folder}/{name}.antt"
                if not parts:
                    if os.path.exists(p):
                        os.remove(p)
                    return
                body = "\n\n".join("\n".join(d["comment"] + [t]) for d, t in parts).replace("§", "")
                for word, line in (("(ap not ", "use mathlib.Core.Path.{ap}"), ("(ap not ", "use mathlib.Core.Bool.{not}")):
                    if word in body and not re.search(r"[{ ]" + line[line.index("{") + 1 : -1] + "[,}]", "\n".join(used(body, uses))):
                        more = [line, *more]
                if UNKNOWN in body and not any("{rules}" in u or ", rules" in u for u in used(body, uses)):
                    more = ["use borrow.Author.Rules.{rules}", *more]
                lines = list(head) + used(body, uses) + list(more) + [f"use {module}.{goals} as goal", "", body, ""]
                open(p, "w", encoding="utf8").write("\n".join(lines))

            write("Invariants", invariants, "Given")
            more = []
            if turn.inv_names:
                joined = "\n".join(t for _, t in answers)
                have = [x for x in sorted(turn.inv_names) if re.search(r"(?<![\w'-])" + re.escape(x) + r"(?![\w'-])", joined)]
                if have:
                    more = [f"use {module}.Invariants.{{{', '.join(have)}}}"]
            write("Answers", answers, "Goals", more)
            os.remove(path)
            n += 1
        for p in glob.glob(f"{root}/crates/{crate}/proofs/**/Proof.antt", recursive=True):
            left.append(f"{crate}: still {p.split('/proofs/')[1]}")
        print(f"{crate}: {n} proofs turned")
    print("\n".join("left: " + x for x in left))
    return 0


if __name__ == "__main__":
    raise SystemExit(main(sys.argv[1:]))
