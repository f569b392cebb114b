#!/usr/bin/env python3
"""Turns walks of an older kit (proofs/F/Proof.antt over a Tie) to Answers.antt and Invariants.antt.

usage: python3 ../../tools/port/answers.py NAMES.json [FUNCTION..]     in a crate's folder
NAMES.json: written by `rt check --generated DIR --old-names`. Without FUNCTION: every Proof.antt that cites its Tie.
Answers that only say `search rules` are left out: the check finds them.
"""

import glob
import json
import os
import re
import sys

WORD = r"[^\W\d][\w'\-₀-₉]*"


def norm(s):
    return s.replace("-", "_").lower()


def blocks(text):
    """Top-level declarations: lists of lines that begin at column 0, with what belongs to them."""
    out, cur = [], []
    for line in text.split("\n"):
        if line.strip() == "":
            if cur and not cur[-1] == "":
                cur.append("")
            continue
        if not line.startswith((" ", "\t", ")", "]")) and cur and cur[-1] == "" :
            out.append(cur)
            cur = []
        cur.append(line)
    if cur:
        out.append(cur)
    res = []
    for b in out:
        while b and b[-1] == "":
            b.pop()
        if b:
            res.append(b)
    return res


def signatures(root):
    """function name -> (crate, names of requires, names of ensures, names of &mut parameters, names of all parameters), by the sources of all crates."""
    out = {}
    for p in sorted(glob.glob(os.path.join(root, "*", "src", "*.rt"))):
        t = re.sub(r"//.*", "", open(p, encoding="utf-8").read())
        crate = p.split(os.sep)[-3]
        for m in re.finditer(r"\bfn (\w+)[^(]*\(((?:[^()]|\([^()]*\))*)\)((?:[^{;\[]|\[[^\]]*\])*?(?:(?:requires|ensures)\b.*?)?)\n\{", t, re.S):
            name, params, clauses = m[1], m[2], m[3]
            kinds = {"requires": [], "ensures": []}
            for c in re.finditer(r"^\s*(requires|ensures)(?: (\w+))? \{", clauses, re.M):
                kinds[c[1]].append(c[2])
            muts = [q[0] for q in re.findall(r"(\w+): (&mut )", params)]
            every = [q for q in re.findall(r"(?:^|,)\s*(?:mut )?(\w+)\s*:(?!:)", params)]
            module = os.path.basename(p)[:-3]
            key = f"{crate}::{name}" if module in ("lib", "main") else f"{crate}::{module}::{name}"
            out.setdefault(key, []).append((crate, kinds["requires"], kinds["ensures"], muts, every))
    return out


def by_clause(parts, names):
    """A path through nested pairs, as a path by clause: ["1", "0"] of three names is [names[1]]."""
    if len(names) < 2:
        return parts
    i, k = 0, 0
    while k < len(names) - 1:
        if i < len(parts) and parts[i] == "0":
            return [names[k]] + parts[i + 1:]
        if i < len(parts) and parts[i] == "1":
            k += 1
            i += 1
            continue
        if i < len(parts) and parts[i].isdigit() and int(parts[i]) < len(names) and i == 0:
            return [names[int(parts[i])]] + parts[1:]
        return parts
    return [names[k]] + parts[i:]


class Function:
    def __init__(self, entry, name, crate=""):
        self.e = entry
        self.name = name
        sigs = SIGNATURES.get("::".join([crate] + name.split(".")), [])
        self.params = sigs[0][4] if len(sigs) == 1 else []
        self.needs = {norm(a): b for a, b in entry["needs"]}
        self.order = [b for a, b in entry["needs"]]
        self.at = {b: entry["asked_at"][i] for i, (a, b) in enumerate(entry["needs"])}
        self.places = {}
        for i, p in enumerate(entry["places"]):
            self.places[p[0]] = (p[1], p[2], entry["places_by_name"][i], entry["typed"][i], entry["arms"][i])
        self.by_norm = {norm(k): k for k in self.places}

    def ancestors(self, place):
        while place is not None:
            yield place
            place = self.places[place][0]

    def arm(self, place, parts):
        """A path through an arm's own step, as the arm's field has it: old `n.given.0.0` is `in-Number.n`."""
        best = None
        for p in self.ancestors(place):
            a = self.places[p][4]
            for new, old, path in (a[2] if a else []):
                if not path or new.endswith("-own"):
                    continue
                if norm(old) == norm(parts[0]) and [norm(x) for x in parts[1:1 + len(path)]] == [norm(x) for x in path]:
                    if best is None or len(path) > best[1]:
                        best = ([a[0], new] + parts[1 + len(path):], len(path))
        return best[0] if best else None

    def field(self, place, f):
        """The flat path of field f of the record at the place."""
        n = norm(f)
        for p in self.ancestors(place):
            own = self.places[p][1]
            if own[0] and norm(own[0]) == n:
                return own[1], True
            for var, step in self.places[p][3] or []:
                if norm(step) == n:
                    return "type_inv." + var, True
        return self.field(place, f[:-4]) if f.endswith("_lem") else (f, False)

    def callee(self, place, f):
        """The name of the function whose call is the step f."""
        for p in self.ancestors(place):
            if self.places[p][1][0] and norm(self.places[p][1][0]) == norm(f):
                i = list(self.places).index(p)
                called = self.e["places"][i][3]
                return called
        return self.callee(place, f[:-4]) if f.endswith("_lem") else None

    def armed(self, place, f):
        """Whether f is an old step of an arm."""
        for p in self.ancestors(place):
            a = self.places[p][4]
            for new, old, path in (a[2] if a else []):
                if path and not new.endswith("-own") and norm(old) == norm(f):
                    return True
        return False

    def resolve(self, place, parts):
        hit = self.arm(place, parts)
        if hit:
            return hit
        if parts[0] in ("requires", "pre"):
            names = (self.e["pre"] or {}).get("fields") or []
            return ["requires"] + by_clause(parts[1:], names)
        if parts[0] == "args" and len(parts) > 1:
            # an argument that was named by its place, as `t5`
            t = re.fullmatch(r"t(\d+)", parts[1])
            if t and parts[1] not in self.params and 0 < int(t[1]) <= len(self.params):
                return ["args", self.params[int(t[1]) - 1]] + parts[2:]
        called = self.callee(place, parts[0])
        f, known = self.field(place, parts[0])
        tail = parts[1:]
        if f.startswith("type_inv.") and tail and tail[0] == "given":
            tail = tail[1:]
        if called and tail:
            sigs = SIGNATURES.get(called, [])
            if tail[0] == "ensures" and sigs:
                tail = ["ensures"] + by_clause(tail[1:], sigs[0][2])
            if tail[0] in ("new", "auto") and len(tail) > 1 and tail[1].isdigit() and sigs:
                # pairs in one another, and a unit at their end
                deep = 1
                while deep < len(tail) and tail[deep] == "1":
                    deep += 1
                k = deep - 1
                if deep < len(tail) and tail[deep] == "0" and k < len(sigs[0][3]):
                    tail = [tail[0], sigs[0][3][k]] + tail[deep + 1:]
        return f.split(".") + tail

    def up(self, place, k):
        for _ in range(k):
            q = self.places[place][0]
            if q is None:
                return place
            place = q
        return place


def convert_body(fn, lines, var_places, need, warn):
    """Rewrites paths. var_places: variable -> (old) place."""
    alias = {v: (v, p, []) for v, p in var_places.items()}
    lets = {}        # a name that a `let` keeps -> its path
    lines = re.sub(r"record \{ s?fits = [\w.\-]*known[-_]told[\w.\-]* \}", "search rules", "\n".join(lines)).split("\n")

    def sub(text):
        path = re.compile(r"(?<![\w.'\-])(" + "|".join(re.escape(v) for v in sorted({**alias, **lets}, key=len, reverse=True)) + r")((?:\.[A-Za-z0-9_\-₀-₉']+)*)(?![\w'])")
        pos, out = 0, []
        while True:
            m = path.search(text, pos)
            if not m:
                break
            if m[1] in lets:
                base, place, parts = lets[m[1]]
                short = fn.resolve(place, parts)
                long = fn.resolve(place, parts + ["type_inv" if x == "type-inv" else x for x in m[2].split(".") if x])
                out.append(text[pos:m.start()] + ".".join([m[1]] + long[len(short):] if long[:len(short)] == short else [base] + long))
                pos = m.end()
                continue
            base, place, parts = alias[m[1]]
            parts = list(parts)
            more = [x for x in m[2].split(".") if x]
            k = 0
            if not parts:
                while more and more[0] == "before":
                    more.pop(0)
                    k += 1
                place = fn.up(place, k)
            parts += ["type_inv" if x == "type-inv" else x for x in more]
            la = re.search(r"let (\w+) = $", text[pos:m.start()])
            ends = re.match(r"\s+in\s", text[m.end():])
            if la and ends:
                open_list = (parts and ((fn.armed(place, parts[0]) and not fn.arm(place, parts)) or (parts == ["requires"] and (fn.e["pre"] or {}).get("fields")) or (len(parts) == 2 and parts[1] == "ensures" and (SIGNATURES.get(fn.callee(place, parts[0]) or "", [(0, 0, [])])[0][2] or [])[1:])))
                if open_list or not parts:
                    out.append(text[pos:m.start()][:la.start()])
                    alias[la[1]] = (base, place, parts)
                    lets.pop(la[1], None)
                    rest = text[m.end() + ends.end():]
                    out.append(sub(rest.lstrip()))
                    return "".join(out)
                out.append(text[pos:m.start()] + base + "." + ".".join(fn.resolve(place, parts)))
                alias.pop(la[1], None)
                lets[la[1]] = (base, place, parts)
                out.append(sub(text[m.end():]))
                return "".join(out)
            out.append(text[pos:m.start()])
            if parts:
                out.append(base + "." + ".".join(fn.resolve(place, parts)))
            else:
                target = fn.places[place][2]
                # facts of no step of the source: what is cited of them are arguments and what is required
                if re.fullmatch(r"After-(shared_slice_known|slice_known|struct_known|struct_told)[\w-]*", target):
                    target = "Start"
                same = place == var_places.get(base)
                out.append(base if same else (f"(goal.at.{need} {base}).{target}" if need else base + ".before" * k))
            pos = m.end()
        out.append(text[pos:])
        return "".join(out)

    return sub("\n".join(lines)).split("\n")


def as_record(text, fields, warn):
    """A last tuple as a record with these fields."""
    deep, start, comps, last = 0, None, [], None
    t = text.rstrip()
    if not t.endswith(")"):
        return text
    k = len(t) - 1
    for i in range(len(t) - 1, -1, -1):
        if t[i] in ")]}":
            deep += 1
        if t[i] in "([{":
            deep -= 1
            if deep == 0:
                start = i
                break
    if start is None or t[start] != "(" or (t[:start].strip() and not re.search(r"( in|=)$", t[:start].rstrip())):
        return text

    def split(x):
        out, cur, d = [], "", 0
        for ch in x:
            if ch in "([{":
                d += 1
            if ch in ")]}":
                d -= 1
            if ch == "," and d == 0:
                out.append(cur)
                cur = ""
            else:
                cur += ch
        if cur.strip():
            out.append(cur)
        return [c.strip() for c in out]

    comps = split(t[start + 1:-1])
    while len(comps) < len(fields) and comps[-1].startswith("(") and comps[-1].endswith(")"):
        comps = comps[:-1] + split(comps[-1][1:-1])
    if len(comps) != len(fields):
        warn.append(f"{len(comps)} parts for {fields}")
        return text
    return t[:start] + "record { " + "; ".join(f"{f} = {c}" for f, c in zip(fields, comps)) + " }"


def split_args(s):
    """Top-level arguments of an application, by parentheses and blanks."""
    out, cur, deep = [], "", 0
    for ch in s:
        if ch in "([{":
            deep += 1
        if ch in ")]}":
            deep -= 1
        if ch.isspace() and deep == 0:
            if cur:
                out.append(cur)
            cur = ""
        else:
            cur += ch
    if cur:
        out.append(cur)
    return out


TRIVIAL = re.compile(r"^\s*search rules\s*$")
EASY = re.compile(r"^\(λ [^.]*\. (search rules|omega arith|tt|refl)\)$")


def align(args, order, named):
    """Which argument answers which goal, where some goals of old are settled: goal -> the arguments that can stand at it.

    An argument that names a goal stands at that goal, and one with a second binder at a goal on a call.
    One that is dropped is easy, where that is possible."""

    def fits(a, goal):
        if a in named:
            return named[a] == goal
        m = re.match(r"^\(λ ([^.]*)\.", a)
        return bool(m) and not (len(m[1].split()) > 1 and "requires" not in goal)

    for drop in (lambda a: bool(EASY.match(a)) or not (a in named or a.startswith("(")), lambda a: a not in named):
        n, k = len(args), len(order)
        ahead = [[False] * (k + 1) for _ in range(n + 1)]
        back = [[False] * (k + 1) for _ in range(n + 1)]
        for i in range(n + 1):
            for j in range(k + 1):
                ahead[i][j] = (i == 0 and j == 0) or (i > 0 and ahead[i - 1][j] and drop(args[i - 1])) or (i > 0 and j > 0 and ahead[i - 1][j - 1] and fits(args[i - 1], order[j - 1]))
        for i in range(n, -1, -1):
            for j in range(k, -1, -1):
                back[i][j] = (i == n and j == k) or (i < n and back[i + 1][j] and drop(args[i])) or (i < n and j < k and back[i + 1][j + 1] and fits(args[i], order[j]))
        if ahead[n][k]:
            return {g: list(dict.fromkeys(args[i] for i in range(n) if ahead[i][j] and fits(args[i], g) and back[i + 1][j + 1])) for j, g in enumerate(order)}
    return None


def convert(fn, text, module, keep_trivial=False):
    warn = []
    head, uses, answers, invs, helpers = [], [], [], [], []
    inv_uses = []
    bs = blocks(text)
    named = {}       # declared name -> goal
    spec_args, spec_unf = None, []
    for b in bs:
        for l in list(b):
            pass
    # first pass: which names are needs
    decl = {}
    for b in bs:
        code = [l for l in b if not l.startswith("--")]
        if not code:
            continue
        m = re.match(r"(?:abbrev )?(?:pub )?(" + WORD + r") : (.*)", code[0])
        if m:
            decl[m[1]] = (m[2], b)
    inv_names, dec_names = {}, {}
    for n, (sig, b) in decl.items():
        m = re.match(r"tie\.(invariant|decreases)-(" + WORD + r")", sig)
        if m:
            (inv_names if m[1] == "invariant" else dec_names)[n] = m[2]
    out_uses = []
    for b in bs:
        comments = [l for l in b if l.startswith("--")]
        code = [l for l in b if not l.startswith("--")]
        if code and all(l.startswith(("use ", "pub use ")) for l in code):
            for l in code:
                if re.search(r"\.(Tie|Statement|Reads|Lts)\b", l) and "Rattle." in l:
                    continue
                out_uses.append(l)
            head += comments
            continue
        if not code:
            helpers.append("\n".join(comments))
            continue
        m = re.match(r"(abbrev )?(pub )?(" + WORD + r") : (.*)", code[0])
        if not m:
            helpers.append("\n".join(comments + code))
            warn.append("block not read: " + code[0])
            continue
        name, sig = m[3], m[4]
        body_i = next((i for i, l in enumerate(code) if i and re.match(re.escape(name) + r"(?![\w\-'])", l)), None)
        unf = [l for l in code[1:body_i] if l.startswith("unfolding")] if body_i else []
        if "tie.close" in "\n".join(code):
            whole = " ".join(code[body_i:] if body_i else code)
            spec_args = re.search(r"tie\.spec\s*(.*)\)\s*$", whole, re.S)
            spec_args = split_args(spec_args[1]) if spec_args else []
            spec_unf = unf
            continue
        ms = re.match(r"tie\.(invariant|decreases)-(" + WORD + r")", sig)
        if ms:
            kind, old = ms[1], ms[2]
            li = next((i for i, l in enumerate(fn.e["loops"]) if norm(l[0][0]) == norm(old)), None)
            if li is None:
                warn.append(f"no loop {old}")
                continue
            (oldn, newn), variables = fn.e["loops"][li]
            changed = fn.e["changed"][li]
            body = code[body_i:]
            mm = re.match(re.escape(name) + r"((?: [^=\s]+)*) =(.*)", body[0])
            params = mm[1].split()
            rest = "\n".join([mm[2]] + body[1:])
            fixed = [v for v, c in zip(variables, changed) if not c]
            moved = [v for v, c in zip(variables, changed) if c]
            want = len(fixed) + 2 * len(moved)
            vals = {}
            if len(params) == want:
                # order: variables in order, moved ones as initial; then moved ones
                first, second = params[:len(variables)], params[len(variables):]
                for v, c, p in zip(variables, changed, first):
                    vals[p] = ("l.initial." + v) if c else ("l." + v)
                for v, p in zip(moved, second):
                    vals[p] = "l." + v
                ok = True
            else:
                ok = False
                warn.append(f"invariant {name}: {len(params)} parameters, {variables} {changed}")
            if ok:
                vals.pop("_", None)
                rest = re.sub(r"(?<![\w.'\-₀-₉])(" + "|".join(re.escape(p) for p in sorted(vals, key=len, reverse=True)) + r")(?![\w'\-₀-₉])" if vals else r"(?!x)x", lambda z: vals[z[1]], rest)
                # a signed variable that the loop keeps is its number there, and no longer its bits
                for v in fixed:
                    rest = re.sub(r"\(to_z \w+ (l\." + re.escape(v) + r")\)(?![\w'\-.])", r"\1", rest)
                    rest = re.sub(r"\bto_z \w+ (l\." + re.escape(v) + r")(?![\w'\-.])", r"\1", rest)
                new = f"{kind}-{newn}"
                invs.append("\n".join(comments + [f"abbrev pub {new} : goal.{new}"] + unf + [f"{new} l ={rest}" if rest.strip() else f"{new} l ="]))
            else:
                new = f"{kind}-{newn}"
                invs.append("\n".join(comments + [f"abbrev pub {new} : goal.{new}"] + unf + [f"-- old: {' '.join(params)} ; {variables} {changed}", f"{new} l ={rest}"]))
            continue
        mn = re.match(r"tie\.Need-(" + WORD + r")", sig)
        if mn:
            goal = fn.needs.get(norm(mn[1])) or fn.needs.get(re.sub("^overflow_", "", norm(mn[1])))
            if goal is None:
                warn.append(f"need {mn[1]} is gone (settled: {norm(mn[1]) in [norm(x) for x in fn.e['settled']]})")
                helpers.append("\n".join(["-- gone: " + mn[1]] + ["-- " + l for l in code]))
                continue
            body = code[body_i:]
            named[name] = goal
            answers.append((goal, name, comments, unf, body))
            continue
        # helper
        helpers.append((name, comments, code, body_i))
    # inline answers by position
    inl = []
    if spec_args is not None:
        need_args = [a for a in spec_args if a not in inv_names and a not in dec_names]
        if len(need_args) == len(fn.order):
            stand = {g: [a] for a, g in zip(need_args, fn.order)}
        else:
            stand = align(need_args, fn.order, named)
            if stand is None:
                warn.append(f"spec has {len(need_args)} answers, names.json {len(fn.order)} needs")
                for a in need_args:
                    if a.startswith("(") and "search rules" not in a:
                        warn.append("inline: " + a)
        for goal, could in (stand or {}).items():
            if len({re.sub(r"^\(λ [^.]*\.", "", x) for x in could}) > 1:
                warn.append(f"one of these for {goal}: " + " | ".join(could))
                # a settled goal, such as that a slice keeps its length, stood before the return
                could = could[-1:] if goal.startswith("returns") else [a for a in could if not EASY.match(a)][:1] or could[:1]
            a = could[0]
            mm = re.match(r"^\(λ ((?:[^.\s]+ ?)+)\. (.*)\)$", a, re.S)
            if mm:
                if TRIVIAL.match(mm[2]):
                    continue
                v = mm[1].split()[0]
                inl.append((goal, None, [], [], [f"x {v} = {mm[2]}"]))
            elif a not in named:
                warn.append(f"argument {a} for {goal}")
    place_uses = set()
    out = []

    def types(s):
        def one(m):
            k = fn.by_norm.get(norm(m[1]))
            if k is None:
                warn.append("place " + m[1])
                return m[0]
            n = fn.places[k][2]
            place_uses.add(n)
            return n
        return re.sub(r"\b(?:tie|lts)\.((?:After|Then|Else|At|In|Start|Join)[\w\-]*)((?: (?:invariant|decreases)[\w\-]*)*)", one, s)

    for h in helpers:
        if isinstance(h, str):
            out.append(h)
            continue
        name, comments, code, body_i = h
        sig = "\n".join(code[:body_i]) if body_i else "\n".join(code)
        # the variables' places, by order in the signature
        arg_types = re.findall(r"(?:\((\w+) : )?\b(?:tie|lts)\.((?:After|Then|Else|At|In|Start|Join)[\w\-]*)", sig)
        var_places = {}
        res = []
        if body_i is not None:
            for l in code[body_i:]:
                res.append(l)
            mm = re.match(re.escape(name) + r"((?: \S+)*?) =", code[body_i])
            params = mm[1].split() if mm else []
            # align explicit parameters
            flat = re.sub(r"\n\s*", " ", sig.split(" : ", 1)[1])
            tys = [t for t in re.split(r" → ", flat)]
            for p, t in zip(params, tys):
                mt = re.search(r"\b(?:tie|lts)\.((?:After|Then|Else|At|In|Start|Join)[\w\-]*)", t)
                if mt and fn.by_norm.get(norm(mt[1])):
                    var_places[p] = fn.by_norm[norm(mt[1])]
        sig_places = {}
        for m in re.finditer(r"\((\w+) : (?:tie|lts)\.((?:After|Then|Else|At|In|Start|Join)[\w\-]*)(?: (?:invariant|decreases)[\w\-]*)*\)", sig):
            if fn.by_norm.get(norm(m[2])):
                sig_places[m[1]] = fn.by_norm[norm(m[2])]
        s2 = convert_body(fn, sig.split("\n"), sig_places, None, warn) if sig_places else sig.split("\n")
        vp = dict(sig_places)
        vp.update(var_places)
        b2 = convert_body(fn, res, vp, None, warn) if vp else res
        out.append("\n".join(comments + [types("\n".join(s2))] + [types("\n".join(b2))] if res else comments + [types("\n".join(s2))]))
    for goal, name, comments, unf, body in answers + inl:
        nm = name or "x"
        unf = unf or ([] if name else spec_unf)
        mm = re.match(re.escape(nm) + r"((?: \S+)*?) =(.*)", body[0])
        params = mm[1].split()
        rest = [mm[2]] + body[1:]
        flat = " ".join(x.strip() for x in rest).strip()
        if TRIVIAL.match(flat) and not unf and not keep_trivial:
            continue
        v = params[0] if params else "c"
        place = fn.at[goal][0]
        r2 = convert_body(fn, rest, {v: place}, goal, warn)
        # other answers cited by name
        r2 = re.sub(r"(?<![\w.'\-])(" + "|".join(re.escape(n) for n in named) + r")(?![\w'\-])", lambda z: named[z[1]], "\n".join(r2)) if named else "\n".join(r2)
        first = r2.split("\n")[0]
        if goal in fn.e["asked"]:
            r2 = as_record(r2, fn.e["asked"][goal], warn)
        ps = " ".join([v] + [p for p in params[1:] if p != "κs"])
        out.append("\n".join(comments + [f"pub {goal} : goal.{goal}"] + unf + [f"{goal} {ps} ={types(r2)}"]))
    files = {}
    if out:
        u = list(out_uses)
        if place_uses:
            u.append(f"use {module}.Goals.{{{', '.join(sorted(place_uses))}}}")
        u.append(f"use {module}.Goals as goal")
        files["Answers.antt"] = "\n".join(head + u) + "\n\n" + "\n\n".join(out) + "\n"
    if invs:
        u = [l for l in out_uses]
        u.append(f"use {module}.Given as goal")
        files["Invariants.antt"] = "\n".join(head + u) + "\n\n" + "\n\n".join(invs) + "\n"
    return files, warn


SIGNATURES = {}


def main(argv):
    SIGNATURES.update(signatures(".."))
    names = json.load(open(argv[0], encoding="utf-8"))
    only = argv[1:]
    crate = os.path.basename(os.getcwd())
    src = os.environ.get("OLD_PROOFS", "proofs")
    for p in sorted(glob.glob(os.path.join(src, "**", "Proof.antt"), recursive=True)):
        text = open(p, encoding="utf-8").read()
        if "tie.close" not in text:
            print("not a walk over a Tie:", p)
            continue
        rel = os.path.relpath(os.path.dirname(p), src)
        f = rel.replace("/", ".")
        if only and f not in only and rel not in only:
            continue
        key = f"Rattle-{crate}-proofs.{f}.Lts"
        if key not in names:
            print("no names for", f)
            continue
        fn = Function(names[key], f, crate)
        files, warn = convert(fn, text, f"Rattle.{crate}.proofs.{f}")
        to = os.path.join("proofs", rel)
        os.makedirs(to, exist_ok=True)
        for name, t in files.items():
            with open(os.path.join(to, name), "w", encoding="utf-8") as g:
                g.write(t)
        if os.path.exists(os.path.join(to, "Proof.antt")):
            os.remove(os.path.join(to, "Proof.antt"))
        if not os.listdir(to):
            os.rmdir(to)
        for w in warn:
            print(f"{f}: {w}")
    return 0


if __name__ == "__main__":
    raise SystemExit(main(sys.argv[1:]))
