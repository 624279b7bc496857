#!/usr/bin/env python3
"""Turns the Proof.antt files of a crate, in the form with `tie.Need-..`, to Invariants.antt and Answers.antt.

usage: tools/port/answers.py NAMES CRATE [WORD..]

NAMES is the names.json that `rt check --generated DIR --old-names` writes in the crate's folder, CRATE that folder. Where words are given, only functions
whose folder has one of them are turned. An answer that only searches is left out, since the check searches by itself. What is left by hand is
printed; rt check decides.
"""
import glob
import json
import os
import re
import sys

TOKEN = re.compile(r'--[^\n]*|"(?:[^"\\\n]|\\.)*"|[^\s(){}.;,@"«»]+|.', re.S)
TACTICS = {"rw", "simp", "subst", "omega", "search", "elim", "absurd", "grind", "cc", "record", "let", "λ", "⊎_elim", "unfold"}
TRIVIAL = {"search rules", "search (rules)"}


def plain(name):
    return re.sub("-+", "-", name.replace("_", "-"))


def blocks(text):
    """Comments at the head, use lines, and declarations."""
    head, uses, decls = [], [], []
    text = re.sub(r"(?m)^(use [^\n{]*\{[^}]*\})", lambda m: " ".join(m[0].split()), text)
    current = []
    for line in text.split("\n"):
        if line.startswith("use ") or line.startswith("pub use "):
            uses.append(line)
        elif line.startswith("--") and not uses and not decls and not current:
            head.append(line)
        else:
            current.append(line)
    body = "\n".join(current).strip("\n")
    for block in re.split(r"\n\n+", body):
        if not block.strip():
            continue
        # a block continues the one before where it is indented
        if decls and block.startswith(" "):
            decls[-1] += "\n\n" + block
        else:
            decls.append(block)
    return head, uses, decls


DECL = re.compile(r"(?ms)\A((?:--[^\n]*\n)*)((?:pub |abbrev |unfoldable )*)(\S+)((?: \{[^{}\n]*\})*)(?: :|\n +:)\s*(.*)\Z")


class Function:
    def __init__(self, of):
        self.goals, self.at = {}, {}
        for (old, new), (place, _) in zip(of["needs"], of["asked_at"]):
            self.goals.setdefault(plain(old), []).append(new)
            self.at[new] = place
        self.by_name = dict(zip([it[0] for it in of["places"]], of["places_by_name"]))
        # each place: the one before it, the step that leads to it, as it was and is called, and the names in an arm
        self.places = {}
        for it, arm in zip(of["places"], of["arms"]):
            self.places.setdefault(it[0], (it[1], it[2][0], it[2][1], arm))
        self.calls = {it[2][1]: it[3] for it in of["places"] if it[3]}
        self.callees = sorted(of["params"])
        self.params = of["params"]
        self.only = {}
        for it in of["places"]:
            if it[2][0]:
                self.only.setdefault(plain(it[2][0]), set()).add(it[2][1])
        self.only = {k: next(iter(v)) for k, v in self.only.items() if len(v) == 1}
        self.typed = {it[0]: of["typed"][i] for i, it in enumerate(of["places"])} if len(of["typed"]) == len(of["places"]) else {}
        # each loop: its name, and its variables with whether the loop changes them
        self.loops = [(it[0][1], list(zip(it[1], of["changed"][i]))) for i, it in enumerate(of.get("loops", []))]

    def steps_at(self, place):
        """The steps on the way to a place: names as they were to names now, and parts of arms."""
        steps, parts = {}, {}
        first = place
        while place:
            parent, was, now, arm = self.places[place]
            if was:
                steps.setdefault(plain(was), now)
            if arm:
                for new, step, fields in arm[2]:
                    parts.setdefault((plain(step), tuple(fields)), (arm[0], new))
            place = parent
        for k, v in self.only.items():
            steps.setdefault(k, v)
        for name, step in self.typed.get(first, []):
            parts.setdefault((plain(step), ("given",)), ("type_inv", name))
        return steps, parts


def chains(text, steps, parts, note):
    """Paths of a goal's record: no `before`, and the steps by their names now."""
    pieces = TOKEN.findall(text)
    out = []
    i = 0
    while i < len(pieces):
        w = pieces[i]
        if re.match(r"[^\W\d]", w) and i + 1 < len(pieces) and pieces[i + 1] == "." and not (i and pieces[i - 1] == "."):
            # a chain
            path = [w]
            j = i + 1
            while j + 1 < len(pieces) and pieces[j] == "." and re.match(r"[^\s(){}.;,@\"«»]", pieces[j + 1]):
                path.append(pieces[j + 1])
                j += 2
            head, rest = path[0], path[1:]
            if head[0].islower() and head not in ("tie",) and head not in note.modules:
                had = "before" in rest
                rest = [r for r in rest if r != "before"]
                # a parameter's name
                rest = [rest[0], *(r.replace("-", "_") if "-" in r and r.replace("-", "_") in note.rust else r for r in rest[1:])] if rest else rest
                if head in note.args and rest and "-" in rest[0] and rest[0].replace("-", "_") in note.rust:
                    rest[0] = rest[0].replace("-", "_")
                if rest and (had or head in note.records):
                    k = plain(rest[0])
                    if k not in steps and k.endswith("-lem") and k[:-4] in steps:
                        k = k[:-4]
                    part = next((n for n in range(len(rest) - 1, 0, -1) if (k, tuple(rest[1 : n + 1])) in parts), None)
                    if part:
                        arm, field = parts[k, tuple(rest[1 : part + 1])]
                        rest = [arm, field, *rest[part + 1 :]]
                    elif (k, ()) in parts and len(rest) > 1:
                        rest = [*parts[k, ()], *rest[1:]]
                    elif k in steps:
                        rest[0] = steps[k]
                    elif re.fullmatch(r"(.*\D)\d", k) and k[:-1] in steps:
                        rest[0] = steps[k[:-1]]
                    rest = [OWN.get(r, r) for r in rest]
                    if rest[0] == "pre":
                        rest[0] = "requires"
                    if len(rest) > 1:
                        rest[1] = {"last": "new", "kept": "auto", "inv": "invariant"}.get(rest[1], rest[1])
                    if len(rest) > 1 and rest[1] == "taken":
                        rest[1] = "true"
                    if len(rest) > 1 and rest[1] == "left":
                        rest[1] = "false"
            out.append(".".join([head, *rest]))
            i = j
            continue
        out.append(w)
        i += 1
    return "".join(out)


def key_of(crate, path):
    return crate, re.split(r"::|/", path)[-1]


def slices_of(root):
    """The parameters of each function that are slices."""
    found = {}
    for p in glob.glob(f"{root}/crates/*/src/**/*.rt", recursive=True):
        crate = p[len(root) :].strip("/").split("/")[1]
        text = re.sub(r"//[^\n]*", "", open(p, encoding="utf-8").read())
        for m in re.finditer(r"\bfn (\w+)\(([^)]*)\)", text):
            found[crate, m[1]] = re.findall(r"(\w+): &(?:mut )?\[", m[2])
    return found


def clauses_of(root):
    """The names of the requires and of the ensures of each function, where they have names."""
    found = {}
    for p in glob.glob(f"{root}/crates/*/src/**/*.rt", recursive=True):
        crate = p[len(root) :].strip("/").split("/")[1]
        text = re.sub(r"//[^\n]*", "", open(p, encoding="utf-8").read())
        for m in re.finditer(r"\bfn (\w+)(.*?)(?=\n\s*\{\n|\n\})", text, re.S):
            names = [re.findall(rf"\b{w}\*? (\w+) \{{", m[2]) for w in ("requires", "ensures")]
            found[crate, m[1]] = names
    return found


def named(body, f, clauses, own):
    """`.ensures.0` by the clause's name."""
    bound = dict(re.findall(r"let (\w+) =\s+c\.([\w+-]+)\s+in", body))

    def by(m):
        step, what, digits = m[1], m[2], m[3].strip(".").split(".")
        callee = f.calls.get(bound.get(step, step))
        names = clauses.get(key_of(callee.split("::")[0], callee), ([], []))[what == "ensures"] if callee else []
        if step == "c" and what == "requires":
            names = own[0]
        if len(names) < 2:
            return m[0]
        k = 0
        while k < len(names) - 1 and digits and digits[0] == "1":
            k += 1
            digits = digits[1:]
        if k < len(names) - 1:
            if not digits or digits[0] != "0":
                return m[0]
            digits = digits[1:]
        return ".".join([step, what, names[k], *digits])

    def whole(m):
        callee = f.calls.get(m[2])
        names = clauses.get(key_of(callee.split("::")[0], callee), ([], []))[1] if callee else []
        return "(" + ", ".join(f"{m[1]}.{m[2]}.ensures.{n}" for n in names) + ")" if len(names) > 1 else m[0]

    def kept(m):
        callee = f.calls.get(bound.get(m[1], m[1]))
        names = f.params.get(callee, []) if callee else []
        n = m[3].count(".1")
        return f"{m[1]}.{m[2]}.{names[n]}" if n < len(names) else m[0]

    body = re.sub(r"(?<![\w+-])([\w+-]+)\.(ensures|requires)((?:\.\d)+)", by, body)
    body = re.sub(r"(?<![\w.])(\w+)\.([\w+-]+)\.ensures(?![\w.-])", whole, body)
    body = re.sub(r"(?<![\w+-])([\w+-]+)\.(auto|new)((?:\.1)*)\.0(?!\.?\d)", kept, body)
    # a test of a `!x` now speaks of x
    return re.sub(r"not-(false|true) (?:_|\w+\.[\w.-]+) (\w+(?:\.[\w-]+)*\.)\1(?![\w.])", r"\2\1", body)


def parts_of(text):
    """The terms between the commas of a tuple's inside."""
    out, depth, current = [], 0, ""
    for w in TOKEN.findall(text):
        if w in "([{":
            depth += 1
        elif w in ")]}":
            depth -= 1
        if w == "," and depth == 0:
            out.append(current)
            current = ""
        else:
            current += w
    if current.strip():
        out.append(current)
    return out


def recorded(body, names):
    """A tuple at the end as a record of the clauses by their names."""
    body = body.strip()
    if len(names) < 2:
        return body
    tail = body
    lets = re.match(r"(?s)((?:let .*?\bin\s+)*)(.*)\Z", body)
    if lets and "let " not in lets[2]:
        tail = lets[2]
    if re.match(r"[^\W\d][\w']* ", tail) and tail.split()[0] not in TACTICS and "∙" not in tail or re.match(r"rw \S+ at ", tail) and "∙" not in tail:
        fields = " ".join(f"{n} = told.{k};" for k, n in enumerate(names))
        return body[: len(body) - len(tail)] + f"let told = {tail} in\n    record {{ {fields} }}"
    if not body.endswith(")"):
        return body
    depth = 0
    for i in range(len(body) - 1, -1, -1):
        depth += (body[i] == ")") - (body[i] == "(")
        if depth == 0:
            break
    before, inside = body[:i].rstrip(), body[i + 1 : -1]
    terms = parts_of(inside)
    while len(terms) < len(names) and terms[-1].strip().startswith("(") and terms[-1].strip().endswith(")"):
        last = parts_of(terms[-1].strip()[1:-1])
        if len(last) < 2:
            break
        terms = terms[:-1] + last
    if before and not re.search(r"(\bin|→|\.)$", before) or len(terms) != len(names):
        return body
    fields = "".join(f"      {n} = {t.strip()};\n" for n, t in zip(names, terms))
    return (before + " " if before else "") + "record {\n" + fields + "    }"


def place_of(f, name):
    return next((p for p in f.places if plain(p) == plain(name)), None)


def places_now(f, name, goals_used):
    old = place_of(f, name)
    new = f.by_name.get(old, name) if old else name
    goals_used.add(new)
    return new


def branched(body, goals_used):
    """A sum over the branches of a test, by the names of the branches."""

    def to(m):
        goals_used.update({f"then-{m[4]}", f"else-{m[4]}"})

        def arm(text):
            text = re.sub(r"\bw\.0\.(?:taken|true)\b", f"w.{m[3].split('.')[-1]}.true", text)
            text = re.sub(r"\bw\.0\.(?:left|false)\b", f"w.{m[3].split('.')[-1]}.false", text)
            text = re.sub(r"omega \(arith((?:, [^()]*)?)\)", lambda x: omega([i for i in x[1].split(", ")[1:] if not i.startswith("w.")]), text)
            return text

        def omega(items):
            return f"omega (arith, {', '.join(items)})" if items else "omega arith"

        return f"(elim {m[3]}.branch [ then-{m[4]} w ↦ {arm(m[1])} | else-{m[4]} w ↦ {arm(m[2])} ])"

    group = r"\(λ w\.\s((?:[^()]|\((?:[^()]|\((?:[^()]|\([^()]*\))*\))*\))*)\)"
    return re.sub(rf"⊎_elim\s+{group}\s+{group}\s+(\w+\.if-([\w-]+))\.branch", to, body)


def opened_lets(body):
    """Without names for what an arm or a call gives."""
    while True:
        m = re.search(r"let (\w+) =\s+((?:c|\w+)(?:\.[\w-]+)*\.(?:given(?:\.[01])*|requires|pre|ensures))\s+in\s+", body)
        if not m:
            return body
        body = body[: m.start()] + re.sub(rf"(?<![\w.'-]){m[1]}(?![\w'-])", lambda _: m[2], body[m.end() :])


def projected(body, f, projections, at, goals_used):
    """A call of a projection by the name of its place."""
    for p, place in projections.items():
        now = f.by_name.get(place, place)
        body = re.sub(rf"\({re.escape(p)} c\)\.", "c.", body)
        found = re.sub(rf"\({re.escape(p)} c\)", f"({at} c).{now}", body)
        found = re.sub(rf"(?<![\w.'-]){re.escape(p)} c(?![\w.'-])", f"({at} c).{now}", found)
        if found != body:
            goals_used.add(now)
        body = found
    return body


def depth(f, place, above):
    n = 0
    while place and place != above:
        place = f.places[place][0]
        n += 1
    return n if place else None


def inlined(body):
    """Without names for the whole record."""
    while True:
        m = re.search(r"let (\w+) = c in\s*", body)
        if not m:
            return body
        body = body[: m.start()] + re.sub(rf"(?<![\w.'-]){m[1]}(?![\w'-])", "c", body[m.end() :])


OWN = {"well-formed": "well_formed", "type-inv": "type_inv", "yielded-by": "yielded_by"}


class Note:
    def __init__(self, modules):
        self.modules = modules
        self.records = {"c"}
        self.args = set()
        self.rust = set()


def turn(crate, path, f, clauses, out_said):
    proof = os.path.join(crate, "proofs", path, "Proof.antt")
    text = open(proof, encoding="utf-8").read()
    head, uses, decls = blocks(text)
    name = os.path.basename(os.path.abspath(crate))
    module = f"Rattle.{name}.proofs.{path.replace('/', '.')}"
    aliases = {m[1] for u in uses for m in [re.search(r" as (\S+)$", u)] if m}
    note = Note(aliases | {"Rattle", "tie"})
    note.rust = f.rust
    note.args = set(re.findall(r"let (\w+) =\s+\w+(?:\.before)*\.args\s+in", text))
    keep_uses = [u for u in uses if not re.search(r"\.(Tie|Statement|Lts)( as |\.\{)", u) or not u.startswith(f"use {module}.")]
    renamed, order = {}, []
    items = []
    for block in decls:
        m = DECL.match(block)
        if not m:
            items.append(("other", None, block, None))
            continue
        comments, words, own, implicit, rest = m.groups()
        if re.match(r"tie\.Need", rest) :
            items.append(("goal", own, block, m))
        elif re.match(r"tie\.(invariant|decreases)", rest):
            items.append((re.match(r"tie\.(invariant|decreases)", rest)[1], own, block, m))
        elif re.search(r"\{M : Type 1\} → statement", rest):
            continue
        else:
            items.append(("helper", own, block, m))
    goals_used = set()
    shared = []
    helpers = {}
    projections = {}
    for kind, own, block, m in items:
        if kind != "helper":
            continue
        # a function from the record at one place to that at an earlier one
        flat = " ".join(re.sub(r"(?m)^--.*\n", "", block).split())
        mp = re.fullmatch(rf"(?:abbrev )?{re.escape(own)} : (?:\(c : )?tie\.[\w-]+(?: (?:invariant|decreases)-loop\d*)*\)? → tie\.([\w-]+)(?: (?:invariant|decreases)-loop\d*)* {re.escape(own)} c = (.*)", flat)
        if mp and place_of(f, mp[1]) and re.fullmatch(r"c(?:\.before)*|\(?[\w-]+ \(?c(?:\.before)*\)?\)?", mp[2]):
            projections[own] = place_of(f, mp[1])
    items = [it for it in items if it[1] not in projections]
    for kind, own, block, m in items:
        place = re.search(r"\btie\.([\w-]+)", block)
        if kind == "helper" and place and place_of(f, place[1]):
            helpers[own] = place_of(f, place[1])
    used = {}
    for kind, own, block, m in items:
        if kind == "goal":
            k = re.sub(r"^(loop\d*)-(holds|less|again)", lambda x: x[1] + "-" + {"holds": "init", "less": "smaller", "again": "preserved"}[x[2]], plain(own))
            new = None
            if k in f.goals:
                n = used.get(k, 0)
                new = f.goals[k][min(n, len(f.goals[k]) - 1)]
                used[k] = n + 1
            if new:
                renamed[own] = new
    invs, answers, said, told = [], [], [], {}
    in_invariants = " ".join(block for kind, _, block, _ in items if kind in ("invariant", "decreases"))
    k = {"invariant": 0, "decreases": 0}
    for kind, own, block, m in items:
        if kind == "goal":
            comments, words, _, implicit, rest = m.groups()
            sig_end = rest.find("\n")
            lines = rest.split("\n")
            # the signature ends before `unfolding` or the first equation
            body_at = next((i for i, l in enumerate(lines) if re.match(rf"(unfolding |{re.escape(own)}[ \n])", l + "\n")), None)
            if body_at is None:
                said.append(f"{path}: {own}: no equation found")
                continue
            unf = [l for l in lines[body_at:] if l.startswith("unfolding ")]
            eq = "\n".join(lines[body_at + len(unf):])
            mm = re.match(rf"{re.escape(own)}((?:\s+[^\s=]+)*)\s+=\s*(.*)\Z", eq, re.S)
            if not mm:
                said.append(f"{path}: {own}: equation not read")
                continue
            binders, body = mm[1].split(), mm[2]
            told[own] = "omega arith"
            if not unf and " ".join(body.split()) in TRIVIAL or body.strip() == "tt" and "κs" in binders:
                continue
            if own not in renamed:
                said.append(f"{path}: {own}: no such goal now; its answer: {' '.join(body.split())[:200]}")
                answers.append(f"-- left: {own}\n" + "\n".join("-- " + l for l in (unf + eq.split("\n"))))
                continue
            binders = [b for b in binders if b != "κs"]
            new = renamed[own]
            if new.startswith("shape_of-"):
                continue
            for other in sorted(told, key=len, reverse=True):
                body = re.sub(rf"(?<![\w.'-]){re.escape(other)} c(?:\.before)*(?![\w.'-])", lambda _: f"({told[other]})", body)
            body = opened_lets(body)
            # names bound to parts of the record
            note.records = {"c", *re.findall(r"let (\w+) =\s+\w+(?:\.before)*\s+in", body)}
            body = inlined(chains(body, *f.steps_at(f.at[new]), note))
            body = re.sub(r"(?<![\w.])(c\.[\w-]+\.[\w-]+-own\.(?:keys\d+|rest))(?![\w.])", r"(opened \1)", body)
            body = branched(named(body, f, clauses, clauses.get(key_of(name, path), ([], []))), goals_used)
            body = projected(body, f, projections, f"goal.at.{new}", goals_used)
            for h, at in helpers.items():
                if at != f.at[new]:
                    body = re.sub(rf"(?<![\w.'-]){re.escape(h)} c(?![\w.'-])", f"{h} (goal.at.{new} c).{f.by_name.get(at, at)}", body)
            if new.startswith("returns"):
                body = recorded(body, clauses.get(key_of(name, path), ([], []))[1])
            elif "-requires" in new:
                callee = next((it for it in f.callees if it.split("::")[-1] == re.split(r"-", new)[0]), None)
                if callee:
                    body = recorded(body, clauses.get(key_of(callee.split("::")[0], callee), ([], []))[0])
            told[own] = body
            sep = "\n    " if "\n" in mm[2] or eq[len(own) + len(mm[1]) + 2 : len(own) + len(mm[1]) + 4].strip() == "" else " "
            answers.append(comments + f"pub {new} : goal.{new}\n" + "".join(u + "\n" for u in unf) + f"{new}{''.join(' ' + b for b in binders)} ={sep}{body.strip()}")
        elif kind in ("invariant", "decreases"):
            comments, words, _, implicit, rest = m.groups()
            lines = rest.split("\n")
            body_at = next((i for i, l in enumerate(lines) if l == own or l.startswith(own + " ")), None)
            unf = [l for l in lines[:body_at] if l.startswith("unfolding ")]
            eq = "\n".join(lines[body_at:])
            mm = re.match(rf"{re.escape(own)}((?:\s+[^\s=]+)*)\s+=\s*(.*)\Z", eq, re.S)
            binders, body = mm[1].split(), mm[2]
            loop, variables = f.loops[k[kind]]
            k[kind] += 1
            changed = [v for v, is_changed in variables if is_changed]
            if len(binders) != len(variables) + len(changed):
                said.append(f"{path}: {own}: {len(binders)} variables, and now {variables}")
            sub = {}
            for b, (v, is_changed) in zip(binders, variables):
                sub[b] = ("l.initial." if is_changed else "l.") + v
            for b, v in zip(binders[len(variables) :], changed):
                sub[b] = "l." + v
            pieces = TOKEN.findall(body)
            res = []
            for i, w in enumerate(pieces):
                if w in sub and not (i and pieces[i - 1] == "."):
                    # an argument of an application keeps its place
                    res.append(sub[w])
                else:
                    res.append(w)
            new = f"{kind}-{loop}"
            invs.append(comments + f"abbrev pub {new} : goal.{new}\n" + "".join(u + "\n" for u in unf) + f"{new} l = {''.join(res).strip()}")
        else:
            place = re.search(r"\btie\.([\w-]+)", block)
            if place:
                old = place_of(f, place[1])
                if not old:
                    said.append(f"{path}: no place {place[1]}: {own}")
                else:
                    note.records = {"c", *re.findall(r"let (\w+) =\s+\w+(?:\.before)*\s+in", block)}
                    block = re.sub(r"\btie\.([\w-]+)((?: (?:invariant|decreases)-loop\d*)*)", lambda x: places_now(f, x[1], goals_used), block)
                    block = chains(opened_lets(block), *f.steps_at(old), note)
                    here = f"goal.at.{f.by_name.get(old, old)}"
                    block = projected(block, f, projections, here, goals_used)
                    for h, at in helpers.items():
                        if at != old and h != own:
                            block = re.sub(rf"(?<![\w.'-]){re.escape(h)} c(?![\w.'-])", f"{h} ({here} c).{f.by_name.get(at, at)}", block)
                    block = re.sub(r"(?<![\w.])(c\.[\w-]+\.[\w-]+-own\.(?:keys\d+|rest))(?![\w.])", r"(opened \1)", block)
                    block = branched(named(block, f, clauses, clauses.get(key_of(name, path), ([], []))), goals_used)
            if not place and own and re.search(rf"(?<![\w.'-]){re.escape(own)}(?![\w'-])", in_invariants):
                block = re.sub(r"(?m)^((?:abbrev|unfoldable) )(?!pub)", r"\1pub ", block)
                if not re.search(r"(?m)^(?:abbrev |unfoldable )?pub ", block):
                    block = re.sub(rf"(?m)^(?={re.escape(own)} :)", "pub ", block)
                invs.append(block)
                shared.append(own)
                continue
            answers.append(block)
    folder = os.path.join(crate, "proofs", path)
    header = "\n".join(head) + ("\n" if head else "")

    def brought(body):
        words = set(TOKEN.findall(re.sub(r"--[^\n]*", "", body)))
        glyph = " ".join(words)
        res = []
        for u in keep_uses:
            mu = re.match(r"use (\S+)\.\{(.*)\}$", u)
            if not mu:
                ma = re.match(r"use (\S+?)(?: as (\S+))?$", u)
                alias = ma[2] or ma[1].split(".")[-1]
                if alias in words:
                    res.append(u)
                continue
            names = [n.strip() for n in re.split(r",\s*", mu[2]) if n.strip()]
            kept = []
            for n in names:
                local = n.split(" as ")[-1]
                parts = [x for x in re.split("◌", local) if x]
                if local in words or "◌" in local and all(any(x in w for w in words) for x in parts):
                    kept.append(n)
            if kept:
                res.append(f"use {mu[1]}.{{{', '.join(kept)}}}")
        return res

    if invs:
        body = "\n\n".join(invs)
        with open(os.path.join(folder, "Invariants.antt"), "w", encoding="utf-8") as o:
            o.write(header + "\n".join(brought(body) + [f"use {module}.Given as goal"]) + "\n\n" + body + "\n")
    if answers:
        body = "\n\n".join(answers)
        with open(os.path.join(folder, "Answers.antt"), "w", encoding="utf-8") as o:
            goals = sorted(goals_used)
            from_invariants = [n for n in shared if re.search(rf"(?<![\w.'-]){re.escape(n)}(?![\w'-])", body)]
            named_goals = [f"use {module}.Goals.{{{', '.join(goals)}}}"] if goals else []
            also = ["use borrow.Enum.Refused.{opened}"] if "(opened " in body else []
            if re.search(r"\barith\b", body) and not any("arith" in u for u in keep_uses):
                also.append("use native.Mathlib.Omega.{arith}")
            o.write(("" if invs else header) + "\n".join(brought(body) + also + ([f"use {module}.Invariants.{{{', '.join(from_invariants)}}}"] if from_invariants else []) + [f"use {module}.Goals as goal"] + named_goals) + "\n\n" + body + "\n")
    os.remove(proof)
    if not os.listdir(folder):
        os.rmdir(folder)
    out_said += said


def main():
    names, crate, only = sys.argv[1], sys.argv[2].rstrip("/"), sys.argv[3:]
    data = json.load(open(names, encoding="utf-8"))
    name = os.path.basename(os.path.abspath(crate))
    said = []
    rust = set()
    for p in glob.glob(f"{os.path.dirname(os.path.dirname(os.path.abspath(crate)))}/crates/*/src/**/*.rt", recursive=True):
        rust.update(re.findall(r"\w+", open(p, encoding="utf-8").read()))
    slices = slices_of(os.path.dirname(os.path.dirname(os.path.abspath(crate))))
    clauses = clauses_of(os.path.dirname(os.path.dirname(os.path.abspath(crate))))
    done = 0
    for proof in sorted(glob.glob(f"{crate}/proofs/**/Proof.antt", recursive=True)):
        path = os.path.relpath(os.path.dirname(proof), f"{crate}/proofs")
        if only and not any(w in path for w in only):
            continue
        key = f"Rattle-{name}-proofs.{path.replace('/', '.')}.Lts"
        if key not in data:
            said.append(f"{path}: no {key} in the names")
            continue
        text = open(proof, encoding="utf-8").read()
        if "tie.spec" not in text:
            said.append(f"{path}: not in the form with tie.spec")
            continue
        function = Function(data[key])
        function.slices = slices
        function.rust = rust
        turn(crate, path, function, clauses, said)
        done += 1
    print("\n".join(said))
    print(f"{done} functions turned, {len(said)} things said")


if __name__ == "__main__":
    main()
