#!/usr/bin/env python3
"""Spells the repository's own definitions, lemmas, fields and constructors of specs/ and proofs/ in snake case.

usage: tools/port/spelling.py [--check]

Run once, at the top of the repository, on what port.py of the Rattle kit left. A name declared in specs/ or proofs/ that has a dash or a capital
inside (`cellFrom`, `filled-begun`) gets plain underscores (`cell_from`, `filled_begun`) wherever it stands in .antt files, in the clauses
of .rt files, in must-fail edits and in the papers. Types, modules, names of the libraries, Rust names and the names that Rattle makes stay.
Where a lemma would get the name of a definition, it gets `_lem` after it. --check writes nothing and lists names that fall together in a file.
"""
import collections
import glob
import os
import re
import sys

NAME = r"[^\s(){}.;,@\"«»:]+"
SIG = re.compile(rf"(?m)^( *)((?:pub |abbrev |unfoldable )*)({NAME}(?: {NAME})*)((?: \{{[^{{}}\n]*\}})*) :(?: |$)")
WORD = re.compile(r"[^\s(){}.;,@\"«»\[\]|`'’…]+'*|.", re.S)
TOKEN = re.compile(r'--[^\n]*|"(?:[^"\\\n]|\\.)*"|[^\s(){}.;,@"«»]+|.', re.S)
RUST = re.compile(r'//[^\n]*|b?"(?:\\.|[^"\\])*"|[^\s(){}.;,@"«»]+|.', re.S)
KEYWORDS = set("let use in module record data pub where elim do mutual ruleset open as λ".split())
USE = re.compile(r"\buse ([^\s;{]+)(?:\{([^;]*?)\}(?=;|[ \t]*$))?(?: as ([^\s;]+))?", re.M)
# lemmas that would fall together with another lemma
GIVEN = {"planOf-values": "plan_of_values_is", "planOf-operands": "plan_of_operands_is"}
# lemmas that have the new spelling of a definition
GIVE_WAY = {"digit_value": "digit_value_lem", "too_many": "too_many_lem", "kept_by": "kept_by_lem"}


def read(path):
    with open(path, encoding="utf-8", newline="") as f:
        return f.read()


def in_snake_case(name):
    return re.sub(r"(?<=[A-Za-z0-9])[A-Z]", lambda m: "_" + m[0].lower(), name).replace("-", "_")


def is_of_a_function(path):
    parts = path.split(os.sep)
    return parts[2] == "proofs" and len(parts) > 4


def declared(text):
    text = re.sub(r"--.*", "", text)
    for m in SIG.finditer(text):
        names = m[3].split()
        if names[0] in KEYWORDS:
            continue
        yield from ((n, text[m.end() :]) for n in names)


def odd(name):
    return name[:1].islower() and bool(re.search(r"\w-|[a-z0-9][A-Z]", name))


def tokens(text):
    text = re.sub(r'--.*|//.*|"[^"\n]*"', " ", text)
    return set(re.findall(r'(?<![.])(?<![^\s(){}.;,@"«»])[^\s(){}.;,@"«»]+', text))


def fields_of(text):
    """The fields of the records that a text declares."""
    for block in re.findall(r"(?ms)^ *(?:pub )?record [^\n]* where\n(.*?)(?=\n\n|\n[^ \n]|\Z)", text):
        yield from re.findall(rf"(?m)^ +(?:pub )?({NAME}) :", block)


def tables():
    files = sorted(glob.glob("crates/**/*.antt", recursive=True))
    everywhere, of_file, fields, where = set(), {}, set(), {}
    for p in files:
        made = is_of_a_function(p)
        text = read(p)
        fields.update(fields_of(re.sub(r"--.*", "", text)))
        for name, kind in declared(text):
            if made and re.match(r"\s*(?:\(\w+ : ℕ\) → )?(?:\S*[Tt]ie\.|\S*[Ll]ts\S*\.|\{M : Type 1\} → )", kind):
                continue
            (of_file.setdefault(p, set()) if made else everywhere).add(name)
            where.setdefault(name, set()).add(p)
    words = {p: tokens(read(p)) for p in files + sorted(glob.glob("crates/**/*.rt", recursive=True))}
    groups = {}
    for n in everywhere:
        groups.setdefault(GIVEN.get(n) or in_snake_case(n), []).append(n)
    table = {}
    for new, olds in groups.items():
        # definitions first, then names that have the new spelling, then lemmas
        olds.sort(key=lambda n: ("-" in n, not odd(n), n))
        for k, old in enumerate(olds):
            if not odd(old):
                continue
            meets = any(old in w and any(o in w for o in olds[:k]) for w in words.values())
            table[old] = new + "_lem" if meets else new
    own = {p: {n: in_snake_case(n) for n in ns if odd(n) and n not in table} for p, ns in of_file.items()}
    rust = set()
    for p in glob.glob("crates/**/*.rt", recursive=True):
        rust.update(w.replace("_", "-") for w in re.findall(r"\w+", read(p)))
    return table, own, fields - rust


def is_own(path, crates):
    steps = path.strip(".").split(".")
    return steps[0] == "Rattle" and len(steps) > 1 and steps[1] in crates


def turned(path, text, table, fields, crates, pattern):
    """The text with its names spelled anew, and the names that now fall together."""
    theirs, aliases = set(), set()
    for m in USE.finditer(re.sub(r"--.*|//.*", "", text)):
        names = re.findall(r"[^\s,{}]+", m[2] or "")
        if is_own(m[1], crates):
            if not m[2]:
                aliases.add(m[3] or m[1].split(".")[-1])
        else:
            theirs.update(names)
    made = path.endswith(".antt") and is_of_a_function(path)
    out, was, renamed = [], "", set()
    pieces = pattern.findall(text)
    chain = []
    in_use = None
    for k, w in enumerate(pieces):
        new = w
        if was == ".":
            pass
        elif w != ".":
            chain = []
        if w == "use":
            in_use = ""
        if in_use is not None:
            if w == "\n" or w == ";" or w == "}":
                in_use = None
            elif w == "{":
                in_use = is_own("".join(chain_text).lstrip(), crates) if chain_text else False
        if not w.startswith(("--", "//", '"', 'b"')) and w in table:
            behind = was == "."
            if not behind:
                if w not in theirs:
                    new = table[w]
            else:
                head = chain[0] if chain else ""
                path_of_own = head == "Rattle" and len(chain) > 1 and chain[1] in crates or head in aliases
                of_a_library = head in ("Prim", "mathlib", "native", "lib", "borrow", "Rattle")
                if path_of_own or "-" not in w or not of_a_library and (w in fields or not made):
                    new = table[w]
        if new != w:
            renamed.add(w)
        out.append(new)
        if w == ".":
            pass
        elif not w.isspace():
            chain.append(w)
        else:
            chain = []
        chain_text = chain
        was = w
    had = {w for w in pieces if not w.startswith(("--", "//", '"'))}
    met = sorted((o, table[o]) for o in renamed if table[o] in had)
    return "".join(out), met


def prose(text, table):
    """Comments and papers: only names that can't be plain words."""
    return re.sub(r"`[^`\n]+`", lambda m: "".join(table.get(w, w) for w in WORD.findall(m[0])), text)


def in_comments(text, table, head):
    return re.sub(rf"{head}[^\n]*", lambda m: prose(m[0], table), text)


def main():
    check = "--check" in sys.argv[1:]
    crates = {c for c in os.listdir("crates")}
    table, own, fields = tables()
    met_all = []
    changed = 0
    paths = sorted(glob.glob("crates/**/*.antt", recursive=True)) + sorted(glob.glob("crates/**/*.rt", recursive=True))
    paths += sorted(glob.glob("crates/*/must-fail/*.edit"))
    for p in paths:
        text = read(p)
        rust = p.endswith(".rt")
        lemmas = GIVE_WAY if p.endswith(".antt") and p.split(os.sep)[2] == "proofs" and not is_of_a_function(p) else {}
        for old, name in lemmas.items():
            text = re.sub(rf"(?<![\w.'-]){old}(?![\w'-])", name, text)
        new, met = turned(p, text, {**table, **own.get(p, {})}, fields, crates, RUST if rust else TOKEN)
        new = in_comments(new, {**table, **own.get(p, {})}, "//" if rust else "--")
        met_all += [(p, *it) for it in met]
        if new != read(p):
            changed += 1
            if not check:
                with open(p, "w", encoding="utf-8", newline="") as f:
                    f.write(new)
    for p in sorted(glob.glob("*.md") + glob.glob("docs/**/*.md", recursive=True) + glob.glob("crates/**/*.md", recursive=True)):
        text = read(p)
        new = prose(text, table)
        if new != text:
            changed += 1
            if not check:
                with open(p, "w", encoding="utf-8", newline="") as f:
                    f.write(new)
    for it in met_all:
        print("met:", *it)
    print(f"{len(table)} names, {changed} files")


if __name__ == "__main__":
    main()
