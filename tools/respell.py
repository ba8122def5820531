#!/usr/bin/env python3
"""Brings the repository's own names to today's spelling: definitions, lemmas, fields, constructors and variables in snake case.

usage: python3 tools/respell.py          at the top, once, after the kit's port.py
       python3 tools/respell.py --list   prints what would be renamed, and changes nothing

Types and modules keep their capitals, and names of the kit's libraries are left alone: a name is one of these where a file imports it from them.
Functions of src/ keep their names. Where two names fall together in a file, a lemma gets '_lem', and a constructor the word of its type below.
"""

import collections
import glob
import os
import re
import sys

TOKEN = re.compile(r"(?<![\w'-])[A-Za-z_][\w']*(?:-[\w']+)*")
OWN = sorted(os.path.basename(c) for c in glob.glob("crates/*"))
OWN_PATH = re.compile(r"^Rattle\.(?:%s)(?:\.|$)" % "|".join(OWN))
# constructors that fall together with the definition that they cite
PREFIX = {
    "crates/toks/specs/Toks.antt": "by_",
    "crates/machine/specs/Move.antt": "by_",
    "crates/machine/specs/When.antt": "for_",
    "crates/why/specs/Reasons.antt": "as_",
    "crates/scenario/specs/Named.antt": "a_",
}


def snake(name):
    if name[0].islower() or name[0] == "_":
        name = re.sub(r"([a-z0-9])([A-Z])", lambda m: m.group(1) + "_" + m.group(2).lower(), name)
    return name.replace("-", "_")


def files(kinds):
    for k in kinds:
        for p in sorted(glob.glob("crates/*/" + k, recursive=True)):
            if "/out/" not in p:
                yield p


def code(text):
    return re.sub(r"--[^\n]*", "", text)


USE = re.compile(r"(?m)^\s*(?:pub\s+)?(?:ghost\s+)?use\s+([^;\n{]+?)(?:\.\{([^}]*)\})?(?:\s+as\s+([\w'-]+))?;?\s*$")


def imports(text):
    """Names that the file has from elsewhere, and its aliases of own modules."""
    foreign, aliases = set(), set()
    for m in USE.finditer(text):
        path, items, alias = m.group(1).strip(), m.group(2), m.group(3)
        own = bool(OWN_PATH.match(path))
        if items is not None:
            if not own:
                for it in items.split(","):
                    it = it.strip()
                    foreign.add(it.split(" as ")[-1].strip())
                    foreign.add(it.split(" as ")[0].strip())
        elif own:
            aliases.add((alias or path.split(".")[-1]).strip())
        elif alias:
            foreign.add(alias)
    return foreign, aliases


def declared():
    """name -> kinds, of what the files declare: 'def', 'lem', 'con' (of a data type), 'field'."""
    found = collections.defaultdict(set)
    for p in files(("specs/**/*.antt", "proofs/**/*.antt")):
        hand = p.endswith("/Proof.antt") and p.count("/") > 3
        kind = None
        for line in code(open(p, encoding="utf-8").read()).split("\n"):
            head = re.match(r"^\s*(?:(?:pub|abbrev|unfoldable)\s+)*(data|record)\s", line)
            if head:
                kind = "con" if head.group(1) == "data" else "field"
            elif re.match(r"^\S", line):
                kind = None
            m = re.match(r"^(\s*)((?:(?:pub|abbrev|unfoldable|hidden)\s+)*)(data|record|module)?\s*([A-Za-z_][\w'-]*)\s*(.*?):(?:\s|$)", line)
            if not m:
                m2 = re.match(r"^(\s*)((?:(?:pub|abbrev|unfoldable|hidden)\s+)*)()([A-Za-z_][\w'-]*)\s*$", line)
                continue
            if hand and re.search(r":\s*tie\.", line):
                continue
            if m.group(3) and not head:
                continue
            what = "type" if head else kind if m.group(1) and kind else "def" if m.group(2).strip() not in ("", "pub") else "lem"
            found[m.group(4)].add((what, p))
    return found


BIND = re.compile(r"(?:\blet\s+|λ\s+\(?|[({])([a-z][\w']*(?:-[\w']+)*)(?=\s*[:=,.)\s])")


def plan():
    decl = declared()
    named = {n for n in decl if "-" in n or snake(n) != n}
    to = {n: snake(n) for n in named}
    # locals of files that are written by hand
    for p in files(("specs/**/*.antt", "proofs/*.antt")):
        text = code(open(p, encoding="utf-8").read())
        foreign, aliases = imports(text)
        for t in aliases:
            if snake(t) != t:
                to.setdefault(t, snake(t))
        body = USE.sub("", text)
        for m in TOKEN.finditer(body):
            t = m.group(0)
            if t in to or t in foreign or snake(t) == t or not t[0].islower():
                continue
            if m.start() and body[m.start() - 1] == ".":
                continue
            to[t] = snake(t)
    # names that fall together in a file
    clash = collections.defaultdict(set)
    for p in files(("specs/**/*.antt", "proofs/*.antt")):
        text = code(open(p, encoding="utf-8").read())
        foreign, _ = imports(text)
        here = collections.defaultdict(set)
        for t in set(TOKEN.findall(text)):
            here[to.get(t, t) if t not in foreign else t].add(t)
        for new, olds in here.items():
            if len(olds) > 1:
                clash[new] |= {(o, p) for o in olds}
    for new, pairs in sorted(clash.items()):
        olds = {o for o, _ in pairs}
        camel = {o for o in olds if re.search(r"[a-z0-9][A-Z]", o)}
        for o in sorted(olds - camel):
            where = [p for what, p in decl.get(o, ()) if what == "con" and p in PREFIX]
            rest = {what for what, _ in decl.get(o, ())}
            if where:
                to[o] = PREFIX[where[0]] + new
            elif "lem" in rest or "def" in rest or o in to:
                if camel or "-" in o:
                    to[o] = new + "_lem"
    return decl, to, clash


def turn_antt(text, to, fields, types):
    foreign, aliases = imports(text)
    out, at = [], 0
    for m in TOKEN.finditer(text):
        t = m.group(0)
        new = to.get(t)
        if new is None or t in foreign:
            continue
        start = m.start()
        before = text[:start]
        comment = "--" in before[before.rfind("\n") + 1:]
        if start and text[start - 1] == "." and not comment:
            head = re.search(r"([A-Za-z_][\w']*(?:-[\w']+)*)\.$", before[-80:])
            if not (head and (head.group(1) in aliases or head.group(1) in types)) and t not in fields:
                continue
        if comment and not re.search(r"[a-z0-9][A-Z]", t) and text[start - 1:start] != "`":
            continue
        out.append(text[at:start])
        out.append(new)
        at = m.end()
    return "".join(out) + text[at:]


def turn_rt(text, to):
    def f(m):
        t = m.group(0)
        return to[t] if t in to and re.search(r"[a-z0-9][A-Z]", t) and t[0].islower() else t
    return TOKEN.sub(f, text)


def main(argv):
    decl, to, clash = plan()
    fields = {n for n, k in decl.items() if any(w == "field" for w, _ in k)}
    types = {n for n, k in decl.items() if any(w == "type" for w, _ in k)}
    if argv:
        for new, pairs in sorted(clash.items()):
            print("together:", new, sorted({(o, to.get(o, o)) for o, _ in pairs}), sorted({p[7:] for _, p in pairs})[:4])
        for p in files(("src/**/*.rt",)):
            text = open(p, encoding="utf-8").read()
            toks = set(TOKEN.findall(text))
            for t in sorted(toks):
                if t in to and re.search(r"[a-z0-9][A-Z]", t) and t[0].islower() and to[t] in toks:
                    print("code:", p, t, to[t])
        print(len(to), "names")
        return 0
    for p in files(("specs/**/*.antt", "proofs/**/*.antt")):
        text = open(p, encoding="utf-8").read()
        new = turn_antt(text, to, fields, types)
        if new != text:
            open(p, "w", encoding="utf-8").write(new)
    for p in files(("src/**/*.rt",)):
        text = open(p, encoding="utf-8").read()
        new = turn_rt(text, to)
        if new != text:
            open(p, "w", encoding="utf-8").write(new)
    return 0


if __name__ == "__main__":
    raise SystemExit(main(sys.argv[1:]))
