#!/usr/bin/env python3
# The places of src/ that the design pass looks at, counted: places.py [-l] [FOLDER]. With -l each place is named.
import pathlib
import re
import sys

NAMED = "-l" in sys.argv
TOP = pathlib.Path([a for a in sys.argv[1:] if a != "-l"][0] if len([a for a in sys.argv[1:] if a != "-l"]) else ".")
FILES = sorted(p for p in TOP.glob("crates/*/src/**/*.rt"))
TEXT = {p: p.read_text() for p in FILES}


def code(text):
    """The text without its comments, line for line."""
    return re.sub(r"//[^\n]*", "", text)


def found(pattern, flags=re.M, of=code):
    """(file, line, text) of each match."""
    out = []
    for p in FILES:
        text = of(TEXT[p])
        for m in re.finditer(pattern, text, flags):
            line = text.count("\n", 0, m.start()) + 1
            out.append((p, line, m.group(0).strip().split("\n")[0][:90]))
    return out


def enums():
    """Every enum: (file, line, name, [(variant, whether it holds something)], whether it is public)."""
    out = []
    for p in FILES:
        text = code(TEXT[p])
        for m in re.finditer(r"^(pub(?:\(crate\))? )?enum (\w+)(?:<[^>]*>)? \{\n(.*?)^\}", text, re.M | re.S):
            variants = re.findall(r"^    (\w+)(\(|\s*\{)?", m.group(3), re.M)
            line = text.count("\n", 0, m.start()) + 1
            out.append((p, line, m.group(2), [(v, bool(h)) for v, h in variants], bool(m.group(1))))
    return out


def functions():
    """Every function: (file, line, name, its text)."""
    out = []
    for p in FILES:
        text = code(TEXT[p])
        for m in re.finditer(r"^( *)(?:pub(?:\(crate\))? )?(?:const )?fn (\w+).*?^\1\}", text, re.M | re.S):
            out.append((p, text.count("\n", 0, m.start()) + 1, m.group(2), m.group(0)))
    return out


def shape(text):
    """A function's body with each name and number replaced, so that twins read alike."""
    body = text[text.index("\n{") :] if "\n{" in text else text[text.index("{") :]
    body = re.sub(r"\b(?!let|mut|if|else|match|while|for|in|return|true|false|fn|as|loop)[A-Za-z_]\w*", "x", body)
    return re.sub(r"\s+", " ", re.sub(r"\d+", "0", body))


def twins():
    """Functions of at least three lines of body whose text is another's but for names and numbers, in another file or of another type."""
    groups = {}
    for p, line, name, text in functions():
        s = shape(text)
        if len(text.split("\n")) >= 5 and len(s) >= 60:
            groups.setdefault(s, []).append((p, line, name))
    return [x for g in groups.values() if len(g) > 1 for x in g]


def option_shaped():
    return [(p, l, n) for p, l, n, vs, _ in enums() if sum(h for _, h in vs) == 1 or len(vs) == 2 and any(h for _, h in vs)]


def parameters(n):
    """Functions with at least n parameters."""
    out = []
    for p, line, name, text in functions():
        m = re.search(r"fn \w+(?:<[^>]*>)?\((.*?)\)\s*(?:->|\n|\{)", text, re.S)
        if m and len(re.findall(r"\b\w+: ", m.group(1))) >= n:
            out.append((p, line, name))
    return out


POINTS = [
    ("1a enums of which one case holds something, or both of two", option_shaped),
    ("1b numbers that stand for none, as their comments say", lambda: found(r"//[^\n]*\b(0 for none|0 if there is none|0 if none|; 0 times|: there is none|whose number is 0)[^\n]*", of=lambda t: t)),
    ("1c a number compared with the one for no refusal", lambda: found(r"[=!]= NONE\b|\.refused == 0")),
    ("1d constants that number kinds, accesses or refusals", lambda: found(r"^(?:pub )?const \w+: u64 = \d+;", re.M)),
    ("1e enums that say whether something was done", lambda: [(p, l, n) for p, l, n, vs, _ in enums() if n in ("Written", "Verdict")]),
    ("2 functions that are another's but for names, types and numbers", twins),
    ("3 while loops", lambda: found(r"^\s*while [^\n]*")),
    ("4a equality, order and conversion by own functions: calls", lambda: found(r"\b(?:lock_words::)?(?:is|is_at|is_same|same|smaller|bit|wide|place_no|stage_no|same_\w+)\((?!\))(?<!fn )[^\n]*")),
    ("4b numbers of an own enum by match", lambda: found(r"^\s*\w+::\w+(?:\([^)]*\))? => \d+,")),
    ("5a the parameters lens, ops and vals beside one another", lambda: found(r"lens: &\[u64\],\s*ops: &\[u64\]", re.M | re.S)),
    ("5b functions of eight parameters and more", lambda: parameters(8)),
    ("6 an array of records with its length beside it", lambda: found(r"recs: \[Rec; 16\],\s*count: u(?:64|size)", re.M | re.S)),
    ("7 enums that hold nothing, or operands, of which a function chooses a step", lambda: [(p, l, n) for p, l, n, vs, pub in enums() if n in ("Op", "Operation", "Stop", "Whom", "Move")]),
]


def main():
    for title, count in POINTS:
        places = count()
        print(f"{len(places):5d}  {title}")
        if NAMED:
            for p, line, what in places:
                print(f"         {p.relative_to(TOP)}:{line}: {what}")
    files = [p for p in TOP.glob("crates/*/proofs/**/*.antt")]
    answers = [p for p in files if p.name in ("Answers.antt", "Invariants.antt")]
    print(f"{len(answers):5d}  8 files of answers and invariants, {sum(len(p.read_text().splitlines()) for p in answers)} lines;"
          f" {len(files) - len(answers)} other files of proofs, {sum(len(p.read_text().splitlines()) for p in files if p not in answers)} lines")


main()
