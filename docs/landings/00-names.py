#!/usr/bin/env python3
"""Carries a crate, a patch or an edit that was written with the names from before the house, or before request (ii), over to the names of today.

usage: docs/landings/00-names.py PATH...   files, or folders with all that is in them; changed in place

It renames the crates of the table in docs/landings/00-house.md, but for blocks and vcd, wherever code or a proof names them, with their folders;
the answers of a run and of a drain where they are brought in; the names of refusal 15; and those of access codes 2 and 7, which mean an exchange that
is done since request (ii), so that a test of what such a row got is to be done by hand. The rest of the table, and folders of proofs/ that are
called as a function was, are to be done by hand. Prose is left alone.
"""
import os
import re
import sys

CRATES = {
    "lent_perms": "atomic_lent",
    "perm_promises": "atomic_promises",
    "words": "lock_words",
    "scripts": "lock_scripts",
    "judge": "lock_sound",
    "tidy": "lock_tidy",
    "access": "lock_access",
    "promises": "lock_promises",
    "lent_lock": "lock_lent",
    "held_lock": "lock_held",
    "lent_promises": "lock_lent_promises",
    "lent_case": "lock_case",
    "lines": "scenario_lines",
    "text": "scenario_text",
    "stages": "scenario_stages",
    "pieces": "scenario_pieces",
    "feed": "scenario_read",
    "session": "scenario_promises",
    "prints": "scenario_prints",
    "waves": "vcd_rows",
    "chunks": "program_chunks",
    "intake": "program_intake",
    "runner": "program_run",
    "wave": "program_wave",
    "unwave": "program_unwave",
    "tally": "replay",
}
NAMES = "|".join(sorted(CRATES, key=len, reverse=True))
SUFFIXES = (".rt", ".antt", ".edit", ".patch", ".diff")

# A crate as code and proofs name it; what a module of the same name is called by stands behind `super::` or `crate::`.
IN_PROOFS = re.compile(r"Rattle·(%s)(?![a-z0-9_])" % NAMES)
IN_CODE = re.compile(r"(?<![A-Za-z0-9_:.])(%s)::" % NAMES)
IN_CALLS = re.compile(r"calls-(%s)·" % NAMES.replace("_", "-"))
IN_PATHS = re.compile(r"(?<![A-Za-z0-9_])crates/(%s)(?![a-z0-9_])" % NAMES)

# What a name means is told by the line that brings it in: (that line, the old name, the new one).
MEANT = [
    (r"Rattle·lock(·specs\.specs|\.specs)\.declared\.run\.Ran\b|use lock::run::Ran\b", "Ran", "RunReturn"),
    (r"Rattle·lock(·specs\.specs|\.specs)\.declared\.drain\.Drained\b|use lock::drain::Drained\b", "Drained", "DrainReturn"),
    (r"Rattle·lock_lent(·specs\.specs|\.specs)\.declared\.run\.Ran\b", "Ran", "LentRunReturn"),
    (r"Rattle·lock_lent(·specs\.specs|\.specs)\.declared\.drain\.Drained\b", "Drained", "LentDrainReturn"),
]
# Names that mean one thing wherever they stand.
ANYWHERE = [
    (r"\bmustWait\b", "othersAreBusy"),
    (r"\bmust_wait\b", "others_are_busy"),
    (r"(?<![\w-])must-wait(?=-spec|\b)", "others-are-busy"),
    (r"(?<![\w-])other-not-idle(?![\w-])", "others-busy"),
    (r"\btriesRc\b", "exchangesRc"),
    (r"\btriesExc\b", "exchangesExc"),
    (r"\bTRIES_RC\b", "EXCHANGES_RC"),
    (r"\bTRIES_EXC\b", "EXCHANGES_EXC"),
    (r"\bOneOfTwelve\b", "OneOfFourteen"),
    (r"(?<![\w-])one-of-twelve(?![\w-])", "one-of-fourteen"),
]


def renamed(line):
    line = IN_PROOFS.sub(lambda m: "Rattle·" + CRATES[m[1]], line)
    line = IN_CODE.sub(lambda m: CRATES[m[1]] + "::", line)
    line = IN_CALLS.sub(lambda m: "calls-" + CRATES[m[1].replace("-", "_")].replace("_", "-") + "·", line)
    line = IN_PATHS.sub(lambda m: "crates/" + CRATES[m[1]], line)
    for old, new in ANYWHERE:
        line = re.sub(old, new, line)
    return line


def meant(text):
    for brings, old, new in MEANT:
        other = re.search(r"Rattle·machine[^\n]*\{[^}\n]*\b%s\b(?! as)" % old, text)
        if re.search(brings, text):
            if other:
                text = re.sub("^.*(%s).*$" % brings, lambda m: re.sub(r"\b%s\b" % old, new, m[0]), text, flags=re.M)
            else:
                keep = r"^.*Rattle·machine.*\b%s as .*$" % old
                lines = [x if re.match(keep, x) else re.sub(r"(?<![\w])%s(?![\w])" % old, new, x) for x in text.split("\n")]
                text = "\n".join(lines)
    return text


def carry(path):
    if not path.endswith(SUFFIXES):
        return
    with open(path, encoding="utf-8") as f:
        before = f.read()
    after = meant("\n".join(renamed(line) for line in before.split("\n")))
    if after != before:
        with open(path, "w", encoding="utf-8") as f:
            f.write(after)


def main(paths):
    if not paths:
        sys.exit(__doc__)
    for path in paths:
        if not os.path.isdir(path):
            carry(path)
            continue
        for folder, _, files in os.walk(path):
            for name in files:
                carry(os.path.join(folder, name))
        for old, new in CRATES.items():
            at = os.path.join(path, old)
            if os.path.isdir(os.path.join(at, "src")):
                os.rename(at, os.path.join(path, new))


main(sys.argv[1:])
