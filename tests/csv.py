#!/usr/bin/env python3
"""Reads what every example prints with Python's csv module, as it is: the header, rows of seven numbers, at most one refusal, no stray CR."""
import io
import pathlib
import subprocess
import sys

HERE = pathlib.Path(__file__).resolve().parent
ROOT = HERE.parent
sys.path = [p for p in sys.path if pathlib.Path(p).resolve() != HERE]  # else csv would be this file
import csv  # noqa: E402

HEADER = ["n", "thread", "access", "answer", "got", "exc", "rc"]
WORD = 2**64


def is_number(field):
    return field.isascii() and field.isdigit() and str(int(field)) == field and int(field) < WORD


def trace_of(scenario):
    ran = subprocess.run([ROOT / "trestlecat", "run", scenario], stdout=subprocess.PIPE)
    return ran.stdout.decode("ascii"), ran.returncode


def faults(text, status):
    """What is wrong with a trace, in words."""
    if not text.endswith("\r\n") or text.replace("\r\n", "").count("\r") or text.replace("\r\n", "").count("\n"):
        yield "a line end that is not CR LF"
    rows = list(csv.reader(io.StringIO(text, newline=""), strict=True))
    if rows[:1] != [HEADER]:
        yield "no header"
    refused = rows[-1][0] == "refused" if rows else False
    if refused and not (len(rows[-1]) == 3 and all(map(is_number, rows[-1][1:]))):
        yield "a refusal that is not a number and a line"
    if status != int(refused):
        yield f"status {status}"
    for n, row in enumerate(rows[1 : len(rows) - refused]):
        if len(row) != 7 or not all(map(is_number, row)) or row[0] != str(n):
            yield f"row {n} is {row}"


def main():
    scenarios = sorted((ROOT / "examples").glob("*.csv"))
    failed = 0
    for scenario in scenarios:
        found = list(faults(*trace_of(scenario)))
        failed += bool(found)
        for fault in found:
            print(f"{scenario.name}: {fault}")
    print(f"{len(scenarios) - failed} passed, {failed} failed")
    return 1 if failed or not scenarios else 0


if __name__ == "__main__":
    sys.exit(main())
