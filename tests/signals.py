#!/usr/bin/env python3
"""Expands the waveform on standard input to a line for each time, `time,exc,rc`, as `./trestlecat unwave` prints it. Any tool's VCD will do."""
import sys


def variables(tokens):
    """The names of the signals by their identifiers, as the definitions give them. Leaves the tokens behind the definitions."""
    names = {}
    for token in tokens:
        if token == "$var":
            _, _, code, name = (next(tokens) for _ in range(4))
            names[code] = name
        if token == "$enddefinitions":
            return names
    sys.exit("signals: the definitions have no end")


def changes(tokens, names):
    """Every time and every change behind the definitions: (time, None) or (name, value)."""
    for token in tokens:
        if token[0] == "#":
            yield int(token[1:]), None
        elif token[0] == "b":
            yield names[next(tokens)], int(token[1:], 2)
        elif token[0] in "01":
            yield names[token[1:]], int(token[0])


def lines(tokens):
    at = 0
    signals = {}
    for what, value in changes(tokens, variables(tokens)):
        if value is not None:
            signals[what] = value
            continue
        for time in range(at, what):
            yield time, signals["exc"], signals["rc"]
        at = what
    yield at, signals["exc"], signals["rc"]


def main():
    sys.stdout.reconfigure(newline="")
    print("time,exc,rc", end="\r\n")
    for line in lines(iter(sys.stdin.read().split())):
        print(*line, sep=",", end="\r\n")


if __name__ == "__main__":
    main()
