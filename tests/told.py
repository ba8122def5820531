#!/usr/bin/env python3
"""What the programs tell of a refused line, against the rules: examples with a few bytes or lines damaged, whole and in pieces.

usage: tests/told.py [FILES [SEED]]     so many files (500), other ones for another number (1)

The number and the line of a refusal are those that the trace ends with, which tests/compare.sh compares. All else is made here of the file: which lines
came before, and the bytes of the refused one. Its status is 0 where nothing differs. The gate does not run it, since it needs Python.
"""
import glob, os, random, subprocess, sys, time

os.chdir(os.path.join(os.path.dirname(os.path.abspath(__file__)), ".."))


def asked(words):
    """What the shell's parts of the repository say."""
    return subprocess.check_output(["sh", "-c", ". tools/kit.sh && . tests/lib.sh && " + words], text=True).strip()


KIT = asked("echo $kit")
START = [KIT + "/lib/ld-linux-x86-64.so.2", "--library-path", KIT + "/lib"]
PROGRAMS = {name: asked("program " + name) for name in ("program_run", "program_wave")}


def said(program, pieces):
    """What a program prints, and what it says on standard error. It may end before all pieces are sent."""
    with subprocess.Popen(
        START + [PROGRAMS[program]], stdin=subprocess.PIPE, stdout=subprocess.PIPE, stderr=subprocess.PIPE
    ) as run:
        try:
            for piece in pieces[:-1]:
                run.stdin.write(piece)
                run.stdin.flush()
                time.sleep(0.001)
        except BrokenPipeError:
            pieces = [b""]
        return run.communicate(pieces[-1])


def due(file, number, line):
    """What is to be told: the lines before the refused one were all taken."""
    lines = file.split(b"\r\n")
    if lines[-1] == b"":
        lines.pop()
    stages = {b"kind": 1, b"lock": 2, b"pred": 3, b"op": 3, b"run": 4}
    stage, lock, thread = 0, [0, 0, 0], 0
    for taken in lines[: line - 1]:
        fields = taken.split(b",")
        stage = stages[fields[0]]
        if fields[0] == b"lock":
            lock = [int(field) for field in fields[1:]]
        if fields[0] == b"op":
            thread = int(fields[1])
    refused = lines[line - 1] if line <= len(lines) else b""
    numbers = [stage, *lock, thread, min(len(refused), 81), *refused[:80]]
    return b"refused,%d,%d\r\nread,%s\r\n" % (number, line, b",".join(b"%d" % n for n in numbers))


def damaged(file):
    file = bytearray(file)
    for _ in range(random.randint(0, 3)):
        at = random.randrange(len(file) + 1)
        lines = bytes(file).split(b"\r\n")
        ways = [
            lambda: file[:at] + file[at + 1 :],
            lambda: file[:at] + bytes([random.choice(b',0123456789\r\nxk"')]) + file[at:],
            lambda: file[:at] + bytes([random.randrange(256)]) + file[at + 1 :],
            lambda: file[:at],
            lambda: bytearray(b"\r\n".join(lines + random.choices(lines))),
            lambda: file[:at] + bytes(random.choices(b"0k,", k=random.choice([70, 75, 80, 81, 200]))) + file[at:],
            lambda: file + random.choice([b"\r", b"\n", b"op,0,1,0", b"lock,1,2,3\r", b"\r\n"]),
        ]
        file = random.choice(ways)()
    return bytes(file)


def pieces_of(file):
    cuts = sorted(random.choices(range(len(file) + 1), k=random.randint(1, 20)))
    return [file[a:b] for a, b in zip([0, *cuts], [*cuts, len(file)])]


def main():
    files, seed = (int(word) for word in (sys.argv[1:] + ["500", "1"][len(sys.argv) - 1 :]))
    random.seed(seed)
    examples = [open(name, "rb").read() for name in sorted(glob.glob("examples/*.csv"))]
    refused = different = 0
    for _ in range(files):
        file = damaged(random.choice(examples))
        out, err = said("program_run", [file])
        last = out.split(b"\r\n")[-2].split(b",")
        told = due(file, int(last[1]), int(last[2])) if last[0] == b"refused" else b""
        refused += told != b""
        pieces = pieces_of(file)
        for got in err, said("program_wave", [file])[1], said("program_run", pieces)[1], said("program_wave", pieces)[1]:
            if got != told:
                different += 1
                print(f"for {file!r} it says {got!r} and should say {told!r}")
    print(f"{files} files, {refused} refused, {different} different")
    return different != 0 or refused == 0


sys.exit(main())
