#!/usr/bin/env python3
"""Refuses each allocation of the program in turn: it ends with status 8 and has written nothing.

    tests/refused_growths.py [PROGRAM]

Runs PROGRAM, or else crates/flit/out/flit, which `./flit` builds first where it must, over small inputs with each command
and option. Each run is first made whole, which counts its allocations; then once for each of them, with that one refused, and once more
with it and all behind it refused. A block that is to become smaller, and can't, is kept as it is: there the program ends
well, with the same text. It prints a line for each run that was made whole, and each refusal that ended otherwise. The
status is 0 where there was none.

The refusing is done by refuse.c, which `cc` (or $CC) compiles into a library that is preloaded.
"""

import os
import pathlib
import subprocess
import sys
import tempfile

TOP = pathlib.Path(__file__).resolve().parent.parent
BUILT = TOP / "crates/flit/out/flit"
NO_MEMORY = 8
FAR = 2**63

LIST = """flit 1
structure list
rows 6
workers 2
1 insert 5
1 remove 5
2 insert 5
2 evict 0
turn 1 9
turn 2 4
stop 2 12
ahead 0
end
"""

HASH = """flit 2
structure hash 2
place hashed 3
rows 6
workers 2
start 2
word 1 1:4
word 2 1:7
word 3 1:0
word 14 1:70
begin
1 insert 2 20
2 get 7
2 remove 7
end
"""

TREE = """flit 2
structure tree
place packed
rows 12
workers 2
1 insert 10 1
1 insert 20 2
2 remove 10
2 get 20
turn 1 40
turn 2 12
end
"""

STEPS = [["step"], ["step", "--events"], ["step", "--summary"], ["step", "--image"]]
RUNS = [["run"], ["run", "--summary"], ["run", "--image"]]
MAKES = [["make", "7", "3", "16", "2"], ["make", "0", "40", "1", "1"], ["make", "9", "64", "4096", "64"]]


class Refusing:
    """The program with the library that refuses, and a folder for what it counts."""

    def __init__(self, program, folder):
        self.program = program
        self.library = folder / "refuse.so"
        self.count = folder / "count"
        compiler = os.environ.get("CC", "cc")
        source = TOP / "tests/refuse.c"
        subprocess.run([compiler, "-shared", "-fPIC", "-O1", "-o", self.library, source], check=True)

    def run(self, words, text, first=0, last=0):
        """How a run ends that is refused its allocations from `first` to `last`, and how many it asked for."""
        self.count.unlink(missing_ok=True)
        refused = {"REFUSE_FROM": str(first), "REFUSE_TO": str(last), "REFUSE_COUNT": str(self.count)}
        ended = subprocess.run(
            [self.program, *words],
            input=text,
            capture_output=True,
            timeout=60,
            env={"LD_PRELOAD": str(self.library), **refused},
        )
        return ended, int(self.count.read_text())


def told(ended):
    return f"status {ended.returncode}, {len(ended.stdout)} bytes written, {ended.stderr!r}"


def is_refused(ended):
    return ended.returncode == NO_MEMORY and not ended.stdout and ended.stderr == b"flit: no memory\n"


def refuse_each(refusing, name, words, text):
    """Refuses each allocation of one run. Answers how many ended with status 8, how many well, and how many otherwise."""
    whole, count = refusing.run(words, text)
    if whole.returncode != 0 or not whole.stdout:
        sys.exit(f"{name}: {told(whole)}")
    refused = well = wrong = 0
    for first in range(1, count + 1):
        for last in first, FAR:
            ended, _ = refusing.run(words, text, first, last)
            if is_refused(ended):
                refused += 1
            elif (ended.returncode, ended.stdout, ended.stderr) == (0, whole.stdout, whole.stderr):
                well += 1
            else:
                wrong += 1
                print(f"{name}: refused from {first} to {last}: {told(ended)}")
    print(f"{name}: {count} allocations; {refused} refusals end with status 8, {well} well, {wrong} otherwise")
    return refused, well, wrong


def cases(refusing):
    """Each command and option over each of its inputs; the images are those of the traces."""
    for kind, trace in ("list", LIST), ("hash", HASH), ("tree", TREE):
        text = trace.encode()
        for words in STEPS + RUNS:
            yield f"{' '.join(words)}, {kind}", words, text
        image = refusing.run(["step", "--image"], text)[0].stdout
        yield f"recover, {kind}", ["recover"], image
    for words in MAKES:
        yield " ".join(words), words, b""


def built_program():
    if subprocess.run([TOP / "flit", "make", "7", "3", "16", "2"], stdout=subprocess.DEVNULL).returncode != 0:
        sys.exit("the program isn't built")
    return BUILT


def main():
    program = pathlib.Path(sys.argv[1]).resolve() if len(sys.argv) > 1 else built_program()
    ends = []
    with tempfile.TemporaryDirectory() as folder:
        refusing = Refusing(program, pathlib.Path(folder))
        for case in cases(refusing):
            ends.append(refuse_each(refusing, *case))
    refused, well, wrong = map(sum, zip(*ends))
    print(f"{refused} refusals end with status 8 and nothing written, {well} well, {wrong} otherwise")
    sys.exit(1 if wrong else 0)


if __name__ == "__main__":
    main()
