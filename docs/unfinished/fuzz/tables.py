"""Runs `park table` on damaged tables, some in pieces, and on broken descriptors: it ends in good time, and writes what vectors/table.py does,
or nothing where it cannot write.

tables.py [TABLES [SEED]], from the repository's root, after `rt check park` and `oracle/build.sh`. Most of the tables have other bytes,
doubled separators and quotes, or are cut.
"""
import subprocess
import sys
from pathlib import Path
from random import Random
from tempfile import TemporaryFile

sys.path.insert(0, str(Path(__file__).resolve().parent.parent / "vectors"))
import table
import table_cases

PROGRAM = "target/bin/park"
SECONDS = 60

# Every so many tables one goes by a pipe in pieces.
IN_PIECES = 10


def check(case, done, right):
    if done != (0, *right):
        arguments, data = case
        sys.exit(f"{arguments}, {data!r}: {done!r} instead of {right!r}")


def run(case):
    arguments, data = case
    done = subprocess.run([PROGRAM, "table", *arguments], input=data, capture_output=True, timeout=SECONDS)
    return done.returncode, done.stdout, done.stderr


def run_piecewise(case, random):
    """Some bytes a write, so that reads come back short."""
    arguments, data = case
    with TemporaryFile() as out, TemporaryFile() as err:
        program = subprocess.Popen([PROGRAM, "table", *arguments], stdin=subprocess.PIPE, stdout=out, stderr=err, bufsize=0)
        while data:
            size = random.choice([1, 2, 3, 100, 4095, 4096, 4097])
            try:
                program.stdin.write(data[:size])
            except BrokenPipeError:
                # a problem of the first line is said before the rest is read
                break
            data = data[size:]
        program.stdin.close()
        status = program.wait(SECONDS)
        out.seek(0)
        err.seek(0)
        return status, out.read(), err.read()


def run_broken(data):
    """Where it cannot read or write, it ends, by no signal, and says nothing on standard output."""
    for what, where in ("input closed", "<&-"), ("a directory as input", "<."), ("output closed", ">&-"), ("output full", ">/dev/full"):
        command = ["sh", "-c", f"exec {PROGRAM} table altitude=1586 {where}"]
        done = subprocess.run(command, input=data, capture_output=True, timeout=SECONDS)
        if done.returncode < 0 or done.stdout:
            sys.exit(f"{what}: status {done.returncode}, {done.stdout[:100]!r}")


def main(count=4000, seed=1):
    random = Random(int(seed))
    cases = [(words, text.encode("latin-1")) for words, text in table_cases.drawn_tables(int(count) // 2, int(seed))]
    for i, (case, right) in enumerate(zip(cases, table.written(cases))):
        check(case, run(case), right)
        if i % IN_PIECES == 0:
            check(case, run_piecewise(case, random), right)
    run_broken("".join(table_cases.readings_at_random(1000)).replace("altitude", "height", 1).encode())
    lines = sum(data.count(b"\n") for _, data in cases)
    print(f"{len(cases)} tables with {lines} lines, some in pieces, 4 descriptors: no crash, no hang, and the right bytes for each")


main(*sys.argv[1:])
