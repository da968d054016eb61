"""Runs station_air on damaged records and on broken descriptors: it ends with status 0 in good time, and prints the oracle's answer to what it
could read, or nothing where it cannot write.

fuzz.py [RUNS [SEED]], from the repository's root, after `scripts/program.sh station_air` and `oracle/build.sh`.
"""
import os
import re
import subprocess
import sys
from random import Random
from struct import pack

PROGRAM = "target/bin/station_air"
ORACLE = "target/oracle/oracle"
SECONDS = 5

WORD = "[0-9A-F]{16}"
ANSWER = re.compile(f"station(?: {WORD}){{3}}\nair(?: {WORD}){{5}} [01]\n|refused (?:[1-9]|1[0-5])\n".encode())

VALUES = [0.0, -0.0, 5.0, 15.0, 15.05, 1013.25, 1013.1, 100.0, 1586.0, -273.15, 1e308, 5e-324, float("inf"), float("nan")]


def value(random):
    return random.choice(VALUES) if random.random() < 0.5 else random.uniform(-500, 5000)


COUNTS = [0, 1, 5_000, 15_050, 100_000, 1_013_100, 1_013_250, -273_150, -273_149, 2**31 - 1, -(2**31)]


def count(random):
    return random.choice(COUNTS) if random.random() < 0.5 else random.randrange(-500_000, 5_000_000)


def field(random):
    """A double's or a count's."""
    meaning = random.randrange(1, 8)
    if random.random() < 0.6:
        tag, data = meaning, pack(">d", value(random))
    else:
        tag, data = 0x10 + meaning, pack(">i", count(random))
    if random.random() < 0.05:
        tag = random.randrange(256)
    length = len(data) if random.random() < 0.95 else random.choice([4, 8, random.randrange(65536)])
    if random.random() < 0.1:
        data = random.randbytes(len(data))
    return bytes([tag]) + length.to_bytes(2, "big") + data


def record(random):
    """Fields, then some bytes changed, dropped or added."""
    data = bytearray(b"".join(field(random) for _ in range(random.randrange(9))))
    for _ in range(random.choice([0, 0, 1, 2, 8])):
        at = random.randrange(len(data) + 1)
        data[at : at + random.randrange(2)] = random.randbytes(random.randrange(3))
    if random.random() < 0.05:
        data += random.randbytes(random.randrange(100_000))
    return bytes(data)


def answers(records):
    """The oracle's, one for each record."""
    asked = "".join(f"judge {r.hex() or '-'}\n" for r in records).encode()
    done = subprocess.run([ORACLE, "ask"], input=asked, stdout=subprocess.PIPE, check=True)
    found = ANSWER.findall(done.stdout)
    if len(found) != len(records) or b"".join(found) != done.stdout:
        sys.exit("the oracle printed something else than answers")
    return found


def check(what, answer, status, right):
    if status != 0 or answer != right:
        sys.exit(f"{what}: status {status}, {answer!r} instead of {right!r}")


def run(data, right):
    done = subprocess.run([PROGRAM], input=data, stdout=subprocess.PIPE, timeout=SECONDS)
    check(data.hex(), done.stdout, done.returncode, right)


def run_piecewise(data, right):
    """Each byte a write of its own, so that reads come back short."""
    program = subprocess.Popen([PROGRAM], stdin=subprocess.PIPE, stdout=subprocess.PIPE, bufsize=0)
    try:
        for i in range(len(data)):
            program.stdin.write(data[i : i + 1])
    except BrokenPipeError:
        pass
    program.stdin.close()
    answer = program.stdout.read()
    check(f"piecewise {data.hex()}", answer, program.wait(SECONDS), right)


def run_from(what, file, right):
    done = subprocess.run([PROGRAM], stdin=file, stdout=subprocess.PIPE, timeout=SECONDS)
    check(what, done.stdout, done.returncode, right)


def run_closed(what, descriptor, right):
    """With a descriptor closed: where that is the output, nothing can be printed."""
    done = subprocess.run([PROGRAM], stdin=subprocess.DEVNULL, stdout=subprocess.PIPE, timeout=SECONDS, preexec_fn=lambda: os.close(descriptor))
    if descriptor == 0:
        check(what, done.stdout, done.returncode, right)
    elif done.returncode < 0 or done.stdout:
        sys.exit(f"{what}: status {done.returncode}, {done.stdout!r}")


def main(runs=2000, seed=1):
    random = Random(int(seed))
    whole = [record(random) for _ in range(int(runs))]
    for data, right in zip(whole, answers(whole)):
        run(data, right)
    pieces = [record(random)[:400] for _ in range(20)]
    for data, right in zip(pieces, answers(pieces)):
        run_piecewise(data, right)
    zeros, empty = answers([bytes(256), b""])
    with open("/dev/zero", "rb") as endless:
        run_from("endless zeros", endless, zeros)
    directory = os.open(".", os.O_RDONLY)
    run_from("a directory, which cannot be read", directory, empty)
    os.close(directory)
    run_closed("standard input closed", 0, empty)
    run_closed("standard output closed", 1, b"")
    with open("/dev/full", "wb") as full:
        done = subprocess.run([PROGRAM], stdin=subprocess.DEVNULL, stdout=full, timeout=SECONDS)
        if done.returncode < 0:
            sys.exit(f"standard output full: status {done.returncode}")
    print(f"{runs} records, 20 piecewise, 5 descriptors: no crash, no hang, and the oracle's answer to each")


main(*sys.argv[1:])
