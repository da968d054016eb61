"""Runs ask on damaged lines, whole and in pieces, and on broken descriptors: it ends in good time, and answers as vectors/ask.py does, or
says nothing where it cannot write.

lines.py [LINES [SEED]], from the repository's root, after `scripts/program.sh ask` and `oracle/build.sh`. The lines are those of the lists, most of
them with other digits, bytes, words or lengths.
"""
import subprocess
import sys
from pathlib import Path
from random import Random
from tempfile import TemporaryFile

sys.path.insert(0, str(Path(__file__).resolve().parent.parent / "vectors"))
import ask
from lists import CRATES, PROGRAMS

PROGRAM = "target/bin/ask"
SECONDS = 60
DIGITS = "0123456789ABCDEFabcdef"

# A report takes its time.
LEFT_OUT = ("report",)

# So many bytes go by a pipe in pieces.
BY_PIPE = 200_000


def lines_of_lists():
    """By the first word, so that each question is drawn as often; all that are none together."""
    by_question = {}
    for program in PROGRAMS:
        for line in ask.lines_of((CRATES / program / "stdin").read_bytes().decode("latin-1")):
            name = line.split(" ")[0]
            by_question.setdefault(name if name in ask.EVERY else None, []).append(line)
    return list(by_question.values())


def with_other_digits(line, random):
    places = [i for i, c in enumerate(line) if c in DIGITS and i > line.find(" ") > 0]
    for i in random.choices(places, k=random.choice([1, 2, 16])) if places else []:
        line = line[:i] + random.choice(DIGITS) + line[i + 1 :]
    return line


def with_other_bytes(line, random):
    for _ in range(random.choice([1, 1, 2, 5])):
        i = random.randrange(len(line) + 1)
        byte = random.choice([*" \t\r-=gx0F", chr(random.choice([*range(10), *range(11, 256)]))])
        line = line[:i] + random.choice([byte, ""]) + line[i + random.randrange(2) :]
    return line


def with_other_words(line, random):
    words = line.split(" ")
    i, j = random.randrange(len(words)), random.randrange(len(words))
    return " ".join(random.choice([words[:i] + words[i + 1 :], words[:i] + words[j:], words[:1] + words[:0:-1], [*words, words[j]]]))


def about_as_long_as_may_be(line, random):
    if random.random() < 0.9:
        return line
    return line + random.choice(" F") * max(0, ask.LONGEST + random.randrange(-2, 3) - len(line))


CHANGES = [with_other_digits, with_other_bytes, with_other_words, about_as_long_as_may_be]


def damaged(count, random):
    kinds = lines_of_lists()
    for _ in range(count):
        line = random.choice(CHANGES)(random.choice(random.choice(kinds)), random)
        if not line.startswith(LEFT_OUT):
            yield line + random.choice(["\n", "\n", "\n", "\r\n"])
    yield random.choice(["", "judge -", "judge -\r", "\r"])


def answers(text):
    return "".join(ask.all_answers(ask.lines_of(text.decode("latin-1")))).encode("latin-1")


def check(what, answer, status, right):
    if status != 0 or answer != right:
        at = next((i for i, (a, b) in enumerate(zip(answer, right)) if a != b), min(len(answer), len(right)))
        near = slice(max(0, at - 200), at + 100)
        sys.exit(f"{what}: status {status}, {answer[near]!r} instead of {right[near]!r}")


def run_piecewise(text, random):
    """Some bytes a write, so that reads come back short."""
    with TemporaryFile() as output:
        program = subprocess.Popen([PROGRAM], stdin=subprocess.PIPE, stdout=output, bufsize=0)
        rest = text
        while rest:
            size = random.choice([1, 2, 3, 100, 4095, 4096, 4097])
            program.stdin.write(rest[:size])
            rest = rest[size:]
        program.stdin.close()
        status = program.wait(SECONDS)
        output.seek(0)
        check("piecewise", output.read(), status, answers(text))


def run_broken(text):
    """Where it cannot read or write, it ends, by no signal, and says nothing."""
    for what, where in ("input closed", "<&-"), ("a directory as input", "<."), ("output closed", ">&-"), ("output full", ">/dev/full"):
        done = subprocess.run(["sh", "-c", f"exec {PROGRAM} {where}"], input=text, stdout=subprocess.PIPE, timeout=SECONDS)
        if done.returncode < 0 or done.stdout:
            sys.exit(f"{what}: status {done.returncode}, {done.stdout[:100]!r}")


def main(count=20000, seed=1):
    random = Random(int(seed))
    text = "".join(damaged(int(count), random)).encode("latin-1")
    done = subprocess.run([PROGRAM], input=text, stdout=subprocess.PIPE, timeout=SECONDS)
    check("whole", done.stdout, done.returncode, answers(text))
    run_piecewise(text[:BY_PIPE], random)
    run_broken(text)
    print(f"{text.count(10)} lines, some of them piecewise, 4 descriptors: no crash, no hang, and the right answer to each")


main(*sys.argv[1:])
