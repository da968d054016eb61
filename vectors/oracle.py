"""Asks the oracle, target/oracle/oracle, which has to be built."""

from pathlib import Path
from subprocess import run

ORACLE = Path(__file__).resolve().parent.parent / "target/oracle/oracle"

SHEET_ROWS = 51


def lines_of(question, first):
    """How many lines the answer has, by the question and the answer's first line."""
    if first.startswith("station "):
        return 2
    return SHEET_ROWS if question.startswith("sheet ") and not first.startswith("refused ") else 1


def answers(questions):
    """The answer to each question, whole lines. The oracle has no `root`, `report` and `park`, and takes what is understood alone."""
    questions = list(questions)
    asked = "".join(question + "\n" for question in questions)
    said = run([ORACLE, "ask"], input=asked, capture_output=True, encoding="latin-1", check=True).stdout
    lines = iter(said.splitlines(keepends=True))
    for question in questions:
        first = next(lines)
        yield first + "".join(next(lines) for _ in range(lines_of(question, first) - 1))
    assert next(lines, None) is None
