"""Holds the expected output of the program `ask_functions` to the lists with a tolerance, and needs neither the proved code nor Rust.

Reads crates/ask_functions/stdin and stdout, and bounds/*.txt. Prints a line for each list; the status is 1 where an answer lies outside.
"""

from math import inf, nextafter
from sys import exit

import bounds
from lists import BOUNDED, CRATES, PROGRAMS
from round_trips import back
from words import double, pattern, word

PROGRAM = "ask_functions"

# document 01's distance of altitudes
NEAR_M = 1e-6

METRES_PER_FOOT = 0.3048


def lists():
    """Each list's questions with their answers, by its name. Every answer is a line."""
    asked, said = ((CRATES / PROGRAM / name).read_bytes().decode("ascii") for name in ("stdin", "stdout"))
    asked, said = asked.replace("\r", "").split("\n\n"), said.split("\n\n")
    assert len(asked) == len(said) == len(PROGRAMS[PROGRAM])
    for name, questions, answers in zip(PROGRAMS[PROGRAM], asked, said):
        questions, answers = questions.strip("\n").split("\n"), answers.strip("\n").split("\n")
        assert len(questions) == len(answers), name
        yield name, list(zip(questions, answers))


def value(words):
    """What is compared: a double, or a log word by its whole part and the rest."""
    if len(words) == 1:
        return double(words[0])
    whole, part = (int(digits, 16) for digits in words)
    return whole - (whole >> 63 << 64), part


def lies_between(answer, place, low, high):
    low, high = low.split(), high.split()
    words = answer.split()[place - 1 :][: len(low)]
    return all(len(digits) == 16 for digits in words) and value(low) <= value(words) <= value(high)


def bounded(name, answers):
    """For each bound, whether the answer lies within."""
    answers = dict(answers)
    for question, place, low, high in bounds.read(name):
        yield question, lies_between(answers[question], place, low, high)


def round_trips(answers):
    """For each density altitude, whether the FAA's rule leads back to it from the station that it gives."""
    both = iter(answers)
    for (there, station), (question, feet) in zip(both, both):
        start = double(there.split()[1])
        end = double(feet) * METRES_PER_FOOT
        yield there, question == back(station) and start - NEAR_M <= end <= start + NEAR_M


def hold_comparison():
    """An end lies within, and its neighbour outside does not."""
    for low, high in [(1.5, 1.5), (-2.0, 0.0), (5e-324, 1e300)]:
        ends = pattern(low), pattern(high)
        assert all(lies_between(end, 1, *ends) for end in ends)
        assert not lies_between(pattern(nextafter(low, -inf)), 1, *ends)
        assert not lies_between(f"nan {pattern(nextafter(high, inf))}", 2, *ends)
    assert not lies_between("nan", 1, *ends)
    ends = f"{word(-1)} {word(7)}", f"{word(0)} {word(3)}"
    assert all(lies_between(end, 1, *ends) for end in ends)
    assert not any(lies_between(f"{word(whole)} {word(part)}", 1, *ends) for whole, part in [(-1, 6), (0, 4), (1, 0), (-2, 9)])


def main():
    hold_comparison()
    outside = 0
    for name, answers in lists():
        if name in BOUNDED or name == "round_trips":
            held = list(bounded(name, answers) if name in BOUNDED else round_trips(answers))
            wrong = [question for question, is_within in held if not is_within]
            first = f", the first to {wrong[0]}" if wrong else ""
            print(f"{name}: {len(held)} bounds, {len(wrong)} answers outside{first}")
            outside += len(wrong)
    return outside


if __name__ == "__main__":
    exit(1 if main() else 0)
