"""The words of a question to `ask`: doubles and whole numbers in 16 hex digits, records in two a byte. And lists of questions."""

from pathlib import Path
from struct import pack, unpack


def pattern(x):
    return pack(">d", x).hex().upper()


def double(pattern):
    return unpack(">d", bytes.fromhex(pattern))[0]


def word(n):
    """Of 64 bits, a negative number in two's complement."""
    return f"{n % 2**64:016X}"


def record(data):
    return data.hex().upper() or "-"


def record_of(text):
    return bytes.fromhex(text.strip("-"))


def in_both_cases(digits):
    return "".join(digit.lower() if i % 2 else digit for i, digit in enumerate(digits))


def question(name, *doubles):
    return " ".join([name, *map(pattern, doubles)])


def save(folder, name, questions):
    """A list of questions, as its maker leaves it to lists.py."""
    text = "".join(question + "\n" for question in questions)
    Path(folder, f"{name}.questions").write_bytes(text.encode("latin-1"))
