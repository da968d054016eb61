"""Writes the questions of the lists `forms`, every form of a line, understood and not, and `loads`.

Each question once right, in hex digits of either case and of both, then with each argument wrong, with too many and with too few.
The only argument is the folder to write to.
"""

from pathlib import Path
from random import Random
from sys import argv

from ask import EVERY, LONGEST
from words import in_both_cases, pattern, save, word

# A record with both forms, of 38 bytes. Its digits have letters.
GOOD = "010008404EA00000000000" + "020008403AABCDEF000000" + "15000400009CDF" + "1700040010ABCD"

RIGHT = {
    "RECORD": [GOOD, "-"],
    "DOUBLE": [pattern(1010.8), "7FFABCDEF0123456", "FFF0000000000000"],
    "DOUBLE|none": ["none", pattern(21.7), "FFF8000000000001"],
    "WORD": [word(0xABCDEF), word(5)],
    "NUMBER": ["3", "0", "007", "15", "16", "9999", str(2**64 - 1), "0" * 30 + "26"],
}
RIGHT_ITEMS = [
    [],
    ["01=404EA00000000000"],
    ["12=00003A98", "01=0000000000000000"],
    ["17=0010ABCD", "06=7FFABCDEF0123456", "11=FFFFFFFF", "05=8000000000000000", "02=FFF0000000000000", "13=80000000", "04=0000000000000001"],
]

HEX_DIGITS = ["", "0", "F" * 15, "F" * 17, "000000000000000G", "0x00000000000000", " 00000000000000", "+000000000000000", "None", "nan", "0.0"]
WRONG = {
    "RECORD": ["", "0", GOOD[:-1], GOOD + "g0", "--", "-00", "00-", "none", "0x01", "01:00:08", "01,00"],
    "DOUBLE": [*HEX_DIGITS, "none", "1010.8"],
    "DOUBLE|none": [*HEX_DIGITS, "NONE", "nonee", "non", "-"],
    "WORD": [*HEX_DIGITS, "none", "5"],
    "NUMBER": ["", "-1", "+1", "1.0", "1e3", "0x10", "A", "1_0", "1\t", str(2**64), "9" * 30, "none"],
}
WRONG_ITEMS = [
    *["", "01", "01=", "=", "=404EA00000000000", "01:404EA00000000000", "01==04EA00000000000", "1=404EA00000000000", "001=404EA00000000000"],
    *["01=404EA0000000000", "01=404EA000000000000", "01=0000EA60", "11=404EA00000000000", "11=0000EA6", "11=0000EA600", "01=404EA0000000000G"],
    *["00=0000000000000000", "08=0000000000000000", "10=00000000", "18=00000000", "21=00000000", "0A=0000000000000000", "0G=0000000000000000"],
    *["01 =404EA00000000000", "01= 404EA0000000000", "-", "none", "01=nan", "altitude=1"],
]


def in_other_cases(question):
    """Lower-case digits and digits of both cases in the arguments, where that makes another question."""
    name, *arguments = question.split(" ")
    lower = [argument.lower() for argument in arguments]
    mixed = [argument if argument == "none" else in_both_cases(argument) for argument in arguments]
    yield from dict.fromkeys(" ".join([name, *changed]) for changed in (lower, mixed))


def right(name):
    """Questions that are understood: each argument in each form, beside the first form of the others."""
    if name == "write":
        return [" ".join([name, *items]) for items in RIGHT_ITEMS]
    if name == "park":
        return ["park", "park altitude=1586 temperature=24", "park altitude=\t1", "park ", "park \u00c3\u00a9=1", "park  altitude=1", "park none"]
    if name == "antilog":
        wholes, parts = [0, -1, 2**32 - 1, -(2**32), 1023, -1075], [0, 1, 2**60 - 1, 0xABCDEF]
        return [f"antilog {word(whole)} {word(part)}" for whole in wholes for part in parts]
    forms = EVERY[name].split(" ")
    first = [RIGHT[form][0] for form in forms]
    others = [[*first[:i], other, *first[i + 1 :]] for i, form in enumerate(forms) for other in RIGHT[form][1:]]
    return [" ".join([name, *arguments]) for arguments in [first, *others]]


def wrong(name):
    """Arguments that are not understood, one at a time; too few and too many; blanks too many."""
    if name == "park":
        return []
    if name == "write":
        good = RIGHT_ITEMS[1][0]
        yield from (f"write {item}" for item in WRONG_ITEMS)
        yield from (f"write {good.replace('01=', '02=')} {item}" for item in WRONG_ITEMS)
        yield from [f"write {good} {good}", f"write {good} 11=0000EA60", f"write 11=0000EA60 {good}", "write 11=0000EA60 11=0000EA60"]
        yield from [f"write  {good}", f"write {good} ", f"write {good}  12=00003A98", "write ", "write  "]
        return
    forms = EVERY[name].split(" ")
    first = [RIGHT[form][0] for form in forms]
    if name == "antilog":
        yield from (f"antilog {word(whole)} {word(0)}" for whole in (2**32, -(2**32) - 1, 2**63, -(2**63)))
        yield from (f"antilog {word(0)} {word(part)}" for part in (2**60, 2**63, -1))
    for i, form in enumerate(forms):
        for argument in WRONG[form]:
            yield " ".join([name, *first[:i], argument, *first[i + 1 :]])
    for arguments in [], first[:-1], [*first, first[-1]], [*first, ""], ["", *first], [*first, "none"], [first[0], "", *first[1:]]:
        if len(arguments) != len(forms):
            yield " ".join([name, *arguments])


def unknown():
    """Words that are no question."""
    for name in EVERY:
        yield from [name.upper(), name.capitalize(), f"{name}s {GOOD}", f" {name} {GOOD}", f"{name}\t{GOOD}", f"{name}= {GOOD}"]
        yield name[:-1]
    yield from ["?", "help", "--help", "-", "none", " ", "  ", "\t", "#", GOOD, f"{GOOD} judge", "station_air", "judge_values -", "judge-value -", "Judge -", "\rjudge -"]


def ends_of_lines():
    """Lines with their ends: carriage returns, empty lines, and lines about as long as they may be."""
    judged = f"judge {GOOD}"
    longest = "judge " + "FF" * ((LONGEST - 6) // 2)
    typed = "park " + "x" * (LONGEST - 5)
    assert len(longest) == len(typed) == LONGEST
    yield from [judged + "\r\n", "\n", "\r\n", "\n", "\r\r\n", judged + "\r\r\n", judged + "\r\r\r\n", "jud\rge -\n", f"judge {GOOD[:4]}\r{GOOD[4:]}\n"]
    for line in longest, typed:
        yield from [line + "\n", line + "\r\n", line + "\r\r\n", judged + "\n", line + "F\n", judged + "\n", line + "F\r\n", judged + "\n", line + " \n"]
    yield from [" " * LONGEST + "\n", " " * (LONGEST + 1) + "\n", "\n", "\t" * 5000 + "\n", judged + "\n"]
    # a long line that holds whole questions, and one of many buffers
    yield from [(judged + " ") * 200 + "\n", judged + "\n", "FF" * 40000 + "\r\n", "\n", "x" * (2 * LONGEST) + "\n", "x" * (2 * LONGEST + 1) + "\n", judged + "\n"]


def forms():
    for name in EVERY:
        for question in right(name):
            yield question + "\n"
            if name != "park":
                yield from (other + "\n" for other in in_other_cases(question))
        yield from (question + "\n" for question in wrong(name))
    yield from (line + "\n" for line in unknown())
    yield from ends_of_lines()
    # the last line may lack its newline
    yield f"judge-values {GOOD.lower()}"


def loads():
    random = Random(6)
    numbers = [*range(100), *range(9990, 10010), *(2**n + d for n in (15, 16, 31, 32, 53, 62, 63) for d in (-1, 0, 1)), 2**64 - 2, 2**64 - 1]
    numbers += [random.randrange(2**64) for _ in range(50)]
    return [f"load {number}" for number in numbers]


if __name__ == "__main__":
    save(argv[1], "loads", loads())
    Path(argv[1], "forms.questions").write_bytes("".join(forms()).encode("latin-1"))
