"""Joins the lists' questions to the input of the programs `ask` and `ask_functions`, and ask.py's answers to their expected output.

A list's questions are FOLDER/NAME.questions, where FOLDER is the only argument; those of a list with bounds are in bounds/NAME.txt.
Between two lists stands an empty line, which is answered by one. Prints how many questions each list has.
"""

from pathlib import Path
from sys import argv

import ask
import bounds
import park
import report

CRATES = Path(__file__).resolve().parent.parent / "crates"

BOUNDED = [
    *["true_log", "true_antilog", "true_power", "true_exp", "true_ln", "true_sqrt", "published"],
    *["outside_saturation", "outside_density", "outside_sound", "outside_layers"],
]
PROGRAMS = {
    "ask": [
        *["records", "strict", "votes", "trims", "writes", "conversions", "sheets", "loads", "reports", "words"],
        # last, since it has empty lines of its own and ends without a newline
        "forms",
    ],
    # every answer is one line
    "ask_functions": [
        *["rules_log", "rules_antilog", "rules_power", "rules_exp", "rules_ln", "rules_sqrt", "roots"],
        *["source_layers", "source_humid", "source_station", "source_altitudes", "source_inverse", "decimals"],
        *BOUNDED,
        "round_trips",
    ],
}
# the one list of what is not understood
WRONG = "forms"

# The last line of an input lacks its newline: `forms` ends so, and here a carriage return stands at the end.
ENDS_WITH_RETURN = "ask_functions"


def text_of(folder, name):
    if name in BOUNDED:
        return "".join(question + "\n" for question in bounds.questions(name))
    return Path(folder, f"{name}.questions").read_bytes().decode("latin-1")


def hold(name, lines, answers):
    """Questions of a list are understood, but for the list that tries what is not."""
    if name != WRONG:
        assert all(isinstance(ask.understood(line), tuple) for line in lines), name
    if name == "reports":
        report.hold(answers)
    if name == "words":
        park.hold(answers)


def main(folder):
    for program, names in PROGRAMS.items():
        texts = [text_of(folder, name) for name in names]
        lists = [ask.lines_of(text) for text in texts]
        answers = iter(ask.all_answers([line for lines in lists for line in lines]))
        said = [[next(answers) for _ in lines] for lines in lists]
        for name, lines, answered in zip(names, lists, said):
            hold(name, lines, answered)
            print(f"{program} {name}: {len(lines)} lines, {len(set(lines))} of them different")
        (CRATES / program).mkdir(exist_ok=True)
        asked = "\n".join(texts)
        if program == ENDS_WITH_RETURN:
            asked = asked[:-1] + "\r"
        (CRATES / program / "stdin").write_bytes(asked.encode("latin-1"))
        (CRATES / program / "stdout").write_bytes("\n".join("".join(answered) for answered in said).encode("latin-1"))


if __name__ == "__main__":
    main(argv[1])
