"""Counts the lines of definitions that a promise rests on: those that its statement cites, those that these cite, and so on.

A line counts if it is no import, no comment and not blank. Definitions are what stands in crates/*/specs; types that the code
declares are counted apart. Usage: python3 scripts/rests_on.py
"""

import glob
import re

PROMISES = [
    ("the C interface", [("exports_c", None)]),
    ("`station_air`", [("text", "asked_for"), ("text", "put_asked")]),
    ("`park`", [("park_text", "put_park_text")]),
    ("`ask`", [("lines", "put_line_answer")]),
]

ITEM = re.compile(r"^(?:(?:abbrev|unfoldable|pub|record|data) )+([^\s:({]+)")


def tokens(text):
    """The words of a definition; what is quoted or a comment is none."""
    text = re.sub(r"--.*", " ", re.sub(r'"(?:[^"\\\n]|\\.)*"', " ", text))
    return set(re.split(r"[\s(){}\[\],;]+", re.sub(r"(?<=[\w'’-])\.(?=\S)", " . ", text.replace("«", "").replace("»", ""))))


def imported(lines, ghost):
    """What the names of a file stand for: name -> (module, name), and alias -> module."""
    names, modules = {}, {}
    for line in lines:
        m = re.match(r"(?:ghost |pub )?use (\S+?)(?:\.\{(.*)\})?(?: as (\S+?))?;?$", line.strip())
        if not m or line.startswith("ghost") != ghost:
            continue
        module = m[1]
        if m[2] is None:
            modules[m[3] or module.split(".")[-1]] = module
        else:
            for name in m[2].split(","):
                names[name.strip().strip("◌")] = (module, name.strip())
    return names, modules


class File:
    def __init__(self, path, module):
        self.module = module
        lines = open(path, encoding="utf-8").read().split("\n")
        self.names, self.modules = imported(lines, False)
        self.items, current = {}, None
        for line in lines:
            if line.startswith(("use ", "pub use ", "pub mod", "--")) or not line.strip():
                continue
            m = ITEM.match(line)
            if m:
                current = m[1]
                self.items[current] = []
            if current and not line.strip().startswith("--"):
                self.items[current].append(line)
        for name in self.items:
            self.names[name.strip("◌")] = (module, name)


files = {}
for path in glob.glob("crates/*/specs/**/*.antt", recursive=True):
    parts = path[:-5].split("/")
    files["Rattle." + ".".join(parts[1:])] = File(path, "Rattle." + ".".join(parts[1:]))


def cited(text, names, modules):
    found = set()
    words = tokens(text)
    for word in words:
        if word in names:
            found.add(names[word])
    for alias, module in modules.items():
        for m in re.finditer(r"(?<![\w.])" + re.escape(alias) + r"\.([^\s(){}\[\],;]+)", text):
            found.add((module, m[1]))
    return found


def closure(start):
    seen, left = set(), list(start)
    while left:
        module, name = left.pop()
        if (module, name) in seen or not module.startswith("Rattle."):
            continue
        seen.add((module, name))
        file = files.get(module)
        if file and name in file.items:
            left += cited("\n".join(file.items[name]), file.names, file.modules)
        elif file and name.strip("◌") in file.names:
            # passed on by `pub use`
            left.append(file.names[name.strip("◌")])
    return seen


def contracts(crate, function):
    """What the contract of a function cites, or without a name those of all that the crate exports."""
    found = set()
    for path in glob.glob(f"crates/{crate}/src/**/*.rt", recursive=True):
        text = open(path, encoding="utf-8").read()
        names, modules = imported(text.split("\n"), True)
        for m in re.finditer(r"pub (extern \"C\" )?fn (\w+)(.*?)\n\{", text, re.S):
            if m[2] == function or (function is None and m[1]):
                found |= cited(m[3], names, modules)
    assert found, f"no contract of {crate} {function}"
    return found


def printed(what, start):
    seen = closure(start)
    lines = sum(len(files[m].items[n]) for m, n in seen if m in files and n in files[m].items)
    types = {m for m, n in seen if ".declared." in m}
    modules = {m for m, n in seen if m in files and n in files[m].items}
    print(f"| {what} | {lines} | {len(modules)} | {len(types)} |")
    return seen


print("| what is promised | lines of definitions | files | types of the code |")
print("|---|---|---|---|")
for what, entries in PROMISES:
    printed(what, set().union(*(contracts(c, f) for c, f in entries)))
printed("demand 3", {("Rattle.promises.specs.Promises", "Demand3")})
printed("the page of promises", {("Rattle.promises.specs.Promises", "Promises")})
