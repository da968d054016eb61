#!/usr/bin/env python3
"""Counts the places of docs/DESIGN-PASS.md: forms of the older language in src/ (points 1 to 7) and in proofs/ (point 8).

usage: python3 tools/design_pass.py [-v] [POINT ..]     at the top of the repository

A line for each kind: its number, its places, and how many each crate has. With -v each place stands below, as file:line:name.
It reads the text by shape and knows no types, so it finds some places that are as they should be, and a count that is
left is no fault. What it finds and the page calls kept, the page gives a reason for.
"""

import collections
import glob
import itertools
import re
import sys

CLAUSE = re.compile(r"\b(requires|ensures|invariant|decreases)\b[^{}]*$")
INTEGERS = r"(?:u8|u16|u32|u64|usize|i32|i64)"
KINDS = {"number", "meaning", "tag", "class", "letter", "form", "mast", "places", "status", "kind"}
REFUSED = r"(?:Refused|Wrong|Missing|Nothing|Absent|Unknown|Undefined|NotServed|Failed|NoCount|None|Err)"
LENGTHS = {"HEADER", "WORD", "ROOM", "PAGE", "LONGEST", "PLACES", "WORDS", "MOST_TENTHS", "MOVED"}
ORDINAL = {"wrong", "with_word", "word_start", "nth_word"}
WORDS = {"if", "else", "match", "while", "for", "in", "let", "mut", "return", "as", "true", "false", "loop", "break", "Ok", "Err", "Some", "None", "self"}
Fn = collections.namedtuple("Fn", "crate file line name params clauses body top")
Place = collections.namedtuple("Place", "file line name")


def bare(text):
    """The text without comments, and with nothing inside its quotes; lines stay where they are."""
    text = re.sub(r"b'(?:\\.|[^'\\])'", "b'_'", text)
    text = re.sub(r'b?"(?:[^"\\]|\\.)*"', lambda m: '""' + "\n" * m[0].count("\n"), text)
    return re.sub(r"//.*", "", text)


def group(text, at):
    """The end of the bracket that opens at `at`."""
    depth = 0
    for i in range(at, len(text)):
        depth += (text[i] in "({[") - (text[i] in ")}]")
        if depth == 0:
            return i + 1
    return len(text)


def split(text):
    """The parts between commas that stand in no bracket."""
    parts, depth, last = [], 0, 0
    for i, c in enumerate(text):
        depth += (c in "({[<") - (c in ")}]" or c == ">" and text[i - 1] != "-")
        if c == "," and depth == 0:
            parts.append(text[last:i])
            last = i + 1
    return [p.strip() for p in parts + [text[last:]] if p.strip()]


def functions(crate, file, text):
    for m in re.finditer(r"^ *(?:pub(?:\(crate\))? )?(?:const )?(?:extern \"\" )?fn (\w+)", text, re.M):
        start = m.end()
        if text[start] == "<":
            depth = 0
            while depth or text[start - 1] != ">" or text[start - 2] == "-":
                depth += (text[start] == "<") - (text[start] == ">" and text[start - 1] != "-")
                start += 1
        start = text.index("(", start)
        end = group(text, start)
        params = [tuple(s.strip() for s in p.split(":", 1)) if ":" in p else (p, "Self") for p in split(text[start + 1:end - 1])]
        clauses, at = [], end
        while True:
            brace = text.find("{", at)
            if brace < 0 or ";" in re.sub(r"\[[^\]]*\]", "", text[at:brace]):
                break
            head = text[at:brace]
            found = CLAUSE.search(head)
            at = group(text, brace)
            if not found:
                yield Fn(crate, file, text.count("\n", 0, m.start(1)) + 1, m[1], params, clauses, text[brace + 1:at - 1], text.count("\n", 0, brace) + 1)
                break
            clauses.append((found[1], " ".join(text[brace + 1:at - 1].split())))


def types(text, word):
    """Each enum or struct: its name, its line, its parts, its derives."""
    for m in re.finditer(r"(?:#\[derive\(([^)]*)\)\]\s*)?(?:pub(?:\(crate\))? )?%s (\w+)[^({;]*\{" % word, text):
        yield m[2], text.count("\n", 0, m.start(2)) + 1, split(text[m.end():group(text, m.end() - 1) - 1]), m[1] or ""


def shaped(parts):
    """Whether variants are those of Option or Result: one value beside bare ones, or one that refuses."""
    names = [re.match(r"\w+", p)[0] for p in parts]
    full = [p for p in parts if "(" in p or "{" in p]
    return len(full) == 1 < len(parts) or len(parts) < 5 and any(n in ("Refused", "Wrong", "Unknown", "NoCount", "None", "Absent") for n in names)


def shape(f):
    """The body with its names, numbers, types and texts left out, so that twins are the same."""
    seen = {}
    tokens = re.findall(r"\w+|::|=>|->|[^\w\s]", f.body)
    out = []
    for t in tokens:
        if t in WORDS or not re.match(r"\w", t):
            out.append(t)
        elif t[0].isdigit():
            out.append("0")
        else:
            out.append(seen.setdefault(t, "v%d" % len(seen)))
    return " ".join(out)


def loops(f):
    """Each loop: its line, whether it counts by one what its condition names, and its head."""
    for m in re.finditer(r"\b(while|loop)\b([^{]*)\{", f.body):
        inside = f.body[m.end():group(f.body, m.end() - 1) - 1]
        steps = set(re.findall(r"\b(\w+) [+-]= 1\b", inside))
        counted = bool(steps) and (m[1] == "loop" or any(re.search(r"\b%s\b" % s, m[2]) for s in steps))
        yield f.top + f.body.count("\n", 0, m.start()), counted, m[0].rstrip("{ ")


def arms(f):
    """Each match of the body: its line, what it looks at, and its arms with their lines."""
    for m in re.finditer(r"\bmatch ([^{]*)\{", f.body):
        rows = re.compile(r"(?:^|[{,}\n])\s*([^,{}\n]+?) => ([^\n]*)").finditer(f.body, m.end() - 1, group(f.body, m.end() - 1))
        yield f.top + f.body.count("\n", 0, m.start()), m[1].strip(), [(r[1], r[2], f.top + f.body.count("\n", 0, r.start(1))) for r in rows]


def count(found, texts, fns):
    """Adds each place to found[kind]."""
    def add(kind, f, name, more=""):
        found[kind].append((f.crate, Place(f.file, f.line, name + more)))
    tokens = collections.namedtuple("T", "crate file line")
    for crate, file, text in texts:
        for name, line, parts, derives in types(text, "enum"):
            t = tokens(crate, file, line)
            if shaped(parts):
                add("1a own enum of Option's or Result's shape", t, name)
            for p in parts:
                if re.search(r"\b(?:u8|usize)\b", p) and not re.match(r"Length|Bytes|Line|Field", p):
                    add("1c number for a kind: in a variant", t, name, "::" + p)
            if "PartialEq" not in derives:
                add("4a type that derives no equality", t, name)
        for name, line, parts, derives in types(text, "struct"):
            t = tokens(crate, file, line)
            fields = [p.rsplit(":", 1) if "[" not in p else p.split(":", 1) for p in parts]
            fields = [(re.sub(r"pub(\(\w+\))? ", "", n).strip(), k.strip()) for n, k in (x for x in fields if len(x) == 2)]
            for n, k in fields:
                if len(fields) > 1 and (k == "bool" or n == "check"):
                    add("1b flag or check beside a value", t, name, "." + n)
                if n in KINDS and re.fullmatch(r"u8|u32|usize", k):
                    add("1c number for a kind: field", t, name, "." + n)
            if any(k.startswith("[") for _, k in fields) and any(n.startswith("len") for n, _ in fields):
                add("6a buffer with its length beside", t, name)
            if "PartialEq" not in derives:
                add("4a type that derives no equality", t, name)
        for m in re.finditer(r"\bconst (\w+): (?:u8|u32|usize) = (?:\d{1,3}|16 \+ .*);", text):
            if m[1] not in LENGTHS:
                add("1c number for a kind: constant", tokens(crate, file, text.count("\n", 0, m.start()) + 1), m[1])
        arrays = collections.Counter(m[1] for m in re.finditer(r"\bconst \w+: \[[^;\[\]]+; (\d+)\]", text))
        for m in re.finditer(r"\bconst (\w+): \[[^;\[\]]+; (\d+)\]", text):
            if arrays[m[2]] > 1:
                add("6c parallel arrays: constants of one length in a file", tokens(crate, file, text.count("\n", 0, m.start()) + 1), m[1])
    names, shapes, pairs, asked = (collections.defaultdict(list) for _ in range(4))
    for f in fns:
        for n, k in f.params:
            if n in KINDS and re.fullmatch(r"u8|u32|usize", k) and f.crate != "exports_c" and f.name not in ORDINAL:
                add("1c number for a kind: parameter", f, f.name, "(%s)" % n)
            if k == "bool" and n != "negative" and f.crate != "exports_c":
                add("7b flag that a caller gives", f, f.name, "(%s)" % n)
        refused = {}
        for line, what, rows in arms(f):
            numbers = [a for a, _, _ in rows if re.fullmatch(r"\d+|b'.'|[A-Z][A-Z_]+", a)]
            if len(numbers) > 1:
                add("1d match on a number", f._replace(line=line), f.name, " match " + what)
                if sum("(" in r for _, r, _ in rows) > 2:
                    add("7a step picked by a number", f._replace(line=line), f.name)
            for a, r, at in rows:
                if re.search(r"(?<!Refusal::)\b%s\b" % REFUSED, a) and re.match(r"(?:\{ *)?(?:return )?(?:\w+::)*%s\b" % REFUSED, r):
                    refused[at] = a
            constant = [r for _, r, _ in rows if re.match(r"(?:true|false|-?[\w.]+,|put\(\s*(?:page, (?:at|\w+), \"\")?)", r)]
            if len(rows) > 1 and len(constant) == len(rows) and f.body.strip().startswith("match " + what):
                add("4b answer for each variant, by hand", f, f.name)
        for m in re.finditer(r"if let (?:\w+::)*%s\b[^{]*\{\s*return|\blet (?:\w+::)*[A-Z]\w*\([^=]*= [^;]*else \{\s*return" % REFUSED, f.body):
            add("1e refusal handed on by hand", f._replace(line=f.top + f.body.count("\n", 0, m.start())), f.name, " let")
        for at, a in refused.items():
            add("1e refusal handed on by hand", f._replace(line=at), f.name, " " + a)
        equals = collections.Counter(re.findall(r"\bif (\w+) == (?:\d+|[A-Z][A-Z_]+)\b", f.body))
        if equals and max(equals.values()) > 2:
            add("1d chain of ifs on a number", f, f.name)
        for line, counted, head in loops(f):
            add("3a loop that counts an index by hand" if counted else "3b loop by another step", f._replace(line=line), f.name, " " + head)
        for m in re.finditer(r"\bfor \w+ in\b", f.body):
            add("3c for", f._replace(line=f.top + f.body.count("\n", 0, m.start())), f.name)
        for m in re.finditer(r"\.(?:iter|into_iter|chunks|chunks_exact|rev|map|filter|any|all|position|fold|zip|enumerate|take_while|sum)\(", f.body):
            add("3d iterator or a step of its chain", f._replace(line=f.top + f.body.count("\n", 0, m.start())), f.name)
        if re.fullmatch(r"\s*\w+ as %s\s*" % INTEGERS, f.body):
            add("4c cast alone in a function", f, f.name)
        if re.search(r"\w+\[[^\]]*\bi\b\] = \w+\[[^\]]*\bi\b\];", f.body):
            add("4d copy by hand", f, f.name)
        if re.fullmatch(r"\s*(?:let \w+ = [^;]*;\s*)?if (\w+) < (\w+) \{\s*\1[^}]*\} else \{\s*\2\s*\}\s*", f.body):
            add("4e least of two by hand", f, f.name)
        if re.search(r"\b48 \+|\b55 \+", f.body):
            add("4f digit by hand", f, f.name)
        for kind, c in f.clauses:
            for part in re.split(r" × ", c):
                if f.crate != "exports_c":
                    asked["Appended page.old at .. page.new result" if part.startswith("Appended page.old at ") else
                          "x.now ≡ x.now" if re.fullmatch(r"\(?(\S+\.now) ≡ \1\)?", part) else part.strip("() ")].append(f)
        if any(re.search(r"\b(?:Holds|IsPrefixLen) ", c) for _, c in f.clauses):
            add("6b buffer filled, its length answered", f, f.name)
        slices = [n for n, k in f.params if re.match(r"&(?:'\w+ )?(?:mut )?\[", k) and n not in ("page", "lent", "record", "out", "answer")]
        kinds = {re.sub(r"&(?:mut )?\[(\w+).*", r"\1", k) for n, k in f.params if n in slices}
        if len(slices) > 1 and len(kinds) > 1 and f.crate != "exports_c":
            add("6c parallel arrays: parameters", f, f.name, "(%s)" % ", ".join(slices))
        if f.crate != "exports_c":
            for pair in itertools.combinations(sorted("%s: %s" % p for p in f.params), 2):
                pairs[pair].append(f)
            names[f.name].append(f)
            if len(re.findall(r"\w+|[^\w\s]", f.body)) >= 24:
                shapes[shape(f)].append(f)
        else:
            add("2c the same name in exports and exports_c", f, f.name)
    for same in shapes.values():
        for f in same if len(same) > 1 else []:
            add("2a the same but for names, types and constants", f, f.name, " ~ " + ", ".join(g.name for g in same if g is not f))
    for name, same in names.items():
        for f in same if len({g.crate for g in same}) > 1 and name not in ("main", "reply") else []:
            add("2b a name that stands in two crates", f, name)
    for what, where in asked.items():
        if len({(f.file, f.name) for f in where}) > 2:
            for f in where:
                add("5a clause that stands in three or more functions", f, f.name, "  " + what)
    for pair, where in pairs.items():
        if len(where) > 2:
            f = where[0]
            found["5b pair of parameters in three or more functions"].append((f.crate, Place(f.file, f.line, "%d functions: %s" % (len(where), " | ".join(pair)))))
    return found


def proofs(found):
    lemmas = collections.defaultdict(list)
    for file in sorted(glob.glob("crates/*/proofs/**/*.antt", recursive=True)):
        crate, text = file.split("/")[1], re.sub(r"--.*", "", open(file, encoding="utf-8").read())
        last, p = file.split("/")[-1], Place(file, 1, "%d lines" % text.count("\n"))
        if last == "Proof.antt":
            found["8a proof that walks the code by hand"].append((crate, p))
            own = re.findall(r"^use (\S+)", text, re.M)
            if not [u for u in own if ".proofs." in u and not re.search(r"\.(Kit|Statement|Tie)\b", u)] and len(re.findall(r"^\S+ : ", text.replace("pub ", ""), re.M)) == 1:
                found["8b of these: no lemma is named"].append((crate, p))
            if "search rules" in text:
                found["8c of these: some answer only says search rules"].append((crate, p))
        elif last in ("Answers.antt", "Invariants.antt"):
            found["8d answers and invariants"].append((crate, p))
            for m in re.finditer(r"^\S+ .*= search rules$", text, re.M):
                found["8e of these: an answer that only says search rules"].append((crate, Place(file, text.count("\n", 0, m.start()) + 1, m[0])))
        else:
            found["8f file of lemmas"].append((crate, p))
            for m in re.finditer(r"^(?:pub )?([^\s:(){}]+) : (.*)$", text, re.M):
                lemmas[" ".join(m[2].split())].append((crate, Place(file, text.count("\n", 0, m.start()) + 1, m[1])))
    for what, where in lemmas.items():
        if len({c for c, _ in where}) > 1 and len(what) > 24 and "→" in what:
            found["8g lemma whose statement stands in two crates"] += where


def main(argv):
    points = [a for a in argv if a.isdigit()]
    texts, fns = [], []
    for file in sorted(glob.glob("crates/*/src/**/*.rt", recursive=True)):
        crate, text = file.split("/")[1], bare(open(file, encoding="utf-8").read())
        texts.append((crate, file, text))
        fns += functions(crate, file, text)
    found = collections.defaultdict(list)
    count(found, texts, fns)
    proofs(found)
    print("%d crates, %d functions in src/" % (len({c for c, _, _ in texts}), len(fns)))
    for kind in sorted(found):
        if points and kind[0] not in points:
            continue
        by = collections.Counter(c for c, _ in found[kind])
        print("%s: %d  (%s)" % (kind, len(found[kind]), ", ".join("%s %d" % x for x in sorted(by.items()))))
        if "-v" in argv:
            for _, p in sorted(found[kind], key=lambda x: (x[1].file, x[1].line)):
                print("    %s:%d:%s" % p)


if __name__ == "__main__":
    main(sys.argv[1:])
