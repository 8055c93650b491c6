#!/usr/bin/env python3
"""Lists the places in src/ that docs/DESIGN-PASS.md counts, by point. Usage: places.py [-v] [FOLDER]

FOLDER is the top of a checkout (default: the one that this file is in). Each place is a line that a rule below finds, or a function, a
parameter list or a struct that the code at the end finds. -v prints each place."""
import collections
import os
import re
import sys

RULES = {
    1: [
        ("a number that means nothing", r"\bfn \w+(<[^>]*>)?\(\) -> u8"),
        ("a number for a refusal", r"\bfn number\(|Result<[^=]*, u8>|Refused\((u8|number|fault|9|1)\b|\bnumber: u8"),
        ("an answer inside an answer", r"-> (Result<Option<|Result<bool|Option<Option<)|\bOk\(None\)|\bOk\(Some\("),
        ("a length that means none", r"\bif (own|i|at) < (SLOTS|s\.len\(\))|place\.tags == 0|\.next\(\)\.is_empty\(\)|\bword\.is_empty\(\)"),
        ("a match by hand on an answer", r"^\s*(None|Err\(_\)) =>|=> None,$|\bOk\(\(\)\) => "),
        ("an own answer", r"^\s*(Accepted|Refused\(\w+\)),$"),
    ],
    3: [
        ("a loop over an index or a count", r"\bfor \w+ in 0\.\."),
        ("a while loop", r"\bwhile\b"),
    ],
    4: [
        ("equality by hand", r"\bfn same\(|\bsame\("),
        ("order by hand", r"\bfn compare\("),
        ("conversion by hand", r"\bfn (from_text|cause_of|answer_of|bytes_of|len_of|number)\("),
        ("printing by hand", r"\bfn (text|name|message|word|show\w*|quote)\(|extend_from_slice\(b\""),
    ],
    7: [
        ("a switch over words or steps", r"\b(if|else if) same\((verb|key|kind|word|member\.key), b\""),
        ("an arm that repeats a step", r"=> (run_|self\.(write|read))|run_pile\("),
    ],
}


def sources(root):
    for d, ds, fs in os.walk(os.path.join(root, "crates")):
        ds[:] = sorted(x for x in ds if x != "out")
        if "/src" not in d or d.endswith("_cases/src") or d.endswith("/cases/src"):
            continue
        for f in sorted(fs):
            if f.endswith(".rt"):
                yield os.path.relpath(os.path.join(d, f), root), open(os.path.join(d, f)).read()


def functions(text):
    """(line, head, clauses, body) of each function that has a body."""
    for m in re.finditer(r"(?m)^( *)(pub(\(crate\))? )?(const )?(final )?fn (\w+)", text):
        indent = m.group(1)
        end = re.search(r"(?m)^%s(\}|\{\})$" % indent, text[m.start():])
        if not end:
            continue
        whole = text[m.start():m.start() + end.end()]
        open_at = re.search(r"(?m)^%s\{" % indent, whole) or re.search(r"\{", whole)
        if whole.split("\n", 1)[0].rstrip().endswith(";"):
            continue
        head = whole[:open_at.start()]
        yield text.count("\n", 0, m.start()) + 1, m.group(6), head, whole[open_at.start():]


def shape(body):
    """The body with names, numbers and texts as one letter each."""
    body = re.sub(r"//[^\n]*", "", body)
    body = re.sub(r'b?"[^"]*"|b\'[^\']*\'', "T", body)
    keep = {"if", "else", "match", "for", "in", "while", "let", "mut", "return", "Some", "None", "Ok", "Err", "self"}
    return "".join(t if t in keep or not re.match(r"\w", t) else "x" for t in re.findall(r"\w+|\S", body))


def twins(files):
    seen = collections.defaultdict(list)
    for path, text in files:
        for line, name, head, body in functions(text):
            s = shape(body)
            if len(s) >= 9:
                seen[s].append((path, line, name))
    return [p for places in seen.values() if len(places) > 1 for p in places]


def parameters(head):
    inside = re.search(r"\((.*?)\)\s*(->|\n|$|requires|ensures)", head, re.S)
    return [p.strip().split(":")[0] for p in inside.group(1).split(",") if ":" in p] if inside else []


def travelling(files):
    """Functions of a crate that share two parameters (both not self) with at least two others."""
    found = []
    by_crate = collections.defaultdict(list)
    for path, text in files:
        for line, name, head, body in functions(text):
            by_crate[path.split("/")[1]].append((path, line, name, parameters(head)))
    for fs in by_crate.values():
        pairs = collections.Counter()
        for f in fs:
            ps = [re.sub(r"^mut ", "", p) for p in f[3]]
            for i in range(len(ps)):
                for j in range(i + 1, len(ps)):
                    pairs[tuple(sorted((ps[i], ps[j])))] += 1
        for path, line, name, ps in fs:
            ps = [re.sub(r"^mut ", "", p) for p in ps]
            if any(pairs[tuple(sorted((ps[i], ps[j])))] >= 3 for i in range(len(ps)) for j in range(i + 1, len(ps))):
                found.append((path, line, name))
    return found


def repeated_facts(files):
    found = []
    by_crate = collections.defaultdict(lambda: collections.defaultdict(list))
    for path, text in files:
        for n, line in enumerate(text.split("\n"), 1):
            m = re.match(r"\s*requires (?:\w+ )?\{ (.*) \}", line)
            if m:
                fact = re.sub(r"\b(self|work|v|text)\.(now|old)\b", "x", m.group(1))
                by_crate[path.split("/")[1]][fact].append((path, n, fact))
    for facts in by_crate.values():
        for places in facts.values():
            if len(places) >= 3:
                found += places
    return found


def buffers(files):
    """Structs with an array or a vector beside a length, and parallel arrays."""
    found = []
    for path, text in files:
        for m in re.finditer(r"(?m)^(?:pub(?:\(crate\))? )?struct (\w+)[^{;]*\{([^}]*)", text):
            body = re.sub(r"//[^\n]*", "", m.group(2))
            body = "\n".join(l for l in body.split("\n") if "ghost" not in l)
            if re.search(r": (\[|Vec<|&'\w+ mut \[)", body) and re.search(r": (usize|Option<usize>)", body):
                found.append((path, text.count("\n", 0, m.start()) + 1, m.group(1)))
    return found


def main():
    args = [a for a in sys.argv[1:] if a != "-v"]
    root = args[0] if args else os.path.join(os.path.dirname(os.path.abspath(__file__)), "..", "..")
    files = list(sources(root))
    places = {p: [] for p in range(1, 8)}
    for point, rules in RULES.items():
        for path, text in files:
            for n, line in enumerate(text.split("\n"), 1):
                code = line.split("//")[0]
                for what, rule in rules:
                    if re.search(rule, code):
                        places[point].append((path, n, what))
                        break
    places[2] = twins(files)
    places[5] = travelling(files) + repeated_facts(files)
    places[6] = buffers(files)
    for point in sorted(places):
        print(f"point {point}: {len(places[point])} places")
        if "-v" in sys.argv:
            for path, line, what in places[point]:
                print(f"  {path}:{line}: {what}")


main()
