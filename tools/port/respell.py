#!/usr/bin/env python3
"""Respells the repository's own definitions and lemmas as Rattle now spells names: types in camel case, all else in snake case.

usage: python3 tools/port/respell.py [--list]      at the top of the repository, once, after the kit's port.py

A lemma's dash stays where it joins the names of two definitions, as in `total-append`; elsewhere it becomes `_`.
Names that Rattle makes (goals, labels), names of src/ and of the library are left alone. It stops, and writes nothing,
where two names of one file would fall together.
"""

import os
import re
import sys

HEAD = re.compile(r"^(?P<indent> *)(?:(?:abbrev|unfoldable|pub) )*(?P<kind>record |data )?(?P<name>[^\s:{(«]+) *(?P<rest>.*)$")
TOKEN = re.compile(r"[^\s(){}\[\],.;«»\"`λ⌜⌝]+")
WORD = re.compile(r"[A-Za-z][A-Za-z0-9_'-]*$")
SKIP = ("use ", "mod ", "pub mod ", "--", "unfolding ", "module ")


def files(kinds):
    for folder, dirs, names in os.walk("crates"):
        dirs[:] = sorted(d for d in dirs if d != "out")
        for n in sorted(names):
            if n.endswith(kinds):
                yield os.path.join(folder, n)


def read(path):
    with open(path, encoding="utf-8") as f:
        return f.read()


def code(line, comment):
    """The parts of a line that are code: no comment, no string."""
    at = line.find(comment) if line.lstrip().startswith(comment) else line.find(" " + comment + " ")
    body, tail = (line, "") if at < 0 else (line[:at], line[at:])
    parts = re.split(r'("(?:[^"\\]|\\.)*")', body)
    return parts, tail


def imported(text):
    """Names that the file takes from the library, by whatever path."""
    found = set()
    for m in re.finditer(r"^\s*(?:pub )?(?:ghost )?(?:pub )?use ([^\n;]+)", text, re.M):
        path, brace, rest = m.group(1).partition("{")
        own = re.match(r"Rattle\.(\w+)\.", path)
        if own and own.group(1) in CRATES:
            continue
        for it in rest.rstrip("}; \n").split(","):
            found.update(it.split(" as "))
    return {n.strip() for n in found}


def signatures(text):
    """(indent, kind, name, type) of each definition, lemma, field and constructor."""
    lines = text.split("\n")
    for i, line in enumerate(lines):
        if not line.strip() or line.lstrip().startswith(SKIP):
            continue
        m = HEAD.match(line)
        if not m:
            continue
        body = line
        at = i
        while not re.search(r"\s:(\s|$)", body) and at + 1 < len(lines) and lines[at + 1].startswith(m.group("indent") + "  "):
            at += 1
            body += " " + lines[at].strip()
        rest = body[m.start("rest"):]
        sig = None
        if m.group("kind"):
            sig = "Type"
        elif re.match(r"(?:\(.*?\) *|\{.*?\} *)*:(\s|$)", rest):
            sig = rest.split(":", 1)[1].strip()
            while at + 1 < len(lines) and (not sig or sig.endswith(("→", "×", ":", "⊎")) or lines[at + 1].lstrip().startswith(("→", "×", "⊎"))) and lines[at + 1].startswith(m.group("indent") + " "):
                at += 1
                sig = (sig + " " + lines[at].strip()).strip()
        if sig is not None:
            yield len(m.group("indent")), m.group("kind"), m.group("name"), sig


# Names that would fall together with a definition's, and names that may: fields of two records.
OWN = {"is-value": "is_value_lem", "members-of": "member_texts"}
OWN_IN = {("crates/ddvalue/proofs/DdHeard.antt", "tag-of"): "tag_of_lem"}
MAY_MEET = {"ot_source"}

CRATES = {c for c in os.listdir("crates") if os.path.isdir(os.path.join("crates", c, "src"))} if os.path.isdir("crates") else set()


def snake(s):
    s = re.sub(r"(?<=[a-z0-9])(?=[A-Z])", "_", s)
    return s.lower() if not s[:1].isupper() else s[0].lower() + s[1:].lower()


def camel(s):
    return "".join(p[:1].upper() + p[1:] for p in re.split(r"[-_]", s) if p)


def is_type(kind, sig):
    return bool(kind) or re.search(r"(^|→ *)Type [01]?\s*( where)?$|^Type$", sig) is not None


def table():
    types, values, lemmas, made = set(), set(), set(), set()
    for path in files(".antt"):
        text = read(path)
        spec = "/specs/" in path
        for indent, kind, name, sig in signatures(text):
            if re.match(r"goal\.", sig):
                made.add(name)
            elif not WORD.match(name):
                continue
            elif is_type(kind, sig):
                types.add(name)
            elif spec or re.search(r"^(abbrev|unfoldable).* " + re.escape(name) + r"(?![\w'-])", text, re.M):
                values.add(name)
            else:
                lemmas.add(name)
    lib = set()
    for path in files(".antt"):
        lib |= imported(read(path))
    words = {snake(v.replace("-", "_")) for v in values} | {w for w in lib if re.match(r"[a-z]\w*$", w)}
    laws = {camel(n) for n in types}
    names = {}
    for n in types:
        if n[:1].isupper() and "-" in n:
            names[n] = camel(n)
    for n in values:
        if n not in types and re.search(r"[-A-Z]", n) and n[:1].islower():
            names[n] = snake(n.replace("-", "_"))
    for n in lemmas:
        if n not in types and n not in values and re.search(r"[-A-Z]", n) and n[:1].islower():
            new = snake(n.replace("-", "_")) if camel(n) in laws else lemma(n, words)
            names[n] = new + "_lem" if new.replace("-", "_") in words else new
    names.update(OWN)
    for n in made:
        names.pop(n, None)
    return {a: b for a, b in names.items() if a != b}, made


def lemma(n, words):
    """Joined names of definitions keep their dash, longest names first; plain words take `_`."""
    parts = [snake(p) for p in n.split("-")]
    at, out = 0, []
    while at < len(parts):
        size = next((k for k in range(len(parts) - at, 0, -1) if "_".join(parts[at:at + k]) in words), 0)
        out.append(("_".join(parts[at:at + max(size, 1)]), size > 0))
        at += max(size, 1)
    text, known = out[0]
    for part, word in out[1:]:
        text += ("-" if known and word else "_") + part
        known = word
    return text


def respelled(path, text, names, made):
    keep = imported(text)
    comment = "--" if path.endswith(".antt") else "//"
    seen = {}

    def put(m):
        t = m.group(0)
        new = OWN_IN.get((path, t)) or (names.get(t, t) if t not in keep else t)
        seen.setdefault(new, set()).add(t)
        return new

    def path_put(part):
        # a name that Rattle makes stands after `goal.` or a field of `c` or `l`: those are in `made` or not in the table
        return TOKEN.sub(put, part)

    out = []
    for line in text.split("\n"):
        if path.endswith(".rt") and not ghost(line):
            out.append(line)
            continue
        if re.match(r"\s*(pub )?(ghost )?use ", line):
            path_of, brace, items = line.partition("{")
            out.append(path_of + brace + path_put(items))
            continue
        parts, tail = code(line, comment)
        out.append("".join(p if p.startswith('"') else path_put(p) for p in parts) + re.sub(r"`([^`]+)`", lambda m: "`" + names.get(m.group(1), m.group(1)) + "`", tail))
    clash = {n: s for n, s in seen.items() if len(s) > 1 and n not in MAY_MEET}
    return "\n".join(out), clash


def ghost(line):
    return re.match(r"\s*(ghost |pub ghost |ensures|requires|decreases|\W*[×⊎∧→=≡]|invariant)", line) is not None or bool(re.search(r"[≡→λ×]", line))


def main(argv):
    names, made = table()
    if "--list" in argv:
        for a in sorted(names):
            print(a, names[a])
        return 0
    turned, bad = {}, []
    for path in files((".antt", ".rt")):
        text = read(path)
        new, clash = respelled(path, text, names, made)
        bad += [f"{path}: {', '.join(sorted(s))} would both be {n}" for n, s in sorted(clash.items())]
        if new != text:
            turned[path] = new
    if bad:
        print("\n".join(bad))
        return 1
    for path, new in turned.items():
        with open(path, "w", encoding="utf-8") as f:
            f.write(new)
    print(f"respell: {len(names)} names, {len(turned)} files")
    return 0


if __name__ == "__main__":
    sys.exit(main(sys.argv[1:]))
