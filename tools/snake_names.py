#!/usr/bin/env python3
"""Respells the repository's own definitions and lemmas: words in snake case, a dash only after a type.

usage: python3 tools/snake_names.py table     writes tools/names.tsv from the names that the tree declares now
       python3 tools/snake_names.py           respells crates/ and the edits by tools/names.tsv

Run once, right after port.py. Names of the kit stay as they are, and so do functions, exported names, strings and comments in words.
"""
import collections
import os
import re
import sys

WORD = r"[^\s(){}\[\];,.\"`]"
TABLE = os.path.join("tools", "names.tsv")


def files(ends):
    for folder, dirs, names in os.walk("crates"):
        dirs[:] = sorted(d for d in dirs if d != "out")
        for name in sorted(names):
            if name.endswith(ends):
                yield os.path.join(folder, name)


def read(path):
    with open(path, encoding="utf-8") as f:
        return f.read()


def snake(name):
    if any(part[:1].isupper() for part in name.split("-")) or not re.match(r"^[a-z_][A-Za-z0-9_'₀-₉\-]*$", name):
        return name
    return re.sub(r"([a-z0-9])([A-Z]+)", lambda m: m[1] + "_" + m[2].lower(), name.replace("-", "_"))


def of_kit(path, text):
    """The names that a file takes from the kit."""
    own = r"Rattle\.(?:%s)\." % "|".join(sorted(os.listdir("crates")))
    found = set()
    for m in re.finditer(r"(?m)^(?:ghost |pub )?use (\S+?)\.\{(.*)\}", text):
        if not re.match(own, m[1]):
            found |= {x.strip().split(" as ")[-1] for x in m[2].split(",")}
    return found


def declared():
    """The names declared at a file's or a record's level, and those bound inside."""
    top, bound = set(), set()
    for path in files((".antt",)):
        proof = path.endswith("Proof.antt")
        for line in read(path).split("\n"):
            if line.lstrip().startswith("--") or line.startswith("use "):
                continue
            m = re.match(r"^ *(?:(?:unfoldable|abbrev|pub|ruleset)\s+)*(" + WORD + r"+) : ", line)
            if m:
                (bound if proof else top).add(m[1])
            for m in re.finditer(r"\(((?:" + WORD + r"+ )+): ", line):
                bound |= set(m[1].split())
            bound |= set(re.findall(r"let (" + WORD + r"+)(?: :| =)", line))
            for m in re.finditer(r"λ ([^.]*)\.", line):
                bound |= set(re.findall(WORD + "+", m[1]))
            m = re.match(r"^ *" + WORD + r"+((?: " + WORD + r"+)*) =", line)
            if m:
                bound |= set(m[1].split())
    return top, bound


def make_table():
    top, bound = declared()
    new = {n: snake(n) for n in top | bound if snake(n) != n}
    groups = collections.defaultdict(set)
    for old, to in new.items():
        groups[to].add(old)
    # names that fall together: the definition keeps the plain name, a lemma gets the ending of a lemma
    for to, olds in groups.items():
        all_of = olds | ({to} if to in top else set())
        if len(all_of) == 1:
            continue
        keep = [n for n in sorted(all_of) if re.search("[A-Z]", n)] or [n for n in sorted(all_of) if n == to] or [n for n in sorted(all_of) if n in top] or sorted(all_of)
        for n in all_of:
            if n != keep[0] and n in top:
                new[n] = to + "_lem"
    with open(TABLE, "w", encoding="utf-8") as f:
        f.writelines(f"{a}\t{b}\n" for a, b in sorted(new.items()))


def respell(text, names):
    def one(m):
        return names.get(m[0], m[0])

    return re.sub(WORD + "+", one, text)


def turn_antt(text, names, words):
    out = []
    for line in text.split("\n"):
        code, dashes, comment = line, "", ""
        m = re.match(r"^(.*?)(^| )(--)( .*)?$", line)
        if m:
            code, dashes, comment = m[1] + m[2], m[3], m[4] or ""
        m = re.match(r"^((?:pub )?use )(\S+?)(\.\{.*\}.*)$", code)
        if m:
            own = re.match(r"Rattle\.(?:%s)\." % "|".join(sorted(os.listdir("crates"))), m[2])
            code = m[1] + m[2] + (respell(m[3], names) if own else m[3])
        elif not re.match(r"^(pub )?(use|mod) ", code):
            code = respell(code, names)
        out.append(code + dashes + respell(comment, words))
    return "\n".join(out)


def turn_rt(text, names, words):
    out = []
    for line in text.split("\n"):
        m = re.match(r"^(\s*(?:ghost use \S+?\.))(\{.*\};)$", line)
        if m:
            own = re.match(r"\s*ghost use Rattle\.(?:%s)\." % "|".join(sorted(os.listdir("crates"))), m[1])
            out.append(m[1] + (respell(m[2], names) if own else m[2]))
        else:
            parts = re.split(r'("(?:[^"\\]|\\.)*")', line)
            out.append("".join(p if i % 2 else respell(p, words) for i, p in enumerate(parts)))
    return "\n".join(out)


def turn():
    names = dict(line.rstrip("\n").split("\t") for line in open(TABLE, encoding="utf-8"))
    for path in files((".antt", ".rt", ".edit")):
        text = read(path)
        here = {a: b for a, b in names.items() if a not in of_kit(path, text)}
        words = {a: b for a, b in here.items() if re.search("[A-Z]", a) and "-" not in a}
        if path.endswith(".rt"):
            new = turn_rt(text, here, words)
        elif path.endswith(".antt"):
            new = turn_antt(text, here, words)
        else:
            antt = re.search(r"(?m)^file: .*\.antt", text)
            new = turn_antt(text, here, words) if antt else turn_rt(text, here, words)
        if new != text:
            with open(path, "w", encoding="utf-8") as f:
                f.write(new)


if __name__ == "__main__":
    if sys.argv[1:] == ["table"]:
        make_table()
    elif not sys.argv[1:]:
        turn()
    else:
        sys.exit(__doc__)
