#!/usr/bin/env python3
"""Spells the repository's own definitions and lemmas as Rattle does: words in snake case, types in camel case.

usage: python3 tools/respell_names.py [--dry]      at the top of a repository whose names still join their words by dashes

It collects each name with a dash that specs/ and proofs/ of a crate declare (a definition, a lemma, a field, a
constructor, a name of a section, another name of an import), and each that begins with a capital letter and has an
underscore. It writes it with underscores, or, where it begins with a capital letter, in camel case: in every .antt
file, and in the clauses of every .rt file. Comments, strings, the names that Rattle makes of the code (the names of
goals among them) and names that are imported from elsewhere stay. It stops, and writes nothing, where two names would
fall together.
"""
import collections
import glob
import re
import sys

DELIMITERS = r"\s(){}\[\];,.:\"@`"
TOKEN = re.compile(r"[^%s]+" % DELIMITERS)
DECLARED = re.compile(r"^\s*(?:(?:abbrev|pub|unfoldable|data|record|private)\s+)*([^%s]+) (?:[^:]*)?:" % DELIMITERS)
ALIAS = re.compile(r" as ([^%s]+)" % DELIMITERS)
MADE = re.compile(r":\s*(?:goal|given|need)\.")


def files(*endings):
    return sorted(f for e in endings for f in glob.glob(f"crates/*/**/*{e}", recursive=True) if "/out/" not in f)


def lines(path):
    with open(path, encoding="utf-8") as f:
        return f.read().split("\n")


def parts(line, comment):
    """The line's code, its strings (which stay), and its comment (which stays)."""
    out, at, quoted, start = [], 0, False, 0
    while at < len(line):
        c = line[at]
        if c == '"':
            out.append((line[start:at], quoted))
            start, quoted = at, not quoted
        elif not quoted and line.startswith(comment, at) and (comment == "//" or at == 0 or line[at - 1] in " \t"):
            out.append((line[start:at], False))
            out.append((line[at:], True))
            return out
        at += 1
    out.append((line[start:], quoted))
    return out


def declared():
    own, made = collections.defaultdict(set), set()
    for path in files(".antt"):
        for line in lines(path):
            if line.startswith("use "):
                for name in filter(is_older, ALIAS.findall(line)):
                    own[name].add(path)
            m = DECLARED.match(line)
            if not m or line.strip().startswith("--") or line.strip().startswith("let "):
                continue
            name = m.group(1)
            if not is_older(name):
                continue
            (made if MADE.search(line) else own[name]).add(name if MADE.search(line) else path)
    return {n: p for n, p in own.items() if n not in made}, made


def is_older(name):
    return "-" in name.strip("-") or (name[0].isupper() and "_" in name.strip("_"))


def spelled(name):
    if name[0].isupper():
        return "".join(w[:1].upper() + w[1:] for w in re.split("[-_]", name))
    return name.replace("-", "_")


def imported():
    """Names that some file takes from outside this repository."""
    crates = {g.split("/")[1] for g in glob.glob("crates/*/")}
    out = set()
    for path in files(".antt", ".rt"):
        for line in lines(path):
            m = re.match(r"\s*(?:ghost )?use ([^ ]+)\.\{(.*)\}", line)
            if m and not re.match(r"Rattle\.(%s)\." % "|".join(crates), m.group(1)):
                out |= {w.split(" as ")[0].strip() for w in m.group(2).split(",")}
    return out


def tokens_of_code(path):
    comment = "//" if path.endswith(".rt") else "--"
    out = set()
    for line in lines(path):
        for text, kept in parts(line, comment):
            if not kept:
                out |= set(TOKEN.findall(text))
    return out


def main(dry):
    own, made = declared()
    outside = imported()
    names = {n: spelled(n) for n in own if n not in outside and n not in made}
    bad = []
    news = collections.defaultdict(list)
    for old, new in names.items():
        news[new].append(old)
    for new, olds in news.items():
        if len(olds) > 1:
            bad.append(f"{olds} would all be {new}")
    functions = {f for path in files(".rt") for line in lines(path) for f in re.findall(r"\bfn (\w+)", line)}
    for path in files(".antt", ".rt"):
        tokens = tokens_of_code(path)
        for old in tokens & set(names):
            # what a function answers may have the function's name
            if names[old] in tokens - functions:
                bad.append(f"{path} has both {old} and {names[old]}")
    for old in sorted(set(own) & outside):
        print(f"left: {old} is imported from outside, too")
    for b in bad:
        print("together: " + b)
    if bad:
        return 1
    changed = 0
    for path in files(".antt", ".rt"):
        comment = "//" if path.endswith(".rt") else "--"
        before = lines(path)
        after = []
        for line in before:
            after.append("".join(text if kept else TOKEN.sub(lambda m: names.get(m.group(0), m.group(0)), text) for text, kept in parts(line, comment)))
        if after != before:
            changed += 1
            if not dry:
                with open(path, "w", encoding="utf-8") as f:
                    f.write("\n".join(after))
    print(f"{len(names)} names, {changed} files")
    return 0


if __name__ == "__main__":
    raise SystemExit(main("--dry" in sys.argv[1:]))
