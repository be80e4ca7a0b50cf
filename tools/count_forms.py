#!/usr/bin/env python3
"""Lists the places in src/ that are candidates for a plainer form, kind by kind, and counts them.

    tools/count_forms.py [--at COMMIT] [KIND ..]

Each kind has its patterns below, in the function of its name. A row is a place to read, not a verdict: docs/DESIGN-PASS.md says what became of each.
"""
import itertools
import re
import subprocess
import sys

LIST_TYPE = r"\[[^\[\];]+; *[^\]]+\]"


def files(commit, folder, ending):
    if commit:
        names = subprocess.run(["git", "ls-tree", "-r", "--name-only", commit], capture_output=True, text=True, check=True).stdout.split("\n")
    else:
        names = subprocess.run(["git", "ls-files"], capture_output=True, text=True, check=True).stdout.split("\n")
    for name in names:
        if re.fullmatch(r"crates/[^/]+/" + folder + r"/.*\." + ending, name):
            if commit:
                text = subprocess.run(["git", "show", f"{commit}:{name}"], capture_output=True, text=True, check=True).stdout
            else:
                text = open(name).read()
            yield name, text


def line_of(text, at):
    return text.count("\n", 0, at) + 1


def without_comments(text):
    return re.sub(r"//[^\n]*", lambda m: " " * len(m.group()), text)


def block(text, opening):
    """The text of a block from its brace to the brace that closes it."""
    depth = 0
    for i in range(opening, len(text)):
        if text[i] == "{":
            depth += 1
        elif text[i] == "}":
            depth -= 1
            if depth == 0:
                return text[opening : i + 1]
    return text[opening:]


def body_of(text, at):
    """A function's body: after its signature and clauses; empty where it is only declared."""
    place = at
    for line in text[at:].split("\n"):
        bare = line.strip()
        is_clause = bare.startswith(("requires", "ensures", "(", "where"))
        if bare.endswith("};") or (bare.endswith(";") and not is_clause):
            return ""
        if bare == "{" or (bare.endswith("{") and not is_clause):
            return block(text, place + line.rindex("{"))
        place += len(line) + 1
    return ""


def functions(text):
    """Name, place and parameters of each function."""
    for m in re.finditer(r"\bfn (\w+)\s*(?:<[^(]*>)?\(([^)]*(?:\([^)]*\)[^)]*)*)\)", text):
        parameters = re.findall(r"(?:mut )?(\w+): ([^,]+(?:<[^>]*>)?[^,]*)", m.group(2))
        yield m.group(1), m.start(), [(n, t.strip()) for n, t in parameters], m.group(2)


def matches(pattern, name, text, flags=0):
    for m in re.finditer(pattern, text, flags):
        yield name, line_of(text, m.start()), " ".join(m.group().split())[:100]


def results(name, text):
    """Results and options passed on by hand, enums with a case for nothing or a fault, flags beside a value, numbers for kinds."""
    yield from matches(r"Err\(\w+\) => (?:return )?Err\([^,\n]*", name, text)
    yield from matches(r"None => (?:return )?Err\([^,\n]*", name, text)
    yield from matches(r"Err\(_\) => None", name, text)
    yield from matches(r"let (?:Some|Ok)\([^=]*= [^;{]*else \{\s*return (?:None|Err\([^;]*|Ok\(\(\)\));\s*\}", name, text)
    yield from matches(r"\n    (?:Unread|Other|Nothing|Missing|Failed|Unknown),", name, text)
    yield from matches(r"struct \w+[^{;]*\{[^}]*: bool,[^}]*: (?!bool)[^}]*\}", name, text)
    yield from matches(r"const [A-Z]: u8 = \d+;", name, text)
    yield from matches(r"fn number\(&self\) -> u8", name, text)
    yield from matches(r"Err\(AllocError\)", name, text)


def indexes(name, text):
    """Loops that count an index: every while, and each for over a range or with enumerate whose number is an index."""
    yield from matches(r"\bwhile [^{]*\{", name, text)
    for m in re.finditer(r"for (\w+|\(\w+, \w+\)) in ([^{]*?)\s*\{", text):
        number = re.findall(r"\w+", m.group(1))[0]
        body = block(text, m.end() - 1)
        indexes = re.search(r"\[(?:[^\]]*\W)?" + number + r"\b|\bat\(" + number + r"\)|return " + number + r"\b", body)
        if (".." in m.group(2) or "enumerate" in m.group(2)) and indexes:
            yield name, line_of(text, m.start()), m.group()


def by_hand(name, text):
    """Equality, order, conversion and printing by hand, by the names that such functions have here."""
    yield from matches(
        r"fn (?:is|is_before|is_word|is_name|same|number|place|class_of|kind_name|named|hex_digit|push_letter|push_quoted|entry_line|refusal_line|nameless|all_rows|all_bytes|begins)\(",
        name, text)
    yield from matches(r"trait Key\b|impl Key for \w+", name, text)
    yield from matches(r"pub const (?:NO_FLAGS|CLEARED|NAMELESS)\b", name, text)


def buffers(name, text):
    """Arrays and lent slices with a length beside, and searches over sorted rows."""
    for m in re.finditer(r"struct (\w+)[^{;]*\{([^}]*)\}", text):
        fields = re.findall(r"(\w+): ([^\n]+),", m.group(2))
        has_list = any(re.match(LIST_TYPE, t) or "mut [" in t for _, t in fields)
        has_length = any(n in ("len", "depth", "length") for n, _ in fields)
        if has_list and has_length or {n for n, _ in fields} >= {"offset", "length"} or "children" in {n for n, _ in fields}:
            yield name, line_of(text, m.start()), f"struct {m.group(1)}"
    yield from matches(r"low \+ \(high - low\) / 2", name, text)


def switches(name, text):
    """Functions with a bool among their parameters, and enums that say what comes next."""
    for function, at, _, parameters in functions(text):
        if re.search(r": (?:&mut )?bool\b", parameters):
            yield name, line_of(text, at), f"fn {function}"
    yield from matches(r"enum (?:Mode|Wanted|State)\b", name, text)


def twins(all_files):
    """Functions of one shape: the same body but for names, numbers, strings and types."""
    shapes = {}
    for name, text in all_files:
        for function, at, _, _ in functions(text):
            body = body_of(text, at)
            if len(body.split("\n")) < 3:
                continue
            shape = re.sub(r"\"[^\"]*\"|'[^']*'|\b\d[\d_]*\b", "_", body)
            shape = re.sub(r"\b(?!if|else|match|for|in|while|return|let|mut|Ok|Err|Some|None|self)\w+\b", "n", shape)
            shapes.setdefault(" ".join(shape.split()), []).append((name, line_of(text, at), f"fn {function}"))
    for shape, places in sorted(shapes.items(), key=lambda s: -len(s[1])):
        if len(places) > 1:
            for place in places:
                yield place
            yield "", 0, ""


def together(all_files):
    """Parameters that stand together in three functions of a crate or more, and facts that three contracts of a crate ask for."""
    pairs, facts = {}, {}
    for name, text in all_files:
        crate = name.split("/")[1]
        for function, at, parameters, _ in functions(text):
            for pair in itertools.combinations(sorted(n for n, _ in parameters), 2):
                pairs.setdefault((crate, pair), set()).add(function)
            head = text[at : at + 1200].split("\n{")[0].split("\n    {")[0]
            for fact in re.findall(r"requires (?:\w+ )?\{ (\w+)", head):
                facts.setdefault((crate, fact), set()).add(function)
    for (crate, pair), where in sorted(pairs.items()):
        if len(where) > 2:
            yield crate, len(where), f"{pair[0]}, {pair[1]}: {' '.join(sorted(where))}"
    for (crate, fact), where in sorted(facts.items()):
        if len(where) > 2:
            yield crate, len(where), f"requires {fact}: {' '.join(sorted(where))}"


def answers(commit):
    """Answers, and lines of proofs, of each crate."""
    answers, lines = {}, {}
    for name, text in files(commit, "proofs", "antt"):
        crate = name.split("/")[1]
        lines[crate] = lines.get(crate, 0) + text.count("\n")
        if name.endswith("Answers.antt"):
            answers[crate] = answers.get(crate, 0) + len(re.findall(r"^pub [\w'-]+ : goal\.", text, re.M))
    for crate in sorted(lines):
        yield crate, answers.get(crate, 0), f"answers, {lines[crate]} lines of proofs"


KINDS = {find.__name__: find for find in (results, twins, indexes, by_hand, together, buffers, switches, answers)}


def main():
    words = sys.argv[1:]
    commit = None
    if words[:1] == ["--at"]:
        commit, words = words[1], words[2:]
    all_files = [(n, without_comments(t)) for n, t in files(commit, "src", "rt")]
    for kind in words or list(KINDS):
        find = KINDS[kind]
        if find is answers:
            rows = list(answers(commit))
        elif find in (twins, together):
            rows = list(find(all_files))
        else:
            rows = [row for name, text in all_files for row in find(name, text)]
        total = sum(row[1] for row in rows) if find is answers else len([row for row in rows if row[0]])
        print(f"== {kind}: {total}")
        for row in rows:
            print("{}:{}: {}".format(*row) if row[0] else "")


main()
