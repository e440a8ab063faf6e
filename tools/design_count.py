#!/usr/bin/env python3
"""Lists the places in src/ that an older form of the language may have shaped, by point of docs/DESIGN-PASS.md.

Usage: tools/design_count.py [FOLDER]     (FOLDER: the top of a checkout, here if none is given)
Each line is a place: its point, its file and line, and what was found there. The last lines are the counts.
"""
import collections
import difflib
import pathlib
import re
import sys

TOP = pathlib.Path(sys.argv[1] if len(sys.argv) > 1 else ".")
FILES = sorted(TOP.glob("crates/*/src/**/*.rt"))

LINES = {
    1: [r"fn (code|number)\(&?self\)", r"\w+: bool\b", r"-> u8$"],
    3: [r"while .*[<>]=? ?[\w.]+ \{", r"for \w+ in 0\.\.", r"\bloop \{", r"(number|count|index|n|i) [-+]= 1\b",
        r"number = number\b", r"\[[\w.]+ [-+] \w+\]"],
    4: [r"fn (same|same_name|starts|is_mark)\b", r"\.code\(\)", r"=> Err\((\w+::)?\w+\(fault\)\)",
        r"Err\(\w+::\w+\(fault\)\)", r"(None|Some\(_\)|Ok\(_\)|Err\(_\)) => (true|false)\b", r"^\s*at: l\.at", r"None => None\b",
        r"fn \w*statement_kind\(self\)", r"fn \w+_word\(", r"None => Err\(", r"Err\(_\) => Err\(|Err\(_\) => return Err\(",
        r"else \{\s*return None", r"if \w+ < [\w.]+\.len\(\) \{"],
    6: [r"out: &mut \[u8\]", r"^\s*(pub )?(pool|names|items|page|entries|out): Vec<", r"^\s*pub len: usize,$", r"= \[0u8; \d+\]",
        r"page: &mut Vec<u8>", r"^\s*(pub )?(kind|value|outer): Option<usize>,$", r"^\s*(One|Two|Match)\(usize"],
    7: [r"\b(change|test|pen|level|arm): (Change|Test|Pen|Level|Arm)\b", r"fn \w+\(self, b: u8\) -> bool", r"if !?(r|self\.words)\.eat\("],
}


def code_lines(path):
    for number, line in enumerate(path.read_text().split("\n"), 1):
        if not line.strip().startswith("//"):
            yield number, line


def functions(path):
    """Name, line, parameters, clauses and body of each function."""
    text = re.sub(r"//[^\n]*", "", path.read_text())
    for found in re.finditer(r"\bfn (\w+)", text):
        depth, at = 0, found.end()
        while at < len(text) and not (text[at] == "{" and depth == 0 and re.search(r"(\n|[^}] )$", text[found.end():at]) and not re.search(
                r"(requires|ensures)( \w+)? $", text[found.end():at])):
            if text[at] == ";" and depth == 0:
                break
            depth += {"(": 1, "[": 1, "{": 1, ")": -1, "]": -1, "}": -1}.get(text[at], 0)
            at += 1
        if at >= len(text) or text[at] == ";":
            continue
        end, depth = at, 0
        while end < len(text):
            depth += {"{": 1, "}": -1}.get(text[end], 0)
            end += 1
            if depth == 0:
                break
        yield found.group(1), text.count("\n", 0, found.start()) + 1, text[found.end():at], text[at:end]


def shape(body):
    """The body with its numbers, texts, variants and called names blanked."""
    body = re.sub(r'b?"[^"]*"|b\'[^\']*\'|\b\d[\d_]*\b', "L", body)
    body = re.sub(r"\b[A-Z]\w*::[A-Z]\w*", "V", body)
    return re.findall(r"\w+|[^\w\s]", body)


def twins():
    """Groups of functions of a crate whose bodies have one shape."""
    crates = collections.defaultdict(list)
    for path in FILES:
        for name, line, head, body in functions(path):
            tokens = shape(body)
            if len(tokens) >= 12:
                crates[path.relative_to(TOP).parts[1]].append((path, line, name, tokens))
    for crate, members in crates.items():
        seen = set()
        for i, (path, line, name, tokens) in enumerate(members):
            like = [m for j, m in enumerate(members) if j > i and j not in seen and abs(len(m[3]) - len(tokens)) < 0.2 * len(tokens)
                    and difflib.SequenceMatcher(None, tokens, m[3], False).ratio() > 0.88]
            if like and i not in seen:
                seen.update(members.index(m) for m in like)
                yield path, line, " ".join([name] + [m[2] for m in like])


def twin_types():
    """Structs and enums with the same fields or cases, types aside."""
    kinds = collections.defaultdict(list)
    for path in FILES:
        text = path.read_text()
        for found in re.finditer(r"\b(?:struct|enum) (\w+)[^{;(]*\{(.*?)\n\}", text, re.S):
            names = re.findall(r"^\s*(?:pub(?:\([^)]*\))? )?(\w+)", re.sub(r"//[^\n]*", "", found.group(2)), re.M)
            names = tuple(sorted(n for n in names if n != "ghost"))
            if len(names) > 1:
                kinds[names].append((path, text.count("\n", 0, found.start()) + 1, found.group(1)))
    for names, found in kinds.items():
        if len(found) > 1:
            yield found[0][0], found[0][1], " ".join(f[2] for f in found) + " (" + ", ".join(names) + ")"


def repeated_clauses():
    """Facts of a crate that stand in the `requires` of three or more functions."""
    facts = collections.defaultdict(list)
    for path in FILES:
        for name, line, head, body in functions(path):
            for fact in re.findall(r"requires(?: \w+)? \{ (.*?) \}\s*(?=requires|ensures|$)", head, re.S):
                facts[path.relative_to(TOP).parts[1], fact.strip()].append((path, line, name))
    for (crate, fact), found in facts.items():
        if len(found) > 2:
            yield found[0][0], found[0][1], f"{len(found)} functions require {fact}"


def together():
    """The longest group of parameters that five or more functions of a file have alike."""
    for path in FILES:
        heads = [set(re.findall(r"(\w+): ([&\w' <>\[\]]+?)[,)\n]", head.split("->")[0])) for _, _, head, _ in functions(path)]
        groups = collections.Counter()
        for head in heads:
            groups[frozenset(head)] += 0
        for group in groups:
            groups[group] = sum(1 for head in heads if group <= head)
        best = [g for g in groups if len(g) > 1 and groups[g] > 4]
        if best:
            group = max(best, key=lambda g: (len(g), groups[g]))
            yield path, 1, f"{groups[group]} functions have " + ", ".join(sorted(n for n, _ in group))


def own_options():
    """Own enums of two cases that hold one value at most: shaped like Option, Result or bool."""
    for path in FILES:
        text = re.sub(r"//[^\n]*", "", path.read_text())
        for found in re.finditer(r"\benum (\w+)[^{]*\{(.*?)\n\}", text, re.S):
            cases = re.findall(r"^\s*\w+(\([^)]*\))?,", found.group(2), re.M)
            if len(cases) <= 2:
                yield path, text.count("\n", 0, found.start()) + 1, "enum " + found.group(1)


def main():
    places = []
    for point, patterns in LINES.items():
        for path in FILES:
            for number, line in code_lines(path):
                if any(re.search(p, line) for p in patterns):
                    places.append((point, path, number, line.strip()))
    for point, search in ((1, own_options), (2, twins), (2, twin_types), (5, repeated_clauses), (5, together)):
        places += [(point, path, line, text) for path, line, text in search()]
    for point, path, line, text in sorted(places, key=lambda p: (p[0], str(p[1]), p[2])):
        print(f"{point} {path.relative_to(TOP)}:{line}: {text}")
    counts = collections.Counter(p[0] for p in places)
    for point in sorted(counts):
        print(f"point {point}: {counts[point]}")


main()
