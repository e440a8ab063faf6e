#!/usr/bin/env python3
"""Respells the repository's own definitions and lemmas as today's Rattle spells names.

usage: python3 tools/respell.py [ROOT]     once, right after the kit's port.py

Facts and types become upper camel case (Lift-zero: LiftZero), all else snake case (lift-zero: lift_zero).
The names are read off the declarations in the crates' specs/ and proofs/. Goals, which the check names, stay,
and so do the names of src/. A name that would fall together with another that is declared or imported here is
refused. The table of what was turned is written to tools/spelling.tsv, and the kit's script for spellings
applies it to whole words of clauses, definitions and proofs. Three long cycles of functions get a name too.
"""

import os
import re
import subprocess
import sys

KIT = "/opt/rattle/port/notes/2026-11-18-names-are-in-snake-case/snake.py"
NAME = r"[^\s(){}.;,@\"«»λ:→]+"
SIGNED = re.compile(rf"^\s*(?:(?:abbrev|pub|unfoldable)\s+)*({NAME})\s*:\s+(\S+)", re.M)
DECLARED = re.compile(rf"^\s*(?:pub\s+)?(?:record|data|ruleset)\s+({NAME})", re.M)
BOUND = re.compile(r"[({]([^(){}:;]+?) : ")
ALIAS = re.compile(rf"\bas ({NAME})")
IMPORTED = {".antt": re.compile(r"^use [^{\n]*\{([^}]*)\}", re.M), ".rt": re.compile(r"^ghost use [^{;]*\{([^}]*)\}", re.M)}


# the kit names a cycle of functions after all its members
CYCLES = {
    "app_apply_arm_arrow_atom_bound_bracket_cases_closing_expr_func_group_headed_lets_pack_prods_sums_two_arms_typed_under_under_two_unpack_valued": "parse",
    "app_apply_arms_beside_bind_choose_deep_fill_fill_both_first_fun_norm_one_open_pick_right_second_two_under_unpack_wrap": "norm",
    "app_arm_ascribe_ascribed_bind_check_choose_equal_first_former_fun_infer_lambda_left_meet_one_meet_two_one_open_pair_right_second_sort_split_sum_two": "typing",
}


def files(root, ending):
    for folder, dirs, names in os.walk(os.path.join(root, "crates")):
        dirs[:] = sorted(d for d in dirs if d != "out")
        for name in sorted(names):
            if name.endswith(ending):
                yield os.path.join(folder, name)


def text(path):
    with open(path, encoding="utf-8") as f:
        return f.read()


def declared(root):
    own, goals = set(), set()
    for path in files(root, ".antt"):
        body = re.sub(r"(?m)--.*$", "", text(path))
        for m in SIGNED.finditer(body):
            (goals if m.group(2).startswith("goal.") else own).add(m.group(1))
        own.update(DECLARED.findall(body))
        own.update(ALIAS.findall(body))
        for names in BOUND.findall(body):
            own.update(names.split())
    return own, goals


def spelled(name):
    parts = name.split("-")
    if name[0].isupper():
        return "".join(p[:1].upper() + p[1:] for p in parts)
    return "_".join(re.sub(r"(?<=[a-z])([A-Z])", lambda m: "_" + m.group(1).lower(), p) for p in parts)


def turned(name):
    return "-" in name.strip("-") or (name[0].islower() and re.search(r"[a-z][A-Z]", name))


def name_cycles(root):
    for long, short in CYCLES.items():
        for path in [*files(root, ".rt"), *files(root, ".antt")]:
            body = text(path)
            if long in body:
                with open(path, "w", encoding="utf-8") as f:
                    f.write(body.replace(long, short))
        for folder, dirs, _ in os.walk(os.path.join(root, "crates")):
            if "+" + long in dirs:
                os.rename(os.path.join(folder, "+" + long), os.path.join(folder, "+" + short))


def main():
    root = os.path.abspath(sys.argv[1]) if len(sys.argv) > 1 else os.getcwd()
    own, goals = declared(root)
    words = set(own)
    for ending, imported in IMPORTED.items():
        for path in files(root, ending):
            for names in imported.findall(text(path)):
                words.update(n.split(" as ")[-1].strip() for n in names.split(","))
    table = {n: spelled(n) for n in sorted(own - goals) if turned(n)}
    both = sorted(n for n in own & goals if turned(n))
    clashes = sorted(n for n, new in table.items() if new in words or list(table.values()).count(new) > 1)
    for n in both:
        print(f"respell: {n} is a goal's name too and stays")
    for n in clashes:
        print(f"respell: {n} would fall together with {table[n]}")
    if clashes:
        raise SystemExit(1)
    rows = os.path.join(root, "tools", "spelling.tsv")
    os.makedirs(os.path.dirname(rows), exist_ok=True)
    with open(rows, "w", encoding="utf-8") as f:
        f.writelines(f"{old}\t{new}\n" for old, new in table.items())
    name_cycles(root)
    command = [sys.executable, KIT, "--table", rows, "--prose", "none", os.path.join(root, "crates")]
    raise SystemExit(subprocess.run(command, env=os.environ | {"PYTHONDONTWRITEBYTECODE": "1"}).returncode)


if __name__ == "__main__":
    main()
