#!/usr/bin/env python3
"""Brings this repository's own definitions, lemmas and fields of records to snake case.

usage: python3 tools/snake_names.py [--dry]     at the top of the repository, once, after the kit's port.py

It looks for the names that .antt files declare and that have a dash or a capital in mid-word, as `first-place` or `readLane`, and
writes them as `first_place` and `read_lane` in every .antt file, in the contracts of every .rt file, and in must-fail edits of specs/.
Names of Rust items, types, strings, comments and what the check itself names (goals, steps of `c`) keep their spelling. It stops
where two names would fall together, and changes nothing then.
"""

import os
import re
import sys

# what may stand in a name of antt
NAME = r"[^\s()\[\]{},;.:=«»`\"⌜⌝×→↦λ∀|←]+"
DECLARED = re.compile(r"^(\s*)((?:unfoldable|abbrev|data|record|ruleset|axiom)\s+)?(pub\s+)?(" + NAME + r")((?:\s+" + NAME + r")*)\s+:\s+(.*)$")
ALIAS = re.compile(r"\bas\s+(" + NAME + r")")
GOAL = re.compile(r"^(goal|need|given)\.")
CAMEL = re.compile(r"^[a-z][a-z0-9]*[A-Z]")
DASHED = re.compile(r"^[A-Za-z][A-Za-z0-9_'₀-₉]*(-[A-Za-z0-9_'₀-₉]+)+$")
TOKEN = re.compile(r"(?<![^\s()\[\]{},;.:=«»`\"⌜⌝×→↦λ∀|←])" + NAME)


def files(root, ends):
    for folder, dirs, names in os.walk(os.path.join(root, "crates")):
        dirs[:] = sorted(d for d in dirs if d not in ("out", "target"))
        for name in sorted(names):
            if name.endswith(ends):
                yield os.path.join(folder, name)


# names that would fall together with another one, and what stands for them
OWN = {
    "isWord": "is_packed_word",
    "noRecord": "empty_record",
    "weightSum": "sum_of_weights",
    "activationSum": "sum_of_activations",
    "code-at": "code_at_is",
    "code-answer": "code_answer_is",
    "none-bad": "none_bad_in",
    "none-outside": "none_outside_from",
    "p2-width": "p2_width_is",
    "row-codes": "row_codes_ok",
    "step-gain": "step_gain_is",
    "shape-rules": "shape_rules_hold",
}


def snake(name):
    if name in OWN:
        return OWN[name]
    parts = re.sub(r"\bgetD\b", "get_or", name).split("-")
    return "_".join(re.sub(r"(?<=[a-z0-9])[A-Z]", lambda m: "_" + m.group(0).lower(), p) if CAMEL.match(p) else p for p in parts)


def code(line):
    """The part of an antt line before its comment."""
    at = re.search(r"(^|\s)--(\s|$)", line)
    return line if not at else line[: at.start()]


def declared(path):
    with open(path, encoding="utf-8") as f:
        for line in f:
            text = code(line.rstrip("\n"))
            for m in ALIAS.finditer(text):
                if text.lstrip().startswith(("use ", "pub use ")):
                    yield m.group(1)
            m = DECLARED.match(text)
            if m and not text.lstrip().startswith(("use ", "let ", "(", "{", "|", "→", "λ")) and not GOAL.match(m.group(6)):
                yield m.group(4)
                yield from m.group(5).split()


def turned(name):
    return bool(CAMEL.match(name) or DASHED.match(name))


def in_antt(text, names):
    out = []
    for line in text.split("\n"):
        head = code(line)
        out.append(TOKEN.sub(lambda m: names.get(m.group(0), m.group(0)), head) + line[len(head):])
    return "\n".join(out)


CLAUSE = re.compile(r"^\s*(pub\s+)?(ghost|requires|ensures|invariant)\b")


def in_rt(text, names):
    out, depth, inside = [], 0, False
    for line in text.split("\n"):
        if CLAUSE.match(line):
            inside = True
        if inside:
            head = line if not line.lstrip().startswith("//") else ""
            depth += head.count("{") - head.count("}")
            line = TOKEN.sub(lambda m: names.get(m.group(0), m.group(0)), head) + line[len(head):]
            if depth <= 0:
                inside, depth = False, 0
        out.append(line)
    return "\n".join(out)


def in_edit(text, names):
    if "file: specs/" not in text and "file: proofs/" not in text:
        return text
    return in_antt(text, names)


def main():
    root = os.getcwd()
    names = {}
    for path in files(root, ".antt"):
        for name in declared(path):
            if turned(name):
                names[name] = snake(name)
    tokens = set()
    for path in files(root, (".antt", ".rt")):
        with open(path, encoding="utf-8") as f:
            tokens.update(TOKEN.findall(f.read()))
    met = {}
    for old, new in names.items():
        met.setdefault(new, set()).add(old)
    twins = sorted((new, sorted(olds)) for new, olds in met.items() if len(olds) > 1)
    if twins:
        sys.exit(f"names that would fall together: {twins}")
    clash = sorted((new, sorted(olds)) for new, olds in met.items() if len(olds) > 1 or new in tokens)
    for new, olds in clash:
        print(f"look: {new} from {', '.join(olds)}{' and one that stands already' if new in tokens else ''}")
    if "--dry" in sys.argv:
        for old in sorted(names):
            print(f"{old} {names[old]}")
        return
    changed = 0
    for path in files(root, (".antt", ".rt", ".edit")):
        with open(path, encoding="utf-8") as f:
            text = f.read()
        turn = in_antt if path.endswith(".antt") else in_rt if path.endswith(".rt") else in_edit
        new = turn(text, names)
        if new != text:
            changed += 1
            with open(path, "w", encoding="utf-8") as f:
                f.write(new)
    print(f"{len(names)} names in {changed} files")


main()
