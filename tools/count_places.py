#!/usr/bin/env python3
"""Lists the places that docs/DESIGN-PASS.md counts, by point: tools/count_places.py [FOLDER], in a checkout.

Points 1, 3, 4, 6 and 7 are lines of src/ that match; point 2 is functions of one name and shape in several types or
files; point 5 is premises and pairs of parameters that stand in three or more functions of a crate."""
import collections
import glob
import os
import re
import sys

LINES = [
    ("1 enums", r"^\s*(pub(\([a-z]+\))? )?enum \w+"),
    ("1 numbers for kinds and refusals", r"fn numbered\(|fn number\(|refused_at\(\w+, \d+|Result<[^>]*, \(?usize"),
    ("1 counts that are 0 or 1, flags beside values", r"^\) -> u64$|fn drain_row.* -> u64|^\s*packing: bool|row: bool"),
    ("1 matches and lets that take an Option or a Result apart", r"(?s)__MATCH__"),
    ("3 loops over numbers, and while", r"\bfor .* in .*\.\.|\bwhile "),
    ("4 conversions", r"fn numbered\(|fn number\(|fn (unsigned|byte_of|code_of|byte_at|word_of|some|told)\(|-> Result<Side, Fault>"),
    ("4 printing", r"format!\(|from_str\(heap,"),
    ("6 fixed tables and lengths beside them", r"\[[A-Za-z0-9_<>:]+; 64\]|rows: usize,"),
    ("7 switches on a kind or a command", r"match (kind|self\.kind|plan|known|command|self) \{"),
]

SIGNATURE = re.compile(r"^( *)(?:pub(?:\([a-z]+\))? )?fn (\w+)(<[^(]*>)?\(((?:[^()]|\([^()]*\))*)\)", re.M)


def sources(root):
    for path in sorted(glob.glob(os.path.join(root, "crates", "*", "src", "*.rt"))):
        yield path, open(path).read()


def parameters(text):
    names = [part.strip().split(":")[0].replace("mut ", "") for part in text.split(",") if part.strip()]
    return [n for n in names if n and not n.startswith("&") and n != "self"]


def main():
    root = sys.argv[1] if len(sys.argv) > 1 else "."
    files = list(sources(root))
    for title, pattern in LINES:
        if "__MATCH__" in pattern:
            found = [
                f"{os.path.relpath(path, root)}:{text.count(chr(10), 0, m.start()) + 1}: {m.group(0).split(chr(10))[0].strip()}"
                for path, text in files
                for m in re.finditer(r"match [^{}\n]*(?:\{[^{}\n]*\}[^{}\n]*)*\{\n\s*(?:Ok|Err|Some|None)\b", text)
            ]
            print(f"== {title}: {len(found)}")
            print("\n".join(found))
            continue
        found = [
            f"{os.path.relpath(path, root)}:{number}: {line.strip()}"
            for path, text in files
            for number, line in enumerate(text.split("\n"), 1)
            if re.search(pattern, line) and not line.lstrip().startswith("//")
        ]
        print(f"== {title}: {len(found)}")
        print("\n".join(found))
    bodies = collections.defaultdict(list)
    for path, text in files:
        for match in SIGNATURE.finditer(text):
            start = text.find("{\n", match.end())
            end = text.find("\n" + match.group(1) + "}", start)
            body = re.sub(r"\b(P1|P2|Planes|Split|u16|u32|i64|Kind|Plan|Row|Lane|Kernel)\w*", "T", text[start:end])
            bodies[(match.group(2), re.sub(r"\s+", " ", body))].append(os.path.relpath(path, root))
    twins = {key: places for key, places in bodies.items() if len(places) > 1 and len(key[1]) > 20}
    print(f"== 2 functions with one name and body up to types: {len(twins)} in {sum(map(len, twins.values()))} places")
    for (name, _), places in sorted(twins.items()):
        print(f"{name}: {', '.join(places)}")
    print("== 5 premises in three or more contracts, and pairs of parameters in three or more functions, of a crate")
    for crate in sorted({path.split(os.sep)[-3] for path, _ in files}):
        premises, pairs = collections.Counter(), collections.Counter()
        for path, text in files:
            if path.split(os.sep)[-3] != crate:
                continue
            for clause in re.findall(r"requires(?: \w+)? \{ (.*) \}", text):
                premises[re.sub(r"\.(now|old)\b", "", clause)] += 1
            for clause in re.findall(r"ensures(?: \w+)? \{ (.*) \}", text):
                if " → " in clause and not clause.startswith("("):
                    premises["→ " + re.sub(r"\.(now|old|new)\b", "", clause.split(" → ")[0])] += 1
            for match in SIGNATURE.finditer(text):
                names = parameters(match.group(4))
                for i, first in enumerate(names):
                    for second in names[i + 1:]:
                        pairs[f"({first}, {second})"] += 1
        for what, number in list(premises.items()) + list(pairs.items()):
            if number >= 3:
                print(f"{crate}: {what}: {number}")


if __name__ == "__main__":
    main()
