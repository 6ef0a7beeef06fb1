#!/usr/bin/env python3
"""Brings the definitions and lemmas of specs/ and proofs/ to one spelling: words in snake case, types and facts in camel case.

usage: python3 tools/respell.py [--list]     at the top of the repository; --list prints the names and writes nothing

Renames what is declared in crates/NAME/specs/*.antt and crates/NAME/proofs/*.antt (not in the folder of a function's proof), wherever it is
cited: in specs/, proofs/, the clauses of src/, must-fail edits, README.md and docs/. Functions of src/, exported names, strings and outputs keep
their names. Stops where two names would fall together.
"""

import os
import re
import sys

TOKEN = re.compile(r"[^\s(){}\[\],;.:\"`⌜⌝]+")
DECLARED = re.compile(r"^\s*(?:where\s+)?(?:(?:abbrev|unfoldable|pub|private|opaque)\s+)*([A-Za-z][\w'₀-₉-]*)\s+:\s(.*)$")
TYPE = re.compile(r"^\s*(?:pub\s+)?(?:record|data)\s+([A-Za-z][\w'-]*)")
# names that would fall together with another, and what they are called
OTHERWISE = {
    "block-by": "block_by_lem",
    "hinted-up": "hinted_up_lem",
    "is-fixed": "is_fixed_lem",
    "looked-up": "looked_up_lem",
    "method-by": "method_by_lem",
    "on-count": "on_count_lem",
    "row-if": "row_if_lem",
    "total-by": "total_by_lem",
    "cell-of": "cell_of_lem",
    "first-row": "first_row_lem",
    "follow-on": "follow_on_lem",
    "code-end": "end_of_code",
    "rows-of": "row_numbers",
    "functions-of": "function_numbers",
    "descriptors-of": "descriptor_numbers",
    "entries-of": "entry_numbers",
    "numbersOf": "numbers_of_table",
    "sumBy": "sum_past",
    "pooled": "PoolGives",
    "stacked": "StackGives",
}
# names that are a variable's in a file
VARIABLES = {"crates/machine/proofs/Runs.antt": ("pooled", "stacked")}


def antt_files():
    for folder, dirs, files in os.walk("crates"):
        dirs[:] = sorted(d for d in dirs if d != "out")
        for name in sorted(files):
            if name.endswith(".antt"):
                yield os.path.join(folder, name)


def declaring(path):
    parts = path.split("/")
    return len(parts) == 4 and parts[2] in ("specs", "proofs") and parts[3] != "Lib.antt"


def snake(name):
    words = re.sub(r"([a-z0-9])([A-Z])", lambda m: m.group(1) + "_" + m.group(2).lower(), name)
    return words.replace("-", "_")


def camel(name):
    return "".join(w[:1].upper() + w[1:] for w in re.split(r"[-_]", name))


def is_type(signature):
    return bool(re.search(r"(→|^)\s*Type( \d+)?\s*$", signature.strip()))


def declared():
    found = {}
    for path in antt_files():
        if not declaring(path):
            continue
        with open(path, encoding="utf-8") as file:
            lines = file.read().split("\n")
        for i, line in enumerate(lines):
            if line.lstrip().startswith("--") or re.match(r"^\s*let\b", line):
                continue
            match = TYPE.match(line)
            if match:
                found[match.group(1)] = True
                continue
            match = DECLARED.match(line)
            if match:
                signature = match.group(2)
                for more in lines[i + 1:]:
                    if re.match(r"^\s+(→|\()", more):
                        signature += " " + more.strip()
                    else:
                        break
                found[match.group(1)] = found.get(match.group(1), False) or is_type(signature)
    return found


def renaming():
    names = {}
    for name, fact in declared().items():
        new = OTHERWISE.get(name)
        if new is None:
            new = camel(name) if fact else (snake(name) if name[0].islower() else name.replace("-", "_"))
        if new != name:
            names[name] = new
    return names


def places():
    yield from antt_files()
    for folder, dirs, files in os.walk("crates"):
        dirs[:] = sorted(d for d in dirs if d != "out")
        for name in sorted(files):
            if name.endswith((".rt", ".edit")):
                yield os.path.join(folder, name)
    yield "README.md"
    for name in sorted(os.listdir("docs")):
        if name.endswith(".md"):
            yield os.path.join("docs", name)


def main(arguments):
    names = renaming()
    texts = {}
    tokens = {}
    for path in places():
        with open(path, encoding="utf-8") as file:
            texts[path] = file.read()
        for token in set(TOKEN.findall(texts[path])):
            tokens.setdefault(token, []).append(path)
    bad = 0
    seen = {}
    for old, new in sorted(names.items()):
        if new in seen:
            print(f"together: {seen[new]} and {old} would both be {new}")
            bad += 1
        seen[new] = old
        both = sorted(set(tokens.get(new, [])) & set(tokens.get(old, [])))
        if new in tokens and new not in names:
            print(f"taken: {old} would be {new}, which stands in {len(tokens[new])} files, both in {both[:4]}")
            bad += bool(both)
    if "--list" in arguments:
        for old, new in sorted(names.items()):
            print(f"{old}\t{new}")
        return 0
    if bad and "--force" not in arguments:
        print(f"{bad} names would fall together: nothing was written")
        return 1
    for path, text in texts.items():
        here = {old: new for old, new in names.items() if old not in VARIABLES.get(path, ())}
        if path.startswith("crates/") and path.split("/")[2] == "proofs" and not declaring(path):
            # a function's own proof names calls after functions of src/, which keep their names
            here = {old: snake(old) if new.endswith("_lem") else new for old, new in here.items()}
        if path.endswith(".md"):
            new = re.sub(r"`[^`\n]*`", lambda m: TOKEN.sub(lambda t: here.get(t.group(0), t.group(0)), m.group(0)), text)
        else:
            new = TOKEN.sub(lambda t: here.get(t.group(0), t.group(0)), text)
        if new != text:
            with open(path, "w", encoding="utf-8") as file:
                file.write(new)
    print(f"{len(names)} names")
    return 0


if __name__ == "__main__":
    raise SystemExit(main(sys.argv[1:]))
