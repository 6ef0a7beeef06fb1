#!/usr/bin/env python3
"""The places of docs/DESIGN-PASS.md in crates/*/src: lists and counts them, point by point, in the working tree or at a commit.

    tools/places.py [--at COMMIT] [--list]

A place is found by its form alone; whether it is to change is said in docs/DESIGN-PASS.md.
"""
import argparse
import re
import subprocess
from collections import defaultdict
from pathlib import Path

ROOT = Path(__file__).resolve().parent.parent


def sources(commit):
    """The text of each source file, comments left out, by its path."""
    if commit:
        names = subprocess.run(["git", "ls-tree", "-r", "--name-only", commit, "crates"], cwd=ROOT, capture_output=True, text=True, check=True).stdout.split()
        names = [n for n in names if re.fullmatch(r"crates/[a-z_]+/src/.*\.rt", n)]
        texts = {n: subprocess.run(["git", "show", f"{commit}:{n}"], cwd=ROOT, capture_output=True, text=True, check=True).stdout for n in names}
    else:
        texts = {str(p.relative_to(ROOT)): p.read_text() for p in sorted(ROOT.glob("crates/*/src/**/*.rt"))}
    return {n: re.sub(r"//.*", "", t) for n, t in sorted(texts.items()) if not n.endswith(("stored_sizes.rt", "stored_words.rt"))}


def line_of(text, at):
    return text.count("\n", 0, at) + 1


def closed(text, at, pair):
    """The place after the bracket that closes one which is open before a place."""
    depth = 1
    while depth:
        depth += {pair[0]: 1, pair[1]: -1}.get(text[at], 0)
        at += 1
    return at


def functions(text):
    """(line, name, parameters, head) of each function; the head ends at the body."""
    for m in re.finditer(r"\bfn (\w+)(?:<[^(]*>)?\(", text):
        i = closed(text, m.end(), "()")
        inside = text[m.end():i - 1]
        parts, level, part = [], 0, ""
        for c in inside:
            level += {"(": 1, "[": 1, "<": 1, ")": -1, "]": -1, ">": -1}.get(c, 0)
            if c == "," and level == 0:
                parts.append(part.strip())
                part = ""
            else:
                part += c
        if part.strip():
            parts.append(part.strip())
        ends = [at for at in (text.find("\n{", i), text.find(" {\n", i), text.find(";\n", i)) if at > 0]
        yield line_of(text, m.start()), m.group(1), parts, text[m.start():min(ends, default=i)]


def enums(text):
    for m in re.finditer(r"\benum (\w+)[^{]*\{", text):
        i = closed(text, m.end(), "{}")
        variants = re.findall(r"^    (\w+)", text[m.end():i - 1], re.M) or re.findall(r"(\w+)", text[m.end():i - 1])
        yield line_of(text, m.start()), m.group(1), variants


SIZE = r"(?:u8|u16|u32|u64|usize|sizes?|wide|8|16|32|64)"


def places(texts):
    found = defaultdict(list)
    names = defaultdict(list)
    for path, text in texts.items():
        for line, name, variants in enums(text):
            found["1 enums of the crates' own"].append((path, line, f"{name}: {' '.join(variants)}"))
        for m in re.finditer(r"\b(?:colour|kind|sort|code) == \d|\bcolours\[\w+\] = \d|\[\w+\.colours|match (?:sort|code|kind)\b", text):
            found["1 numbers for kinds"].append((path, line_of(text, m.start()), m.group(0)))
        for line, name, parameters, head in functions(text):
            stem = re.sub(rf"_?{SIZE}$|^{SIZE}_|(?<=_){SIZE}_", "", name)
            names[stem or name].append((path, line, name))
            if len(parameters) >= 7:
                found["5 functions of seven parameters or more"].append((path, line, f"{name}: {len(parameters)}"))
            columns = [p for p in parameters if re.search(r"\[(?:u8|u16|u32|usize)\]", p)]
            if len(columns) >= 3:
                found["6 functions of three columns or more"].append((path, line, f"{name}: {len(columns)}"))
            if re.match(r"(?:same|print|show|wide|narrow|low|two_complement|temp_code|signed_word|larger|plus|number|place)", name):
                found["4 equality, conversion and printing by hand"].append((path, line, name))
            for clause in re.findall(r"requires(?: \w+)? \{ (.*) \}$", head, re.M):
                found["5 clauses asked of callers"].append((path, line, f"{name}: {clause[:60]}"))
        for m in re.finditer(r"\bwhile [^{]*[<>][^{]*\{", text):
            found["3 loops with a bound"].append((path, line_of(text, m.start()), m.group(0).strip()))
        for m in re.finditer(r"match index|if index ==|index == \d", text):
            found["7 choices of a column or a step by a number"].append((path, line_of(text, m.start()), m.group(0)))
    for stem, all_named in sorted(names.items()):
        crates = {(p.split("/")[1], n) for p, _, n in all_named}
        if len(crates) > 1 and stem not in ("main", "run", "all", "one", "fields", "replay", "fmt", "from", "zero", "new"):
            for path, line, name in all_named:
                found["2 names that differ only in a size, or stand in several crates"].append((path, line, name))
    return found


def main():
    parser = argparse.ArgumentParser(description=__doc__, formatter_class=argparse.RawDescriptionHelpFormatter)
    parser.add_argument("--at", metavar="COMMIT")
    parser.add_argument("--list", action="store_true", help="each place, not only the counts")
    args = parser.parse_args()
    for kind, all_found in sorted(places(sources(args.at)).items()):
        print(f"{kind}: {len(all_found)}")
        if args.list:
            for path, line, what in all_found:
                print(f"    {path}:{line}: {what}")


if __name__ == "__main__":
    main()
