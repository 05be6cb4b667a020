#!/usr/bin/env python3
"""Nothing that says nothing: takes 'Assumes nothing.' out of the comments, and out of `use` lists the names that their file does not need. Run once from
the project's root, after rooms.py and names.py. Prints what it took out of each list."""
import os
import re
import subprocess
import sys

SAYS = "Assumes nothing."
USE = re.compile(r"^((?:ghost )?use [^{]*\{)(.*)\}(;?)$")


def tracked():
    names = subprocess.run(["git", "ls-files"], check=True, capture_output=True, text=True).stdout.split("\n")
    return [p for p in names if p.startswith(("crates/", ".ci/")) and p.endswith((".antt", ".rt", ".in", ".edit")) and os.path.isfile(p)]


def bare(path, text):
    lines = []
    for line in text.split("\n"):
        found = re.match(r"^(\s*)(--|//)( ?)(.*)$", line)
        if found and SAYS in line:
            indent, mark, _, said = found.groups()
            said = re.sub(r"\s+", " ", said.replace(SAYS, "")).strip() if said.strip() == SAYS else re.sub(r" ?Assumes nothing\.", "", said).strip()
            if not said:
                continue
            line = f"{indent}{mark} {said}"
        lines.append(line)
    return "\n".join(lines)


def tokens(text, mark):
    """What a file's own lines are made of: without comments and without its `use` lines."""
    out = set()
    for line in text.split("\n"):
        line = re.split(r"(?:^|\s)" + re.escape(mark) + r"(?:\s|$)", line)[0]
        if re.match(r"^(?:ghost )?use ", line):
            continue
        out.update(re.split(r"[\s(){};,.⌜⌝«»λ]+", line))
    return out


def needed(name, there):
    """Whether a name, or a part of one with holes, is among the tokens."""
    name = name.split(" as ")[-1].strip()
    parts = [part for part in name.split("_") if part] if "_" in name else [name]
    if not parts:
        return True
    return any(part in there for part in parts) or name in there


def lists(path, text, wanted):
    mark = "--" if ".antt" in path else "//"
    there = tokens(text, mark)
    lines, gone = [], []
    for line in text.split("\n"):
        found = USE.match(line)
        if found:
            head, names, end = found.groups()
            names = names.split(", ")
            keep = [n for n in names if needed(n, there) or n in wanted]
            gone += [n for n in names if n not in keep]
            if not keep:
                continue
            line = head + ", ".join(keep) + "}" + end
        lines.append(line)
    return "\n".join(lines), gone


def main():
    paths = tracked()
    edits = {}
    for path in paths:
        if path.endswith(".edit"):
            owner = "signalfern" if path.startswith(".ci/") else path.split("/")[1]
            edits.setdefault(owner, set()).update(re.split(r"[\s(){};,.⌜⌝«»λ]+", open(path, encoding="utf-8").read()))
    said = dropped = touched = 0
    for path in paths:
        old = open(path, encoding="utf-8").read()
        new = bare(path, old)
        said += old.count(SAYS) - new.count(SAYS)
        if path.startswith("crates/") and path.endswith((".antt", ".rt")):
            new, gone = lists(path, new, edits.get(path.split("/")[1], set()))
            if gone:
                print(f"{path}: {', '.join(gone)}")
                dropped += len(gone)
                touched += 1
        if new != old:
            open(path, "w", encoding="utf-8").write(new)
    left = [p for p in tracked() if SAYS in open(p, encoding="utf-8").read()]
    if said < 700 or left:
        sys.exit(f"bare.py: {said} times taken out; left in {left}")
    print(f"bare.py: '{SAYS}' taken out {said} times; {dropped} names out of the lists of {touched} files")


main()
