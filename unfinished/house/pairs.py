#!/usr/bin/env python3
"""pairs.py OLD NEW: the tokens in which two commits differ, file by file (moved files are paired), so that one sees that names alone changed. Prints each
pair of tokens with the number of its places, what is no such pair, and files where an old token is kept at some places."""
import collections
import re
import subprocess
import sys


def git(*words):
    return subprocess.run(["git", *words], check=True, capture_output=True, text=True).stdout


old, new = sys.argv[1:3]
raw = git("diff", "-M30%", "-l9000", "--name-status", old, new).strip().split("\n")
pairs, odd, partial = collections.Counter(), [], collections.defaultdict(set)
batch = []
for line in raw:
    parts = line.split("\t")
    if parts[0][0] == "M":
        batch.append((parts[1], parts[1]))
    elif parts[0][0] == "R":
        batch.append((parts[1], parts[2]))
    else:
        odd.append(line)


def contents(commit, paths):
    run = subprocess.run(["git", "cat-file", "--batch"], input="".join(f"{commit}:{p}\n" for p in paths).encode(), capture_output=True, check=True).stdout
    out, at = [], 0
    for _ in paths:
        end = run.index(b"\n", at)
        size = int(run[at:end].split()[-1])
        out.append(run[end + 1:end + 1 + size].decode())
        at = end + 2 + size
    return out


def plain(text):
    """`use` lists that were broken in two are one again, and a comma before a closing bracket says nothing."""
    lines, out = text.split("\n"), []
    for line in lines:
        m = re.match(r"^((?:unfoldable )?(?:pub )?(?:ghost )?use [^{]*\{)(.*)\}(;?)$", line)
        if m and out and out[-1].startswith(m.group(1)) and out[-1].rstrip(";").endswith("}"):
            out[-1] = out[-1].rstrip(";")[:-1] + ", " + m.group(2) + "}" + m.group(3)
        else:
            out.append(line)
    tokens = re.findall(r"[\w′]+(?:-[\w′]+)*|[^\s\w]", "\n".join(out))
    kept = []
    for i, t in enumerate(tokens):
        if t == "," and i + 1 < len(tokens) and tokens[i + 1] in ")}":
            continue
        kept.append(t)
    return kept


for (a, b), x, y in zip(batch, contents(old, [a for a, _ in batch]), contents(new, [b for _, b in batch])):
    s, t = plain(x), plain(y)
    if len(s) != len(t):
        odd.append(f"{a} -> {b}: {len(s)} and {len(t)} tokens")
        continue
    changed = {p for p in zip(s, t) if p[0] != p[1]}
    for p in zip(s, t):
        if p[0] != p[1]:
            pairs[p] += 1
        elif any(p[0] == q[0] for q in changed):
            partial[b].add(p[0])
    for q in changed:
        if q[1] in s:
            odd.append(f"{a}: had {q[1]} before ({q[0]} -> {q[1]})")
for (p, q), n in sorted(pairs.items()):
    print(f"{n:5} {p} -> {q}")
print("--- kept at some places")
for path, tokens in sorted(partial.items()):
    print(path, ", ".join(sorted(tokens)))
print("--- to look at")
print("\n".join(odd))
