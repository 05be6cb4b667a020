#!/usr/bin/env python3
"""Checks that the old text of each edit (must-fail, .ci/weaker) stands once in its file. Changes nothing. Run from the project's root."""
import glob
import os
import re
import sys

bad = 0
count = 0
for path in sorted(glob.glob("crates/*/must-fail/**/*.edit", recursive=True) + glob.glob(".ci/weaker/**/*.edit", recursive=True)):
    root = "" if path.startswith(".ci") else "/".join(path.split("/")[:2]) + "/"
    parts, key = [], None
    for line in open(path, encoding="utf-8").read().rstrip("\n").split("\n"):
        m = re.match(r"(file|old|new): ?(.*)$", line)
        if m and m.group(1) == "file":
            parts.append({"file": m.group(2), "old": [], "new": []})
            key = None
        elif m and parts:
            key = m.group(1)
            if key == "old" and parts[-1]["old"]:
                parts.append({"file": parts[-1]["file"], "old": [], "new": []})
            parts[-1][key].append(m.group(2))
        elif key:
            parts[-1][key].append(line)
    for part in parts:
        count += 1
        file = root + part["file"]
        text = open(file, encoding="utf-8").read() if os.path.isfile(file) else ""
        old = "\n".join(part["old"])
        if text.count(old) != 1 and not path.startswith(".ci"):
            print(f"{path}: {text.count(old)} times in {file}: {old[:90]!r}")
            bad += 1
        elif path.startswith(".ci") and text.count(old) == 0 and os.path.isfile(file):
            print(f"{path}: not in {file}: {old[:90]!r}")
            bad += 1
        elif not os.path.isfile(file):
            print(f"{path}: no file {file}")
            bad += 1
print(f"{count} texts, {bad} bad")
sys.exit(bad > 0)
