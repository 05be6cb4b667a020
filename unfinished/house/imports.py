#!/usr/bin/env python3
"""Checks, without the prover, that each name of each `use` list is declared in the file that the list names, that each `Statement` and `Tie` belongs to a
function's folder, and each `declared` type to the code. Changes nothing. Run from the project's root."""
import os
import re
import sys

ROOT = "crates"
bad = []
cache = {}


def lines_of(path):
    return open(path, encoding="utf-8").read()


def declared(path):
    """All names that a file may pass on: any token at a declaration's start, record fields, constructors, and re-exports."""
    if path in cache:
        return cache[path]
    names = set()
    cache[path] = names
    for line in lines_of(path).split("\n"):
        m = re.match(r"^\s*(?:(?:pub|abbrev|unfoldable|private) )*(?:record|data|module) (\S+)", line)
        if m:
            names.add(m.group(1))
        m = re.match(r"^\s*(?:unfoldable )?pub use (\S+?)\.\{(.*)\}", line)
        if m:
            names.update(n.split(" as ")[-1].strip() for n in m.group(2).split(","))
        m = re.match(r"^\s*(?:(?:pub|abbrev|unfoldable) )*([^:(){}]+?) : ", line)
        if m:
            names.update(m.group(1).split())
        m = re.match(r"^pub mod (\w+)", line)
        if m:
            names.add(m.group(1))
    return names


def kinds(crate):
    """The code's types and functions of a crate, by module."""
    out = set()
    for base, _, found in os.walk(f"{ROOT}/{crate}/src"):
        for f in found:
            if f.endswith(".rt"):
                out.update(re.findall(r"\b(?:enum|struct|fn) (\w+)", lines_of(os.path.join(base, f))))
    return out


listed = {}
for line in open("crates.txt"):
    if ":" in line and not line.startswith("#"):
        a, b = line.split(":", 1)
        listed[a.strip()] = b.split()
for crate in os.listdir(ROOT):
    if crate not in listed:
        bad.append(f"crate {crate} is not in crates.txt")
for crate in listed:
    if not os.path.isdir(f"{ROOT}/{crate}"):
        bad.append(f"crates.txt has {crate}, which is not there")

count = 0
for base, _, found in os.walk(ROOT):
    for f in found:
        path = os.path.join(base, f)
        if not f.endswith((".antt", ".rt")):
            continue
        own = path.split("/")[1]
        text = lines_of(path)
        for m in re.finditer(r"^(?:unfoldable )?(?:pub )?(?:ghost )?use (Rattle·\S+?)(?:\.\{(.*)\}| as (\S+?))?;?$", text, re.M):
            count += 1
            where, names = m.group(1), m.group(2)
            t = re.match(r"Rattle·(\w+?)(?:·(specs|proofs))?\.(specs|proofs)\.?(.*)$", where)
            if not t:
                bad.append(f"{path}: {where}")
                continue
            crate, inner, kind, rest = t.groups()
            if crate != own and crate not in listed.get(own, []):
                bad.append(f"{path}: {own} does not list {crate}")
            if bool(inner) != (crate == own):
                bad.append(f"{path}: {where}: own or other?")
            steps = rest.split(".") if rest else []
            if steps and steps[0] == "declared":
                if steps[-1] != "the-variants" and steps[-1] not in kinds(crate):
                    bad.append(f"{path}: no type {steps[-1]} in {crate}")
                continue
            if steps and steps[-1] in ("Statement", "Tie"):
                folder = f"{ROOT}/{crate}/{kind}/" + "/".join(steps[:-1])
                plus = f"{ROOT}/{crate}/{kind}/" + "/".join(steps[:-2] + ["+" + steps[-2]])
                if not os.path.isfile(folder + "/Proof.antt") and not os.path.isfile(plus + "/Proof.antt"):
                    bad.append(f"{path}: no folder {folder}")
                elif steps[-2] not in kinds(crate):
                    bad.append(f"{path}: no function {steps[-2]} in {crate}")
                continue
            target = f"{ROOT}/{crate}/{kind}/" + "/".join(steps) + ".antt"
            if not os.path.isfile(target):
                if len(steps) == 1 and steps[0] in kinds(crate):
                    continue
                if len(steps) >= 1 and steps[-1] in kinds(crate):
                    continue
                bad.append(f"{path}: no file {target}")
                continue
            for name in (names or "").split(","):
                name = name.split(" as ")[0].strip()
                if name and name not in declared(target):
                    bad.append(f"{path}: {name} is not in {target}")
# each folder of a proof has its function
for base, _, found in os.walk(ROOT):
    if "Proof.antt" in found and "/proofs/" in base:
        own, name = base.split("/")[1], os.path.basename(base).lstrip("+")
        if name not in kinds(own):
            bad.append(f"{base}: no function {name}")
        if not re.search(rf"^pub {name.replace('_', '-')}-spec :", lines_of(base + "/Proof.antt"), re.M):
            bad.append(f"{base}: no {name.replace('_', '-')}-spec")
for line in bad:
    print(line)
print(f"{count} lists, {len(bad)} faults")
sys.exit(bool(bad))
