#!/usr/bin/env python3
"""Spells the repository's own definitions, lemmas, constructors and fields in snake case, as today's library does.

usage: python3 tools/spell_names.py      at the top of the repository, once, right after port.py (--table shows the names and writes nothing)

It reads what specs/ and the lemma files of proofs/ declare. `camelCase` becomes `camel_case` wherever the word stands in a .antt file, a clause or a
ghost item; `kebab-case` becomes `kebab_case` where no name that Rattle makes can stand, which is behind a small name and a dot. A lemma that would fall
together with a definition gets `_lem`. Types, facts and modules keep their capitals; a name of the library keeps its dashes.
The names that would meet another one are printed, and nothing is written then.
"""
import collections
import glob
import os
import re
import sys

WORD = r"[^\s(){}.;,@\"«»]+"
HEAD = re.compile(r"^(?:(?:abbrev|unfoldable|opaque|pub|data|record|ruleset)\s+)*(" + WORD + r")((?:\s+\{[^{}]*\}|\s+\([^()]*\))*)\s*:(?:\s|$)")
FIELD = re.compile(r"^\s+(?:pub\s+)?((?:" + WORD + r"\s+)*" + WORD + r")\s*:\s")
BLOCK = re.compile(r"^(?:(?:abbrev|unfoldable|opaque|pub)\s+)*(data|record)\s")
CAMEL = re.compile(r"(?<=[a-z0-9'])(?=[A-Z])")
GHOST = re.compile(r"(?:requires|ensures)\s*\*?\s*(?:\w+\s*)?\{|ghost\s*(?:use\b|\w)")


def snake(name):
    if name[0].isupper():
        return name
    out = CAMEL.sub("_", name)
    parts = []
    for part in out.split("_"):
        parts.append(part.lower() if re.fullmatch(r"[A-Z][A-Za-z0-9']*", part) and part != "Z" else part)
    out = "_".join(parts)
    return re.sub(r"(?<=[\w'])-(?=[\w'])", "_", out)


def declared():
    """Three sets: what specs/ define, the fields and constructors of both, and the lemmas that are neither."""
    definitions, members, lemmas = set(), set(), set()
    for path in sources():
        into = definitions if "/specs/" in path else lemmas
        block = None  # how far the head of the record or data type stands in
        for line in open(path, encoding="utf-8"):
            code = line.lstrip()
            indent = len(line) - len(code)
            if not code or code.startswith("--"):
                continue
            if block is not None and indent <= block:
                block = None
            if BLOCK.match(code):
                block = indent
                found = HEAD.match(code)
                into.update([found.group(1)] if found else [])
            elif block is not None:
                found = FIELD.match(line)
                members.update(found.group(1).split() if found else [])
            else:
                found = HEAD.match(code)
                into.update([found.group(1)] if found else [])
    members.discard("pub")
    return definitions, members, lemmas - definitions - members


def sources():
    return sorted(glob.glob("crates/*/specs/**/*.antt", recursive=True) + glob.glob("crates/*/proofs/*.antt"))


def words_of():
    """Each word of the .antt files, with the files that have it."""
    out = collections.defaultdict(set)
    for path in glob.glob("crates/*/*/**/*.antt", recursive=True):
        for word in set(re.findall(WORD, open(path, encoding="utf-8").read())):
            out[word].add(path)
    return out


def of_library():
    """The names that the files take from the library, which keep theirs."""
    out = set()
    for path in glob.glob("crates/*/*/**/*.antt", recursive=True) + glob.glob("crates/*/src/**/*.rt", recursive=True):
        for module, names in re.findall(r"\buse (\S+?)\.\{([^}]*)\}", open(path, encoding="utf-8").read()):
            if re.match(r"Rattle\.(std|core)|mathlib|borrow|lib\.|Prim", module):
                out.update(name.split(" as ")[-1].strip() for name in names.split(","))
    return out


def table():
    """A row for each name that turns. A definition has its plain spelling; a member that would meet it ends in `_is`, a lemma in `_lem`."""
    words, rows, taken, met = words_of(), {}, {name: ["of the library"] for name in of_library()}, []
    definitions, members, lemmas = declared()
    for ending, names in (("", definitions), ("_is", members - definitions), ("_lem", lemmas)):
        for name in sorted(names, key=lambda n: ("-" in n, snake(n) == n, n)):
            new = snake(name)
            others = [o for o in taken.get(new, []) if o != name]
            if others and (new != name or any(words[o] & words[name] for o in others)):
                new += ending or "_lem"
                if taken.get(new):
                    met.append((name, new))
            taken.setdefault(new, []).append(name)
            if new != name:
                rows[name] = new
    return rows, met


def turn_words(text, rows, fields=()):
    def one(match):
        word, before = match.group(0), text[: match.start()]
        new = rows.get(word)
        if new is None:
            return word
        if "-" in word and before.endswith(".") and word not in fields:
            owner = re.search(r"([^\s(){}.;,@\"«»]+)\.$", before)
            if owner is None or not owner.group(1)[0].isupper():
                return word
        return new

    return re.sub(WORD, one, text)


def turn_antt(text, rows, fields):
    out = []
    for line in text.split("\n"):
        code, dash, note = line.partition("-- ") if line.lstrip().startswith("-- ") else (line, "", "")
        out.append(turn_words(code, rows, fields) + dash + turn_note(note, rows))
    return "\n".join(out)


def turn_note(note, rows):
    return re.sub(r"(?<![\w'-])[a-z]\w*(?:[A-Z]\w*)(?![\w'-])", lambda m: rows.get(m.group(0), m.group(0)), note)


def turn_rt(text, rows):
    """Clauses, ghost items and comments alone: Rust's own words stay."""
    out, at = [], 0
    for match in re.finditer(r"(?m)(?:\b(?:requires|ensures)\b\s*\*?\s*(?:\w+\s*)?\{|\bghost\s+use\b|\bghost\s+\w+[^;{]*[{=])|//[^\n]*", text):
        if match.start() < at:
            continue
        out.append(text[at : match.start()])
        if match.group(0).startswith("//"):
            out.append(turn_note(match.group(0), rows))
            at = match.end()
            continue
        end = match.end()
        if match.group(0).startswith("ghost") and "use" in match.group(0).split():
            end = text.index(";", end)
        else:
            depth = match.group(0).count("{") - match.group(0).count("}")
            while depth > 0:
                depth += {"{": 1, "}": -1}.get(text[end], 0)
                end += 1
        out.append(turn_words(text[match.start() : end], rows))
        at = end
    out.append(text[at:])
    return "".join(out)


def main():
    rows, met = table()
    for name, new in met:
        print(f"meets: {name} as {new}")
    if "--table" in sys.argv:
        for name in sorted(rows):
            print(f"{name}\t{rows[name]}")
    if met or "--table" in sys.argv:
        return 1 if met else 0
    changed, fields = 0, declared()[1]
    for path in sorted(glob.glob("crates/*/*/**/*", recursive=True) + glob.glob(".ci/weaker/**/*", recursive=True)):
        if not os.path.isfile(path) or "/out/" in path:
            continue
        text = old = open(path, encoding="utf-8").read()
        if path.endswith((".antt", ".antt.in")):
            # (in proofs/F/ a field behind a dot may be one that Rattle made)
            text = turn_antt(text, rows, () if re.search(r"/proofs/.*/", path) else fields)
        elif path.endswith((".rt", ".rt.in")):
            text = turn_rt(text, rows)
        elif path.endswith(".edit"):
            # edits of specs/ and proofs/ are antt; in those of src/ a clause's words are camel case, which Rust's own never are
            only = rows if "file: specs/" in text or "file: proofs/" in text else {k: v for k, v in rows.items() if "-" not in k}
            text = "\n".join(line if line.startswith(("file:", "#")) else turn_words(line, only) for line in text.split("\n"))
        if text != old:
            open(path, "w", encoding="utf-8").write(text)
            changed += 1
    print(f"{len(rows)} names, {changed} files")
    return 0


sys.exit(main())
