"""Lines within the limit: lists of names in two lines, types and comments broken where they may be."""
import re

LINE = 160
USE = re.compile(r"^((?:unfoldable )?(?:pub )?(?:ghost )?use [^{]*\{)(.*)\}(;?)$")


def split_use(line):
    out = []
    while len(line) > LINE:
        head, names, end = USE.match(line).groups()
        names, part = names.split(", "), []
        while names and len(head) + len(", ".join(part + [names[0]])) + 1 + len(end) <= LINE:
            part.append(names.pop(0))
        if not part or not names:
            break
        out.append(head + ", ".join(part) + "}" + end)
        line = head + ", ".join(names) + "}" + end
    return out + [line]


def places(line, mark):
    """Where the mark stands outside all brackets that the line opens."""
    depth, out = 0, []
    for i, c in enumerate(line):
        if line.startswith(mark, i) and depth == 0:
            out.append(i)
        depth += (c in "({") - (c in ")}")
    return [i for i in out if 20 < i <= LINE]


def broken(line, path):
    indent = len(line) - len(line.lstrip())
    comment = "//" if path.endswith((".rt", ".rt.in")) else "--"
    if line.lstrip().startswith(comment):
        at = line.rfind(" ", 0, LINE + 1)
        return [line[:at]] + broken_all(" " * indent + comment + " " + line[at + 1:], path)
    if not path.endswith((".antt", ".antt.in")):
        return [line]
    declared = re.match(r"^\s*(?:(?:pub|abbrev|unfoldable) )*\S+ : ", line)
    under = " " * (indent + 4 if declared or indent == 0 else indent)
    for mark in (" → ", " ≡ ", " ∙ "):
        found = places(line, mark)
        if found:
            return [line[:found[-1]]] + broken_all(under + line[found[-1] + 1:], path)
    found = places(line, " in ")
    if found:
        return [line[:found[-1] + 3]] + broken_all(under + line[found[-1] + 4:], path)
    found = places(line, " (")
    if found:
        return [line[:found[-1]]] + broken_all(under + line[found[-1] + 1:], path)
    print(f"a line over {LINE} stays: {path}: {line.strip()[:80]}")
    return [line]


def broken_all(line, path):
    if len(line) <= LINE:
        return [line]
    return split_use(line) if USE.match(line) else broken(line, path)


def within(path, old, new):
    """The new text with its long lines broken; lines that were there before stay."""
    before = set(old.split("\n"))
    out = []
    for line in new.split("\n"):
        out += [line] if line in before else broken_all(line, path)
    return "\n".join(out)
