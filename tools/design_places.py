"""Counts the places of the eight points of docs/DESIGN-PASS.md in crates/*/src and crates/*/proofs.

    python3 -I tools/design_places.py [--totals] [POINT ..] [--in FOLDER]

prints `point file:line name` for each place, and each point's totals by kind. FOLDER is another checkout, for the places at another commit.
The rules go by the text: docs/DESIGN-PASS.md says what each one misses.
"""

import collections
import pathlib
import re
import sys

Function = collections.namedtuple("Function", "path line name comment params result requires body body_line")
Place = collections.namedtuple("Place", "kind path line name")

KEYWORDS = set("as break const continue else false fn for if in let loop match mut ref return self true while".split())
NONE_VARIANTS = set(
    "Absent Bad Broken Fault Faulty Header Nothing Nowhere Outside Refused Short Unknown Wrong".split()
)
NUMBER_NAMES = set(
    "ABSENT BITMAP BLOCK_ORDER CORRECTION CUT_OFF END_WRONG FAILED FOUND JUMP_WRONG LEFT_OVER LISTED LUCENE MACHINE MISSING NOWHERE"
    " NO_ID ONES_UNLIKE PLACE_ORDER PLAIN RANK_WRONG RUNS TABLE UNLIKE UNTRIED".split()
)
NUMBER = r"(?:u8|u16|u32|u64|usize|i64)"


# ---- reading the sources


def without_comments(text):
    """The text with each comment made empty, so that the lines keep their numbers."""
    return re.sub(r"//[^\n]*", "", text)


def closing(text, start, pair):
    """The place after the bracket that closes the one at start."""
    depth = 0
    for at in range(start, len(text)):
        depth += (text[at] == pair[0]) - (text[at] == pair[1])
        if depth == 0:
            return at + 1
    raise ValueError(f"a bracket is not closed: {text[start:start + 60]!r}")


def line_of(text, at):
    return text.count("\n", 0, at) + 1


def flat(text):
    return " ".join(text.split())


def split_at_top(text, separator, opening="([{", ending=")]}"):
    """The parts between separators that no bracket encloses."""
    parts, depth, part = [], 0, ""
    for letter in text:
        depth += (letter in opening) - (letter in ending)
        if letter == separator and depth == 0:
            parts.append(part)
            part = ""
        else:
            part += letter
    return [flat(p) for p in parts + [part] if p.strip()]


def comment_above(lines, line):
    above, at = [], line - 2
    while at >= 0 and lines[at].strip().startswith(("//", "#[")):
        above.insert(0, lines[at].strip())
        at -= 1
    return " ".join(above)


def functions_of(path, text):
    lines, code = text.split("\n"), without_comments(text)
    for found in re.finditer(r"\bfn (\w+)(?:<[^(]*>)?\(", code):
        end = closing(code, found.end() - 1, "()")
        params = split_at_top(code[found.end() : end - 1].replace("->", "→"), ",", "([{<", ")]}>")
        result = re.match(r"\s*(?:->\s*([^{;]*?))?\s*(?=\{|;|\brequires\b|\bensures\b|\bwhere\b)", code[end:])
        at, requires = end + (result.end() if result else 0), ""
        while clause := re.match(r"\s*(requires|ensures)\s*\w*\s*(?=\{)", code[at:]):
            begin = at + clause.end()
            at = closing(code, begin, "{}")
            if clause.group(1) == "requires":
                requires += code[begin + 1 : at - 1]
        opening = re.match(r"\s*(?=\{)", code[at:])
        if not opening:
            continue
        at += opening.end()
        line = line_of(code, found.start())
        body = code[at + 1 : closing(code, at, "{}") - 1]
        shown = (result.group(1) or "") if result else ""
        yield Function(path, line, found.group(1), comment_above(lines, line), params, flat(shown), requires, body, line_of(code, at))


class Tree:
    def __init__(self, root):
        self.root = root
        self.texts = {}
        for path in sorted(root.glob("crates/*/src/**/*.rt")):
            self.texts[str(path.relative_to(root))] = path.read_text(encoding="utf-8")
        self.functions = [f for path, text in self.texts.items() for f in functions_of(path, text)]

    def types(self):
        """Each struct or enum: file, line, derives, word, name, body."""
        shape = r"((?:#\[derive\(([^)]*)\)\]\s*)?)(?:pub )?(struct|enum) (\w+)(?:<[^{;(]*>)?\s*\{"
        for path, text in self.texts.items():
            code = without_comments(text)
            for found in re.finditer(shape, code):
                body = code[found.end() : closing(code, found.end() - 1, "{}") - 1]
                line = line_of(code, found.start(3))
                yield path, line, found.group(2) or "", found.group(3), found.group(4), body


def loops(f, word):
    """Each loop of a function: its line, head and body."""
    for found in re.finditer(rf"\b{word}\b([^{{;]*)\{{", f.body):
        end = closing(f.body, found.end() - 1, "{}")
        line = f.body_line + f.body.count("\n", 0, found.start())
        yield line, flat(found.group(1)), f.body[found.end() : end - 1]


# ---- the eight points


def point_1(tree):
    """Own results, flags with a value beside them, numbers for kinds and for none."""
    for path, line, _, word, name, body in tree.types():
        parts = split_at_top(body, ",")
        if word == "enum" and name != "Refusal" and any(re.match(r"\w+", part).group() in NONE_VARIANTS for part in parts):
            yield Place("enum with a case for none or a refusal", path, line, name)
        if word == "struct" and len(parts) > 1:
            for part in parts:
                if re.search(r": bool$", part) or re.search(rf"\bkind: {NUMBER}$", part):
                    yield Place("flag or kind number beside a value", path, line, f"{name}: {part}")
    for path, text in tree.texts.items():
        code = without_comments(text)
        for found in re.finditer(rf"\bconst (\w+): {NUMBER} = (\w+)", code):
            mask = found.group(2).isdigit() and 65536 < int(found.group(2)) < 2**63
            if found.group(1) in NUMBER_NAMES and not mask:
                yield Place("number for a kind, a reason or none", path, line_of(code, found.start()), found.group(1))
    for f in tree.functions:
        none = re.search(r"for none\b|[Nn]one is\b|[Nn]one was\b|if none\b|if there is none|or `NOWHERE`", f.comment)
        if none and re.fullmatch(NUMBER, f.result):
            yield Place("function whose number can say none", f.path, f.line, f.name)


def shape_of(body):
    """The body with its names and numbers replaced: each name by when it first came."""
    seen, tokens = {}, re.findall(r"\w+(?:::\w+)*|[^\s\w]", body)
    shown = []
    for token in tokens:
        if token in KEYWORDS:
            shown.append(token)
        elif token[0].isdigit():
            shown.append("#")
        else:
            shown.append(f"n{seen.setdefault(token, len(seen))}")
    return len(tokens), " ".join(shown)


def point_2(tree):
    """Twins: bodies of 20 tokens or more that are one up to names and numbers, and shorter ones with the same text."""
    groups = collections.defaultdict(list)
    for f in tree.functions:
        length, shape = shape_of(f.body)
        if length >= 20:
            groups["the same up to names and numbers", shape].append(f)
        elif length >= 3:
            groups["the same short text", flat(f.body)].append(f)
    twins = [(kind, fs) for (kind, _), fs in groups.items() if len(fs) > 1]
    for number, (kind, fs) in enumerate(twins, 1):
        for f in fs:
            yield Place(kind, f.path, f.line, f"{f.name} (group {number} of {len(fs)})")


def point_3(tree):
    """Loops that count an index by hand."""
    for f in tree.functions:
        for line, test, body in loops(f, "while"):
            counters = re.findall(r"\b(\w+) \+= [0-9]\w*;|\b(\w+) = \2 \+ [0-9]\w*;", body)
            counted = {a or b for a, b in counters} & set(re.findall(r"\w+", test))
            kind = "while that counts an index" if counted and re.search(r"<|!=", test) else "other while (no place)"
            yield Place(kind, f.path, line, f"{f.name}: while {test}")
        for line, head, body in loops(f, "for"):
            if re.search(r"in 0\.\.\w+\.len\(\)", head):
                yield Place("for over the indices of a slice", f.path, line, f"{f.name}: for {head}")


def point_4(tree):
    """Conversion, smaller and greater, comparison and printing by hand; types without the derives."""
    for f in tree.functions:
        body = flat(f.body)
        if re.fullmatch(rf"\(?\w+\)? as {NUMBER}", body):
            yield Place("function that is one conversion", f.path, f.line, f.name)
        if re.fullmatch(r"if (\w+) <=? (\w+) \{ (\1|\2) \} else \{ (\1|\2) \}", body):
            yield Place("smaller or greater by hand", f.path, f.line, f.name)
        arms = re.findall(r"=> ([^,{]+),", body)
        if re.fullmatch(r"match \w+ \{.*\}", body) and len(arms) > 1 and re.fullmatch(NUMBER, f.result):
            if all(re.fullmatch(r"[0-9]+|(?:\w+::)*[A-Z_]+|0x\w+", arm) for arm in arms):
                yield Place("match of a kind to its number", f.path, f.line, f.name)
        if re.search(r"(\w+)\[(\w+)\] [!=]= \w+\[\2\]", body):
            yield Place("two slices compared by hand", f.path, f.line, f.name)
    for path, line, derives, word, name, _ in tree.types():
        if not {"Debug", "PartialEq"} <= set(re.findall(r"\w+", derives)):
            yield Place("type without Debug and PartialEq", path, line, f"{word} {name}")


def point_5(tree):
    """A fact that three or more functions require; three or more parameters that three or more signatures have in a row."""
    facts, rows = collections.defaultdict(list), collections.defaultdict(list)
    for f in tree.functions:
        for fact in split_at_top(f.requires.replace(".old", ".now"), "×"):
            facts[fact[1:-1] if fact.startswith("(") and fact.endswith(")") else fact].append(f)
        own = [p for p in f.params if ":" in p]
        for size in range(3, len(own) + 1):
            for at in range(len(own) - size + 1):
                rows[tuple(own[at : at + size])].append(f)
    for fact, fs in sorted(facts.items(), key=lambda item: -len(item[1])):
        if len(fs) >= 3:
            yield Place("fact in three or more requires", fs[0].path, fs[0].line, f"{len(fs)} times: {fact}")
    common = {row: fs for row, fs in rows.items() if len(fs) >= 3}
    for row, fs in common.items():
        wider = (other for other in common if len(other) == len(row) + 1 and len(common[other]) == len(fs))
        if not any(row in (other[1:], other[:-1]) for other in wider):
            yield Place("three or more parameters together", fs[0].path, fs[0].line, f"{len(fs)} times: {', '.join(row)}")


def point_6(tree):
    """A slice with a length beside it, slices side by side, halving by hand."""
    for f in tree.functions:
        named = [p.split(":", 1) for p in f.params if ":" in p]
        filled = [kind for _, kind in named if re.match(r"\s*&('\w+ )?mut \[", kind)]
        lengths = [name for name, kind in named if re.fullmatch(r"n|len|count|room|filled|held", name) and kind.strip() == "usize"]
        if filled and lengths:
            yield Place("filled slice with a length beside it", f.path, f.line, f"{f.name}: {', '.join(lengths)}")
        if len(filled) >= 2:
            yield Place("two or more filled slices side by side", f.path, f.line, f"{f.name}: {len(filled)}")
        for line, test, body in loops(f, "while"):
            if re.search(r"/ 2\b|/= 2\b|>> 1\b|\bmiddle\(|\bhalf\(", body):
                yield Place("loop that halves", f.path, line, f"{f.name}: while {test}")


def point_7(tree):
    """A switch whose branches call different functions with the same arguments; tables of functions."""
    for f in tree.functions:
        body, calls = flat(f.body), collections.defaultdict(set)
        for name, arguments in re.findall(r"=> (?:\{ )?([\w:]+)\(((?:[^()]|\([^()]*\))*)\)(?=,|;| \})", body):
            if name[name.rfind(":") + 1].islower():
                calls[flat(arguments)].add(name)
        if any(len(names) > 1 and arguments for arguments, names in calls.items()):
            yield Place("match that chooses a function", f.path, f.line, f.name)
        chosen = re.findall(r"\{ (?:return )?([\w:]+)\(([^()]+)\);? \}(?: else \{)? ([\w:]+)\(\2\)", body)
        if any(a != b and a[a.rfind(":") + 1].islower() for a, _, b in chosen):
            yield Place("if that chooses a function", f.path, f.line, f.name)
        if any(re.search(r"\bfn\(", p) for p in f.params):
            yield Place("function pointer", f.path, f.line, f.name)


def point_8(tree):
    """The answers that are written by hand: the files, and their lines."""
    for path in sorted(tree.root.glob("crates/*/proofs/**/Answers.antt")):
        lines = path.read_text(encoding="utf-8").count("\n")
        yield Place("file of answers", str(path.relative_to(tree.root)), lines, f"{lines} lines")


POINTS = {str(n): point for n, point in enumerate((point_1, point_2, point_3, point_4, point_5, point_6, point_7, point_8), 1)}


def main(words):
    root = pathlib.Path(__file__).resolve().parent.parent
    if "--in" in words:
        at = words.index("--in")
        root = pathlib.Path(words[at + 1])
        words = words[:at] + words[at + 2 :]
    tree = Tree(root)
    for number in [w for w in words if w in POINTS] or list(POINTS):
        places = list(POINTS[number](tree))
        if "--totals" not in words:
            for p in places:
                print(f"{number} {p.path}:{p.line} {p.name} [{p.kind}]")
        for kind, count in sorted(collections.Counter(p.kind for p in places).items()):
            print(f"total {number}: {count} {kind}")
        if number == "8":
            print(f"total 8: {sum(p.line for p in places)} lines in them")


if __name__ == "__main__":
    main(sys.argv[1:])
