#!/usr/bin/env python3
"""One word, one thing: crates, files, functions and types under their new names (NOTES.md has the table). Run once from the project's root, after rooms.py.
Moves files and folders with git, and rewrites every reference but those of docs/LANDINGS.md and CHANGELOG.md, which tell of earlier days."""
import os
import re
import subprocess
import sys

from lines import within

HISTORY = ("docs/LANDINGS.md", "CHANGELOG.md")


def git(*words):
    return subprocess.run(["git", *words], check=True, capture_output=True, text=True).stdout


def fail(what):
    sys.exit("names.py: " + what)


class Tree:
    """The text files in memory: read once, written back at the end."""

    def __init__(self):
        self.text, self.source, self.first = {}, {}, {}
        for path in git("ls-files").split("\n"):
            skip = not path or path.startswith(("dist/", "rust/dist", "unfinished/", "conformance/")) or path in HISTORY
            if skip or not os.path.isfile(path) or os.path.islink(path):
                continue
            try:
                self.text[path] = open(path, encoding="utf-8", newline="").read()
            except UnicodeDecodeError:
                continue
            self.source[path] = path
            self.first[path] = self.text[path]

    def move(self, old, new):
        moved = [p for p in self.text if p == old or p.startswith(old + "/")]
        if not moved:
            fail(old + " is not there")
        if any(p == new or p.startswith(new + "/") for p in self.text):
            fail(new + " is there")
        for path in moved:
            self.text[new + path[len(old):]] = self.text.pop(path)
            self.source[new + path[len(old):]] = self.source.pop(path)

    def write(self):
        for path, source in self.source.items():
            if path != source:
                os.makedirs(os.path.dirname(path), exist_ok=True)
                os.rename(source, path)
        for path, text in self.text.items():
            if open(path, encoding="utf-8", newline="").read() != text:
                open(path, "w", encoding="utf-8", newline="").write(text)
        for old in {os.path.dirname(source) for path, source in self.source.items() if path != source}:
            while old and os.path.isdir(old) and not os.listdir(old):
                os.rmdir(old)
                old = os.path.dirname(old)


TREE = None


def files(*ends):
    return [path for path in TREE.text if not ends or path.endswith(ends)]


def read(path):
    if path not in TREE.text:
        fail(path + " is not there")
    return TREE.text[path]


def write(path, text):
    TREE.text[path] = text


def there(path):
    return path in TREE.text


def rewrite(paths, change, least=1, what=""):
    """Applies a change of text to the files; at least so many must change."""
    count = 0
    for path in paths:
        old = read(path)
        new = change(path, old)
        if new != old:
            write(path, new)
            count += 1
    if count < least:
        fail(f"{what}: {count} files changed, and {least} at least were awaited")


def sub(pattern, new, paths, least=1):
    rule = re.compile(pattern, re.M)
    rewrite(paths, lambda path, text: rule.sub(new, text), least, pattern)


def move(old, new):
    TREE.move(old, new)


def in_code(text, change, comment):
    """The change in code lines, and in comment lines between backquotes alone."""
    lines = []
    for line in text.split("\n"):
        if line.lstrip().startswith(comment):
            line = re.sub(r"`[^`]*`", lambda m: change(m.group(0)), line)
        elif not re.match(r"(pub )?mod ", line):
            line = change(line)
        lines.append(line)
    return "\n".join(lines)


def of(crate, *ends):
    return [path for path in files(*ends) if path.startswith(f"crates/{crate}/")]


CODE = (".antt", ".rt", ".edit", ".in")


def crate(old, new, code=True):
    """A crate's name: its folder, crates.txt, paths of modules, calls, and paths of files."""
    move(f"crates/{old}", f"crates/{new}")
    sub(rf"(?<=Rattle·){old}(?=[·.])", new, files(*CODE), 3 if not code else 0)
    if code:
        sub(rf"(?<![\w:·.]){old}::", f"{new}::", [p for p in files(*CODE, ".md") if p.startswith(("crates/", "docs/", ".ci/"))])
    sub(rf"(?<![\w/]){old}(?=/(proofs|specs|src|must-fail)\b)", new, files(), 0)
    sub(rf"(?<=crates/){old}(?=/)", new, files(), 0)
    sub(rf"(?<=`){old}(?=/\w+`)", new, files(".md"), 0)
    sub(rf"(?<![\w]){old}(?![\w])", lambda m: new, ["crates.txt"])


def file(owner, kind, old, new, needed=True):
    """A file of proofs or specs."""
    path = f"crates/{owner}/{kind}/{old}.antt"
    if not needed and not there(path):
        print(f"names.py: left out, not there: {path}")
        return
    move(path, f"crates/{owner}/{kind}/{new}.antt")
    sub(rf"^((?:pub )?mod ){old}$", rf"\g<1>{new}", [f"crates/{owner}/{kind}/Lib.antt"])
    sub(rf"(Rattle·{owner}(?:·{kind})?\.{kind}\.){old}\b", rf"\g<1>{new}", files(*CODE))
    sub(rf"\({old}\)", f"({new})", [f"crates/{owner}/{kind}/Lib.antt"], 0)
    sub(rf"\b({owner}/{kind}/){old}\b", rf"\g<1>{new}", files(), 0)


def type_(owner, old, new, apart=r"(?!)", least=3):
    """A type of code, or one of proofs: in its crate, and in each file that names it as that crate's. `apart`: what stands before another's name."""
    token = re.compile(rf"(?<![\w′«-])(?<!specs\.)(?<!Refusal::)(?<!Refusal\.){old}(?![\w′-])")
    names = re.compile(rf"Rattle·{owner}(?:·\w+)?\.(?:specs|proofs)[\w.]*\.(?:\{{[^}}]*(?<![\w-]){old}(?![\w-])|{old}\b)|\b{owner}::(?:\w+::)*{old}\b")
    tied = re.compile(rf"(?<![\w′«.-]){old}(?![\w′-])")

    def change(path, text):
        mine = path.startswith(f"crates/{owner}/")
        if not mine and not names.search(text) and not path.endswith(".edit"):
            return text
        if path.endswith(".edit"):
            if not mine and path.split("/")[1] not in users:
                return text
            return re.sub(rf"(?<![\w:]){old}(?=::|\b)", lambda m: new if not text[: m.start()].split("\n")[-1].startswith("#") else m.group(0), text)
        comment = "--" if ".antt" in path else "//"
        return in_code(text, lambda line: token.sub(lambda m: m.group(0) if re.search(apart + "$", line[: m.start()]) else new, line), comment)

    paths = [p for p in files(".antt", ".rt", ".edit") if p.startswith("crates/")]
    clash = [p for p in paths if p.startswith(f"crates/{owner}/") and not p.endswith("Lib.antt") and re.search(rf"(?<![\w.-]){new}(?![\w-])", read(p))]
    if clash:
        fail(f"{owner} has a {new}: {clash}")
    users = {p.split("/")[1] for p in paths if p.endswith(".rt") and names.search(read(p))}
    rewrite(paths, change, least, f"type {owner}::{old}")


def kebab(name):
    return name.replace("_", "-")


def function(owner, mods, old, new, callers=(), least=0):
    """A function: its contract's folder, its calls, and what its callers' proofs say of it."""
    inner = "/".join(mods)
    here = "".join(m + "." for m in mods)
    move(f"crates/{owner}/proofs/{inner + '/' if inner else ''}{old}", f"crates/{owner}/proofs/{inner + '/' if inner else ''}{new}")
    sub(rf"(Rattle·{owner}·proofs\.proofs\.{re.escape(here)}){old}(?=\.)", rf"\g<1>{new}", of(owner, ".antt"))
    own = f"crates/{owner}/proofs/{inner + '/' if inner else ''}{new}/Proof.antt"
    sub(rf"(?<![\w-]){kebab(old)}-spec(?![\w-])", f"{kebab(new)}-spec", [own])
    sub(rf"(`{owner}::{'::'.join(mods) + '::' if mods else ''}){old}\b", rf"\g<1>{new}", files(".antt", ".rt", ".md"), 0)
    sub(rf"(?<![\w.:]){old}(?=\()", new, of(owner, ".rt", ".edit"))
    sub(rf"(?<![\w:])({owner}::(?:{'::'.join(mods)}::)?){old}(?=\()", rf"\g<1>{new}", files(".rt", ".edit"), 0)
    for caller in callers:
        a, b = kebab(old), kebab(new)
        sub(rf"(?:(?<= \.)|(?<=After-)|(?<=Need-)){a}(?!\w)(?!-(?!requires))", b, [caller])
        sub(rf"(?<![\w.-]){a}(?=-requires)", b, [caller], 0)


def once(path, old, new):
    text = read(path)
    if text.count(old) != 1:
        fail(f"{path}: does not stand there once: {old!r}")
    write(path, text.replace(old, new))


def some(path, old, new):
    """A text of a page that somebody may have worded anew: then it is for a reader."""
    text = read(path)
    if old not in text:
        print(f"names.py: to do by hand, {path} has no {old!r}")
        return
    write(path, text.replace(old, new))


def crates():
    crate("judge", "judge_laws", code=False)
    crate("set_format", "set_laws", code=False)
    crate("packing", "high_packing")
    crate("reference", "second_writer")
    # (comments of crates.txt that mean the thing and not the crate)
    once("crates.txt", "the laws of the judge_laws and of sets", "the laws of the judge and of sets")
    for path, old, new in (
        ("docs/ARCHITECTURE.md", "| `judge` |", "| `judge_laws` |"),
        ("docs/ARCHITECTURE.md", "| `set_format` |", "| `set_laws` |"),
        ("docs/ARCHITECTURE.md", "| `packing` |", "| `high_packing` |"),
        ("docs/ARCHITECTURE.md", "| `reference` |", "| `second_writer` |"),
        ("docs/ARCHITECTURE.md", "after `judge`,", "after `judge_laws`,"),
        ("docs/DECISIONS.md", "crate `judge`", "crate `judge_laws`"),
        ("docs/DECISIONS.md", "`set_format`**, after `judge`,", "`set_laws`**, after `judge_laws`,"),
        ("docs/DECISIONS.md", "(`reference`, `lists`, `cases`)", "(`second_writer`, `lists`, `cases`)"),
        ("docs/DEMANDS.md", "(`laws`, `judge`, `set_format`)", "(`laws`, `judge_laws`, `set_laws`)"),
        ("docs/DEMANDS.md", "crate `reference`", "crate `second_writer`"),
    ):
        some(path, old, new)


def words():
    # bit order and byte order
    type_("packings", "Order", "BitOrder", least=20)
    sub(r"(?<![\w.])Order(?![\w])", "BitOrder", ["crates/laws/proofs/Bytes/BitOrder.antt"])
    using = [p for p in files(".antt") if re.search(r"laws(·proofs)?\.proofs\.Bytes\.BitOrder\.\{[^}]*(?<![\w-])Order(?![\w-])", read(p))]
    if len(using) < 4:
        fail("users of the laws' Order")
    rewrite(using, lambda path, text: in_code(text, lambda line: re.sub(r"(?<![\w.-])Order(?![\w-])", "BitOrder", line), "--"), 4, "the laws' Order")
    byte = [p for p in files(*CODE) if re.search(r"answers[\w.·]*\.Replies\.\{[^}]*\borderOf\b", read(p))] + ["crates/answers/specs/Replies.antt"]
    byte += [p for p in files(".edit") if "judgeSection (orderOf order)" in read(p)]
    bit = [p for p in files(*CODE) if re.search(r"values[\w.·]*\.Edition\.\{[^}]*\borderOf\b", read(p))] + ["crates/values/specs/Edition.antt"]
    if set(byte) & set(bit):
        fail(f"both orderOf in {set(byte) & set(bit)}")
    sub(r"\borderOf\b", "byteOrderOf", byte, 10)
    sub(r"\borderOf\b", "bitOrderOf", bit, 5)
    sub(r"\borderOf\b", "byteOrderOf", ["docs/DEMANDS.md"])
    some("docs/ARCHITECTURE.md", "`layoutOf`, `orderOf`,", "`layoutOf`, `bitOrderOf`,")
    some("docs/ARCHITECTURE.md", "`packings::Order`", "`packings::BitOrder`")
    left = [p for p in files(*CODE) if re.search(r"\borderOf\b", read(p))]
    if left:
        fail(f"orderOf left in {left}")
    function("values", (), "order_of", "bit_order_of", ["crates/values/proofs/number_in/Proof.antt"])

    # at, absent or broken: what is found
    sub(r"\bFs\.Met\b", "Fs.FirstPlace", of("next", ".antt"))
    sub(r"(?<![\w.-])Met(?![\w-])", "FirstPlace", ["crates/next_in_block/specs/First.antt"])
    users = [p for p in files(".antt", ".rt") if re.search(r"Rattle·next_in_block(·specs)?\.specs\.First\.\{[^}]*(?<![\w-])Met(?![\w-])", read(p))]
    rewrite(users, lambda path, text: in_code(text, lambda line: re.sub(r"(?<![\w.-])Met(?![\w-])", "FirstPlace", line), ("--", "//")), 1, "users of next_in_block's Met")
    type_("next", "Met", "FoundId")
    type_("next_in_block", "First", "FoundPlace")
    type_("in_block", "Inner", "FoundIndex")
    type_("lookup", "Located", "FoundOrdinal")
    type_("page", "Mark", "FoundOrdinal")
    sub(r"as in `Inner`", "as in `FoundIndex`", ["crates/lookup/src/lib.rt"], 0)
    page_marks()

    # held
    type_("page", "Held", "PageAnswer")
    some("docs/ARCHITECTURE.md", "one struct, `Held`,", "one struct, `PageAnswer`,")
    function("page", (), "held_in", "answer_in", [p for p in of("page", ".antt") if re.search(r"(?<![\w])held-in(?!-spec)", read(p))])
    file("pair_at", "specs", "Held", "Holder")
    type_("pair_at", "Held", "Holder", least=2)
    file("judge_laws", "proofs", "Held", "BlockData")
    type_("judge_laws", "Held", "DataOfPlaces", least=1)
    some("docs/ARCHITECTURE.md", "(`Parts`, `Held`, `Ranks`, `Table`)", "(`Parts`, `BlockData`, `Ranks`, `Table`)")
    type_("set_laws", "Held", "HoldsPlaces", least=2)
    type_("high_packing", "Held", "FirstBits")
    file("scaled_values", "proofs", "Held", "SectionValues")
    file("scaled_values", "specs", "Held", "SectionNumbers")
    type_("scaled_values", "Held", "ValuesAre", least=1)
    sub(r"\bHeld\b", "HoldingByte", ["rust/src/bin/signalfern/stored.rs"])

    # steps are the look-up's
    file("checking", "proofs", "Steps", "Checked")
    file("column", "proofs", "Steps", "Opening")
    file("header_numbers", "proofs", "Steps", "Groups")
    file("section_writer", "proofs", "Steps", "NextRun")
    file("set_blocks", "proofs", "Steps", "Chain")
    file("layered_reading", "proofs", "Steps", "PartEnds", needed=False)

    # a plan is document 02's, [12]
    function("scaled_values", (), "plan", "header_fields", ["crates/table_values/proofs/saves/Proof.antt"])
    function("run_writer", (), "plan", "header_fields")
    function("values", (), "plan", "header_fields")
    sub(r"(?<= \.)plan(?= \.)", "header-fields", ["crates/values/proofs/header_fields/Proof.antt"])
    by = "crates/writer/proofs/write_by/Proof.antt"
    sub(r"(?<= \.)plan2(?= \.| in$)", "head-of", [by])
    sub(r"plan2(?![\w])", "head-of", [by], 0)
    sub(r"(?<![\w.])(Need-)?plan-requires-2", lambda m: (m.group(1) or "") + "head-of-requires", [by])
    sub(r"(?<=\.)(?:Need-plan-requires-2)", "Need-head-of-requires", [by], 0)
    sub(r"(?<= \.)plan(?= \.)", "header-fields", [by])
    sub(r"After-plan\b", "After-header-fields", [by])
    function("writer", (), "plan", "head_of")
    function("set_writer", (), "plan", "sizes_of", ["crates/set_writer/proofs/write/Proof.antt"])
    function("values", (), "by_plan", "has_table", ["crates/values/proofs/value_of/Proof.antt", "crates/writer/proofs/write_as/Proof.antt"])
    once("crates/values/src/lib.rt", "// Whether the edition is written by a plan.", "// Whether the edition's values go by a table; it is written by a plan.")
    some("docs/ARCHITECTURE.md", "(rules, whether it is written by a plan, plan, length,", "(rules, whether it has a table, the header's fields, length,")


def page_marks():
    """The page's steps 1 to 6 go by the look-up's word, to locate."""
    move("crates/page/src/marks.rt", "crates/page/src/locating.rt")
    move("crates/page/proofs/marks", "crates/page/proofs/locating")
    move("crates/page/proofs/locating/mark_in", "crates/page/proofs/locating/locate_in")
    file("page", "specs", "Marks", "Located")
    file("page", "proofs", "Marking", "Locating")
    here = of("page", ".rt", ".antt", ".edit")
    sub(r"\b(proofs\.proofs\.|declared\.|proofs\.|src/|mod |use )marks\b", r"\g<1>locating", here)
    sub(r"\bmarks(?=::|\.rt\b)", "locating", here)
    sub(r"\bmarkOf\b", "locatedOf", here)
    sub(r"(?<![\w-])marked-place(?![\w-])", "located-place", here)
    sub(r"(?<![\w-])marked(?![\w-])", "valuedFrom", here)
    sub(r"\bmark_in\b", "locate_in", here)
    sub(r"(?<![\w])mark-in(?=-spec|-requires| )", "locate-in", here)
    sub(r"-- ---- a mark$", "-- ---- an ordinal", here, 0)
    sub(r"^-- Marks: what is left of the steps, the mark of an index", "-- Ordinals: what is left of the steps, the ordinal of an index", here, 0)


def tool():
    """The tool's commands are no table of edition 4."""
    move("rust/src/bin/signalfern/table", "rust/src/bin/signalfern/commands")
    sub(r"^mod table;", "mod commands;", ["rust/src/bin/signalfern/main.rs"])
    sub(r"`table` holds the commands", "`commands` holds the commands", ["rust/src/bin/signalfern/main.rs"], 0)
    sub(r"\bcrate::table\b", "crate::commands", [p for p in files(".rs") if p.startswith("rust/src/bin/")], 3)


def main():
    global TREE
    git("add", "-A", "crates")
    TREE = Tree()
    if not there("crates/laws/proofs/Bytes/BitOrder.antt"):
        fail("run rooms.py first")
    crates()
    words()
    tool()
    rewrite(files(".antt", ".rt", ".in"), lambda path, text: within(path, TREE.first[TREE.source[path]], text), 0)
    TREE.write()
    git("add", "-A", "crates", "rust")
    subprocess.run(["rt", "fmt"], check=True)


main()
