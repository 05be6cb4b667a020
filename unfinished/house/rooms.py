#!/usr/bin/env python3
"""Rooms for the definitions (crates/format/specs) and the laws (crates/laws/proofs): moves the files, writes the rooms' own files, and rewrites every
reference in the tree but those of docs/LANDINGS.md and CHANGELOG.md, which tell of earlier days. Run once from the project's root, first of the three."""
import os
import re
import subprocess
import sys

from lines import within

HISTORY = ("docs/LANDINGS.md", "CHANGELOG.md")
SPECS = {  # room: (what it holds, {old name: new name})
    "Support": ("The kit's names (Kit), and what only supports proofs: no definition of a document stands here.", "Kit Rules Stores Drawn"),
    "Bytes": ("Numbers as bytes, and numbers of w bits packed into bytes, high bit first and low bit first.", "Bytes:Digits Bits:HighFirst BitsLow:LowFirst"),
    "Header": ("The header's numbers, opening a column, and what a refused header says of the bytes.", "HeaderNumbers:Numbers Opening Faults"),
    "Ids": ("The id section, written and read, in either byte order, and its judge.", "Ids:Section IdsRead:Read Runs Orders:ByteOrder Judge JudgeFaults:Faults"),
    "Values": ("The value section: stored numbers, codecs, editions, runs, tables and plans.", "Values:Stored Codec ValueRuns:Runs Table Editions Plan Steps:AnyScale"),
    "Column": ("The pair list and its column: limits, writer, check and reading.", "Limits Pairs Valid Column:Whole Writer Check Lists"),
    "Questions": ("What is asked of a column: ids, pages, next candidates, pairs, ranges, with a correction on top or without; and the walk over all blocks.",
                  "LookUp Walk Page Next ReadFrom PairAt FirstBetween BetweenFrom Layered LayeredPage LayeredReading"),
    "Sets": ("The set on disk.", "SetBytes:Bytes SetCalls:Calls SetFaults:Faults"),
    "Answers": ("Refusal numbers, and for each call all that it can answer.", "Refusals Says"),
}
LAWS = {
    "Tools": ("Forms of argument that every part uses.", "Cases Tests Pieces Stores LastUpTo"),
    "Bytes": ("Digits, bits in either order, widths, and the bytes that a fetch takes.", "Digits Bits:HighFirst BitsLow:LowFirst Orders:BitOrder Widths Taken LongBits SetBits"),
    "Ids": ("The id section: blocks, places, sizes, jump entries.", "Runs Places Blocks Section Sizes Standing Jumps Ones"),
    "Values": ("The value section, edition by edition: each codec is lawful.",
               "Gcd Values:Stored Fits Lawful Scaled ValueRuns:Runs InRuns RunStands Ascending SameMembers Table Plans Editions Drawn"),
    "Header": ("The header: its numbers, opening, and where it broke.", "Header:Number Minimal BadNumber Bounds Rules Open HeaderFaults:Faults"),
    "LookUp": ("The look-up's steps answer as the pair list does.",
               "Find Place PlaceWith Dense Halving Skip Entered FromEntry Looked Probes Walked Words"),
    "Calls": ("What the other calls answer on accepted bytes, and on any.",
              "RoundTrip Unique Halves InTurn Sequences Paged ReadFrom ReadCalls Readings ReadOn PairAt FirstBetween BetweenFrom NextKept BufferedPairs"),
    "Layers": ("A correction on top: look-up, page and reading.",
               "Layered:LookUp LayeredCalls:Calls LayeredInTwo:InTwo LayeredPages:Pages LayeredPlaces:Places LayeredReadings:Readings LayeredSay:Say "
               "MergedLooked MergedPairs MergedReadings"),
    "Refused": ("Each call answers exactly by its table; numbers that no call gives.",
                "FirstIndex WritersSay OpeningSays ReadersSay PassedOn RefusalNumbers Retired Alone"),
    "Meaning": ("The demands, and that the definitions mean the documents' words.", "Demands Meaning:Sections MeaningValues:Values LeastWidth"),
}
SPECS_HEAD = """-- Every definition of documents 01 and 02, and of what document 02 adds, by their parts, a file for each. A reader has to believe all rooms but
-- Support, which only supports proofs.
"""
LAWS_HEAD = """-- What is proved about the definitions, by their parts: Meaning has the demands and the documents' words behind the definitions, Values what a
-- codec owes (Lawful) and that each edition keeps it (Editions), Refused that each call answers exactly by its table, where a header broke (PassedOn),
-- which numbers a call never gives, and what a reader of edition 1 alone says to edition 2 (Alone); the others lead there.
"""


def table(rooms):
    out = {}
    for room, (_, names) in rooms.items():
        for name in names.split():
            old, _, new = name.partition(":")
            assert old not in out, old
            out[old] = room + "." + (new or old)
    return out


def move(folder, rooms, names, head):
    lib = open(folder + "/Lib.antt").read().split("\n")
    there = re.findall(r"^pub mod (\w+)$", "\n".join(lib), re.M)
    missing = set(there) - set(names)
    if missing:
        sys.exit(f"rooms.py: {folder} has files without a room: {sorted(missing)}")
    order = {}
    for old in there:
        room, new = names[old].split(".")
        os.makedirs(f"{folder}/{room}", exist_ok=True)
        subprocess.run(["git", "mv", f"{folder}/{old}.antt", f"{folder}/{room}/{new}.antt"], check=True)
        order.setdefault(room, []).append(new)
    for room, what in ((room, rooms[room][0]) for room in rooms if room in order):
        with open(f"{folder}/{room}.antt", "w") as out:
            out.write(f"-- {what}\n" + "".join(f"pub mod {new}\n" for new in order[room]))
    with open(folder + "/Lib.antt", "w") as out:
        out.write(head + "".join(f"pub mod {room}\n" for room in rooms if room in order))


def main():
    specs, laws = table(SPECS), table(LAWS)
    move("crates/format/specs", SPECS, specs, SPECS_HEAD)
    move("crates/laws/proofs", LAWS, laws, LAWS_HEAD)
    subprocess.run(["git", "add", "-A", "crates"], check=True)
    tracked = subprocess.run(["git", "ls-files"], check=True, capture_output=True, text=True).stdout.split("\n")
    edges = [
        (re.compile(r"(Rattle·format(?:·specs)?\.specs)\.(\w+)"), specs, "."),
        (re.compile(r"(Rattle·laws(?:·proofs)?\.proofs)\.(\w+)"), laws, "."),
        (re.compile(r"(\bformat/specs)/(\w+)"), specs, "/"),
        (re.compile(r"(\blaws/proofs)/(\w+)"), laws, "/"),
    ]
    for path in tracked:
        if not path or path.startswith(("dist/", "unfinished/")) or path in HISTORY or os.path.islink(path) or not os.path.isfile(path):
            continue
        try:
            old = open(path, encoding="utf-8").read()
        except UnicodeDecodeError:
            continue
        text = old
        for pattern, names, mark in edges:
            text = pattern.sub(lambda m: m.group(1) + mark + names[m.group(2)].replace(".", mark) if m.group(2) in names else m.group(0), text)
        if path.startswith("crates/format/must-fail/"):
            text = re.sub(r"^(file: specs)/(\w+)\.antt", lambda m: m.group(1) + "/" + specs[m.group(2)].replace(".", "/") + ".antt", text, flags=re.M)
        if path.startswith("docs/") and path.endswith(".md"):
            text = in_page(path, text, specs, laws)
        if path.endswith((".antt", ".rt", ".in")):
            text = within(path, old, text)
        if text != old:
            open(path, "w", encoding="utf-8").write(text)
    in_test()


def in_page(path, text, specs, laws):
    """Files that a page names without a folder: `Check.antt`; and the table of the laws' files."""

    def named(m):
        name = m.group(1)
        if (name in specs) != (name in laws):
            return "`" + (specs.get(name) or laws[name]).replace(".", "/") + ".antt`"
        if name in specs:
            if specs[name].split(".")[1] != name or laws[name].split(".")[1] != name:
                print(f"rooms.py: to do by hand, {path}: {m.group(0)} is of format or of laws")
        return m.group(0)

    text = re.sub(r"`(\w+)\.antt`", named, text)
    if path == "docs/ARCHITECTURE.md":
        head = "| subject | files of `laws/proofs` |"
        if text.count(head) != 1:
            sys.exit("rooms.py: docs/ARCHITECTURE.md has no table of the laws' files")
        before, after = text.split(head)
        end = after.index("\n\n")
        rows = re.sub(r"`(\w+)`", lambda m: "`" + laws[m.group(1)].replace(".", "/") + "`" if m.group(1) in laws else m.group(0), after[:end])
        there = set(re.findall(r"`(\w+/\w+)`", rows))
        for name in sorted(set(laws.values())):
            if name.replace(".", "/") not in there and os.path.isfile("crates/laws/proofs/" + name.replace(".", "/") + ".antt"):
                print(f"rooms.py: to do by hand, docs/ARCHITECTURE.md has no row for {name}")
        text = before + head + rows + after[end:]
    return text


OLD_TEST = """    for folder in ["laws/proofs", "judge/proofs", "set_format/proofs"] {
        wanted.extend(names(folder).into_iter().filter(|name| name != "Lib"));
    }
"""
NEW_TEST = """    for folder in ["judge/proofs", "set_format/proofs"] {
        wanted.extend(names(folder).into_iter().filter(|name| name != "Lib"));
    }
    // The laws stand in rooms, each with a file of its own beside it: `Ids/Section`.
    for room in fs::read_dir(crates().join("laws/proofs")).unwrap() {
        let room = room.unwrap().file_name().into_string().unwrap();
        if !room.ends_with(".antt") {
            let files = names(&format!("laws/proofs/{room}"));
            wanted.extend(files.iter().map(|name| format!("{room}/{name}")));
        }
    }
"""


def in_test():
    path = "rust/tests/library/promises.rs"
    text = open(path, encoding="utf-8").read()
    if text.count(OLD_TEST) != 1:
        sys.exit(f"rooms.py: {path} has not the loop over the laws' files")
    open(path, "w", encoding="utf-8").write(text.replace(OLD_TEST, NEW_TEST))


main()
