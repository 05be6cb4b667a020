"""Random questions, each asked of a virtual table and of a plain one of the same pairs."""

import random

from .common import MAX_ID, answer, plain, table, write

LEAST, MOST = -(2**63), 2**63 - 1
COMPARISONS = ["=", "<", "<=", ">", ">=", "==", "<>", "IS"]


class Asker:
    """Makes questions about a list of pairs, with {T} for the table."""

    def __init__(self, pairs, seed):
        self.random = random.Random(seed)
        self.ids = sorted(pairs) or [5]
        self.values = sorted(set(pairs.values())) or [0]

    def pick(self, *choices):
        return self.random.choice(choices)

    def odd(self, number):
        """Something that is, is near, or is not this number."""
        text = str(number)
        return self.pick(
            *[text] * 6, str(number + 1), str(number - 1), f"{number}.0", f"{number}.5", f"-{abs(number)}.5", f"'{number}'", f"' {number} '",
            f"'{number}.0'", f"'{number}.5'", f"'{number}x'", "'abc'", "''", "x'35'", "x''", "NULL", str(2**32 + number % 2**32), "9e999", "-9e999",
            "9223372036854775807", "-9223372036854775808", "9223372036854775808", "9.3e18", "-9.3e18", "9007199254740993", "9007199254740992.0",
            f"CAST({number} AS REAL)", f"CAST({number} AS TEXT)", "-1", "0", str(MAX_ID), str(MAX_ID + 1), "4294967296",
        )  # fmt: skip

    def id(self):
        near = self.pick(self.random.choice(self.ids), self.random.randrange(self.ids[0], self.ids[-1] + 2))
        return self.odd(near)

    def value(self):
        return self.odd(self.random.choice(self.values))

    def list(self, one):
        return ", ".join(one() for _ in range(self.pick(0, 1, 2, 3, 40)))

    def condition(self):
        column, one = self.pick(("id", self.id), ("id", self.id), ("rowid", self.id), ("value", self.value))
        return self.pick(
            *[lambda: f"s.{column} {self.random.choice(COMPARISONS)} {one()}"] * 5,
            lambda: f"{one()} {self.random.choice(COMPARISONS)} s.{column}",
            *[lambda: f"s.{column} BETWEEN {one()} AND {one()}"] * 2,
            *[lambda: f"s.{column} IN ({self.list(one)})"] * 2,
            lambda: f"s.{column} NOT IN ({self.list(one)})",
            lambda: f"s.{column} IN (SELECT {self.pick('id', 'real_id', 'text_id')} FROM words WHERE n % {self.pick(2, 3, 7)} = 0)",
            lambda: f"(s.id, s.value) {self.pick('=', '<', '>', '>=')} ({self.id()}, {self.value()})",
            lambda: f"(s.{column} = {one()} OR s.id = {self.id()})",
            lambda: f"+s.{column} = {one()}",
            lambda: f"s.{column} IS NOT NULL",
            lambda: f"s.by = {self.pick(repr('machine'), repr('correction'), 'NULL')}",
            lambda: f"s.ordinal {self.pick('<', '>=')} {self.random.randrange(len(self.ids) + 1)}",
            lambda: "1",
        )()

    def where(self):
        return " AND ".join(self.condition() for _ in range(self.pick(1, 1, 2, 3)))

    def order(self):
        """An order by a key, and maybe a part of the rows; or none."""
        by = self.pick("", "s.id", "s.rowid", "s.id DESC", "s.value, s.id", "s.by, s.id", "s.id, s.value DESC", "s.by DESC, s.value, s.ordinal, s.id")
        limit = self.pick("", "", "LIMIT 3", "LIMIT 5 OFFSET 2") if by else ""
        return f"ORDER BY {by} {limit}" if by else ""

    def question(self):
        where = self.where()
        return self.pick(
            lambda: f"SELECT {self.pick('*', 's.*, s.rowid', 's.id', 's.value', 's.ordinal', 's.by, s.ordinal')} FROM {{T}} s WHERE {where}"
            f" {self.order().replace(' s.', ' s.')}",
            lambda: f"SELECT * FROM {{T}} s WHERE {where} {self.order()}",
            lambda: f"SELECT {self.pick('count(*)', 'count(rowid)', 'count(*), sum(ordinal)', 'min(id), max(id)', 'min(value), max(value)')} FROM {{T}} s"
            f" {self.pick('', 'WHERE ' + where)}",
            lambda: f"SELECT by, count(*), sum(value >> 20), min(id) FROM {{T}} s WHERE {where} GROUP BY by ORDER BY by",
            lambda: f"SELECT DISTINCT s.value & 3 FROM {{T}} s WHERE {where} ORDER BY 1",
            lambda: f"SELECT DISTINCT s.id FROM {{T}} s WHERE {where}",
            lambda: f"SELECT w.n, s.id, s.value, s.by FROM words w {self.pick('', 'LEFT ')}JOIN {{T}} s ON s.id = w.{self.pick('id', 'real_id', 'text_id')}"
            f" AND {where} WHERE w.n < {self.pick(5, 60)} ORDER BY w.n",
            lambda: f"SELECT w.n, s.id, s.value FROM words w CROSS JOIN {{T}} s WHERE s.id IN (w.id, w.id + 1, {self.id()}) AND w.n < 30 AND {where} ORDER BY w.n, s.id",
            lambda: f"SELECT n FROM words w WHERE {self.pick('', 'NOT ')}EXISTS (SELECT 1 FROM {{T}} s WHERE s.id = w.id AND {where}) ORDER BY n",
            lambda: f"SELECT n FROM words WHERE id {self.pick('', 'NOT ')}IN (SELECT s.id FROM {{T}} s WHERE {where}) ORDER BY n",
            lambda: f"SELECT w.n, (SELECT s.value FROM {{T}} s WHERE s.id >= w.id ORDER BY s.id LIMIT 1) FROM words w WHERE w.n < 40 ORDER BY w.n",
            lambda: f"SELECT w.n, count(s.id) FROM words w LEFT JOIN {{T}} s ON s.id BETWEEN w.id AND w.id + 9 WHERE w.n < 20 GROUP BY w.n ORDER BY w.n",
            lambda: f"SELECT count(*), sum(a.value >> 20), sum(b.ordinal) FROM {{T}} a JOIN {{T}} b ON b.id = a.id + 1 WHERE a.id < {self.ids[len(self.ids) // 9]}",
            lambda: f"SELECT id, value FROM {{T}} s WHERE {where} UNION SELECT id, 0 FROM words WHERE n < 5 ORDER BY 1, 2",
        )()


def values(kind, random):
    return {
        "small": lambda: random.randrange(-50, 50),
        "wide": lambda: random.choice([LEAST, MOST, 0, -1, random.randrange(LEAST, MOST + 1), random.randrange(LEAST, MOST + 1)]),
        "few": lambda: random.choice([7, -7, 1000000007]),
        "same": lambda: 42,
        "53 bits": lambda: random.choice([-1, 1]) * (2**53 + random.randrange(-3, 4)),
    }[kind]


def ids(kind, random):
    if kind == "dense":  # a bitmap, with a sparse block after it
        return sorted(random.sample(range(12000), 6000)) + [65536 + 7 * i for i in range(9)]
    if kind == "sparse":
        return sorted({0, MAX_ID, *(random.randrange(MAX_ID) for _ in range(60)), *(random.randrange(3000) for _ in range(700))})
    if kind == "full":  # a block without a bitmap, and a few
        return [*range(65536, 131072), 200000, 200001, 200003]
    return {"none": [], "one": [random.randrange(9)]}[kind]


def words(pairs, random):
    """Some ids, listed or not, as integers, as reals and as texts."""
    known = sorted(pairs) or [3]
    chosen = [random.choice(known) if i % 2 else random.randrange(known[-1] + 3) for i in range(120)]
    rows = [(n, id, float(id) + random.choice([0, 0, 0, 0.5]), random.choice(["", "", " ", "x"]) + str(id)) for n, id in enumerate(chosen)]
    return table("words", "n INTEGER PRIMARY KEY, id INTEGER, real_id REAL, text_id TEXT", rows)


CASES = [
    # ids, values, edition, power, ids of the correction, its edition
    ("dense", "small", 1, 9, None, 1), ("dense", "wide", 2, 7, None, 1), ("dense", "small", 3, 9, None, 1), ("dense", "few", 4, 0, None, 1),
    ("sparse", "small", 3, 9, None, 1), ("sparse", "wide", 3, 0, None, 1), ("sparse", "53 bits", 1, 15, None, 1), ("sparse", "few", 4, 9, None, 1),
    ("full", "small", 3, 9, None, 1), ("full", "same", 1, 9, None, 1), ("none", "small", 3, 9, None, 1), ("one", "53 bits", 3, 9, None, 1),
    ("dense", "small", 3, 9, "sparse", 3), ("dense", "wide", 1, 8, "dense", 2), ("sparse", "53 bits", 3, 9, "dense", 4), ("sparse", "small", 2, 9, "sparse", 1),
    ("none", "small", 1, 9, "sparse", 3), ("dense", "few", 4, 9, "none", 1), ("full", "small", 3, 9, "sparse", 1), ("one", "wide", 3, 9, "one", 3),
]  # fmt: skip


def differences(folder, case, seed, count):
    """The questions of a case that the two tables answer in other ways."""
    kind, numbers, edition, power, other, other_edition = case
    chosen = random.Random(seed)
    number = values(numbers, chosen)
    machine = {id: number() for id in ids(kind, chosen)}
    correction = None if other is None else {id: number() for id in ids(other, chosen)}
    write(folder, "machine.column", machine, edition, power)
    if correction is not None:
        write(folder, "correction.column", correction, other_edition)
    both = {**machine, **(correction or {})}
    option = "" if correction is None else ", correction='correction.column'"
    named = "signalfern('machine.column')" if correction is None else "signalfern('machine.column', 'correction.column')"
    asker = Asker(both, seed)
    questions = [asker.question() for _ in range(count)]
    script = [plain("plain", machine, correction), words(both, chosen), f"CREATE VIRTUAL TABLE scores USING signalfern('machine.column'{option});"]
    for at, question in enumerate(questions):
        # (hidden columns make no difference but to `*`)
        ours = named if at % 4 == 3 and "*" not in question.replace("count(*)", "") and "rowid" not in question else "scores"
        for name in ("plain", ours):
            script += [".print #", question.replace("{T}", name) + ";"]
    said = ("\n".join(answer(folder, "\n".join(script))) + "\n").split("#")[1:]
    assert len(said) == 2 * count, len(said)
    found = []
    for question, expected, got in zip(questions, said[::2], said[1::2]):
        expected, got = expected.split("\n")[1:], got.split("\n")[1:]
        if "ORDER BY" not in question:
            expected, got = sorted(expected), sorted(got)
        if expected != got:
            found.append(f"{case} seed {seed}: {question}\nplain: {str(expected)[:500]}\nours:  {str(got)[:500]}")
    return found
