"""Questions against plain tables: 2,000 random ones, and each comparison with each kind of number."""

from . import common, sweep


class Sweep(common.InFolder):
    def test_answers_are_those_of_plain_tables(self):
        counts = {case: 32 if case[0] == "full" else 112 for case in sweep.CASES}
        self.assertEqual(sum(counts.values()), 2000)
        for at, (case, count) in enumerate(counts.items()):
            if common.before and case[0] == "full":  # (65,536 rows are many for valgrind)
                continue
            self.assertEqual(sweep.differences(self.folder, case, 1000 + at, max(count // common.share, 1)), [])


LEAST, MOST = sweep.LEAST, sweep.MOST
PAIRS = {0: LEAST, 1: LEAST + 1, 2: -6, 3: -5, 5: -1, 6: 0, 7: 1, 8: 5, 9: 6, 40: 2**53, 41: 2**53 + 1, common.MAX_ID - 1: MOST - 1, common.MAX_ID: MOST}
WHOLE = [LEAST, LEAST + 1, -6, -5, -1, 0, 1, 2, 5, 6, 9, 40, 2**31, common.MAX_ID, common.MAX_ID + 1, 2**53, 2**53 + 1, MOST - 1, MOST]
BROKEN = [-6.5, -5.5, -0.5, 0.5, 1.5, 4.5, 5.5, 8.5, 40.5, common.MAX_ID + 0.5]
OTHERS = ["-9e999", "9e999", "-9.3e18", "9.3e18", "9223372036854775808", "-9223372036854775809", "'abc'", "'5x'", "''", "x'35'", "NULL", "-0.0", "'  7 '", "'1e1'"]


class Comparisons(common.InFolder):
    def test_each_comparison_with_each_number(self):
        numbers = [str(n) for n in WHOLE] + [f"CAST({n} AS REAL)" for n in WHOLE] + [f"'{n}'" for n in WHOLE + BROKEN] + [str(n) for n in BROKEN] + OTHERS
        conditions = [f"{column} {op} {number}" for column in ("id", "value", "rowid") for op in ("=", "<", "<=", ">", ">=") for number in numbers]
        conditions += [f"{column} IN ({number}, -5)" for column in ("id", "value") for number in numbers]
        for edition in (1, 3):
            self.write("a.column", PAIRS, edition)
            script = [common.plain("plain", PAIRS), "CREATE VIRTUAL TABLE scores USING signalfern('a.column');"]
            for condition in conditions:
                script += [f"SELECT group_concat(id) FROM (SELECT id FROM {name} WHERE {condition} ORDER BY id);" for name in ("plain", "scores")]
            lines = self.answer("\n".join(script))
            self.assertEqual(len(lines), 2 * len(conditions))
            different = [(condition, plain, ours) for condition, plain, ours in zip(conditions, lines[::2], lines[1::2]) if plain != ours]
            self.assertEqual(different, [])
