"""EXPLAIN QUERY PLAN: each question goes by its access path."""

import re

from . import common

PAIRS = {3 * i + i % 2: i * 7919 % 2003 for i in range(5000)}


class Plans(common.InFolder):
    def setUp(self):
        super().setUp()
        for edition in (1, 3):
            self.write(f"{edition}.column", PAIRS, edition)
        self.write("correction.column", {4: 1, 70: 2}, 3)
        self.tables = """
            CREATE VIRTUAL TABLE one USING signalfern('1.column');
            CREATE VIRTUAL TABLE three USING signalfern('3.column');
            CREATE VIRTUAL TABLE layered USING signalfern('3.column', correction='correction.column');
            CREATE TABLE words(n INTEGER PRIMARY KEY, id INTEGER, word TEXT);
            CREATE INDEX by_id ON words(id);
        """
        rows = ", ".join(f"({n}, {n * 5}, 'w')" for n in range(300))
        self.tables += f"INSERT INTO words VALUES {rows}; ANALYZE words;"

    def plans(self, question):
        """The access paths of the virtual tables, and whether rows are sorted."""
        out = "\n".join(self.answer(f"{self.tables} EXPLAIN QUERY PLAN {question};"))
        return re.findall(r"VIRTUAL TABLE INDEX \d+:(.*?)(?: LEFT-JOIN)?$", out, re.M), "TEMP B-TREE FOR ORDER BY" in out

    def held(self, question, *paths, is_sorted=False):
        self.assertEqual(self.plans(question), ([*paths], is_sorted), question)

    def test_one_id_is_looked_up(self):
        for name in ("one", "three", "layered"):
            self.held(f"SELECT value FROM {name} WHERE id = ?", "look-up id=?")
            self.held(f"SELECT value FROM {name} WHERE rowid = 7 ORDER BY value", "look-up id=?")
            self.held(f"SELECT value FROM {name} WHERE id = 7 AND value > 3", "look-up id=? value>?")
        self.held("SELECT value FROM signalfern('1.column') WHERE id = 7", "look-up file=? id=?")
        self.held("SELECT value FROM signalfern('1.column', 'correction.column') WHERE id = 7", "look-up file=? correction=? id=?")

    def test_a_join_looks_up(self):
        for name in ("one", "three", "layered"):
            self.held(f"SELECT * FROM words JOIN {name} s ON s.id = words.id WHERE word = 'x'", "look-up id=?")
            self.held(f"SELECT * FROM words LEFT JOIN {name} s ON s.id = words.id", "look-up id=?")
            self.held(f"SELECT * FROM words WHERE NOT EXISTS (SELECT 1 FROM {name} s WHERE s.id = words.id)", "look-up id=?")
        # The few corrections come first, and the machine's scores are looked up.
        self.held("SELECT * FROM signalfern('1.column') m JOIN words w ON w.id = m.id WHERE w.n < 5", "look-up file=? id=?")

    def test_a_list_is_a_page(self):
        path = ["look-up id=?"] if common.is_older else ["page id IN"]
        for name in ("one", "three", "layered"):
            self.held(f"SELECT value FROM {name} WHERE id IN (3, 9, 70)", *path)
            self.held(f"SELECT value FROM {name} WHERE id IN (SELECT id FROM words)", *path)
        self.held("SELECT value FROM one WHERE id IN (3, 9, 70) ORDER BY id", *path, is_sorted=common.is_older)

    def test_ranges_and_order_by_id_read_pairs(self):
        for name in ("one", "three", "layered"):
            self.held(f"SELECT * FROM {name}", "pairs")
            self.held(f"SELECT sum(value) FROM {name}", "pairs")
            self.held(f"SELECT * FROM {name} ORDER BY id", "pairs")
            self.held(f"SELECT * FROM {name} ORDER BY rowid, value DESC", "pairs")
            self.held(f"SELECT * FROM {name} WHERE id >= 5 ORDER BY id", "pairs id>=?")
            self.held(f"SELECT * FROM {name} WHERE id > 5 AND id <= 9 ORDER BY id LIMIT 3", "pairs id>? id<=?")
            self.held(f"SELECT * FROM {name} WHERE id BETWEEN 5 AND 9", "pairs id>=? id<=?")
            self.held(f"SELECT min(id) FROM {name}", "pairs")
            self.held(f"SELECT * FROM {name} ORDER BY id DESC", "pairs", is_sorted=True)
            self.held(f"SELECT * FROM {name} ORDER BY value, id", "pairs", is_sorted=True)

    def test_values_of_edition_3_are_found_by_the_range_question(self):
        self.held("SELECT * FROM three WHERE value BETWEEN 5 AND 9", "range question value>=? value<=?")
        self.held("SELECT * FROM three WHERE value > 5 AND id < 90 ORDER BY id", "range question id<? value>?")
        self.held("SELECT * FROM three WHERE value = 5", "range question value=?")
        # In other editions, and of two columns, the pairs are read.
        self.held("SELECT * FROM one WHERE value BETWEEN 5 AND 9", "pairs value>=? value<=?")
        self.held("SELECT * FROM layered WHERE value BETWEEN 5 AND 9", "pairs value>=? value<=?")

    def test_count_reads_nothing(self):
        for name in ("one", "three"):
            self.held(f"SELECT count(*) FROM {name}", "count")
            self.held(f"SELECT max(ordinal), by FROM {name}", "count")
        self.held("SELECT count(*) FROM signalfern('1.column')", "count file=?")
        self.held("SELECT count(*) FROM layered", "pairs")
        self.held("SELECT count(id) FROM one", "pairs")
        self.held("SELECT count(*) FROM one WHERE rowid > 5", "pairs id>?")

    def test_what_cannot_be_answered_exactly_is_left_to_sqlite(self):
        self.held("SELECT * FROM one WHERE id <> 5", "pairs")
        self.held("SELECT * FROM one WHERE +id = 5", "pairs")
        self.held("SELECT * FROM one WHERE by = 'machine' AND ordinal = 5", "pairs")

    def test_files_must_be_named(self):
        self.refused("SELECT * FROM signalfern;", "no query solution")
        self.refused("SELECT * FROM signalfern WHERE correction = 'a';", "no query solution")
