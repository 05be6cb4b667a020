"""The sqlite3 shell with the extension, and plain tables of the same pairs."""

import os
import pathlib
import re
import shlex
import subprocess
import tempfile
import unittest

MAX_ID = 2147352575
ROOT = pathlib.Path(__file__).resolve().parents[2]

# (run.py sets these)
extension = ""
before = []  # words before the shell's name, as those of valgrind
is_older = False  # the extension is built as for a SQLite that hands no list over
share = 1  # one in so many questions


class Broken(Exception):
    """The shell did not run to its end, or valgrind found something."""


def ask(folder, sql, database=":memory:"):
    """What the shell prints, on standard output and on standard error, for this script."""
    script = f".load {extension}\n.mode quote\n{sql}\n"
    words = [*before, "sqlite3", "-batch", database]
    ran = subprocess.run(words, input=script.encode(), stdout=subprocess.PIPE, stderr=subprocess.PIPE, cwd=folder)
    out, error = ran.stdout.decode(), ran.stderr.decode()
    if ran.returncode not in (0, 1) or "==" in error:
        raise Broken(f"{shlex.join(words)}: status {ran.returncode}\n{error}")
    return out, error


def answer(folder, sql, database=":memory:"):
    """The lines for a script in which nothing is to go wrong."""
    out, error = ask(folder, sql, database)
    if error:
        raise Broken(error)
    return out.splitlines()


def literal(value):
    if isinstance(value, str):
        return "'" + value.replace("'", "''") + "'"
    return "NULL" if value is None else str(value)


def table(name, columns, rows):
    """A plain table with these rows."""
    parts = [f"CREATE TABLE {name}({columns});"]
    for at in range(0, len(rows), 500):
        listed = ", ".join("(" + ", ".join(map(literal, row)) + ")" for row in rows[at : at + 500])
        parts.append(f"INSERT INTO {name} VALUES {listed};")
    return "\n".join(parts)


def rows_of(machine, correction=None):
    """The rows of a table over these pairs, a dictionary each: the correction speaks for the ids that it holds."""
    correction = correction or {}
    ordinals = {name: {id: at for at, id in enumerate(sorted(pairs))} for name, pairs in (("machine", machine), ("correction", correction))}
    rows = []
    for id in sorted({*machine, *correction}):
        by = "correction" if id in correction else "machine"
        value = correction[id] if id in correction else machine[id]
        rows.append((id, value, ordinals[by][id], by))
    return rows


def plain(name, machine, correction=None):
    return table(name, "id INTEGER PRIMARY KEY, value INTEGER, ordinal INTEGER, by TEXT", rows_of(machine, correction))


def write(folder, path, pairs, edition=1, power=9):
    """Writes a column by the extension's own aggregate."""
    source = table("pairs", "id, value", sorted(pairs.items()))
    query = f"SELECT writefile({literal(path)}, signalfern_column(id, value, {edition}, {power})) FROM (SELECT * FROM pairs ORDER BY id);"
    if not pairs:
        query = f"SELECT writefile({literal(path)}, signalfern_column(id, value)) FROM pairs;"
    assert len(answer(folder, source + query)) == 1
    return os.path.join(folder, path)


class InFolder(unittest.TestCase):
    """A test in a folder of its own."""

    def setUp(self):
        folder = tempfile.TemporaryDirectory()
        self.addCleanup(folder.cleanup)
        self.folder = folder.name

    def path(self, name):
        return os.path.join(self.folder, name)

    def ask(self, sql, database=":memory:"):
        return ask(self.folder, sql, database)

    def answer(self, sql, database=":memory:"):
        return answer(self.folder, sql, database)

    def refused(self, sql, *parts, database=":memory:"):
        """The script is to end with one error, which has these parts; what was printed before it."""
        out, error = self.ask(sql, database)
        self.assertEqual(error.count("error near line"), 1, error)
        for part in parts:
            self.assertIn(part, error)
        return out.splitlines()

    def refused_each(self, *expected):
        """Each of these statements, a line each, is to end with one error that has what stands beside it."""
        out, error = self.ask("\n".join(sql for sql, _ in expected))
        said = dict(re.findall(r"error near line (\d+): (.*)", error))
        self.assertEqual((len(said), out), (len(expected), ""), error)
        for line, (sql, part) in enumerate(expected, 3):  # (after the two lines of every script)
            self.assertIn(part, said[str(line)], sql)

    def write(self, path, pairs, edition=1, power=9):
        return write(self.folder, path, pairs, edition, power)
