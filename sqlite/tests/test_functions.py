"""The functions, against the vectors of conformance/, which rust/reference answered."""

import hashlib
import json
import sys

from . import common

sys.path.append(str(common.ROOT / "conformance" / "example"))
import recipes  # noqa: E402


def vectors(call):
    with open(common.ROOT / "conformance" / "vectors" / f"{call}.jsonl") as lines:
        listed = [json.loads(line) for line in lines]
    return listed[:: common.share]


class Functions(common.InFolder):
    def blob(self, at, content):
        """An expression for these bytes."""
        if len(content) < 10000:
            return f"x'{content.hex()}'"
        with open(self.path(f"{at}.bytes"), "wb") as file:
            file.write(content)
        return f"readfile('{at}.bytes')"

    def test_check(self):
        listed = vectors("check")
        blobs = [self.blob(at, recipes.given_bytes(vector["given"]["bytes"])) for at, vector in enumerate(listed)]
        lines = self.answer("\n".join(f"SELECT signalfern_check({blob});" for blob in blobs))
        self.assertEqual(len(lines), len(listed))
        for vector, line in zip(listed, lines):
            reply = vector["reply"]
            if reply["kind"] == "done":
                self.assertEqual(line, str(reply["number"]), vector["name"])
            else:
                number = int(reply.get("number", 0))
                self.assertTrue(line.startswith(f"'refusal {reply['refusal']}, "), (vector["name"], line))
                self.assertEqual(line.endswith(f"({number})'"), number != 0, (vector["name"], line))

    def test_look_up(self):
        """In sound bytes as the reference. (Of others the check refuses, before any step of a look-up.)"""
        listed = [vector for vector in vectors("look_up") if vector["reply"]["kind"] in ("found", "absent")]
        blobs = [self.blob(at, recipes.given_bytes(vector["given"]["bytes"])) for at, vector in enumerate(listed)]
        sound = self.answer("\n".join(f"SELECT typeof(signalfern_check({blob})) = 'integer';" for blob in blobs))
        asked = [(blob, vector) for blob, vector, is_sound in zip(blobs, listed, sound) if is_sound == "1"]
        self.assertGreater(len(asked), 300 // common.share)
        lines = self.answer("\n".join(f"SELECT signalfern_look_up({blob}, {vector['given']['id']});" for blob, vector in asked))
        expected = [str(vector["reply"]["value"]) if vector["reply"]["kind"] == "found" else "NULL" for _, vector in asked]
        self.assertEqual(lines, expected)

    def test_look_up_takes_an_id_as_a_comparison_does(self):
        self.write("a.column", {5: 50, 6: 60})
        ids = ["5", "5.0", "'5'", "' 5 '", "'5.0'", "5.5", "'5x'", "x'35'", "NULL", "-1", "4294967301", "1e300", "-1e300", "true"]
        plain = common.plain("plain", {5: 50, 6: 60})
        expected = self.answer(plain + "".join(f"SELECT (SELECT value FROM plain WHERE id = {id});" for id in ids))
        self.assertEqual(self.answer("".join(f"SELECT signalfern_look_up(readfile('a.column'), {id});" for id in ids)), expected)
        self.assertEqual(expected.count("50"), 5)

    def test_look_up_over_many_rows(self):
        """A constant column is checked once; one that changes from row to row each time."""
        pairs = {id: id * 3 for id in range(0, 900, 2)}
        self.write("a.column", pairs)
        self.write("b.column", {id: -value for id, value in pairs.items()})
        count = "WITH RECURSIVE n(i) AS (VALUES(0) UNION ALL SELECT i + 1 FROM n WHERE i < 999)"
        one = f"{count} SELECT sum(signalfern_look_up(x, i)), count(signalfern_look_up(readfile('a.column'), i)) FROM n, (SELECT readfile('a.column') AS x);"
        two = f"{count} SELECT sum(signalfern_look_up(readfile(iif(i % 4, 'a.column', 'b.column')), i)) FROM n;"
        total = sum(pairs.values())
        changing = sum(value if id % 4 else -value for id, value in pairs.items())
        self.assertEqual(self.answer(one + two), [f"{total},{len(pairs)}", str(changing)])
        bad = "SELECT signalfern_look_up(b, 0) FROM (SELECT readfile('a.column') AS b UNION ALL SELECT x'01');"
        self.assertEqual(self.refused(bad, "refusal 7, SHORT"), ["0"])
        self.refused("SELECT signalfern_look_up('a.column', 0);", "signalfern_look_up takes the bytes of a column, as a blob")
        self.assertEqual(self.answer("SELECT signalfern_look_up(NULL, 0);"), ["NULL"])

    def test_column(self):
        """The writer's vectors: the same bytes, or the same refusal."""
        done, refused = [], []
        for vector in vectors("write"):
            given, reply = vector["given"], vector["reply"]
            ids, values = recipes.given_list(given["ids"]), recipes.given_list(given["values"])
            # (what an aggregate cannot ask: lists of two lengths, too little room; and of no rows no options come)
            if len(ids) != len(values) or len(ids) > 3000 or not ids or reply.get("refusal") == 6:
                continue
            pairs = ", ".join(f"({id}, {value})" for id, value in zip(ids, values))
            question = f"SELECT hex(signalfern_column(column1, column2, {given['edition']}, {given['power']})) FROM (VALUES {pairs});"
            if reply["kind"] == "done":
                done.append((vector, question))
            else:
                refused.append((question, f"signalfern_column: refusal {reply['refusal']}, "))
        self.assertTrue(len(done) > 100 // common.share and len(refused) > 10 // common.share, (len(done), len(refused)))
        self.refused_each(*refused)
        lines = self.answer("\n".join(question for _, question in done))
        self.assertEqual(len(lines), len(done))
        for (vector, _), line in zip(done, lines):
            made, expected = bytes.fromhex(line.strip("'")), vector["reply"]["out"]
            self.assertEqual(len(made), int(vector["reply"]["number"]), vector["name"])
            made += b"\xaa" * (vector["given"]["room"] - len(made))
            same = made.hex() == expected if isinstance(expected, str) else hashlib.sha256(made).hexdigest() == expected["sha256"]
            self.assertTrue(same, vector["name"])

    def test_column_of_no_rows_and_of_groups(self):
        """An empty column; one for each group, which a join reads back."""
        self.assertEqual(self.answer("SELECT signalfern_check(signalfern_column(1, 2)) FROM (SELECT 1) WHERE 0;"), ["0"])
        rows = [(minute, id, id * minute) for minute in range(5) for id in range(minute, 300, minute + 1)]
        script = common.table("t", "minute, id, value", rows) + """
            CREATE TABLE columns AS SELECT minute, signalfern_column(id, value, 3) AS bytes FROM (SELECT * FROM t ORDER BY minute, id) GROUP BY minute;
            SELECT count(*) FROM t JOIN columns c USING (minute) WHERE signalfern_look_up(c.bytes, t.id) IS NOT t.value;
            SELECT sum(signalfern_check(bytes)) FROM columns;"""
        self.assertEqual(self.answer(script), ["0", str(len(rows))])

    def test_no_number_is_cut(self):
        rows = ("5, NULL", "NULL, 5", "5.0, 1", "'5', 1", "5, 1.0", "5, '1'", "x'05', 1", "5, 1, '1'", "5, 1, 1, NULL", "5, 1, 2.0")
        expected = [(f"SELECT signalfern_column({row});", "signalfern_column takes integers alone: see pair 0, from 0") for row in rows]
        for id in (-1, 2**32, 2**32 + 5, -(2**63)):
            expected.append((f"SELECT signalfern_column(i, 1) FROM (SELECT 0 AS i UNION ALL SELECT {id});", "takes ids from 0 to 2147352575 alone: see pair 1"))
        expected.append((f"SELECT signalfern_column({common.MAX_ID + 1}, 1);", "refusal 4, RANGE"))
        expected += [(f"SELECT signalfern_column(5, 1, {edition});", "refusal 9, EDITION") for edition in (0, 5, -1, 2**32 + 1, 2**63 - 1)]
        expected += [(f"SELECT signalfern_column(5, 1, 1, {power});", "refusal 2, POWER") for power in (1, 6, 16, -1, 2**32 + 9)]
        two = "SELECT signalfern_column(i, 1, {}) FROM (SELECT 1 AS i UNION ALL SELECT 2);"
        expected += [(two.format(options), "takes one edition and one rank power: see pair 1") for options in ("1 + (i = 2)", "1, 9 + (i = 2)")]
        expected.append(("SELECT signalfern_column(i, 1) FROM (SELECT 2 AS i UNION ALL SELECT 2);", "refusal 3, ORDER: ids must ascend"))
        self.refused_each(*expected)
