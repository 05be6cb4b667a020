"""Files that are refused, have another digest, are replaced or changed while they are open, or are gone."""

import hashlib
import os

from . import common

FEW = {0: 150, 2: 140, 7: 135}
READ = "SELECT group_concat(id || ' ' || value) FROM scores;"


class Refused(common.InFolder):
    def bytes_of(self, path):
        with open(path, "rb") as file:
            return bytearray(file.read())

    def put(self, name, content):
        with open(self.path(name), "wb") as file:
            file.write(content)

    def test_a_damaged_file_is_an_error_in_every_form(self):
        sound = self.bytes_of(self.write("sound.column", FEW))
        damaged = [
            (sound[:-1], "refusal 11, LENGTH: "), (sound + b"x", "refusal 11, LENGTH: "), (b"", "refusal 7, SHORT: "),
            (b"\x01\x83\x00" + sound[2:], "refusal 8, NUMBER: "), (b"\x05" + sound[1:], "refusal 9, EDITION: "),
            (sound[:12] + b"\x09" + sound[13:], "refusal 13, DAMAGED: "), (b"0 150\n2 140\n", "refusal 9, EDITION: "),
        ]  # fmt: skip
        for content, said in damaged[:: common.share]:
            self.put("bad.column", content)
            self.refused_each(
                ("SELECT * FROM signalfern('bad.column');", f"bad.column: {said}"),
                ("SELECT * FROM signalfern('sound.column', 'bad.column') WHERE id = 7;", f"bad.column: {said}"),
                ("CREATE VIRTUAL TABLE scores USING signalfern('bad.column');", f"bad.column: {said}"),
                ("CREATE VIRTUAL TABLE scores USING signalfern('sound.column', correction='bad.column');", f"bad.column: {said}"),
                ("SELECT signalfern_look_up(readfile('bad.column'), 7);", said),
            )
            lines = self.answer("SELECT signalfern_check('bad.column'), signalfern_check(readfile('bad.column'));")
            self.assertEqual(len(lines), 1)
            self.assertIn(f"'bad.column: {said}", lines[0])
            self.assertIn(f",'{said}", lines[0])

    def test_what_is_no_file_is_an_error(self):
        os.mkdir(self.path("folder"))
        os.mkfifo(self.path("pipe"))
        expected = []
        for name, said in (("none", "No such file"), ("folder", "it is no plain file"), ("pipe", "it is no plain file"), ("none/none", "No such file")):
            for sql in ("SELECT * FROM signalfern('{}');", "CREATE VIRTUAL TABLE s USING signalfern('{}');", "SELECT signalfern_check('{}');"):
                expected.append((sql.format(name), f"cannot read {name}: {said}"))
        for value in ("5", "x'61'", "'a' || char(0)"):
            expected.append((f"SELECT * FROM signalfern({value});", "the name of a file is to be a text without a zero byte"))
        for value in ("5", "'a' || char(0)"):
            expected.append((f"SELECT signalfern_check({value});", "the name of a file is to be a text without a zero byte"))
        self.refused_each(*expected)
        self.assertEqual(self.answer("SELECT * FROM signalfern(NULL); SELECT * FROM signalfern('none', NULL); SELECT signalfern_check(NULL);"), ["NULL"])

    def test_a_table_whose_file_is_gone_can_be_dropped(self):
        self.write("a.column", FEW)
        self.answer("CREATE VIRTUAL TABLE scores USING signalfern('a.column');", "data.db")
        self.assertEqual(self.answer(READ, "data.db"), ["'0 150,2 140,7 135'"])
        os.rename(self.path("a.column"), self.path("b.column"))
        self.refused(READ, "cannot read a.column", database="data.db")
        # It is looked for again at the next question.
        out, error = self.ask(f"{READ}\n.shell mv b.column a.column\n{READ}", "data.db")
        self.assertEqual(out, "'0 150,2 140,7 135'\n", error)
        os.remove(self.path("a.column"))
        self.assertEqual(self.answer("DROP TABLE scores; SELECT count(*) FROM sqlite_schema;", "data.db"), ["0"])


class Digests(common.InFolder):
    def sidecar(self, name, text):
        with open(self.path(name + ".sha256"), "wb") as file:
            file.write(text.encode())

    def digest(self, name):
        with open(self.path(name), "rb") as file:
            return hashlib.sha256(file.read()).hexdigest()

    def asked(self, name):
        return "\n".join(self.answer(f"SELECT signalfern_check({common.literal(name)});"))

    def test_digests_of_all_lengths(self):
        """However the last block is filled, the digest is hashlib's."""
        names = [f"{count}.column" for count in range(0, 200, common.share)]
        source = common.table("pairs", "id, value", [(i, i * i % 97) for i in range(200)])
        writes = [f"SELECT writefile('{name}', signalfern_column(id, value)) FROM (SELECT * FROM pairs WHERE id < {name.split('.')[0]} ORDER BY id);" for name in names]
        self.answer(source + "".join(writes))
        left = {os.path.getsize(self.path(name)) % 64 for name in names}
        self.assertTrue(common.share > 1 or {0, 1, 54, 55, 56, 57, 63} <= left, left)
        for name in names:
            self.sidecar(name, f"{self.digest(name)}  {name}\n")
        counts = self.answer("".join(f"SELECT signalfern_check('{name}');" for name in names))
        self.assertEqual(counts, [name.split(".")[0] for name in names])
        for name in names:
            digest = self.digest(name)
            self.sidecar(name, f"{digest[:-1]}{'01'[digest[-1] == '0']}  {name}\n")
        for line in self.answer("".join(f"SELECT signalfern_check('{name}');" for name in names)):
            self.assertIn("refusal 102, DIGEST: ", line)

    def test_forms_of_sha256sum(self):
        other = "0123456789abcdef" * 4
        for name in ("line\nend", "a.column", "with space", "back\\slash", "per'son")[:: common.share]:
            self.write(name, FEW)
            digest, escaped = self.digest(name), name.replace("\\", "\\\\").replace("\n", "\\n")
            mark = "\\" if escaped != name else ""
            for text in (
                f"{mark}{digest}  {escaped}\n", f"{mark}{digest} *{escaped}", f"{mark}{digest.upper()}  folder/{escaped}\r\n",
                f"{mark}SHA256 ({escaped}) = {digest}\n", f"{other}  another\n\n{mark}{digest}  {escaped}\n{mark}{digest} *{escaped}\n",
            ):  # fmt: skip
                self.sidecar(name, text)
                self.assertEqual(self.asked(name), "3", text)
            for text in (f"{mark}{other}  {escaped}\n", f"{mark}SHA256 ({escaped}) = {other}", f"{mark}{digest}  {escaped}\n{mark}{other}  {escaped}\n"):
                self.sidecar(name, text)
                self.assertIn("refusal 102, DIGEST: a sound column, but not the one", self.asked(name), text)
            for text in ("", "\n", digest, f"{digest}  {escaped}x\n", f"{digest}  x{escaped}\n", f"{digest}1 {escaped}\n", f"SHA256 ({escaped}) {digest}", f"{digest[:-1]}g  {escaped}"):
                self.sidecar(name, text)
                self.refused(f"SELECT signalfern_check({common.literal(name)});", "it has no line")

    def test_a_table_compares_it_too(self):
        self.write("a.column", FEW)
        self.write("b.column", {7: 1})
        self.sidecar("b.column", f"{self.digest('b.column')}  b.column\n")
        make = "CREATE VIRTUAL TABLE scores USING signalfern('a.column', correction='b.column');"
        self.assertEqual(self.answer(make + READ), ["'0 150,2 140,7 1'"])
        self.sidecar("b.column", f"{self.digest('a.column')}  b.column\n")
        self.refused(make, "b.column: refusal 102, DIGEST")
        self.refused("SELECT * FROM signalfern('a.column', 'b.column');", "b.column: refusal 102, DIGEST")
        os.remove(self.path("b.column.sha256"))
        os.mkdir(self.path("b.column.sha256"))
        self.refused(make, "cannot read b.column.sha256: it is no plain file")


class Replaced(common.InFolder):
    def setUp(self):
        super().setUp()
        self.write("a.column", {id: id * 3 for id in range(5000)})
        self.write("b.column", {id: id * 5 for id in range(3000)})
        self.question = "SELECT count(id), sum(value), (SELECT value FROM scores WHERE id = 2000) FROM scores;"
        self.before, self.after = "5000,37492500,6000", "3000,22492500,10000"

    def test_by_rename_keeps_the_old_bytes_until_it_is_opened_again(self):
        make = "CREATE VIRTUAL TABLE scores USING signalfern('a.column');"
        script = f"{make}\n{self.question}\n.shell mv b.column a.column\n{self.question}\n"
        self.assertEqual(self.answer(script, "data.db"), [self.before, self.before])
        self.assertEqual(self.answer(self.question, "data.db"), [self.after])
        # A file that is named in the question is opened by each question.
        self.write("b.column", {7: 8})
        named = "SELECT count(*), sum(value) FROM signalfern('a.column') WHERE id >= 0;"
        self.assertEqual(self.answer(f"{named}\n.shell mv b.column a.column\n{named}"), ["3000,22492500", "1,8"])

    def test_in_place_is_an_error_and_no_other_score(self):
        make = "CREATE VIRTUAL TABLE scores USING signalfern('a.column');"
        for change in ("cp b.column a.column", "truncate -s 100 a.column", "truncate -s 0 a.column", "cp copy.column a.column")[:: common.share]:
            self.write("a.column", {id: id * 3 for id in range(5000)})
            self.answer(".shell cp a.column copy.column")
            out, error = self.ask(f"{make}\n{self.question}\n.shell sleep 0.02; {change}\n{self.question}\nSELECT 1;")
            self.assertEqual(out.splitlines(), [self.before, "1"], change)
            self.assertIn("cannot use a.column: it was changed in place after it was checked", error)


class Tables(common.InFolder):
    def test_words_of_create(self):
        for name in ("a.column", "it's", 'say "x"', "comma, and ) more", "a=b", "correction=c")[:: common.share]:
            self.write(name, FEW)
            for quote in "'\"":
                word = quote + name.replace(quote, quote * 2) + quote
                self.assertEqual(self.answer(f"CREATE VIRTUAL TABLE scores USING signalfern({word}); {READ}"), ["'0 150,2 140,7 135'"])
                both = f"CREATE VIRTUAL TABLE scores USING signalfern( {word} , CORRECTION = {word} ); SELECT DISTINCT by FROM scores;"
                self.assertEqual(self.answer(both), ["'correction'"])
        self.assertEqual(self.answer(f"CREATE VIRTUAL TABLE scores USING signalfern(a.column); {READ}"), ["'0 150,2 140,7 135'"])
        bad = ("'a.column', 'a.column'", "'a.column', corrections='a.column'", "correction='a.column'", "'a.column', correction='a.column', 1")
        said = "signalfern takes a file and, if there is one, a correction"
        self.refused_each(*((f"CREATE VIRTUAL TABLE scores USING signalfern({words});", said) for words in bad))

    def test_read_only(self):
        self.write("a.column", FEW)
        for change in ("INSERT INTO scores(id, value) VALUES (1, 1)", "UPDATE scores SET value = 1", "DELETE FROM scores WHERE id = 7"):
            self.refused(f"CREATE VIRTUAL TABLE scores USING signalfern('a.column'); {change};", "table scores may not be modified")

    def test_a_schema_cannot_have_files_opened(self):
        self.write("a.column", FEW)
        make = "CREATE VIRTUAL TABLE scores USING signalfern('a.column'); CREATE TABLE plain(x);"
        for schema in (
            "CREATE VIEW v AS SELECT * FROM scores; SELECT * FROM v;",
            "CREATE VIEW v AS SELECT * FROM signalfern('a.column'); SELECT * FROM v;",
            "CREATE TRIGGER t AFTER INSERT ON plain BEGIN INSERT INTO plain SELECT value FROM signalfern('a.column'); END; INSERT INTO plain VALUES (1);",
            "CREATE VIEW v AS SELECT signalfern_check('a.column'); SELECT * FROM v;",
        ):
            self.refused(make + schema, "unsafe use of")
        # Who asks may: a view of one's own, which no file keeps.
        self.assertEqual(self.answer(f"{make} CREATE TEMP VIEW v AS SELECT count(*) FROM scores; SELECT * FROM v;"), ["3"])

    def test_files_by_rows(self):
        """A file for each row of another table, and a correction for each."""
        for at, pairs in enumerate(({1: 10}, {1: 20, 2: 21}, {}, {3: 5})):
            self.write(f"{at}.column", pairs)
        files = "CREATE TABLE files(n, name); INSERT INTO files VALUES (0, '0.column'), (1, '1.column'), (2, '2.column'), (3, '3.column');"
        one = "SELECT f.n, s.id, s.value, s.file, s.correction FROM files f, signalfern(f.name) s ORDER BY 1, 2;"
        expected = ["0,1,10,'0.column',NULL", "1,1,20,'1.column',NULL", "1,2,21,'1.column',NULL", "3,3,5,'3.column',NULL"]
        self.assertEqual(self.answer(files + one), expected)
        two = "SELECT f.n, s.value, s.by, s.correction FROM files f, signalfern('1.column', f.name) s WHERE s.id = 1 ORDER BY 1;"
        expected = [f"{at},{value},'{by}','{at}.column'" for at, value, by in ((0, 10, "correction"), (1, 20, "correction"), (2, 20, "machine"), (3, 20, "machine"))]
        self.assertEqual(self.answer(files + two), expected)
        listed = "SELECT file, count(*) FROM signalfern WHERE file IN ('0.column', '1.column', '2.column') GROUP BY file ORDER BY file;"
        self.assertEqual(self.answer(listed), ["'0.column',1", "'1.column',2"])

    def test_renamed_and_dropped(self):
        self.write("a.column", FEW)
        self.assertEqual(
            self.answer("CREATE VIRTUAL TABLE s USING signalfern('a.column'); ALTER TABLE s RENAME TO scores; SELECT count(*) FROM scores; DROP TABLE scores;"), ["3"]
        )
