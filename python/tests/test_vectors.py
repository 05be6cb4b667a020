"""The package beside conformance/vectors, which rust/reference answered: every vector that the package can be asked."""

import itertools
import json
import sys
import unittest

from .common import ROOT, numpy

import signalfern
from signalfern import Column, Edition, Layer, Layered, Set, errors

FOLDER = ROOT / "conformance"
OUTSIDE = 2147352575


def refusal(call):
    """A reply of the conformance page, where the package raises."""
    try:
        return call()
    except errors.Refused as wrong:
        return {"kind": "refused", "refusal": wrong.refusal, "number": wrong.number}


def numbers(reply):
    """A number, or a list of them, of which great ones are strings of digits; of a digest nothing changes."""
    if isinstance(reply, list):
        return [int(number) for number in reply]
    return reply if isinstance(reply, dict) else int(reply)


@unittest.skipUnless((FOLDER / "vectors").is_dir(), "conformance/ is not there")
class Vectors(unittest.TestCase):
    maxDiff = None

    @classmethod
    def setUpClass(cls):
        sys.path.insert(0, str(FOLDER / "example"))
        import recipes

        cls.recipes = recipes

    def _formatMessage(self, msg, standard):
        return super()._formatMessage(self.asked, standard)

    def each(self, call):
        """The vectors of a call: what is given, and the reply. Some ask what the package refuses before any call, or cannot ask: these are not taken."""
        count = 0
        if not (FOLDER / "vectors" / f"{call}.jsonl").is_file():
            self.skipTest(f"there are no vectors of {call}")
        with open(FOLDER / "vectors" / f"{call}.jsonl") as lines:
            for line in lines:
                vector = json.loads(line)
                given, reply = vector["given"], vector["reply"]
                if any(int(given[name]) > OUTSIDE for name in ("id", "target", "cursor") if name in given):
                    continue
                for name in ("bytes", "machine", "correction"):
                    if name in given:
                        given[name] = self.recipes.given_bytes(given[name])
                for name in ("ids", "values", "table"):
                    if name in given:
                        given[name] = self.recipes.given_list(given[name])
                if "page" not in call and max(given.get("ids", []), default=0) > OUTSIDE:
                    continue
                count += 1
                self.asked = vector["name"]
                yield given, {key: value if key in ("kind", "out", "column") else numbers(value) for key, value in reply.items()}
        self.assertGreater(count, 20)

    def shown(self, whole, size):
        """Bytes as a reply has them, with what stands after them."""
        whole += b"\xaa" * (size - len(whole))
        return whole.hex() if len(whole) <= 64 else {"length": len(whole), "sha256": signalfern.digest(whole)}

    def listed(self, numbers):
        return list(map(int, numbers)) if len(numbers) <= 32 else {"count": len(numbers), "sha256": self.recipes.list_digest(list(map(int, numbers)))}

    def test_write(self):
        for call in ("write", "write_planned", "set_write"):
            for given, reply in self.each(call):
                if reply["kind"] == "refused" and reply["refusal"] == errors.Room.refusal:
                    continue  # (the package makes the room that is needed)

                def asked():
                    if call == "set_write":
                        made = signalfern.write_set(given["ids"])
                    elif call == "write":
                        made = signalfern.write(given["ids"], given["values"], given["edition"], given["power"])
                    else:
                        made = signalfern.write_planned(given["ids"], given["values"], given["table"], given["power"])
                    return {"kind": "done", "number": len(made), "out": self.shown(made, given["room"])}

                got = refusal(asked)
                self.assertEqual(got, {**reply, "out": got["out"]} if "out" not in reply else {key: reply[key] for key in got})

    def test_check(self):
        for given, reply in self.each("check"):
            self.assertEqual(refusal(lambda: {"kind": "done", "number": signalfern.check(given["bytes"])}), reply)

    def test_read(self):
        for given, reply in self.each("read"):
            if reply["kind"] == "refused":
                if reply["refusal"] != errors.Buffer.refusal:
                    self.assertEqual(refusal(lambda: Column(given["bytes"]).read()), {key: reply[key] for key in ("kind", "refusal", "number")})
                continue
            ids, values = Column(given["bytes"]).read()
            rooms = given["ids_room"] - len(ids), given["values_room"] - len(values)
            lists = [[*each.tolist(), *[170] * room] for each, room in zip((ids, values), rooms)]
            self.assertEqual({"kind": "done", "number": len(ids), "ids": self.listed(lists[0]), "values": self.listed(lists[1])}, reply)

    def test_look_up(self):
        for given, reply in self.each("look_up"):

            def asked():
                column = Column(given["bytes"], checked=False)
                answer = column._answer(given["id"])
                found = column.look_up(given["id"])
                counts = {"words": answer.words, "probes": answer.probes}
                return {"kind": "found", **found._asdict()} if found else {"kind": "absent", **counts}

            self.assertEqual(refusal(asked), reply)

    def test_look_up_page(self):
        for given, reply in self.each("look_up_page"):
            if reply["kind"] == "refused" or not all(isinstance(reply[name], list) for name in ("ordinals", "values", "kinds")):
                continue
            places = [place for place, id in enumerate(given["ids"]) if id <= OUTSIDE]
            ids, kinds = ([each[place] for place in places] for each in (given["ids"], reply["kinds"]))
            refused = [kind for kind in kinds if kind > 1]
            for asked in [ids] if numpy is None else (ids, numpy.array(ids, "uint32"), numpy.array(ids, "int64")):
                if refused:
                    self.assertEqual(refusal(lambda: Column(given["bytes"], checked=False).look_up_many(asked))["refusal"], refused[0])
                elif ids:
                    page = Column(given["bytes"], checked=False).look_up_many(asked)
                    want = [[each[place] for place in places] for each in (reply["values"], reply["ordinals"])]
                    self.assertEqual([page.values.tolist(), page.ordinals.tolist(), [int(not found) for found in page.found]], [*want, kinds])

    def test_next(self):
        for given, reply in self.each("next"):
            if given["cursor"] > given["target"]:
                continue  # (the package keeps no cursor)

            def asked():
                found = Column(given["bytes"], checked=False).next(given["target"])
                return {"kind": "found", **found._asdict()} if found else {"kind": "none"}

            reply.pop("cursor")
            self.assertEqual(refusal(asked), reply)

    def test_read_from(self):
        for given, reply in self.each("read_from"):
            rooms, placed = (given["ids_room"], given["values_room"]), reply.get("number", 0)
            places = min(rooms)

            def asked(count):
                lists = Column(given["bytes"], checked=False).read_from(given["id"], count)
                return [self.listed([*each.tolist(), *[170] * (room - count)]) for each, room in zip(lists, rooms)]

            if reply["kind"] == "refused":
                self.assertEqual(refusal(lambda: asked(max(places, 1))), {key: reply[key] for key in ("kind", "refusal", "number")})
                continue
            self.assertEqual(asked(placed), [reply["ids"], reply["values"]])
            pairs = Column(given["bytes"], checked=False).iter_from(given["id"])
            self.assertEqual(len(list(itertools.islice(pairs, placed))), placed)
            if reply["kind"] == "ended":
                self.assertEqual(refusal(lambda: list(pairs)), [])
            elif placed < places:  # (the next step is refused: the package gives no short list for it)
                self.assertEqual(refusal(lambda: asked(places))["refusal"], errors.Broken.refusal)
                self.assertEqual(refusal(lambda: next(pairs))["refusal"], errors.Broken.refusal)

    def test_pair_at(self):
        for given, reply in self.each("pair_at"):

            def asked():
                pair = Column(given["bytes"], checked=False).pair_at(int(given["ordinal"]))
                return {"kind": "found", **pair._asdict()} if pair else {"kind": "none"}

            self.assertEqual(refusal(asked), reply)

    def first_between(self, call):
        for given, reply in self.each(call):

            def asked():
                column = Column(given["bytes"], checked=False)
                found = column.first_between(int(given["low"]), int(given["high"]), int(given.get("from", 0)))
                return {"kind": "none"} if found is None else {"kind": "found", "ordinal": found}

            got = refusal(asked)
            # (the package opens first, so that a bad header of another edition may be refused for that)
            if reply.get("refusal") == errors.Edition.refusal:
                self.assertEqual(got["kind"], "refused")
            else:
                self.assertEqual(got, reply)

    def test_first_between(self):
        self.first_between("first_between")

    def test_first_between_from(self):
        self.first_between("first_between_from")

    def test_layered(self):
        for given, reply in self.each("look_up_layered"):
            both = self.layers(given)
            if both is None:
                continue

            def asked():
                answer = both._answer(given["id"])
                counts = {"machine_words": answer.machine_words, "correction_words": answer.correction_words}
                found = both.look_up(given["id"])
                if found is None:
                    return {"kind": "absent", **counts}
                return {"kind": "found", "column": found.by.name.lower(), "ordinal": found.ordinal, "value": found.value, **counts}

            if reply["kind"] == "refused":
                with self.assertRaisesRegex(errors.Refused, reply["column"]) as caught:
                    asked()
                self.assertEqual((caught.exception.refusal, caught.exception.number), (reply["refusal"], reply["number"]))
            else:
                self.assertEqual(asked(), reply)

    def layers(self, given):
        """The two columns of a vector; none where a header is refused before the question."""
        try:
            return Layered(Column(given["machine"], checked=False), Column(given["correction"], checked=False))
        except errors.Refused:
            return None

    def test_layered_page(self):
        for given, reply in self.each("look_up_layered_page"):
            both = self.layers(given)
            if both is None or reply["kind"] == "refused":
                continue  # (the package makes the lists, and they fit)
            # (an id above the limit is refused before any call)
            places = [at for at, id in enumerate(given["ids"]) if id <= OUTSIDE]
            ids = [given["ids"][at] for at in places]
            ordinals, values, kinds, columns = ([reply[name][at] for at in places] for name in ("ordinals", "values", "kinds", "columns"))
            bad = next((at for at, kind in enumerate(kinds) if kind > 1), None)
            if bad is None:
                page = both.look_up_many(ids)
                found = [1 - int(found) for found in page.found]
                self.assertEqual((page.ordinals.tolist(), page.values.tolist(), found, page.by.tolist()), (ordinals, values, kinds, columns))
                continue
            with self.assertRaisesRegex(errors.Refused, f"number {bad} of the list, by the {Layer(columns[bad]).name.lower()}") as caught:
                both.look_up_many(ids)
            self.assertEqual(caught.exception.refusal, kinds[bad])

    def test_layered_reading(self):
        for given, reply in self.each("read_layered_from"):
            both = self.layers(given)
            if both is None:
                continue
            room = min(given[name] for name in ("ids_room", "values_room", "columns_room"))
            if reply["kind"] != "refused" and (reply["kind"] == "ended" or reply["number"] == room):
                want = tuple(reply[name][: reply["number"]] for name in ("ids", "values", "columns"))
                self.assertEqual(tuple(numbers.tolist() for numbers in both.pairs_from(given["id"], room)), want)
                continue
            # (the pairs before a refusal are not handed out by a reading, and one pair is asked for where there is no place)
            with self.assertRaisesRegex(errors.Refused, reply.get("column", "column")) as caught:
                both.pairs_from(given["id"], room or 1)
            if reply["kind"] == "refused":
                self.assertEqual((caught.exception.refusal, caught.exception.number), (reply["refusal"], reply["number"]))

    def test_layered_values(self):
        for given, reply in self.each("layered_values"):
            both = self.layers(given)
            if both is None:
                continue
            by, view = both.values_of(given["id"])
            self.assertEqual((by.name.lower(), bytes(view)), (reply["column"], given[reply["column"]][reply["start"] : reply["start"] + reply["length"]]))

    def test_sets(self):
        for given, reply in self.each("set_check"):
            self.assertEqual(refusal(lambda: {"kind": "done", "number": len(Set(given["bytes"]))}), reply)
        for given, reply in self.each("set_find"):

            def asked():
                ordinal = Set(given["bytes"]).ordinal(given["id"])
                return {"kind": "absent"} if ordinal is None else {"kind": "found", "ordinal": ordinal}

            self.assertEqual(refusal(asked), reply)

    def test_judge(self):
        for given, reply in self.each("judge"):

            def asked():
                order = {"low": "little", "high": "big"}[given["order"]]
                try:
                    return {"kind": "accepted", "number": signalfern.judge_section(given["bytes"], int(given["jump_count"]), int(given["power"]), order)}
                except errors.Faulty as wrong:
                    return {"kind": "faulty", "reason": wrong.reason, "place": wrong.place}

            self.assertEqual(refusal(asked), reply)

    def test_plan(self):
        for given, reply in self.each("plan"):
            if reply["kind"] != "refused":
                table = signalfern.plan(given["values"]).tolist()
                self.assertEqual((len(table), self.listed([*table, *[170] * (given["room"] - len(table))])), (reply["number"], reply["table"]))

    def test_open(self):
        for given, reply in self.each("open"):

            def asked():
                column = Column(given["bytes"], checked=False)
                return {"kind": "opened", "edition": column.edition, "count": len(column), "power": column.power}

            got = refusal(asked)
            self.assertEqual(got, {key: reply[key] for key in got})
            if reply["kind"] == "opened":
                self.assertIsInstance(Column(given["bytes"], checked=False).edition, Edition)
