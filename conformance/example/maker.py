#!/usr/bin/env python3
"""A small maker of columns, sets and judgements. It uses nothing but what docs/FORMAT.md and conformance/README.md say.

It reads vectors from standard input, a line each, and prints the replies. Plain Python 3.9; made to be read, not to be fast. The calls are in
the files beside it; here are their arguments and replies.
"""

import hashlib
import json
import sys

from asking import first_between, layered_values, look_up, look_up_layered, look_up_layered_page, look_up_page, next_candidate, pair_at, read_from
from asking import read_layered_from
from basics import BUFFER, Faulty, Refused
from judging import judge
from opening import check, open_column, opened, read
from recipes import given_bytes, given_list, list_digest
from sets import set_blocks, set_count, set_find, set_write
from writing import plan_of, write, write_planned


def lent(room, written=()):
    """A list after the call: every place held 170 before it."""
    written = list(written)
    return written + [170] * (room - len(written))


def told(number):
    return number if abs(number) <= 2**53 else str(number)


def list_told(numbers):
    if len(numbers) <= 32:
        return [told(x) for x in numbers]
    return {"count": len(numbers), "sha256": list_digest(numbers)}


def bytes_told(data):
    data = bytes(data)
    if len(data) <= 64:
        return data.hex()
    return {"length": len(data), "sha256": hashlib.sha256(data).hexdigest()}


def refused(refusal, **more):
    return dict(kind="refused", refusal=refusal.refusal, number=refusal.number, **more)


def writing(room, call):
    try:
        out = call()
    except Refused as refusal:
        return refused(refusal, out=bytes_told(lent(room)))
    return {"kind": "done", "number": len(out), "out": bytes_told(lent(room, out))}


def looked(answer):
    found, words, probes = answer
    if found is None:
        return {"kind": "absent", "words": words, "probes": probes}
    return {"kind": "found", "ordinal": found[0], "value": told(found[1]), "words": words, "probes": probes}


def layered(call):
    try:
        found, under, over = call()
    except Refused as refusal:
        return refused(refusal, column=refusal.column)
    words = {"machine_words": under, "correction_words": over}
    if found is None:
        return dict(kind="absent", **words)
    return dict(kind="found", column=found[0], ordinal=found[1], value=told(found[2]), **words)


def ordinal(found, otherwise):
    return {"kind": otherwise} if found is None else {"kind": "found", "ordinal": found}


def answer_plan(g):
    values, room = given_list(g["values"]), g["room"]
    if room < 256:
        return refused(Refused(BUFFER, 256), table=list_told(lent(room)))
    table = plan_of(values)
    return {"kind": "done", "number": len(table), "table": list_told(lent(room, table))}


def answer_read(g):
    rooms = g["ids_room"], g["values_room"]
    try:
        ids, values = read(given_bytes(g["bytes"]), *rooms)
    except Refused as refusal:
        return refused(refusal, ids=list_told(lent(rooms[0])), values=list_told(lent(rooms[1])))
    lists = list_told(lent(rooms[0], ids)), list_told(lent(rooms[1], values))
    return {"kind": "done", "number": len(ids), "ids": lists[0], "values": lists[1]}


def answer_page(g):
    rooms = g["ordinals_room"], g["values_room"], g["kinds_room"]
    ids = given_list(g["ids"])
    try:
        ordinals, values, kinds, words = look_up_page(given_bytes(g["bytes"]), ids, rooms)
    except Refused as refusal:
        reply, ordinals, values, kinds = refused(refusal), [], [], []
    else:
        reply = {"kind": "done", "number": len(ids), "words": told(words)}
    for name, room, written in zip(("ordinals", "values", "kinds"), rooms, (ordinals, values, kinds)):
        reply[name] = list_told(lent(room, written))
    return reply


def answer_next(g, column=None):
    try:
        found = next_candidate(given_bytes(g["bytes"]), g["cursor"], g["target"], column)
    except Refused as refusal:
        return refused(refusal, cursor=g["cursor"])
    if found is None:
        return {"kind": "none", "cursor": g["target"]}
    return {"kind": "found", "id": found[0], "ordinal": found[1], "value": told(found[2]), "cursor": g["target"]}


def answer_read_from(g, column=None):
    rooms = g["ids_room"], g["values_room"]
    try:
        ids, values, ended = read_from(given_bytes(g["bytes"]), g["id"], min(rooms), column)
    except Refused as refusal:
        return refused(refusal, ids=list_told(lent(rooms[0])), values=list_told(lent(rooms[1])))
    lists = list_told(lent(rooms[0], ids)), list_told(lent(rooms[1], values))
    return {"kind": "ended" if ended else "more", "number": len(ids), "ids": lists[0], "values": lists[1]}


def answer_pair_at(g, column=None):
    found = pair_at(given_bytes(g["bytes"]), int(g["ordinal"]), column)
    if found is None:
        return {"kind": "none"}
    return {"kind": "found", "id": found[0], "ordinal": found[1], "value": told(found[2])}


def answer_between(g, column=None):
    data, start = given_bytes(g["bytes"]), int(g.get("from", 0))
    return ordinal(first_between(data, int(g["low"]), int(g["high"]), column, start), "none")


def answer_part(g):
    column, start, length = layered_values(*two(g), g["id"])
    return {"kind": "part", "column": column, "start": start, "length": length}


def answer_judge(g):
    order = "big" if g["order"] == "high" else "little"
    try:
        ids = judge(given_bytes(g["bytes"]), int(g["jump_count"]), g["power"], order)
    except Faulty as fault:
        return {"kind": "faulty", "reason": fault.reason, "place": fault.place}
    return {"kind": "accepted", "number": ids}


def answer_open(g):
    c = open_column(given_bytes(g["bytes"]))
    numbers = (c.edition, c.n, c.p, c.L, c.J, c.w, c.smallest, c.g, c.V, c.start)
    names = ("edition", "count", "power", "id_bytes", "jump_count", "width", "smallest", "divisor", "value_bytes", "start")
    return dict(kind="opened", **{name: told(x) for name, x in zip(names, numbers)})


def two(g):
    """The machine column and the correction."""
    return given_bytes(g["machine"]), given_bytes(g["correction"])


def two_opened(g):
    machine, correction = two(g)
    return opened(g["machine_column"], machine), opened(g["correction_column"], correction)


def answer_layered_page(g, columns=(None, None)):
    names, ids = ("ordinals", "values", "kinds", "columns"), given_list(g["ids"])
    rooms = [g[name + "_room"] for name in names]
    try:
        written, (under, over) = look_up_layered_page(*two(g), ids, rooms, columns)
    except Refused as refusal:
        reply, written = refused(refusal), [[]] * 4
    else:
        reply = {"kind": "done", "number": len(ids), "machine_words": told(under), "correction_words": told(over)}
    return dict(reply, **{name: list_told(lent(room, places)) for name, room, places in zip(names, rooms, written)})


def answer_layered_reading(g, columns=(None, None)):
    names = "ids", "values", "columns"
    rooms = [g[name + "_room"] for name in names]
    try:
        pairs, ended = read_layered_from(*two(g), g["id"], min(rooms), columns)
    except Refused as refusal:
        reply, pairs = refused(refusal, column=refusal.column), []
    else:
        reply = {"kind": "ended" if ended else "more", "number": len(pairs)}
    return dict(reply, **{name: list_told(lent(room, [pair[i] for pair in pairs])) for i, (name, room) in enumerate(zip(names, rooms))})


def lists(g):
    return given_list(g["ids"]), given_list(g["values"])


def column_in(g):
    return opened(g["column"], given_bytes(g["bytes"]))


ANSWERS = {
    "write": lambda g: writing(g["room"], lambda: write(*lists(g), g["edition"], g["power"], g["room"])),
    "write_planned": lambda g: writing(
        g["room"], lambda: write_planned(*lists(g), given_list(g["table"]), g["power"], g["room"])
    ),
    "plan": answer_plan,
    "check": lambda g: {"kind": "done", "number": check(given_bytes(g["bytes"])).n},
    "read": answer_read,
    "look_up": lambda g: looked(look_up(given_bytes(g["bytes"]), g["id"])),
    "look_up_page": answer_page,
    "next": answer_next,
    "first_between": answer_between,
    "look_up_layered": lambda g: layered(lambda: look_up_layered(*two(g), g["id"])),
    "layered_values": answer_part,
    "set_write": lambda g: writing(g["room"], lambda: set_write(given_list(g["ids"]), g["room"])),
    "set_check": lambda g: {
        "kind": "done",
        "number": sum(set_count(kind, places) for _, kind, places in set_blocks(given_bytes(g["bytes"]))),
    },
    "set_find": lambda g: ordinal(set_find(given_bytes(g["bytes"]), g["id"]), "absent"),
    "judge": answer_judge,
    "open": answer_open,
    "look_up_in": lambda g: looked(look_up(None, g["id"], column_in(g))),
    "next_in": lambda g: answer_next(g, column_in(g)),
    "first_between_in": lambda g: answer_between(g, column_in(g)),
    "look_up_layered_in": lambda g: layered(lambda: look_up_layered(*two(g), g["id"], two_opened(g))),
    "read_from": answer_read_from,
    "pair_at": answer_pair_at,
    "first_between_from": answer_between,
    "read_from_in": lambda g: answer_read_from(g, column_in(g)),
    "pair_at_in": lambda g: answer_pair_at(g, column_in(g)),
    "first_between_from_in": lambda g: answer_between(g, column_in(g)),
    "look_up_layered_page": answer_layered_page,
    "read_layered_from": answer_layered_reading,
    "look_up_layered_page_in": lambda g: answer_layered_page(g, two_opened(g)),
    "read_layered_from_in": lambda g: answer_layered_reading(g, two_opened(g)),
}


def reply_to(vector):
    if vector["call"] not in ANSWERS:
        return {"kind": "unsupported"}
    try:
        return ANSWERS[vector["call"]](vector["given"])
    except Refused as refusal:
        return refused(refusal)


def main():
    for line in sys.stdin:
        print(json.dumps(reply_to(json.loads(line))), flush=True)


if __name__ == "__main__":
    main()
