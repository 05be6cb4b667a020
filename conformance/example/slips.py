#!/usr/bin/env python3
"""Slips of the trade, made in the example maker one by one: each must be caught by some vector.

    python3 conformance/example/slips.py SIGNALFERN [NUMBER...]

SIGNALFERN is the tool. A slip is a name, the call whose vectors catch it, and what stands for what. For each, a copy of the example is changed
so and run by `signalfern conform`, which must report a difference. Status 0: all were caught.
"""

import os
import subprocess
import sys
import tempfile

HERE = os.path.dirname(os.path.abspath(__file__))

# With one entry left the halving never ends: no reply comes.
ENDLESS = "lo moved to the probe and not past it"

SLIPS = [
    (
        "a rank that counts its own stride",
        "judge",
        '        out += before.to_bytes(2, "big")\n        before += ones(bitmap[t * stride : (t + 1) * stride])\n',
        '        before += ones(bitmap[t * stride : (t + 1) * stride])\n        out += before.to_bytes(2, "big")\n',
    ),
    ("rank bytes low first, written and judged", "judge", 'out += before.to_bytes(2, "big")', 'out += before.to_bytes(2, "little")'),
    (
        "rank bytes low first, in a look-up",
        "look_up",
        'int.from_bytes(data[2 * stride : 2 * stride + 2], "big")',
        'int.from_bytes(data[2 * stride : 2 * stride + 2], "little")',
    ),
    ("sparse to 4096, written", "write", "    if len(places) < 4096:\n", "    if len(places) <= 4096:\n"),
    ("sparse to 4096, read", "judge", "    if count < 4096:\n        return 2 * count", "    if count <= 4096:\n        return 2 * count"),
    (
        "a missing block's jump entry left zero",
        "write",
        "entries += [(before, len(out))] * (number + 1 - len(entries))",
        "entries += [(0, 0)] * (number - len(entries)) + [(before, len(out))]",
    ),
    (
        "two jump entries written",
        "write",
        "    if len(entries) == 2:\n        entries = []\n    out +=",
        "    out +=",
    ),
    (
        "greatest less smallest worked out signed, so that it wraps",
        "write",
        "    width = width_for(edition, (max(values, default=0) - smallest) // g)\n",
        "    spread = (max(values, default=0) - smallest + 2**63) % 2**64 - 2**63\n    width = width_for(edition, max(spread, 0) // g)\n",
        "    stored = [(v - smallest) // g for v in values]\n",
        "    stored = [(v - smallest) // g % 2**width for v in values]\n",
    ),
    (
        "the last partial byte not written",
        "write",
        "        return int(\"\".join(each) + \"0\" * spare, 2).to_bytes(size, \"big\")\n",
        "        return int(\"\".join(each) + \"0\" * spare, 2).to_bytes(size, \"big\")[: size - (spare > 0)]\n",
    ),
    (
        "edition 2 in the least width of edition 1",
        "write",
        "    return width if edition != 2 else min(w for w in WIDTHS_2 if w >= width)",
        "    return width",
    ),
    ("edition 2 too wide", "write", "min(w for w in WIDTHS_2 if w >= width)", "min(w for w in WIDTHS_2 if w > width or w == 64)"),
    ("edition 2 high bit first", "write", "pack(stored, width, edition == 1)", "pack(stored, width)"),
    ("no limit on the jump entries", "check", " and self.J <= MAX_JUMPS", ""),
    ("no limit on a table's entries", "check", "2 <= self.g <= 256 and ", ""),
    ("the runs of a directory rounded down", "check", "self.V >= 25 * ((self.n + RUN - 1) // RUN)", "self.V >= 25 * (self.n // RUN)"),
    ("any width taken in edition 2", "check", "range(65) if self.edition == 1 else WIDTHS_2", "range(65)"),
    ("the divisor taken from the values", "write", "g = math.gcd(g, abs(value - values[0]))", "g = math.gcd(g, abs(value))"),
    ("no divisor for equal values", "write", "    return max(g, 1)", "    return g or len(values) or 1"),
    ("-2v for a smallest value below 0", "write", "-2 * smallest - 1\n", "-2 * smallest\n"),
    (
        "a divisor for each run",
        "write",
        "        width = least_width((greatest - smallest) // g)\n        directory",
        "        g = gcd_of(run)\n        width = least_width((greatest - smallest) // g)\n        directory",
    ),
    (
        "a run's start counted from the section",
        "write",
        "low(len(data), 8) + bytes([width])",
        "low(len(data) + 25 * ((len(values) + RUN - 1) // RUN), 8) + bytes([width])",
    ),
    ("the header's smallest taken for the run's", "look_up", "            value = smallest + self.g *", "            value = self.smallest + self.g *"),
    ("a run without bits followed to its start", "look_up", "(width > 0 and first +", "(first +"),
    ("a run skipped whose greatest is a", "first_between", "greatest < a:", "greatest <= a:"),
    ("a run skipped whose smallest is b", "first_between", "if smallest > b or", "if smallest >= b or"),
    (
        "the least width for T and not for T - 1",
        "write_planned",
        "    width = least_width(len(table) - 1)\n    codes",
        "    width = least_width(len(table))\n    codes",
    ),
    ("a table kept that is as long as edition 1", "plan", "+ value_bytes < plain", "+ value_bytes <= plain"),
    (
        "value sections compared, not whole columns",
        "plan",
        "    return len(header_of(4, n, 0, 6, 0, width, 0, len(table), value_bytes)) + value_bytes < plain",
        "    return value_bytes < plain_sizes(table, n)[3]",
    ),
    ("a code of T read", "look_up", "            if code >= self.g:", "            if code > self.g:"),
    ("ordinal and count wrapped at 2^32", "look_up", "or o + c > column.n:", "or (o + c) % 2**32 > column.n:"),
    ("a head that reaches into the jump entries", "look_up", "    if s + 4 > column.A:", "    if s + 3 > column.A:"),
    ("header, L and V wrapped at 2^64", "check", "if self.start + self.L + self.V != len", "if (self.start + self.L + self.V) % 2**64 != len"),
    (ENDLESS, "look_up", "            lo = middle + 1", "            lo = middle"),
    ("probes from the other middle", "look_up", "        middle = (lo + hi) // 2", "        middle = (lo + hi - 1) // 2"),
    ("words counted from the block's beginning", "look_up", "    return rank + below, own - first + 1", "    return rank + below, own + 1"),
    ("no word for a bit that is clear", "look_up", "        return None, 1\n    first", "        return None, 0\n    first"),
    (
        "the header refused before the id",
        "look_up_page",
        "    if x > MAX_ID:\n        raise Refused(ID)\n    return steps(column.hold_to_the_rules() if column else open_column(data), x)",
        "    column = column.hold_to_the_rules() if column else open_column(data)\n    if x > MAX_ID:\n        raise Refused(ID)\n"
        "    return steps(column, x)",
    ),
    ("an old ordinal kept in a page", "look_up_page", "ordinals.append(found[0] if found else 0)", "ordinals.append(found[0] if found else 170)"),
    ("a cursor left where it was after none", "next", '{"kind": "none", "cursor": g["target"]}', '{"kind": "none", "cursor": g["cursor"]}'),
    ("a cursor moved by a refusal", "next", 'return refused(refusal, cursor=g["cursor"])', 'return refused(refusal, cursor=g["target"])'),
    (
        "the next candidate by halving",
        "next",
        "        for i, x in enumerate(shorts(data)):\n            if x >= r:\n",
        "        for i, x in sorted(enumerate(shorts(data)), key=lambda it: it[1]):\n            if x >= r:\n",
    ),
    (
        "a refusal after the first pair told",
        "read_from",
        "        except Refused:\n            return ids, values, False",
        "        except ZeroDivisionError:\n            return ids, values, False",
    ),
    ("an end told where a list is full", "read_from", "    return ids, values, found is None", "    return ids, values, True"),
    (
        "no first pair asked for without room",
        "read_from",
        "    found = next_candidate(data, 0, x, column)\n    ids",
        "    found = next_candidate(data, 0, x, column) if room else None\n    ids",
    ),
    ("the jump entries halved for those below", "pair_at", "        if number(probe) <= sought:", "        if number(probe) < sought:"),
    ("any block taken at an entry", "pair_at", " or (column.J > 0 and k != b):", ":"),
    ("a place that counts from the block's beginning", "pair_at", "others = data[rank_bytes(p) :], i - rank", "others = data[rank_bytes(p) :], i"),
    ("an ordinal before its block taken", "pair_at", "or not e <= ordinal < e + c:", "or not ordinal < e + c:"),
    ("values before the ordinal taken", "first_between_from", "range(max(RUN * run, start), min(", "range(RUN * run, min("),
    (
        "the run of the start read, whatever its summary",
        "first_between_from",
        "        if smallest > b or greatest < a:",
        "        if run > start // RUN and (smallest > b or greatest < a):",
    ),
    (
        "a refused correction passed over",
        "look_up_layered",
        '            refusal.column = name\n            raise\n',
        '            refusal.column = name\n            if name == "correction":\n                continue\n            raise\n',
    ),
    ("a refused place without its column", "look_up_layered_page", "number_of(refusal.column)))", "0))"),
    ("the words of a page in the other column", "look_up_layered_page", "(totals[0] + under)", "(totals[0] + over)"),
    ("the machine column's pair where both have the id", "read_layered_from", "found[0] < nearest[0]):", "found[0] <= nearest[0]):"),
    (
        "a pair that cannot be read passed over",
        "read_layered_from",
        "            raise refusal\n",
        "            if nearest:\n                return nearest\n            raise refusal\n",
    ),
    ("a set's bitmap at 4096", "set_write", "    if len(places) <= 4096:", "    if len(places) < 4096:"),
    ("a set's 61440 ids by the missing ones", "set_write", "    if 65536 - len(places) < 4096:", "    if 65536 - len(places) <= 4096:"),
    (
        "a set found in before it is checked whole",
        "set_find",
        "        found.append((number, kind, places))\n",
        "        yield number, kind, places\n",
        "                answer = below +",
        "                return below +",
    ),
    ("NUMBER with the place of the number", "check", "raise Refused(NUMBER, place)", "raise Refused(NUMBER, place - i)"),
    ("SHORT with 0", "check", "raise Refused(SHORT, len(data))", "raise Refused(SHORT)"),
    ("block 32766 taken", "judge", "if k < least or k > MAX_BLOCK:", "if k < least or k > MAX_BLOCK + 1:"),
    ("the end block as long as its count says", "judge", "            if at + 6 > len(data):", "            if at + 4 + data_bytes(c, p) > len(data):"),
    (
        "ids above the limit refused before those out of order",
        "write",
        "    for i in range(1, len(ids)):\n",
        "    for i in range(1, len(ids) * all(x <= MAX_ID for x in ids)):\n",
    ),
]


def changed(slip):
    """The example's files by name, with the slip made."""
    files = {}
    for name in os.listdir(HERE):
        if name.endswith(".py") and name != "slips.py":
            with open(os.path.join(HERE, name), encoding="utf-8") as file:
                files[name] = file.read()
    for old, new in zip(slip[2::2], slip[3::2]):
        found = [name for name in files for _ in range(files[name].count(old))]
        if len(found) != 1:
            sys.exit("%s: %d places, not one" % (slip[0], len(found)))
        files[found[0]] = files[found[0]].replace(old, new)
    return files


def caught(tool, slip, folder):
    """Whether the vectors of the slip's call tell the changed maker from the other, and the first that does."""
    for name, text in changed(slip).items():
        with open(os.path.join(folder, name), "w", encoding="utf-8") as file:
            file.write(text)
    endless = slip[0] == ENDLESS
    words = [tool, "conform", "--first", "--seconds", "3" if endless else "60", "--only", slip[1]]
    words += ["--vectors", os.path.dirname(HERE), "--", sys.executable, "-B", os.path.join(folder, "maker.py")]
    ran = subprocess.run(words, stdout=subprocess.PIPE, stderr=subprocess.DEVNULL, check=False)
    report = ran.stdout.decode()
    # A reply that was only late, on a busy machine, catches nothing.
    late = "no reply within" in report
    return ran.returncode == 1 and late == endless, report.split("\n", 1)[0]


def main():
    tool, chosen = sys.argv[1], [int(word) for word in sys.argv[2:]]
    missed = 0
    with tempfile.TemporaryDirectory() as folder:
        for number, slip in enumerate(SLIPS, 1):
            if chosen and number not in chosen:
                continue
            found, first = caught(tool, slip, folder)
            missed += not found
            print("%2d %s: %s" % (number, slip[0], "caught by " + first if found else "NOT CAUGHT"), flush=True)
    print("%d slips, %d not caught" % (len(chosen or SLIPS), missed))
    sys.exit(1 if missed else 0)


if __name__ == "__main__":
    main()
