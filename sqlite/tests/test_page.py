"""docs/SQLITE.md: the shell prints what stands there."""

import re

from . import common

PROMPT, MORE = "    sqlite> ", "       ...> "


def examples():
    """What is typed, and what is printed after it."""
    listed, is_printed = [], False
    for line in (common.ROOT / "docs" / "SQLITE.md").read_text().splitlines():
        if line.startswith(PROMPT):
            listed.append([line[len(PROMPT) :], []])
            is_printed = True
        elif line.startswith(MORE):
            listed[-1][0] += "\n" + line[len(MORE) :]
        elif line.startswith("    ") and is_printed:
            listed[-1][1].append(line[4:].rstrip())
        else:
            is_printed = False
    return [(typed, printed) for typed, printed in listed if not typed.startswith(".load")]


class Page(common.InFolder):
    def test_each_example(self):
        self.write("machine.column", {0: 9000, 1: 4200, 2: 3900, 4: 5100, 5: 4800, 7: 2500, 9: 8800})
        self.write("correction.column", {4: 900, 7: 9500, 8: 7000})
        self.answer("SELECT writefile('damaged.column', substr(readfile('machine.column'), 1, 30));")
        listed = examples()
        self.assertGreater(len(listed), 15)
        # (One after the other in one shell; an error is printed where it happens.)
        script = "\n".join(f".print #{at}\n{typed}" for at, (typed, _) in enumerate(listed))
        out, error = self.ask(".mode list\n.headers on\n" + script)
        printed = {int(part.split("\n", 1)[0]): part.split("\n", 1)[1] for part in out.split("#")[1:]}
        errors = iter(re.findall(r"(.*error) near line \d+(: .*)", error))
        for at, (typed, expected) in enumerate(listed):
            got = [line.rstrip() for line in printed[at].splitlines()]
            if not got and expected:
                got = ["".join(next(errors))]
            self.assertEqual(got, expected, typed)
        self.assertIsNone(next(errors, None))
