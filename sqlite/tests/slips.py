"""Slips made in the extension one by one: a test must fail for each. (python3 sqlite/tests/slips.py BUILD FOLDER)

BUILD SOURCE EXTENSION builds it. The last line is `N passed, M failed, K skipped`.
"""

import os
import pathlib
import re
import subprocess
import sys

HERE = pathlib.Path(__file__).resolve().parent
SOURCE = (HERE.parent / "signalfern.c").read_text()

# The two columns as a call takes them, and the other way round.
UNDER = "&m->opened, m->bytes, m->len, &top->opened, top->bytes, top->len"
OVER = "&top->opened, top->bytes, top->len, &m->opened, m->bytes, m->len"

# What is changed into what, and the tests of which one must fail.
SLIPS = [
    ("int is_before = op == SQLITE_INDEX_CONSTRAINT_LT && is_whole;", "int is_before = op == SQLITE_INDEX_CONSTRAINT_LT;", "sweep"),
    ("(op == SQLITE_INDEX_CONSTRAINT_GE && !is_whole)", "0", "sweep"),
    ("(is_equal && !is_whole)", "0", "sweep"),
    ("(is_past && floor == INT64_MAX)", "0", "sweep"),
    ("floor -= (double)floor > real;", "", "sweep"),
    ("type != SQLITE_FLOAT || real >= beyond", "type != SQLITE_FLOAT", "sweep"),
    ("int type = sqlite3_value_numeric_type(value);", "int type = sqlite3_value_type(value);", "sweep"),
    ("{0, SIGNALFERN_MAX_ID}", "{0, UINT32_MAX}", "sweep"),
    ("c->page_len = c->asked_of_page = 0;", "c->page_len = 0;", "sweep"),
    ("c->ids.low = (int64_t)c->row_ids[c->count - 1] + 1;", "c->ids.low = (int64_t)c->row_ids[c->count - 1];", "sweep"),
    ("while (c->count > 0 && c->row_ids[c->count - 1] > c->ids.high)", "while (0)", "sweep"),
    ("c->ordinal += c->count;", "", "sweep"),
    ("first.kind == SIGNALFERN_FOUND ? first.ordinal :", "first.kind == SIGNALFERN_FOUND ? 0 :", "sweep"),
    ("c->ordinal = between.ordinal;", "", "sweep"),
    (f"{UNDER}, id,", f"{OVER}, id,", "sweep"),
    (f"{UNDER},\n", f"{OVER},\n", "sweep"),
    ("c->room, c->row_columns, c->room, &all);", "c->room, c->row_kinds, c->room, &all);", "sweep"),
    ("if (is_corrected(c)) {\n        signalfern_layered_page reply;", "if (0) {\n        signalfern_layered_page reply;", "sweep"),
    ("c->row_columns[0] = (uint8_t)answer.column;", "", "sweep"),
    ("c->row_columns[c->count++] = c->row_columns[i];", "c->count++;", "sweep"),
    ("return c->path == PAIRS && is_corrected(c) ? layered_look_up(c->asked, c->row_ids[c->at]).ordinal", "return 0 ? 0", "sweep"),
    ("!corrected && !(plan & ~USES_FILE) &&", "", "plans"),
    ("&& !info->aOrderBy[0].desc", "", "sweep"),
    ("info->aOrderBy[0].iColumn <= ID", "info->aOrderBy[0].iColumn <= VALUE", "sweep"),
    ("return cannot(\"use\", c->path, \"it was changed", "return SQLITE_OK; cannot(\"use\", c->path, \"it was changed", "files.Replaced"),
    ("sqlite3_vtab_config(db, SQLITE_VTAB_DIRECTONLY);", "", "files.Tables"),
    ("SQLITE_UTF8 | SQLITE_DIRECTONLY", "SQLITE_UTF8", "files.Tables"),
    ("t->machine && sqlite3_txn_state(db, argv[1]) == SQLITE_TXN_WRITE", "0", "files.Refused"),
    ("t->machine && sqlite3_txn_state(db, argv[1]) == SQLITE_TXN_WRITE", "t->machine", "files.Refused"),
    ("status = compare_told(c, &sidecar, error);", "(void)compare_told;", "files.Digests"),
    ("rest + 9 <= HASHED", "rest + 8 <= HASHED", "files.Digests"),
    ("memcmp(digest, told, DIGEST_BYTES) != 0", "memcmp(digest, told, DIGEST_BYTES - 1) != 0", "files.Digests"),
    ("return len == 0;", "return 1;", "files.Digests"),
    ("strcmp(c->named.machine.path, machine) == 0", "1", "files.Tables"),
    ("strcmp(c->named.correction.path, correction) == 0", "1", "files.Tables"),
    ("signalfern_check_to(bytes, len, &checked);", "checked = (signalfern_reply){0, 0};", "functions"),
    ("if (sqlite3_value_type(argv[i]) != SQLITE_INTEGER)", "if (0)", "functions"),
    ("if (!is_within(&lent, sqlite3_value_int64(argv[0])))", "if (0 && !is_within(&lent, sqlite3_value_int64(argv[0])))", "functions"),
    ("number >= 0 && number <= UINT32_MAX ?", "1 ?", "functions"),
]


def outcome(build, folder, old, new, tests):
    """Why a slip does not count as noticed, or nothing."""
    source, made = os.path.join(folder, "signalfern.c"), os.path.join(folder, "signalfern.so")
    if SOURCE.count(old) != 1:
        return f"is in the source {SOURCE.count(old)} times"
    pathlib.Path(source).write_text(SOURCE.replace(old, new))
    if subprocess.run([build, source, made]).returncode != 0:
        return "cannot be built"
    words = [sys.executable, str(HERE / "run.py"), made, f"tests.test_{tests}", "--share", "3" if tests == "sweep" else "1"]
    try:
        ran = subprocess.run(words, stdout=subprocess.PIPE, stderr=subprocess.STDOUT, timeout=600)
    except subprocess.TimeoutExpired:
        return ""  # (it goes round and round)
    last = ran.stdout.decode(errors="replace").splitlines()[-1:]
    counted = re.fullmatch(r"\d+ passed, (\d+) failed, \d+ skipped", last[0] if last else "")
    if counted is None:
        return f"leaves the tests without a last line: {last}"
    return "" if int(counted[1]) > 0 else "is not noticed"


def main():
    build, folder = sys.argv[1], os.path.join(sys.argv[2], "slip")
    os.makedirs(folder, exist_ok=True)
    passed = failed = 0
    for old, new, tests in SLIPS:
        why = outcome(build, folder, old, new, tests)
        passed, failed = passed + (not why), failed + bool(why)
        if why:
            print(f"slip {old!r} -> {new!r} {why}", flush=True)
    print(f"{passed} passed, {failed} failed, 0 skipped")
    sys.exit(failed > 0)


if __name__ == "__main__":
    main()
