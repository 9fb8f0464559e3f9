"""The inputs of docs/DIFFERENCES.md: what the Rust answers, what `readback` answers, and PostgreSQL.

    python3 oracle/differences.py READBACK PROGRAM

Ends with 1 where an answer is another than the page says, or where PostgreSQL sides with the Rust.
"""

import sys

import compare
from sql import judges

TOP, LOW = 2**64 - 1, -(2**63)

# what it is, the clause, what is opened, keys, the line asked, the Rust's window, ours, whether SQL takes it
LISTED = [
    ("a key below the offset", "RANGE BETWEEN UNBOUNDED PRECEDING AND 1 PRECEDING", "elapsed asc last", ["0"], 0, (0, 1), (0, 0), True),
    ("the same, falling", "RANGE BETWEEN 1 FOLLOWING AND UNBOUNDED FOLLOWING", "elapsed desc last", ["0"], 0, (0, 1), (1, 1), True),
    ("a sum past the type, an unmarked line behind", "RANGE BETWEEN CURRENT ROW AND 1 FOLLOWING", "elapsed asc last", [str(TOP), "-"], 0, (0, 2), (0, 1), True),
    ("the same at the start of the window", "RANGE BETWEEN 1 FOLLOWING AND UNBOUNDED FOLLOWING", "mark asc last", [str(2**63 - 1), "-"], 0, (2, 2), (1, 2), True),
    ("a difference below the type, an unmarked line in front", "RANGE BETWEEN 1 PRECEDING AND CURRENT ROW", "mark asc first", ["-", str(LOW)], 1, (0, 2), (1, 2), True),
    ("the same at the end of the window", "RANGE BETWEEN UNBOUNDED PRECEDING AND 1 PRECEDING", "mark asc first", ["-", str(LOW)], 1, (0, 0), (0, 1), True),
    ("a sum past the type, falling", "RANGE BETWEEN 1 PRECEDING AND CURRENT ROW", "elapsed desc first", ["-", str(TOP)], 1, (0, 2), (1, 2), True),
    ("a row number past 64 bits", f"ROWS BETWEEN {TOP} FOLLOWING AND UNBOUNDED FOLLOWING", "plain asc last", ["*", "*"], 1, (0, 2), (2, 2), False),
    ("the same at the end", f"ROWS BETWEEN CURRENT ROW AND {TOP} FOLLOWING", "plain asc last", ["*"], 0, (0, 0), (0, 1), False),
    ("a turn number past 64 bits", f"GROUPS BETWEEN {TOP} FOLLOWING AND UNBOUNDED FOLLOWING", "mark asc last", ["1", "2"], 1, (0, 2), (2, 2), False),
    ("the same at the end", f"GROUPS BETWEEN CURRENT ROW AND {TOP} FOLLOWING", "mark asc last", ["1", "2"], 1, (1, 1), (1, 2), False),
    ("an unmarked line under plain", "RANGE BETWEEN CURRENT ROW AND CURRENT ROW", "plain asc last", ["*", "-"], 0, (0, 2), (0, 1), False),
]


def script_of(clause, opened, keys, line):
    n = len(keys) + 1
    return [f"clause {clause}", f"open {opened} {n} roll {n}", *(f"line {k}" for k in keys), f"window {line}"]


def main(readback, program):
    postgres, bad = judges.Postgres(), 0
    for what, clause, opened, keys, line, theirs, ours, sql in LISTED:
        script = script_of(clause, opened, keys, line)
        here, there = compare.run(readback, script), compare.run(program, script)
        answers = [a for a in here if a.startswith(compare.COMPARED)]
        seen = here[-1] if not sql else postgres(script, answers)[-1]
        if (here[-1], there[-1], seen) != ("window %d %d" % ours, "window %d %d" % theirs, here[-1]):
            print(f"{what}: here {here[-1]}, the Rust {there[-1]}, PostgreSQL {seen if sql else 'not asked'}")
            bad = 1
    print("as listed" if not bad else "not as listed")
    return bad


if __name__ == "__main__":
    sys.exit(main(*sys.argv[1:]))
