"""Records sittings with a judge's windows, for crates/replay.

    python3 oracle/record.py READBACK PROGRAM SITTINGS > crates/replay/stdin

Records so many sittings of each judge. A line of the sample is one of
    open KIND FALLING FIRST LINES CLAUSE    KIND: 0 plain, 1 elapsed, 2 mark, 3 turn; FALLING, FIRST: 1 if so
    line KEY                                a number: a mark below 0 as 2^64 and it, a turn as 2^32 * speaker + question
    window LINE START END                   the judge's window
    empty LINE                              it holds no line: SQL has no place for such a one
    file LINE
"""

import random
import sys

import compare
import sittings
from sql import judges

KINDS = ["plain", "elapsed", "mark", "turn"]


def number(kind, key):
    if key == "-":
        return key
    if kind == "turn":
        speaker, question = map(int, key.split(":"))
        return speaker * 2**32 + question
    return 0 if kind == "plain" else int(key) % 2**64


def window(line, answer, sql):
    start, end = map(int, answer.split()[1:])
    return f"empty {line}" if sql and start >= end else f"window {line} {start} {end}"


def recorded(commands, answers, sql):
    """The sample's lines; the answers are those to clauses, openings and questions."""
    answers, clause, kind = iter(answers), None, None
    for command in commands:
        word, _, rest = command.partition(" ")
        if word == "clause":
            next(answers)
            clause = rest
        elif word == "open":
            next(answers)
            kind, order, unmarked, entries = rest.split()[:4]
            falling, first = int(order == "desc"), int(unmarked == "first")
            yield f"open {KINDS.index(kind)} {falling} {first} {entries} {clause}"
        elif word == "line":
            yield f"line {number(kind, rest)}"
        elif word == "window":
            yield window(rest, next(answers), sql)
        else:
            yield command


def main(readback, program, count):
    r = random.Random(2026)
    rust = lambda script, _: compare.run(program, script)
    all_judges = [
        (rust, sittings.Domain(wide=True)),
        (judges.Postgres(), sittings.Domain(sql=True, wide=True, below=True)),
        (judges.Sqlite(), sittings.Domain(sql=True, below=True)),
    ]
    for judge, domain in all_judges:
        script = [c for _ in range(int(count)) for c in sittings.random_sitting(r, domain)]
        kept = compare.granted(script, compare.run(readback, script))
        ours = [a for _, a in kept if a.startswith(compare.COMPARED)]
        commands = [c for c, _ in kept]
        print("\n".join(recorded(commands, judge(commands, ours), domain.sql)))


if __name__ == "__main__":
    main(*sys.argv[1:])
