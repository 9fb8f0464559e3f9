"""Runs sittings through `readback` and a judge, and compares them answer by answer.

    python3 oracle/compare.py READBACK rust PROGRAM [--short] [--sittings N] [--seed S]
    python3 oracle/compare.py READBACK postgres|sqlite [--short] [--sittings N] [--seed S]

READBACK is crates/readback/out/readback, PROGRAM what oracle/rust/build made. --short runs every short
sitting instead of random ones. It ends with how many windows were compared, and with 1 where any differs.
"""

import argparse
import itertools
import random
import subprocess
import sys

import sittings
from sql import judges

COMPARED = ("frame", "open", "window")


def run(program, script):
    text = "\n".join(script) + "\n"
    done = subprocess.run([program], input=text, capture_output=True, text=True, check=True)
    return done.stdout.splitlines()


def granted(script, answers):
    """The commands that were not refused, with their answers."""
    assert len(script) == len(answers), "an answer to each command"
    return [(c, a) for c, a in zip(script, answers) if not a.startswith("refused")]


def compare(readback, judge, scripts):
    """How many windows were compared, and the first sitting that differs, if one does."""
    script = list(itertools.chain.from_iterable(scripts))
    kept = granted(script, run(readback, script))
    ours = [a for _, a in kept if a.startswith(COMPARED)]
    theirs = judge([c for c, _ in kept], ours)
    for (at, our), their in zip(enumerate(ours), theirs):
        if our != their:
            return at, difference(kept, at, our, their)
    assert len(ours) == len(theirs), "a judge that left something out"
    return sum(a.startswith("window") for a in ours), None


def difference(kept, at, our, their):
    asked = [n for n, (_, a) in enumerate(kept) if a.startswith(COMPARED)][at]
    begun = max((n for n in range(asked + 1) if kept[n][0].startswith("open")), default=0)
    return [c for c, _ in kept[max(begun - 1, 0) : asked + 1]] + [f"here: {our}", f"there: {their}"]


def chunks(items, size):
    items = iter(items)
    while part := list(itertools.islice(items, size)):
        yield part


def main():
    p = argparse.ArgumentParser(description=__doc__, formatter_class=argparse.RawTextHelpFormatter)
    p.add_argument("readback")
    p.add_argument("judge", choices=["rust", "postgres", "sqlite"])
    p.add_argument("program", nargs="?")
    p.add_argument("--short", action="store_true")
    p.add_argument("--sittings", type=int, default=1000)
    p.add_argument("--seed", type=int, default=1)
    args = p.parse_args()

    if args.judge == "rust":
        judge, domain = lambda script, _: run(args.program, script), sittings.Domain(wide=True)
    elif args.judge == "postgres":
        judge, domain = judges.Postgres(), sittings.Domain(sql=True, wide=True, below=True)
    else:
        judge, domain = judges.Sqlite(), sittings.Domain(sql=True, below=True)
    r = random.Random(args.seed)
    scripts = (
        sittings.every_short_sitting(domain)
        if args.short
        else (sittings.random_sitting(r, domain) for _ in range(args.sittings))
    )
    count = 0
    for part in chunks(scripts, 2000):
        compared, differs = compare(args.readback, judge, part)
        if differs:
            print("\n".join(differs))
            return 1
        count += compared
    print(f"{count} windows, no difference")
    return 0


if __name__ == "__main__":
    sys.exit(main())
