"""The windows of a script of sittings as databases have them: the lines that an aggregate over the frame sees."""

import os
import shutil
import sqlite3
import subprocess
import tempfile


class Case:
    """A list of lines under one clause and order, and the lines asked of it."""

    def __init__(self, keys):
        self.keys = keys
        self.asked = []


def key_of(kind, word):
    """A line's order columns; a second one only turns have."""
    if kind == "plain":
        return (0, 0)
    if word == "-":
        return (None, None)
    first, _, second = word.partition(":")
    return (int(first), int(second) if second else 0)


def turn_numbers(keys):
    numbers = []
    for n, key in enumerate(keys):
        numbers.append(numbers[-1] + (key != keys[n - 1]) if n else 0)
    return numbers


def read(script):
    """By frame, kind and order: the cases; and where each answer of the script is found."""
    groups, places = {}, []
    frame = group = kind = None
    keys, case = [], None
    for command in script:
        word, _, rest = command.partition(" ")
        if word == "clause":
            frame = rest
            places.append(None)
        elif word == "open":
            kind, order, unmarked = rest.split()[:3]
            group, keys, case = (frame, kind, order, unmarked), [], None
            places.append(None)
        elif word == "line":
            keys, case = keys + [key_of(kind, rest)], None
        elif word == "window":
            if case is None:
                case = Case(keys)
                groups.setdefault(group, []).append(case)
            case.asked.append(int(rest))
            places.append((case, int(rest)))
    return groups, places


def query(group):
    frame, kind, order, unmarked = group
    by = f"{order} NULLS {unmarked}"
    # The lines of a turn stand together, in whatever order turns come; so GROUPS goes by the turn's number.
    columns = {"ROWS": "n", "GROUPS": "turn"}.get(frame.split()[0])
    if columns is None:
        columns = f"a {by}, b {by}" if kind == "turn" else f"a {by}"
    return (
        "SELECT c, n, min(n) OVER w, max(n) OVER w, count(n) OVER w FROM lines "
        f"WINDOW w AS (PARTITION BY c ORDER BY {columns} {frame})"
    )


def rows(cases):
    for c, case in enumerate(cases):
        for n, ((a, b), turn) in enumerate(zip(case.keys, turn_numbers(case.keys))):
            yield c, n, turn, a, b


def answers(groups, places, ours, seen):
    """What the database sees, in the words of `readback`. An empty window has no place in SQL: it is taken
    to stand where `readback` has it, if that is empty too."""
    out = []
    for place, our in zip(places, ours):
        if place is None:
            out.append(our)
            continue
        low, high, count = seen[id(place[0]), place[1]]
        start, end = map(int, our.split()[1:])
        if not count:
            out.append(our if start >= end else "window of no lines")
        elif high - low + 1 != count:
            out.append("window with gaps")
        else:
            out.append(f"window {low} {high + 1}")
    return out


class Database:
    def __call__(self, script, ours):
        groups, places = read(script)
        seen = {}
        for group, cases in groups.items():
            for c, n, low, high, count in self.ask(query(group), rows(cases)):
                seen[id(cases[c]), n] = (low, high, count)
        return answers(groups, places, ours, seen)


class Sqlite(Database):
    def __init__(self):
        self.db = sqlite3.connect(":memory:")
        self.db.execute("CREATE TABLE lines (c INT, n INT, turn INT, a INT, b INT)")

    def ask(self, text, lines):
        self.db.execute("DELETE FROM lines")
        self.db.executemany("INSERT INTO lines VALUES (?, ?, ?, ?, ?)", lines)
        return self.db.execute(text).fetchall()


class Postgres(Database):
    """A server of its own in a folder of its own, ended with the run. It will not run as root."""

    def __init__(self):
        self.home = tempfile.mkdtemp()
        self.user = ["runuser", "-u", "postgres", "--"] if os.getuid() == 0 else []
        if self.user:
            shutil.chown(self.home, "postgres")
        self.call("initdb", "-D", f"{self.home}/data", "-A", "trust", "-U", "judge")
        options = f"-k {self.home} -c listen_addresses= -c fsync=off"
        self.call("pg_ctl", "-D", f"{self.home}/data", "-w", "-l", f"{self.home}/log", "-o", options, "start")

    def __del__(self):
        self.call("pg_ctl", "-D", f"{self.home}/data", "-m", "immediate", "stop")
        shutil.rmtree(self.home, ignore_errors=True)

    def call(self, *words):
        subprocess.run(self.user + list(words), check=True, stdout=subprocess.DEVNULL, cwd="/")

    def __call__(self, script, ours):
        groups, places = read(script)
        # all in one session of psql, each answer behind a line of its own
        text = ["CREATE TEMP TABLE lines (c int, n int, turn int, a numeric, b numeric);"]
        for group, cases in groups.items():
            lines = ["\t".join("\\N" if v is None else str(v) for v in row) for row in rows(cases)]
            text += ["TRUNCATE lines;", "COPY lines FROM STDIN;", *lines, "\\."]
            text += ["\\echo group", query(group) + ";"]
        options = ["-qAt", "-F", " ", "-v", "ON_ERROR_STOP=1", "-h", self.home, "-U", "judge"]
        text = "\n".join(text) + "\n"
        done = subprocess.run(
            ["psql", *options, "postgres"], input=text, capture_output=True, text=True
        )
        if done.returncode:
            raise RuntimeError(done.stderr)
        seen, left = {}, iter(groups.values())
        for line in done.stdout.splitlines():
            if line == "group":
                cases = next(left)
                continue
            c, n, low, high, count = (int(w) if w else None for w in line.split(" "))
            seen[id(cases[c]), n] = (low, high, count)
        return answers(groups, places, ours, seen)
