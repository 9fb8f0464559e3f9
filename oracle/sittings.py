"""Scripts of sittings for `readback`, in the domain that a judge shares with it."""

import itertools
from dataclasses import dataclass

UP, UF, CURRENT = "UNBOUNDED PRECEDING", "UNBOUNDED FOLLOWING", "CURRENT ROW"


def kind_of(bound):
    """The place of a bound's kind in the order of kinds."""
    if bound == UP:
        return 0
    if bound == UF:
        return 4
    return 2 if bound == CURRENT else 1 if bound.endswith("PRECEDING") else 3


def offset_of(bound):
    return int(bound.split()[0]) if kind_of(bound) in (1, 3) else 0


def bounds(offsets, unbounded):
    sides = [f"{n} {side}" for side in ("PRECEDING", "FOLLOWING") for n in offsets]
    return [unbounded, CURRENT] + sides


@dataclass(frozen=True)
class Domain:
    """What a judge takes."""

    sql: bool = False  # no frame starts behind its end, as SQL has it
    wide: bool = False  # keys at the edges of their types, and offsets of 2^62
    below: bool = False  # targets below 0 of keys that have no sign

    def takes(self, start, end):
        return not self.sql or kind_of(start) <= kind_of(end)


def frames(domain, offsets):
    return [
        (units, start, end)
        for units in ("ROWS", "RANGE", "GROUPS")
        for start in bounds(offsets, UP)
        for end in bounds(offsets, UF)
        if domain.takes(start, end)
    ]


def is_free(frame):
    return all(kind_of(b) in (0, 2, 4) for b in frame[1:])


def kinds_for(frame):
    """The key kinds that a frame can be opened on."""
    if frame[0] == "RANGE" and not is_free(frame):
        return ["elapsed", "mark"]
    return ["elapsed", "mark", "turn"] + ([] if frame[0] == "GROUPS" else ["plain"])


def clause(frame):
    return f"clause {frame[0]} BETWEEN {frame[1]} AND {frame[2]}"


def opening(kind, order, unmarked, lines):
    return f"open {kind} {order} {unmarked} {lines + 1} roll {lines + 1}"


def in_order(keys, order, unmarked):
    """The keys in the order that RANGE asks of lines."""
    some = sorted((k for k in keys if k is not None), reverse=order == "desc")
    none = [None] * (len(keys) - len(some))
    return none + some if unmarked == "first" else some + none


def shown(kind, key):
    if key is None:
        return "-"
    return "*" if kind == "plain" else f"{key[0]}:{key[1]}" if kind == "turn" else str(key)


def lowest_key(r, kind, frame, domain):
    """A key from which on every target of a small step up or down fits the key's type."""
    far = max(offset_of(b) for b in frame[1:])
    top = 2**64 - 1 if kind == "elapsed" else 2**63 - 1
    if kind == "mark":
        lows = [-6, -(2**63) + far, top - 20 - far] if domain.wide else [-6]
    else:
        low = 0 if domain.below else far
        lows = [low, low, 2**63 - 10, top - 20 - far] if domain.wide else [low]
    return r.choice(lows)


def keys_for(r, kind, frame, order, unmarked, domain, count):
    if kind == "plain":
        return [1] * count
    if kind == "turn":
        keys = []
        for _ in range(count):
            again = keys and r.random() < 0.5
            key = (r.randint(0, 2), r.randint(0, 2))
            keys.append(keys[-1] if again else None if r.random() < 0.15 else key)
        keys_sorted = in_order(keys, order, unmarked)
        return keys_sorted if frame[0] == "RANGE" else keys
    low = lowest_key(r, kind, frame, domain)
    step = r.choice([1, 3, 12])
    keys = [None if r.random() < 0.2 else low + r.randint(0, step) for _ in range(count)]
    return in_order(keys, order, unmarked) if frame[0] == "RANGE" else keys


def random_frame(r, domain):
    small = [0, 1, 2, 3, 5]
    while True:
        units = r.choice(["ROWS", "RANGE", "GROUPS"])
        start = r.choice(bounds(small, UP))
        end = r.choice(bounds(small, UF))
        if domain.wide and r.random() < 0.2:
            far = 2**62 + r.randint(0, 9)
            start = r.choice([start, f"{far} PRECEDING", f"{far} FOLLOWING"])
            end = r.choice([end, f"{far} PRECEDING", f"{far} FOLLOWING"])
        if domain.takes(start, end):
            return units, start, end


def random_sitting(r, domain):
    """A transcript that grows a few lines at a time, questions, and filings."""
    frame = random_frame(r, domain)
    kind = r.choice(kinds_for(frame))
    order, unmarked = r.choice(["asc", "desc"]), r.choice(["first", "last"])
    count = r.randint(1, 24)
    keys = keys_for(r, kind, frame, order, unmarked, domain, count)
    script = [clause(frame), opening(kind, order, unmarked, count)]
    line = added = 0
    while added < count:
        come = min(count - added, r.choice([1, 1, 1, 2, 3, 5]))
        script += [f"line {shown(kind, k)}" for k in keys[added : added + come]]
        added += come
        for _ in range(r.choice([0, 1, 1, 2, 4])):
            line = min(added - 1, line + r.choice([0, 1, 1, 2, 3]))
            script.append(f"window {line}")
        # `readback` refuses those that are filed too far, or were before
        if r.random() < 0.6:
            script += [f"file {n}" for n in sorted(r.sample(range(line + 2), min(3, line + 2)))]
    return script + [f"window {n}" for n in range(line, count)]


def few_keys(kind, frame, domain):
    if kind == "plain":
        return [1]
    if kind == "turn":
        return [None, (0, 0), (0, 1), (1, 0)]
    far = max(offset_of(b) for b in frame[1:])
    low = -2 if kind == "mark" else 0 if domain.below else far
    return [None, low, low + 1, low + 3]


def every_short_sitting(domain, longest=4):
    """All transcripts of a few keys, all frames of small offsets; each line asked as it comes, and at the end."""
    for frame in frames(domain, [0, 1, 2]):
        ranged = frame[0] == "RANGE"
        for kind, order, unmarked in itertools.product(
            kinds_for(frame), ["asc", "desc"] if ranged else ["asc"], ["first", "last"] if ranged else ["last"]
        ):
            for keys in transcripts(few_keys(kind, frame, domain), longest):
                if not ranged or keys == in_order(keys, order, unmarked):
                    yield from short_sittings(frame, kind, order, unmarked, keys)


def transcripts(some, longest):
    lists = [[]]
    for _ in range(longest):
        lists = [keys + [k] for keys in lists for k in some]
    return lists


def short_sittings(frame, kind, order, unmarked, keys):
    """Asked as lines come, filed as far as allowed; and asked of all lines at the end."""
    start = [clause(frame), opening(kind, order, unmarked, len(keys))]
    lines = [f"line {shown(kind, k)}" for k in keys]
    live = []
    for n, line in enumerate(lines):
        live += [line, f"window {n}"] + [f"file {f}" for f in range(1, n + 1)]
    yield start + live
    yield start + lines + [f"window {n}" for n in range(len(keys))]
