#!/usr/bin/env python3
"""Prints the places in src/ that docs/DESIGN-PASS.md counts, a list for each of its points.

    python3 tools/places.py            the work tree
    python3 tools/places.py COMMIT     that commit
"""
import difflib
import itertools
import re
import subprocess
import sys


def texts(commit):
    if commit is None:
        names = subprocess.run(["git", "ls-files", "-co", "--exclude-standard", "crates"], capture_output=True, text=True).stdout.split()
    else:
        names = subprocess.run(["git", "ls-tree", "-r", "--name-only", commit, "crates"], capture_output=True, text=True).stdout.split()
    for name in sorted(names):
        if re.fullmatch(r"crates/\w+/src/.*\.rt", name):
            try:
                if commit is None:
                    yield name, open(name, encoding="utf-8").read()
                else:
                    yield name, subprocess.run(["git", "show", f"{commit}:{name}"], capture_output=True, text=True).stdout
            except FileNotFoundError:
                pass


PATTERNS = {
    1: [
        ("a flag", r"\b\w+: bool\b"),
        ("a case for nothing or for a fault", r"^\s+(Nothing|Missing|Wrong)\b"),
        ("a result with a value beside it", r"^\s+pub \w+: Result<"),
        ("a number for a kind", r"\bself as u8\b"),
    ],
    3: [
        ("while", r"^\s*while\b"),
        ("a range of numbers", r"^\s*for \w+ in .*\.\."),
        ("a count by hand", r"\+= 1;"),
    ],
    4: [
        ("an option or a result turned by hand", r"^\s*(Some\(\w+\)|Ok\(\w+\)|Err\(_?\w*\)|None) => (Some|Ok|Err|None|true|false)\b"),
        ("text made by hand", r"fn (text|kind_of|\w+_line)\b"),
        ("words compared one by one", r"\bif (is|spells)\("),
        ("equality or order by hand", r"fn (same|before|is_same|is)\b"),
        ("a conversion by hand", r"fn (reason|refusal)\(self\)"),
    ],
    6: [
        ("a length beside", r"\b(count|live|entries|filed|at): (usize|u32)\b"),
    ],
    7: [
        ("a step chosen by a flag", r"\bif !?(strict|space|stands|packed|wanted\.packed|descending)\b"),
        ("a test as a type", r"\bimpl.*LineTest for|trait LineTest"),
    ],
}


def functions(text):
    for found in re.finditer(r"^( *)(?:pub(?:\(\w+\))? )?fn (\w+)", text, re.M):
        indent, name = found.group(1), found.group(2)
        end = re.compile(rf"^{indent}\}}$", re.M).search(text, found.end())
        if end:
            yield name, text[found.start():end.end()]


def words(body):
    body = re.sub(r"^\s*(requires|ensures) .*$", "", body, flags=re.M)
    return re.findall(r"\w+|[^\w\s]", body)


def main():
    commit = sys.argv[1] if len(sys.argv) > 1 else None
    files = dict(texts(commit))
    for point in range(1, 8):
        print(f"== point {point}")
        count = 0
        for label, pattern in PATTERNS.get(point, []):
            for name, text in files.items():
                for number, line in enumerate(text.split("\n"), 1):
                    if not line.lstrip().startswith("//") and re.search(pattern, line):
                        count += 1
                        print(f"{name}:{number}: {label}: {line.strip()}")
        if point == 1:
            for name, text in files.items():
                for found in re.finditer(r"^(#\[derive\(.*\)\]\n)?pub(?:\(crate\))? enum (\w+)", text, re.M):
                    if "PartialEq" not in (found.group(1) or ""):
                        count += 1
                        print(f"{name}: an enum without derives: {found.group(2)}")
        if point == 2:
            by_crate = {}
            for name, text in files.items():
                for fn, body in functions(text):
                    if len(words(body)) > 35:
                        by_crate.setdefault(name.split("/")[1], []).append((name, fn, words(body)))
            for items in by_crate.values():
                for i, one in enumerate(items):
                    for other in items[i + 1:]:
                        ratio = difflib.SequenceMatcher(None, one[2], other[2], autojunk=False).ratio()
                        if ratio > 0.75:
                            count += 1
                            print(f"{one[0]} {one[1]} and {other[0]} {other[1]}: {ratio:.2f}")
        if point == 5:
            by_clause = {}
            for name, text in files.items():
                for found in re.finditer(r"^\s+(requires (?:\w+ )?\{.*\})$", text, re.M):
                    clause = re.sub(r"requires (\w+ )?", "", found.group(1))
                    by_clause.setdefault((name.split("/")[1], clause), []).append(name)
            for (crate, clause), where in by_clause.items():
                if len(where) > 2:
                    count += 1
                    print(f"{crate}: {len(where)} functions ask {clause}")
            by_group = {}
            for name, text in files.items():
                for fn, body in functions(text):
                    head = body.split("{")[0]
                    params = sorted(set(re.findall(r"\b([a-z]\w*): [&\w]", head)) - {"heap"})
                    for group in itertools.combinations(params, 3):
                        by_group.setdefault((name.split("/")[1], *group), set()).add(f"{name} {fn}")
            for (crate, *names), where in by_group.items():
                if len(where) > 3:
                    count += 1
                    print(f"{crate}: {len(where)} functions take {', '.join(names)}")
        print(f"-- {count}")


main()
