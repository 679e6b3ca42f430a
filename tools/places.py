#!/usr/bin/env python3
"""Counts the places in src/ at which an older form of code may stand, point by point.

    python3 tools/places.py [--list] [POINT..]

Tests are left out. What a pattern finds is a candidate; docs/DESIGN-PASS.md says which of them are places.
"""
import collections
import glob
import re
import sys

TESTS = re.compile(r"(^|/)(tests|run_tests|dose_tests|pair_and_dose_tests)\.rt$|/store_tests/")


def files():
    names = sorted(glob.glob("crates/*/src/**/*.rt", recursive=True))
    return [n for n in names if not TESTS.search(n)]


def code(name):
    """The lines of a file with comments blanked."""
    return [re.sub(r"(^|\s)//.*", "", line) for line in open(name, encoding="utf-8").read().split("\n")]


def found(pattern, skip=None):
    hits = []
    for name in files():
        for number, line in enumerate(code(name), 1):
            if "ghost " in line or re.match(r"\s*(requires|ensures)\b", line):
                continue
            if re.search(pattern, line) and not (skip and re.search(skip, line)):
                hits.append(f"{name}:{number}: {line.strip()}")
    return hits


def spans(pattern):
    """Like found, over the whole text of a file, for what is laid out in several lines."""
    hits = []
    for name in files():
        text = "\n".join(code(name))
        for m in re.finditer(pattern, text):
            number = text.count("\n", 0, m.start()) + 1
            hits.append(f"{name}:{number}: {' '.join(m.group(0).split())}")
    return hits


def clauses():
    hits = []
    for name in files():
        for number, line in enumerate(code(name), 1):
            m = re.match(r"\s*(requires|ensures)\*?\s*(\w+\s*)?\{(.*)\}\s*$", line)
            if m:
                hits.append((name, number, m.group(1), m.group(3).strip()))
    return hits


def items(pattern):
    """Each line that begins an item: the match, the file, its lines and the index of this one."""
    for name in files():
        lines = code(name)
        for i, line in enumerate(lines):
            m = re.match(pattern, line)
            if m:
                yield m, name, lines, i


def functions():
    """Each function with its body: name, file, line, text."""
    out = []
    for m, name, lines, i in items(r"\s*(pub(\(crate\))?\s+)?(final\s+)?fn\s+(\w+)"):
        j = i
        while j < len(lines) and lines[j].strip() != "{" and not re.search(r"\)\s*(->.*)?\{\s*$|;\s*$", lines[j]):
            j += 1
        if j >= len(lines) or lines[j].rstrip().endswith(";"):
            continue
        depth, body = 0, []
        for k in range(j, len(lines)):
            text = lines[k][lines[k].rfind("{") :] if k == j else lines[k]
            depth += text.count("{") - text.count("}")
            body.append(text.strip())
            if depth == 0:
                break
        out.append((m.group(4), name, i + 1, " ".join(b for b in body if b)))
    return out


def types():
    """Each struct and enum with its fields: name, file, line, text."""
    out = []
    for m, name, lines, i in items(r"\s*(pub(\(crate\))?\s+)?(struct|enum)\s+(\w+)"):
        if lines[i].rstrip().endswith(";"):
            continue
        end = next((k for k in range(i, len(lines)) if lines[k].rstrip().endswith("}")), i)
        out.append((m.group(4), name, i + 1, " ".join(t.strip() for t in lines[i : end + 1] if t.strip())))
    return out


def skeleton(body):
    body = re.sub(r"b?'[^']*'|b?\"[^\"]*\"", "L", body)
    body = re.sub(r"\b\d[\d_]*\w*\b", "L", body)
    keep = {"let", "mut", "if", "else", "match", "for", "in", "while", "return", "self", "Self", "Ok", "Err", "Some", "None", "true", "false", "as"}
    return re.sub(r"\b[A-Za-z_]\w*\b", lambda m: m.group(0) if m.group(0) in keep else "I", body)


def groups(items, key):
    by = collections.defaultdict(list)
    for it in items:
        by[key(it)].append(it)
    return [g for g in by.values() if len(g) > 1]


def twins():
    hits = []
    fns, ts = functions(), types()
    same = groups([f for f in fns if len(f[3]) > 12], lambda f: f[3])
    for g in same:
        hits.append("same body: " + ", ".join(f"{n} {p}:{l}" for n, p, l, _ in g))
    for g in groups(ts, lambda t: t[3]):
        hits.append("same type: " + ", ".join(f"{n} {p}:{l}" for n, p, l, _ in g))
    known = {id(f) for g in same for f in g}
    rest = [f for f in fns if id(f) not in known and len(f[3]) > 24]
    for g in groups(rest, lambda f: skeleton(f[3])):
        hits.append("same shape: " + ", ".join(f"{n} {p}:{l}" for n, p, l, _ in g))
    return hits


def facts():
    by = collections.Counter()
    for _, _, kind, fact in clauses():
        m = re.match(r"^(∥ )?([A-Z]\w+)( \S+)* (self|store)[\w.]*$", fact)
        if m:
            by[(kind, re.sub(r"\.(now|old|new)\b", "", fact))] += 1
        elif re.match(r"^[\w.]+ (≤|<) [\w ^.]+$", fact):
            by[(kind, re.sub(r"\.(now|old|new)\b", "", fact))] += 1
    return [f"{n} times: {kind} {fact}" for (kind, fact), n in by.most_common() if n >= 3]


POINTS = {
    "1a": ("enums", lambda: found(r"^\s*(pub(\(crate\))? )?enum ")),
    "1b": ("arms that rebuild an Option, a Result or a bool", lambda: found(r"=> *(return )?(Ok|Err|Some|None|true|false)\b")),
    "1c": ("branches that do", lambda: spans(r"\{\s*(Some|Ok|true)\b[^{};]*\}\s*else\s*\{\s*(None|Err|false)\b[^{};]*\}")),
    "1d": ("guards that return None, false or a fault", lambda: spans(r"if [^{};]*\{\s*return (None|false|Err\([^;{}]*\));\s*\}")),
    "1e": ("cases with a number", lambda: found(r"^\s*[\w:]+(\([\w_]+\))?( \| [\w:]+(\([\w_]+\))?)* => \d+,")),
    "2": ("twins", twins),
    "3": ("loops", lambda: found(r"^\s*(for|while|loop)\b")),
    "4a": ("casts to a type that From or TryFrom reaches", lambda: found(r"\bas (i64|u64|i32|u32|u8|u16)\b|\b(as usize)\)$|^\s*v as usize$|Ok\(\w+ as usize\)")),
    "4b": ("conversions, comparisons and printing as functions of their own", lambda: found(r"^\s*(pub(\(crate\))? )?fn (number|refusal|layer|column|print_\w+|is_flush|place|place_of|classify|values_of|counts|collected|index_of|shades_\w+|is_\w+_word)\b")),
    "5": ("facts in the contracts of three functions and more", facts),
    "6": ("lent tables, counts beside them, arrays with a count", lambda: found(r"&'a mut \[|^\s*(used|noted|copied|slots): u32|\[u32; 8\]|\[\w+; \d+\] =|const \w+: \[")),
    "7": ("a switch handed to a function", lambda: found(r"fn \w+(<[^>]*>)?\(.*\b\w+: bool\b")),
    "8": ("files of answers", lambda: sorted(glob.glob("crates/*/proofs/**/Answers.antt", recursive=True))),
}


def main():
    args = sys.argv[1:]
    listing = "--list" in args
    wanted = [a for a in args if not a.startswith("--")]
    for point, (what, find) in POINTS.items():
        if wanted and not any(point.startswith(w) for w in wanted):
            continue
        hits = find()
        print(f"{point}: {what}: {len(hits)}")
        if listing:
            for h in hits:
                print("    " + h)


main()
