#!/usr/bin/env python3
"""Brings the repository's own definitions and lemmas to today's spelling of names.

Run once at the top, after the kit's port.py: words are in snake case, types and modules in camel case. A name is
respelled where a file of specs/ or proofs/ declares it (a signature, a field, a bound variable), and then wherever it
stands as a whole word in .antt files, in the clauses of .rt files and in must-fail edits. Names of the library and
names that the check makes (goals and the steps of a proof) are left as they are. Functions of src/ keep their names.
"""
import glob
import re
import sys

WORD = r"[A-Za-z][A-Za-z0-9_'′₀-₉ₐ-ₜ]*"
KEBAB = re.compile(rf"^{WORD}(?:-[A-Za-z0-9_'′₀-₉ₐ-ₜ]+)+$")
TOKEN = re.compile(rf"(?<![A-Za-z0-9_'′₀-₉-]){WORD}(?:-[A-Za-z0-9_'′₀-₉ₐ-ₜ]+)+(?![A-Za-z0-9_'′₀-₉-])")
# names whose new spelling would fall together with another name, and what they are called instead
INSTEAD = {"Tracing-ends": "TracingAlwaysEnds"}
# names with an operator in them
ODD = {"below-2^30": "below_2^30"}


def files(*patterns):
    found = []
    for pattern in patterns:
        found += glob.glob(pattern, recursive=True)
    return sorted(f for f in found if "/out/" not in f)


def declared(text):
    """Kebab names that a file declares, but for answers and invariants, whose names the check makes."""
    names = set()
    for line in text.split("\n"):
        if line.lstrip().startswith("--"):
            continue
        m = re.match(r"^\s*(?:(?:pub|abbrev|unfoldable)\s+)*([^\s(){}:;,]+) :(?: |$)(.*)", line)
        if m and KEBAB.match(m.group(1)) and not re.match(r"\s*(goal|given)\.", m.group(2)):
            names.add(m.group(1))
        m = re.match(r"^\s*(?:(?:pub|abbrev|unfoldable)\s+)*(?:record|data|ruleset)\s+([^\s:({]+)", line)
        if m and KEBAB.match(m.group(1)):
            names.add(m.group(1))
        for group in re.findall(r"[({]([^(){}:;=]+) : ", line):
            names.update(x for x in group.split() if KEBAB.match(x))
        for name in re.findall(r"\blet ([^\s:=(){}]+) (?::|=)", line):
            if KEBAB.match(name):
                names.add(name)
        # bound in a pair or by a function
        for group in re.findall(r"\blet (\(.*?\)) = ", line):
            names.update(TOKEN.findall(group))
        for group in re.findall(r"λ ([^.()]+)\.", line):
            names.update(x for x in group.split() if KEBAB.match(x))
    return names


def imported_from_elsewhere(text, own):
    names = set()
    for path, inside in re.findall(r"use ([A-Za-z_.'+]+)\.\{([^}]*)\}", text):
        parts = path.split(".")
        if parts[0] == "Rattle" and len(parts) > 1 and parts[1] in own:
            continue
        names.update(x.strip().split(" as ")[0] for x in inside.split(","))
    return names


def respelled(name):
    if name in INSTEAD:
        return INSTEAD[name]
    if name[0].isupper():
        return "".join(part[0].upper() + part[1:] for part in name.split("-"))
    return name.replace("-", "_")


# the words of the names that the check makes, beside those of the source
MADE = {
    "overflow_add", "overflow_sub", "overflow_mul", "overflow_shl", "overflow_shr", "overflow_neg", "overflow_step",
    "overflow_cast", "nonzero_div", "nonzero_rem", "slice_bounds", "offset_bounds", "in_ok", "in_err", "in_default",
    "invariant_of", "type_inv", "from_residual", "copy_from_slice", "unsigned_abs", "is_ok", "is_err", "is_some",
    "is_none", "ok_or", "rem_euclid", "as_slice", "split_at", "to_vec", "extend_from_slice",
}


def source_words():
    words = set(MADE)
    for f in files("crates/*/src/**/*.rt"):
        words |= set(re.findall(r"\b[a-z][a-z0-9]*(?:_[a-z0-9]+)+\b", open(f).read()))
    return words


def joined(name, words):
    """A name that the check makes, with the words of the source in it in their own spelling."""
    parts, out, i = name.split("-"), [], 0
    while i < len(parts):
        j = next((j for j in range(len(parts), i + 1, -1) if "_".join(parts[i:j]) in words), i + 1)
        out.append("_".join(parts[i:j]))
        i = j
    return "-".join(out)


def outside_strings(line, change):
    """Applies a change to a line of Rust but for its strings and comments."""
    parts = re.split(r'("(?:[^"\\]|\\.)*"|//.*$)', line)
    return "".join(p if i % 2 else change(p) for i, p in enumerate(parts))


def main():
    own = {line.split(":")[0].split()[0] for line in open("crates.txt") if line.strip() and not line.startswith("#")}
    antt = files("crates/*/specs/**/*.antt", "crates/*/proofs/**/*.antt")
    texts = {f: open(f).read() for f in antt}
    names, foreign = set(), set()
    for text in texts.values():
        names |= declared(text)
        foreign |= imported_from_elsewhere(text, own)
    for f in files("crates/*/src/**/*.rt"):
        foreign |= imported_from_elsewhere(open(f).read(), own)
    names -= foreign
    spelling = {n: respelled(n) for n in names}
    if "--list" in sys.argv:
        for n in sorted(spelling):
            print(n, spelling[n])
        return

    def change(part):
        return TOKEN.sub(lambda m: spelling.get(m.group(0), m.group(0)), part)

    words = source_words()

    def rename(part):
        return TOKEN.sub(lambda m: m.group(0) if m.group(0) in foreign else joined(m.group(0), words), part)

    for f, text in texts.items():
        lines = text.split("\n")
        out = [l if l.lstrip().startswith("--") else change(l) for l in lines]
        for old, new_name in ODD.items():
            out = [l.replace(old, new_name) for l in out]
        if f.endswith(("/Answers.antt", "/Invariants.antt")) and f.count("/") > 3:
            out = [l if l.lstrip().startswith("--") else rename(l).replace(".-i", "._i") for l in out]
        new = "\n".join(out)
        if new != text:
            open(f, "w").write(new)
    for f in files("crates/*/src/**/*.rt", "crates/*/must-fail/*.edit"):
        text = open(f).read()
        new = "\n".join(outside_strings(l, change) for l in text.split("\n"))
        if new != text:
            open(f, "w").write(new)


main()
