#!/usr/bin/env python3
"""Lists the places in crates/*/src that docs/DESIGN-PASS.md counts, by its points: tools/places.py [POINT ..] (without: all, counts only)."""
import difflib
import itertools
import pathlib
import re
import sys

ROOT = pathlib.Path(__file__).resolve().parent.parent / "crates"
KEYWORDS = set(
    "as break const else enum extern false fn for if impl in let loop match mod mut pub ref return self Self static struct trait true "
    "type unsafe use where while u8 u32 u64 usize i32 i64 bool".split()
)


def files():
    return sorted(ROOT.glob("*/src/*.rt"))


def functions():
    """Each function: place, name, head without its clauses, clauses, body."""
    found = []
    for path in files():
        lines = path.read_text().split("\n")
        i = 0
        while i < len(lines):
            m = re.match(r"( *)(pub )?(extern \"C\" )?(unsafe )?fn (\w+)", lines[i])
            if not m:
                i += 1
                continue
            indent = m.group(1)
            j = i
            body = False
            while lines[j] != indent + "}" and not (lines[j].endswith(";") and not body):
                body = body or lines[j] == indent + "{" or lines[j].endswith(" {") and not re.match(r"\s*(requires|ensures)\b", lines[j])
                j += 1
            text = lines[i : j + 1]
            clauses = [t for t in text if re.match(r"\s*(requires|ensures)\b", t)]
            rest = "\n".join(t for t in text if not re.match(r"\s*(requires|ensures)\b", t))
            cut = rest.find("{")
            found.append((f"{path.relative_to(ROOT)}:{i + 1}", m.group(5), rest[:cut], clauses, rest[cut:]))
            i = j + 1
    return found


def matching(pattern):
    places = []
    for path in files():
        for n, line in enumerate(path.read_text().split("\n"), 1):
            if re.search(pattern, line) and not line.lstrip().startswith("//"):
                places.append(f"{path.relative_to(ROOT)}:{n} {line.strip()}")
    return places


def heads(*patterns):
    return [f"{at} {name}" for at, name, head, _, _ in functions() if all(re.search(p, head) for p in patterns)]


def shape(body):
    tokens = re.findall(r"[A-Za-z_]\w*|\d+|\S", re.sub(r"//.*", "", body))
    return tuple(t if t in KEYWORDS or not re.match(r"\w", t) else "N" if t[0].isdigit() else "x" for t in tokens)


def twins():
    shapes = [(at, name, shape(head + body)) for at, name, head, _, body in functions()]
    shapes = [s for s in shapes if len(s[2]) >= 40]
    pairs = []
    for (a, x, p), (b, y, q) in itertools.combinations(shapes, 2):
        if min(len(p), len(q)) * 10 < max(len(p), len(q)) * 9:
            continue
        m = difflib.SequenceMatcher(None, p, q, autojunk=False)
        if m.real_quick_ratio() >= 0.93 and m.quick_ratio() >= 0.93 and m.ratio() >= 0.93:
            pairs.append(f"{a} {x} ~ {b} {y}")
    return pairs


def facts():
    """Facts in the `requires` of three or more functions."""
    where = {}
    for at, name, _, clauses, _ in functions():
        for clause in clauses:
            text = re.sub(r"^\s*requires\s*\w*\s*\{(.*)\}\s*$", r"\1", clause)
            if text == clause:
                continue
            for fact in re.split(r" × ", text.strip().replace("(", "").replace(")", "")):
                where.setdefault(fact, set()).add(at)
    return [f"{len(w)} functions: {fact}" for fact, w in sorted(where.items()) if len(w) >= 3]


POINTS = {
    "1 own enums": lambda: matching(r"^\s*(pub )?enum "),
    "1 flags beside a value": lambda: matching(r"^\s+(pub )?(good|tall|given|written|seen|behind): bool,"),
    "1 numbers for refusals and kinds": lambda: [
        f"{at} {name}"
        for at, name, head, _, _ in functions()
        if re.search(r"\b(status|op|phase|number): (&mut )?u32", head) or re.search(r"status|checks|number_at", name) and "-> u32" in head
    ]
    + matching(r"^\s+(pub )?(status|op|phase): u32,"),
    "2 twins": twins,
    "3 loops": lambda: matching(r"^\s+(while |loop \{)"),
    "4 by hand": lambda: heads(
        r"fn (wide|same|smaller|larger|higher|or|bit|copy|negated|is_word|magnitude|clear|digit|up|down|byte_at|minus_at|excess|none|nothing|no_\w+)\("
    )
    + matching(r"^\s+let none = \w+ \{"),
    "5 stores and counts": lambda: heads(r"\blits: &mut \[u32\]", r"\bends: &mut \[u32\]"),
    "5 a slice and a place": lambda: heads(r"\bout: &mut \[u8\]", r"\b(at|from): usize"),
    "5 facts": facts,
    "6 a length beside": lambda: heads(r"\b\w+: &?(mut )?\[[\w\[\]; ]+\],\s+(n|m|len|width): usize") + matching(r"^\s+(pub )?(len|count|width): (usize|u32),"),
    "7 switches": lambda: heads(r"\b(is_ne|reads|sign|lower|wanted|negate|given|falling): bool") + matching(r"if lines::is_word"),
}


def main():
    asked = sys.argv[1:]
    for point, places in POINTS.items():
        if asked and point.split()[0] not in asked:
            continue
        found = places()
        print(f"{point}: {len(found)}")
        if asked:
            print("\n".join("  " + p for p in found))


main()
