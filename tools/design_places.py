#!/usr/bin/env python3
"""Lists the places in src/ that have a form of the older language, by the points of docs/DESIGN.md.

    tools/design_places.py [--list] [TREE]      TREE: a checkout, this one if none is named

Without --list only the counts. It goes by text: what it lists is to be read, and what it cannot see is listed on the page."""
import collections, glob, os, re, sys

ARGS = [a for a in sys.argv[1:] if a != "--list"]
LIST = "--list" in sys.argv
ROOT = ARGS[0] if ARGS else "."
FILES = sorted(glob.glob(os.path.join(ROOT, "crates/*/src/**/*.rt"), recursive=True))
FN = re.compile(r"^ *(?:pub )?(?:extern \"C\" )?(?:const )?fn (\w+)(?:<[^(]*>)?\(([^{]*?)\)(?: -> [^{;]*?)?\n?(?=\s*(?:requires|ensures|\{|;|where))", re.M | re.S)
found = collections.OrderedDict()


def put(point, path, text, at, what):
    line = text.count("\n", 0, at) + 1
    found.setdefault(point, []).append((os.path.relpath(path, ROOT), line, what))


def bodies(text, word):
    """The struct or enum items of a text: place, name, body."""
    for m in re.finditer(r"^(?:pub )?%s (\w+)(?:<[^{]*>)? \{\n(.*?)^\}" % word, text, re.M | re.S):
        yield m.start(), m.group(1), m.group(2)


def variants(body):
    flat = re.sub(r"\{[^}]*\}", "{}", body, flags=re.S)
    return [v.strip() for v in re.split(r",\s*\n", flat) if v.strip() and not v.strip().startswith("//")]


requires = collections.defaultdict(list)
groups = collections.defaultdict(list)
for path in FILES:
    text = open(path).read()
    for at, name, body in bodies(text, "enum"):
        vs = [re.sub(r"^//.*\n\s*", "", v) for v in variants(body)]
        if any(re.search(r"[({]", v) for v in vs):
            put("1 enums of which some variant holds a value", path, text, at, name)
        elif any(re.match(r"(Feasible|Passed|Fine|Nothing|Unknown)\b", v) for v in vs):
            put("1 enums of which a variant means that nothing is wrong", path, text, at, name)
    for at, name, body in bodies(text, "struct"):
        if re.search(r": bool\b", body) and name not in ("CutInstance", "FitResult"):
            put("1 flags in a struct", path, text, at, name)
        if re.search(r": \[", body) and re.search(r": usize", body):
            put("6 arrays with a count beside them", path, text, at, name)
        if len(re.findall(r": \[", body)) > 1:
            put("6 parallel arrays", path, text, at, name)
    for m in re.finditer(r"\b(?:has_\w+|merged|found|any): bool\b", text):
        if "fn " in text[text.rfind("\n\n", 0, m.start()):m.start()]:
            put("1 flags beside a value in parameters", path, text, m.start(), m.group())
    for m in re.finditer(r"^ *(?:pub )?fn (\w*_code|\w+_of)\((?:\w+: \w+|code: \w+)\)", text, re.M):
        put("1 codes: functions to and from numbers", path, text, m.start(), m.group(1))
    for m in re.finditer(r"\b(?:kind|pattern|flag|layout|effort|unit|code): u(?:8|32|64)\b|Refused\(u32\)", text):
        put("1 codes: numbers for kinds and refusals", path, text, m.start(), m.group())
    for m in re.finditer(r"^ *(?:'\w+: )?(?:while\b|loop \{)", text, re.M):
        put("3 loops that count or step by hand", path, text, m.start(), m.group().strip())
    for m in re.finditer(r"^ *(?:pub )?fn (same\w*|is_less\w*|is_greater|is_better|is_fitter|compare_\w+|\w+_less|\w+_after|lesser|greater|least|saturating_\w+|wrapping_\w+|wide|low|high|low_word|high_word|four_bytes|joined|explain|contains_key|index_of|either|both|clear|\w+_code)\(", text, re.M):
        put("4 comparisons, conversions and library functions by hand", path, text, m.start(), m.group(1))
    for m in re.finditer(r"\b(?:fittest|bare|kind|part|stop): (?:bool|Kind|Part|Stop)\b", text):
        if "fn " in text[text.rfind("\n\n", 0, m.start()):m.start()]:
            put("7 switches in parameters", path, text, m.start(), m.group())
    for m in re.finditer(r"^ *requires(?: \w+)? \{ (.*?) \}$", text, re.M | re.S):
        for part in re.split(r"\s*×\s*", m.group(1)):
            part = re.sub(r"^\((.*)\)$", r"\1", part.strip())
            requires[part].append((path, text, m.start()))
    for m in FN.finditer(text):
        ps = [p.strip() for p in m.group(2).split(",") if ":" in p]
        for a, b in zip(ps, ps[1:]):
            groups[a + ", " + b].append((path, text, m.start()))

for part, places in requires.items():
    if len(places) > 2:
        put("5 facts in the requires of three or more functions", places[0][0], places[0][1], places[0][2], "%d: %s" % (len(places), part))
for pair, places in groups.items():
    if len(places) > 2:
        put("5 pairs of parameters that travel together, in three or more functions", places[0][0], places[0][1], places[0][2], "%d: %s" % (len(places), pair))

for point in sorted(found):
    print("%4d  %s" % (len(found[point]), point))
    if LIST:
        for path, line, what in found[point]:
            print("      %s:%d: %s" % (path, line, what))
