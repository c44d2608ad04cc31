#!/usr/bin/env python3
"""Tries what docs/FORMAT.md says with the built programs: files at each limit, one below and one above, the order of the refusals, typed
lines and their messages, and the example in C, compiled as the page says. Run `tools/plan.sh examples/bookcase.txt` and
`bench/archive.sh optimizer_c optimizer` first."""
import os
import re
import struct
import subprocess
import sys
import tempfile

TOP = os.path.join(os.path.dirname(os.path.abspath(__file__)), "..")
CUTPLAN, PROJECT_TEXT = (os.path.join(TOP, "crates", name, "out", name) for name in ("cutplan", "project_text"))
LIBRARY = os.path.join(TOP, "target", "staticlib", "liboptimizer.a")
MOST = 1_000_000
tried = failed = 0


def run(program, given):
    done = subprocess.run([program], input=given, capture_output=True, check=False)
    return done.stdout, done.stderr.decode(), done.returncode


def hold(what, found, wanted):
    global tried, failed
    tried += 1
    if found != wanted:
        failed += 1
        print(f"{what}: {found!r}, not {wanted!r}")


# ---- project files

def record(number, width=10, length=10, quantity=1, pattern=0, flag=1, spare=0):
    return struct.pack("<QIIIBBH", number, width, length, quantity, pattern, flag, spare)


def project(stock=(), cuts=(), kerf=3, layout=0, effort=0, unit=0, spare=0):
    stock, cuts = b"".join(stock), b"".join(cuts)
    contents = struct.pack("<6I", 24, 8, 32, len(stock), 32 + len(stock), len(cuts))
    return contents + struct.pack("<IBBBB", kerf, layout, effort, unit, spare) + stock + cuts


def answer(file):
    """0 for a plan, or the number of the refusal."""
    out, err, status = run(CUTPLAN, file)
    assert status == 0 and err == "" and out.endswith(b"\n")
    return int(out.split()[1]) if out.startswith(b"refused ") else 0


BOARD, PANEL = record(1, 100, 100, 2), record(7, 20, 30)
GOOD = project([BOARD], [PANEL])


def with_bytes(at, new, file=GOOD):
    return file[:at] + new + file[at + len(new):]


def try_shape():
    hold("good", answer(GOOD), 0)
    for size in (0, 1, 23, 24, 31, len(GOOD) - 1):
        hold(f"the first {size} bytes", answer(GOOD[:size]), 2)
    hold("a byte more", answer(GOOD + b"\0"), 2)
    hold("no records", answer(project()), 0)
    hold("32 bytes", len(project()), 32)
    for at in range(24):
        hold(f"contents, byte {at}", answer(with_bytes(at, bytes([GOOD[at] ^ 1]))), 2)
    full = project([record(k) for k in range(64)], [record(k, 5, 5) for k in range(64)])
    hold("the largest file", (len(full), answer(full)), (3104, 0))
    hold("3,105 bytes", answer(full + b"\0"), 2)
    hold("longer", answer(full + bytes(100_000)), 2)
    hold("65 boards", answer(project([record(k) for k in range(65)], [])), 2)
    hold("65 panels", answer(project([BOARD], [record(k) for k in range(65)])), 2)


def try_fields():
    for name, at, most, number in (("layout", 28, 0, 14), ("effort", 29, 2, 3), ("unit", 30, 2, 3), ("last byte", 31, 0, 3)):
        for value in (0, 1, 2, 3, 255):
            wanted = 0 if value <= most else 3 if name != "layout" or value > 1 else number
            hold(f"{name} {value}", answer(with_bytes(at, bytes([value]))), wanted)
    for kerf, wanted in ((0, 0), (MOST, 0), (MOST + 1, 4), (2**32 - 1, 4)):
        hold(f"kerf {kerf}", answer(project([BOARD], [PANEL], kerf=kerf)), wanted)
    for what, start in (("board", 32), ("panel", 56)):
        for pattern in (0, 1, 2, 3, 255):
            hold(f"{what}'s pattern {pattern}", answer(with_bytes(start + 20, bytes([pattern]))), 0 if pattern < 3 else 5)
        for flag in (0, 1, 2, 255):
            hold(f"{what}'s flag {flag}", answer(with_bytes(start + 21, bytes([flag]))), 5 if flag > 1 or what == "board" and flag == 0 else 0)
        for at in (22, 23):
            hold(f"{what}'s byte {at}", answer(with_bytes(start + at, b"\1")), 5)
    for side, wanted in ((0, 6), (1, 0), (MOST, 0), (MOST + 1, 7), (2**32 - 1, 7)):
        hold(f"a board of width {side}", answer(project([record(1, side, 10)])), wanted)
        hold(f"a board of length {side}", answer(project([record(1, 10, side)])), wanted)
        big = record(1, MOST, MOST)
        hold(f"a panel of width {side}", answer(project([big], [record(1, side, 10)])), wanted)
        hold(f"a panel of length {side}", answer(project([big], [record(1, 10, side)])), wanted)
    for number in (0, 2**64 - 1):
        hold(f"id {number}", answer(project([record(number, 100, 100)], [record(number)])), 0)
    hold("unlimited", answer(project([record(1, 100, 100, 0, flag=0)], [PANEL])), 8)
    hold("unlimited with a quantity", answer(project([record(1, 100, 100, 1, flag=0)], [PANEL])), 5)
    hold("a board of quantity 0 besides", answer(project([record(2, 9, 9, 0), BOARD], [PANEL])), 0)
    hold("a panel of quantity 0", answer(project([BOARD], [record(1, quantity=0)])), 11)
    for first, second, wanted in ((1, 63, 0), (1, 64, "many"), (0, 64, 0), (64, 2**32 - 1, "many")):
        hold(f"{first} and {second} boards", answer(project([record(1, quantity=first), record(2, quantity=second)])), 10 if wanted else 0)
        panels = [record(1, 1, 1, first), record(2, 1, 1, second)] if first else [record(2, 1, 1, second)]
        hold(f"{first} and {second} panels", answer(project([record(1, 900, 900)], panels)), 12 if wanted else 0)
    hold("an id twice", answer(project([BOARD, record(1)], [PANEL])), 9)
    hold("an id twice, once of quantity 0", answer(project([record(1, quantity=0), BOARD], [PANEL])), 9)
    hold("an id of panels twice", answer(project([BOARD], [PANEL, PANEL])), 9)
    hold("no board", answer(project([], [PANEL])), 13)
    hold("boards of quantity 0 only", answer(project([record(1, quantity=0)], [PANEL])), 13)
    hold("nested without panels", run(CUTPLAN, project([BOARD], layout=1))[0], b"plan 0 fitness 3FF0000000000000 layout 1\n")
    hold("nothing at all", run(CUTPLAN, project())[0], b"plan 0 fitness 3FF0000000000000 layout 0\n")


def try_prefilter():
    for width, wanted in ((100, 0), (101, 15)):
        hold(f"a panel {width} wide", answer(project([BOARD], [record(7, width, 30)])), wanted)
    for flag, wanted in ((0, 15), (1, 0)):
        hold(f"across the board, turning {flag}", answer(project([record(1, 20, 30)], [record(7, 30, 20, 1, 0, flag)])), wanted)
        hold(f"across the grain, turning {flag}", answer(project([record(1, 20, 30, 1, 2)], [record(7, 30, 20, 1, 1, flag)])), wanted)
        hold(f"a square across the grain, turning {flag}", answer(project([record(1, 20, 20, 1, 2)], [record(7, 20, 20, 1, 1, flag)])), wanted)
    for pattern in (0, 1, 2):
        hold(f"a plain panel on pattern {pattern}", answer(project([record(1, 20, 20, 1, pattern)], [record(7, 20, 20, 1, 0, 0)])), 0)
        hold(f"pattern {pattern} on a plain board", answer(project([record(1, 20, 20)], [record(7, 20, 20, 1, pattern, 0)])), 0)
    hold("areas equal", answer(project([record(1)], [record(7)])), 0)
    hold("a unit more", answer(project([record(1, 10, 10)], [record(7, 10, 10), record(8, 1, 1)])), 16)
    hold("the area of boards of quantity 0", answer(project([record(1), record(2, 90, 90, 0)], [record(7), record(8, 1, 1)])), 16)
    hold("no layout", answer(project([record(1)], [record(7, 6, 6, 2)], kerf=0)), 17)
    boards = [record(1, 9, 1), record(2, 13, 5)]
    panels = [record(k, width, length, flag=0) for k, width, length in ((9, 2, 1), (4, 7, 2), (6, 9, 3), (7, 1, 4), (2, 7, 1))]
    for effort, wanted in ((0, 0), (1, 17), (2, 17)):
        hold(f"a layout that more effort loses, effort {effort}", answer(project(boards, panels, kerf=0, effort=effort)), wanted)
    for width, waste in ((124, [b"waste 127 0 1 64"]), (125, [])):
        text = run(CUTPLAN, project([record(1, 128, 64)], [record(7, width, 64)]))[0].splitlines()
        hold(f"waste beside {width}", [line for line in text if line.startswith(b"waste")], waste)


# each condition by itself in a project that is otherwise good, in the order of the page; the first one of any two is answered
def try_order():
    settings = [(3, dict(unit=3)), (4, dict(kerf=MOST + 1))]
    stock = [(5, dict(pattern=3)), (6, dict(width=0)), (7, dict(length=MOST + 1)), (8, dict(flag=0, quantity=0)), (9, dict(number=1)), (10, dict(quantity=65))]
    cuts = [(5, dict(flag=2)), (6, dict(length=0)), (7, dict(width=MOST + 1)), (11, dict(quantity=0)), (9, dict(number=1)), (12, dict(quantity=65))]

    def of(faults, **changed):
        """A record with all these faults."""
        for _, fault in faults:
            changed.update(fault)
        return record(**changed)

    def first(setting=(), board=(), panel=(), layout=0):
        kept = {}
        for _, fault in setting:
            kept.update(fault)
        boards = [record(1, 100, 100), of(board, number=2, width=100, length=100)]
        panels = [record(1), of(panel, number=2)]
        return answer(project(boards, panels, layout=layout, **kept))

    hold("3 before 4", first(setting=settings), 3)
    for number, fault in settings:
        hold(f"{number} before records", first(setting=[(number, fault)], board=stock[:1], panel=cuts[:1]), number)
    for name, faults in (("board", stock), ("panel", cuts)):
        for k, (number, fault) in enumerate(faults):
            hold(f"{number} of a {name}", first(**{name: [(number, fault)]}), number)
            for later, other in faults[k + 1:]:
                if not set(fault) & set(other):
                    hold(f"{number} before {later} in a {name}", first(**{name: [(number, fault), (later, other)]}), number)
    for number, fault in stock:
        for _, other in cuts:
            hold(f"{number} of a board before panels", first(board=[(number, fault)], panel=[(0, other)]), number)
    early, late = record(1, 100, 100, 65), record(2, 0, 100)
    hold("the earlier record first, boards", answer(project([early, late])), 10)
    hold("the earlier record first, panels", answer(project([BOARD], [record(1, quantity=65), record(2, 0)])), 12)
    hold("panels before 13", answer(project([], [record(1, 0)])), 6)
    hold("13 before 14", answer(project([], [PANEL], layout=1)), 13)
    hold("14 before 15", answer(project([record(1)], [record(7, 99, 99)], layout=1)), 14)
    hold("15 before 16", answer(project([record(1)], [record(7, 99, 99)])), 15)
    hold("2 before 3", answer(project([BOARD], [PANEL], unit=3) + b"\0"), 2)


# ---- texts

def typed(text):
    """The project file, or the message."""
    out, err, status = run(PROJECT_TEXT, text)
    assert status == 0 and (out == b"") == (err != "")
    return out or err.strip()


WORDS = {
    "keyword": "the first word is not kerf, layout, effort, unit, board or panel",
    "number": "a whole number is missing, or is too large",
    "choice": "the word is not one that this line can have",
    "extra": "there are more words than this line takes",
    "many": "there are more than 64 lines of boards, or of panels",
}


def try_typed():
    one = project([record(1, 100, 100)], [record(7, 20, 30, flag=0)], kerf=0)
    for text in (b"board 1 100 100\npanel 7 20 30\n", b"panel 7 20 30\nboard 1 100 100", b"\tboard 1  100 100 \r\n\r\n#\n  # c\npanel 7 20 30# c\n",
                 b"board 1 0100 100 x 1\nkerf 9\nkerf 0\nlayout nested\nlayout guillotine\npanel 7 20 30 x 1#"):
        hold(text, typed(text), one)
    hold("nothing", typed(b""), project(kerf=0))
    every = b"kerf 4\nlayout nested\neffort thorough\nunit foot\nboard 18446744073709551615 1 4294967295 x 0 grain width\npanel 0 3 4 x 5 grain length turn\n"
    hold("every word", typed(every), project([record(2**64 - 1, 1, 2**32 - 1, 0, 1)], [record(0, 3, 4, 5, 2, 1)], kerf=4, layout=1, effort=2, unit=2))
    hold("other words", typed(b"effort balanced\nunit inch\npanel 1 2 3 turn"), project([], [record(1, 2, 3)], kerf=0, effort=1, unit=1))
    hold("other words", typed(b"effort thorough\neffort fast\nunit mm\npanel 1 2 3 x 4 turn"), project([], [record(1, 2, 3, 4)], kerf=0))
    for line, why in ((b"boards 1 2 3", "keyword"), (b"Kerf 3", "keyword"), (b"3", "keyword"), (b"kerf", "number"), (b"kerf -3", "number"), (b"kerf 3.5", "number"),
                      (b"kerf 4294967295", None), (b"kerf 4294967296", "number"), (b"kerf 3 4", "extra"), (b"kerf 3mm", "number"), (b"layout", "choice"),
                      (b"layout Nested", "choice"), (b"effort best", "choice"), (b"unit cm", "choice"), (b"unit mm mm", "extra"), (b"board 1 2", "number"),
                      (b"board 18446744073709551616 1 1", "number"), (b"board 1 4294967296 1", "number"), (b"board 1 1 1 x", "number"), (b"board 1 1 1 x4", "extra"),
                      (b"board 1 1 1 x 4294967296", "number"), (b"board 1 1 1 grain", "choice"), (b"board 1 1 1 grain across", "choice"), (b"board 1 1 1 turn", "extra"),
                      (b"board 1 1 1 grain width x 2", "extra"), (b"panel 1 1 1 turn grain width", "extra"), (b"panel 1 1 1 turn turn", "extra"), (b"panel 1 1 1 turn", None),
                      (b"kerf\x0b3", "keyword"), (b"kerf 3\x0c", "number"), (b"\xef\xbb\xbfkerf 3", "keyword")):
        found = typed(b"# one\n\n" + line)
        hold(line, found if isinstance(found, str) else None, f"line 3: {WORDS[why]}" if why else None)
    hold("the first bad line", typed(b"kerf 1\nkerf\nbad"), "line 2: " + WORDS["number"])
    for kind in (b"board", b"panel"):
        lines = [kind + b" %d 1 1" % k for k in range(64)]
        hold("64 lines", len(typed(b"\n".join(lines))), 32 + 24 * 64)
        hold("65 lines", typed(b"\n".join(lines + [lines[0]])), "line 65: " + WORDS["many"])
    hold("65,535 bytes", typed(b" " * 65_535), project(kerf=0))
    hold("65,536 bytes", typed(b" " * 65_536), "the text has 65,536 bytes or more")
    hold("a plan from a refused line", run(CUTPLAN, run(PROJECT_TEXT, b"bad")[0])[0], b"refused 2\n")


# ---- the page

def try_page():
    page = open(os.path.join(TOP, "docs", "FORMAT.md")).read()
    source = open(os.path.join(TOP, "examples", "plan.c")).read()
    hold("the C on the page", source.strip() in page, True)
    names = re.findall(r"^    (\w+) = (\d+),$", open(os.path.join(TOP, "crates", "project", "src", "lib.rt")).read(), re.M)
    hold("refusals", re.findall(r"^\| (\d+) \| `(\w+)` \|", page, re.M), [(number, name) for name, number in names])
    for message in WORDS.values():
        hold(message, message in page, True)
    texts = dict(re.findall(r"```text\n(board .*?)```\n+prints\n+```text\n(plan .*?)```", page, re.S))
    hold("texts on the page", len(texts), 2)
    for text, plan in texts.items():
        hold(text, run(CUTPLAN, typed(text.encode()))[0].decode(), plan)
    with tempfile.TemporaryDirectory() as room:
        plan = os.path.join(room, "plan")
        subprocess.run(["cc", "-std=c11", "-O2", "-Wall", "-Wextra", "-Werror", os.path.join(TOP, "examples", "plan.c"), LIBRARY, "-o", plan], check=True)
        for name in ("bookcase", "drawers", "wardrobe"):
            file = typed(open(os.path.join(TOP, "examples", name + ".txt"), "rb").read())
            boards = [line.split() for line in run(plan, file)[0].decode().splitlines()]
            sheets = [line.split() for line in run(CUTPLAN, file)[0].decode().splitlines()]
            hold(f"boards of {name}", [f"{w[1]},{w[2]}" for w in boards if w[0] == "board"], [f"{w[1]}.{w[2]},,{w[3]}" for w in sheets if w[0] == "sheet"])
            hold(f"panels of {name}", [f"{w[1]} {w[3]} {w[4]}" for w in boards if w[0] == "panel"], [f"{w[1]}.{w[2]} {w[3]}, {w[4]}" for w in sheets if w[0] == "piece"])
        hold("refused in C", run(plan, b"")[0::2], (b"refused 2\n", 1))


def main():
    for program in (CUTPLAN, PROJECT_TEXT, LIBRARY):
        if not os.path.exists(program):
            sys.exit(f"{program} is not built")
    for each in (try_shape, try_fields, try_prefilter, try_order, try_typed, try_page):
        each()
    print(f"{tried} tried, {failed} failed")
    sys.exit(failed > 0)


main()
