#!/usr/bin/env python3
"""How many sheets have no guide, and how many of those can still be sawn edge to edge.

    count_guides.py make SEED COUNT EFFORT    projects of carcases on standard output, as records: the length in four bytes, the bytes
    count_guides.py count PROJECTS TEXTS      the records of projects and those of their texts, as `driver batch` writes them
    count_guides.py sheets KERF               one plan's text on standard input: each sheet's guide, and whether it can be sawn

A sheet can be sawn edge to edge if it holds at most one piece, or if a straight cut as thick as the kerf, from one edge of the part to the
other, leaves every piece whole and some on either side, and both sides can be sawn. Which such cut is made first does not matter: the other
cuts stay possible. A cut can be moved up to the next piece's start, so only starts are tried."""
import random
import struct
import sys


# ---- sawing

def line(pieces, axis, kerf):
    """A place where a cut across the axis may end: every piece ends a kerf before it or starts behind it, and there are both."""
    for at in sorted({p[axis] for p in pieces})[1:]:
        if all(p[axis] >= at or p[axis] + p[axis + 2] + kerf <= at for p in pieces):
            return at
    return None


def can_be_sawn(pieces, kerf):
    if len(pieces) < 2:
        return True
    for axis in (0, 1):
        at = line(pieces, axis, kerf)
        if at is not None:
            return can_be_sawn([p for p in pieces if p[axis] < at], kerf) and can_be_sawn([p for p in pieces if p[axis] >= at], kerf)
    return False


# ---- texts

def sheets_of(text):
    """Of each sheet its pieces and how many nodes its guide has."""
    sheets = []
    for words in map(str.split, text.splitlines()):
        if words[0] == "sheet":
            sheets.append([[], 0])
        elif words[0] == "piece":
            sheets[-1][0].append(tuple(map(int, words[3:7])))
        elif words[0] == "guide":
            sheets[-1][1] = int(words[1])
    return sheets


def records(path):
    data, at = open(path, "rb").read(), 0
    while at < len(data):
        size = int.from_bytes(data[at:at + 4], "little")
        yield data[at + 4:at + 4 + size]
        at += 4 + size


def count(projects, texts):
    plans = refused = sheets = without = sawn = with_some = 0
    for file, text in zip(records(projects), records(texts), strict=True):
        kerf = int.from_bytes(file[24:28], "little")
        if text.startswith(b"refused"):
            refused += 1
            continue
        plans += 1
        found = sheets_of(text.decode())
        bare = [pieces for pieces, nodes in found if nodes == 0]
        assert all(can_be_sawn(pieces, kerf) for pieces, nodes in found if nodes > 0), "a guide of what cannot be sawn"
        sheets += len(found)
        without += len(bare)
        with_some += bool(bare)
        sawn += sum(can_be_sawn(pieces, kerf) for pieces in bare)
    print(f"{plans} plans, {refused} refused; {sheets} sheets, {without} without a guide ({100 * without / sheets:.1f} %), in {with_some} plans "
          f"({100 * with_some / plans:.1f} %); of these sheets {sawn} can be sawn edge to edge, {without - sawn} cannot")


# ---- carcases

def record(number, width, length, quantity, pattern, flag):
    return struct.pack("<QIIIBBH", number, width, length, quantity, pattern, flag, 0)


def carcase(dice):
    """Panels of a bookcase, a wardrobe or a chest of drawers, in 18 mm: how long along the grain, how wide, how many, and whether it shows."""
    kind = dice.choice(["bookcase", "wardrobe", "chest"])
    if kind == "bookcase":
        height, width, depth = dice.randrange(900, 2201, 50), dice.randrange(500, 1201, 50), dice.choice([250, 280, 300, 320])
        yield height, depth, 2, True
        yield width - 36, depth, 2, True
        yield width - 38, depth - 20, dice.randint(2, 6), True
        yield width - 36, 100, 1, True
        if height - 18 <= 2440 and width - 18 <= 1220:
            yield height - 18, width - 18, dice.randint(0, 1), True
    elif kind == "wardrobe":
        height, width = dice.randrange(1900, 2301, 50), dice.randrange(800, 1601, 50)
        yield height, 600, 2, True
        yield width - 36, 580, dice.randint(2, 3), True
        yield height - 100, 580, dice.randint(0, 1), True
        yield height - 20, width // 2 - 4, 2, True
        yield width // 2 - 40, 560, dice.randint(2, 5), False
        yield width - 36, 100, 1, False
        yield height - 18, width // 2 - 9, 2, False
    else:
        height, width, depth, drawers = dice.randrange(600, 1101, 50), dice.randrange(400, 1001, 50), dice.choice([400, 450, 500]), dice.randint(2, 5)
        yield height, depth, 2, True
        yield width - 36, depth, 2, True
        yield width - 4, (height - 100) // drawers, drawers, True
        yield depth - 20, 150, 2 * drawers, False
        yield width - 72, 150, 2 * drawers, False
        yield width - 72, depth - 32, drawers, False


def project(seed, number, effort):
    """One or two carcases, in veneered board (the grain along the board, hidden panels may turn) or in plain board (all may turn)."""
    dice = random.Random(f"{seed}/{number}")
    veneered = dice.random() < 0.5
    panels = [p for _ in range(dice.randint(1, 2)) for p in carcase(dice) if p[2] > 0]
    cuts, left = [], 64
    for along, across, quantity, shows in panels:
        quantity, held = min(quantity, left), veneered and shows
        left -= quantity
        if quantity:
            cuts.append((along, across, quantity, 1 if held else 0, 0 if held else 1))
    area = sum(along * across * quantity for along, across, quantity, _, _ in cuts)
    boards = [(2440, 1220, 2 + area * 4 // (3 * 2440 * 1220), 1 if veneered else 0)]
    for _ in range(dice.choice([0, 0, 1, 2, 3])):
        boards.insert(0, (dice.randrange(600, 2001, 20), dice.randrange(300, 901, 20), 1, 1 if veneered else 0))
    stock = b"".join(record(k, *b, 1) for k, b in enumerate(boards, 1))
    asked = b"".join(record(k, *c) for k, c in enumerate(cuts, 10))
    contents = struct.pack("<6I", 24, 8, 32, len(stock), 32 + len(stock), len(asked))
    return contents + struct.pack("<IBBBB", 3, 0, effort, 0, 0) + stock + asked


def make(seed, how_many, effort):
    for number in range(how_many):
        file = project(seed, number, effort)
        sys.stdout.buffer.write(struct.pack("<I", len(file)) + file)


def main():
    if sys.argv[1:2] == ["make"]:
        make(sys.argv[2], int(sys.argv[3]), int(sys.argv[4]))
    elif sys.argv[1:2] == ["count"]:
        count(sys.argv[2], sys.argv[3])
    elif sys.argv[1:2] == ["sheets"]:
        for k, (pieces, nodes) in enumerate(sheets_of(sys.stdin.read())):
            sawn = "can" if can_be_sawn(pieces, int(sys.argv[2])) else "cannot"
            print(f"sheet {k}: {len(pieces)} pieces, guide {nodes}, {sawn} be sawn edge to edge")
    else:
        sys.exit(__doc__)


main()
