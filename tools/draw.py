#!/usr/bin/env python3
"""Draws the sheets of a plan that `cutplan` printed, on standard input, in characters: pieces by id.instance, waste empty."""
import sys

COLUMNS = 78


def draw(width, length, pieces):
    scale = COLUMNS / width
    rows = max(3, round(length * scale / 2))
    grid = [[" "] * (COLUMNS + 1) for _ in range(rows + 1)]

    def frame(x, y, w, l, name):
        a, b = round(x * scale), round((x + w) * scale)
        c, d = round(y * scale / 2), round((y + l) * scale / 2)
        for i in range(a, b + 1):
            grid[c][i] = grid[d][i] = "-"
        for j in range(c, d + 1):
            for i in (a, b):
                grid[j][i] = "|" if grid[j][i] in " |" else "+"
        for i, j in ((a, c), (b, c), (a, d), (b, d)):
            grid[j][i] = "+"
        for i, letter in enumerate(name[: max(0, b - a - 1)]):
            grid[(c + d) // 2][a + 1 + (b - a - 1 - len(name[: b - a - 1])) // 2 + i] = letter

    frame(0, 0, width, length, "")
    for p in pieces:
        frame(*p)
    print("\n".join("".join(row).rstrip() for row in grid))


def main():
    sheets = []
    for line in sys.stdin:
        word, *rest = line.split()
        if word in ("plan", "refused"):
            print(line.strip())
        elif word == "sheet":
            sheets.append((rest, [], []))
        elif word == "piece":
            key, instance, x, y, w, l = rest[:6]
            sheets[-1][1].append((int(x), int(y), int(w), int(l), f"{key}.{instance}"))
        elif word in ("cut", "leaf"):
            sheets[-1][2].append(word)
    for (key, instance, width, length, use, saw), pieces, guide in sheets:
        sawn = f"{saw} to saw" if guide else "no sawing order: free pieces were joined"
        print(f"\nboard {key}.{instance}, {width} x {length}, {int(use) / 10:.1f} % used, {sawn}")
        draw(int(width), int(length), pieces)


main()
