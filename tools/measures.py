#!/usr/bin/env python3
"""measures.py: the lines of each crate, with its modules, for the table of docs/MEASURES.md. Lines without imports, comments and blanks."""
import glob, re


def lines(crate, part, ending):
    count = 0
    for path in glob.glob(f"crates/{crate}/{part}/**/*{ending}", recursive=True):
        text = open(path).read()
        if ending == ".rt":
            text = re.sub(r"^ *(ghost |pub )?use [^;]*;", "", text, flags=re.M)
        for line in text.split("\n"):
            if line.strip() and not re.match(r"(--|//|#!|use |pub use |mod |pub mod )", line.strip()):
                count += 1
    return count


names = re.findall(r"^(\w+)[ \w]*:", open("crates.txt").read(), re.M)
print("| crate | code | definitions | proofs | proof lines a line of code |\n|---|---|---|---|---|")
total = [0, 0, 0]
for name in names:
    row = [lines(name, "src", ".rt"), lines(name, "specs", ".antt"), lines(name, "proofs", ".antt")]
    ratio = f"{row[2] / row[0]:.1f}" if row[0] and name != "model" else ""
    print(f"| `{name}` | {row[0]} | {row[1]} | {row[2]} | {ratio} |")
    if name not in ("lists", "model", "trust"):
        total = [a + b for a, b in zip(total, row)]
print(f"| all but `lists`, `model`, `trust` | {total[0]} | {total[1]} | {total[2]} | {total[2] / total[0]:.1f} |")
