#!/usr/bin/env python3
"""Compares the definition with the Rust by computation: each project becomes a declaration `answer file ≡ the Rust's answer`, proved by refl.
    compare_definition.py random SEED COUNT EFFORT MOST_PANELS
    compare_definition.py orders STARS_PY         the files of the order of checks, from the oracle's stars.py
The declarations go into a copy of the crates in a temporary folder, which `rt check` proves. Run from the repository's root."""
import os, random, shutil, subprocess, sys, tempfile
sys.path.insert(0, os.path.dirname(os.path.abspath(__file__)))
from case import project, text, words, antt_file, antt_answer

HEAD = '''use Rattle.std.specs.Prelude.{ℕ, ◌≡◌, refl, List, [], ◌∷◌}
use Rattle.model.specs.Answer.{Answer, plan, refused, answer}
use Rattle.model.specs.Evaluate.{evaluate}
use Rattle.model.specs.FileOf.{file}
use Rattle.model.specs.Stars.{verdict}

'''

def random_project(rng, effort, most):
    kerf = rng.choice([0, 1, 2, 3])
    stock = [(i + 1, rng.randint(8, 30), rng.randint(8, 30), rng.randint(1, 3), rng.choice([0, 0, 1, 2]), 1) for i in range(rng.randint(1, 3))]
    left, cuts = rng.randint(1, most), []
    while left > 0:
        q = rng.randint(1, min(left, 3))
        left -= q
        cuts.append((7 + len(cuts), rng.randint(2, 14), rng.randint(2, 14), q, rng.choice([0, 0, 0, 1, 2]), rng.choice([0, 1])))
    return kerf, effort, stock, cuts

def randoms(seed, count, effort, most):
    rng, out, kinds = random.Random(seed), HEAD, {}
    for j in range(count):
        c = random_project(rng, effort, most)
        t = text(project(*c))
        kind = " ".join(t.split()[:2])
        kinds[kind] = kinds.get(kind, 0) + 1
        out += "c%d : answer (%s) ≡ %s\nunfolding evaluate file\nc%d = refl\n\n" % (j, antt_file(*c), antt_answer(words(t), 4), j)
    return out, count, kinds

def orders(path):
    source = open(path).read()
    names = {"__file__": path}
    sys.path.insert(0, os.path.dirname(path))
    exec(source[:source.index("\n]\n", source.index("ORDER = [")) + 3], names)
    out, n = HEAD, 0
    for name, data, _ in names["ORDER"]:
        first = text(data).split()
        want = 0 if first[0] == "plan" else int(first[1])
        if want == 0 and len(data) > 1500: continue      # a plan of 64 panels: proved in Stars
        listed = " ∷ ".join(map(str, data)) + " ∷ []" if data else "[]"
        out += "-- %s\no%d : verdict (answer (%s)) ≡ %d\nunfolding evaluate\no%d = refl\n\n" % (name, n, listed, want, n)
        n += 1
    return out, n, {}

out, count, kinds = randoms(*map(int, sys.argv[2:6])) if sys.argv[1] == "random" else orders(os.path.abspath(sys.argv[2]))
with tempfile.TemporaryDirectory() as folder:
    for crate in ("lists", "model"): shutil.copytree("crates/" + crate, folder + "/crates/" + crate, ignore=shutil.ignore_patterns("out", "must-fail"))
    open(folder + "/crates.txt", "w").write("lists:\nmodel: lists\n")
    open(folder + "/crates/model/proofs/Compared.antt", "w").write(out)
    open(folder + "/crates/model/proofs/Lib.antt", "a").write("pub mod Compared\n")
    run = subprocess.run(["rt", "check"], cwd=folder + "/crates/model", capture_output=True, text=True)
    bad = [l for l in run.stdout.split("\n") if "Compared.antt" in l and "error" in l]
    print("%d compared, %s %s" % (count, "all equal" if run.returncode == 0 else "%d differ or were not computed" % max(1, len(bad)), kinds or ""))
    for l in bad[:5]: print(l[:300])
    sys.exit(run.returncode)
