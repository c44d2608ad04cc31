#!/usr/bin/env python3
"""Writes the tables crates/model/specs/Stars.antt and Plans.antt, files and the answers that the Rust gives them, and beside them, in proofs/, that the definition
gives the same answers. Run from the repository's root."""
import os, sys
sys.path.insert(0, os.path.dirname(os.path.abspath(__file__)))
from case import project, text, words, antt_file, antt_answer

def board(w, l, q=1, p=0): return [(1, w, l, q, p, 1)]

# boards tried at the edge
STARS = [
    ("★1, stock 128×64, cut 64×64", 3, 0, board(128, 64), [(7, 64, 64, 1, 0, 0)]),
    ("★2, cut 125×64: no waste", 3, 0, board(128, 64), [(7, 125, 64, 1, 0, 0)]),
    ("★3, cut 124×64: waste (127,0,1,64)", 3, 0, board(128, 64), [(7, 124, 64, 1, 0, 0)]),
    ("★4, a merge: waste (62,0,38,72), (0,74,100,26), no guide", 2, 0, board(100, 100), [(7, 60, 40, 1, 0, 0), (8, 60, 30, 1, 0, 0)]),
    ("★5, no cuts: no sheets", 3, 0, board(128, 64), []),
    ("★6, two cuts 10×10 on a board of that size", 3, 0, board(10, 10), [(7, 10, 10, 2, 0, 0)]),
    ("★7, two cuts 6×6 on 10×10, kerf 0", 0, 0, board(10, 10), [(7, 6, 6, 1, 0, 0), (8, 6, 6, 1, 0, 0)]),
    ("★8, turned to the board's grain", 3, 0, board(20, 30, 1, 2), [(7, 30, 20, 1, 1, 1)]),
    ("★9, the same without turning", 3, 0, board(20, 30, 1, 2), [(7, 30, 20, 1, 1, 0)]),
]
LIMITS = [
    (3, 0, board(128, 64, 64), [(7, 128, 64, 1, 0, 0)]),
    (3, 0, board(128, 64, 65), [(7, 128, 64, 1, 0, 0)]),
    (0, 0, board(64, 1), [(7, 1, 1, 64, 0, 0)]),
    (0, 0, board(65, 1), [(7, 1, 1, 65, 0, 0)]),
]
# the other efforts: small projects, each with something that decides its plan
THREE = ([(1, 12, 5, 2, 0, 1), (2, 7, 7, 1, 0, 1)], [(7, 7, 3, 2, 0, 1)])
PLANS = [
    ("Fast refuses this 17, Balanced does not", 0, 1, [(1, 10, 9, 1, 0, 1)], [(7, 2, 4, 1, 0, 0), (8, 8, 6, 1, 0, 1), (9, 8, 3, 1, 0, 1)]),
    ("Balanced refuses this 17, Fast does not", 0, 1, [(1, 9, 1, 1, 0, 1), (2, 13, 5, 1, 0, 1)],
     [(9, 2, 1, 1, 0, 0), (4, 7, 2, 1, 0, 0), (6, 9, 3, 1, 0, 0), (7, 1, 4, 1, 0, 0), (2, 7, 1, 1, 0, 0)]),
    ("the last bit of the fitness decides", 3, 1, [(1, 13, 11, 1, 1, 1), (2, 11, 9, 1, 2, 1)], [(7, 10, 8, 1, 0, 1), (8, 2, 7, 2, 0, 0)]),
    ("a tie of MaximizeArea decides", 1, 1, [(1, 8, 6, 1, 0, 1)], [(7, 2, 7, 1, 0, 1), (8, 4, 3, 1, 0, 1)]),
    ("a compacted board goes to the end of the available ones", 2, 1, [(1, 8, 12, 1, 1, 1), (2, 8, 9, 2, 0, 1)], [(7, 7, 9, 2, 0, 0)]),
    ("the waste area of the score counts the kerf", 1, 1, [(1, 14, 7, 1, 0, 1)], [(7, 6, 4, 1, 0, 0), (8, 2, 6, 1, 1, 1)]),
    ("a shuffle decides", 2, 1, [(1, 7, 7, 1, 2, 1), (2, 7, 10, 1, 0, 1), (3, 5, 16, 1, 0, 1)], [(7, 4, 7, 1, 0, 1), (8, 5, 8, 1, 2, 1)]),
    ("unlike sides do not merge", 0, 1, [(1, 14, 16, 2, 0, 1), (2, 10, 10, 1, 1, 1), (3, 13, 12, 2, 0, 1)],
     [(7, 6, 6, 1, 0, 1), (8, 8, 9, 1, 1, 1), (9, 2, 9, 1, 0, 0)]),
    ("the last free rectangle takes the chosen one's place", 1, 1, [(1, 15, 13, 1, 0, 1)], [(7, 6, 3, 1, 1, 1), (8, 3, 7, 1, 2, 0), (9, 9, 7, 1, 0, 0)]),
    ("a tie of ShortSide goes to the shorter long side, whatever the area", 0, 1, board(21, 24),
     [(7, 3, 5, 2, 0, 0), (8, 7, 3, 2, 0, 1), (9, 4, 1, 2, 0, 1), (10, 11, 9, 2, 0, 1), (11, 7, 12, 1, 0, 0), (12, 10, 9, 1, 0, 1)]),
    ("a tie of LongSide goes to the shorter short side, whatever the area", 0, 1, board(18, 18),
     [(7, 5, 10, 1, 0, 0), (8, 3, 3, 1, 0, 1), (9, 9, 3, 1, 0, 0), (10, 3, 9, 2, 0, 0), (11, 12, 7, 1, 0, 1), (12, 6, 3, 1, 0, 0), (13, 3, 4, 2, 0, 0)]),
    ("a last tie of ShortSide goes to the lesser y before the lesser x", 0, 1, board(20, 18, 2),
     [(7, 7, 1, 2, 0, 1), (8, 1, 9, 2, 0, 0), (9, 5, 1, 2, 0, 1), (10, 11, 4, 1, 0, 1), (11, 5, 7, 1, 0, 0), (12, 9, 9, 2, 0, 0), (13, 3, 9, 1, 0, 1)]),
    ("a later rectangle merges with one on its right", 2, 1, board(17, 18, 2),
     [(7, 7, 3, 2, 0, 1), (8, 6, 1, 1, 0, 1), (9, 7, 7, 1, 0, 0), (10, 10, 1, 2, 0, 0), (11, 4, 10, 1, 0, 0), (12, 6, 12, 1, 0, 0), (13, 10, 5, 1, 0, 0)]),
    ("a last tie of Area goes to the lesser y before the lesser x", 3, 1, board(11, 15, 2, 1), [(7, 1, 8, 1, 0, 1), (8, 7, 11, 1, 0, 0)]),
    ("LongerAxis cuts a square horizontally", 1, 1, [(1, 16, 16, 1, 1, 1), (2, 13, 12, 1, 0, 1)], [(7, 9, 10, 1, 0, 0), (8, 6, 11, 1, 1, 0)]),
    ("the second row of heuristics stands before the third", 3, 1, board(18, 15, 2, 1), [(7, 11, 12, 1, 0, 1), (8, 10, 1, 1, 1, 1)]),
    ("the third before the fourth", 3, 1, board(18, 10), [(7, 7, 6, 1, 0, 1), (8, 2, 5, 2, 0, 0), (9, 1, 9, 1, 0, 1)]),
    ("the fourth before the fifth", 3, 1, [(1, 10, 11, 2, 2, 1), (2, 13, 6, 1, 0, 1), (3, 20, 18, 1, 1, 1)], [(7, 8, 11, 2, 0, 1), (8, 2, 4, 2, 2, 0)]),
    ("removed panels go behind the unused ones", 2, 1, board(18, 11, 2), [(7, 6, 5, 1, 0, 1), (8, 8, 12, 1, 1, 1), (9, 5, 10, 1, 0, 0)]),
    ("a child has its first parent's boards in their order", 1, 1, [(1, 8, 15, 1, 0, 1), (2, 11, 14, 1, 2, 1), (3, 16, 14, 1, 2, 1)],
     [(7, 10, 8, 1, 1, 1), (8, 4, 12, 1, 0, 0), (9, 1, 8, 1, 1, 0)]),
    ("survivors are taken of the valid ones", 1, 1, [(1, 15, 6, 1, 1, 1), (2, 18, 13, 1, 0, 1)],
     [(7, 10, 6, 1, 1, 0), (8, 7, 9, 1, 0, 0), (9, 7, 12, 1, 2, 0)]),
    ("Fast, Balanced and Thorough find different plans: Fast's", 1, 0, *THREE),
    ("Balanced's", 1, 1, *THREE),
    ("Thorough's", 1, 2, *THREE),
]

def rows(cases):
    out = ""
    for i, (name, k, e, s, c) in enumerate(cases):
        w = words(text(project(k, e, s, c)))
        out += "    -- %s\n    %s(\n      %s,\n      %s,\n    )\n" % (name, "∷ " if i else "", antt_file(k, e, s, c), antt_answer(w, 10))
    return out + "    ∷ []\n"

def limits():
    out = ""
    for i, (k, e, s, c) in enumerate(LIMITS):
        w = words(text(project(k, e, s, c)))
        out += "    %s(%s, %d)\n" % ("∷ " if i else "", antt_file(k, e, s, c), w if isinstance(w, int) else 0)
    return out + "    ∷ []\n"

STARS_FILE = '''-- The ★ cases: files, and the answers that the Rust gives them. proofs/Stars shows that the definition gives the same.
-- (Written by tools/write_tables.py.)
use Rattle.std.specs.Prelude.{{ℕ, List, [], ◌∷◌, map}}
use Rattle.model.specs.Project.{{project_of}}
use Rattle.model.specs.Sheet.{{new_sheet}}
use Rattle.model.specs.Account.{{account_from}}
use Rattle.model.specs.Answer.{{Answer, plan, refused, made_by}}
use Rattle.model.specs.FileOf.{{file}}

unfoldable pub cases : List (List ℕ × Answer)
cases =
{cases}
-- quantity 64 passes, 65 refuses: 0 for a plan, or the refusal
unfoldable pub limits : List (List ℕ × ℕ)
limits =
{limits}
abbrev pub verdict : Answer → ℕ
verdict (plan words) = 0
verdict (refused n) = n

-- ★4's splits took 540 and its merge gave 76 back: 4,200 of pieces, 5,336 of waste and 540 are 10,000 and 76
unfoldable pub accounts : List ℕ → List (ℕ × ℕ)
accounts bytes = map (λ m. account_from (project_of bytes).kerf (new_sheet m.0) m.1) (made_by bytes)

unfoldable pub star4 : List ℕ
star4 = {star4}
'''
STARS_PROOF = '''-- The ★ cases, proved together: the definition answers every file of the table as the table does.
-- (Written by tools/write_tables.py; the answers are the Rust's.)
use Rattle.std.specs.Prelude.{◌≡◌, refl, [], ◌∷◌, map}
use Rattle.model.specs.Answer.{answer}
use Rattle.model.specs.Evaluate.{evaluate}
use Rattle.model.specs.FileOf.{file}
use Rattle.model.specs.Stars.{cases, limits, verdict, accounts, star4}

pub stars : (map (λ c. answer c.0) cases ≡ map (λ c. c.1) cases)
    × (map (λ c. verdict (answer c.0)) limits ≡ map (λ c. c.1) limits)
    × (accounts star4 ≡ (540, 76) ∷ [])
unfolding evaluate cases file limits accounts star4
stars = (refl, refl, refl)
'''
PLANS_FILE = '''-- Plans of all three efforts, each with something that decides it. proofs/Plans shows that the definition finds them.
-- (Written by tools/write_tables.py; the answers are the Rust's.)
use Rattle.std.specs.Prelude.{{ℕ, List, [], ◌∷◌}}
use Rattle.model.specs.Answer.{{Answer, plan, refused}}
use Rattle.model.specs.FileOf.{{file}}

unfoldable pub decided : List (List ℕ × Answer)
decided =
{cases}'''
PLANS_PROOF = '''-- Plans of all three efforts, each with something that decides it, proved by computation.
-- (Written by tools/write_tables.py; the answers are the Rust's.)
use Rattle.std.specs.Prelude.{◌≡◌, refl, map}
use Rattle.model.specs.Answer.{answer}
use Rattle.model.specs.Evaluate.{evaluate}
use Rattle.model.specs.FileOf.{file}
use Rattle.model.specs.Stars.{cases}
use Rattle.model.specs.Plans.{decided}
use Rattle.model.proofs.Stars.{stars}

-- the ★ cases and these
pub plans : (map (λ c. answer c.0) cases ≡ map (λ c. c.1) cases) × (map (λ c. answer c.0) decided ≡ map (λ c. c.1) decided)
unfolding evaluate decided file
plans = (stars.0, refl)
'''

def write(path, contents): open("crates/model/" + path, "w").write(contents)

write("specs/Stars.antt", STARS_FILE.format(cases=rows(STARS), limits=limits(), star4=antt_file(*STARS[3][1:])))
write("proofs/Stars.antt", STARS_PROOF)
write("specs/Plans.antt", PLANS_FILE.format(cases=rows(PLANS)))
write("proofs/Plans.antt", PLANS_PROOF)
