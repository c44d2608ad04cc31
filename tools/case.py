#!/usr/bin/env python3
"""A project, the Rust's text for it, that text as plan words, and both as antt.
A project is (kerf, effort, stock rows, cut rows); a row is (id, width, length, quantity, pattern, flag).
ORACLE in the environment is the program that plans with the published Rust."""
import os, struct, subprocess

ORACLE = os.environ.get('ORACLE', 'oracle')

def row(r): return struct.pack("<QIIIBBH", *r, 0)

def project(kerf, effort, stock, cuts, layout=0):
    s, c = b"".join(map(row, stock)), b"".join(map(row, cuts))
    return struct.pack("<6I", 24, 8, 32, len(s), 32 + len(s), len(c)) + struct.pack("<IBBBB", kerf, layout, effort, 0, 0) + s + c

def text(b):
    return subprocess.run([ORACLE, "plan"], input=b, capture_output=True, check=True).stdout.decode()

def u64(n): return [n % 2**32, n // 2**32]

def words(t):
    """None for a refusal, with its number; else the plan's words, by line."""
    lines = [l.split() for l in t.strip().split("\n")]
    if lines[0][0] == "refused": return int(lines[0][1])
    n = int(lines[0][1])
    head = [n] + u64(int(lines[0][3], 16)) + [int(lines[0][5])]
    bodies, cur = [], None
    for l in lines[1:]:
        if l[0] == "sheet":
            v = list(map(int, l[1:])); cur = {"head": u64(v[0]) + v[1:], "piece": [], "waste": [], "node": []}; bodies.append(cur)
        elif l[0] == "piece":
            v = list(map(int, l[1:])); cur["piece"].append(u64(v[0]) + v[1:])
        elif l[0] == "waste": cur["waste"].append(list(map(int, l[1:])))
        elif l[0] == "guide": cur["count"] = int(l[1])
        elif l[0] == "cut": cur["node"].append([0] + list(map(int, l[1:])))
        elif l[0] == "leaf" and l[1] == "waste": cur["node"].append([2, 0, 0, 0] + list(map(int, l[2:])))
        elif l[0] == "leaf":
            v = list(map(int, l[1:])); cur["node"].append([1] + u64(v[0]) + v[1:])
    out, at = [head], 4 + 2 * n
    blocks = []
    for c in bodies:
        assert c["count"] == len(c["node"])
        lines = [c["head"] + [len(c["piece"]), len(c["waste"]), len(c["node"])]] + c["piece"] + c["waste"] + c["node"]
        size = sum(map(len, lines)); out.append([at, size]); at += size; blocks += lines
    return out + blocks

def listed(xs): return " ∷ ".join(map(str, xs))

def antt_answer(w, indent):
    if isinstance(w, int): return "refused %d" % w
    pad = " " * indent
    return "plan (" + ("\n" + pad + "∷ ").join(listed(l) for l in w) + " ∷ [])"

def antt_rows(rs): return "(" + " ∷ ".join("(%s)" % ", ".join(map(str, r)) for r in rs) + " ∷ [])" if rs else "[]"

def antt_file(kerf, effort, stock, cuts, layout=0):
    return "file %d %d %d %s %s" % (kerf, layout, effort, antt_rows(stock), antt_rows(cuts))
