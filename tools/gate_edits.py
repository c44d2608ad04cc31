#!/usr/bin/env python3
"""Lists for each function that other crates call its wrong answers: those that the gate tries, and how many stand in wrong-answers.txt.

    tools/gate_edits.py [CRATE...]      from the repository's root

A function is listed if it is `pub` and another crate calls it, or no other module of its own crate does. It has a choice if its text, or that of a function it reaches
in its crate, has a branch, a comparison, a remainder or a shift; a loop's bound alone is none. Which operand comes first, or which byte, is a choice too, and no pattern
finds it: read the functions listed as having none. An edit is a wrong answer of it if it changes that text. One with a choice that has fewer than two is named."""
import re, sys
from try_edits import calls, crates, edits_of, edits_of_gate, functions, touched

CHOICE = re.compile(r"\b(if|match)\b|>>|<<| (?:<|>|<=|>=|==|!=|%) ")


def promises(crate, found, everything):
    """The functions of a crate that promise something to others."""
    others = [text for c, fs in everything.items() if c != crate for _, text in fs.values()]
    for function, (public, _) in found.items():
        module, name = function
        outside = any(calls(text, None, (module or crate, name)) for text in others)
        inside = any(calls(text, here, function) for (here, _), (_, text) in found.items() if here != module)
        if public and (outside or not inside):
            yield function


def own_text(function, found, promised):
    """A function and those that it reaches without another that promises something."""
    seen, todo = set(), [function]
    while todo:
        f = todo.pop()
        if f not in seen:
            seen.add(f)
            todo += [g for g in found if g not in promised and calls(found[f][1], f[0], g)]
    return seen


def main():
    short, everything = 0, {c: functions(c) for c in crates()}
    for crate in sys.argv[1:] or crates():
        found = everything[crate]
        promised = list(promises(crate, found, everything))
        gate = [e[0] for e in edits_of_gate(crate)]
        edits = [(e[0], touched(crate, e) or set()) for e in edits_of(crate)]
        for function in promised:
            text = own_text(function, found, promised)
            choice = any(CHOICE.search(found[f][1]) for f in text)
            mine = [label for label, names in edits if names & text]
            few = choice and len(mine) < 2
            short += few
            tried = ", ".join(label for label in mine if label in gate) or "none"
            name = "::".join(filter(None, (crate,) + function))
            print(f"{name}: {'a choice' if choice else 'no choice'}; in the gate: {tried}; in all {len(mine)}{'  FEWER THAN TWO' if few else ''}")
    print(f"{short} functions with a choice have fewer than two")
    sys.exit(short > 0)


if __name__ == "__main__":
    main()
