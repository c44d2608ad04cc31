#!/usr/bin/env python3
"""Tries every wrong answer of a crate: the edits in must-fail/ and the blocks of wrong-answers.txt beside src/.

    tools/try_edits.py [--alone] [CRATE...]     from the repository's root, once `rt check` has proved each crate

`rt must-fail` tries must-fail/ one edit at a time. Here edits of different functions are tried together, in a copy of the crate over what its
`rt check` kept: a contract does not change when a body does, so each edited function is refused by a fact of its own proof or not at all.
Where its proof waited for that of an edited function that it calls, it is tried again among functions of which none reaches another.
An edit of a clause or of a definition is tried by itself, and --alone tries each by itself.

Of each edit one line says what became of it:
    refused         a fact of the function's own proof fails, or `search` finds no proof of a goal that it proved before
    only by a name  nothing is refused but a proof file that names what the edit took away: that shows nothing of the contract.
                    Where only a condition has another name, as `if-at-ne1` for `if-at-ne2`, a copy of the proof is given the new name and tried again
    bad             the edited text does not stand, compile or read, so no contract was tried
    NOT REFUSED     the function is still proved
    not judged      no proof of the function was tried, or the check gave no verdict
The status is 0 if each edit is refused."""
import os, re, shutil, subprocess, sys, tempfile, time

ROOT = os.getcwd()
KIT = os.environ.get("RATTLE_HOME") or os.path.dirname(os.path.dirname(os.path.realpath(shutil.which("rt"))))
REFUSED, NAMED, BAD, PROVED, UNJUDGED = "refused", "only by a name", "bad", "NOT REFUSED", "not judged"
# Errors that follow from another one, and errors in proof files of shape alone: they name a goal, a step or a field that the edit took away.
ECHO = re.compile(r"not admitted|which (?:was|were) rejected|(?:was|were) not checked")
SHAPE = re.compile(r"has no `|has no field|is not in scope|is no name|that can be named|rattle does not read this file|no module `")
# Errors in a text of src/ or specs/ that antt could not read.
UNREAD = re.compile(r"is not in scope|has no field|is no name|operand is missing|expected the end|expected type|cannot continue|does not parse")
# Comments, contracts and loops' bounds.
ASIDE = re.compile(r"//.*|^ *while .*|^ *(?:requires|ensures)\b.*|^ +×.*", re.M)
HEAD = re.compile(r"^(?:    )?(pub )?(?:extern \"C\" )?fn (\w+)", re.M)


def crates():
    """The crates of crates.txt, each with the libraries that it uses."""
    deps = {}
    for line in open("crates.txt"):
        line = line.split("#")[0]
        if ":" in line:
            name, rest = line.split(":", 1)
            deps[name.split()[0]] = rest.split()
    return deps


def is_static(crate):
    """Whether crates.txt says that a crate is a static library."""
    return any(re.match(rf"{crate}\b[^:]*\bstaticlib\b[^:]*:", line) for line in open("crates.txt"))


def below(deps, crate):
    """The repository's libraries below a crate, each once."""
    found = []
    for d in deps[crate]:
        if d in deps:
            found += [x for x in [*below(deps, d), d] if x not in found]
    return found


def parse(text, label):
    """Blocks of `edit:`, `file:`, `old:` and `new:` lines as (label, [(file, old, new)])."""
    edits, file, old = [], None, None
    if label:
        edits.append((label, []))
    for line in text.split("\n"):
        if line.startswith("edit: "):
            edits.append((line[6:], []))
        elif line.startswith("file: "):
            file = line[6:].strip()
        elif line.startswith("old: "):
            old = line[5:]
        elif line.startswith("new:"):
            edits[-1][1].append((file, old, line[5:] if line.startswith("new: ") else line[4:]))
    return edits


def edits_of_gate(crate):
    """The edits that the gate tries."""
    folder = f"crates/{crate}/must-fail"
    names = [n for n in sorted(os.listdir(folder)) if n.endswith(".edit")] if os.path.isdir(folder) else []
    return [e for n in names for e in parse(open(f"{folder}/{n}").read(), n[:-5])]


def edits_of(crate):
    more = f"crates/{crate}/wrong-answers.txt"
    return edits_of_gate(crate) + (parse(open(more).read(), None) if os.path.exists(more) else [])


def module_of(file):
    """src/x.rt is the module x; the root's name is empty."""
    name = os.path.basename(file)[:-3]
    return "" if name in ("lib", "main") else name


def functions(crate):
    """(module, name) to (public, text) of each function of a crate: its code alone."""
    found = {}
    for file in sorted(os.listdir(f"crates/{crate}/src")):
        if file.endswith(".rt"):
            text = ASIDE.sub("", open(f"crates/{crate}/src/{file}").read())
            heads = list(HEAD.finditer(text))
            for head, after in zip(heads, heads[1:] + [None]):
                found[module_of(file), head.group(2)] = (bool(head.group(1)), text[head.end():after.start() if after else len(text)])
    return found


def calls(text, here, function):
    """Whether a text of the module `here` calls a function: by its name there, by its module or type or as a method elsewhere."""
    module, name = function
    own = rf"\b{name}\(" if here == module else rf"(?:\b{module or 'crate'}::|\b[A-Z]\w*::|\.){name}\("
    return bool(re.search(own, text))


def reached(names, found):
    """These functions and those of the crate that they reach."""
    seen, todo = set(), list(names)
    while todo:
        f = todo.pop()
        if f not in seen:
            seen.add(f)
            todo += [g for g in found if calls(found[f][1], f[0], g)]
    return seen


def function_at(text, at):
    """The function in whose text a place lies; none for other items."""
    last = None
    for m in re.finditer(r"^(?:#\[unsafe\(no_mangle\)\]\n)?(?:    )?(?:pub )?(?:extern \"C\" )?(?:fn (\w+)|struct|enum|const|impl)", text, re.M):
        if m.start() > at:
            break
        last = m.group(1)
    return last


def fault(crate, edit):
    """Why an edit cannot be applied, each pair to what the earlier ones made; nothing if it can."""
    texts = {}
    for file, old, new in edit[1]:
        if file not in texts:
            if not os.path.isfile(f"crates/{crate}/{file}"):
                return f"there is no {file}"
            texts[file] = open(f"crates/{crate}/{file}").read()
        if texts[file].count(old) != 1:
            return f"its text stands {texts[file].count(old)} times in {file}"
        texts[file] = texts[file].replace(old, new)
    same = all(text == open(f"crates/{crate}/{file}").read() for file, text in texts.items())
    return "it changes nothing" if same else None


def touched(crate, edit):
    """The functions an edit changes, each as (module, name), or none if it changes something else."""
    names = set()
    for file, old, _ in edit[1]:
        text = open(f"crates/{crate}/{file}").read()
        name = function_at(text, text.index(old)) if file.startswith("src/") and text.count(old) == 1 else None
        if name is None:
            return None
        names.add((module_of(file), name))
    return names


def apply(room, edits):
    """One edit pair by pair; several at their places in the text as it was, since the new text of one may be the old text of another."""
    pairs = [p for _, ps in edits for p in ps]
    for file in {f for f, _, _ in pairs}:
        text = open(f"{room}/{file}").read()
        own = [(o, n) for f, o, n in pairs if f == file]
        if len(edits) > 1:
            for at, old, new in sorted(((text.index(o), o, n) for o, n in own), reverse=True):
                text = text[:at] + new + text[at + len(old):]
        for old, new in own if len(edits) == 1 else []:
            text = text.replace(old, new)
        open(f"{room}/{file}", "w").write(text)


def linked(folder, to):
    """A copy of what a check kept, whose proved modules are links: a check puts another file in the place of one and changes none."""

    def copy(one, other):
        try:
            if one.endswith(".oantt"):
                return os.link(one, other)
        except OSError:
            pass
        return shutil.copy2(one, other)

    shutil.copytree(folder, to, symlinks=True, copy_function=copy)


def proof_of(function):
    """Where a function's proof stands, below proofs/: in its module's folder, and in its type's."""
    module, name = function
    return rf"{module + '/' if module else ''}(?:[A-Z]\w*/)*(?:\+\w+)*\+?{name}(?:\+\w+)*/\S+?"


def proofs_of(folder, function):
    """The files of a function's proof."""
    files = [os.path.relpath(f"{at}/{file}", f"{folder}/proofs") for at, _, files in os.walk(f"{folder}/proofs") for file in files]
    return [f"{folder}/proofs/{file}" for file in sorted(files) if re.fullmatch(proof_of(function), file)]


def followed(crate, log, names):
    """What conditions were called in the proofs of these functions and are called now: where they differ in `not`, a comparison or a number alone,
    or where the proofs do not name the other one and a goal has its name."""
    bare = lambda word: re.sub(r"(?:\b(?:eq|ne|lt|le|gt|ge)\d*\b|\bnot\b|\d+\b|-)", "", word)
    found = {}
    for name in names:
        proofs = "".join(open(path).read() for path in proofs_of(f"crates/{crate}", name))
        for line in errors(log, f"proofs/{proof_of(name)}"):
            was, now = re.search(r"has no field `if-(\S+?)`", line), re.search(r"nearest: \.if-([^\s,)]+)", line)
            if was and now and not re.search(rf"-{re.escape(now[1])}(?![\w-])", proofs):
                if bare(was[1]) == bare(now[1]) or re.search(rf"rattle asks for .*-(?:then|else)-{re.escape(now[1])}`", log):
                    found[name, was[1]] = now[1]
    return found


def follow(room, names):
    """Gives conditions their new names in the proofs of a copy."""
    for (name, was), now in names.items():
        for path in proofs_of(room, name):
            text = open(path).read()
            open(path, "w").write(re.sub(rf"(?<=-){re.escape(was)}(?![\w-])", now, text))


def check(crate, deps, edits, names={}):
    """The checker's status and log on a copy of the crate with these edits, whose proofs have these names in the place of others."""
    with tempfile.TemporaryDirectory(prefix="edits-") as room:
        for part in ("src", "specs", "proofs"):
            if os.path.isdir(f"crates/{crate}/{part}"):
                shutil.copytree(f"crates/{crate}/{part}", f"{room}/{part}")
        apply(room, edits)
        follow(room, names)
        root = next(f for f in ("src/main.rt", "src/lib.rt") if os.path.exists(f"{room}/{f}"))
        words = ["--crate-name", crate, root, "--extern", f"std={KIT}/rlibs/std.rlib", "-L", f"dependency={KIT}/rlibs"]
        for d in deps[crate]:
            words += ["--extern", f"{d}={f'{ROOT}/crates/{d}/out/rlib' if d in deps else f'{KIT}/rlibs'}/{d}.rlib"]
        for d in below(deps, crate):
            words += ["-L", f"dependency={ROOT}/crates/{d}/out/rlib"]
        words += ["--antt-project", f"{KIT}/rattle/logic/antt-project.json", "--logic-built", f"{KIT}/logic_built", "--jobs", "1"]
        words += ["--crate-type", "staticlib"] if is_static(crate) else []
        kept = f"crates/{crate}/out/incremental"
        if os.path.isdir(kept):
            linked(kept, f"{room}/kept")
            words += ["--incremental", f"{room}/kept"]
        done = subprocess.run([f"{KIT}/bin/rattle", "check", *words], cwd=room, stdin=subprocess.DEVNULL, stdout=subprocess.PIPE, stderr=subprocess.STDOUT, text=True, errors="replace")
    return done.returncode, done.stdout.replace("\n  ", " ")  # a long error goes on in lines set in


def errors(log, where):
    """The errors of a log that stand in files of these paths and echo no other."""
    return [l for l in log.split("\n") if re.match(rf"(?:\./)?{where}:\d+:\d+: error", l) and not ECHO.search(l)]


def verdict(log, status, function):
    """What became of a function that was edited, and the line that shows it."""
    module, name = function
    path = rf"\w+::{module + '::' if module else ''}(?:[A-Z]\w*::)*{name}"
    lines = [l for l in log.split("\n") if re.match(rf"fn {path}(?:::closure\S*)?: ", l)]
    own = errors(log, f"proofs/{proof_of(function)}")
    facts = [l for l in own if not SHAPE.search(l)]
    if facts:
        return REFUSED, facts[0]
    unproved = [l for l in lines if "`search` did not prove" in l and "; it calls `" not in l]
    if unproved:
        values = [l for l in log.split("\n") if re.match(rf"note: `[^`]+` of (?:\./)?proofs/{proof_of(function)} may be false", l)]
        return REFUSED, next((l for l in values if "`returns" in l), values[0])[6:] if values else unproved[0]
    if own:
        return NAMED, own[0]
    if lines and all(l.endswith(": proved") for l in lines):
        return PROVED, lines[0]
    if not lines and status == 0:
        return PROVED, "the crate is proved"
    return UNJUDGED, lines[0] if lines else f"no line speaks of {'::'.join(filter(None, function))}"


def judge(log, status, names):
    """What became of an edit of these functions, or of none, and the line that shows it."""
    unread = [l for l in errors(log, r"(?:src|specs)/\S+?") if re.search(r"error\[", l) or UNREAD.search(re.sub(r"`[^`]*`", "", l))]
    if unread:
        return BAD, unread[0]
    if status not in (0, 1) or not re.search(r"^logic=", log, re.M):
        return UNJUDGED, f"status {status}: {(log.strip().split(chr(10)) or [''])[-1]}"
    if status == 0:
        return PROVED, "the crate is proved"
    if names:
        told = [verdict(log, status, n) for n in sorted(names)]
        return min(told, key=lambda it: [REFUSED, NAMED, UNJUDGED, PROVED].index(it[0]))
    all_of_them = errors(log, r"\S+?")
    unproved = [l for l in log.split("\n") if re.match(r"fn .*`search` did not prove", l)]
    facts = [l for l in all_of_them if not SHAPE.search(l)] + unproved
    if facts:
        return REFUSED, facts[0]
    return (NAMED, all_of_them[0]) if all_of_them else (UNJUDGED, "no error stands in the log")


def of_contract(crate, edit):
    """Whether an edit changes a clause, by which the proofs of callers go too."""
    for file, old, _ in edit[1]:
        text = open(f"crates/{crate}/{file}").read()
        if re.match(r" *(?:requires|ensures|×)", text[text.rfind("\n", 0, text.find(old)) + 1:]):
            return True
    return False


def grouped(crate, edits, how):
    """Edits that are tried together: each of other functions than the rest, and where they are to be `apart` none of which reaches another."""
    found, groups = functions(crate), []
    for e in edits:
        names = touched(crate, e)
        names = None if names and of_contract(crate, e) else names
        over = reached(names or (), found) if how == "apart" else set(names or ())
        home = next((g for g in groups if names and g[1] is not None and not over & g[1] and not names & g[2]), None) if how != "alone" else None
        if home:
            home[0].append(e)
            home[1].update(names)
            home[2].update(over)
        else:
            groups.append(([e], None if names is None else set(names), set(over)))
    return [g[0] for g in groups]


def by_new_names(crate, deps, edit, log, told):
    """What becomes of an edit that is refused by a name alone, once its proofs have the conditions' new names."""
    names, mine = {}, touched(crate, edit) or ()
    while told[0] == NAMED and not followed(crate, log, mine).keys() <= names.keys():
        names.update(followed(crate, log, mine))
        status, log = check(crate, deps, [edit], names)
        told = judge(log, status, mine)
    if names and told[0] != NAMED:
        told = told[0], "once " + ", ".join(f"`if-{was}` is `if-{now}`" for (_, was), now in names.items()) + f": {told[1]}"
    return told


def main():
    alone = "--alone" in sys.argv[1:]
    deps, count = crates(), {}

    def tell(crate, edit, told):
        count[told[0]] = count.get(told[0], 0) + 1
        print(f"{crate}/{edit[0]}: {told[0]}: {told[1][:300]}", flush=True)

    for crate in [a for a in sys.argv[1:] if a != "--alone"] or deps:
        start, checks, left = time.time(), 0, []
        for e in edits_of(crate):
            why = fault(crate, e)
            if why:
                tell(crate, e, (BAD, why))
            else:
                left.append(e)
        if left and check(crate, deps, [])[0] != 0:
            count[UNJUDGED] = count.get(UNJUDGED, 0) + len(left)
            print(f"{crate}: {UNJUDGED}, {len(left)} edits: the crate is not proved as it stands: run rt check in its folder first", flush=True)
            continue
        # What a group leaves open, since one edit cannot be read or the proof of a caller waited for a callee's, is tried in smaller ones.
        for how in ["alone"] if alone else ["together", "apart", "alone"]:
            again = []
            for group in grouped(crate, left, how):
                status, log = check(crate, deps, group)
                checks += 1
                for e in group:
                    told = judge(log, status, touched(crate, e))
                    if told[0] in (BAD, UNJUDGED) and len(group) > 1:
                        again.append(e)
                    else:
                        tell(crate, e, by_new_names(crate, deps, e, log, told))
            left = again
        print(f"{crate}: {checks} checks, {time.time() - start:.0f} s", flush=True)
    print("; ".join(f"{what}: {count.get(what, 0)}" for what in (REFUSED, NAMED, BAD, PROVED, UNJUDGED)))
    sys.exit(any(n for what, n in count.items() if what != REFUSED))


if __name__ == "__main__":
    main()
