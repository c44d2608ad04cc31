#!/usr/bin/env python3
"""Fails where a document names something that does not exist: one line for each, `file:line name`.

    tools/check_names.py      from any folder

It reads the pages at the top, docs/*.md and tools/README.md, and the sources by simple text. What must exist:

  a path       anywhere in a page: a word that begins with a folder of the repository, as tools/plan.sh or crates/*/specs, and in backticks
               CRATE/specs/FILE and CRATE/proofs/FILE, with or without .antt, or specs/FILE.antt and proofs/FILE.antt of some crate.
               What lies in a folder out or target is built, and not looked for.
  a link       [text](file), and in backticks the bare name of a page, as `DECISIONS.md`.
  crate::name  in backticks: whatever begins with a small letter and has a `::`. Its first word is a crate of crates.txt or one of ELSEWHERE, and the
               rest is a module of the crate, an item, or a field, variant or method. What begins with a capital, as `Candidate::new`, is the Rust's or the library's.
  File.name    in backticks: File is a file of specs/ or proofs/, or a record or type, and name stands in it.

In docs/SOURCE_MAP.md the first column is the Rust's, and is not read; a bare name in the second is of the file named before it in the cell, and one in the
third of the module named before it. In the tables of docs/ARCHITECTURE.md and docs/TRUSTED.md a bare word in backticks is a name of the repository, of any kind.
The script that a row of tools/README.md begins with is in tools/."""
import glob, os, re, sys

ELSEWHERE = {"std", "arrayvec", "crate", "super", "render"}  # the library, words of the language, and a module of the Rust source
FOLDERS = "tools|crates|docs|bench|examples|\\.ci"
BUILT = re.compile(r"(^|/)(out|target)(/|$)")
ITEM = re.compile(r'^(?:pub(?:\(\w+\))? )?(?:unsafe |const |extern "C" )*(fn|struct|enum|const|mod|trait|type|static) (\w+)', re.M)
BLOCK = re.compile(r"^(?:pub(?:\(\w+\))? )?(?:struct (\w+)|enum (\w+)|trait (\w+)|impl(?:<.*?>)? (?:[^{\n]*? for )?(\w+))[^\n;]*\{\n(.*?)^\}", re.M | re.S)
MEMBER = re.compile(r"^    (?:pub(?:\(\w+\))? )?(?:const )?(?:fn )?(\w+)(?=[<(:,]| [:{=])", re.M)
KEYWORDS = {"pub", "abbrev", "unfoldable", "record", "data", "opaque", "|"}


def read(path):
    with open(path, encoding="utf-8") as file:
        return file.read()


# ---- what there is


def crates():
    return re.findall(r"^(\w+)[ \w]*:", read("crates.txt"), re.M)


def module_of(path):
    """crates/sheet/src/split.rt is sheet::split, crates/sheet/src/lib.rt is sheet."""
    words = path[:-len(".rt")].split("/")
    return "::".join([words[1]] + [w for w in words[3:] if w not in ("lib", "main")])


def names_of_code():
    """Each name of the sources whole, as sheet::split::Remainder, with members."""
    names = set(crates())
    for path in glob.glob("crates/*/src/**/*.rt", recursive=True):
        module, text = module_of(path), re.sub(r"//.*", "", read(path))
        names.add(module)
        names.update(f"{module}::{name}" for _, name in ITEM.findall(text))
        for line in re.findall(r"^pub use ([^;]*);", text, re.M):
            names.update(f"{module}::{name}" for name in re.findall(r"\w+", line))
        for *kinds, body in BLOCK.findall(text):
            names.update(f"{module}::{''.join(kinds)}::{name}" for name in MEMBER.findall(body))
    return names


def names_of_definitions():
    """File.name of each line of the files of specs/ and proofs/ that begins with a name, and Record.field."""
    names = set()
    for part in ("specs", "proofs"):
        for path in glob.glob(f"crates/*/{part}/**/*.antt", recursive=True):
            file, record = os.path.basename(path)[:-len(".antt")], None
            names.add(f"{file}.antt")
            for line in read(path).split("\n"):
                words = line.split()
                while words and words[0] in KEYWORDS:
                    record = words[1] if words[0] in ("record", "data") else record
                    words = words[1:]
                if words:
                    names.update({f"{file}.{words[0]}", f"{record}.{words[0]}"})
    return names


def members_of_types(code):
    """Type.member of the sources, as definitions name them."""
    return {".".join(name.split("::")[-2:]) for name in code if "::" in name}


def single_words(code, definitions):
    return {word for name in code | definitions for word in re.split(r"::|\.", name)}


def files():
    """The bare names of the files that a page may name so."""
    return {os.path.basename(path) for pattern in ("*", "*/*", "crates/*/*/*") for path in glob.glob(pattern)}


# ---- what is named


def pages():
    found = glob.glob("*.md") + glob.glob("docs/*.md") + glob.glob("tools/*.md")
    return sorted(found)


def is_there(path):
    """A path of the repository, perhaps with stars, perhaps of a file of definitions without its ending."""
    return bool(BUILT.search(path) or glob.glob(path) or glob.glob(path + ".antt"))


def paths_in(line):
    return re.findall(rf"(?<![\w/.*])(?:{FOLDERS})/[\w./*+-]*[\w*]", line)


def proof_paths_in(span, known):
    of_one = [path for path in re.findall(r"(?<![\w/])\w+/(?:specs|proofs)/[\w./+-]*\w", span) if path.split("/")[0] in known]
    of_some = [f"*/{path}" for path in re.findall(r"(?<![\w/*])(?:specs|proofs)/[\w/+-]+\.antt", span)]
    return [f"crates/{path}" for path in of_one + of_some]


def scripts_in(line, page):
    """The tools that a row of the table of tools names first."""
    first = line.split("|")[1] if page == "tools/README.md" and line.startswith("|") else ""
    return [f"tools/{name}" for name in re.findall(r"`(\w+\.\w+)", first)]


def links_in(line, page):
    targets = re.findall(r"\]\(([^)#]+)[^)]*\)", line)
    return [os.path.normpath(os.path.join(os.path.dirname(page), t)) for t in targets if "://" not in t]


def faults_of_span(span, code, definitions, known):
    """The names in a text in backticks that do not exist."""
    for name in re.findall(r"(?<![\w:])[a-z_]\w*(?:::\w+)+", span):
        if name not in code and name.split("::")[0] not in ELSEWHERE:
            yield name
    for name in re.findall(r"(?<![\w./:-])[A-Z][\w-]*\.\w+", span):
        if name not in definitions:
            yield name
    for path in proof_paths_in(span, known):
        if not is_there(path):
            yield path


def faults_of_cell(cell, names, mark):
    """The bare names of a cell of the map that are not in the file, or the module, named before them in it."""
    homes = []
    for span in re.findall(r"`([^`]*)`", cell):
        if mark in span:
            homes = [mark.join(span.split(mark)[:n]) for n in range(1, span.count(mark) + 1)]
        elif homes and re.fullmatch(r"[a-z_]\w*", span) and not any(f"{home}{mark}{span}" in names for home in homes):
            yield span


def faults_of_line(line, page, code, definitions, known, words):
    read_part = line
    if page == "docs/SOURCE_MAP.md" and line.startswith("|"):
        _, _, definition, its_code, *_ = line.split("|")
        yield from faults_of_cell(definition, definitions, ".")
        yield from faults_of_cell(its_code, code, "::")
        read_part = definition + its_code
    yield from (path for path in paths_in(line) + links_in(line, page) + scripts_in(line, page) if not is_there(path))
    for span in re.findall(r"`([^`]*)`", read_part):
        yield from faults_of_span(span, code, definitions, known)
        if page in ("docs/ARCHITECTURE.md", "docs/TRUSTED.md") and line.startswith("|") and re.fullmatch(r"\w+", span) and span not in words:
            yield span


def main():
    os.chdir(os.path.join(os.path.dirname(os.path.abspath(__file__)), ".."))
    code, definitions, known = names_of_code(), names_of_definitions(), set(crates())
    words, count = single_words(code, definitions), 0
    definitions |= members_of_types(code) | files()
    for page in pages():
        for number, line in enumerate(read(page).split("\n"), 1):
            for fault in dict.fromkeys(faults_of_line(line, page, code, definitions, known, words)):
                print(f"{page}:{number} {fault}")
                count += 1
    sys.exit(count > 0)


if __name__ == "__main__":
    main()
