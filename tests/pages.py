#!/usr/bin/env python3
"""The pages say what is there: crates, functions, definitions, wrong answers, paths, what must be believed."""
import re
import shutil
import subprocess
import sys

import wrong_page
from checklist import Skip, run
from repository import cited, functions, levels, line, texts

DOCUMENTS = ["README.md", "NOTICE", "docs/*.md"]


def architecture(root):
    """docs/ARCHITECTURE.md's table of crates has the crates of crates.txt, level by level and in its order."""
    text = (root / "docs/ARCHITECTURE.md").read_text(encoding="utf-8")
    found = re.search(r"^\| Level \| Crate \|.*\n\|[-| ]+\n((?:\|.*\n)*)", text, re.M)
    rows = re.findall(r"^\| (\w*) ?\| `(\w+)` \|", found.group(1), re.M) if found else []
    for level, crates_of in levels(root).items():
        for place, name in enumerate(crates_of):
            want = ("" if place else level, name)
            row = rows.pop(0) if rows else ("", "nothing")
            if row != want:
                yield f"docs/ARCHITECTURE.md has {row[1]} of {row[0] or 'the same level'} where crates.txt has {name} of {level}"
                return
    if rows:
        yield f"docs/ARCHITECTURE.md has {rows[0][1]}, and crates.txt no more"


def raised(root):
    """The functions and definitions on docs/ARCHITECTURE.md's way of a raise are there; a row's cells stand at least two blanks apart."""
    text = (root / "docs/ARCHITECTURE.md").read_text(encoding="utf-8")
    _, found, rest = text.partition("    Function  ")
    rows = [re.split(r"  +", row.strip(" │├└─")) for row in rest[:re.search(r"\n\S", rest).start()].splitlines()[1:]] if found else []
    if len(rows) < 9:
        yield "docs/ARCHITECTURE.md shows no raise"
    for cells in (cells for cells in rows if len(cells) > 2):
        crate, mark, names = cells[0].partition("::")
        sources = "\n".join(source for _, source in texts(root, f"crates/{crate}/src/**/*.rt")) if mark else ""
        for name in names.split(", ") if mark else []:
            if not re.search(rf"\bfn {name}\(", sources):
                yield f"docs/ARCHITECTURE.md: {crate} has no function {name}"
        specs = "\n".join(spec for file in cells[-1].split(", ") for _, spec in texts(root, f"crates/*/specs/{file}"))
        for name in cells[1].split(", "):
            if not re.search(rf"^ *(?:\w+ )*{name} :", specs, re.M):
                yield f"docs/ARCHITECTURE.md: {cells[-1]} has no definition {name}"


def exported(root, path, name):
    """Whether other crates see a public function of a source file: the crate's root has it or hands it on, or the modules on the way are public."""
    folder, _, file = path.partition("/src/")
    modules = file.removesuffix(".rt").split("/") if file not in ("lib.rt", "main.rt") else []
    root_text = (root / folder / "src" / "lib.rt").read_text(encoding="utf-8") if modules else ""
    if re.search(rf"^pub use {'::'.join(modules)}::(?:{name};|\{{[^}}]*\b{name}\b)", root_text, re.M):
        return True
    above = "lib.rt"
    for module in modules:
        text = (root / folder / "src" / above).read_text(encoding="utf-8")
        if not re.search(rf"^pub mod {module};", text, re.M):
            return False
        above = f"{module}.rt" if above == "lib.rt" else above.replace(".rt", f"/{module}.rt")
    return True


def claimed(root):
    """Line, names in code marks, and files of each row of docs/CLAIMS.md's tables of demands; an empty file cell is the one above."""
    files, reading = [], False
    for number, row in enumerate((root / "docs/CLAIMS.md").read_text(encoding="utf-8").splitlines(), 1):
        cells = [cell.strip() for cell in row.strip("|").split("|")] if row.startswith("|") else []
        if cells[:1] == ["Demand"]:
            reading = True
        elif not cells:
            reading = False
        elif reading and not set(row) <= set("|-: "):
            files = re.findall(r"`([^`]+)`", cells[2]) or files
            yield number, re.findall(r"`([^`]+)`", cells[1]), files


def claims(root):
    """What docs/CLAIMS.md names is in the files that it gives, and each function that other crates see is named there."""
    named = set()
    for number, names, files in claimed(root):
        text = "\n".join((root / file).read_text(encoding="utf-8") for file in files)
        for name in names:
            named.update((name, file) for file in files)
            if not re.search(rf"\bpub (?:extern \"C\" )?fn {re.escape(name)}\b|^\s*(?:\w+ )*{re.escape(name)}(?: :| \()", text, re.M):
                yield f"docs/CLAIMS.md:{number}: {name} is not in {', '.join(files)}"
    for where, name, _, _ in functions(root):
        path = where.rsplit(":", 1)[0]
        if exported(root, path, name) and (name, path) not in named:
            yield f"{where}: {name} is not in docs/CLAIMS.md"


def enums(root):
    """docs/CLAIMS.md's section on enums has each enum of the code, and what its table names is in the file or the crate of the row."""
    _, _, rest = (root / "docs/CLAIMS.md").read_text(encoding="utf-8").partition("\n## Answers that are enums\n")
    section = rest.partition("\n## ")[0]
    sources = dict(texts(root, "crates/*/src/**/*.rt"))
    for path, source in sources.items():
        for name in re.findall(r"^(?:pub(?:\(crate\))? )?enum (\w+)", source, re.M):
            if f"`{name}`" not in section:
                yield f"{path}: enum {name} is not in docs/CLAIMS.md"
    for name, crate, says, file in re.findall(r"^\| (`.+?) \| `(\w+)` \| (.+) \| `(\S+)` \|$", section, re.M):
        code_of = "\n".join(source for path, source in sources.items() if path.startswith(f"crates/{crate}/"))
        specs = (root / file).read_text(encoding="utf-8")
        for word in re.findall(r"`(\w+)`", name):
            if not re.search(rf"\benum {word}\b", code_of):
                yield f"docs/CLAIMS.md: {crate} has no enum {word}"
        for word in re.findall(r"`(\w+)`", says):
            if not re.search(rf"^\s*(?:\w+ )*{word}(?: :| \()", specs, re.M) and not re.search(rf"\bfn {word}\(", code_of):
                yield f"docs/CLAIMS.md: {word} is not in {file}"


def page(root):
    """docs/WRONG.md is what tests/wrong_page.py writes."""
    if (root / wrong_page.PAGE).read_text(encoding="utf-8") != wrong_page.page(root):
        yield f"{wrong_page.PAGE} is not what tests/wrong_page.py writes: run it"


def sentences(root):
    """Each definition that docs/SENTENCES.md names is in a file of its row, and each of these files has one of them."""
    for number, row in enumerate((root / "docs/SENTENCES.md").read_text(encoding="utf-8").splitlines(), 1):
        cells = row.strip("| ").split(" | ")
        if len(cells) != 3 or cells[1] in ("Definition", "Theorem"):
            continue
        names, files = (re.findall(r"`([^`]+)`", cell) for cell in cells[1:])
        bare = set(names)
        for file in files:
            path = root / (file if "/" in file else f"crates/definition/specs/{file}")
            text = path.read_text(encoding="utf-8") if path.exists() else ""
            here = {name for name in names if re.search(rf"^\s*(?:\w+ )*(?:extern \"C\" fn )?{re.escape(name)}(?: :| \(|\()", text, re.M)}
            bare -= here
            if not here:
                yield f"docs/SENTENCES.md:{number}: {file} has none of the names"
        for name in sorted(bare):
            yield f"docs/SENTENCES.md:{number}: {name} is not in {', '.join(files)}"


# Paths in documents: from the root or beside the document; the definition's laws are named from its proofs, the words of contracts from its specs.
PATHS = re.compile(r"(?<![\w/.])(?:(?:crates|docs|tests|compare|rust(?!/target)|include|examples|bench|\.ci)/[\w./*-]*[\w*]"
                   r"|(?:Laws|Clauses)/[\w/.]*\w|[A-Z]+\.md)(?![\w/])")


def paths(root):
    """Each path that a document names is there."""
    definition = root / "crates/definition"
    for path, text in texts(root, *DOCUMENTS):
        for found in PATHS.finditer(text):
            name = found.group(0)
            if not any(next(base.glob(name), None) for base in (root, (root / path).parent, definition / "specs", definition / "proofs")):
                yield f"{path}:{line(text, found.start())}: {name} is not there"


# ---- docs/TRUST.md

TRUST, DEFINITION = "docs/TRUST.md", "crates/definition/specs"


def believed(root):
    """The table of what has to be read has the definition's files in Lib.antt's order, whatever these cite, and the lines of each."""
    text = (root / TRUST).read_text(encoding="utf-8")
    rows = {name if "/" in name else f"{DEFINITION}/{name}": int(lines) for name, lines in re.findall(r"^\| `([\w/]+\.antt)` \| (\d+) \|", text, re.M)}
    parts = re.findall(r"^pub mod (\w+)", (root / DEFINITION / "Lib.antt").read_text(encoding="utf-8"), re.M)
    wanted = [f"{DEFINITION}/{part}.antt" for part in parts if part != "Clauses"]
    if [path for path in rows if path.startswith(DEFINITION)] != wanted:
        yield f"{TRUST} does not list the files of {DEFINITION} as Lib.antt does"
    for path, lines in rows.items():
        file = (root / path).read_text(encoding="utf-8")
        if file.count("\n") != lines:
            yield f"{TRUST}: {path} has {file.count(chr(10))} lines, and not {lines}"
        yield from (f"{TRUST} does not list {other}, which {path} cites" for other in cited(file) if other not in rows)
    if f"| all | {sum(rows.values()):,} |" not in text:
        yield f"{TRUST}: all lines are {sum(rows.values()):,}"


def toolchain(root):
    """The page names the toolchain that proves: what `rt version` prints, and the number of its logic."""
    if not shutil.which("rt"):
        raise Skip("rt is not on this machine")
    text = (root / TRUST).read_text(encoding="utf-8")
    version = subprocess.run(["rt", "version"], stdout=subprocess.PIPE, text=True, check=True).stdout.strip()
    if f"    $ rt version\n    {version}\n" not in text:
        yield f"{TRUST} has another toolchain than {version}"
    for number in re.findall(r"sum=(\w+)", text):
        if number != version.split()[-1]:
            yield f"{TRUST}: sum={number}, and the toolchain's logic is {version.split()[-1]}"


def sceptic(root):
    """The three edits for a sceptic are must-fail edits, so that each run of rt ci tries them."""
    text = (root / TRUST).read_text(encoding="utf-8")
    rows = re.findall(r"^\| `crates/(\w+)/(\S+)` \| `([^|]+)` \| `([^|]+)` \| `crates/(\w+)` \|", text, re.M)
    if len(rows) != 3:
        yield f"{TRUST} has {len(rows)} edits"
    for crate, file, old, new, place in rows:
        edits = [dict(re.findall(r"^(file|old|new): +(.*)", edit, re.M)) for _, edit in texts(root, f"crates/{crate}/must-fail/*.edit")]
        if crate != place or {"file": file, "old": old, "new": new} not in edits:
            yield f"{TRUST}: {old}: crates/{crate}/must-fail has no such edit"


CHECKS = {
    "ARCHITECTURE lists the crates by level": architecture,
    "ARCHITECTURE follows a raise": raised,
    "claims are there, one for each public function": claims,
    "each enum has its meaning": enums,
    "the page of wrong answers is theirs": page,
    "sentences have their definitions": sentences,
    "paths in documents are there": paths,
    "TRUST lists the definition, with its lines": believed,
    "TRUST names the toolchain": toolchain,
    "TRUST's edits are must-fail edits": sceptic,
}

if __name__ == "__main__":
    sys.exit(run("pages", CHECKS))
