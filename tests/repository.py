#!/usr/bin/env python3
"""Rules of crates, code and proofs that the prover does not check; those of pages are in pages.py."""
import concurrent.futures
import os
import pathlib
import re
import shutil
import subprocess
import sys
import tempfile

import wrong
import wrong_page
from checklist import Skip, run

# Symbols that a reader of a contract takes for the library's, and the module that defines them.
MEANING = {
    "mathlib.Core.Path": ["◌≡◌"],
    "Prim.Native.Nat": ["ℕ", "◌+◌", "◌-◌", "◌*◌", "◌/◌", "◌%◌", "◌^◌", "◌<◌", "◌≤◌"],
    "mathlib.Core.List": ["List", "[]", "◌∷◌", "◌++◌"],
    "mathlib.Core.Bool": ["Bool", "true", "false", "cond", "not", "◌&&◌", "◌||◌"],
    "mathlib.Core.Option": ["Option", "none", "some"],
    "lib.ListN": ["length", "take", "drop", "get_or"],
    "lib.Dec": ["T", "eqb", "ltb", "leb"],
}
# The modules of the library that pass on what these define, under the same names. The first two pass on single names, and their `Option` is Rust's.
PASSED_ON = {
    "Rattle.std.specs.Prelude": [module for module in MEANING if module != "mathlib.Core.Option"],
    "Rattle.std.proofs.Common": [module for module in MEANING if module != "mathlib.Core.Option"],
    **{f"Rattle.std.proofs.Math.{module.rpartition('.')[2]}": [module] for module in MEANING if module not in ("Prim.Native.Nat", "mathlib.Core.List")},
}
# Rust's Option, that of the code, may be taken where nothing is of the definition's: a file has one of the two.
RUSTS = {"Option": ("Rattle.std.specs.Prelude", "Rattle.std.proofs.Common")}
# For each symbol the modules that it may be taken from.
HOMES = {name: [module, *(other for other, passed in PASSED_ON.items() if module in passed)] for module, names in MEANING.items() for name in names}

# The scripts that write what programs are to read and to print, and the files that they write.
SCRIPTS = ["tests/vectors/*.py", "tests/calls/make.py", "tests/register/make.py"]
WRITTEN = ["crates/*_vectors/std*", "crates/calls_replay/std*", "crates/register_damaged/std*"]
# What the scripts read.
SOURCES = ["tests/**/*.py", "compare/*.py", "docs/layout.json"]


def texts(root, *patterns):
    """Path below the root, and text, of the files that match."""
    for pattern in patterns:
        for path in sorted(root.glob(pattern)):
            yield path.relative_to(root).as_posix(), path.read_text(encoding="utf-8")


def matching(root, patterns):
    """The files that match, as paths below the root."""
    return sorted(path.relative_to(root) for pattern in patterns for path in root.glob(pattern))


def code(root):
    """The Rattle sources, comments blanked."""
    for path, text in texts(root, "crates/*/src/**/*.rt"):
        yield path, re.sub(r"//[^\n]*", lambda m: " " * len(m.group(0)), text)


def proofs(root):
    """The antt files, comments blanked."""
    for path, text in texts(root, "crates/*/specs/**/*.antt", "crates/*/proofs/**/*.antt"):
        yield path, re.sub(r"--[^\n]*", lambda m: " " * len(m.group(0)), text)


def line(text, at):
    return text.count("\n", 0, at) + 1


def levels(root):
    """The levels of crates.txt, each with its crates in order; a crate with what it depends on. A level begins with '# NAME: ..'."""
    found = {}
    for row in (root / "crates.txt").read_text(encoding="utf-8").splitlines():
        head = re.match(r"# (\w+): ", row)
        code, _, _ = row.partition("#")
        if head:
            level = found.setdefault(head.group(1), {})
        elif ":" in code:
            name, _, needs = code.partition(":")
            level[name.split()[0]] = needs.split()
    return found


def listed(root):
    """The crates of crates.txt, in order."""
    return wrong_page.crates(root)


def signature(text, at):
    """What stands from a function's name to its body: the body's brace opens where no clause is open."""
    depth = 0
    for i in range(at, len(text)):
        if text[i] == "{":
            if depth == 0 and not re.search(r"\b(requires|ensures)\*?(\s+\w+)?\s*$", text[at:i]):
                return text[at:i]
            depth += 1
        elif text[i] == "}":
            depth -= 1
    return text[at:]


def functions(root):
    """Place, name, whether exported to C, and signature of each public function."""
    for path, text in code(root):
        for found in re.finditer(r'\bpub\s+(extern\s+"C"\s+)?fn\s+(\w+)', text):
            where = f"{path}:{line(text, found.start())}"
            yield where, found.group(2), bool(found.group(1)), signature(text, found.end())


def crates(root):
    """Each folder of crates/ is listed in crates.txt, once, and each listed crate is there."""
    names, folders = listed(root), sorted(path.name for path in (root / "crates").iterdir() if path.is_dir())
    for name in folders:
        if names.count(name) != 1:
            yield f"crates/{name} is listed {names.count(name)} times in crates.txt"
    for name in names:
        if name not in folders:
            yield f"crates.txt lists {name}, and crates/{name} is not there"
    done = []
    for name, needs in (item for level in levels(root).values() for item in level.items()):
        for need in needs:
            if need in names and need not in done:
                yield f"crates.txt lists {name} before {need}, which it depends on"
        done.append(name)


def promises(root):
    """Each public function has an `ensures`."""
    for where, name, _, head in functions(root):
        if not re.search(r"\bensures\b", head):
            yield f"{where}: {name} has no ensures"


def entries(root):
    """No function that a host calls has a `requires`, nor has the library's function that it hands its arguments to."""
    host = {name for _, name, exported, _ in functions(root) if exported}
    for where, name, _, head in functions(root):
        if name in host and re.search(r"\brequires\b", head):
            yield f"{where}: {name} is an entry point with a requires"


def plain(head):
    """A signature's words: parameters and clauses, however they are laid out."""
    return " ".join(re.sub(r",(?=\s*\))", "", head).replace("(", "( ").replace(")", " )").split())


def exports(root):
    """What a static library exports has the parameters and the clauses of the library's function that has its name."""
    known = {name: plain(head) for _, name, exported, head in functions(root) if not exported}
    for where, name, exported, head in functions(root):
        if exported and known.get(name) != plain(head):
            yield f"{where}: {name} {'promises something else than' if name in known else 'has no'} the library's function of that name"


def holes(root):
    """No proof has a hole, with or without a name, or a term on trial in its place, and none declares an axiom."""
    for path, text in proofs(root):
        for found in re.finditer(r"(?<![^\s(=])\?\w*(?![^\s)])|\{!|^\s*(?:pub )?axiom\b", text, re.M):
            yield f"{path}:{line(text, found.start())}: {found.group(0).strip()}"


def rusts(path, text, module, words):
    """Whether a file outside the definition takes a symbol of Rust's, and none of the definition's with that name."""
    if words[0] != words[-1] or module not in RUSTS.get(words[-1], ()) or path.startswith("crates/definition/"):
        return False
    return not re.search(rf"\buse\s+(?:{'|'.join(map(re.escape, HOMES[words[-1]]))})\.\{{[^}}]*\b{words[-1]}\b", text)


def symbols(root):
    """The symbols of contracts mean what the library says."""
    imports = r"\buse\s+([^\s{};]+)\.\{([^}]*)\}"
    for path, text in [*code(root), *proofs(root)]:
        for found in re.finditer(imports, text):
            for words in (item.split() for item in found.group(2).split(",") if item.split()):
                name = words[-1]
                if rusts(path, text, found.group(1), words):
                    continue
                if name in HOMES and (found.group(1) not in HOMES[name] or words[0] != name):
                    yield f"{path}:{line(text, found.start())}: {' '.join(words)} is taken from {found.group(1)}"
    for path, text in proofs(root):
        # what is indented with `pub` alone is a record's field, which no contract can take for the symbol; nor is a lemma of a proof that has no mark
        marks = "*" if path.split("/")[2] == "specs" else "+"
        given = rf"^(?:(?:unfoldable|abbrev|axiom|pub) ){marks}(\S+) :(?=\s)|^ +(?:(?:unfoldable|abbrev) )+(?:pub )?(\S+) :(?=\s)|^ *(?:pub )?(?:record|data) (\S+)"
        for found in re.finditer(given, text, re.M):
            name = next(filter(None, found.groups()))
            if name in HOMES:
                yield f"{path}:{line(text, found.start())}: {name} is defined anew"


def cited(text):
    """The antt files of this repository that a file cites."""
    for crate, folder, file in re.findall(r"\buse Rattle\.(?!std\.|core\.)(\w+)\.(specs|proofs)\.(\w+(?:\.\w+)*)", text):
        yield f"crates/{crate}/{folder}/{file.replace('.', '/')}.antt"


def definition(root):
    """The definition has no code, and neither it nor what it cites names a type that is declared in code."""
    for path, text in code(root):
        if path.startswith("crates/definition/") and re.sub(r"#!\[tactic\(auto\)\]", "", text).strip():
            yield f"{path}: holds code"
    files = dict(proofs(root))
    todo, seen = [path for path in files if path.startswith("crates/definition/")], set()
    while todo:
        path = todo.pop()
        if path in seen or path not in files:
            continue
        seen.add(path)
        for found in re.finditer(r"\S*\bdeclared\.\S*", files[path]):
            yield f"{path}:{line(files[path], found.start())}: {found.group(0)}"
        todo.extend(cited(files[path]))


def laws(root):
    """What states document 01 cites neither laws, which stand in the definition's proofs, nor Clauses, and Clauses no laws. Neither holds a law:
    each line with a type has a mark."""
    for path, text in proofs(root):
        place = re.fullmatch(r"crates/definition/specs/(Clauses/)?\w+\.antt", path)
        if place:
            others = r"\w+\.proofs" if place.group(1) else r"\w+\.proofs|definition\.specs\.Clauses"
            for found in re.finditer(rf"\buse Rattle\.(?!std\.|core\.)(?:{others})\b\S*|^(?:pub )?\S+ :(?=\s)", text, re.MULTILINE):
                yield f"{path}:{line(text, found.start())}: {found.group(0)}"


def answers(root):
    """Each wrong answer of tests/wrong can be put into the function that it names, and the names that follow are in its proof."""
    for path in sorted((root / "tests/wrong").glob("*.txt")):
        for edit in wrong.edits(path.stem, root):
            try:
                wrong.changed((root / "crates" / path.stem / edit.file).read_text(encoding="utf-8"), edit)
                wrong.proofs(root / "crates" / path.stem, edit)
            except (OSError, ValueError) as error:
                yield f"tests/wrong/{path.name}: {edit.function}: {edit.answer}: {error}"


def vectors(root):
    """What programs are to read and to print is what the scripts write, by Python's library or by a reading of their own."""
    scripts, stored = matching(root, SCRIPTS), matching(root, WRITTEN)
    if not scripts:
        raise Skip("tests/vectors is not there yet")
    with tempfile.TemporaryDirectory() as name:
        copy = pathlib.Path(name)
        for file in [*matching(root, SOURCES), *stored]:
            (copy / file.parent).mkdir(parents=True, exist_ok=True)
        for file in matching(root, SOURCES):
            shutil.copy(root / file, copy / file)
        for script in scripts:
            subprocess.run([sys.executable, "-B", copy / script], cwd=copy, check=True)
        for file in sorted({*stored, *matching(copy, WRITTEN)}):
            if not (copy / file).exists():
                yield f"no script writes {file}"
            elif file not in stored or (copy / file).read_bytes() != (root / file).read_bytes():
                yield f"{file} is not what the scripts write"


def formatted(home):
    """The files of a crate that `rt fmt` changes, or what it says where it fails."""
    done = subprocess.run(["rt", "fmt"], cwd=home, stdout=subprocess.PIPE, stderr=subprocess.STDOUT, text=True)
    files = [f"crates/{home.name}/{file}" for file in re.findall(r"^rt: formatted (\S+)$", done.stdout, re.M)]
    return files if done.returncode == 0 else [f"crates/{home.name}: {row}" for row in done.stdout.splitlines()[-5:] or ["rt fmt fails"]]


def layout(root):
    """`rt fmt` would change nothing. It writes, so it is given a copy."""
    with tempfile.TemporaryDirectory() as name, concurrent.futures.ThreadPoolExecutor(os.cpu_count()) as pool:
        copy = pathlib.Path(name)
        shutil.copytree(root / "crates", copy / "crates", ignore=shutil.ignore_patterns("out"))
        shutil.copy(root / "crates.txt", copy)
        (copy / ".git").mkdir()
        for faults in pool.map(formatted, [copy / "crates" / crate for crate in listed(root)]):
            yield from faults


CHECKS = {
    "crates are listed": crates,
    "public functions have an ensures": promises,
    "entry points have no requires": entries,
    "exports promise what the library does": exports,
    "no hole and no axiom": holes,
    "symbols are the library's": symbols,
    "the definition has no code": definition,
    "definitions stand by themselves": laws,
    "wrong answers fit the code": answers,
    "vectors are Python's": vectors,
    "files are in rt fmt's layout": layout,
}

if __name__ == "__main__":
    sys.exit(run("repository", CHECKS))
