#!/usr/bin/env python3
"""Gives the definitions and lemmas of this repository today's spelling: words in snake case, types and modules in camel case.

usage: respell.py [--check]      at the top of a checkout that port.py has turned

It renames what the .antt files of crates/ declare outside generated goals: definitions, lemmas, fields, constructors that begin
with a small letter, and the names that a `use .. as` gives. A name keeps its spelling in a file that imports it from the kit.
The folder Contracts of the definition becomes Clauses, since Rattle makes a module `contracts` beside it. It turns code spans of
README.md and docs/, and the texts of must-fail edits and of tests/wrong. Where a lemma falls together with a definition, it gets `_lem`
behind its name; a pair that still falls together is printed. At the end it lays out every crate by `rt fmt`. Run it once: a second run
finds nothing to do.
"""
import collections
import os
import pathlib
import re
import subprocess
import sys

WORD = re.compile(r"[A-Za-z_◌][\w'₀-₉-]*")
DECLARED = re.compile(r"^\s*(?:(?:pub|unfoldable|abbrev|module|private) )*([^\s:(){}=λ→,;.]+(?: [^\s:(){}=λ→,;.]+)*) :(?=\s|$)")
KEYWORDS = {"record", "data", "use", "where", "let", "in", "module", "deriving", "do"}
# Files that give the names of goals, which Rattle makes.
NO_WORDS = {"Proof.antt", "Answers.antt", "Invariants.antt"}
OLD_FOLDER, NEW_FOLDER = "Contracts", "Clauses"


def antt_files(root):
    for folder, below, files in os.walk(root / "crates"):
        below[:] = sorted(name for name in below if name != "out")
        for name in sorted(files):
            if name.endswith(".antt"):
                yield pathlib.Path(folder) / name


def rt_files(root):
    return sorted(path for path in (root / "crates").glob("*/src/**/*.rt"))


def without_comments(text):
    return re.sub(r"(?m)(^|\s)--(?=\s|$).*", r"\1", text)


def snake(name):
    """Dashes and humps become underscores, unless a part is no plain word (an operator, a capital alone)."""
    parts = name.split("-")
    if not all(parts) or not re.match(r"[a-z]", name):
        return name
    turned = []
    for part in parts:
        part = re.sub(r"(?<=[a-z0-9])([A-Z])(?=[a-z0-9]|$)", lambda m: "_" + m.group(1).lower(), part)
        part = re.sub(r"(?<=[A-Z])([A-Z])(?=[a-z])", lambda m: "_" + m.group(1).lower(), part)
        turned.append(part)
    return "_".join(turned)


def declarations(text, proof):
    for row in without_comments(text).splitlines():
        found = DECLARED.match(row)
        if not found:
            continue
        names = found.group(1).split()
        if KEYWORDS & set(names):
            continue
        if proof and re.search(r":\s*(tie|goal)\.", row):
            continue
        yield from names


def imports(text):
    """The names that `use` lines bring: of the kit, of the repository, and by `as`."""
    kit, own, given = set(), set(), set()
    for found in re.finditer(r"(?m)^\s*(?:ghost )?(?:unfoldable )?(?:pub )?use ([^\s{;]+?)(?:\.\{([^}]*)\})?(?: as ([^\s;]+))?;?$", text):
        path, names, alias = found.groups()
        inside = path.startswith("Rattle.") and not re.match(r"Rattle\.(std|core|alloc|io|libc)\b", path)
        for name in (names or "").split(","):
            words = name.split()
            if words:
                (own if inside else kit).add(words[0])
            if len(words) == 3:
                given.add(words[2])
        if alias:
            given.add(alias)
    return kit, own, given


def names_to_turn(root):
    declared = collections.defaultdict(set)
    for path in antt_files(root):
        text = path.read_text(encoding="utf-8")
        for name in declarations(text, path.name in NO_WORDS):
            declared[name].add(path)
        for name in imports(text)[2]:
            declared[name].add(path)
    for path in rt_files(root):
        for name in imports(path.read_text(encoding="utf-8"))[2]:
            declared[name].add(path)
    turned = {}
    for name in declared:
        new = snake(name)
        if new != name and not re.fullmatch(r".*-(requires|ensures|spec)(-\d+)?", name):
            turned[name] = new
        elif name.endswith("-spec") and snake(name) != name:
            turned[name] = snake(name)
    for new, names in collisions(turned, declared):
        humps = [name for name in names if re.search("[A-Z]", name)]
        first = humps[0] if humps else next(name for name in names if "-" not in name)
        turned.update((name, new + "_lem") for name in names if name != first)
    return turned, declared


def respelled(text, turned, keep):
    def one(found):
        word = found.group(0)
        return word if word in keep else turned.get(word, word)

    return WORD.sub(one, text)


def in_source(text, turned, keep):
    """Code of a .rt file: strings stay."""
    return re.sub(r"\"(?:[^\"\\]|\\.)*\"|" + WORD.pattern, lambda found: found.group(0) if found.group(0).startswith('"') or found.group(0) in keep
                  else turned.get(found.group(0), found.group(0)), text)


def in_page(text, turned, keep):
    return re.sub(r"(?<!`)`([^`\n]+)`(?!`)", lambda found: "`" + respelled(found.group(1), turned, keep) + "`", text)


def move_folder(root):
    """Contracts becomes Clauses, where it still stands."""
    specs = root / "crates/definition/specs"
    if (specs / f"{OLD_FOLDER}.antt").exists():
        (specs / f"{OLD_FOLDER}.antt").rename(specs / f"{NEW_FOLDER}.antt")
    if (specs / OLD_FOLDER).is_dir():
        (specs / OLD_FOLDER).rename(specs / NEW_FOLDER)


def moved(text):
    text = re.sub(rf"\bspecs\.{OLD_FOLDER}\b", f"specs.{NEW_FOLDER}", text)
    return re.sub(rf"(?m)^(\s*pub mod ){OLD_FOLDER}$", rf"\g<1>{NEW_FOLDER}", text)


def moved_page(text):
    return re.sub(rf"\bspecs/{OLD_FOLDER}\b|`{OLD_FOLDER}(?=[/`])", lambda found: found.group(0).replace(OLD_FOLDER, NEW_FOLDER), text)


def collisions(turned, declared):
    by_new = collections.defaultdict(set)
    for name in declared:
        by_new[turned.get(name, name)].add(name)
    return sorted((new, sorted(names)) for new, names in by_new.items() if len(names) > 1)


def main(words):
    root = pathlib.Path(".").resolve()
    turned, declared = names_to_turn(root)
    for new, names in collisions(turned, declared):
        print(f"together: {new}: " + "; ".join(f"{name} ({', '.join(sorted(str(path.relative_to(root)) for path in declared[name])[:2])})" for name in names))
    if "--check" in words:
        print(f"{len(turned)} names to turn")
        return 0
    move_folder(root)
    for path in antt_files(root):
        text = path.read_text(encoding="utf-8")
        own = set(declarations(text, path.name in NO_WORDS)) | imports(text)[1]
        path.write_text(moved(respelled(text, turned, imports(text)[0] - own)), encoding="utf-8")
    for path in rt_files(root):
        text = path.read_text(encoding="utf-8")
        path.write_text(moved(in_source(text, turned, imports(text)[0])), encoding="utf-8")
    for path in sorted((root / "crates").glob("*/must-fail/*.edit")) + sorted((root / "tests/wrong").glob("*.txt")):
        path.write_text(moved(respelled(path.read_text(encoding="utf-8"), turned, set())), encoding="utf-8")
    for path in [root / "README.md", *sorted((root / "docs").glob("*.md"))]:
        path.write_text(moved_page(in_page(path.read_text(encoding="utf-8"), turned, set())), encoding="utf-8")
    for folder in sorted((root / "crates").glob("*/src")):
        subprocess.run(["rt", "fmt"], cwd=folder.parent, check=True, stdout=subprocess.DEVNULL)
    print(f"{len(turned)} names turned")
    return 0


if __name__ == "__main__":
    sys.exit(main(sys.argv[1:]))
