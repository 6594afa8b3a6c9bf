#!/usr/bin/env python3
"""Tries the wrong answers of docs/WRONG.md: changes of the code, each of which the prover must refuse because a fact fails.

    make wrong                          those of all crates, which must be proved before (rt all check)
    make wrong ARGS='octets cause'      those of some crates

tests/wrong/CRATE.txt has those of a crate. A line '== FUNCTION: ANSWER' starts one; 'in FILE' names the function's file where that is not
src/lib.rt; lines '- ' are text that stands once in the function, and lines '+ ' what takes its place. The prover names places of a proof by
the code: where an edit changes such a name, a line '~ OLD NEW' has the function's proof follow, so that its facts are looked at.

They are tried in copies of the repository, where rt begins with what it kept of the same crates. A function is judged by its own proof and
by the contracts of what it calls, so those of several functions go into one check; one that the check has no word of its own on, since it
calls another, is tried again alone. A refusal that names something missing is one of form, says nothing of the answer and counts as a
failure. WRONG_JOBS says how many checks run at a time, two if it is not set. The last line is 'N passed, M failed'.
"""
import collections
import concurrent.futures
import os
import pathlib
import queue
import re
import shutil
import subprocess
import sys
import tempfile

ROOT = pathlib.Path(__file__).resolve().parent.parent
JOBS = int(os.environ.get("WRONG_JOBS", "2"))

Edit = collections.namedtuple("Edit", "function answer file pairs names")

# What the prover says where a name is missing or the text is no Rattle.
FORM = re.compile(r"has no (field|`)|can be named from here|not in scope|cannot find|mismatched types|expected one of|no such|unknown")
# What it says of a proof that fails only because another does.
AFTER = "was not admitted"


def edits(crate, root=ROOT):
    """The wrong answers of a crate."""
    for part in re.split(r"^== ", (root / f"tests/wrong/{crate}.txt").read_text(encoding="utf-8"), flags=re.M)[1:]:
        title, *rows = part.rstrip().split("\n")
        file, pairs, names = "src/lib.rt", [], []
        for row in rows:
            if row.startswith("in "):
                file = row[3:]
            elif row.startswith("- "):
                if not pairs or pairs[-1][1]:
                    pairs.append(([], []))
                pairs[-1][0].append(row[2:])
            elif row.startswith("+ "):
                pairs[-1][1].append(row[2:])
            elif row.startswith("~ "):
                names.append(row[2:].split())
        yield Edit(*title.split(": ", 1), file, [("\n".join(old), "\n".join(new)) for old, new in pairs], names)


def rounds(tries):
    """The tries in lists that name no function twice."""
    lists = []
    for edit in tries:
        free = next((row for row in lists if all(edit.function != other.function for other in row)), None)
        if free is None:
            lists.append([edit])
        else:
            free.append(edit)
    return lists


def changed(text, edit):
    """A file's text with the edit made in its function: of several that have its name, as impls of From have, in the one that has the texts."""
    named = list(re.finditer(rf"^ *(pub(\(crate\))? )?(extern \"C\" )?fn {edit.function}[(<].*?^ ?}}", text, flags=re.M | re.S))
    found = next((one for one in named if all(old in one.group(0) for old, _ in edit.pairs)), named[0] if named else None)
    if not found or not edit.pairs:
        raise ValueError(f"no function {edit.function}, or nothing to change")
    body = found.group(0)
    for old, new in edit.pairs:
        if body.count(old) != 1:
            raise ValueError(f"stands {body.count(old)} times in {edit.function}: {old}")
        body = body.replace(old, new)
    return text[:found.start()] + body + text[found.end():]


def proofs(home, edit):
    """The files of the proof of an edit's function, with what stands in them once the names follow the code."""
    files = {path: path.read_text(encoding="utf-8") for path in sorted(home.glob(f"proofs/**/{edit.function}/*.antt")) if edit.names}
    for old, new in edit.names:
        turned = {path: re.sub(rf"(?<!\w){re.escape(old)}(?![\w'])", new, text) for path, text in files.items()}
        if turned == files:
            raise ValueError(f"no {old} in the proof of {edit.function}")
        files = turned
    return files


def copied(place):
    """A place with the repository's crates, without what checks left in them."""
    shutil.copytree(ROOT / "crates", place / "crates", ignore=shutil.ignore_patterns("out"))
    shutil.copy(ROOT / "crates.txt", place)
    (place / ".git").mkdir()
    return place


def restored(place, crate):
    """The crate as it stands in the repository: other crates are checked in the same place."""
    home = place / "crates" / crate
    for part in ("src", "proofs"):
        if (home / part).exists():
            shutil.rmtree(home / part)
            shutil.copytree(ROOT / "crates" / crate / part, home / part)


def said(place, crate, batch):
    """What the check says of a crate with a batch of edits."""
    for edit in batch:
        source = place / "crates" / crate / edit.file
        source.write_text(changed(source.read_text(encoding="utf-8"), edit), encoding="utf-8")
        for path, text in proofs(place / "crates" / crate, edit).items():
            path.write_text(text, encoding="utf-8")
    try:
        job = subprocess.run(["rt", "check"], cwd=place / "crates" / crate, capture_output=True, text=True, errors="replace")
    finally:
        restored(place, crate)
    if job.returncode != 1 or not re.search(r"^logic=not-proved", job.stdout, flags=re.M):
        raise ValueError(f"{crate} was not refused by the prover:\n{job.stdout[-2000:]}{job.stderr[-2000:]}")
    return job.stdout


def word(text, function):
    """The check's own word on a function, empty where it has none."""
    errors = re.findall(rf"^\S*/proofs/(?:\S*/)?{function}/\w+\.antt:\S* error: (.*)", text, flags=re.M)
    unclosed = re.findall(rf"^fn \S*::{function}: no proof: .*?(`search` did not prove [^;\n]*)", text, flags=re.M)
    return next((row for row in errors + unclosed if AFTER not in row), "")


def tried(places, crate, batch):
    """Each edit of a batch with what the check says of its function."""
    place = places.get()
    try:
        text = said(place, crate, batch)
        for edit in batch:
            own = word(text, edit.function)
            yield edit, own or len(batch) > 1 and word(said(place, crate, [edit]), edit.function)
    finally:
        places.put(place)


def main(crates):
    crates = crates or sorted(path.stem for path in (ROOT / "tests/wrong").glob("*.txt"))
    passed = failed = 0
    with tempfile.TemporaryDirectory() as top, concurrent.futures.ThreadPoolExecutor(JOBS) as pool:
        places = queue.Queue()
        for k in range(JOBS):
            places.put(copied(pathlib.Path(top) / str(k)))
        batches = [(crate, batch) for crate in crates for batch in rounds(edits(crate))]
        for crate, results in pool.map(lambda job: (job[0], list(tried(places, *job))), batches):
            for edit, own in results:
                bad = "no word of its own" if not own else "refused for its form" if FORM.search(own) else ""
                passed, failed = passed + (not bad), failed + bool(bad)
                print(f"{crate}, {edit.function}: {edit.answer}: {'FAILED, ' + bad if bad else 'refused'} ({(own or '')[:110]})", flush=True)
    print(f"{passed} passed, {failed} failed", flush=True)
    return 0 if passed and not failed else 1


if __name__ == "__main__":
    sys.exit(main(sys.argv[1:]))
