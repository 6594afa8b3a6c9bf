"""Runs named checks over a repository and counts them.

A check takes the repository's root and gives the faults it found, one line each; it may raise Skip where there is
nothing to check yet. The last line printed is 'N passed, M failed'.
"""
import pathlib
import subprocess
import sys

HERE = pathlib.Path(__file__).resolve().parent.parent


class Skip(Exception):
    """There is nothing to check yet; the text says why."""


def faults_of(check, root):
    try:
        return list(check(root))
    except (OSError, ValueError, LookupError, TypeError, AttributeError, subprocess.SubprocessError) as error:
        return [f"{type(error).__name__}: {error}"]


def run(script, checks):
    """Runs {name: check} over the root named by the first argument, or over this repository; gives the exit status."""
    root = pathlib.Path(sys.argv[1]) if len(sys.argv) > 1 else HERE
    passed = failed = 0
    for name, check in checks.items():
        try:
            faults = faults_of(check, root)
        except Skip as reason:
            print(f"{script}: skipped: {name}: {reason}")
            continue
        if faults:
            failed += 1
            print(f"{script}: FAILED: {name}")
            for fault in faults:
                print(f"    {fault}")
        else:
            passed += 1
            print(f"{script}: ok: {name}")
    print(f"{passed} passed, {failed} failed", flush=True)
    return 1 if failed else 0
