"""The program `station` for the tests of the desk: built once, and run as a new user would."""
import os
import pathlib
import shutil
import subprocess
import tempfile

from checklist import HERE, Skip

STATION = HERE / "rust/target/release/station"
WORK = pathlib.Path(tempfile.mkdtemp(prefix="desk"))
DAY, MONTH = WORK / "day.calls", WORK / "month.calls"
PAGE_WIDTH = 99


def linkable():
    """Skips where programs cannot be linked."""
    for tool in ("cargo", "cc"):
        if not shutil.which(tool):
            raise Skip(f"{tool} is not on this machine")


def ready():
    """Makes the static library where it is not there or is older than its sources."""
    linkable()
    made = subprocess.run(["make", "lib"], cwd=HERE, stdout=subprocess.PIPE, stderr=subprocess.STDOUT, text=True)
    if made.returncode:
        raise ValueError(f"make lib: {made.stdout[-500:]}")


def without_library():
    """The environment, without a library of somebody's own."""
    return {name: value for name, value in os.environ.items() if name != "ALARM_REGISTER_LIB"}


def cargo(*words, **variables):
    words = ["cargo", *words, "--release", "--offline", "--quiet", "--manifest-path", HERE / "rust/Cargo.toml"]
    environment = {**without_library(), **variables}
    return subprocess.run(words, stdout=subprocess.PIPE, stderr=subprocess.STDOUT, text=True, env=environment)


def station(*words, given=None):
    """Runs the program; gives its status, and what it wrote to both streams."""
    given = given.encode() if isinstance(given, str) else given
    done = subprocess.run([STATION, *map(str, words)], input=given, capture_output=True, cwd=HERE)
    return done.returncode, done.stdout, done.stderr.decode()


def ends(status, said, *words, given=None):
    """The faults of a run that should end with this status, and say this and nothing more in one line."""
    got, out, err = station(*words, given=given)
    if got != status or said not in err or out or err.count("\n") != 1 or not err.startswith("station: "):
        yield f"{' '.join(map(str, words))}: status {got}, not {status}: {err.strip()!r} has no {said!r}, or more"


def works(*words, given=None, status=0):
    """What a run prints that should go well."""
    got, out, err = station(*words, given=given)
    if got != status or err:
        raise ValueError(f"{' '.join(map(str, words))}: status {got}: {err.strip()}")
    return out


def tells(status, said, *words, given=None):
    """What a run prints that should end with this status, and say this one sentence beside it."""
    got, out, err = station(*words, given=given)
    if got != status or err != f"station: {said}\n":
        raise ValueError(f"{' '.join(map(str, words))}: status {got}, not {status}: {err.strip()!r}, not {said!r}")
    return out


def with_program(check):
    """The check, skipped where the program could not be built."""
    def go(root):
        linkable()
        if not STATION.exists():
            raise Skip("the program is not built")
        return check(root)
    return go


def too_wide(name, printed, width):
    """The first line of what was printed that is wider than it may be."""
    for line in printed.decode().splitlines():
        if len(line) > width:
            yield f"{name}: {len(line)} columns: {line}"
            return


def saved(name, data):
    path = WORK / name
    path.write_bytes(data.encode() if isinstance(data, str) else data)
    return path
