"""The programs that are compared and measured: built where what they need is there."""
import pathlib
import shutil
import subprocess

HERE = pathlib.Path(__file__).resolve().parent
ROOT = HERE.parent
LIBRARY = ROOT / "target/staticlib/libstation.a"


class Missing(Exception):
    """What a program needs is not there; the text says what."""


def need(*tools):
    for tool in tools:
        if not shutil.which(tool):
            raise Missing(f"{tool} is not on this machine")


def library():
    """Builds the register's library where it is not there; `make lib` builds it anew after a change."""
    if not LIBRARY.exists():
        need("rt", "make")
        subprocess.run(["make", "lib"], cwd=ROOT, check=True, stdout=subprocess.DEVNULL)


def driver():
    """The path of the program that steps the register."""
    need("cargo", "cc")
    library()
    subprocess.run(["cargo", "build", "--offline", "--release", "--quiet", "-j1"], cwd=HERE / "driver", check=True)
    return str(HERE / "driver/target/release/driver")


def oracle(folder=None):
    """The path of the program that steps the Rust; its six files are in the folder."""
    need("cargo", "cc")
    done = subprocess.run([HERE / "oracle/build.sh", *([folder] if folder else [])], stdout=subprocess.PIPE, stderr=subprocess.PIPE, text=True)
    if done.returncode == 3:
        raise Missing(done.stderr.strip())
    if done.returncode:
        raise RuntimeError(done.stderr)
    return done.stdout.strip()


def soundness():
    """The path of the program that measures the check of soundness alone."""
    need("cc")
    library()
    program = ROOT / "target/soundness"
    subprocess.run(["cc", "-O3", "-Wall", "-Wextra", ROOT / "bench/soundness.c", LIBRARY, "-o", program], check=True)
    return str(program)
