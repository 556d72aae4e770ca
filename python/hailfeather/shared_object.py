"""Finds the shared object, or makes it from the repository's static library. Whatever is missing is an ImportError that says what to do."""

import os
import shutil
import subprocess
import sys
import tempfile
from pathlib import Path

REPOSITORY = Path(__file__).resolve().parents[2]
BUILD = REPOSITORY / "build"
MADE = REPOSITORY / "target" / "python" / "libhailfeather.so"
NAMED = "HAILFEATHER_LIBRARY"
ELSE = f"set {NAMED} to a libhailfeather.so that was made elsewhere"


def found() -> Path:
    """The shared object that HAILFEATHER_LIBRARY names, else the one in target/python, made first where it is missing or not the archive's."""
    named = os.environ.get(NAMED)
    if not named:
        return made(archive())
    if not Path(named).is_file():
        raise ImportError(f"{NAMED} names {named}, which is not there: set it to a libhailfeather.so, or unset it to have one made")
    return Path(named).resolve()


def command(name: str, purpose: str, install: str) -> str:
    """The path of a command."""
    path = shutil.which(name)
    if path is None:
        raise ImportError(f"{name}, which {purpose}, is not on the PATH: {install}, or {ELSE}")
    return path


def archive() -> Path:
    """The static library, by the repository's build script; what the script says goes to standard error at once, since building takes minutes."""
    if not BUILD.is_file():
        raise ImportError(f"the script {BUILD}, which finds the static library, is not there: import hailfeather from its repository, or {ELSE}")
    bash = command("bash", f"runs {BUILD}", "install bash")
    said = []
    with subprocess.Popen([bash, str(BUILD)], stdout=subprocess.PIPE, stderr=subprocess.PIPE, universal_newlines=True) as script:
        for line in script.stderr:
            sys.stderr.write(line)
            said.append(line.strip().replace("hailfeather: ", "", 1))
        path = script.stdout.read().strip()
    if script.returncode != 0:
        raise ImportError(f"{BUILD} finds no static library: {' '.join(said)}; put this right, or {ELSE}")
    return Path(path)


def made(static: Path) -> Path:
    """The shared object with the archive's time of change, by which one made from an older archive or from another is told and made anew."""
    changed = static.stat().st_mtime_ns
    if MADE.is_file() and MADE.stat().st_mtime_ns == changed:
        return MADE
    compiler = command("cc", f"makes a shared object of {static}", "install a C compiler (Debian: gcc)")
    try:
        MADE.parent.mkdir(parents=True, exist_ok=True)
        with tempfile.TemporaryDirectory(dir=str(MADE.parent)) as folder:
            fresh = Path(folder) / MADE.name
            linked(compiler, static, fresh)
            os.utime(fresh, ns=(changed, changed))
            os.replace(fresh, MADE)  # in one step, so that another process finds a whole file or none
    except OSError as reason:
        raise ImportError(f"{MADE} cannot be written ({reason}): make its folder writable, or {ELSE}") from None
    return MADE


def linked(compiler: str, static: Path, target: Path) -> None:
    """Makes a shared object of the whole static library."""
    arguments = [compiler, "-shared", "-o", str(target), "-Wl,--whole-archive", str(static), "-Wl,--no-whole-archive"]
    answer = subprocess.run(arguments, stdout=subprocess.PIPE, stderr=subprocess.STDOUT, universal_newlines=True, check=False)
    if answer.returncode != 0:
        raise ImportError(f"{compiler} makes no shared object of {static}: {answer.stdout.strip()}; build the static library anew, or {ELSE}")
