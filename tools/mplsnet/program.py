"""Which mplsnet runs, and what is to be said of it."""

import os
import shutil
import sys
from pathlib import Path

from mplsnet.files import Fault

ROOT = Path(__file__).resolve().parents[2]
WHICH = """\
What runs is --program, or what MPLSNET names, or else the first of these that is there: mplsnet in PATH, the proved build
and the trial build of the source in which this tool stands, mplsnet-trial in PATH. A trial build is said to be one.
"""


def is_proved():
    """Whether the build in the source in which this tool stands is one of its sources, proved, as its scripts tell."""
    scripts = ROOT / "scripts"
    if not (scripts / "sources.py").is_file():
        return False
    sys.path.insert(0, str(scripts))
    try:
        import sources

        return sources.is_proved()
    finally:
        sys.path.remove(str(scripts))


def found(named=None, status=1):
    """The program that runs, and what is to be said of it, none where it was chosen."""
    if named or "MPLSNET" in os.environ:
        return named or os.environ["MPLSNET"], None
    trial, built = "a trial build, not proved", ROOT / "crates/mplsnet/out/mplsnet"
    for path, said in [
        (shutil.which("mplsnet"), None),
        (built if os.access(built, os.X_OK) else None, "the proved build"),
        (ROOT / "trial/mplsnet-trial", trial),
        (shutil.which("mplsnet-trial"), trial),
    ]:
        if path and os.access(path, os.X_OK):
            if path == built and not is_proved():
                said = "a build that isn't known to be a proved one of these sources"
            return path, said and f"{said}: {path}"
    raise Fault("there is no mplsnet in PATH, and none is built: in the source 'make trial' makes one in minutes, 'make build' a proved one", status)


def to_run(tool, named=None, is_quiet=False):
    """The path of the program that runs; what is to be said of it, the tool says."""
    path, said = found(named, 3)
    if not os.access(path, os.X_OK) or os.path.isdir(path):
        raise Fault(f"{path}: isn't a program that can be run", 3)
    if said and not is_quiet:
        print(f"{tool}: what runs is {said}", file=sys.stderr)
    return os.path.abspath(path)
