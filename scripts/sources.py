"""The crates that the program stands on, their sources, and the two programs that are made of them."""

import hashlib
import os
import re
import shutil
import sys
from pathlib import Path

ROOT = Path(__file__).resolve().parents[1]
CRATES = ROOT / "crates"
PROGRAM = CRATES / "mplsnet/out/mplsnet"  # proved
STAMP = PROGRAM.with_name("mplsnet.stamp")  # rt's, beside what it proved and built; it ends with the executable's checksum
TRIAL = ROOT / "trial/mplsnet-trial"  # not proved
CHECKED = ROOT / "trial/mplsnet-checked"  # not proved either, with run-time checks
MAIN = CRATES / "mplsnet/src/main.rt"


def version():
    """The version, which stands in the program's source."""
    return re.search(r'^const VERSION: &str = "mplsnet (\S+)\\n";$', MAIN.read_text(), re.M)[1]


def crates():
    """The program's crate and all that it stands on, each behind those that it names."""
    lines = (line.partition("#")[0].partition(":") for line in (ROOT / "crates.txt").read_text().splitlines())
    named = {head.split()[0]: rest.split() for head, _, rest in lines if head.strip()}
    found = []

    def add(name):
        if name in named and name not in found:
            for below in named[name]:
                add(below)
            found.append(name)

    add("mplsnet")
    return found


def files(*endings):
    """The files of these crates that end so, in order. What was built is never looked at: there are many files in out/."""
    found = []
    for name in crates():
        for folder, folders, names in os.walk(CRATES / name):
            folders[:] = [name for name in folders if name != "out"]
            found += [path for path in (Path(folder) / name for name in names) if path.suffix in endings]
    return sorted(found)


def sums_of(program):
    """The file beside an executable that says of which sources it is."""
    return program.with_name(f"{program.name}.sources")


def checksum(*endings):
    """The checksum of the code: all .rt files of these crates, with their names; or all files that end so."""
    sum_ = hashlib.sha256()
    for path in files(*(endings or (".rt",))):
        content = path.read_bytes()
        sum_.update(f"{path.relative_to(CRATES)} {len(content)}\n".encode())
        sum_.update(content)
    return sum_.hexdigest()


def proved_sums():
    """The checksums of the program's code, statements and proofs, and of the executable: scripts/build leaves them beside it."""
    return f"{checksum('.rt', '.antt')} {hashlib.sha256(PROGRAM.read_bytes()).hexdigest()}"


def is_proved():
    """Whether the proved program is there, and is of these sources: by the checksums beside it, or by rt's stamp, where no source has changed since."""
    if not PROGRAM.is_file():
        return False
    sums, said = proved_sums(), sums_of(PROGRAM)
    if said.is_file() and said.read_text().strip() == sums:
        return True
    if not (STAMP.is_file() and STAMP.read_text().endswith(sums.split()[1])):
        return False
    made = STAMP.stat().st_mtime
    return all(path.stat().st_mtime <= made for path in [ROOT / "crates.txt", *files(".rt", ".antt")])


def is_tried(program=TRIAL):
    """Whether the trial build is there, and is of these sources."""
    said = sums_of(program)
    return program.exists() and said.exists() and said.read_text().partition(" ")[0] == checksum()


def need_rt(who):
    if not shutil.which("rt"):
        sys.exit(f"{who}: there is no rt in PATH: the Rattle kit that README.md names has it")


def lasted(seconds):
    """So long, in words."""
    minutes = int(seconds) // 60
    if minutes < 1:
        return counted(int(seconds), "second")
    if minutes < 60:
        return counted(minutes, "minute")
    return f"{counted(minutes // 60, 'hour')} {counted(minutes % 60, 'minute')}"


def counted(count, what):
    return f"{count} {what}{'s' * (count != 1)}"
