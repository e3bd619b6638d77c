"""Runs that are kept in folders: those of examples/ and of crates/mn_stored_runs/data/runs.

Such a folder has the inputs of a command, and expected/ with every file that it leaves and its report, report.txt. The
command is the word in command.txt, and `run` where there is none.
"""

INPUTS = {
    "run": ["topology.toml", "script.txt", "capture.pcap"],
    "flood": ["topology.toml", "script.txt"],
    "reflect": ["topology.toml", "script.txt"],
    "reach": ["topology.toml", "failures.txt"],
    "join": ["topology1.toml", "topology2.toml", "joints.txt", "script.txt", "capture.pcap"],
}
WRITERS = ("run", "join")  # the commands that write files, into a folder
STATUS = {"topology": 3, "script": 4, "capture": 5, "too": 9, "joints": 11, "second": 12}


class Unknown(Exception):
    """A folder's command is none whose runs are kept."""


def command_of(folder):
    file = folder / "command.txt"
    command = file.read_text().strip() if file.is_file() else "run"
    if command not in INPUTS:
        raise Unknown(f"{file}: runs of such a command aren't kept: {command}")
    return command


def words_of(command, inputs, out):
    """The words behind the program's name; out is the folder for files, where the command writes any."""
    return [command, *inputs, *([out] if command in WRITERS else [])]


def status_of(report):
    """The status with which a run ends that put this report."""
    last = report.decode("latin-1").splitlines()[-1:]
    return next((STATUS[word] for word in STATUS if last and last[0].startswith(word + " ")), 0)
