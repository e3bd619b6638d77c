"""Runs for the tests, worked out by examples/reference.py in place of the program, and the program's stand-in."""

import sys
from pathlib import Path

ROOT = Path(__file__).resolve().parents[2]
sys.path[:0] = [str(ROOT / "tools"), str(ROOT / "examples"), str(ROOT / "scripts")]
sys.dont_write_bytecode = True
import random_runs  # noqa: E402
import reference  # noqa: E402
import reference_inputs  # noqa: E402

NAMES = ("topology.toml", "script.txt", "capture.pcap")
STAND_IN = """\
#!{python} -B
# What 'mplsnet run', 'mplsnet flood', 'mplsnet reflect', 'mplsnet join' and 'mplsnet reach' do, by examples/reference.py.
import sys
sys.path.insert(0, {examples!r})
import reference
words = sys.argv[1:]
if words[:1] == ["check"]:  # of any topology
    print("topology ok nodes 0")
    sys.exit(0)
if words[:1] + [len(words)] not in (["run", 5], ["flood", 3], ["reflect", 3], ["join", 7], ["reach", 2], ["reach", 3]):
    print("usage: mplsnet run TOPOLOGY SCRIPT CAPTURE FOLDER | check TOPOLOGY | generate NUMBER | flood TOPOLOGY SCRIPT"
          " | reflect TOPOLOGY SCRIPT | join TOPOLOGY1 TOPOLOGY2 JOINTS SCRIPT CAPTURE FOLDER | reach TOPOLOGY [FAILURES]")
    sys.exit(2)
report, files = reference.COMMANDS[words[0]](*(open(path, "rb").read() for path in words[1 : 1 + reference.INPUTS[words[0]]]))
for name, content in files.items():
    with open(words[-1] + "/" + name, "wb") as file:
        file.write(content)
sys.stdout.buffer.write(report)
first = report.decode("latin-1").splitlines()[-1].split()[0]
status = {{"topology": 3, "script": 4, "capture": 5, "too": 9, "joints": 11, "second": 12}}.get(first, 0)
if status == 9:
    print("mplsnet: more than there may be", file=sys.stderr)
sys.exit(status)
"""


def stand_in(folder):
    """A program that answers each command but 'generate' as mplsnet does, for small networks, and by 'check' takes any topology for a good one."""
    path = Path(folder) / "mplsnet"
    path.write_text(STAND_IN.format(python=sys.executable, examples=str(ROOT / "examples")))
    path.chmod(0o755)
    return path


def left(folder, inputs):
    """Writes the inputs and what their run leaves into the folder: FOLDER/out, with report.txt. Whether they were accepted."""
    report, files = reference.run_of(*inputs)
    (folder / "out").mkdir(parents=True, exist_ok=True)
    for name, content in zip(NAMES, inputs):
        (folder / name).write_bytes(content)
    for name, content in {**files, "report.txt": report}.items():
        (folder / "out" / name).write_bytes(content)
    return bool(files)
