"""The second telling of the network's rules, examples/reference.py and its modules, for what the program leaves no files of.

In the source they stand in examples/; `make install` puts them beside the tools.
"""

import sys
from pathlib import Path

from mplsnet.files import Fault, bytes_of

EXAMPLES = Path(__file__).resolve().parents[2] / "examples"
if (EXAMPLES / "reference.py").is_file():
    sys.path.append(str(EXAMPLES))

try:
    import reference
    import reference_flood  # noqa: F401
    import reference_inputs
    import reference_join  # noqa: F401
    import reference_reflect  # noqa: F401
    import reference_routes  # noqa: F401
    import reference_walks  # noqa: F401
except ModuleNotFoundError as error:
    raise Fault(f"there is no {error.name}.py: it stands in examples/ of the source, and beside the tools where 'make install' put them") from None


def read(path, reader, *known):
    """What the reader makes of the file, or why `mplsnet` would refuse it."""
    content = bytes_of(path)
    try:
        return reader(*known, content)
    except reference_inputs.Refused as refused:
        raise Fault(f"{path}: {refused}") from None


def check_report(path, due):
    """The report that the program put is the one that is worked out here."""
    found = bytes_of(path).decode("latin-1").splitlines()
    if found != due:
        at = reference.first_unlike(due, found)
        told = ["".join(lines[at : at + 1]) or "no more" for lines in (due, found)]
        raise Fault(f"{path}: line {at + 1}: not this script's report over this topology: due is '{told[0]}', found '{told[1]}'")
