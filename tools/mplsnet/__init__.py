"""The modules that the tools share, and the parts of the page that mplsnet-play makes."""

import sys

# (a worker of Dask that gets this package anew reads this file again: the modules that it has are those of before)
for name in [name for name in sys.modules if name.startswith("mplsnet.")]:
    del sys.modules[name]
