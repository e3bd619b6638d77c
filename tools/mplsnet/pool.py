"""Runs of the program side by side: on this machine, or on the workers of a scheduler of dask.distributed."""

import concurrent.futures
import contextlib
import multiprocessing
import os
import sys
import tempfile
import zipfile
from pathlib import Path

from mplsnet.files import Fault
from mplsnet.whatif import begin_worker, deaf

HERE = Path(__file__).resolve().parent


class Local:
    """Runs on this machine."""

    was_stopped = False

    def __init__(self, count):
        self.pool = concurrent.futures.ProcessPoolExecutor(count, initializer=begin_worker)
        self.as_completed = concurrent.futures.as_completed

    def submit(self, function, job):
        with deaf():  # a process that begins knows its own part in a signal before it hears of one
            return self.pool.submit(function, job)

    def stop(self):
        Local.was_stopped = True
        workers = multiprocessing.active_children()
        for process in workers:
            process.terminate()
        for process in workers:
            process.join(5)
            process.kill()

    def close(self):
        self.pool.shutdown()


class Dask:
    """Runs on the workers of a scheduler, which get the tools' modules with the jobs."""

    def __init__(self, address):
        try:
            import distributed
        except ImportError:
            raise Fault("--dask needs dask.distributed, which isn't installed (Debian: python3-distributed)", 3)
        try:
            self.client = distributed.Client(address, timeout="10s", set_as_default=False)
        except (OSError, ValueError) as error:
            raise Fault(f"--dask {address}: {str(error) or type(error).__name__}", 3)
        with tempfile.TemporaryDirectory() as folder:
            modules = Path(folder) / "mplsnet_tools.zip"
            with zipfile.ZipFile(modules, "w") as archive:
                archive.write(HERE / "__init__.py", "mplsnet/__init__.py")
                # (what is loaded here: a worker loads all that it is sent, and has nothing of examples/)
                for name in sorted(name for name in sys.modules if name.startswith("mplsnet.")):
                    archive.write(HERE / f"{name.removeprefix('mplsnet.')}.py", f"{name.replace('.', '/')}.py")
            self.client.upload_file(str(modules))
        self.as_completed = lambda futures: distributed.as_completed(futures, loop=self.client.loop)
        self.futures = []

    def submit(self, function, job):
        self.futures.append(self.client.submit(function, job, pure=False, retries=0))
        return self.futures[-1]

    def stop(self):
        self.client.cancel(self.futures)
        self.client.close()

    def close(self):
        self.client.close()


def result_of(future):
    """What a run came to; where its process was killed, that is said."""
    try:
        return future.result()
    except Exception as error:
        if type(error).__name__ in ("BrokenProcessPool", "KilledWorker", "CancelledError"):
            raise Fault("the process of a run was killed: is there memory enough? A lower --budget and --jobs take less", 3)
        raise


def end(status):
    """Ends the tool; where runs were stopped, without waiting for what the pool's thread still waits for."""
    if Local.was_stopped:
        for stream in (sys.stdout, sys.stderr):
            with contextlib.suppress(OSError, ValueError):
                stream.flush()
        os._exit(status)
    sys.exit(status)
