"""Folders that scripts make: each has a mark in it, and no script removes one without it."""

import shutil
import sys

MARK = ".made-by-mplsnet-scripts"


def check_made(folder):
    """Ends the script where something is there that no script made."""
    if folder.is_symlink() or (folder.exists() and not (folder / MARK).is_file()):
        sys.exit(f"{folder} is there already, and no script made it (it has no {MARK}): nothing was done: name another folder, or move it away")


def make_folder(folder):
    """Makes the folder where it isn't there."""
    check_made(folder)
    folder.mkdir(parents=True, exist_ok=True)
    (folder / MARK).touch()


def remove_folder(folder):
    """Removes the folder, with all in it, where it is there."""
    check_made(folder)
    if folder.exists():
        shutil.rmtree(folder)
