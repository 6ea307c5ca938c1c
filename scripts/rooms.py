"""Folders of the parts of a soak: in memory where there is such a place, and gone at the end, also where the part is ended early."""
import atexit
import os
import shutil
import signal
import sys
import tempfile


def room_in_memory():
    """A new folder, which goes when the program ends."""
    return leave_none(tempfile.mkdtemp(prefix='soak-', dir='/dev/shm' if os.access('/dev/shm', os.W_OK) else None))


def leave_none(folder):
    atexit.register(shutil.rmtree, folder, ignore_errors=True)
    signal.signal(signal.SIGTERM, lambda *_: sys.exit(1))
    return folder
