"""Files that are read whole."""

from __future__ import annotations

import os
import stat


def file_bytes(path: str) -> bytes:
    """The bytes of a file. What is no file, as a device that has no end, is an OSError too."""
    with open(path, "rb") as source:
        if not stat.S_ISREG(os.fstat(source.fileno()).st_mode):
            raise OSError(0, "it is no file", path)
        return source.read()
