"""Checks the file that a tool will write."""
from __future__ import annotations

import os

from .fault import Fault


def must_be_writable(path: str) -> None:
    """Raises a Fault if no file can be written at this path. Tools check this before they start, so
    that they don't fail after a long computation.
    """
    if os.path.isdir(path):
        raise Fault(f"{path} is a folder: name a file in it")
    folder = os.path.dirname(path)
    if folder and not os.path.isdir(folder):
        raise Fault(f"no folder: {folder}, for {path}")
