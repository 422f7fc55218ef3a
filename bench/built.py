"""Re-exports the helpers that find the programs to measure. A program is named by an option or by
an environment variable. If neither names it, the program is built. The tests use the same helpers.
"""
from __future__ import annotations

import os
import sys

sys.path.append(os.path.join(os.path.dirname(os.path.dirname(os.path.abspath(__file__))), "tests"))

from shared.program import program_of  # noqa: E402

from psicli.fault import Fault  # noqa: E402
from psireplay.program import built_program  # noqa: E402

__all__ = ["Fault", "built_program", "program_of"]
