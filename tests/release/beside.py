"""Makes the modules of tests/ and bench/ importable for the release checks. Re-exports the helpers
that find or build the program under test.
"""
from __future__ import annotations

import os
import sys

TOP = os.path.dirname(os.path.dirname(os.path.dirname(os.path.abspath(__file__))))
sys.path += [os.path.join(TOP, "tests"), os.path.join(TOP, "bench")]
sys.dont_write_bytecode = True

from shared.program import program_of  # noqa: E402

from psireplay.program import built_program  # noqa: E402

__all__ = ["TOP", "built_program", "program_of"]
