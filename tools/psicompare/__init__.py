"""Compares a trace with the pressure files of its machine: the package of `tools/compare`."""
