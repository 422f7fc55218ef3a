"""Prints the events of a recording as lines, with `psi_convert`."""
