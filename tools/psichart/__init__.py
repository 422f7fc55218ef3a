"""Draws the output of `psi_oomd replay` as an SVG image, for `tools/chart`."""
