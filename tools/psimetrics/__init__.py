"""Converts the output of `psi_oomd replay` to metrics with timestamps, for tools/openmetrics."""
