"""Converts a recording or ftrace text to a trace, for `tools/psitrace`."""
