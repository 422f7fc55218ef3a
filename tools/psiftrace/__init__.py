"""Reads and repairs ftrace text for `tools/psitrace`, and checks it for `tools/ftrace-check`."""
