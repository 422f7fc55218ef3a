"""Checks of tools/oomd, which emulates the daemon oomd on a trace."""
