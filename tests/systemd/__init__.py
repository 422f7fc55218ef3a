"""Checks of tools/systemd-oomd, which emulates the daemon systemd-oomd on a trace."""
