"""Checks of the launcher ./psi_oomd. They use copies of the launcher and stubs in place of `rt`."""
