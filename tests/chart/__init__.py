"""Checks of what tools/chart draws and of what tools/top prints."""
