"""Checks of process names, container names and times of day."""
