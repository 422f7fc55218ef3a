"""Checks of tools/openmetrics."""
