"""Checks of `tools/rules explain`, and an independent computation of the values that it prints."""
