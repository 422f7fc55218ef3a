"""Checks of tools/report, which makes a web page about an incident."""
