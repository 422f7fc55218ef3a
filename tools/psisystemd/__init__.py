"""Computes which groups systemd-oomd would have killed in a trace with a machine's own settings.
This is the package of tools/systemd-oomd.
"""
