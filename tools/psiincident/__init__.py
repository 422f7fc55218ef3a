"""Implements the command tools/incident, which writes a page about a machine or a recording. The
command prints each of its steps, which are shell commands.
"""
