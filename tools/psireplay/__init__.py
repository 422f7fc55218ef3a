"""Runs psi_oomd, parses the lines that `psi_oomd replay` prints, and reads traces, rules files and
memory samples. Several tools share this code.
"""
