"""Checks how closely a recording's trace agrees with the recorded machine, and whether the
converter reports what it had to guess.
"""
