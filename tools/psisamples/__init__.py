"""Converts pressure samples to a trace of artificial scheduler events. A replay of the trace shows
the pressure that the machine reported.
"""
