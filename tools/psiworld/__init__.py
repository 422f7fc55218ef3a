"""Writes the lines of a trace. Keeps the state of the machine, its control groups and tasks, so
that it writes only lines that are valid in that state and within the limits of traces.
"""
