"""Reads and writes companion files. A trace's companion file lies next to the trace, and contains
what a trace can't express: names of tasks and containers, and the time of day.
"""
