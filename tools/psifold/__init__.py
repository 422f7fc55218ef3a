"""Folds traces for `tools/fold` and `tools/psitrace --fold`: replaces the lines of each time window
by fewer lines that cause the same pressure.
"""
