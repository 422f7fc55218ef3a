"""Defines the format of a recording: names of files, keys and markers. The recorder and the tools
that read recordings import this package, and it imports neither.
"""
