"""Writes a report on an incident as a single HTML file. The file needs no other file and no
network.
"""
