"""Computes, for `tools/blame`, which groups ran while a group waited for a processor. Also finds
the groups that waited for IO, or were in a memory stall, at the same time as that group.
"""
