"""Explains why rules fired or didn't, and why an action chose a group or didn't. The tools `rules
explain` and `report` print the explanations.
"""
