"""Checks of tools/record, the recorder. They use a folder of plain files in place of the machine.
"""
