"""Reads a recording: its events, from pages or text, the losses, and the pressure files."""
