"""Exports a replay's reports, signals and kills as JSON lines or CSV."""
