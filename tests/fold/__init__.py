"""Checks that folded traces and recordings replay like the originals."""
