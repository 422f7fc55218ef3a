"""Implements tools/rules and tools/fleet. This package computes neither pressure nor kills itself:
psi_oomd and the packages psioomd and psisystemd do.
"""
