"""Computes, for `tools/oomd`, which groups oomd 0.5.0 would have killed in a trace."""
