"""Graphs of heaps: reading them, paths, dominators, and references through what is left out."""
