"""Traces and heap snapshots: their names, their limits, writing them, and opening the files they are in."""
