"""The commands that read traces and heap dumps, each with its words, and what they share."""
