"""What gcaudit says of a trace, and what a heap or its growth shows, in forms to read."""
