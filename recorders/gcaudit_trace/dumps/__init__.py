"""What the readers of heap dumps share: the words of their command lines, and the file that they write."""
