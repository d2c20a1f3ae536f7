"""The error that the recorders and their commands raise."""


class TraceError(Exception):
    """Something that the user must know, as one sentence."""
