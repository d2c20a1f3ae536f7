"""The version, that of the programs and of the recorders."""

VERSION = "0.1.0"
