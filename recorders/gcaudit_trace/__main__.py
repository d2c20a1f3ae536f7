"""Audits a trace and prints the report with the slots named: python3 -m gcaudit_trace TRACE"""
import sys

from .commands.named import main

if __name__ == "__main__":
    sys.exit(main())
