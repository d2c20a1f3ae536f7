"""What the recorders share: names, the writing of traces, running gcaudit on them, and reading what it says."""
from .errors import TraceError
from .reports.audit import Audit, audit, find_program
from .traces.names import legal_name
from .traces.trace_writer import TraceWriter
from .traces.whole_file import WholeFile

__all__ = ["Audit", "TraceError", "TraceWriter", "WholeFile", "audit", "find_program", "legal_name"]
