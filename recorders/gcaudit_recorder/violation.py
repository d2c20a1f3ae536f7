"""The error that a violation raises."""
from gcaudit_trace.reports.audit import Audit
from gcaudit_trace.reports.groups import grouped_report


class HeapViolation(AssertionError):
    """gcaudit found a violation. The text is its report in groups, with attributes, keys and indexes for slot numbers.

    `report` is the report as gcaudit wrote it, `named` the same with the slots named, and `trace` where the trace is.
    """

    def __init__(self, text: str, report: str = "", named: str = "", trace: str = "") -> None:
        super().__init__(text)
        self.report = report
        self.named = named
        self.trace = trace

    @classmethod
    def of(cls, done: Audit, trace: str) -> "HeapViolation":
        text = "gcaudit found a violation:\n%sThe trace is %s" % (grouped_report(done.named, done.verdicts), trace)
        return cls(text, done.report, done.named, trace)


HeapViolation.__module__ = "gcaudit_recorder"  # as a program imports it, and a test report names it
