"""The report is that of the second reading of the definitions, in bench/random_traces.py."""
import sys
from pathlib import Path

sys.path.append(str(Path(__file__).parents[3] / "bench"))
from random_traces import generated, report_of


def report():
    lines, _ = report_of(generated(1, 2000))
    return lines
