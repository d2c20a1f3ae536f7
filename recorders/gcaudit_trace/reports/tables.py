"""Plain tables: columns of numbers to the right, then a text."""
from typing import Iterable, List, Sequence


def table(heads: Sequence[str], rows: Iterable[Sequence[object]]) -> str:
    """Lines with the heads first; all columns but the last are aligned to the right."""
    shown: List[List[str]] = [list(heads)] + [
        ["" if one is None else format(one, ",") if isinstance(one, int) else str(one) for one in row] for row in rows
    ]
    widths = [max(len(row[column]) for row in shown) for column in range(len(heads) - 1)]
    return "\n".join("  ".join([one.rjust(width) for one, width in zip(row, widths)] + [row[-1]]) for row in shown)
