"""The roots of a dump as those of a graph."""
from typing import Iterable, List, Tuple

from ..traces.names import UniqueNames


def named_roots(roots: Iterable[Tuple[str, int]]) -> List[Tuple[str, int]]:
    """Roots by name and number, counted from 1: each once and under a name of its own, with its node."""
    names = UniqueNames()
    return [(names.name_for(name), number - 1) for name, number in dict.fromkeys(roots)]
