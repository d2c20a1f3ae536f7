"""The holders of each node of a graph by numpy, for dominators."""
from array import array
from typing import Tuple

import numpy as np

from .graph import Graph

_NONE = 0xFFFFFFFF
_NODES_AT_A_TIME = 1 << 18


def holders(graph: Graph, place_of: array, count: int) -> Tuple[array, array, array]:
    """Of each of so many places the least place of its holders, where those behind it begin in the last array, and that."""
    least = np.full(count, _NONE, dtype=np.uint32)
    starts = np.frombuffer(graph.starts, dtype=np.uint64).view(np.int64)  # type: ignore[call-overload]
    targets = np.frombuffer(graph.targets, dtype=np.uint32)  # type: ignore[call-overload]
    places = np.frombuffer(place_of, dtype=np.uint32)
    behind, behind_of = [np.zeros(0, dtype=np.uint32)], [np.zeros(0, dtype=np.uint32)]
    for start in range(0, len(places), _NODES_AT_A_TIME):
        end = min(start + _NODES_AT_A_TIME, len(places))
        holder = np.repeat(places[start:end], np.diff(starts[start : end + 1]))
        held = places[targets[starts[start] : starts[end]]]
        there = holder != _NONE
        holder, held = holder[there], held[there]
        np.minimum.at(least, held, holder)
        later = holder > held
        behind.append(holder[later])
        behind_of.append(held[later])
    of = np.concatenate(behind_of)
    behind_of.clear()
    order = np.argsort(of, kind="stable")
    begins = np.zeros(count + 1, dtype=np.uint64)
    np.cumsum(np.bincount(of, minlength=count), out=begins[1:])
    return _array("I", least), _array("Q", begins), _array("I", np.concatenate(behind)[order])


def _array(code: str, numbers: np.ndarray) -> array:
    found = array(code)
    found.frombytes(numbers.tobytes())
    return found
