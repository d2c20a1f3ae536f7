"""A table from addresses to codes that takes little memory where addresses lie close to each other."""
from array import array
from typing import Dict, Iterable, List

_PAGE_BITS = 16  # a page has the addresses that differ in these bits alone
_STEP_BITS = 3  # objects stand at multiples of eight
_STEPS = 1 << (_PAGE_BITS - _STEP_BITS)
_NOTHING = bytes(4 * _STEPS)


class Codes:
    """The code of each object by its identifier; 0 where it has none."""

    def __init__(self) -> None:
        self._pages: Dict[int, array] = {}
        self._nothing = array("i", _NOTHING)
        self._others: Dict[int, int] = {}  # of identifiers that are no such address

    def get(self, number: int) -> int:
        if number & 7:
            return self._others.get(number, 0)
        page = self._pages.get(number >> _PAGE_BITS)
        return 0 if page is None else page[number >> _STEP_BITS & _STEPS - 1]

    def each(self, numbers: Iterable[int]) -> List[int]:
        """The codes of these, with zeros."""
        if self._others:
            return list(map(self.get, numbers))
        page_of, nothing = self._pages.get, self._nothing
        return [page_of(number >> _PAGE_BITS, nothing)[number >> _STEP_BITS & _STEPS - 1] for number in numbers]

    def many(self, numbers: Iterable[int]) -> List[int]:
        """The codes of these, without those that have none."""
        return list(filter(None, self.each(numbers)))

    def add(self, number: int, code: int) -> bool:
        """Gives an object its code. The answer is whether it had none."""
        if number & 7:
            return self._others.setdefault(number, code) == code
        page = self._pages.get(number >> _PAGE_BITS)
        if page is None:
            page = self._pages[number >> _PAGE_BITS] = array("i", _NOTHING)
        at = number >> _STEP_BITS & _STEPS - 1
        if page[at]:
            return False
        page[at] = code
        return True

    def remove(self, number: int) -> None:
        """Takes an object's code away."""
        if number & 7:
            self._others.pop(number, None)
        elif number >> _PAGE_BITS in self._pages:
            self._pages[number >> _PAGE_BITS][number >> _STEP_BITS & _STEPS - 1] = 0
