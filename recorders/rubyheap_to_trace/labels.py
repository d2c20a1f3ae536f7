"""The labels of what an object of Ruby refers to, as far as a dump tells them.

A dump has the references of an object in their order and without those to small numbers, static symbols, true, false and nil. So an
element's index and a value's key are known only where nothing is missing.
"""
from typing import Callable, Dict, List, Optional, Sequence

from .reader import Record

_MOST_OF_A_KEY = 40  # characters

ELEMENT, KEY, VALUE, KEY_OR_VALUE, DEFAULT = "(element)", "(key)", "(value)", "(key or value)", "(default)"
CLASS, SUPERCLASS, METHOD, CONSTANT = "(class)", "(superclass)", "(method)", "(constant or variable)"
VARIABLE, INSTANCE_VARIABLE, MEMBER = "(variable)", "(instance variable)", "(member)"
ENVIRONMENT, CODE, SELF, RECEIVER, CACHED = "(environment)", "(code)", "(self)", "(receiver)", "(cached constant)"
ON_STACK, REFERENCE = "(stack or local)", "(reference)"

STACKS = frozenset({"VM/thread", "fiber"})
_OF_CODE = frozenset({"iseq", "ment", "cref", "callcache", "callinfo", "constcache", "ifunc"})


class Labels:
    """Makes labels. `kind_at` answers by an address what lies there: a type, or the kind of an internal object, or nothing."""

    def __init__(self, kind_at: Callable[[int], str], texts: Dict[int, str]) -> None:
        self._kind_at = kind_at
        self._texts = texts  # of strings and symbols that may be keys, by address
        self._of_type: Dict[str, Callable[[Record, Sequence[int]], List[str]]] = {
            "ARRAY": self._of_array,
            "HASH": self._of_hash,
            "CLASS": self._of_class,
            "MODULE": self._of_class,
            "ICLASS": self._of_class,
            "DATA": self._of_data,
            "IMEMO": self._of_internal,
        }

    def of(self, record: Record, references: Sequence[int]) -> List[str]:
        """A label for each of the references of an object."""
        make = self._of_type.get(record["type"])
        if make is not None:
            return make(record, references)
        label = MEMBER if record["type"] == "STRUCT" else INSTANCE_VARIABLE
        return [label] * len(references)

    @staticmethod
    def _of_array(record: Record, references: Sequence[int]) -> List[str]:
        if record.get("length") == len(references) and not record.get("shared"):
            return ["[%d]" % index for index in range(len(references))]
        return [ELEMENT] * len(references)

    def _of_hash(self, record: Record, references: Sequence[int]) -> List[str]:
        default = record.get("default")
        is_last = bool(references) and isinstance(default, str) and int(default, 16) == references[-1]
        held = len(references) - is_last
        if held == 2 * int(record.get("size", 0)):
            found = []
            for key in references[:held:2]:
                text = self._texts.get(key)
                found += [KEY, VALUE if text is None else "[%s]" % text]
        else:
            found = [KEY_OR_VALUE] * held
        return found + [DEFAULT] * is_last

    def _of_class(self, record: Record, references: Sequence[int]) -> List[str]:
        superclass = record.get("superclass")
        above = int(superclass, 16) if isinstance(superclass, str) else 0
        return [SUPERCLASS if held == above else self._of_code(held, CONSTANT) for held in references]

    def _of_data(self, record: Record, references: Sequence[int]) -> List[str]:
        kind = record.get("struct")
        if kind in STACKS:
            return [ON_STACK] * len(references)
        other = SELF if kind == "proc" else REFERENCE
        found = [self._of_code(held, other) for held in references]
        if kind == "method" and found:
            found[0] = RECEIVER
        return found

    def _of_internal(self, record: Record, references: Sequence[int]) -> List[str]:
        kind = record.get("imemo_type")
        other = VARIABLE if kind == "env" else CACHED if kind == "constcache" else REFERENCE
        return [self._of_code(held, other) for held in references]

    def _of_code(self, held: int, other: str) -> str:
        kind = self._kind_at(held)
        if kind == "env":
            return ENVIRONMENT
        if kind == "ment":
            return METHOD
        return CODE if kind in _OF_CODE else other


def key_text(record: Record) -> Optional[str]:
    """How a string or symbol is written as a key; None where it can't be one, or the dump doesn't tell."""
    kind, value = record["type"], record.get("value")
    if not isinstance(value, str) or not (kind == "SYMBOL" or record.get("fstring")):
        return None
    if len(value) > _MOST_OF_A_KEY:
        value = value[:_MOST_OF_A_KEY] + ".."
    return ":" + value if kind == "SYMBOL" else '"%s"' % value
