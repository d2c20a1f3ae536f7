"""A path from a root or an owner to an object, step by step."""
from typing import List, NamedTuple, Optional, Tuple

from ..traces.names import cut

MORE = "(more)"  # the label of a slot that leads to further slots of the same object
_LONGEST_LABEL = 120


class Step(NamedTuple):
    """A step of a path: the label of the slot, and what it holds. `skipped` steps before it aren't shown."""

    label: str
    number: int
    type_name: str
    skipped: int = 0


class Path(NamedTuple):
    """A path of a report: from a root of this name, or from an owner (then there is no name), by steps."""

    root: Optional[str]
    number: int
    type_name: str
    steps: Tuple[Step, ...]

    def __str__(self) -> str:
        head = "owner" if self.root is None else "root %s ->" % self.root
        shown = ["%s %d %s" % (head, self.number, self.type_name)]
        for step in self.steps:
            if step.skipped:
                shown.append(" ... %d steps ..." % step.skipped)
            if step.number:
                shown.append(" %s -> %d %s" % (cut(step.label, _LONGEST_LABEL), step.number, step.type_name))
        return "".join(shown)

    def numbers(self) -> List[int]:
        """The objects on the path that are shown, from its start on."""
        return [self.number] + [step.number for step in self.steps if step.number]
