"""The classes of a dump: their names, what is above them, and which of them last as long as the program."""
from array import array
from typing import Dict, Iterator, Optional, Set

_MOST_ABOVE = 10000  # a chain of superclasses that is longer is damaged
_OBJECT = "Object"
_SCOPE = "::"


class RubyClass:
    """A class, a module, or what stands for an included module in a chain of superclasses."""

    def __init__(self, kind: str, name: str, class_of: int, superclass: int, is_singleton: bool) -> None:
        self.kind = kind
        self.name = name
        self.class_of = class_of  # the address of its own class; for an included module that of the module
        self.superclass = superclass  # an address; 0 where there is none
        self.is_singleton = is_singleton
        self.references = array("Q")


class Classes:
    """All classes of a dump, by address."""

    def __init__(self) -> None:
        self._found: Dict[int, RubyClass] = {}
        self._attached: Dict[int, str] = {}  # the names of the classes whose singleton classes have these addresses
        self._names: Dict[int, str] = {}
        self.lasting: Set[int] = set()

    def add(self, address: int, found: RubyClass) -> None:
        self._found[address] = found
        if found.name and found.kind != "ICLASS":
            self._attached[found.class_of] = found.name

    def __contains__(self, address: int) -> bool:
        return address in self._found

    def names(self) -> Iterator[str]:
        """The names of all classes and modules that have one."""
        return (found.name for found in self._found.values() if found.name)

    def name_of(self, address: int) -> str:
        """The name of a class; of a singleton class that of the class of its object; of one without a name what it is."""
        known = self._names.get(address)
        if known is None:
            known = self._names[address] = self._name_of(address)
        return known

    def _name_of(self, address: int) -> str:
        is_anonymous = False
        for found in self._chain(address):
            if found.kind == "CLASS" and not found.is_singleton:
                if found.name:
                    return "(subclass of %s)" % found.name if is_anonymous else found.name
                is_anonymous = True
            elif found.kind == "MODULE":
                return found.name or "(module without a name)"
        return "(unknown class)"

    def _chain(self, address: int) -> Iterator[RubyClass]:
        """A class, its superclasses, and in between what stands for the modules that they include."""
        for _ in range(_MOST_ABOVE):
            found = self._found.get(address)
            if found is None:
                return
            yield found
            address = found.superclass

    def type_of(self, address: int) -> str:
        """The type of the class as an object itself."""
        found = self._found[address]
        if found.kind == "ICLASS":
            return "included module " + self.name_of(found.class_of)
        if found.is_singleton:
            attached = self._attached.get(address)
            return "singleton class of " + (attached or "an object of " + self.name_of(address))
        if found.kind == "MODULE":
            return "module " + (found.name or "(without a name)")
        return "class " + self.name_of(address)

    def class_address(self, address: int) -> int:
        """The address of the class of a class; of what stands for an included module that of the module."""
        return self._found[address].class_of

    def owner_name(self, address: int) -> str:
        """The name by which it is chosen whether the class is kept as an object."""
        attached = self._attached.get(address)
        return attached or self.name_of(address)

    def above(self, address: int) -> Iterator[str]:
        """The names of a class, of its superclasses, and of the modules that they include."""
        for found in self._chain(address):
            named: Optional[RubyClass] = self._found.get(found.class_of) if found.kind == "ICLASS" else found
            if named is not None and named.name and not named.is_singleton:
                yield named.name

    def find_lasting(self) -> None:
        """Finds the classes and modules that constants lead to, by their own names, from Object on.

        They last as long as the program does, unless it takes the constant away.
        """
        for address, found in self._found.items():
            if found.name == _OBJECT and found.kind == "CLASS":
                self.lasting.add(address)
        work = list(self.lasting)
        while work:
            holder = self._found[work.pop()]
            prefix = "" if holder.name == _OBJECT else holder.name + _SCOPE
            for address in holder.references:
                held = self._found.get(address)
                if held is None or address in self.lasting or not held.name or held.is_singleton:
                    continue
                if held.kind != "ICLASS" and held.name.startswith(prefix) and _SCOPE not in held.name[len(prefix) :]:
                    self.lasting.add(address)
                    work.append(address)
        self._add_superclasses()

    def _add_superclasses(self) -> None:
        """What a lasting class has above itself lasts too, as far as it is a class with a name."""
        for address in list(self.lasting):
            above = self._found[address].superclass
            while above in self._found and above not in self.lasting:
                found = self._found[above]
                if found.kind == "CLASS" and found.name and not found.is_singleton:
                    self.lasting.add(above)
                    above = found.superclass
                elif found.kind == "ICLASS":
                    above = found.superclass
                else:
                    break

    def lasting_references(self) -> Set[int]:
        """The addresses of all that lasting classes refer to."""
        return {held for address in self.lasting for held in self._found[address].references}
