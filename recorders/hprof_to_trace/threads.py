"""The names of threads: the text in the field `name` of each java.lang.Thread of the dump."""
import re
import struct
from typing import Dict, Iterable, List, Optional, Tuple

from .reader import INSTANCE, OBJECT, PRIMITIVE_ARRAY, SIZES, ClassDump, Dump

_STRING = "java.lang.String"
_CHAR, _BYTE = 5, 8
_LONGEST_NAME = 200
_MOST_THREADS = 2000
_PIECE = 1 << 24


def thread_names(dump: Dump, classes: Dict[int, ClassDump], threads: Dict[int, int]) -> Dict[int, str]:
    """By the serial number of each thread its name, where it is found. `threads` has for each the identifier of its name's text."""
    texts = dict(list(threads.items())[:_MOST_THREADS])
    contents: Dict[int, Tuple[int, int]] = {}  # by the identifier of a text, that of its array, and how it is coded
    for number, place in _records(dump, INSTANCE, set(texts.values())):
        found = _text_fields(dump, classes, place)
        if found is not None:
            contents[number] = found
    coders = {array: coder for array, coder in contents.values()}
    arrays = {
        number: _decoded(dump, place, coders[number]) for number, place in _records(dump, PRIMITIVE_ARRAY, set(coders))
    }
    names = {}
    for serial, text in texts.items():
        name = arrays.get(contents[text][0]) if text in contents else None
        if name:
            names[serial] = name
    return names


def _records(dump: Dump, tag: int, numbers: Iterable[int]) -> List[Tuple[int, int]]:
    """The records of these objects: the identifier, and the place behind the tag. Found by their first bytes."""
    wanted = {struct.pack(">" + dump.id_code, number) for number in numbers if number}
    if not wanted:
        return []
    pattern = re.compile(re.escape(bytes([tag])) + b"(?:" + b"|".join(map(re.escape, sorted(wanted))) + b")", re.DOTALL)
    places = []
    for start in range(0, dump.size, _PIECE):
        end = start + _PIECE + dump.id_size  # one that begins in this piece
        places += [found.start() + 1 for found in pattern.finditer(dump.data, start, end)]
        dump.forget_read(start)
    return [(struct.unpack_from(">" + dump.id_code, dump.data, place)[0], place) for place in places]


def _text_fields(dump: Dump, classes: Dict[int, ClassDump], place: int) -> Optional[Tuple[int, int]]:
    """Of a String its array and how it is coded. None where no String stands there."""
    try:
        _, class_id, _ = struct.unpack_from(">I%sI" % dump.id_code, dump.data, place + dump.id_size)
        if dump.class_name(class_id) != _STRING or class_id not in classes:
            return None
        at, array, coder = place + 2 * dump.id_size + 8, 0, 0
        for name, kind in classes[class_id].fields:
            text = dump.text(name)
            if kind == OBJECT:
                if text == "value":
                    array = struct.unpack_from(">" + dump.id_code, dump.data, at)[0]
                at += dump.id_size
            else:
                if text == "coder" and kind == _BYTE:
                    coder = dump.data[at]
                at += SIZES[kind]
    except (struct.error, IndexError):
        return None
    return array, coder


def _decoded(dump: Dump, place: int, coder: int) -> str:
    """The text of an array of chars or of bytes; empty where it is neither."""
    try:
        _, length, kind = struct.unpack_from(">IIB", dump.data, place + dump.id_size)
    except struct.error:
        return ""
    start = place + dump.id_size + 9
    raw = dump.data[start : start + min(length, _LONGEST_NAME) * SIZES.get(kind, 1)]
    if kind == _CHAR:
        return raw.decode("utf-16-be", "replace")
    if kind == _BYTE:
        return raw.decode("utf-16-le" if coder else "latin-1", "replace")
    return ""
