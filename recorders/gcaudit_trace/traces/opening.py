"""Opening what a command reads: a file, one that is packed by gzip, or standard input."""
import contextlib
import gzip
import os
import shutil
import sys
import tempfile
import zlib
from typing import Any, BinaryIO, Iterator, cast

from ..errors import TraceError

_GZIP = b"\x1f\x8b"


def is_packed(file: BinaryIO) -> bool:
    """Whether a file is packed by gzip, by its first bytes."""
    found = file.read(2)
    file.seek(0)
    return found == _GZIP


@contextlib.contextmanager
def opened(path: str) -> Iterator[BinaryIO]:
    """The bytes of a file; what is packed by gzip is unpacked into a temporary file that is gone at the end."""
    try:
        file = open(path, "rb")
    except (OSError, ValueError) as error:
        raise TraceError("%s can't be read: %s" % (path, getattr(error, "strerror", None) or error)) from None
    with file:
        try:
            packed = is_packed(file)
        except OSError as error:
            raise TraceError("%s can't be read: %s" % (path, error.strerror or error)) from None
        if not packed:
            yield file
            return
        with tempfile.TemporaryFile(prefix="gcaudit-") as plain:
            _unpack(file, plain, path)
            yield cast(BinaryIO, plain)


def _unpack(file: BinaryIO, plain: Any, path: str) -> None:
    try:
        with gzip.GzipFile(fileobj=file) as packed:
            shutil.copyfileobj(packed, plain, 1 << 20)
        plain.flush()
        plain.seek(0)
    except (EOFError, zlib.error, gzip.BadGzipFile) as error:
        raise TraceError("%s is packed by gzip and damaged: %s" % (path, error)) from None
    except OSError as error:
        raise TraceError(
            "%s can't be unpacked into the folder for temporary files: %s" % (path, error.strerror or error)
        ) from None


@contextlib.contextmanager
def trace_file(path: str) -> Iterator[str]:
    """A trace as a file that can be read more than once. `-` is standard input; what is packed by gzip is unpacked."""
    with contextlib.ExitStack() as stack:
        if path == "-":
            source: Any = sys.stdin.buffer
        else:
            source = stack.enter_context(opened(path))
            with contextlib.suppress(OSError):
                if os.path.samestat(os.fstat(source.fileno()), os.stat(path)):
                    yield path
                    return
        try:
            handle, copy = tempfile.mkstemp(prefix="gcaudit-", suffix=".jsonl")
            stack.callback(os.unlink, copy)
            with os.fdopen(handle, "wb") as file:
                shutil.copyfileobj(source, file, 1 << 20)
        except OSError as error:
            name = "standard input" if path == "-" else path
            raise TraceError(
                "%s can't be copied into the folder for temporary files: %s" % (name, error.strerror or error)
            ) from None
        yield copy
