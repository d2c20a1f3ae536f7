"""Whether numpy is there: graphs of millions of objects take a fraction of the time with it. All goes without."""
import importlib.util
import os


def numpy_is_there() -> bool:
    """Whether numpy can be used; the variable GCAUDIT_WITHOUT_NUMPY says that it is not to be."""
    return not os.environ.get("GCAUDIT_WITHOUT_NUMPY") and importlib.util.find_spec("numpy") is not None
