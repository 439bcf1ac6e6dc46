"""An adapter of one's own: a class in a file of Python that is derived from Emulator."""
from __future__ import annotations

import importlib.util
import os
import sys

from . import Emulator

# The name under which Python keeps the file.
MODULE = "adapter_of_ones_own"


def own_adapter(spec: str) -> Emulator:
    """The adapter that `FILE:CLASS` names, made without operands. What is beside the file can be imported by it."""
    file, _, name = spec.rpartition(":")
    found = importlib.util.spec_from_file_location(MODULE, file) if file and name else None
    if found is None or found.loader is None:
        raise ValueError("it must be python=FILE:CLASS, with a file of Python: %s" % spec)
    module = importlib.util.module_from_spec(found)
    sys.modules[MODULE] = module
    sys.path.append(os.path.dirname(os.path.abspath(file)))
    found.loader.exec_module(module)
    made = getattr(module, name, None)
    if not (isinstance(made, type) and issubclass(made, Emulator)):
        raise ValueError("%s has no class %s that is derived from suite.adapters.Emulator" % (file, name))
    return made()
