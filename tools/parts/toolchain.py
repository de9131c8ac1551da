"""The toolchain's own Python: the file `rt` on the PATH, and what is beside it."""
import importlib.machinery
import importlib.util
import os
import shutil
import sys


def toolchain(otherwise):
    """The toolchain's `rt`, as a module; where there is none, the script ends with this text."""
    found = os.path.realpath(shutil.which("rt") or sys.exit(otherwise))
    loader = importlib.machinery.SourceFileLoader("rt", found)
    sys.modules["rt"] = module = importlib.util.module_from_spec(importlib.util.spec_from_loader("rt", loader))
    loader.exec_module(module)
    return module
