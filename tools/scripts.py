"""Other scripts of this folder as modules: their names have hyphens or no ending, so `import` doesn't find them."""

from importlib.machinery import SourceFileLoader
from pathlib import Path
from types import ModuleType


def script(name):
    """A script of tools/ as a module."""
    loader = SourceFileLoader(name.replace("-", "_"), str(Path(__file__).resolve().parent / name))
    module = ModuleType(loader.name)
    module.__file__ = loader.path
    loader.exec_module(module)
    return module
