"""Tools without an ending, as modules; and those of tools/ that have one can be imported."""
from __future__ import annotations

import importlib.machinery
import importlib.util
import pathlib
import sys
import types

TOOLS = pathlib.Path(__file__).resolve().parent.parent
sys.dont_write_bytecode = True
sys.path.insert(0, str(TOOLS))


def load(name: str) -> types.ModuleType:
    loader = importlib.machinery.SourceFileLoader(name, str(TOOLS / name))
    spec = importlib.util.spec_from_loader(name, loader)
    assert spec is not None
    module = importlib.util.module_from_spec(spec)
    sys.modules[name] = module
    loader.exec_module(module)
    return module
