"""Finds the shared library, and gives its functions their types."""

from __future__ import annotations

import ctypes
import ctypes.util
import os
from pathlib import Path
from typing import Any, Callable

from ._interface import FUNCTIONS, OTHERS, U32, VERSION


def _path() -> str:
    """Returns the path of the library: in the folder MORTARPINK_LIB_DIR if it is set, in this package, or of the system."""
    folder = os.environ.get("MORTARPINK_LIB_DIR")
    path = Path(folder or Path(__file__).parent, "libmortarpink.so").resolve()
    if folder or path.exists():
        return str(path)
    found = ctypes.util.find_library("mortarpink")
    if found is None:
        raise ImportError("the library mortarpink is not found: set MORTARPINK_LIB_DIR to its folder")
    return found


def _function(library: ctypes.CDLL, name: str, types: tuple[Any, ...], result: Any) -> Callable[..., Any]:
    """Returns a function of the library, with the types of its arguments and its result."""
    function = library[f"mortarpink_{name}"]
    function.argtypes = types
    function.restype = result
    return function


def _load() -> dict[str, Callable[..., Any]]:
    """Returns the functions of the library. Raises ImportError if it is not found, or has another interface."""
    try:
        library = ctypes.CDLL(_path())
    except OSError as error:
        raise ImportError(f"the library mortarpink cannot be loaded: {error}") from error
    version = _function(library, "version", *OTHERS["version"])()
    if version != VERSION:
        raise ImportError(f"the library mortarpink has version {version} of its interface, not {VERSION}")
    functions = {name: _function(library, name, types, U32) for name, types in FUNCTIONS.items()}
    return {**functions, **{name: _function(library, name, types, result) for name, (types, result) in OTHERS.items()}}


CALLS = _load()
