"""The extension `_native`, which makes the calls of each request and reads rows, where it is built."""

from __future__ import annotations

import os
from importlib import import_module
from typing import Any


def _extension() -> Any:
    """The extension, or None: where it isn't built, or the variable RUDZKVANO_PURE of the environment is set."""
    if os.environ.get("RUDZKVANO_PURE"):
        return None
    try:
        return import_module("._native", __package__)
    except ImportError:
        return None


NATIVE = _extension()
