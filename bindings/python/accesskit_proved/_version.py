"""The version of this package, and of the library."""

from __future__ import annotations

import os
from typing import Tuple, Union

from . import _raw

__version__ = "0.1.0"


def version(library: Union[str, os.PathLike[str], None] = None) -> Tuple[int, int, int]:
    """The three numbers of the version of the shared library at this path, or of the one that is installed with this package."""
    number: int = _raw.load(_raw.path_of(library)).ak_version()
    return number // 10_000, number // 100 % 100, number % 100
