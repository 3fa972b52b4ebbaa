"""Finds the shared object of the proved library and declares its calls."""
from __future__ import annotations

import ctypes
import os
from typing import Callable, Dict, Iterator, Optional

from .calls import CALLS, CHECK_TABLE, OPEN, OPEN_SHEET

NAME = 'libfusion_blossom.so'
VARIABLE = 'FUSION_BLOSSOM_LIBRARY'


class NoLibrary(Exception):
    """The shared object is not there, or is not this library."""


def places() -> Iterator[str]:
    """Where the shared object may be: as the environment says, beside this file, in the repository that this file
    stands in.
    """
    here = os.path.dirname(os.path.abspath(__file__))
    if os.environ.get(VARIABLE):
        yield os.environ[VARIABLE]
    else:
        yield os.path.join(here, NAME)
        yield os.path.join(os.path.dirname(os.path.dirname(here)), 'target', 'lib', NAME)


def find() -> Optional[str]:
    """The path of the shared object, or None."""
    return next((path for path in places() if os.path.exists(path)), None)


class Library:
    """The loaded library: its calls by the names of calls.py."""

    def __init__(self, path: Optional[str] = None):
        found = path or find()
        if found is None:
            raise NoLibrary(f'no {NAME}: tools/build-library.sh builds it, and {VARIABLE} names another place')
        try:
            shared = ctypes.CDLL(found)
        except OSError as e:
            raise NoLibrary(f'{found} cannot be loaded: {e}') from None
        self.path = found
        self.open = self.declare(shared, OPEN)
        self.open_sheet = self.declare(shared, OPEN_SHEET)
        self.check_table = self.declare(shared, CHECK_TABLE)
        self.calls: Dict[str, Callable[..., int]] = {name: self.declare(shared, call) for name, call in CALLS.items()}

    def declare(self, shared: ctypes.CDLL, call) -> Callable[..., int]:
        """A call of the shared object with its types."""
        try:
            function = getattr(shared, call.symbol)
        except AttributeError:
            raise NoLibrary(f'{self.path} has no {call.symbol}: build it again with tools/build-library.sh') from None
        function.argtypes, function.restype = call.types(), ctypes.c_size_t
        return function


loaded: Dict[str, Library] = {}


def load(path: Optional[str] = None) -> Library:
    """The library at a path, or where it is found; loaded once."""
    key = path or find() or ''
    if key not in loaded:
        loaded[key] = Library(key or None)
    return loaded[key]
