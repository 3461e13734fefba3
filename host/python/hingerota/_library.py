"""The shared library, as `hingerota.h` declares it: its structs and its functions. `host/python/test` compares both with the header."""
from __future__ import annotations

import ctypes
import os
from ctypes import POINTER, Structure, c_size_t, c_uint8, c_uint16, c_uint32
from pathlib import Path
from typing import Any, Iterator

MOST_POINTS = 129
MOST_BLOCKS = 9
PAGE_BYTES = 4818
TEXT_BYTES = 7375
WHY_BYTES = 74752
LIVE_JOBS = 64
NAME = "libhingerota.so.0"


class Opening(Structure):
    _fields_ = [(name, c_uint32) for name in ("nodes", "minute", "ticket", "cleanup", "quota_a", "quota_b")]


class Order(Structure):
    _fields_ = [(name, c_uint32) for name in ("nodes", "estimate", "tenant", "least")]


class Amendment(Structure):
    _fields_ = [(name, c_uint32) for name in ("ticket", "nodes", "estimate", "least")]


class Inquiry(Structure):
    _fields_ = [(name, c_uint32) for name in ("nodes", "tenant", "minute")]


class Record(Structure):
    _fields_ = [
        ("ticket", c_uint32), ("nodes", c_uint16), ("estimate", c_uint16), ("state", c_uint32), ("tenant", c_uint16), ("least", c_uint16),
        ("start", c_uint32), ("promise", c_uint32), ("end", c_uint32), ("submitted", c_uint32), ("rank", c_uint32), ("forecast", c_uint32),
    ]


class Desk(Structure):
    _fields_ = [
        ("kind", c_uint32), ("nodes", c_uint32), ("cleanup", c_uint32), ("quota_a", c_uint32), ("quota_b", c_uint32), ("clock", c_uint32),
        ("next", c_uint32), ("jobs", Record * LIVE_JOBS),
    ]


class Tickets(Structure):
    _fields_ = [("count", c_size_t), ("list", c_uint32 * LIVE_JOBS)]


class Answer(Structure):
    _fields_ = [
        ("refusal", c_uint32), ("ticket", c_uint32), ("promise", c_uint32), ("reads", c_uint32), ("head", c_uint32), ("forecast", c_uint32),
        ("ended", Tickets), ("started", Tickets),
    ]


class Advanced(Structure):
    _fields_ = [("answer", Answer), ("minutes", c_uint32)]


class Opened(Structure):
    _fields_ = [("refusal", c_uint32), ("desk", Desk)]


class Point(Structure):
    _fields_ = [("minute", c_uint32), ("free", c_uint32)]


class Block(Structure):
    _fields_ = [("fewest", c_uint32), ("most", c_uint32)]


class Shown(Structure):
    _fields_ = [("refusal", c_uint32), ("count", c_size_t)]


class Earliest(Structure):
    _fields_ = [("refusal", c_uint32), ("minute", c_uint32)]


class Longest(Structure):
    _fields_ = [("refusal", c_uint32), ("estimate", c_uint32)]


_DESK = POINTER(Desk)

# Each function: what it gives, and what it takes.
FUNCTIONS: dict[str, tuple[Any, list[Any]]] = {
    "open_promise": (Opened, [Opening]),
    "open_loose": (Opened, [Opening]),
    "submit": (Answer, [_DESK, Order]),
    "complete": (Answer, [_DESK, c_uint32]),
    "cancel": (Answer, [_DESK, c_uint32]),
    "amend": (Answer, [_DESK, Amendment]),
    "tick": (Answer, [_DESK]),
    "advance": (Advanced, [_DESK, c_uint32]),
    "migrate": (None, [_DESK]),
    "profile": (Shown, [_DESK, POINTER(Point), c_size_t]),
    "index": (Shown, [_DESK, POINTER(Block), c_size_t]),
    "wait_refusal": (c_uint32, [_DESK, c_uint32]),
    "earliest_start": (Earliest, [_DESK, c_uint32]),
    "longest_estimate": (Longest, [_DESK, Inquiry]),
    "status_page": (Shown, [_DESK, POINTER(c_uint8), c_size_t]),
    "why": (Shown, [_DESK, POINTER(c_uint8), c_size_t]),
    "checkpoint": (Shown, [_DESK, POINTER(c_uint8), c_size_t]),
    "restore": (Opened, [POINTER(c_uint8), c_size_t]),
    "check": (c_uint32, [_DESK]),
}


def _places() -> Iterator[str]:
    """Where the library may be: HINGEROTA_LIB names its folder; that of an installation has this module below it; that of the repository is
    where it was built; last come the folders of the system."""
    named = os.environ.get("HINGEROTA_LIB")
    if named is not None:
        yield str(Path(named) / NAME)
        return
    here = Path(__file__).resolve().parent
    # PREFIX/lib/python3/dist-packages/hingerota
    installed = here.parents[2] / NAME
    # host/python/hingerota
    built = here.parents[2] / "target" / "shared" / NAME
    yield from (str(path) for path in (installed, built) if path.exists())
    yield NAME


def _load() -> ctypes.PyDLL:
    """The library. While a call runs no other thread does, so that no two calls ever use one desk at the same time."""
    failures = []
    for place in _places():
        try:
            library = ctypes.PyDLL(place)
        except OSError as failure:
            failures.append(str(failure))
            continue
        for name, (gives, takes) in FUNCTIONS.items():
            function = getattr(library, "hingerota_" + name)
            function.restype, function.argtypes = gives, takes
        return library
    raise ImportError(f"{NAME} cannot be loaded, and HINGEROTA_LIB can name its folder: {'; '.join(failures)}")


_loaded = _load()


def call(name: str, *arguments: Any) -> Any:
    """What `hingerota_NAME` gives."""
    return getattr(_loaded, "hingerota_" + name)(*arguments)
