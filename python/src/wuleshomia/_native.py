"""The declarations of wuleshomia.h for ctypes, held to it by c/abi.py."""

from __future__ import annotations

import ctypes
import os
from ctypes import POINTER, Structure, c_char_p, c_size_t, c_uint8, c_uint32, c_uint64, c_void_p
from pathlib import Path
from typing import Any

u32 = c_uint32

_POINTER: Any = ctypes._Pointer  # type: ignore[attr-defined]


class Handle(Structure):
    _fields_ = [("at", c_void_p), ("live", c_uint64)]


class Settings(Structure):
    _fields_ = [
        ("max_frame", u32),
        ("channel_max", u32),
        ("handle_max", u32),
        ("allowed", u32),
        ("max_message", u32),
        ("window", u32),
        ("idle_time_out", u32),
    ]


class Limit(Structure):
    _fields_ = [("allowed", u32), ("max_message", u32), ("prefix_len", u32), ("prefix", c_uint8 * 256)]


class Fed(Structure):
    _fields_ = [
        ("used", c_uint64),
        ("outcome", u32),
        ("event", u32),
        ("channel", u32),
        ("handle", u32),
        ("count", u32),
        ("scope", u32),
        ("condition", u32),
        ("reserved", u32),
    ]


class Taken(Structure):
    _fields_ = [
        ("len", c_uint64),
        ("id", u32),
        ("format", u32),
        ("settled", u32),
        ("tag_len", u32),
        ("tag", c_uint8 * 32),
    ]


class LinkState(Structure):
    _fields_ = [
        ("credit", u32),
        ("opened", u32),
        ("ready", u32),
        ("allowed", u32),
        ("max_message", u32),
        ("name_len", u32),
        ("source_len", u32),
        ("target_len", u32),
    ]


class Address(Structure):
    _fields_ = [("kind", u32), ("len", u32)]


class Rule(Structure):
    _fields_ = [("credit", u32), ("mark", u32), ("outcome", u32)]


class Step(Structure):
    _fields_ = [
        ("fed", Fed),
        ("receipt", u32),
        ("id", u32),
        ("len", u32),
        ("refusal", u32),
        ("widened", u32),
        ("granted", u32),
        ("refused", u32),
        ("reserved", u32),
    ]


class Part(Structure):
    _fields_ = [("at", c_uint64), ("len", c_uint64)]


class SpoolHead(Structure):
    _fields_ = [
        ("spool", c_uint8 * 16),
        ("secret", c_uint8 * 16),
        ("first", c_uint64),
        ("before", c_uint64),
        ("counted", c_uint64),
        ("life", c_uint64),
        ("sum", c_uint64),
    ]


class SpoolBatch(Structure):
    _fields_ = [
        ("len", c_uint64),
        ("first", c_uint64),
        ("arrived", c_uint64),
        ("count", u32),
        ("reserved", u32),
    ]


class SpoolEntry(Structure):
    _fields_ = [
        ("len", c_uint64),
        ("kind", u32),
        ("link", u32),
        ("connection", c_uint64),
        ("peer", Part),
        ("container", Part),
        ("name", Part),
        ("user", Part),
        ("target_kind", u32),
        ("reserved", u32),
        ("target", Part),
        ("tag", Part),
        ("record", Part),
    ]


class SpoolEnd(Structure):
    _fields_ = [
        ("spool", c_uint8 * 16),
        ("first", c_uint64),
        ("mark", c_uint64),
        ("place", c_uint64),
        ("next", c_uint64),
    ]


class SpoolFloor(Structure):
    _fields_ = [("spool", c_uint8 * 16), ("number", c_uint64), ("dropped", c_uint64)]


class SpoolPosition(Structure):
    _fields_ = [("spool", c_uint8 * 16), ("number", c_uint64)]


#: Each function: what it returns, and what it takes. A piece of bytes is its address and its length; a text ends with a zero byte.
FUNCTIONS = {
    "wule_version": (u32, []),
    "wule_open": (u32, [POINTER(Handle), POINTER(Settings), c_char_p, c_size_t, POINTER(Limit), c_size_t, POINTER(c_size_t)]),
    "wule_free": (None, [POINTER(Handle)]),
    "wule_feed": (u32, [POINTER(Handle), c_void_p, c_size_t, POINTER(Fed)]),
    "wule_output": (c_size_t, [POINTER(Handle), c_void_p, c_size_t]),
    "wule_has_output": (u32, [POINTER(Handle)]),
    "wule_close": (u32, [POINTER(Handle), POINTER(u32)]),
    "wule_close_with": (u32, [POINTER(Handle), c_char_p, c_char_p, POINTER(u32)]),
    "wule_heartbeat": (u32, [POINTER(Handle)]),
    "wule_finish": (u32, [POINTER(Handle), POINTER(c_uint64)]),
    "wule_is_over": (u32, [POINTER(Handle)]),
    "wule_grant": (u32, [POINTER(Handle), u32, u32, u32]),
    "wule_widen": (u32, [POINTER(Handle), u32, u32]),
    "wule_drain": (u32, [POINTER(Handle), u32, u32]),
    "wule_settle": (u32, [POINTER(Handle), u32, u32, u32]),
    "wule_settle_range": (u32, [POINTER(Handle), u32, u32, u32, u32, POINTER(u32)]),
    "wule_settle_with": (u32, [POINTER(Handle), u32, u32, c_char_p, c_char_p]),
    "wule_settle_range_with": (u32, [POINTER(Handle), u32, u32, u32, c_char_p, c_char_p, POINTER(u32)]),
    "wule_detach": (u32, [POINTER(Handle), u32, u32, POINTER(u32)]),
    "wule_refuse": (u32, [POINTER(Handle), u32, u32, c_char_p, c_char_p, POINTER(u32)]),
    "wule_top_up": (u32, [POINTER(Handle), u32, u32, u32]),
    "wule_take": (u32, [POINTER(Handle), u32, u32, POINTER(Taken), c_void_p, c_size_t]),
    "wule_message_read": (c_size_t, [POINTER(Handle), c_size_t, c_void_p, c_size_t]),
    "wule_message_drop": (None, [POINTER(Handle)]),
    "wule_held": (c_uint64, [POINTER(Handle)]),
    "wule_window": (u32, [POINTER(Handle), u32, POINTER(u32)]),
    "wule_link": (u32, [POINTER(Handle), u32, u32, POINTER(LinkState), c_void_p, c_size_t]),
    "wule_link_source": (u32, [POINTER(Handle), u32, u32, c_void_p, c_size_t]),
    "wule_link_target": (u32, [POINTER(Handle), u32, u32, c_void_p, c_size_t]),
    "wule_link_address": (u32, [POINTER(Handle), u32, u32, POINTER(Address), c_void_p, c_size_t]),
    "wule_first_lacking": (u32, [POINTER(Handle), u32, u32, u32, POINTER(u32)]),
    "wule_serve_step": (u32, [POINTER(Handle), POINTER(Rule), c_void_p, c_size_t, POINTER(Step)]),
    "wule_records": (c_size_t, [POINTER(Handle), c_void_p, c_size_t]),
    "wule_spool_read_head": (u32, [c_void_p, c_size_t, POINTER(SpoolHead)]),
    "wule_spool_batch_size": (c_uint64, [c_void_p, c_size_t]),
    "wule_spool_read_batch": (u32, [POINTER(SpoolHead), c_uint64, c_void_p, c_size_t, POINTER(SpoolBatch)]),
    "wule_spool_read_entry": (u32, [c_void_p, c_size_t, POINTER(SpoolEntry)]),
    "wule_spool_read_end": (u32, [c_void_p, c_size_t, POINTER(SpoolEnd)]),
    "wule_spool_read_floor": (u32, [c_void_p, c_size_t, POINTER(SpoolFloor)]),
    "wule_spool_read_position": (u32, [c_void_p, c_size_t, POINTER(SpoolPosition)]),
    "wule_spool_write_position": (c_size_t, [POINTER(SpoolPosition), c_void_p, c_size_t]),
}

#: The version that these declarations are of.
VERSION = 256


def _load() -> ctypes.CDLL:
    path = os.environ.get("WULESHOMIA_LIBRARY") or str(Path(__file__).with_name("libwuleshomia.so"))
    loaded = ctypes.CDLL(path)
    for name, (result, words) in FUNCTIONS.items():
        function = getattr(loaded, name)
        # Pointers are handed over as numbers, by addressof: what `byref` makes is checked at each call, which takes longer than the call.
        function.restype, function.argtypes = result, [c_void_p if issubclass(word, _POINTER) else word for word in words]
    if loaded.wule_version() >> 8 != VERSION >> 8:
        raise ImportError(f"{path} has another version than this package")
    return loaded


lib = _load()


def address_of(data: bytes) -> int:
    """Where the bytes of an object lie: they stay there as long as it lives."""
    return ctypes.cast(c_char_p(data), c_void_p).value or 0
