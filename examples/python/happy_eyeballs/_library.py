"""libhe by ctypes: libhe.so.1, or the file that the variable HE_LIBRARY names. `he.h` says what each function does."""
from __future__ import annotations

import ctypes
import ipaddress
import os
from ctypes import POINTER, Structure, byref, c_char_p, c_size_t, c_uint8, c_uint16, c_uint32, c_uint64
from typing import Any

DONE, FAULT, BUFFER_TOO_SMALL, NO_MEMORY, NOT_ONE_RACE = range(5)
START, WAIT, WON, EXHAUSTED, LIMIT = range(1, 6)
FIRST_SIZE = 4096


class Result(Structure):
    """struct he_result"""

    _fields_ = [("length", c_uint64), ("line", c_uint64), ("kind", c_uint32)]


class Step(Structure):
    """struct he_step"""

    _fields_ = [
        ("action", c_uint32), ("family", c_uint32), ("place", c_uint64), ("tick", c_uint64),
        ("pause_from", c_uint64), ("pause_until", c_uint64), ("address", c_uint8 * 16),
    ]

    def packed(self) -> bytes:
        """The address of a start, 4 or 16 bytes."""
        return bytes(self.address[:4 if self.family == 4 else 16])

    def ip(self) -> str:
        return str(ipaddress.ip_address(self.packed()))


class Way(Structure):
    """struct he_way"""

    _fields_ = [
        ("family", c_uint32), ("interface", c_uint16), ("prefix_length", c_uint8), ("deprecated", c_uint8),
        ("destination", c_uint8 * 16), ("source", c_uint8 * 16), ("tunnel", c_uint8),
    ]


class HeError(ValueError):
    """A text that libhe refuses: `line` and `kind` are those of its first fault."""

    def __init__(self, what: str, answer: int, line: int = 0, kind: str = "") -> None:
        super().__init__(f"{what}: " + (f"line {line}: {kind}" if answer == FAULT else f"answer {answer}"))
        self.answer, self.line, self.kind = answer, line, kind


he = ctypes.CDLL(os.environ.get("HE_LIBRARY", "libhe.so.1"))
_BUFFER = [c_char_p, c_size_t, POINTER(Result)]
_TEXT = [c_char_p, c_size_t]
ARGUMENTS: dict[str, list[Any]] = {
    **{f"he_{name}": [*_TEXT, *_BUFFER] for name in ("replay", "order", "explain", "check", "record_line")},
    "he_kind_text": [c_uint32, *_BUFFER],
    "he_setting_line": [*_TEXT, c_uint64, *_BUFFER],
    "he_answer_line": [c_uint32, *_TEXT, c_uint64, *_BUFFER],
    "he_connect_line": [POINTER(Step), c_uint32, c_uint64, *_BUFFER],
    "he_pause_line": [POINTER(Step), *_BUFFER],
    "he_source_line": [POINTER(Way), *_BUFFER],
    "he_route_line": [POINTER(Way), *_BUFFER],
    "he_host_lines": [c_uint32, *_TEXT, *_BUFFER],
    "he_next": [*_TEXT, c_uint64, c_uint64, POINTER(Step), POINTER(Result)],
}
for _name, _types in ARGUMENTS.items():
    getattr(he, _name).argtypes = _types


def library_version() -> int:
    """10000 times the major version of the loaded library, plus 100 times the minor one, plus the patch."""
    return int(he.he_version())


def called(name: str, *arguments: Any, size: int = FIRST_SIZE) -> tuple[int, Result, bytes]:
    """The answer of a function that writes to a buffer, which is as large as it needs to be, and what it wrote."""
    result = Result()
    while True:
        buffer = ctypes.create_string_buffer(size)
        answer = getattr(he, name)(*arguments, buffer, size, byref(result))
        if answer != BUFFER_TOO_SMALL:
            return answer, result, buffer.raw[:result.length]
        size = result.length


def written(name: str, *arguments: Any) -> str:
    """The text that a function writes.

    MemoryError if libhe has no memory, HeError for any other answer than HE_DONE.
    """
    answer, result, text = called(name, *arguments)
    if answer == NO_MEMORY:
        raise MemoryError(name)
    if answer != DONE:
        raise HeError(name, answer, result.line, kind_text(result.kind))
    return text.decode()


def kind_text(kind: int) -> str:
    return called("he_kind_text", kind)[2].decode()


def text_of(name: str, text: bytes) -> str:
    """The text that he_replay, he_order, he_explain, he_check or he_record_line writes for this one."""
    return written(name, text, len(text))


def next_step(record: bytes, started: int, now: int) -> Step:
    step, result = Step(), Result()
    answer = he.he_next(record, len(record), started, now, byref(step), byref(result))
    if answer == NO_MEMORY:
        raise MemoryError("he_next")
    if answer != DONE:
        raise HeError("he_next", answer, result.line, kind_text(result.kind))
    return step


def way_of(destination: bytes, source: bytes, interface: int, prefix_length: int) -> Way:
    way = Way(family=4 if len(source) == 4 else 6, interface=interface, prefix_length=prefix_length)
    way.destination[:len(destination)] = destination
    way.source[:len(source)] = source
    return way
