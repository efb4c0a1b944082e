"""libdine.so by ctypes: the one place that knows pointers.

Each handle here is open, but at `open_at`.
"""
import ctypes
import os
from typing import Callable, List, Optional, Tuple

Name = Tuple[int, int]


class Handle(ctypes.Structure):
    """An arbiter, or none where the address is null."""

    _fields_ = [("address", ctypes.c_void_p)]


class _Task(ctypes.Structure):
    _fields_ = [("slot", ctypes.c_uint32), ("born", ctypes.c_uint64)]


def _loaded() -> ctypes.CDLL:
    beside = os.path.join(os.path.dirname(os.path.abspath(__file__)), "libdine.so")
    found = ctypes.CDLL(os.environ.get("DINE_LIBRARY", beside))
    handle, task, number = ctypes.POINTER(Handle), ctypes.POINTER(_Task), ctypes.POINTER(ctypes.c_uint32)
    tasks = (task, ctypes.c_size_t, ctypes.POINTER(ctypes.c_size_t))
    text = (ctypes.c_char_p, ctypes.c_size_t)
    place = (ctypes.c_void_p, ctypes.c_size_t, ctypes.POINTER(ctypes.c_size_t))
    signatures = {
        "dine_open": (ctypes.c_uint32, [ctypes.c_uint32, ctypes.c_uint32, handle]),
        "dine_act": (ctypes.c_uint32, [handle, ctypes.c_uint32, task, task, task]),
        "dine_ask": (ctypes.c_uint32, [handle, ctypes.c_uint32, task, task]),
        "dine_state": (ctypes.c_uint32, [handle, task]),
        "dine_is_ready": (ctypes.c_bool, [handle, task]),
        "dine_next_ready": (ctypes.c_bool, [handle, task]),
        "dine_neighbours": (ctypes.c_uint32, [handle, task, *tasks]),
        "dine_blockers": (ctypes.c_uint32, [handle, task, *tasks]),
        "dine_ready": (ctypes.c_uint32, [handle, *tasks]),
        "dine_has_room": (ctypes.c_bool, [handle]),
        "dine_clock": (ctypes.c_uint64, [handle]),
        "dine_messages": (ctypes.c_uint32, [handle]),
        "dine_limits": (None, [handle, number, number]),
        "dine_close": (None, [handle]),
        "dine_run": (ctypes.c_uint32, [ctypes.c_uint32, ctypes.c_uint32, ctypes.c_bool, *text, *place]),
        "dine_audit": (ctypes.c_uint32, [*text, *place]),
    }
    for name, (result, words) in signatures.items():
        function = getattr(found, name)
        function.restype, function.argtypes = result, words
    return found


_DINE = _loaded()


def open_at(handle: Handle, tasks: int, conflicts: int) -> int:
    return _DINE.dine_open(tasks, conflicts, handle)


def act(handle: Handle, call: int, first: Name, second: Name) -> Tuple[int, int, int]:
    joined = _Task()
    answer = _DINE.dine_act(handle, _word(call), _named(first), _named(second), joined)
    return answer, joined.slot, joined.born


def ask(handle: Handle, call: int, first: Name, second: Name) -> int:
    return _DINE.dine_ask(handle, _word(call), _named(first), _named(second))


def state(handle: Handle, task: Name) -> int:
    return _DINE.dine_state(handle, _named(task))


def is_ready(handle: Handle, task: Name) -> bool:
    return _DINE.dine_is_ready(handle, _named(task))


def next_ready(handle: Handle) -> Optional[Name]:
    found = _Task()
    return (found.slot, found.born) if _DINE.dine_next_ready(handle, found) else None


def neighbours(handle: Handle, task: Name, room: int) -> Tuple[int, List[Name]]:
    return _listed(_DINE.dine_neighbours, room, handle, _named(task))


def blockers(handle: Handle, task: Name, room: int) -> Tuple[int, List[Name]]:
    return _listed(_DINE.dine_blockers, room, handle, _named(task))


def ready(handle: Handle, room: int) -> Tuple[int, List[Name]]:
    return _listed(_DINE.dine_ready, room, handle)


def has_room(handle: Handle) -> bool:
    return _DINE.dine_has_room(handle)


def clock(handle: Handle) -> int:
    return _DINE.dine_clock(handle)


def messages(handle: Handle) -> int:
    return _DINE.dine_messages(handle)


def limits(handle: Handle) -> Tuple[int, int]:
    tasks, conflicts = ctypes.c_uint32(), ctypes.c_uint32()
    _DINE.dine_limits(handle, tasks, conflicts)
    return tasks.value, conflicts.value


def close(handle: Handle) -> None:
    _DINE.dine_close(handle)


def run(tasks: int, conflicts: int, journal: bool, script: bytes, room: int) -> Tuple[int, bytes, int]:
    """The answer, what was written, and how long the output is."""
    out, written = ctypes.create_string_buffer(room + 1), ctypes.c_size_t()
    answer = _DINE.dine_run(tasks, conflicts, journal, script, len(script), out, room, written)
    return answer, out.raw[: min(written.value, room)], written.value


def audit(journal: bytes, room: int) -> Tuple[int, bytes, int]:
    """The answer, what was written, and how long the output is."""
    out, written = ctypes.create_string_buffer(room + 1), ctypes.c_size_t()
    answer = _DINE.dine_audit(journal, len(journal), out, room, written)
    return answer, out.raw[: min(written.value, room)], written.value


def _listed(call: Callable[..., int], room: int, *words: object) -> Tuple[int, List[Name]]:
    """The answer, and the names that a call writes to a place with so much room."""
    found, count = (_Task * room)(), ctypes.c_size_t()
    answer = call(*words, found, room, count)
    return answer, [(name.slot, name.born) for name in found[: count.value]]


def _named(task: Name) -> _Task:
    """The struct of a name. Numbers that fit no name would be cut by ctypes, and name another task."""
    slot, born = task
    if not (0 <= slot < 1 << 32 and 0 <= born < 1 << 64):
        return _Task((1 << 32) - 1, (1 << 64) - 1)
    return _Task(slot, born)


def _word(call: int) -> int:
    """The number of a call, and 0, which is no call's, where it fits no word."""
    return call if 0 <= call < 1 << 32 else 0
