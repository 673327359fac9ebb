"""Starts a program without holding up other threads: `os.posix_spawn` keeps Python's lock until the program runs."""
from __future__ import annotations

import ctypes
import os
from typing import Any, Optional, Sequence

# More than any C library needs for the list of what is done with files.
ACTIONS = 1024


def _calls() -> "Optional[ctypes.CDLL]":
    try:
        libc = ctypes.CDLL(None)
        for it in ("posix_spawn", "posix_spawn_file_actions_init", "posix_spawn_file_actions_destroy", "posix_spawn_file_actions_adddup2", "posix_spawn_file_actions_addopen"):
            getattr(libc, it).restype = ctypes.c_int
    except (OSError, AttributeError):
        return None
    return libc


LIBC = _calls()


def _words(words: Sequence[bytes]) -> "ctypes.Array[ctypes.c_char_p]":
    return (ctypes.c_char_p * (len(words) + 1))(*words, None)


def environment() -> "ctypes.Array[ctypes.c_char_p]":
    """The variables of this process, as a program gets them."""
    return _words([os.fsencode(name) + b"=" + os.fsencode(value) for name, value in os.environ.items()])


def spawn(path: bytes, words: Sequence[bytes], variables: "ctypes.Array[ctypes.c_char_p]", numbers: "Sequence[tuple[int, int]]") -> int:
    """Starts a program, and gives its process. Standard input is empty; it has each open file under the number that is given with it."""
    if LIBC is None:
        actions: "list[Any]" = [(os.POSIX_SPAWN_OPEN, 0, os.devnull, os.O_RDONLY, 0), *((os.POSIX_SPAWN_DUP2, it, to) for it, to in numbers)]
        return os.posix_spawn(path, list(words), os.environ, file_actions=actions)
    made = ctypes.create_string_buffer(ACTIONS)
    _expect(LIBC.posix_spawn_file_actions_init(made), path)
    try:
        _expect(LIBC.posix_spawn_file_actions_addopen(made, 0, os.devnull.encode(), os.O_RDONLY, 0), path)
        for it, to in numbers:
            _expect(LIBC.posix_spawn_file_actions_adddup2(made, it, to), path)
        process = ctypes.c_int()
        _expect(LIBC.posix_spawn(ctypes.byref(process), path, made, None, _words(words), variables), path)
        return process.value
    finally:
        LIBC.posix_spawn_file_actions_destroy(made)


def _expect(number: int, path: bytes) -> None:
    if number:
        raise OSError(number, os.strerror(number), os.fsdecode(path))
