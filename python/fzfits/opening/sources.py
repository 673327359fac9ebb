"""Where bytes come from: a path, bytes in memory, an open file, or an object of fsspec. Any number of threads may read one source.

A source has no position: a path is read by `pread`, and an object of fsspec by ranges. Only the position of an open file that is no
file of the system moves, under a lock.
"""
from __future__ import annotations

import io
import os
import threading
from typing import Any, List, Optional, Sequence, Tuple

from ..errors import FzError, ReadFault, Usage, shown

Range = Tuple[int, int]
SHORT = "it ends earlier than when it was opened: open it again"


class Source:
    """Bytes that can be read anywhere. `name` says which in messages.

    `gap` is how many bytes are rather read than left out, `front` how many of an HDU are read first, and `far` whether several
    ranges are better read at once.
    """

    name: Any = None
    length = 0
    gap = 0
    front = 5760
    far = False

    def read(self, start: int, count: int) -> bytes:
        """So many bytes from `start` on."""
        raise NotImplementedError

    def read_into(self, view: memoryview, start: int) -> None:
        """Fills the view with the bytes from `start` on."""
        view[:] = self.read(start, len(view))

    def read_all(self, ranges: Sequence[Range]) -> List[bytes]:
        """Several ranges, each a start and a count."""
        return [self.read(*it) for it in ranges]

    def close(self) -> None:
        """Ends it. Readings that are under way end as they would have."""

    def again(self) -> Tuple[Any, ...]:
        """The arguments with which `open` opens it again, in another process."""
        raise Usage(f"{self.name or 'this file object'} cannot be pickled: open it by its path or URL")

    def token(self) -> Tuple[Any, ...]:
        """What is another one if the bytes are."""
        return (id(self),)

    def short(self, start: int, count: int) -> ReadFault:
        """The error if there are fewer bytes than there were."""
        return ReadFault(f"bytes {start} to {start + count - 1} are not there", path=self.name, command="open", advice=f"The file has changed: {SHORT}.")


class Descriptor:
    """A descriptor of the system, which is closed when nobody holds it any more: a reading never meets another file."""

    def __init__(self, number: int) -> None:
        self.number = number

    def __del__(self) -> None:
        os.close(self.number)


class FileSource(Source):
    """A file of the system, by `pread`."""

    def __init__(self, name: Any, number: int, by_path: bool) -> None:
        self.name, self.by_path, self.held = name, by_path, Descriptor(number)  # type: Any, bool, Optional[Descriptor]
        found = os.fstat(number)
        self.length = found.st_size
        self.stat = found.st_dev, found.st_ino, found.st_mtime_ns, found.st_size

    def number(self) -> Descriptor:
        """The descriptor."""
        held = self.held
        if held is None:
            raise ValueError(f"{shown(self.name)} is closed")
        return held

    def read(self, start: int, count: int) -> bytes:
        try:
            found = os.pread(self.number().number, count, start)
        except OSError as error:
            raise ReadFault(error.strerror or str(error), error.errno, path=self.name, command="open") from error
        if len(found) == count:
            return found
        room = bytearray(count)
        self.read_into(memoryview(room), start)
        return bytes(room)

    def read_into(self, view: memoryview, start: int) -> None:
        held, done = self.number(), 0
        try:
            while done < len(view):
                got = os.preadv(held.number, [view[done:]], start + done)
                if got == 0:
                    raise self.short(start, len(view))
                done += got
        except OSError as error:
            raise ReadFault(error.strerror or str(error), error.errno, path=self.name, command="open") from error

    def close(self) -> None:
        self.held = None

    def again(self) -> Tuple[Any, ...]:
        if not self.by_path:
            return super().again()
        return (os.path.abspath(self.name),)

    def token(self) -> Tuple[Any, ...]:
        return (str(self.name), *self.stat)


class BytesSource(Source):
    """Bytes in memory."""

    def __init__(self, data: Any) -> None:
        self.data: Any = memoryview(data).cast("B")
        self.length = len(self.data)

    def read(self, start: int, count: int) -> bytes:
        if self.data is None:
            raise ValueError("the bytes are closed")
        return bytes(self.data[start : start + count])

    def close(self) -> None:
        self.data = None

    def again(self) -> Tuple[Any, ...]:
        return (self.read(0, self.length),)


class ObjectSource(Source):
    """An open file that has `read` and `seek`: one thread at a time moves its position. It stays open."""

    gap = 1 << 14

    def __init__(self, file: Any) -> None:
        self.file, self.lock = file, threading.Lock()
        self.name = getattr(file, "name", None) if isinstance(getattr(file, "name", None), (str, bytes)) else None
        self.length = file.seek(0, os.SEEK_END)

    def read(self, start: int, count: int) -> bytes:
        with self.lock:
            self.file.seek(start)
            pieces, left = [], count
            while left:
                piece = self.file.read(left)
                if not piece:
                    raise self.short(start, count)
                pieces.append(bytes(piece))
                left -= len(piece)
        return b"".join(pieces)


class SystemSource(Source):
    """An object of a file system of fsspec, read by ranges. `options` open the file system again."""

    gap = front = 1 << 16
    far = True

    def __init__(self, system: Any, path: str, name: str, options: Any = None) -> None:
        self.system, self.path, self.name, self.options = system, path, name, options
        self.length = int(system.size(path))

    def read(self, start: int, count: int) -> bytes:
        return self.whole(start, count, self.asked(self.system.cat_file, self.path, start=start, end=start + count) if count else b"")

    def read_all(self, ranges: Sequence[Range]) -> List[bytes]:
        paths, starts, ends = [self.path] * len(ranges), [it[0] for it in ranges], [it[0] + it[1] for it in ranges]
        found = self.asked(self.system.cat_ranges, paths, starts, ends)
        return [self.whole(*asked, it) for asked, it in zip(ranges, found)]

    def asked(self, call: Any, *words: Any, **options: Any) -> Any:
        """What the file system answers."""
        try:
            return call(*words, **options)
        except FzError:
            raise
        except Exception as error:  # pylint: disable=broad-except
            raise ReadFault(f"{type(error).__name__}: {error}", getattr(error, "errno", None), path=self.name, command="open", advice="Try again, or fetch the file and open the copy.") from error

    def whole(self, start: int, count: int, found: bytes) -> bytes:
        """The bytes, if all are there."""
        if len(found) != count:
            raise self.short(start, count)
        return bytes(found)

    def again(self) -> Tuple[Any, ...]:
        return (OpenAgain(self.system, self.path, self.name),)

    def token(self) -> Tuple[Any, ...]:
        return (self.name, self.system.ukey(self.path))


class OpenAgain:
    """What opens an object of fsspec in another process: fsspec pickles its file systems."""

    def __init__(self, fs: Any, path: str, full_name: str) -> None:
        self.fs, self.path, self.full_name = fs, path, full_name

    @property
    def key(self) -> Tuple[Any, ...]:
        """What is the same if the object is."""
        return self.fs, self.path


def of_url(url: str, options: Any) -> Source:
    """The object at a URL, by fsspec."""
    try:
        from fsspec.core import url_to_fs  # type: ignore[import]  # pylint: disable=import-outside-toplevel
    except ImportError:
        raise ImportError(f"{url} needs fsspec, which is not installed: pip install fsspec, or fetch the file") from None
    try:
        system, path = url_to_fs(url, **(options or {}))
        return SystemSource(system, path, url)
    except ImportError:
        raise
    except Exception as error:  # pylint: disable=broad-except
        raise ReadFault(f"{type(error).__name__}: {error}", getattr(error, "errno", None), path=url, command="open") from error


def of_path(path: Any) -> Source:
    """The file with this name."""
    try:
        number = os.open(path, os.O_RDONLY | os.O_CLOEXEC)
    except OSError as error:
        raise ReadFault(error.strerror or str(error), error.errno, path=path, command="open") from error
    return FileSource(path, number, True)


def source_of(thing: Any, options: Any = None) -> Source:
    """The source of what `open` was given: a path, a URL, bytes, an open file, or a file of fsspec."""
    if isinstance(thing, (bytes, bytearray, memoryview)):
        return BytesSource(thing)
    if isinstance(thing, (str, os.PathLike)):
        text = os.fsdecode(thing)
        return of_url(text, options) if "://" in text and not os.path.exists(text) else of_path(thing)
    if hasattr(thing, "fs") and hasattr(thing, "path"):
        return SystemSource(thing.fs, thing.path, str(getattr(thing, "full_name", None) or thing.path))
    raw = getattr(thing, "raw", thing)
    if isinstance(raw, io.FileIO) and not isinstance(thing, io.TextIOBase):
        return FileSource(getattr(thing, "name", None), os.dup(thing.fileno()), False)
    if hasattr(thing, "seek") and hasattr(thing, "read") and not isinstance(thing, io.TextIOBase):
        return ObjectSource(thing)
    raise Usage(f"an object of {type(thing).__name__} is no path, no bytes and no file that is open for bytes")
