"""Stores of a source's record, which outlives the process."""
from __future__ import annotations

import os
from pathlib import Path
from typing import Protocol

EMPTY = bytes(4)


class StoreFailed(Exception):
    """A write failed. `after` says whether the record may be stored nevertheless."""

    def __init__(self, why: object, after: bool = False):
        super().__init__(str(why))
        self.after = after


class Store(Protocol):
    """What a source asks of a store. A write that returns is on the medium; one that failed raises StoreFailed."""

    def read(self) -> bytes: ...

    def write(self, record: bytes) -> None: ...


class MemoryStore:
    """A store for tests, which outlives no process."""

    def __init__(self, record: bytes = EMPTY):
        self.record = record

    def read(self) -> bytes:
        return self.record

    def write(self, record: bytes) -> None:
        self.record = record


class FileStore:
    """A file. A record is written beside it, synced, and renamed over it; then the folder is synced. So a crash leaves the old record or the
    new one, whole.

    >>> import tempfile
    >>> with tempfile.TemporaryDirectory() as folder:
    ...     store = FileStore(folder + "/record")
    ...     store.write(bytes(12))
    ...     len(store.read())
    12
    """

    def __init__(self, path: str | os.PathLike[str]):
        self.path = Path(path)

    def read(self) -> bytes:
        try:
            return self.path.read_bytes()
        except FileNotFoundError:
            return EMPTY

    def write(self, record: bytes) -> None:
        beside = self.path.with_name(self.path.name + ".new")
        try:
            with open(beside, "wb", buffering=0) as file:
                if file.write(record) != len(record):
                    raise StoreFailed(f"{beside} has no room")
                os.fsync(file.fileno())
            os.replace(beside, self.path)
        except OSError as error:
            raise StoreFailed(error) from error
        try:
            folder = os.open(self.path.parent, os.O_RDONLY | os.O_DIRECTORY)
            try:
                os.fsync(folder)
            finally:
                os.close(folder)
        except OSError as error:
            raise StoreFailed(error, after=True) from error
