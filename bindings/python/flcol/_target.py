"""Files that are written so that each of their paths leads to what was there, or to what is to be there as a whole."""
from __future__ import annotations

import fcntl
import os
import secrets
import stat
from typing import Any


class Target:
    """A file that bytes are added to. Either ``finish`` or ``drop`` ends it, in the process that began it."""

    def __init__(self, descriptor: int, length: int) -> None:
        self._descriptor, self._process = descriptor, os.getpid()
        self.length = length

    def write(self, data: Any) -> None:
        """Adds bytes at the end."""
        rest = memoryview(data)
        while rest:
            done = os.pwrite(self._descriptor, rest, self.length)
            self.length += done
            rest = rest[done:]

    def sync(self) -> None:
        """Waits until the disk has what was written."""
        os.fsync(self._descriptor)

    def finish(self) -> None:
        """Lets the file be what was written."""
        self.sync()
        self._close()

    def drop(self) -> None:
        """Lets the file be what it was."""
        try:
            if self._process == os.getpid():
                self._undo()
        finally:
            self._close()

    def _undo(self) -> None:
        raise NotImplementedError

    def _close(self) -> None:
        descriptor, self._descriptor = self._descriptor, -1
        if descriptor >= 0:
            os.close(descriptor)


class New(Target):
    """A new file, which is beside its place until it is whole. What a link leads to is replaced, and not the link."""

    def __init__(self, path: Any) -> None:
        self._path = os.path.realpath(os.fsdecode(path))
        mode = _mode_of(self._path)
        self._beside = f"{self._path}.{secrets.token_hex(4)}.part"
        descriptor = os.open(self._beside, os.O_WRONLY | os.O_CREAT | os.O_EXCL | os.O_CLOEXEC, 0o666 if mode is None else 0o600)
        super().__init__(descriptor, 0)
        try:
            if mode is not None:
                os.fchmod(descriptor, mode)
        except BaseException:
            self.drop()
            raise

    def finish(self) -> None:
        super().finish()
        os.replace(self._beside, self._path)
        folder = os.open(os.path.dirname(self._path), os.O_RDONLY | os.O_DIRECTORY | os.O_CLOEXEC)
        try:
            os.fsync(folder)
        finally:
            os.close(folder)

    def _undo(self) -> None:
        try:
            os.unlink(self._beside)
        except FileNotFoundError:  # it was put in place before the error
            pass


class InPlace(Target):
    """A file that is there, which one target at a time adds to."""

    def __init__(self, path: Any) -> None:
        descriptor = os.open(path, os.O_RDWR | os.O_CLOEXEC)
        try:
            _mode_of(path)
            fcntl.flock(descriptor, fcntl.LOCK_EX | fcntl.LOCK_NB)
            length = os.fstat(descriptor).st_size
        except BaseException as error:
            os.close(descriptor)
            if isinstance(error, BlockingIOError):
                raise BlockingIOError(error.errno, "another writer adds to the file", os.fsdecode(path)) from None
            raise
        super().__init__(descriptor, length)
        self._was = length

    @property
    def descriptor(self) -> int:
        """The open file."""
        return self._descriptor

    def _undo(self) -> None:
        if self._descriptor >= 0 and os.fstat(self._descriptor).st_size != self._was:
            os.ftruncate(self._descriptor, self._was)
            self.sync()


def _mode_of(path: Any) -> Any:
    """Who may read and write the file at a path; None where there is none."""
    try:
        mode = os.stat(path).st_mode
    except FileNotFoundError:
        return None
    if not stat.S_ISREG(mode):
        raise OSError(f"{os.fsdecode(path)} is no file of a disk, and a file of chunks is one")
    return stat.S_IMODE(mode)
