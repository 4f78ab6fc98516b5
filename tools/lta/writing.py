"""What commands write: standard output, and files. Files are written whole or not at all, and several together or none
of them. An existing file is replaced only with --force.
"""

from __future__ import annotations

import contextlib
import errno
import os
import secrets
import stat
import sys
from collections.abc import Iterable, Iterator, Sequence
from dataclasses import dataclass

from .inputs import why_not
from .reading import CHUNK

STANDARD_OUTPUT = "-"


class WriteError(Exception):
    """Something cannot be written: one line that names it and says why."""


@dataclass(frozen=True)
class Output:
    """A file to be written, - being standard output, and its bytes."""

    path: str
    data: bytes


def cannot_be_written(path: str, fault: Exception) -> WriteError:
    if isinstance(fault, FileExistsError):
        return WriteError(f"{path}: already exists; use --force to overwrite")
    return WriteError(f"{path or repr('')}: it cannot be written: {why_not(fault)}")


# The answer of a command.


class Answer:
    """Where a command's answer goes: to standard output as it comes, or whole to the file that -o names. With --quiet
    what no option asks for is left out. Other files go with it: all are written, or none.
    """

    def __init__(self, path: str | None = None, force: bool = False, wanted: bool = True) -> None:
        self.path = None if path == STANDARD_OUTPUT else path
        self.force, self.wanted = force, wanted
        self.texts: list[str] = []
        self.others: list[Output] = []

    def put(self, text: str) -> None:
        if self.path is not None:
            self.texts.append(text)
        elif self.wanted:
            if sys.stdout is None:
                raise WriteError("standard output is closed")
            sys.stdout.write(text)

    @property
    def files(self) -> list[str]:
        """The files that are written."""
        return [*([] if self.path is None else [self.path]), *(output.path for output in self.others)]

    def write(self) -> None:
        """Writes all files."""
        outputs = list(self.others)
        if self.path is not None:
            outputs.insert(0, Output(self.path, "".join(self.texts).encode(errors="backslashreplace")))
        if outputs:
            write_outputs(outputs, self.force)


_answer = Answer()


@contextlib.contextmanager
def answering(answer: Answer) -> Iterator[None]:
    """While a command runs, put goes to its answer. Where the command fails, no file is written."""
    global _answer  # pylint: disable=global-statement
    before, _answer = _answer, answer
    try:
        yield
        answer.write()
    finally:
        _answer = before


def put(text: str) -> None:
    """Gives a text as the command's answer."""
    _answer.put(text)


def put_now(text: str) -> None:
    """The same, and flushes, so that a reader gets it without delay."""
    _answer.put(text)
    if sys.stdout is not None:
        sys.stdout.flush()


def goes_to_terminal() -> bool:
    """Whether the answer goes to a terminal. Where it comes there piece by piece it shows the progress itself, and no
    count of hours is put between.
    """
    return _answer.path is None and _answer.wanted and sys.stdout is not None and sys.stdout.isatty()


def put_file(path: str, data: bytes) -> None:
    """Adds a file that is written together with the answer."""
    _answer.others.append(Output(path, data))


# Standard output.


def put_bytes(data: bytes) -> None:
    """Prints bytes, so that a fault is met here and not when the process ends."""
    if sys.stdout is None:
        raise WriteError("standard output is closed")
    sys.stdout.flush()
    sys.stdout.buffer.write(data)
    sys.stdout.flush()


# Before anything is written.


def is_same_file(one: str, other: str) -> bool:
    """Whether two names are of one file: by their folders and links, or because both exist and are the same."""
    if os.path.realpath(one) == os.path.realpath(other):
        return True
    try:
        return os.path.samefile(one, other)
    except OSError:
        return False


def refuse_outputs(paths: Iterable[str], force: bool) -> None:
    """Refuses two outputs that are the same file, and without --force an output that exists."""
    files = [path for path in paths if path != STANDARD_OUTPUT]
    for place, path in enumerate(files):
        if not os.path.basename(path):
            number = errno.EISDIR if path else errno.ENOENT
            raise cannot_be_written(path, OSError(number, os.strerror(number)))
        try:
            twin = next((other for other in files[:place] if is_same_file(path, other)), None)
            exists = os.path.lexists(path)
        except (OSError, ValueError) as fault:
            raise cannot_be_written(path, fault) from None
        if twin is not None:
            raise WriteError(f"{path}: named for two outputs{'' if path == twin else f'; {twin} is the same file'}")
        if exists and not force:
            raise cannot_be_written(path, FileExistsError())


# Files.


class PendingFile:
    """A file on its way: written and synced under a hidden name in its own folder, then renamed. Until all are renamed,
    what stood in its place can be put back.
    """

    def __init__(self, path: str) -> None:
        # The file that a link names is written, and the link stays.
        self.path, self.target = path, os.path.realpath(path)
        self.folder = os.path.dirname(self.target)
        self.made: str | None = None
        self.spare: str | None = None
        self.renamed = False

    def write(self, data: bytes) -> None:
        """Writes the new bytes next to the target, and keeps an existing file under a hidden name too."""
        mode = None
        with contextlib.suppress(FileNotFoundError):
            mode = stat.S_IMODE(os.stat(self.target).st_mode)
        self.made = self.write_hidden([data], mode)
        if mode is not None:
            self.spare = self.kept(mode)

    def hidden_name(self) -> str:
        return os.path.join(self.folder, f".lta-{secrets.token_hex(8)}")

    def kept(self, mode: int) -> str:
        """A second name of the existing file. Where the file system has no links it is a copy, made in parts: the file
        may be larger than the memory.
        """
        hidden = self.hidden_name()
        try:
            os.link(self.target, hidden)
            return hidden
        except OSError:
            with open(self.target, "rb") as file:
                return self.write_hidden(iter(lambda: file.read(CHUNK), b""), mode)

    def write_hidden(self, parts: Iterable[bytes], mode: int | None) -> str:
        hidden = self.hidden_name()
        try:
            # Not mkstemp: a new file has the mode that the umask gives.
            with open(hidden, "xb") as file:
                if mode is not None:
                    os.chmod(hidden, mode)
                file.writelines(parts)
                file.flush()
                os.fsync(file.fileno())
        except BaseException:
            with contextlib.suppress(OSError):
                os.unlink(hidden)
            raise
        return hidden

    def rename(self, force: bool) -> None:
        assert self.made is not None
        if force:
            os.replace(self.made, self.target)
        else:
            rename_to_free(self.made, self.target)
        self.made, self.renamed = None, True
        sync_folder(self.folder)

    def undo(self) -> None:
        """Leaves the folder as it was."""
        if self.renamed and self.spare is not None:
            os.replace(self.spare, self.target)
            self.spare = None
        elif self.renamed:
            os.unlink(self.target)
        self.renamed = False

    def clear(self) -> None:
        """Removes what is left under hidden names."""
        for hidden in (self.made, self.spare):
            if hidden is not None:
                with contextlib.suppress(OSError):
                    os.unlink(hidden)


def rename_to_free(made: str, target: str) -> None:
    """Renames a file to a name that must be free. No call of Python's does that: a link takes the name, or where the
    file system has no links an empty file.
    """
    try:
        os.link(made, target)
    except FileExistsError:
        raise
    except OSError:
        with open(target, "xb"):
            pass
        try:
            os.replace(made, target)
        except BaseException:
            os.unlink(target)
            raise
    else:
        os.unlink(made)


def sync_folder(folder: str) -> None:
    """Makes a rename last. A file system that cannot sync a folder does without."""
    handle = os.open(folder, os.O_RDONLY | os.O_DIRECTORY)
    try:
        os.fsync(handle)
    except OSError as fault:
        if fault.errno not in (errno.EINVAL, errno.ENOTSUP):
            raise
    finally:
        os.close(handle)


def is_stream(path: str) -> bool:
    """Whether an output is written to and not replaced: standard output, a device, a pipe. A folder is neither."""
    if path == STANDARD_OUTPUT:
        return True
    with contextlib.suppress(FileNotFoundError):
        mode = os.stat(path).st_mode
        if stat.S_ISDIR(mode):
            raise IsADirectoryError(errno.EISDIR, os.strerror(errno.EISDIR))
        return not stat.S_ISREG(mode)
    return False


def write_stream(output: Output) -> None:
    if output.path == STANDARD_OUTPUT:
        put_bytes(output.data)
    else:
        with open(output.path, "wb") as file:
            file.write(output.data)


def undo_all(pending: Sequence[PendingFile]) -> None:
    """Undoes all renames; one that cannot be undone is said, with the place of the old file."""
    for file in pending:
        try:
            file.undo()
        except OSError as fault:
            kept = f"; its old bytes are in {file.spare}" if file.spare else ""
            file.spare = None
            raise WriteError(f"{file.path}: it cannot be undone: {why_not(fault)}{kept}") from None


def write_outputs(outputs: Sequence[Output], force: bool) -> None:
    """Writes all outputs or, where one fails, none: first every file under a hidden name, then what goes to a stream,
    and last the renames.
    """
    refuse_outputs([output.path for output in outputs], force)
    pending: list[PendingFile] = []
    path = ""
    try:
        streams = []
        for output in outputs:
            path = output.path
            if is_stream(path):
                streams.append(output)
                continue
            pending.append(PendingFile(path))
            pending[-1].write(output.data)
        for output in streams:
            path = output.path
            write_stream(output)
        for file in pending:
            path = file.path
            file.rename(force)
    except BaseException as fault:
        undo_all(pending)
        if isinstance(fault, (OSError, ValueError)) and not isinstance(fault, BrokenPipeError):
            raise cannot_be_written(path, fault) from None
        raise
    finally:
        for file in pending:
            file.clear()


def write_output(path: str, data: bytes, force: bool) -> None:
    """Writes one output."""
    write_outputs([Output(path, data)], force)
