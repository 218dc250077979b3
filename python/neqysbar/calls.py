"""The program over bytes, by the shared library."""

from __future__ import annotations

import ctypes
import functools
import os
import pathlib
import platform
from typing import Any, NamedTuple, Optional, Sequence, Union

HERE = pathlib.Path(__file__).resolve().parent
NAME = "libneqysbar.so"
PathLike = Union[str, "os.PathLike[str]"]


def places() -> tuple[pathlib.Path, pathlib.Path]:
    """Where the library stands in a wheel, beside this module, and in the repository, in what release/ has for this machine."""
    release = HERE.parent.parent / "release"
    if platform.machine() == "aarch64":
        release /= "aarch64"
    return HERE / NAME, release / NAME


def library_path(path: Optional[PathLike] = None) -> str:
    """The library's file: `path`, or what NEQYSBAR_LIBRARY names, or the one of the wheel or of release/.

    If it isn't there this is an OSError that names the places.
    """
    named = path or os.environ.get("NEQYSBAR_LIBRARY")
    tried = (pathlib.Path(named),) if named else places()
    for place in tried:
        if place.is_file():
            return str(place.resolve())
    looked = " or ".join(str(place) for place in tried)
    raise OSError(f"there is no {looked}; NEQYSBAR_LIBRARY may name the library")


class Answer(ctypes.Structure):
    """What the library's call with a message returns: the status, and how long both texts are."""

    _fields_ = [("status", ctypes.c_uint8), ("output", ctypes.c_size_t), ("message", ctypes.c_size_t)]


class Told(NamedTuple):
    """What the program says: its status, what it writes to standard output, and its message to standard error."""

    status: int
    output: bytes
    message: str


class NotDone(Exception):
    """The program didn't do what was asked. The text is its message; `told` has all that it said."""

    def __init__(self, told: Told) -> None:
        super().__init__(told.message.strip() or f"status {told.status}")
        self.told = told


@functools.lru_cache(maxsize=None)
def opened(path: str) -> Any:
    """The library in this file, with the types of its functions."""
    opened_one = ctypes.CDLL(path)
    texts = [ctypes.c_char_p, ctypes.c_size_t, ctypes.c_char_p, ctypes.c_size_t, ctypes.c_void_p, ctypes.c_size_t]
    opened_one.neqysbar_run.restype = ctypes.c_uint8
    opened_one.neqysbar_run.argtypes = [*texts, ctypes.POINTER(ctypes.c_size_t)]
    opened_one.neqysbar_run_with_message.restype = Answer
    opened_one.neqysbar_run_with_message.argtypes = [*texts, ctypes.c_void_p, ctypes.c_size_t]
    return opened_one


def library(path: Optional[PathLike] = None) -> Any:
    """The library's function `neqysbar_run`, loaded once from each file."""
    return opened(library_path(path)).neqysbar_run


def line_of(words: Sequence[Union[str, bytes]], data: Any) -> bytes:
    """The words in one text; what `run` says of them and of the data is wrong otherwise."""
    if isinstance(words, (str, bytes)):
        raise TypeError(f"words is a list of words, as {words.split()!r}, not the text {words!r}")
    if not isinstance(data, (bytes, bytearray, memoryview)):
        raise TypeError(f"data are bytes, not {type(data).__name__}")
    texts = [word if isinstance(word, bytes) else word.encode() for word in words]
    if any(b"\0" in text for text in texts):
        raise ValueError("a word has a zero byte")
    return b"".join(text + b"\0" for text in texts)


def run(words: Sequence[Union[str, bytes]], data: Any = b"", path: Optional[PathLike] = None) -> tuple[int, bytes]:
    """Runs a command over bytes, and returns its status and the bytes that it writes.

    `words` are the words of the command line without the program's name, as `["serial"]` or
    `["study", "--process", "A", "--frames", "8"]`. `data` are the bytes that the program would read.
    `path` is the library, if it isn't where this module looks. `replay` isn't in the library: its status
    is 1.

    The status is 0 to 8, and none of 3, 4 and 6. With status 7 memory ran out. A text in place of the
    list of words, or in place of bytes, is a TypeError; a word with a zero byte is a ValueError; a
    library that isn't there is an OSError.
    """
    line = line_of(words, data)
    call = library(path)
    data = bytes(data)
    number = ctypes.c_size_t(0)
    room = 16 * len(data) + 65536
    while True:
        output = (ctypes.c_char * room)()
        status = call(line, len(line), data, len(data), output, room, ctypes.byref(number))
        if number.value <= room:
            return status, ctypes.string_at(output, number.value)
        room = number.value


def run_with_message(words: Sequence[Union[str, bytes]], data: Any = b"", path: Optional[PathLike] = None) -> Told:
    """As `run`, and answers besides the message that the program writes to standard error, which is empty if there is none."""
    line = line_of(words, data)
    call = opened(library_path(path)).neqysbar_run_with_message
    data = bytes(data)
    room, message_room = 16 * len(data) + 65536, 8192
    while True:
        output, message = (ctypes.c_char * room)(), (ctypes.c_char * message_room)()
        told = call(line, len(line), data, len(data), output, room, message, message_room)
        if told.output <= room and told.message <= message_room:
            text = ctypes.string_at(message, told.message).decode("utf-8", "replace")
            return Told(told.status, ctypes.string_at(output, told.output), text)
        room, message_room = max(room, told.output), max(message_room, told.message)


def output_of(words: Sequence[Union[str, bytes]], data: Any = b"", path: Optional[PathLike] = None) -> bytes:
    """What a command writes, if it did what was asked: with status 0, or 5 with pages left dirty. Else `NotDone`."""
    told = run_with_message(words, data, path)
    if told.status not in (0, 5):
        raise NotDone(told)
    return told.output
