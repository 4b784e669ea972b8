"""The C library by `ctypes`: its calls with their types, and its refusals. `clients/c/rudzkvano.h` says what each call does."""

from __future__ import annotations

import ctypes
import os
from array import array
from collections.abc import Callable, Mapping, Sequence
from ctypes import c_size_t, c_uint32, c_void_p
from itertools import accumulate
from pathlib import Path
from struct import pack
from typing import Any, NewType

from .loaders import Order
from .native import NATIVE

# The version of clients/c/rudzkvano.h that this package calls: 65536 * major + 256 * minor + patch.
HEADER_VERSION = 131328
BAD_SCHEMA = -4
BUSY = -7
NO_COLUMN, NO_KEY_COLUMN, NOT_ASKED = -18, -20, -21
KEY_FAULT = 0xFFFFFFFF
BATCH_FAULT = 0xFFFFFFFE
SAME_COLUMNS = 0xFFFFFFFF

# how large the numbers are that are made into arguments only once
_MADE_ONCE = 4096

# What a call of the library is passed. No plain number is one, since `ctypes` takes it for an `int` of C: SIZES and COUNTS have the arguments.
Argument = NewType("Argument", object)


class _Numbers(dict[int, Argument]):
    """Numbers as arguments of a type of C."""

    def __init__(self, kind: type[c_size_t] | type[c_uint32]) -> None:
        super().__init__()
        self._kind = kind

    def __missing__(self, number: int) -> Argument:
        argument = Argument(self._kind.from_param(number))
        if number < _MADE_ONCE:
            self[number] = argument
        return argument


SIZES, COUNTS = _Numbers(c_size_t), _Numbers(c_uint32)


class RudzkvanoError(Exception):
    """What this package refuses."""


class Refused(RudzkvanoError):
    """A call of the library was refused, by this code."""

    def __init__(self, code: int, name: str, text: str) -> None:
        super().__init__(f"{name}: {text}")
        self.code, self.name, self.text = code, name, text


class WrongLibrary(RudzkvanoError):
    """A shared object is no library of Rudzkvano, or one of a version that doesn't go with this package."""


class SchemaFault(Refused):
    """A schema or its bindings are refused: by the fault S`number`, at this line and column, which are 0 where it has none. `reason` says in words
    what is wrong."""

    def __init__(self, refused: Refused, number: int, line: int, column: int, in_bindings: bool, reason: str) -> None:
        super().__init__(refused.code, refused.name, refused.text)
        self.args = (f"S{number} at {'bindings' if in_bindings else 'schema'}:{line}:{column}: {reason}",)
        self.number, self.line, self.column, self.in_bindings, self.reason = number, line, column, in_bindings, reason


class LoadFault(RudzkvanoError):
    """A key that was loaded has no rows, for this reason; `of_batch` says that its whole batch failed. `extensions` are those of a PublicError."""

    def __init__(self, text: str, of_batch: bool, extensions: Mapping[str, Any] | None = None) -> None:
        super().__init__(text)
        self.text, self.of_batch, self.extensions = text, of_batch, extensions


class Library:
    """The C library, as a shared object: at `path`, else where the variable RUDZKVANO_LIBRARY of the environment says, else beside this package,
    else where the repository builds it."""

    def __init__(self, path: str | os.PathLike[str] | None = None) -> None:
        found = os.fspath(path or _default_path())
        self.calls = ctypes.CDLL(found)
        if not hasattr(self.calls, "rz_version"):
            raise WrongLibrary(f"{found} is no library of Rudzkvano")
        self.calls.rz_version.restype = c_uint32
        _check_version(found, self.calls.rz_version())
        self.calls.rz_close.restype = None
        for name in ("rz_code_name", "rz_code_text", "rz_fault_text"):
            getattr(self.calls, name).restype = c_size_t
        # what makes handles by the extension
        self.native: Any = NATIVE and NATIVE.Library(self._address_of, Refused, Order)

    def version(self) -> tuple[int, int, int]:
        return _parts(self.calls.rz_version())

    def _address_of(self, name: str) -> int | None:
        return ctypes.cast(getattr(self.calls, name), c_void_p).value

    def call(self, call: Callable[..., int], address: int, *arguments: Argument | bytes) -> int:
        """Calls the library with the handle at this address."""
        code = call(c_void_p.from_param(address), *arguments)
        if code < 0:
            raise self.refused(code)
        return code

    def refused(self, code: int) -> Refused:
        """The error of a code."""
        return Refused(code, self._words_by("rz_code_name", code), self._words_by("rz_code_text", code))

    def fault_text(self, fault: object, texts: Sequence[object]) -> str:
        """What a fault of a schema or its bindings says, of the same texts, each with its length."""
        return self._words_by("rz_fault_text", fault, *texts)

    def _words_by(self, name: str, *arguments: object) -> str:
        call = getattr(self.calls, name)
        text = ctypes.create_string_buffer(call(*arguments, None, SIZES[0]))
        length = call(*arguments, text, SIZES[len(text)])
        return text.raw[:length].decode()


def _check_version(path: str, version: int) -> None:
    """A library goes with the header if it has the same major number, and the same rest or a larger one."""
    wanted, found = _parts(HEADER_VERSION), _parts(version)
    if found[0] != wanted[0] or found < wanted:
        told, needed = (".".join(map(str, parts)) for parts in (found, wanted))
        raise WrongLibrary(f"{path} is version {told} of the library, and this package needs {needed} or a later {wanted[0]}.x")


def _parts(version: int) -> tuple[int, int, int]:
    return version >> 16, version >> 8 & 0xFF, version & 0xFF


def _default_path() -> str | Path:
    given = os.environ.get("RUDZKVANO_LIBRARY")
    if given:
        return given
    name, package = "librudzkvano_c.so", Path(__file__).resolve().parent
    places = [package / name, *(folder / "crates/rudzkvano_c/out" / name for folder in package.parents)]
    for place in places:
        if place.is_file():
            return place
    raise FileNotFoundError(f"no {name}: give its path as the argument library or in the environment as RUDZKVANO_LIBRARY")


def words(count: int) -> array[int]:
    return array("I", bytes(4 * count))


def pointer_to(elements: array[Any], start: int = 0) -> Argument:
    """The argument for a buffer, from this place on. Whoever calls this keeps the buffer until the call has returned."""
    return Argument(c_void_p.from_param(elements.buffer_info()[0] + elements.itemsize * start))


def buffers(*arrays: array[int]) -> list[Argument]:
    """The arguments for buffers with their lengths."""
    return [argument for elements in arrays for argument in (pointer_to(elements), SIZES[len(elements)])]


def packed(numbers: Sequence[int]) -> bytes:
    """Numbers as words."""
    return pack(f"{len(numbers)}I", *numbers)


def words_of(numbers: Sequence[int]) -> tuple[bytes, Argument]:
    """The arguments for words that are read."""
    return packed(numbers), SIZES[len(numbers)]


def texts_of(ends: bytes, data: bytes) -> tuple[bytes, Argument, bytes, Argument]:
    """The arguments for texts that are read."""
    return ends, SIZES[len(ends) // 4], data, SIZES[len(data)]


def flat(texts: list[str]) -> tuple[bytes, bytes]:
    """The words that say where each text ends, and their bytes."""
    whole = "".join(texts)
    data = whole.encode()
    lengths = map(len, texts) if len(data) == len(whole) else map(len, map(str.encode, texts))
    return packed(list(accumulate(lengths))), data


def numbers_of(ends: bytes) -> list[int]:
    """The numbers that words say."""
    return array("I", ends).tolist()


def cut(ends: list[int], data: bytes) -> list[str]:
    """The texts of such ends and bytes."""
    if len(ends) == 1:
        return [data.decode()]
    if data.isascii():
        whole = data.decode()
        return [whole[start:end] for start, end in zip([0, *ends], ends)]
    return [data[start:end].decode() for start, end in zip([0, *ends], ends)]
