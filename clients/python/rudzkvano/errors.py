"""What callers are told of errors: which message, with which extensions."""

from __future__ import annotations

import json
import logging
import secrets
from collections.abc import Callable, Mapping
from typing import Any, TypeAlias, Union

from .loaders import Keys

# what callers are told of an error that isn't meant for them
HIDDEN = "internal error"


class PublicError(Exception):
    """An error whose message is meant for callers. `extensions` become those of the error in the response."""

    def __init__(self, message: str, extensions: Mapping[str, Any] | None = None) -> None:
        super().__init__(message)
        self.message, self.extensions = message, extensions


# Gets an error, the name of the loader and the keys of the batch, or the key that has the error. Returns what callers are told: a message, a
# PublicError, or None. None is the message of a PublicError, and a fixed text for any other error.
OnError: TypeAlias = Callable[[Exception, str, Keys], Union[str, PublicError, None]]

_LOGGER = logging.getLogger("rudzkvano")
# Parts a message from its extensions on the way through the library. No other text has it.
_MARK = secrets.token_hex(16)


def log_error(error: Exception, loader: str, keys: Keys) -> None:
    """An `on_error` that logs the error, unless it is meant for callers."""
    if not isinstance(error, PublicError):
        _LOGGER.error("loader %s failed", loader, exc_info=error)


def message_of(error: BaseException) -> str:
    """The message of an error, or else the name of its class; without what UTF-8 can't hold."""
    return _in_utf8(str(error) or type(error).__name__)


def fault_text(error: Exception, loader: str, keys: Keys, on_error: OnError | None) -> str:
    """What callers are told of an error, as the library takes it: a message, and its extensions behind a mark."""
    told = _told(error, loader, keys, on_error)
    if isinstance(told, str):
        return _in_utf8(told)
    extensions = f"{_MARK}{json.dumps(told.extensions, allow_nan=False)}" if told.extensions else ""
    return message_of(told) + extensions


def _told(error: Exception, loader: str, keys: Keys, on_error: OnError | None) -> str | PublicError:
    told = on_error(error, loader, keys) if on_error else None
    if told is not None:
        return told
    if isinstance(error, PublicError):
        return error
    return HIDDEN if on_error else message_of(error)


def _in_utf8(text: str) -> str:
    return text.encode(errors="replace").decode()


def parted(text: str) -> tuple[str, dict[str, Any] | None]:
    """The message and the extensions of such a text."""
    message, mark, extensions = text.partition(_MARK)
    return message, json.loads(extensions) if mark else None


def has_extensions(text: str) -> bool:
    """Whether there are extensions in this text, of one fault or of an answer."""
    return _MARK in text


def edit_errors(answer: str, edit: Callable[[dict[str, Any]], None]) -> str:
    """The text of a response, or of a list of these, with its errors edited. All else stays as it is."""
    if not answer.startswith("["):
        return _edited(answer, edit)
    responses, place = [], 1
    while place < len(answer):
        _, end = _DECODER.raw_decode(answer, place)
        responses.append(_edited(answer[place:end], edit))
        place = end + 1
    return f"[{','.join(responses)}]"


_DECODER = json.JSONDecoder()
_ERRORS = '{"errors":'


def _edited(response: str, edit: Callable[[dict[str, Any]], None]) -> str:
    if not response.startswith(_ERRORS):
        return response
    errors, end = _DECODER.raw_decode(response, len(_ERRORS))
    for error in errors:
        edit(error)
    return _ERRORS + json.dumps(errors, ensure_ascii=False, separators=(",", ":"), allow_nan=False) + response[end:]
