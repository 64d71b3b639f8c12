"""From a text to its sections, by the readers of `bbmlab_core`."""

from __future__ import annotations

import errno

from bbmlab_core.texts.documents import Document, read_document
from bbmlab_core.texts.limits import limits_of_text
from bbmlab_core.texts.refusals import explain_refusal
from bbmlab_core.texts.sections import Bundle, bundle_of_document

from ._errors import RefusedError


def text_as_byte_characters(text: str | Bundle) -> str:
    """Returns a text with one character for each byte of its UTF-8.

    Raises OSError if it is longer than the program reads, and TypeError for other values, such as bytes.
    """
    if isinstance(text, Bundle):
        text = str(text)
    if not isinstance(text, str):
        raise TypeError(f"a text is a str or a Bundle, and not {type(text).__name__}")
    data = text if text.isascii() else text.encode("utf-8", "surrogatepass").decode("latin-1")
    most = limits_of_text(data).max_bytes
    if len(data) > most:
        raise OSError(errno.EFBIG, f"a text of {len(data)} bytes is longer than {most}")
    return data


def document_of(text: str, command: str | None = None) -> Document:
    """Returns what the lab's reader makes of a text. Raises RefusedError if it refuses it."""
    document = read_document(text_as_byte_characters(text), command)
    if document.refusal:
        refusal = document.refusal
        raise RefusedError(refusal.line, refusal.code, " ".join(explain_refusal(document, refusal).what))
    return document


def read(text: str) -> Bundle:
    """Reads a text with the sections of some command of the program, or with a circuit and a layout.

    Raises RefusedError if the lab's reader refuses it, and OSError if it is longer than the program reads.
    """
    return bundle_of_document(document_of(text))
