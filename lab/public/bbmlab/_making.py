"""Certificates and layouts that the lab makes, by `certify` and `route` of `bbmlab_core`.

Only the program gives a verdict on them.
"""

from __future__ import annotations

from dataclasses import replace
from typing import Callable, Iterable

from bbmlab_core.certify.certifier import CertificateOptions, certified_text, checked_grid_boxes
from bbmlab_core.circuits.netlists import NetlistError, guessed_netlist_format, map_netlist
from bbmlab_core.circuits.row_check import first_missing_row_words
from bbmlab_core.host.terminal import LabError
from bbmlab_core.route.certificate import circuit_section
from bbmlab_core.route.command import require_all_keeps, require_legal_side
from bbmlab_core.route.search import RouterSearch, SearchOptions
from bbmlab_core.route.settings import RouterSettings
from bbmlab_core.texts.certificates import Stop
from bbmlab_core.texts.circuits import Circuit
from bbmlab_core.texts.documents import read_document
from bbmlab_core.texts.layouts import Box
from bbmlab_core.texts.limits import text_without_limits_line
from bbmlab_core.texts.sections import Bundle, section_text_with_limits
from bbmlab_core.texts.spelling import spell_text

from ._errors import NotFoundError, RefusedError
from ._reading import document_of, read

# The status of a LabError for wrong arguments.
WRONG_ARGUMENTS_STATUS = 2


def api_error(error: LabError) -> Exception:
    """Returns the error of the API for one of `bbmlab_core`."""
    return ValueError(str(error)) if error.status == WRONG_ARGUMENTS_STATUS else NotFoundError(str(error))


def stops_of_bundle(bundle: Bundle) -> list[Stop]:
    """Returns the stops of a bundle's certificate, if the bundle is not refused."""
    if bundle.certificate is None or read_document(str(bundle), "check").refusal:
        return []
    return sorted((stop for module in bundle.certificate.modules for stop in module.stops),
                  key=lambda stop: stop.order_key)


def certify(bundle: Bundle, *, grid: tuple[int, int] | None = None,
            boxes: Iterable[tuple[int, int, int, int]] | None = None, cuts: str = "auto", version: int = 2) -> Bundle:
    """Returns a circuit and a layout with a certificate that the lab makes. The program has not checked it.

    Raises RefusedError if circuit or layout are refused, ValueError for wrong arguments, and NotFoundError if no
    certificate is found.
    """
    if bundle.circuit is None or bundle.layout is None:
        raise ValueError("certify takes a circuit and a layout")
    if cuts not in ("auto", "safe") or version not in (1, 2):
        raise ValueError("cuts are auto or safe, and the version is 1 or 2")
    document = document_of(str(replace(bundle, certificate=None, on=None)), "design")
    assert document.layout is not None
    chosen = [Box(*box) for box in boxes] if boxes is not None else None
    try:
        if grid is not None:
            chosen = checked_grid_boxes(document.layout, *grid)
        text = certified_text(document, chosen, CertificateOptions(version, cuts, stops_of_bundle(bundle)))
    except LabError as error:
        raise api_error(error) from error
    try:
        return read(text)
    except RefusedError as refused:
        # Boxes that the caller gave need not fit: the lines of that text are not the caller's.
        raise ValueError(f"the boxes give no certificate: {refused.reason}") from refused


class SearchCancelled(KeyboardInterrupt):
    """Ends a search, as an interrupt does."""


def circuit_text(circuit: Circuit | str) -> str:
    """Returns the text of a circuit: also of a netlist, which is mapped, and of a text that begins with a circuit."""
    if isinstance(circuit, Circuit):
        return str(circuit)
    if guessed_netlist_format(circuit) is None:
        return circuit_section(spell_text(circuit).text)
    try:
        return map_netlist(circuit).text
    except NetlistError as error:
        raise ValueError(f"the netlist cannot be mapped: {error}") from error


def route(circuit: Circuit | str, *, seed: int = 1, size: int | None = None, effort: float = 60.0, jobs: int = 1,
          compact: bool = False, progress: Callable[[int, int, int, int], object] | None = None,
          cancel: Callable[[], bool] | None = None) -> Bundle:
    """Returns a circuit with a layout and a certificate, placed and routed by the lab. The program has not checked it.

    A `str` is a netlist, in BLIF or the JSON of yosys, or a text that begins with a circuit. While gates are placed,
    `progress` is called with the number of the attempt, its side, and how many gates of how many are placed, and a
    `cancel` that returns True ends the search.

    Raises RefusedError if the circuit is refused, ValueError for a wrong number or a netlist that cannot be mapped, and
    NotFoundError if the circuit has no values under some inputs, if no route is found in `effort` seconds, or if the
    search was cancelled.
    """
    if min(seed, jobs) < 1 or effort <= 0:
        raise ValueError("seed and jobs are from 1, and effort is more than 0 seconds")
    given = circuit_text(circuit)
    model = document_of(section_text_with_limits(circuit) if isinstance(circuit, Circuit) else given, "circuit").circuit
    text = text_without_limits_line(given)
    assert model is not None
    try:
        require_legal_side(size)
        why = first_missing_row_words(model)
        if why:
            raise NotFoundError(why)
        require_all_keeps("the circuit", model)
    except LabError as error:
        raise ValueError(str(error).removeprefix("--")) if error.status == WRONG_ARGUMENTS_STATUS else api_error(
            error) from error
    is_cancelled = False

    def tell_progress_or_cancel(attempt: int, side: int, placed: int, total: int) -> None:
        """Hands on how far the search is, and ends it if it is cancelled."""
        nonlocal is_cancelled
        if progress:
            progress(attempt, side, placed, total)
        if cancel and cancel():
            is_cancelled = True
            raise SearchCancelled

    outcome = RouterSearch(model, text, SearchOptions(seed, size, effort, jobs, compact), RouterSettings(),
                           tell_progress_or_cancel).run()
    if is_cancelled and outcome.routed is None:
        raise NotFoundError(f"the search was cancelled: {outcome.placed} of {outcome.total} gates were placed at most")
    if outcome.is_interrupted and not is_cancelled:
        raise KeyboardInterrupt
    if outcome.routed is None:
        raise NotFoundError(outcome.reason or "the time was over before the first attempt ended")
    return read(outcome.routed.text)
