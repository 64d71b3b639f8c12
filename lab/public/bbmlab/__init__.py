"""The public Python API of the lab. `docs/API.md` describes each name; a name that is not there is private.

Importing this package reads almost nothing: each name is loaded when it is first used.
"""

from __future__ import annotations

from bbmlab_core import VERSION as __version__

# Only for the types: nothing of it is imported when the package is.
TYPE_CHECKING = False
if TYPE_CHECKING:
    from bbmlab_core.texts.certificates import Border, Certificate, Module, Stop
    from bbmlab_core.texts.circuits import Circuit, Gate
    from bbmlab_core.texts.layouts import Box, Layout, Port
    from bbmlab_core.texts.sections import Bundle

    from ._asking import Explanation, Finding, Report, check, explain
    from ._circuits import (Comparison, Netlist, Row, clean, equivalent, inverse, read_netlist, simplify, stats, table,
                            to_conservative)
    from ._errors import NotFoundError, ProgramError, RefusedError
    from ._making import certify, route
    from ._reading import read
    from ._running import State, local_run, simulate

__all__ = [
    "Border", "Box", "Bundle", "Certificate", "Circuit", "Comparison", "Explanation", "Finding", "Gate", "Layout",
    "Module", "Netlist", "NotFoundError", "Port", "ProgramError", "RefusedError", "Report", "Row", "State", "Stop",
    "__version__", "certify", "check", "clean", "equivalent", "explain", "inverse", "local_run", "read", "read_netlist",
    "route", "simplify", "simulate", "stats", "table", "to_conservative",
]

# The module of each name, in this package or of the lab.
_NAMES_BY_MODULE = {
    "_asking": ("Explanation", "Finding", "Report", "check", "explain"),
    "_circuits": ("Comparison", "Netlist", "Row", "clean", "equivalent", "inverse", "read_netlist", "simplify", "stats",
                  "table", "to_conservative"),
    "_errors": ("NotFoundError", "ProgramError", "RefusedError"),
    "_making": ("certify", "route"),
    "_reading": ("read",),
    "_running": ("State", "local_run", "simulate"),
    "bbmlab_core.texts.certificates": ("Border", "Certificate", "Module", "Stop"),
    "bbmlab_core.texts.circuits": ("Circuit", "Gate"),
    "bbmlab_core.texts.layouts": ("Box", "Layout", "Port"),
    "bbmlab_core.texts.sections": ("Bundle",),
}

# A type checker takes the imports above, so that it finds misspelt names.
if not TYPE_CHECKING:
    def __getattr__(name: str) -> object:
        """Returns a public name, whose module is imported now."""
        home = next((home for home, names in _NAMES_BY_MODULE.items() if name in names), None)
        if home is None:
            raise AttributeError(f"module {__name__!r} has no attribute {name!r}")
        import importlib
        value = getattr(importlib.import_module(home if "." in home else f".{home}", __name__), name)
        globals()[name] = value
        return value

    def __dir__() -> list[str]:
        """Returns the public names."""
        return sorted(__all__)
