"""`bbmlab join`: bundles side by side on one plane, with balls led between their ports."""

from ..joining.command import join_command as run

__all__ = ["run"]
