"""Runs `bbmlab route`."""

from ..route.command import route_command as run

__all__ = ["run"]
