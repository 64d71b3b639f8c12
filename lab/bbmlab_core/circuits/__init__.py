"""Circuits of conservative logic: their tables, their other forms, changes to them, and netlists."""
