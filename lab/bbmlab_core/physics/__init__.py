"""Runs of layouts and modules by the block rule, under all assignments at once."""
