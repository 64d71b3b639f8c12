"""Texts: the sections and their readers, writers, refusals and reports."""
