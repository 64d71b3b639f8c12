"""Checking many texts by the program, here or by a cluster, and receipts of its answers."""
