"""Joining: bundles side by side on one plane, with paths between their ports, as one bundle.

A part runs as it does alone, some steps later and elsewhere: blocks change by themselves (Margolus 1984), so nothing
reaches it if no other ball enters a block in which one of its own balls moves, and no mirror is put where they pass.

The modules, from the lowest: `flight_claims` keeps which blocks balls claim, `lone_ways` finds what a join leaves out
of a part, `parts` reads bundles and finds their balls and what they take, `composing` makes the circuit, `turning`
mirrors and turns parts, `places` and `planning` choose places and times. `slack` keeps balls with time to spare inside
the parts, `modules` keeps the modules of the joined bundle, `wiring` leads all balls, `bundles` writes the text, and
`command` is `bbmlab join`.
"""
