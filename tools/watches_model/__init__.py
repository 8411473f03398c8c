"""A plain model of what a watch of a server tells: whether the messages of a session are the front
of one that a well-formed server may send of some history, or else which rule is broken, at which
frame.

It is written from docs/PROTOCOL.md and PostgreSQL's documentation, and shares no code with the
program.
"""
