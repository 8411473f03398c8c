"""A plain model of logical replication: random histories of a server, the sessions that it may
send, and what they lead to.

It is written from the PostgreSQL documentation and docs/PROTOCOL.md, and shares no code with the
subscriber.
"""
