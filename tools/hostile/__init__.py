"""A server that lies: what becomes of the connector, in each mode, where an answer is another one
than PostgreSQL's."""
