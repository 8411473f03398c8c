"""Follows a PostgreSQL server: carries the change stream of a slot to `pgsub follow`, and the
program's statuses back.

| What | Package |
|---|---|
| the server: connections, catalog, publications, slots | `server` |
| the files of a store, copies and exports for readers | `store` |
| how it goes | `status` |
| what a server has to have | `preconditions` |
| what was found out of one thing | `judged` |
| recordings | `record` |
| what may make the copy wrong | `drift` |
| the first rows | `copy` |
| one table within the stream | `add` |
| copy and server compared, and repaired | `verify` |
| the stream: the filter, its statuses, what is noted and held | `stream` |
| a follower: its sessions, and what goes on beside them | `follow` |
| the command line | `commands` |
| the decoder as a library, which nothing else here uses | `embedded` |
"""
