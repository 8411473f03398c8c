"""The initial copy (`copier`): which tables it reads (`tables`) and under which slot's snapshot
(`copy_slot`, `slots`), its connections (`table_reader`), what the filter gets (`messages`,
`sender`), its files, and when it is tried again (`tries`).

A server as of a slot's LSN, each table under a lock, by which tables are added and compared:
`source`."""
