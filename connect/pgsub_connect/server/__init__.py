"""The server. `connection` is one by `libpq`: `login` makes it, `transport` says how it is
protected, `copied_text` has its rows, `notices` its warnings. `session` asks and sets up; `slot`,
`catalog` (`catalog_reader`, `column_types`) and `publications` are read,
`publication_setup` makes them; `replica_identity` says which tables have none, `preflight` what
following needs, `waits` who is waited for."""
